/* Stands between the library and the heap (linked with -Wl,--wrap=malloc,--wrap=realloc,--wrap=free):
 * request `refuse_at` is refused, and `live` counts the blocks that weren't given back. */
#include <stddef.h>

long refuse_at, requests, live;

void *__real_malloc(size_t bytes);
void *__real_realloc(void *block, size_t bytes);
void __real_free(void *block);

static int is_refused(void) { return ++requests == refuse_at; }

void *__wrap_malloc(size_t bytes) {
    void *block = is_refused() ? 0 : __real_malloc(bytes);
    live += block != 0;
    return block;
}

void *__wrap_realloc(void *block, size_t bytes) {
    void *larger = is_refused() ? 0 : __real_realloc(block, bytes);
    live += !block && larger;
    return larger;
}

void __wrap_free(void *block) {
    live -= block != 0;
    __real_free(block);
}
