// Stands before the C library in a program that is tried with too little memory
// (`refused_memory`). It counts the requests for memory and refuses request REFUSE, and where
// FROM_THERE is set each that follows it too. Where COUNT_TO names a file, how many there were is
// written there at the end, and how many that were met weren't given back. (It declares what it
// calls itself, so that any compiler of C will do, with or without headers.)
typedef unsigned long size;

extern void *dlsym(void *, const char *);
extern char *getenv(const char *);
extern size strtoul(const char *, char **, int);
extern int creat(const char *, unsigned);
extern long write(int, const void *, size);
extern int close(int);

static void *const next = (void *)-1L; // RTLD_NEXT
static const int no_memory = 12;       // ENOMEM

static size requests, refused, held;
static int from_there, is_known;

static int is_refused(void) {
    if (!is_known) {
        const char *number = getenv("REFUSE");
        refused = number ? strtoul(number, 0, 10) : 0;
        from_there = getenv("FROM_THERE") != 0;
        is_known = 1;
    }
    requests++;
    return refused && (requests == refused || (from_there && requests > refused));
}

// What a request was met with, counted as held where it is memory that wasn't held before.
static void *met(void *memory, int is_new) {
    if (memory && is_new) held++;
    return memory;
}

void *malloc(size bytes) {
    static void *(*real)(size);
    if (!real) real = (void *(*)(size))dlsym(next, "malloc");
    return is_refused() ? 0 : met(real(bytes), 1);
}

void *realloc(void *memory, size bytes) {
    static void *(*real)(void *, size);
    if (!real) real = (void *(*)(void *, size))dlsym(next, "realloc");
    return is_refused() ? 0 : met(real(memory, bytes), !memory);
}

int posix_memalign(void **memory, size alignment, size bytes) {
    static int (*real)(void **, size, size);
    int status;
    if (!real) real = (int (*)(void **, size, size))dlsym(next, "posix_memalign");
    if (is_refused()) return no_memory;
    status = real(memory, alignment, bytes);
    if (!status) held++;
    return status;
}

void *aligned_alloc(size alignment, size bytes) {
    static void *(*real)(size, size);
    if (!real) real = (void *(*)(size, size))dlsym(next, "aligned_alloc");
    return is_refused() ? 0 : met(real(alignment, bytes), 1);
}

void free(void *memory) {
    static void (*real)(void *);
    if (!real) real = (void (*)(void *))dlsym(next, "free");
    if (memory) held--;
    real(memory);
}

// Writes a number in decimal and a space behind it; false if that failed.
static int is_written(int file, size number) {
    char text[22];
    size at = sizeof text;
    text[--at] = ' ';
    do {
        text[--at] = (char)('0' + number % 10);
        number /= 10;
    } while (number);
    return write(file, text + at, sizeof text - at) >= 0;
}

__attribute__((destructor)) static void tell(void) {
    const char *name = getenv("COUNT_TO");
    int file = name ? creat(name, 0600) : -1;
    if (file < 0) return;
    if (is_written(file, requests) && is_written(file, held)) close(file);
}
