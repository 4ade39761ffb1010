/* test_deep [KB]: texts of 1 MB that nest as deep as they are long, or again and again as deep as
 * calls go down a tree; each on a thread with so much stack, or with 256 KB. */
#include "testing.h"
#include <pthread.h>

#define SIZE ((size_t)1 << 20)

/* A text: its begin, a middle that repeats, the innermost, an end that repeats as often, the rest;
 * and the status of its answer. */
typedef struct {
    const char *name;
    int which;
    const char *begin, *open, *inner, *close, *end;
    unsigned status;
} Nest;

#define POLICY "permit(principal, action, resource)"
#define IN_POLICY(open, inner, close) POLICY " when { ", open, inner, close, " };", CEDAR_OK
/* What is shallow goes by calls: eight brackets, four `if`s before each. `if` is a bracket up to
 * its `else`, so with one more in the innermost bracket all would go by loops. */
#define IF "if true then 1 else "
#define EIGHT(it) it it it it it it it it
#define SHALLOW(open, inner, close) EIGHT(IF IF IF IF open) inner EIGHT(close)
#define POLICIES(condition) "", POLICY " when { " condition " };\n", "", "", "", CEDAR_OK
static const Nest nests[] = {
    { "brackets", PARSE_POLICIES, IN_POLICY("(", "1", ")") },
    { "operators", PARSE_POLICIES, IN_POLICY("(1 * 2 + 3 < ", "1", " && true || true)") },
    { "ifs", PARSE_POLICIES, IN_POLICY("if true then 1 else ", "1", "") },
    { "ifs in ifs", PARSE_POLICIES, IN_POLICY("if ", "true", " then true else true") },
    { "accesses", PARSE_POLICIES, IN_POLICY("", "principal", ".a") },
    { "indices", PARSE_POLICIES, IN_POLICY("", "principal", "[\"a\"]") },
    { "methods", PARSE_POLICIES, IN_POLICY("", "principal", ".isIpv4()") },
    { "arguments", PARSE_POLICIES, IN_POLICY("ip(", "\"1\"", ")") },
    { "sets", PARSE_POLICIES, IN_POLICY("[", "1", "]") },
    { "records", PARSE_POLICIES, IN_POLICY("{a: ", "1", "}") },
    { "sums", PARSE_POLICIES, IN_POLICY("1 + ", "1", "") },
    { "products", PARSE_POLICIES, IN_POLICY("1 * ", "1", "") },
    { "conjunctions", PARSE_POLICIES, IN_POLICY("true && ", "true", "") },
    { "disjunctions", PARSE_POLICIES, IN_POLICY("true || ", "true", "") },
    { "conditions", PARSE_POLICIES, POLICY, " when{true}", "", " unless{true}", ";", CEDAR_OK },
    { "names", PARSE_POLICIES, IN_POLICY("A::", "A::\"x\"", "") },
    { "attributes", PARSE_POLICIES, IN_POLICY("", "principal has a", ".a") },
    { "expression", PARSE_EXPRESSION, "", "(", "1", ")", "", CEDAR_OK },
    { "unclosed", PARSE_EXPRESSION, "", "(", "1", "", "", CEDAR_FAULTS },
    { "faults", PARSE_POLICIES, "", "permit(a);\n", "", "", "", CEDAR_FAULTS },
    { "format", FORMAT, IN_POLICY("(", "1", ")") },
    { "writing", WRITE, IN_POLICY("(", "1", ")") },
    { "writing accesses", WRITE, IN_POLICY("", "principal", ".a") },
    { "writing operators", WRITE, IN_POLICY("(1 * 2 + 3 < ", "1", " && true || true)") },
    { "layout", LAYOUT, IN_POLICY("(", "1", ")") },
    { "layout of accesses", LAYOUT, IN_POLICY("", "principal", ".a") },
    { "shallow brackets", PARSE_POLICIES, POLICIES(SHALLOW("(", "1", ")")) },
    { "shallow sets", PARSE_POLICIES, POLICIES(SHALLOW("[", "1", "]")) },
    { "shallow records", PARSE_POLICIES, POLICIES(SHALLOW("{a: ", "1", "}")) },
    { "shallow arguments", PARSE_POLICIES, POLICIES(SHALLOW("ip(", "1", ")")) },
    { "shallow, formatted", FORMAT, POLICIES(SHALLOW("(", "1", ")")) },
    { "shallow, written", WRITE, POLICIES(SHALLOW("(", "1", ")")) },
};

static char *put(char *to, const char *text) {
    size_t len = strlen(text);
    memcpy(to, text, len);
    return to + len;
}

static void *run(void *argument) {
    const Nest *nest = argument;
    char *text = malloc(SIZE + 4096), *to = put(text, nest->begin);
    WANT(text);
    size_t times = SIZE / (strlen(nest->open) + strlen(nest->close));
    for (size_t i = 0; i < times; i++) to = put(to, nest->open);
    to = put(to, nest->inner);
    for (size_t i = 0; i < times; i++) to = put(to, nest->close);
    to = put(to, nest->end);
    cedar_answer answer = CEDAR_ANSWER_INIT;
    call(nest->which, text, (size_t)(to - text), &answer);
    printf("%s: %zu times, %zu faults\n", nest->name, times, answer.fault_count);
    WANT(answer.status == nest->status);
    cedar_answer_free(&answer);
    free(text);
    return 0;
}

int main(int argc, char **argv) {
    size_t stack = (size_t)(argc > 1 ? atol(argv[1]) : 256) << 10;
    pthread_attr_t small;
    setvbuf(stdout, NULL, _IOLBF, BUFSIZ); /* so that a nest that doesn't end is seen */
    WANT(!pthread_attr_init(&small) && !pthread_attr_setstacksize(&small, stack));
    for (size_t i = 0; i < sizeof nests / sizeof *nests; i++) {
        pthread_t thread;
        WANT(!pthread_create(&thread, &small, run, (void *)&nests[i]));
        WANT(!pthread_join(thread, 0));
    }
    return 0;
}
