/* Each request for memory refused in turn: the call answers CEDAR_NO_MEMORY and hands nothing out, or
 * what it answers without that (a request for more room than is needed yet may fail without harm).
 * Either way no block is lost. Linked with fail.c. */
#include "testing.h"

extern long refuse_at, requests, live;

static const char *const texts[] = {
    ("@note @id(\"a\") permit(principal == ?principal, action in [Action::\"v\"], resource is A in A::\"x\");\n"
     "forbid(principal, action, resource) when { context.ip.isInRange(ip(\"::1\")) };"),
    "permit(a);\nforbid(principal, action, resource) when { foo(\"\\q\") };",
    "1 + principal.a[\"b\"] == {a: ip(\"1\")}",
    "permit(principal, action, resource) when { (1 ,",
    "@a @a permit(+);permit(principal,action);",
};

/* What a call tells; whether it was want of memory. */
static uint64_t told(const char *text, int which, bool *refused) {
    cedar_answer answer = CEDAR_ANSWER_INIT;
    requests = 0;
    call(which, text, strlen(text), &answer);
    uint64_t sum = sum_of(&answer);
    *refused = answer.status == CEDAR_NO_MEMORY;
    if (*refused) WANT(!answer.policies && !answer.faults && !answer.text.len);
    cedar_answer_free(&answer);
    WANT(live == 0);
    return sum;
}

static long refuse_each(const char *text, int which) {
    bool refused;
    refuse_at = 0;
    uint64_t wanted = told(text, which, &refused);
    long all = requests;
    WANT(!refused);
    for (refuse_at = 1; refuse_at <= all; refuse_at++) {
        uint64_t sum = told(text, which, &refused);
        WANT(refused || sum == wanted);
    }
    return all;
}

static long refuse_positions(void) {
    cedar_position at;
    refuse_at = 0;
    requests = 0;
    WANT(cedar_position_of("a\nb", 3, 2, &at) == CEDAR_OK);
    long all = requests;
    for (refuse_at = 1; refuse_at <= all; refuse_at++) {
        requests = 0;
        uint32_t status = cedar_position_of("a\nb", 3, 2, &at);
        WANT(status == CEDAR_OK ? at.line == 2 : status == CEDAR_NO_MEMORY && !at.line);
        WANT(live == 0);
    }
    return all;
}

int main(void) {
    long all = refuse_positions();
    for (int which = 0; which < CALLS; which++)
        for (size_t i = 0; i < sizeof texts / sizeof *texts; i++) all += refuse_each(texts[i], which);
    printf("%ld requests, each refused in turn\n", all);
    return 0;
}
