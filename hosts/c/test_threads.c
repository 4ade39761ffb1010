/* test_threads [ROUNDS [SEED]]: eight threads, each with texts made by edits of a few policies; what is
 * told keeps its promises to a reader. A seed makes the same texts each time. */
#include "testing.h"
#include <pthread.h>

static const char *const seeds[] = {
    "@id(\"a\") permit(principal == ?principal, action in [Action::\"v\"], resource in A::\"x\") when { context.ip.isInRange(ip(\"::1\")) && resource.o like \"j*\" };",
    "forbid(principal is U in G::\"g\", action, resource) unless { principal has a.b && {a: [1, -2], \"b\": if true then 1 else \"\\u{e9}\"}[\"a\"] > 3 };",
    "permit(a);\nforbid(principal, action == Action::\"x\" resource);\n// c\npermit(principal, action, resource) when { foo(\"\\q\") = !!!!!!1 % 2 };",
};
static const char *const pieces[] = {
    "(", ")", "{", "}", "[", "]", ";", ",", ".", "::", "\"", "@", "?principal", "principal", " when ", "==", "=",
    "\n", "\xC3\xA9", "9999999999999999999", "if ", "has ", "\\", "//", "permit",
};

/* Some number, the next of a row. */
static size_t next(uint64_t *state, size_t below) {
    *state = *state * 6364136223846793005u + 1442695040888963407u;
    return (size_t)(*state >> 33) % below;
}

/* Puts a piece somewhere into a text, or takes a few bytes out. */
static size_t edited(char *text, size_t len, uint64_t *state) {
    size_t at = next(state, len + 1);
    if (next(state, 2)) {
        const char *piece = pieces[next(state, sizeof pieces / sizeof *pieces)];
        size_t more = strlen(piece);
        memmove(text + at + more, text + at, len - at);
        memcpy(text + at, piece, more);
        return len + more;
    }
    size_t less = next(state, 9);
    if (at + less > len) less = len - at;
    memmove(text + at, text + at + less, len - at - less);
    return len - less;
}

static size_t made(char *text, uint64_t *state) {
    size_t len = 0;
    for (size_t k = next(state, 3) + 1; k--;) {
        const char *seed = seeds[next(state, 3)];
        memcpy(text + len, seed, strlen(seed));
        len += strlen(seed);
    }
    for (size_t k = next(state, 6); k--;) len = edited(text, len, state);
    return len;
}

static void look_at_policies(const char *text, size_t len, const cedar_answer *answer) {
    for (size_t i = 0; i < answer->policy_count; i++) {
        const cedar_policy *policy = &answer->policies[i];
        WANT(policy->place.start < policy->place.end && policy->place.end <= len);
        WANT(text[policy->place.end - 1] == ';' && policy->printed.len);
        WANT(!i || policy->place.start >= policy[-1].place.end);
        WANT(policy->is_template == (policy->principal.is_slot || policy->resource.is_slot));
    }
}

static void look_at_place(const char *text, size_t len, const cedar_range *place) {
    cedar_position from, to;
    WANT(place->start <= place->end && place->end <= len);
    WANT(!cedar_position_of(text, len, place->start, &from) && !cedar_position_of(text, len, place->end, &to));
    WANT(!memcmp(&from, &place->from, sizeof from) && !memcmp(&to, &place->to, sizeof to));
}

static void look_at_faults(const char *text, size_t len, const cedar_answer *answer) {
    for (size_t i = 0; i < answer->fault_count; i++) {
        const cedar_fault *fault = &answer->faults[i];
        WANT(fault->has_place && fault->message.len && fault->kind.len);
        look_at_place(text, len, &fault->place);
        look_at_place(text, len, &fault->cause);
        for (size_t k = 0; k < fault->related_count; k++) look_at_place(text, len, &fault->related[k].place);
    }
}

/* A second call leaves what the first wrote. */
static void look_again(int which, const cedar_answer *first) {
    cedar_answer second = CEDAR_ANSWER_INIT;
    call(which, (const char *)first->text.at, first->text.len, &second);
    WANT(second.status == CEDAR_OK && second.text.len == first->text.len);
    WANT(!first->text.len || !memcmp(first->text.at, second.text.at, first->text.len));
    cedar_answer_free(&second);
}

static void try_one(const char *text, size_t len) {
    for (int which = 0; which < CALLS; which++) {
        cedar_answer answer = CEDAR_ANSWER_INIT;
        call(which, text, len, &answer);
        WANT(answer.status <= CEDAR_NOT_UTF8 && (answer.status == CEDAR_FAULTS) == (answer.fault_count > 0));
        look_at_policies(text, len, &answer);
        look_at_faults(text, len, &answer);
        if (which >= FORMAT && answer.status == CEDAR_OK) look_again(which, &answer);
        cedar_answer_free(&answer);
    }
}

static long rounds = 100;

/* A thread's texts; they begin with its seed. */
static void *run(void *seed) {
    static _Thread_local char text[4096];
    uint64_t state = *(uint64_t *)seed;
    for (long n = rounds; n > 0; n--) {
        size_t len = made(text, &state);
        char *copy = malloc(len ? len : 1); /* a block of its own, so that a byte behind it is seen */
        WANT(copy);
        memcpy(copy, text, len);
        try_one(copy, len);
        free(copy);
    }
    return 0;
}

int main(int argc, char **argv) {
    pthread_t threads[8];
    uint64_t seeds_of[8];
    if (argc > 1) rounds = atol(argv[1]);
    for (int i = 0; i < 8; i++) {
        seeds_of[i] = (uint64_t)(argc > 2 ? atol(argv[2]) : 1) * 8 + (uint64_t)i;
        WANT(!pthread_create(&threads[i], 0, run, &seeds_of[i]));
    }
    for (int i = 0; i < 8; i++) WANT(!pthread_join(threads[i], 0));
    printf("%ld texts in 8 threads\n", 8 * rounds);
    return 0;
}
