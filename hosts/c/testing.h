/* What the tests share. */
#ifndef TESTING_H
#define TESTING_H
#include "cedar.h"
#include <stdio.h>
#include <stdlib.h>
#include <string.h>

/* A thing that has to hold; the first that doesn't ends the test. */
#define WANT(what)                                                            \
    do {                                                                      \
        if (!(what)) {                                                        \
            printf("%s:%d: not so: %s\n", __FILE__, __LINE__, #what);         \
            exit(1);                                                          \
        }                                                                     \
    } while (0)

static inline bool is(cedar_text text, const char *wanted) {
    return text.len == strlen(wanted) && !memcmp(text.at, wanted, text.len);
}

/* The calls that answer a text or policies, by number. */
enum { PARSE_POLICIES, PARSE_EXPRESSION, FORMAT, WRITE, LAYOUT, CALLS };

static inline void call(int which, const char *text, size_t len, cedar_answer *answer) {
    switch (which) {
    case PARSE_POLICIES: cedar_parse_policies(text, len, answer); break;
    case PARSE_EXPRESSION: cedar_parse_expression(text, len, answer); break;
    case FORMAT: cedar_format_policies(text, len, answer); break;
    case WRITE: cedar_write_policies(text, len, answer); break;
    default: cedar_layout_policies(text, len, 80, 2, answer); break;
    }
}

/* A number of all that an answer tells: the same for the same answer. */
static inline uint64_t mixed(uint64_t sum, uint64_t n) { return (sum ^ n) * 1099511628211u; }

static inline uint64_t sum_of_text(uint64_t sum, cedar_text text) {
    for (size_t i = 0; i < text.len; i++) sum = mixed(sum, text.at[i]);
    return mixed(sum, text.len);
}

static inline uint64_t sum_of_position(uint64_t sum, const cedar_position *at) {
    return mixed(mixed(mixed(sum, at->line), at->column), at->utf16_column);
}

static inline uint64_t sum_of_range(uint64_t sum, const cedar_range *range) {
    sum = mixed(mixed(sum, range->start), range->end);
    return sum_of_position(sum_of_position(sum, &range->from), &range->to);
}

static inline uint64_t sum_of_scope(uint64_t sum, const cedar_scope *scope) {
    sum = sum_of_text(sum_of_text(sum, scope->op), scope->type);
    for (size_t i = 0; i < scope->entity_count; i++)
        sum = sum_of_text(sum_of_text(sum, scope->entities[i].type), scope->entities[i].id);
    return mixed(sum, scope->is_slot);
}

static inline uint64_t sum_of_policy(uint64_t sum, const cedar_policy *policy) {
    sum = sum_of_text(sum_of_text(sum, policy->id), policy->printed);
    for (size_t i = 0; i < policy->annotation_count; i++)
        sum = sum_of_text(sum_of_text(sum, policy->annotations[i].key), policy->annotations[i].value);
    sum = sum_of_scope(sum_of_scope(sum, &policy->principal), &policy->action);
    sum = sum_of_range(sum_of_scope(sum, &policy->resource), &policy->place);
    return mixed(mixed(sum, policy->is_template), policy->is_forbid);
}

static inline uint64_t sum_of_fault(uint64_t sum, const cedar_fault *fault) {
    sum = sum_of_text(sum_of_text(sum_of_text(sum, fault->kind), fault->message), fault->label);
    sum = sum_of_text(sum, fault->help);
    for (size_t i = 0; i < fault->expected_count; i++) sum = sum_of_text(sum, fault->expected[i]);
    for (size_t i = 0; i < fault->related_count; i++)
        sum = sum_of_text(sum_of_range(sum, &fault->related[i].place), fault->related[i].text);
    sum = sum_of_range(sum_of_range(sum, &fault->place), &fault->cause);
    return mixed(mixed(sum, fault->has_place), fault->follows);
}

static inline uint64_t sum_of(const cedar_answer *answer) {
    uint64_t sum = mixed(14695981039346656037u, answer->status);
    for (size_t i = 0; i < answer->policy_count; i++) sum = sum_of_policy(sum, &answer->policies[i]);
    for (size_t i = 0; i < answer->fault_count; i++) sum = sum_of_fault(sum, &answer->faults[i]);
    return sum_of_text(sum, answer->text);
}
#endif
