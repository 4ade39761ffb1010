/* The C half: what a C caller may pass and a Rattle slice may not be, the layout of the structs, and
 * the end of an answer. */
#include "cedar.h"

/* The exports of crates/cedar_c. There a pointer is never null, and `out` holds slices before the
 * call too. */
void cedar_c_parse_policies(const uint8_t *text, size_t len, cedar_answer *out);
void cedar_c_parse_expression(const uint8_t *text, size_t len, cedar_answer *out);
void cedar_c_format_policies(const uint8_t *text, size_t len, cedar_answer *out);
void cedar_c_write_policies(const uint8_t *text, size_t len, cedar_answer *out);
void cedar_c_layout_policies(const uint8_t *text, size_t len, size_t width, size_t indent, cedar_answer *out);
uint32_t cedar_c_position(const uint8_t *text, size_t len, size_t offset, cedar_position *out);
uint32_t cedar_c_abi(void);
void rattle_dealloc(void *block);

#define IS(what) _Static_assert(what, #what)
IS(sizeof(void *) == 8 && sizeof(size_t) == 8);
IS(sizeof(cedar_text) == 16 && sizeof(cedar_position) == 24 && sizeof(cedar_range) == 64);
IS(sizeof(cedar_annotation) == 32 && sizeof(cedar_entity) == 32 && sizeof(cedar_related) == 80);
IS(sizeof(cedar_scope) == 56 && offsetof(cedar_scope, entities) == 32 && offsetof(cedar_scope, is_slot) == 48);
IS(sizeof(cedar_policy) == 288 && offsetof(cedar_policy, annotations) == 32);
IS(offsetof(cedar_policy, principal) == 48 && offsetof(cedar_policy, resource) == 160);
IS(offsetof(cedar_policy, place) == 216 && offsetof(cedar_policy, is_template) == 280);
IS(sizeof(cedar_fault) == 232 && offsetof(cedar_fault, expected) == 64 && offsetof(cedar_fault, related) == 80);
IS(offsetof(cedar_fault, place) == 96 && offsetof(cedar_fault, cause) == 160 && offsetof(cedar_fault, has_place) == 224);
IS(sizeof(cedar_answer) == 56 && offsetof(cedar_answer, text) == 32 && offsetof(cedar_answer, status) == 48);

static const cedar_text none = { (const uint8_t *)"", 0 };

/* A text as a slice is: never null. */
static cedar_text slice_of(const char *text, size_t len) {
    return text ? (cedar_text){ (const uint8_t *)text, len } : none;
}

/* An answer that holds nothing, as a slice is. */
static cedar_answer blank(void) {
    return (cedar_answer){ (const void *)&none, 0, (const void *)&none, 0, none, CEDAR_OK };
}

/* The pointer of a text or a list without items says nothing, and may be of a stack that is gone, or
 * a small number, at which Go's collector ends the process. A text's is one that C's functions take;
 * a list's is null. */
static void clear_text(cedar_text *text) {
    if (!text->len) *text = none;
}

static void clear_scope(cedar_scope *scope) {
    clear_text(&scope->type);
    if (!scope->entity_count) scope->entities = 0;
    for (size_t i = 0; i < scope->entity_count; i++) {
        clear_text((cedar_text *)&scope->entities[i].type);
        clear_text((cedar_text *)&scope->entities[i].id);
    }
}

static void clear_policy(cedar_policy *policy) {
    clear_text(&policy->printed);
    if (!policy->annotation_count) policy->annotations = 0;
    for (size_t i = 0; i < policy->annotation_count; i++)
        clear_text((cedar_text *)&policy->annotations[i].value);
    clear_scope(&policy->principal);
    clear_scope(&policy->action);
    clear_scope(&policy->resource);
}

static void clear_fault(cedar_fault *fault) {
    clear_text(&fault->message);
    clear_text(&fault->label);
    clear_text(&fault->help);
    if (!fault->expected_count) fault->expected = 0;
    if (!fault->related_count) fault->related = 0;
    for (size_t i = 0; i < fault->related_count; i++) clear_text((cedar_text *)&fault->related[i].text);
}

static void clear(cedar_answer *answer) {
    clear_text(&answer->text);
    if (!answer->policy_count) answer->policies = 0;
    if (!answer->fault_count) answer->faults = 0;
    for (size_t i = 0; i < answer->policy_count; i++) clear_policy((cedar_policy *)&answer->policies[i]);
    for (size_t i = 0; i < answer->fault_count; i++) clear_fault((cedar_fault *)&answer->faults[i]);
}

void cedar_parse_policies(const char *text, size_t len, cedar_answer *out) {
    cedar_text slice = slice_of(text, len);
    *out = blank();
    cedar_c_parse_policies(slice.at, slice.len, out);
    clear(out);
}

void cedar_parse_expression(const char *text, size_t len, cedar_answer *out) {
    cedar_text slice = slice_of(text, len);
    *out = blank();
    cedar_c_parse_expression(slice.at, slice.len, out);
    clear(out);
}

void cedar_format_policies(const char *text, size_t len, cedar_answer *out) {
    cedar_text slice = slice_of(text, len);
    *out = blank();
    cedar_c_format_policies(slice.at, slice.len, out);
    clear(out);
}

void cedar_write_policies(const char *text, size_t len, cedar_answer *out) {
    cedar_text slice = slice_of(text, len);
    *out = blank();
    cedar_c_write_policies(slice.at, slice.len, out);
    clear(out);
}

void cedar_layout_policies(const char *text, size_t len, size_t width, size_t indent, cedar_answer *out) {
    cedar_text slice = slice_of(text, len);
    *out = blank();
    cedar_c_layout_policies(slice.at, slice.len, width, indent, out);
    clear(out);
}

uint32_t cedar_position_of(const char *text, size_t len, size_t offset, cedar_position *out) {
    cedar_text slice = slice_of(text, len);
    return cedar_c_position(slice.at, slice.len, offset, out);
}

/* The halves of the library belong together, or no header belongs to it. */
uint32_t cedar_abi(void) { return cedar_c_abi() == CEDAR_ABI ? CEDAR_ABI : 0; }

/* A list or a text without items has no block. */
static void free_at(const void *block, size_t count) {
    if (count) rattle_dealloc((void *)block);
}

static void free_text(cedar_text text) { free_at(text.at, text.len); }

/* Its operator has no block. */
static void free_scope(const cedar_scope *scope) {
    for (size_t i = 0; i < scope->entity_count; i++) {
        free_text(scope->entities[i].type);
        free_text(scope->entities[i].id);
    }
    free_at(scope->entities, scope->entity_count);
    free_text(scope->type);
}

static void free_policy(const cedar_policy *policy) {
    for (size_t i = 0; i < policy->annotation_count; i++) {
        free_text(policy->annotations[i].key);
        free_text(policy->annotations[i].value);
    }
    free_at(policy->annotations, policy->annotation_count);
    free_text(policy->id);
    free_text(policy->printed);
    free_scope(&policy->principal);
    free_scope(&policy->action);
    free_scope(&policy->resource);
}

/* Its kind and the names of `expected` have no block. */
static void free_fault(const cedar_fault *fault) {
    for (size_t i = 0; i < fault->related_count; i++) free_text(fault->related[i].text);
    free_at(fault->related, fault->related_count);
    free_at(fault->expected, fault->expected_count);
    free_text(fault->message);
    free_text(fault->label);
    free_text(fault->help);
}

void cedar_answer_free(cedar_answer *answer) {
    if (!answer) return;
    for (size_t i = 0; i < answer->policy_count; i++) free_policy(&answer->policies[i]);
    for (size_t i = 0; i < answer->fault_count; i++) free_fault(&answer->faults[i]);
    free_at(answer->policies, answer->policy_count);
    free_at(answer->faults, answer->fault_count);
    free_text(answer->text);
    *answer = (cedar_answer)CEDAR_ANSWER_INIT;
}
