/* show [policies|expression|format|write|layout] FILE: policies with their parts, or each fault with
 * its line and carets. Without a file, or with -, it reads standard input. */
#include "cedar.h"
#include <stdio.h>
#include <stdlib.h>
#include <string.h>

#define TEXT(t) (int)(t).len, (const char *)(t).at

/* Whether no character begins with a byte. */
static bool is_inner(char byte) { return ((unsigned char)byte & 0xC0) == 0x80; }

/* A line of the text, and carets below what of a range stands in it. */
static void show_line(const char *text, size_t len, const cedar_range *place) {
    size_t begin = place->start, end = place->start, marks = 0;
    while (begin && text[begin - 1] != '\n') begin--;
    while (end < len && text[end] != '\n') end++;
    printf("  | %.*s\n  | ", (int)(end - begin), text + begin);
    for (size_t i = begin; i < place->start; i++)
        if (!is_inner(text[i])) putchar(text[i] == '\t' ? '\t' : ' ');
    for (size_t i = place->start; i < place->end && i < end; i++)
        if (!is_inner(text[i])) marks += (size_t)printf("^");
    printf("%s", marks ? "" : "^");
}

static void show_fault(const char *file, const char *text, size_t len, const cedar_fault *fault) {
    const cedar_position *at = &fault->cause.from;
    if (fault->has_place) printf("%s:%zu:%zu: ", file, at->line, at->column);
    else printf("%s: ", file);
    printf("%.*s: %.*s\n", TEXT(fault->kind), TEXT(fault->message));
    if (fault->has_place) {
        show_line(text, len, &fault->cause);
        printf(" %.*s\n", TEXT(fault->label));
    }
    if (fault->help.len) printf("  = help: %.*s\n", TEXT(fault->help));
    for (size_t i = 0; i < fault->related_count; i++) {
        const cedar_related *other = &fault->related[i];
        printf("  = %zu:%zu: %.*s\n", other->place.from.line, other->place.from.column, TEXT(other->text));
    }
}

static void show_scope(const char *name, const cedar_scope *scope) {
    printf("  %s %.*s", name, TEXT(scope->op));
    if (scope->type.len) printf(" %.*s", TEXT(scope->type));
    for (size_t i = 0; i < scope->entity_count; i++)
        printf(" %.*s::\"%.*s\"", TEXT(scope->entities[i].type), TEXT(scope->entities[i].id));
    printf("%s\n", scope->is_slot ? " ?" : "");
}

static void show_policy(const cedar_policy *policy) {
    printf("%.*s: %s, %s, lines %zu to %zu", TEXT(policy->id), policy->is_forbid ? "forbid" : "permit",
           policy->is_template ? "template" : "static", policy->place.from.line, policy->place.to.line);
    for (size_t i = 0; i < policy->annotation_count; i++)
        printf(", @%.*s(\"%.*s\")", TEXT(policy->annotations[i].key), TEXT(policy->annotations[i].value));
    printf("\n");
    show_scope("principal", &policy->principal);
    show_scope("action", &policy->action);
    show_scope("resource", &policy->resource);
    printf("  %.*s\n", TEXT(policy->printed));
}

/* All of a stream, or null where it fails, or for want of memory. */
static char *read_all(FILE *in, size_t *len) {
    size_t room = 1 << 16, got;
    char *text = malloc(room);
    for (*len = 0; text && (got = fread(text + *len, 1, room - *len, in)) > 0;) {
        *len += got;
        if (*len < room) continue;
        char *larger = realloc(text, room *= 2);
        if (!larger) free(text);
        text = larger;
    }
    if (text && ferror(in)) {
        free(text);
        text = 0;
    }
    return text;
}

int main(int argc, char **argv) {
    static const char *const ends[] = { "accepted", "refused", "not UTF-8", "no memory" };
    const char *what = argc > 2 ? argv[1] : "policies", *file = argc > 1 ? argv[argc - 1] : "-";
    FILE *in = strcmp(file, "-") ? fopen(file, "rb") : stdin;
    size_t len;
    if (!in) return perror(file), 4;
    if (!cedar_is_abi()) return fputs("libcedar is of another version than cedar.h\n", stderr), 4;
    char *text = read_all(in, &len);
    if (!text) return perror(file), 4;
    cedar_answer answer = CEDAR_ANSWER_INIT;
    if (!strcmp(what, "policies")) cedar_parse_policies(text, len, &answer);
    else if (!strcmp(what, "expression")) cedar_parse_expression(text, len, &answer);
    else if (!strcmp(what, "format")) cedar_format_policies(text, len, &answer);
    else if (!strcmp(what, "write")) cedar_write_policies(text, len, &answer);
    else if (!strcmp(what, "layout")) cedar_layout_policies(text, len, 80, 2, &answer);
    else return free(text), fprintf(stderr, "%s: policies, expression, format, write or layout\n", what), 4;
    for (size_t i = 0; i < answer.policy_count; i++) show_policy(&answer.policies[i]);
    for (size_t i = 0; i < answer.fault_count; i++) show_fault(file, text, len, &answer.faults[i]);
    fwrite(answer.text.at, 1, answer.text.len, stdout);
    int status = (int)answer.status;
    fprintf(stderr, "%s: %zu policies, %zu faults\n", ends[status], answer.policy_count, answer.fault_count);
    cedar_answer_free(&answer);
    free(text);
    return status;
}
