/* Cedar policies for C: a text in, its policies or its faults out. Version 0.2.0, ABI 1.
 *
 * Every call returns, on every text, in time linear in it and with a small stack (256 KB are what
 * is tested): none aborts, blocks, opens, prints or keeps anything. An answer is plain data: read
 * it in place, then free it by cedar_answer_free, once. Nothing of an answer points into the text.
 *
 * Threads: any may call at once, each with an answer of its own; an answer may move between them,
 * and any of them may free it. Don't call from a signal handler, nor in the forked child of a
 * process with threads.
 *
 * Trusted, beside what the repository's README names: that this header says what
 * crates/cedar_answers/src/answer.rt says; cedar.c; that the caller keeps what the types say (a text that
 * nothing writes during a call; an answer that is freed once and not read after); the heap of the
 * process behind malloc, realloc and free; and that one library of this name is linked. */
#ifndef CEDAR_H
#define CEDAR_H
#include <stdbool.h>
#include <stddef.h>
#include <stdint.h>
#ifdef __cplusplus
extern "C" {
#endif

/* The version that this header is of. */
#define CEDAR_VERSION "0.2.0"
/* The layout of these structs; another layout has another number. */
#define CEDAR_ABI 1

/* Bytes of UTF-8, not ended by a 0; a 0 may be among them. Where len is 0 there is no block, and
 * nothing to read; `at` isn't null all the same, so that C's functions take it. */
typedef struct {
    const uint8_t *at;
    size_t len;
} cedar_text;

enum {
    CEDAR_OK = 0,       /* the text is what was asked for */
    CEDAR_FAULTS = 1,   /* it isn't: one fault or more */
    CEDAR_NOT_UTF8 = 2, /* nothing is told of it */
    CEDAR_NO_MEMORY = 3 /* nothing is handed out, and nothing is lost */
};

/* From 1; a column counts characters, or the units of UTF-16. All are 0 where there is no place. */
typedef struct {
    size_t line, column, utf16_column;
} cedar_position;

/* The bytes start..end of the text, end not among them, and where they begin and end. */
typedef struct {
    size_t start, end;
    cedar_position from, to;
} cedar_range;

/* @key("value"); without a value that is empty. */
typedef struct {
    cedar_text key, value;
} cedar_annotation;

/* Album::"trip": its type Album, and its id trip, escapes resolved. */
typedef struct {
    cedar_text type, id;
} cedar_entity;

/* What a policy asks of the principal, the action or the resource, in the words of Cedar's JSON
 * policies: All, ==, in, or is (with a type, and maybe an entity or a slot to be in). */
typedef struct {
    cedar_text op;
    cedar_text type; /* that of `is`, else empty */
    const cedar_entity *entities;
    size_t entity_count; /* 0 where a slot stands there; of an action, as many as its list has */
    bool is_slot;        /* ?principal or ?resource stands there */
} cedar_scope;

typedef struct {
    cedar_text id;      /* policy0, policy1 .. in the order of the text */
    cedar_text printed; /* its tokens with one space between two, comments left out */
    const cedar_annotation *annotations;
    size_t annotation_count; /* in the order of their keys */
    cedar_scope principal, action, resource;
    cedar_range place; /* its annotations too */
    bool is_template;  /* a slot stands in its scope */
    bool is_forbid;    /* else it is a permit */
} cedar_policy;

/* Another place that belongs to a fault: `(` opened here. */
typedef struct {
    cedar_range place;
    cedar_text text;
} cedar_related;

typedef struct {
    cedar_text kind;    /* UnrecognizedToken, WrongArity ..: 61 names */
    cedar_text message; /* what is wrong, in English */
    cedar_text label;   /* what could have stood there; empty where nothing is said */
    cedar_text help;    /* what to write instead; empty where nothing is said */
    const cedar_text *expected;
    size_t expected_count; /* the names of all kinds of token that could have stood there */
    const cedar_related *related;
    size_t related_count;
    cedar_range place; /* where the parser saw it */
    cedar_range cause; /* where its cause stands, as far as the help tells, else as place */
    bool has_place;    /* where it is false both are zeros */
    bool follows;      /* it may come of the fault before it, and be no mistake of its own */
} cedar_fault;

typedef struct {
    const cedar_policy *policies;
    size_t policy_count;
    const cedar_fault *faults;
    size_t fault_count; /* as the parser tells them: a host that prints them may sort by start */
    cedar_text text;    /* of the calls that answer a text */
    uint32_t status;
} cedar_answer;

/* What an answer holds before its first call: nothing. A call writes all of it, so free an earlier
 * answer first. */
#define CEDAR_ANSWER_INIT { 0, 0, 0, 0, { 0, 0 }, CEDAR_OK }

/* Each reads `text` during the call alone; it may be null where len is 0. A text may call Cedar's
 * own extensions, ip, decimal, datetime and duration. */

/* The policies that the text means. */
void cedar_parse_policies(const char *text, size_t len, cedar_answer *out);
/* One expression; the answer's text is its tokens with one space between two. */
void cedar_parse_expression(const char *text, size_t len, cedar_answer *out);
/* The policies that the text means, each on a line as it is printed, without comments. */
void cedar_format_policies(const char *text, size_t len, cedar_answer *out);
/* The policies that the text means, written anew from that: each on a line, annotations in the order
 * of their keys, no comments, and no parentheses but those that the meaning needs. It means the same
 * set as the text. */
void cedar_write_policies(const char *text, size_t len, cedar_answer *out);
/* The text laid out over lines of `width` characters where its words let them be so short, the
 * content of a bracket `indent` spaces deeper, with all comments. Cedar's own command takes 80 and
 * 2. Each space is written, so a huge indent takes memory as long as there is any. It needs a text
 * that parses, and not one that means something. */
void cedar_layout_policies(const char *text, size_t len, size_t width, size_t indent, cedar_answer *out);

/* Frees what an answer holds, and leaves one that holds nothing. A null pointer is no answer: it
 * returns. */
void cedar_answer_free(cedar_answer *answer);

/* The line and the columns of a byte of the text, of its end where the byte lies behind it. Returns
 * CEDAR_OK, CEDAR_NOT_UTF8 or CEDAR_NO_MEMORY, with zeros. One pass over the text. */
uint32_t cedar_position_of(const char *text, size_t len, size_t offset, cedar_position *out);

/* The CEDAR_ABI that the library was built with. */
uint32_t cedar_abi(void);
/* Whether this header's structs are those of the library: a program asks once, before it calls. */
static inline bool cedar_is_abi(void) { return cedar_abi() == CEDAR_ABI; }

#ifdef __cplusplus
}
#endif
#endif
