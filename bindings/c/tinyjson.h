/* tinyjson for C: JSON texts (RFC 8259) are checked, also by a schema, normalized, indented, compared, patched and searched.
 *
 * A text is `length` bytes in UTF-8, in which at most `depth` containers are open at once. A call returns a
 * status, and answers through its pointers. It keeps nothing, and shares nothing with other calls.
 *
 * Pointers are not NULL, except that a text or a buffer of length 0 may be. A text and a buffer do not overlap.
 * What a pointer points to is initialized. No call is made from a signal handler.
 */
#ifndef TINYJSON_H
#define TINYJSON_H

#include <stdbool.h>
#include <stddef.h>
#include <stdint.h>

#ifdef __cplusplus
extern "C" {
#endif

/* What a call returns. */
enum tinyjson_status {
    TINYJSON_OK = 0,
    TINYJSON_REFUSED = 1,       /* the text has no value: the place has the kind, the line and the column */
    TINYJSON_NOT_UTF8 = 2,      /* the bytes are not UTF-8: the place has the length of what precedes the fault */
    TINYJSON_OUT_OF_MEMORY = 3, /* the text may have a value or not */
    TINYJSON_TOO_SMALL = 4,     /* the buffer has no room, and is left alone: the place has the length needed */
    TINYJSON_NO_ERROR = 5,      /* no error has this place */
    TINYJSON_NOT_FOUND = 6,     /* the pointer names no part */
    TINYJSON_BAD_POINTER = 7,   /* a pointer is empty, or begins with '/' and has '~' only in "~0" and "~1" */
    TINYJSON_BAD_PATCH = 8,     /* the patch is no array of operations: the place has the number of the fault */
    TINYJSON_FAILED = 9,        /* an operation can't be applied: the place has its number */
    TINYJSON_BAD_QUERY = 10,    /* the query is none: the place has how many of its characters precede the fault */
    TINYJSON_PATTERN_LIMIT = 11, /* a regular expression of the query or the text is too deep or too large */
    TINYJSON_INVALID = 12,      /* the value is not valid: the buffer has the report */
    TINYJSON_BAD_SCHEMA = 13,   /* the schema has no value: the place is that of its error, and `text` is 1 */
    TINYJSON_SCHEMA_FAULT = 14, /* the schema can't be applied: the buffer has a JSON pointer to the fault */
    TINYJSON_STEP_LIMIT = 15    /* the check needs more than 200 nested schemas: the place has this length; or too many steps */
};

/* Why a text is refused. Those with a character name it in `found`. */
enum tinyjson_kind {
    TINYJSON_UNEXPECTED_EOF = 1,
    TINYJSON_INVALID_CHARACTER = 2,          /* character: begins no value */
    TINYJSON_EXPECTED_EOF = 3,               /* character: the one after the value */
    TINYJSON_KEY_NOT_STRING = 4,             /* `found` is a tinyjson_value */
    TINYJSON_EXPECTED_COLON = 5,             /* character */
    TINYJSON_EXPECTED_COMMA_OR_BRACE = 6,    /* character */
    TINYJSON_EXPECTED_COMMA_OR_BRACKET = 7,  /* character */
    TINYJSON_INVALID_UTF16 = 8,              /* a surrogate without its partner */
    TINYJSON_INVALID_HEX_DIGIT = 9,          /* character */
    TINYJSON_INVALID_ESCAPE = 10,            /* character */
    TINYJSON_CONTROL_CHARACTER = 11,         /* character */
    TINYJSON_UNEXPECTED_IN_LITERAL = 12,     /* character */
    TINYJSON_EMPTY_INTEGER = 13,
    TINYJSON_LEADING_ZERO = 14,
    TINYJSON_EMPTY_FRACTION = 15,
    TINYJSON_EMPTY_EXPONENT = 16,
    TINYJSON_NUMBER_OUT_OF_RANGE = 17,       /* the power of ten does not fit 64 bits */
    TINYJSON_NO_MEMORY = 18,                 /* of the status TINYJSON_OUT_OF_MEMORY */
    TINYJSON_TOO_DEEP = 19                   /* character: opens one container too many */
};

/* A kind of value. */
enum tinyjson_value {
    TINYJSON_NULL = 1,
    TINYJSON_BOOLEAN = 2,
    TINYJSON_NUMBER = 3,
    TINYJSON_STRING = 4,
    TINYJSON_ARRAY = 5,
    TINYJSON_OBJECT = 6
};

/* What a call answers besides its status. Fields that have nothing to say are 0. */
struct tinyjson_place {
    uint32_t kind;  /* a tinyjson_kind */
    uint32_t found; /* a code point, or a tinyjson_value */
    size_t line;    /* from 1 on */
    size_t column;  /* how many characters were consumed after the last line feed */
    size_t length;  /* how many bytes the answer has, or precede what is not UTF-8; an operation, from 0 on; or how
                     * many characters of a query precede its fault */
    size_t text;    /* which text of the call, from 0 on: the second of two, a pointer, a query, a line */
};

/* Whether the text has a value: OK, or why not. */
uint32_t tinyjson_check(const uint8_t *text, size_t length, size_t depth, struct tinyjson_place *place);

/* The one compact text of the value, into the buffer: sorted keys, one spelling for each number. */
uint32_t tinyjson_normal(const uint8_t *text, size_t length, size_t depth,
                         uint8_t *buffer, size_t room, struct tinyjson_place *place);

/* The same, indented with two spaces. */
uint32_t tinyjson_indented(const uint8_t *text, size_t length, size_t depth,
                           uint8_t *buffer, size_t room, struct tinyjson_place *place);

/* Whether the text is its own normal text. One that has no value is not. Its depth has no limit. */
uint32_t tinyjson_is_normal(const uint8_t *text, size_t length, bool *is_normal);

/* Whether two texts have equal values. */
uint32_t tinyjson_equal(const uint8_t *first, size_t first_length, const uint8_t *second, size_t second_length,
                        size_t depth, bool *equal, struct tinyjson_place *place);

/* The normal text of each line, with a line feed behind it, into the buffer. The last line may lack its line feed. A
 * line without a value stops the call: `text` is its number, from 0 on, and the place is within it. */
uint32_t tinyjson_normal_lines(const uint8_t *text, size_t length, size_t depth,
                               uint8_t *buffer, size_t room, struct tinyjson_place *place);

/* The normal text of the part that a JSON pointer (RFC 6901) names, into the buffer. */
uint32_t tinyjson_part(const uint8_t *text, size_t length, const uint8_t *pointer, size_t pointer_length, size_t depth,
                       uint8_t *buffer, size_t room, struct tinyjson_place *place);

/* The normal text of a target with a merge patch (RFC 7396) applied, into the buffer. The patch may be no deeper than
 * 1,000 containers, whatever the limit: the call takes stack as it is deep. The target is read first. */
uint32_t tinyjson_merge(const uint8_t *target, size_t length, const uint8_t *patch, size_t patch_length, size_t depth,
                        uint8_t *buffer, size_t room, struct tinyjson_place *place);

/* The normal text of a text with a patch (RFC 6902) applied, all of its operations or none, into the buffer. The patch
 * may be no deeper than 1,000 containers, and a pointer in it have no more tokens, whatever the limit. The text is read
 * first. The number of a fault is that of the first item that is no operation, and 0 where the patch is no array. */
uint32_t tinyjson_patch(const uint8_t *text, size_t length, const uint8_t *patch, size_t patch_length, size_t depth,
                        uint8_t *buffer, size_t room, struct tinyjson_place *place);

/* What a JSONPath query (RFC 9535) selects, into the buffer, a line each: the normal texts of the values, or their
 * normalized paths. It may select nothing. The query is read first; one that is not UTF-8 is a bad one, and its place is
 * in bytes. */
uint32_t tinyjson_select(const uint8_t *text, size_t length, const uint8_t *query, size_t query_length, size_t depth,
                         uint8_t *buffer, size_t room, struct tinyjson_place *place);
uint32_t tinyjson_select_paths(const uint8_t *text, size_t length, const uint8_t *query, size_t query_length, size_t depth,
                               uint8_t *buffer, size_t room, struct tinyjson_place *place);

/* What these write of each line, with an empty line behind it, into the buffer. The last line may lack its line feed. A
 * line without a value, or with a regular expression above the limits, stops the call: `text` is its number, from 0 on. */
uint32_t tinyjson_select_lines(const uint8_t *text, size_t length, const uint8_t *query, size_t query_length, size_t depth,
                               uint8_t *buffer, size_t room, struct tinyjson_place *place);
uint32_t tinyjson_select_lines_paths(const uint8_t *text, size_t length, const uint8_t *query, size_t query_length,
                                     size_t depth, uint8_t *buffer, size_t room, struct tinyjson_place *place);

/* Checks a text by a schema: JSON Schema 2020-12, or the draft that its `$schema` names. The status is OK for a value that
 * is valid, or INVALID: then the buffer has the report, an object with `error`, the words, `instanceLocation`, a JSON
 * pointer to the part that is not valid, `line` and `column`, where the part begins, or the key of a member that must not
 * be there, from 1 on, and `keywordLocation`, a pointer to the keyword. Both texts may be no deeper than 100 containers,
 * whatever the limit. The schema is read first. */
uint32_t tinyjson_valid(const uint8_t *text, size_t length, const uint8_t *schema, size_t schema_length, size_t depth,
                        uint8_t *buffer, size_t room, struct tinyjson_place *place);

/* Checks each line. The buffer has the report of each that is not valid, with its number, from 1 on, at `line`, and a line
 * feed. The last line may lack its line feed. A line without a value, or above the limits, stops the call: `text` is its
 * number, from 0 on. */
uint32_t tinyjson_valid_lines(const uint8_t *text, size_t length, const uint8_t *schema, size_t schema_length, size_t depth,
                              uint8_t *buffer, size_t room, struct tinyjson_place *place);

/* The message of the error at a place, into the buffer, and its length. */
uint32_t tinyjson_message(const struct tinyjson_place *place, uint8_t *buffer, size_t room, size_t *length);

#ifdef __cplusplus
}
#endif

#endif
