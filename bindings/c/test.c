/* The rows of two files, by the calls of tinyjson.h: each answer, each size of the buffer from 0 to one more than is
 * needed, each allocation refused in turn, and four threads at once. The last line is 'N passed, M failed'. */
#include <pthread.h>
#include <stdio.h>
#include <stdlib.h>
#include <string.h>

#include "tinyjson.h"

/* The library's allocator, of which one call can be refused; -1 refuses none. */
static long granted = -1;

static bool is_granted(void) {
    return granted < 0 || granted-- > 0;
}

static void *granted_malloc(size_t size) {
    return is_granted() ? malloc(size) : NULL;
}

static void *granted_realloc(void *place, size_t size) {
    return is_granted() ? realloc(place, size) : NULL;
}

#define malloc granted_malloc
#define realloc granted_realloc
#include "heap.c"
#undef malloc
#undef realloc

/* The sizes of a buffer that are all tried; of longer answers only those near 0 and near what is needed. */
enum { ALL_SIZES = 300, GUARD = 16, GUARD_BYTE = 0xa5, THREADS = 4, FIELDS = 10, PAIR_FIELDS = 12 };

struct bytes {
    uint8_t *at;
    size_t length;
};

/* A text, a limit, and what is expected of it: its normal text and, if it is given, its indented text; or a place and a
 * message. */
struct row {
    struct bytes text, normal, indented, message;
    size_t depth;
    struct tinyjson_place place;
};

struct counts {
    const struct row *rows;
    size_t length;
    long passed, failed;
};

typedef uint32_t writes_of_two(const uint8_t *, size_t, const uint8_t *, size_t, size_t, uint8_t *, size_t,
                               struct tinyjson_place *);

/* A call with two texts, and what is expected of it: what it writes, its status and the place. */
struct pair {
    const char *name;
    writes_of_two *call;
    struct bytes one, other, written;
    size_t depth;
    uint32_t status;
    struct tinyjson_place place;
};

typedef uint32_t writes(const uint8_t *, size_t, size_t, uint8_t *, size_t, struct tinyjson_place *);

static bool is_same_place(struct tinyjson_place one, struct tinyjson_place other) {
    return one.kind == other.kind && one.found == other.found && one.line == other.line && one.column == other.column
        && one.length == other.length && one.text == other.text;
}

static struct tinyjson_place of_length(size_t length) {
    return (struct tinyjson_place){.length = length};
}

static void count(struct counts *counts, bool is_right, const char *name, const struct row *row) {
    if (is_right) {
        counts->passed++;
        return;
    }
    counts->failed++;
    printf("%s fails at: %.*s\n", name, (int)row->text.length, (const char *)row->text.at);
}

/* A buffer with bytes behind it that nothing may write. */
static uint8_t *guarded(size_t room) {
    uint8_t *buffer = malloc(room + GUARD);
    if (buffer == NULL) {
        abort();
    }
    memset(buffer, GUARD_BYTE, room + GUARD);
    return buffer;
}

/* Whether the bytes are at the front of the buffer, and all after them is unchanged. */
static bool is_filled(const uint8_t *buffer, size_t room, struct bytes expected, bool is_written) {
    size_t front = is_written ? expected.length : 0;
    for (size_t i = front; i < room + GUARD; i++) {
        if (buffer[i] != GUARD_BYTE) {
            return false;
        }
    }
    return front == 0 || memcmp(buffer, expected.at, front) == 0;
}

static bool is_tried(size_t room, size_t needed) {
    return needed <= ALL_SIZES || room <= 1 || room + 1 >= needed;
}

static bool writes_all_sizes(writes *call, const struct row *row, struct bytes expected) {
    for (size_t room = 0; room <= expected.length + 1; room++) {
        if (!is_tried(room, expected.length)) {
            continue;
        }
        bool has_room = room >= expected.length;
        struct tinyjson_place place = {.kind = 99};
        uint8_t *buffer = guarded(room);
        uint32_t status = call(row->text.at, row->text.length, row->depth, room == 0 ? NULL : buffer, room, &place);
        bool is_right = status == (has_room ? TINYJSON_OK : TINYJSON_TOO_SMALL)
            && is_same_place(place, of_length(expected.length)) && is_filled(buffer, room, expected, has_room);
        free(buffer);
        if (!is_right) {
            return false;
        }
    }
    return true;
}

static uint32_t call_pair(const struct pair *pair, uint8_t *buffer, size_t room, struct tinyjson_place *place) {
    struct bytes one = pair->one, other = pair->other;
    return pair->call(one.at, one.length, other.at, other.length, pair->depth, buffer, room, place);
}

static bool answers_pair(const struct pair *pair) {
    bool is_written = pair->status == TINYJSON_OK || pair->status == TINYJSON_INVALID || pair->status == TINYJSON_SCHEMA_FAULT;
    for (size_t room = 0; room <= pair->written.length + 1; room++) {
        if (!is_tried(room, pair->written.length)) {
            continue;
        }
        bool has_room = is_written && room >= pair->written.length;
        struct tinyjson_place place = {.kind = 99};
        uint8_t *buffer = guarded(room);
        uint32_t status = call_pair(pair, buffer, room, &place);
        bool is_right = status == (is_written && !has_room ? (uint32_t)TINYJSON_TOO_SMALL : pair->status)
            && is_same_place(place, pair->place) && is_filled(buffer, room, pair->written, has_room);
        free(buffer);
        if (!is_right) {
            return false;
        }
    }
    return true;
}

/* With an allocation refused the answer of the pair is the same, or that memory ran out. Each of the first 64 is refused, and
 * then ever fewer, since a schema's patterns may take thousands. */
static bool survives_pair(const struct pair *pair) {
    uint8_t *buffer = guarded(pair->written.length);
    bool is_right = true, was_refused = true;
    for (long number = 0; was_refused; number += 1 + number / 64) {
        struct tinyjson_place place;
        granted = number;
        uint32_t status = call_pair(pair, buffer, pair->written.length, &place);
        was_refused = granted < 0;
        granted = -1;
        if (status == TINYJSON_OUT_OF_MEMORY) {
            is_right &= was_refused && place.kind == TINYJSON_NO_MEMORY && place.line == 0;
        } else {
            is_right &= status == pair->status && is_same_place(place, pair->place);
        }
    }
    free(buffer);
    return is_right;
}

static bool stops(writes *call, const struct row *row) {
    struct tinyjson_place place = {.kind = 99};
    uint8_t *buffer = guarded(64);
    uint32_t status = call(row->text.at, row->text.length, row->depth, buffer, 64, &place);
    uint32_t expected = row->place.kind == 0 ? TINYJSON_NOT_UTF8 : TINYJSON_REFUSED;
    bool is_right = status == expected && is_same_place(place, row->place) && is_filled(buffer, 64, row->text, false);
    free(buffer);
    return is_right;
}

/* With each allocation refused in turn the answer is the same, or that memory ran out. */
static bool survives(writes *call, const struct row *row) {
    uint8_t *buffer = guarded(row->normal.length + row->indented.length);
    size_t room = row->normal.length + row->indented.length;
    struct tinyjson_place whole, place;
    uint32_t usual = call(row->text.at, row->text.length, row->depth, buffer, room, &whole);
    bool is_right = true;
    for (long number = 0;; number++) {
        granted = number;
        uint32_t status = call(row->text.at, row->text.length, row->depth, buffer, room, &place);
        bool was_refused = granted < 0;
        granted = -1;
        if (status == TINYJSON_OUT_OF_MEMORY) {
            is_right &= was_refused && place.kind == TINYJSON_NO_MEMORY && place.line == 0;
        } else {
            is_right &= status == usual && is_same_place(place, whole);
        }
        if (!was_refused) {
            break;
        }
    }
    free(buffer);
    return is_right;
}

static bool has_message(const struct row *row) {
    for (size_t room = 0; room <= row->message.length + 1; room++) {
        bool has_room = room >= row->message.length;
        uint8_t *buffer = guarded(room);
        size_t length = 0;
        uint32_t status = tinyjson_message(&row->place, room == 0 ? NULL : buffer, room, &length);
        bool is_right = status == (has_room ? TINYJSON_OK : TINYJSON_TOO_SMALL) && length == row->message.length
            && is_filled(buffer, room, row->message, has_room);
        free(buffer);
        if (!is_right) {
            return false;
        }
    }
    return true;
}

static bool is_normal(struct bytes text, bool expected) {
    bool answer = !expected;
    return tinyjson_is_normal(text.at, text.length, &answer) == TINYJSON_OK && answer == expected;
}

static bool compares(struct bytes one, struct bytes other, size_t depth, bool expected) {
    bool answer = !expected;
    struct tinyjson_place place;
    uint32_t status = tinyjson_equal(one.at, one.length, other.at, other.length, depth, &answer, &place);
    return status == TINYJSON_OK && answer == expected && is_same_place(place, of_length(0));
}

/* Whether the text is refused on either side of a comparison, and the answer left alone. */
static bool refuses_to_compare(const struct row *row) {
    static const uint8_t one[] = "1";
    uint32_t expected = row->place.kind == 0 ? TINYJSON_NOT_UTF8 : TINYJSON_REFUSED;
    struct tinyjson_place place = {0}, second = row->place;
    bool answer = true;
    second.text = 1;
    uint32_t status = tinyjson_equal(row->text.at, row->text.length, one, 1, row->depth, &answer, &place);
    bool is_right = status == expected && is_same_place(place, row->place) && answer;
    status = tinyjson_equal(one, 1, row->text.at, row->text.length, row->depth, &answer, &place);
    return is_right && status == expected && is_same_place(place, second) && answer;
}

/* Two texts with a line feed between them, and perhaps one behind. */
static struct bytes two_lines(struct bytes one, struct bytes other, bool is_ended) {
    struct bytes both = {malloc(one.length + other.length + 2), one.length + other.length + (is_ended ? 2 : 1)};
    if (both.at == NULL) {
        abort();
    }
    memcpy(both.at, one.at, one.length);
    both.at[one.length] = '\n';
    memcpy(both.at + one.length + 1, other.at, other.length);
    both.at[one.length + other.length + 1] = '\n';
    return both;
}

static bool is_line(struct bytes text) {
    return text.length != 0 && memchr(text.at, '\n', text.length) == NULL;
}

/* Whether two lines of the text are written, or the second one, behind a line that has a value, stops the call. */
static bool reads_lines(const struct row *row) {
    static uint8_t one[] = "1";
    bool is_accepted = row->normal.length != 0;
    struct row lines = *row;
    lines.text = two_lines(is_accepted ? row->text : (struct bytes){one, 1}, row->text, false);
    lines.place.text = 1;
    bool is_right;
    if (is_accepted) {
        struct bytes written = two_lines(row->normal, row->normal, true);
        is_right = writes_all_sizes(tinyjson_normal_lines, &lines, written);
        free(written.at);
    } else {
        is_right = stops(tinyjson_normal_lines, &lines);
    }
    free(lines.text.at);
    return is_right;
}

static bool is_same(struct bytes one, struct bytes other) {
    return one.length == other.length && (one.length == 0 || memcmp(one.at, other.at, one.length) == 0);
}

static void check_accepted(struct counts *counts, const struct row *row) {
    static uint8_t other[] = "[\"no value of a row\"]";
    struct tinyjson_place place = {.kind = 99};
    uint32_t status = tinyjson_check(row->text.at, row->text.length, row->depth, &place);
    count(counts, status == TINYJSON_OK && is_same_place(place, of_length(0)), "check", row);
    count(counts, writes_all_sizes(tinyjson_normal, row, row->normal), "normal", row);
    count(counts, is_normal(row->text, is_same(row->text, row->normal)), "is_normal", row);
    count(counts, is_normal(row->normal, true), "is_normal of the normal text", row);
    count(counts, compares(row->text, row->normal, row->depth, true), "equal", row);
    count(counts, compares(row->text, (struct bytes){other, sizeof other - 1}, 1000, false), "unequal", row);
    if (row->indented.length != 0) {
        count(counts, writes_all_sizes(tinyjson_indented, row, row->indented), "indented", row);
    }
}

static void check_stopped(struct counts *counts, const struct row *row) {
    struct tinyjson_place place = {.kind = 99};
    bool is_text = row->place.kind != 0;
    uint32_t status = tinyjson_check(row->text.at, row->text.length, row->depth, &place);
    uint32_t expected = is_text ? TINYJSON_REFUSED : TINYJSON_NOT_UTF8;
    count(counts, status == expected && is_same_place(place, row->place), "check", row);
    count(counts, stops(tinyjson_normal, row) && stops(tinyjson_indented, row), "normal and indented", row);
    count(counts, refuses_to_compare(row), "equal", row);
    if (is_text) {
        /* The depth of a normal text has no limit. */
        count(counts, row->place.kind == TINYJSON_TOO_DEEP || is_normal(row->text, false), "is_normal", row);
        count(counts, has_message(row), "message", row);
    } else {
        bool answer = true;
        status = tinyjson_is_normal(row->text.at, row->text.length, &answer);
        count(counts, status == TINYJSON_NOT_UTF8 && answer, "is_normal", row);
        size_t length = 7;
        status = tinyjson_message(&row->place, NULL, 0, &length);
        count(counts, status == TINYJSON_NO_ERROR && length == 7, "message", row);
    }
}

static void check_row(struct counts *counts, const struct row *row) {
    if (is_line(row->text)) {
        count(counts, reads_lines(row), "normal_lines", row);
    }
    if (row->normal.length != 0) {
        check_accepted(counts, row);
    } else {
        check_stopped(counts, row);
    }
}

static void *check_rows(void *argument) {
    struct counts *counts = argument;
    for (size_t i = 0; i < counts->length; i++) {
        check_row(counts, &counts->rows[i]);
    }
    return NULL;
}

static struct bytes of_hex(const char *digits) {
    struct bytes bytes = {NULL, strlen(digits) / 2};
    if (bytes.length == 0) {
        return bytes;
    }
    bytes.at = malloc(bytes.length);
    for (size_t i = 0; i < bytes.length; i++) {
        char pair[3] = {digits[2 * i], digits[2 * i + 1], 0};
        bytes.at[i] = (uint8_t)strtoul(pair, NULL, 16);
    }
    return bytes;
}

static void split(char *line, char **fields, int length) {
    for (int i = 0; i < length; i++) {
        fields[i] = strsep(&line, "\t\n");
        if (fields[i] == NULL) {
            abort();
        }
    }
}

static struct tinyjson_place place_of(char **fields) {
    return (struct tinyjson_place){.kind = (uint32_t)strtoul(fields[0], NULL, 10),
                                   .found = (uint32_t)strtoul(fields[1], NULL, 10),
                                   .line = strtoul(fields[2], NULL, 10),
                                   .column = strtoul(fields[3], NULL, 10),
                                   .length = strtoul(fields[4], NULL, 10)};
}

static uint32_t status_of(const char *name) {
    static const char *const names[] = {"OK", "REFUSED", "NOT_UTF8", "OUT_OF_MEMORY", "TOO_SMALL", "NO_ERROR",
                                        "NOT_FOUND", "BAD_POINTER", "BAD_PATCH", "FAILED", "BAD_QUERY", "PATTERN_LIMIT", "INVALID",
                                        "BAD_SCHEMA", "SCHEMA_FAULT", "STEP_LIMIT"};
    uint32_t status = 0;
    while (strcmp(names[status], name) != 0) {
        status++;
    }
    return status;
}

static writes_of_two *call_of(const char *name) {
    static const struct {
        const char *name;
        writes_of_two *call;
    } calls[] = {{"part", tinyjson_part}, {"merge", tinyjson_merge}, {"patch", tinyjson_patch},
                 {"select", tinyjson_select}, {"select_paths", tinyjson_select_paths},
                 {"select_lines", tinyjson_select_lines}, {"select_lines_paths", tinyjson_select_lines_paths},
                 {"valid", tinyjson_valid}, {"valid_lines", tinyjson_valid_lines}};
    size_t i = 0;
    while (strcmp(calls[i].name, name) != 0) {
        i++;
    }
    return calls[i].call;
}

/* A line: a call, its two texts, the limit, the status, what is written, and the place. */
static void check_pair(struct counts *counts, char *line) {
    char *fields[PAIR_FIELDS];
    split(line, fields, PAIR_FIELDS);
    struct pair pair = {fields[0], call_of(fields[0]), of_hex(fields[1]), of_hex(fields[2]), of_hex(fields[5]),
                        strtoul(fields[3], NULL, 10), status_of(fields[4]), place_of(fields + 6)};
    pair.place.text = strtoul(fields[11], NULL, 10);
    struct row row = {.text = pair.other};
    count(counts, answers_pair(&pair), pair.name, &row);
    if (pair.one.length + pair.other.length <= ALL_SIZES) {
        count(counts, survives_pair(&pair), "refused memory", &row);
    }
    free(pair.one.at), free(pair.other.at), free(pair.written.at);
}

/* The row of a line: its text, the limit, the normal text, the indented text, and the place with the message. */
static struct row row_of(char *line) {
    char *fields[FIELDS];
    split(line, fields, FIELDS);
    struct row row = {of_hex(fields[0]), of_hex(fields[2]), of_hex(fields[3]), of_hex(fields[9]),
                      strtoul(fields[1], NULL, 10), {0}};
    row.place = place_of(fields + 4);
    return row;
}

int main(int argc, char **argv) {
    FILE *file = argc == 3 ? fopen(argv[1], "r") : NULL, *pairs = argc == 3 ? fopen(argv[2], "r") : NULL;
    if (file == NULL || pairs == NULL) {
        return 2;
    }
    static struct row rows[4096];
    size_t length = 0, size = 0;
    char *line = NULL;
    while (length < 4096 && getline(&line, &size, file) > 0) {
        rows[length++] = row_of(line);
    }
    struct counts counts[THREADS + 1] = {{rows, length, 0, 0}};
    while (getline(&line, &size, pairs) > 0) {
        check_pair(&counts[0], line);
    }
    free(line);
    fclose(file), fclose(pairs);
    check_rows(&counts[0]);
    for (size_t i = 0; i < length; i++) {
        count(&counts[0], survives(tinyjson_normal, &rows[i]), "refused memory", &rows[i]);
        count(&counts[0], survives(tinyjson_indented, &rows[i]), "refused memory", &rows[i]);
    }
    static uint8_t words[] = "Out of memory";
    struct row memory = {.message = {words, sizeof words - 1}, .place = {.kind = TINYJSON_NO_MEMORY}};
    count(&counts[0], has_message(&memory), "message of refused memory", &memory);
    pthread_t threads[THREADS];
    for (int i = 0; i < THREADS; i++) {
        counts[i + 1] = (struct counts){rows, length, 0, 0};
        if (pthread_create(&threads[i], NULL, check_rows, &counts[i + 1]) != 0) {
            abort();
        }
    }
    for (int i = 0; i < THREADS; i++) {
        pthread_join(threads[i], NULL);
        counts[0].failed += counts[i + 1].failed;
        counts[0].passed += counts[i + 1].passed;
    }
    for (size_t i = 0; i < length; i++) {
        free(rows[i].text.at), free(rows[i].normal.at), free(rows[i].indented.at), free(rows[i].message.at);
    }
    printf("%ld passed, %ld failed\n", counts[0].passed, counts[0].failed);
    return counts[0].failed != 0 || counts[0].passed == 0;
}
