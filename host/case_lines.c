#include "case_lines.h"
#include <stdlib.h>
#include <string.h>

uint64_t number_at(const uint8_t *bytes, int count) {
    uint64_t n = 0;
    while (count--)
        n = n << 8 | bytes[count];
    return n;
}

static int nibble(char c) { return c >= '0' && c <= '9' ? c - '0' : c >= 'a' && c <= 'f' ? c - 'a' + 10 : -1; }

long case_text(const char *field, uint8_t *text, size_t most, const char **end) {
    size_t n = 0;
    if (*field == '-') {
        *end = field + 1;
        return 0;
    }
    while (nibble(field[0]) >= 0 && nibble(field[1]) >= 0 && n < most) {
        text[n++] = (uint8_t)(nibble(field[0]) * 16 + nibble(field[1]));
        field += 2;
    }
    *end = field;
    return n == 0 ? -1 : (long)n;
}

const char *case_count(const char *field, uint64_t most, uint64_t *count) {
    char *end;
    if (field == NULL || *field < '0' || *field > '9')
        return NULL;
    *count = strtoull(field, &end, 10);
    return *count <= most && (*end == ' ' || *end == '\n') ? end + 1 : NULL;
}

static const char *read_inputs(const char *field, struct call_case *into) {
    into->input_count = 0;
    if (field == NULL)
        return NULL;
    if (field[0] == '-' && field[1] == ' ')
        return field + 2;
    while (into->input_count < MOST_INPUTS) {
        char *end;
        uint32_t n = (uint32_t)strtol(field, &end, 10);
        for (int i = 0; i < 4; i++)
            into->inputs[4 * into->input_count + i] = (uint8_t)(n >> 8 * i);
        into->input_count++;
        if (*end == ' ')
            return end + 1;
        if (*end != ',')
            return NULL;
        field = end + 1;
    }
    return NULL;
}

/* What may follow the store lengths: K and the UNDO allowance. 1 where the line ends well. */
static int read_abort(const char *field, struct call_case *into) {
    uint64_t at = 0, undo = 0;
    into->aborts = field[-1] == ' ';
    if (into->aborts)
        field = case_count(case_count(field, UINT32_MAX, &at), UINT32_MAX, &undo);
    into->at = (uint32_t)at;
    into->undo = (uint32_t)undo;
    return field != NULL && field[-1] == '\n';
}

/* What follows them in a case of marking: the listing. 1 where the line ends well. */
static int read_listing(const char *field, struct call_case *into) {
    const char *end = field;
    long length = field[-1] == ' ' ? case_text(field, into->listing, MOST_LISTING, &end) : -1;
    into->aborts = 0;
    into->listing_length = (size_t)length;
    return length >= 0 && *end == '\n';
}

const char *case_rooms(const char *at, struct call_case *into) {
    uint64_t steps, depth, room, code, values;
    at = case_count(case_count(at, UINT32_MAX, &steps), UINT32_MAX, &depth);
    at = case_count(read_inputs(at, into), MOST_OUTPUT, &room);
    at = case_count(case_count(at, MOST_STORE_BYTES / 4 - 1, &code), MOST_STORE_BYTES / 4 - 1, &values);
    if (at == NULL)
        return NULL;
    into->steps = (uint32_t)steps;
    into->depth = (uint32_t)depth;
    into->room = room;
    into->code_words = code;
    into->value_words = values;
    return at;
}

int case_read(const char *line, struct call_case *into) {
    const char *at;
    into->marks = strncmp(line, "mark ", 5) == 0;
    if (!into->marks && strncmp(line, "run ", 4) != 0)
        return 0;
    long length = case_text(line + (into->marks ? 5 : 4), into->text, MOST_TEXT, &at);
    if (length < 0 || *at != ' ')
        return 0;
    into->text_length = (size_t)length;
    at = case_rooms(at + 1, into);
    return at != NULL && (into->marks ? read_listing(at, into) : read_abort(at, into));
}
