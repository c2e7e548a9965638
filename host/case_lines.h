/* Case lines `run TEXT STEPS DEPTH INPUTS OUTLEN CODELEN VALUELEN [AT UNDO]` and `mark TEXT STEPS DEPTH INPUTS OUTLEN CODELEN VALUELEN LISTING`; reference/README.md has their form. */
#ifndef CASE_LINES_H
#define CASE_LINES_H
#include <stddef.h>
#include <stdint.h>

/* The most that a host lends. */
enum { MOST_TEXT = 1 << 17, MOST_INPUTS = 1 << 12, MOST_OUTPUT = 1 << 20, MOST_STORE_BYTES = 1 << 18, MOST_LISTING = 1 << 17, MOST_LINE = 2 * MOST_TEXT + 16 * MOST_INPUTS + 2 * MOST_LISTING + 256 };

struct call_case {
    uint8_t text[MOST_TEXT], inputs[4 * MOST_INPUTS]; /* inputs as the call takes them: four bytes each, low byte first */
    size_t text_length, input_count, room, code_words, value_words;
    uint32_t steps, depth;
    int aborts; /* whether there is a step number K, `at`, and an UNDO allowance */
    uint32_t at, undo;
    int marks; /* whether there is a listing to be marked: entries of four bytes, low byte first, perhaps a part word */
    uint8_t listing[MOST_LISTING];
    size_t listing_length;
};

/* Whether the line is a case, within what a host lends. */
int case_read(const char *line, struct call_case *into);

/* The digits of a text, which end at a blank or the line's end: how many bytes; -1 where there are none. `end` is where they end. */
long case_text(const char *field, uint8_t *text, size_t most, const char **end);

/* A field each, and the fields STEPS to VALUELEN; they return where the next one begins, or NULL where the line is no case. */
const char *case_count(const char *field, uint64_t most, uint64_t *count);
const char *case_rooms(const char *field, struct call_case *into);

/* A number of so many bytes, low byte first. */
uint64_t number_at(const uint8_t *bytes, int count);

#endif
