/* What a page in a browser calls: memory of its own at fixed places, which the page fills and reads, and calls on plain numbers. Each call tests every length that it is given and answers 0 where one is too
 * large, so that nothing which a page says can lead out of what is lent. All sentences are those of rapid.c and rapid_reason.c. */
#include "rapid.h"
#include "rapid_names.h"
#include "rapid_reason.h"
#include <stdarg.h>
#include <stdio.h>

#define SHOWN(type, name) __attribute__((export_name(#name))) type name

enum { TEXT_ROOM = 1 << 17, OUTPUT_ROOM = 1 << 20, INPUT_ROOM = 10000, STORE_ROOM = 1 << 16 };
static uint8_t text[TEXT_ROOM], output[OUTPUT_ROOM];
static int32_t inputs[INPUT_ROOM], code[STORE_ROOM], values[STORE_ROOM];
static struct rapid_record record;
static struct rapid_word words[RAPID_WORD_LIMIT], word;
static struct rapid_listing listing;
static struct rapid_datum data[RAPID_MODULE_WORD_LIMIT];
static char sentence[512];

/* ---- places and rooms */
#define AT(name, begin) SHOWN(uint32_t, name##_at)(void) { return (uint32_t)(uintptr_t)(begin); }
AT(text, text)
AT(output, output)
AT(inputs, inputs)
AT(code, code)
AT(values, values)
AT(record, &record)
AT(words, words)
AT(word, &word)
AT(listing, &listing)
AT(data, data)
AT(sentence, sentence)
SHOWN(uint32_t, text_room)(void) { return TEXT_ROOM; }
SHOWN(uint32_t, output_room)(void) { return OUTPUT_ROOM; }
SHOWN(uint32_t, input_room)(void) { return INPUT_ROOM; }
SHOWN(uint32_t, store_words)(void) { return RAPID_STORE_WORDS; }
SHOWN(uint32_t, depth_limit)(void) { return RAPID_DEPTH_LIMIT; }
SHOWN(uint32_t, version)(void) { return rapid_version(); }

/* ---- the calls */
static int lends(struct rapid_lent *lent, uint32_t length, uint32_t steps, uint32_t depth, uint32_t input_count, uint32_t room, uint32_t code_words, uint32_t value_words) {
    if (length > TEXT_ROOM || input_count > INPUT_ROOM || room > OUTPUT_ROOM || code_words > STORE_ROOM || value_words > STORE_ROOM)
        return 0;
    lent->text = text, lent->text_length = length;
    lent->steps = steps, lent->depth = depth;
    lent->inputs = inputs, lent->input_count = input_count;
    lent->output = output, lent->output_length = room;
    lent->code = code, lent->code_words = code_words;
    lent->values = values, lent->value_words = value_words;
    return 1;
}

SHOWN(uint32_t, run)(uint32_t length, uint32_t steps, uint32_t depth, uint32_t input_count, uint32_t room, uint32_t code_words, uint32_t value_words) {
    struct rapid_lent lent = {0};
    return lends(&lent, length, steps, depth, input_count, room, code_words, value_words) && rapid_call(&lent, &record);
}

/* The pointer is moved to main at a step. */
SHOWN(uint32_t, run_until)(uint32_t length, uint32_t steps, uint32_t depth, uint32_t at, uint32_t undo, uint32_t input_count, uint32_t room, uint32_t code_words, uint32_t value_words) {
    struct rapid_lent lent = {0};
    return lends(&lent, length, steps, depth, input_count, room, code_words, value_words) && rapid_call_until(&lent, at, undo, &record);
}

SHOWN(uint32_t, list)(uint32_t length) { return length <= TEXT_ROOM && rapid_words(text, length, words, RAPID_WORD_LIMIT, &listing); }

/* How long the word is that starts at a place; 0 where none does. */
SHOWN(uint32_t, ask)(uint32_t length, uint64_t place) {
    size_t covers = 0;
    return length <= TEXT_ROOM && rapid_word_at(text, length, place, &covers) ? (uint32_t)covers : 0;
}

/* Whether a word covers a place; then it is filled in. By the listing that list made of this text, and by the answer about the word's start. */
SHOWN(uint32_t, word_under)(uint32_t length, uint32_t place) {
    uint32_t first = 0, behind = listing.words <= RAPID_WORD_LIMIT ? listing.words : 0;
    while (first < behind) {
        uint32_t middle = first + (behind - first) / 2;
        if (words[middle].place <= place)
            first = middle + 1;
        else
            behind = middle;
    }
    if (first == 0)
        return 0;
    word = words[first - 1];
    word.length = ask(length, word.place);
    return place - word.place < word.length;
}

SHOWN(uint32_t, names)(uint32_t length) { return length <= TEXT_ROOM ? (uint32_t)rapid_names(text, length, data, RAPID_MODULE_WORD_LIMIT) : 0; }

/* ---- sentences; each answers how long it is */
static uint32_t said(const char *from) {
    uint32_t n = 0;
    for (; from != NULL && from[n] && n + 1 < sizeof sentence; n++)
        sentence[n] = from[n];
    return n;
}

SHOWN(uint32_t, ending_sentence)(uint32_t ending) { return said(rapid_ending_sentence(ending)); }

SHOWN(uint32_t, error_name)(uint32_t error) { return said(rapid_error_name(error)); }

SHOWN(uint32_t, reason)(uint32_t length, uint32_t refusal, uint32_t offset) {
    uint32_t n = 0;
    if (length > TEXT_ROOM || rapid_refusal_sentence(refusal) == NULL)
        return 0;
    rapid_reason(text, length, refusal, offset, sentence, sizeof sentence);
    while (n < sizeof sentence && sentence[n])
        n++;
    return n;
}

SHOWN(uint32_t, truth_name)(uint32_t value) { return said(value ? "TRUE" : "FALSE"); }

SHOWN(uint32_t, kind_name)(uint32_t kind) {
    static const char *const kinds[] = {"name", "reserved word", "number", "string", "sign"};
    return said(kind < sizeof kinds / sizeof *kinds ? kinds[kind] : NULL);
}

/* ---- what an answer means to a page */
enum stand { REFUSED, FINISHED, ENDED_OTHERWISE, STEPS_SPENT, ASKS };

SHOWN(uint32_t, stand)(uint32_t ending) {
    switch (ending) {
    case RAPID_REFUSED: return REFUSED;
    case RAPID_RETURNED: case RAPID_EXITED: return FINISHED;
    case RAPID_STEPS_SPENT: return STEPS_SPENT;
    case RAPID_NO_INPUT_LEFT: return ASKS;
    default: return ENDED_OTHERWISE;
    }
}

/* Whether an ending, or else a refusal, has a place in the text. */
SHOWN(uint32_t, has_place)(uint32_t ending, uint32_t refusal) {
    if (ending != RAPID_REFUSED)
        return ending != RAPID_RETURNED && ending != RAPID_ABORTED;
    return refusal > RAPID_DEPTH_OUT_OF_RANGE && refusal != RAPID_NO_MAIN;
}

/* ---- what rapid_reason.c needs of C's library: forms with %s alone */
int snprintf(char *into, size_t room, const char *form, ...) {
    va_list parts;
    size_t n = 0;
    va_start(parts, form);
    for (; *form; form++) {
        const char one[] = {*form, 0}, *part = one;
        if (form[0] == '%' && form[1] == 's') {
            part = va_arg(parts, const char *);
            form++;
        }
        for (; *part; part++)
            if (n + 1 < room)
                into[n++] = *part;
    }
    va_end(parts);
    if (room)
        into[n] = 0;
    return (int)n;
}
