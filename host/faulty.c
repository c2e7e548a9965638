/* The proved call with a fault put around it, for tools/faults: what the comparisons must find. FAULT is its number. */
#include "rapid.h"

#include <string.h>
#include <strings.h>

/* the proved calls, renamed */
uint32_t proved_run(const uint8_t *text, size_t text_length, uint32_t steps, uint32_t depth, const uint8_t *inputs, size_t inputs_length, uint8_t *output, size_t output_length,
                    uint8_t *code, size_t code_length, uint8_t *values, size_t values_length, uint8_t *record, size_t record_length);
uint32_t proved_run_until(const uint8_t *text, size_t text_length, uint32_t flags, uint32_t steps, uint32_t depth, uint32_t at, uint32_t undo, const uint8_t *inputs, size_t inputs_length,
                          uint8_t *output, size_t output_length, uint8_t *code, size_t code_length, uint8_t *values, size_t values_length, uint8_t *record, size_t record_length);

enum {
    READS_PAST_TEXT = 1, WRITES_PAST_OUTPUT, WRITES_PAST_COUNT, LEAVES_CODE, WRITES_BEYOND_STORE, WRITES_PAST_RECORD, WRITES_TEXT, COUNTS_WRONG, ASKS_OLD_MEMORY, TAKES_LESS_DEPTH, CHANGES_OUTPUT,
    NEVER_TURNS, RUNS_LISTS_TWICE, UNDOES_ERRORS, SPARES_LAST_STEP, HIDES_OWN,
    MISCOUNTS_SURPLUS = 20, WRITES_PAST_MARKING
};

/* One call; `at` and `undo` where it has a step number K. */
struct call {
    const uint8_t *text;
    size_t text_length;
    uint32_t steps, depth;
    int aborts;
    uint32_t at, undo;
    const uint8_t *inputs;
    size_t inputs_length;
    uint8_t *output, *code, *values, *record;
    size_t output_length, code_length, values_length, record_length;
};

static uint32_t proved(const struct call *c) {
    if (c->aborts)
        return proved_run_until(c->text, c->text_length, 0, c->steps, c->depth, c->at, c->undo, c->inputs, c->inputs_length, c->output, c->output_length, c->code, c->code_length, c->values,
                                c->values_length, c->record, c->record_length);
    return proved_run(c->text, c->text_length, c->steps, c->depth, c->inputs, c->inputs_length, c->output, c->output_length, c->code, c->code_length, c->values, c->values_length, c->record,
                      c->record_length);
}

static size_t written(const uint8_t *record) { return record[40] | (size_t)record[41] << 8 | (size_t)record[42] << 16; }

static uint32_t steps_made(const uint8_t *record) { return record[24] | (uint32_t)record[25] << 8 | (uint32_t)record[26] << 16 | (uint32_t)record[27] << 24; }

static volatile int seen;

/* ---- the same call in memory of its own */
enum { MOST_OUTPUT = 65536 };
static uint8_t tried_output[MOST_OUTPUT], tried_code[RAPID_STORE_BYTES], tried_values[RAPID_STORE_BYTES], tried_record[RAPID_RECORD_BYTES];

/* How the call ends with this text; RAPID_REFUSED where it cannot be tried. */
static int tried(struct call c, const uint8_t *text, size_t length) {
    memset(tried_record, 0, sizeof tried_record);
    if (c.output_length > MOST_OUTPUT || length == 0)
        return RAPID_REFUSED;
    c.text = text, c.text_length = length;
    c.output = tried_output;
    c.code = tried_code, c.code_length = sizeof tried_code;
    c.values = tried_values, c.values_length = sizeof tried_values;
    c.record = tried_record, c.record_length = sizeof tried_record;
    proved(&c);
    return tried_record[0];
}

/* ---- words of a text */
static int is_letter(uint8_t c) { return (c | 32) >= 'a' && (c | 32) <= 'z'; }

static int in_name(uint8_t c) { return is_letter(c) || (c >= '0' && c <= '9') || c == '_'; }

/* How many bytes the name, string, comment or other byte at the front takes. */
static size_t piece(const uint8_t *text, size_t length) {
    size_t n = 1;
    if (is_letter(*text))
        while (n < length && in_name(text[n]))
            n++;
    else if (*text == '"' || *text == '!') {
        uint8_t last = *text == '"' ? '"' : '\n';
        while (n < length && text[n] != last)
            n++;
        n += n < length;
    }
    return n;
}

static int is(const uint8_t *word, size_t length, const char *name) { return length == strlen(name) && strncasecmp((const char *)word, name, length) == 0; }

static int has_word(const uint8_t *text, size_t length, const char *word) {
    for (size_t i = 0, n; i < length; i += n) {
        n = piece(text + i, length - i);
        if (is(text + i, n, word))
            return 1;
    }
    return 0;
}

/* ---- another text in place of the lent one */
static uint8_t other[RAPID_TEXT_LIMIT];
static size_t other_length;

/* Adds bytes to the other text; 0 where it would be too long. */
static int add(const void *bytes, size_t n) {
    if (other_length + n > sizeof other)
        return 0;
    memcpy(other + other_length, bytes, n);
    other_length += n;
    return 1;
}

/* NEVER_TURNS: a FOR without STEP only goes up. The text with STEP 1 written out in each FOR that has no STEP. */
static int stepped(const uint8_t *text, size_t length) {
    size_t n = 0;
    int in_head = 0, fits = 1;
    for (size_t i = 0; fits && i < length; i += n) {
        n = piece(text + i, length - i);
        if (in_head && is(text + i, n, "DO"))
            fits = add("STEP 1 ", 7);
        in_head = is(text + i, n, "FOR") || (in_head && !is(text + i, n, "STEP") && !is(text + i, n, "DO"));
        fits = fits && add(text + i, n);
    }
    return fits;
}

/* RUNS_LISTS_TWICE: an UNDO list runs twice. The text with each such list written out twice. */
static int doubled(const uint8_t *text, size_t length) {
    size_t n = 0, began = 0;
    int fits = 1;
    for (size_t i = 0; fits && i < length; i += n) {
        n = piece(text + i, length - i);
        if (began && (is(text + i, n, "ENDPROC") || is(text + i, n, "ENDFUNC"))) {
            fits = add(text + began, i - began);
            began = 0;
        }
        fits = fits && add(text + i, n);
        if (is(text + i, n, "UNDO"))
            began = i + n;
    }
    return fits;
}

/* Where the call ends so with both texts, the other one is taken. */
static void take_other(struct call *c, int (*change)(const uint8_t *, size_t), int ending) {
    other_length = 0;
    if (!change(c->text, c->text_length) || tried(*c, c->text, c->text_length) != ending || tried(*c, other, other_length) != ending)
        return;
    c->text = other;
    c->text_length = other_length;
}

/* ---- UNDOES_ERRORS: where an error ends the run, the routines that were live before it run their UNDO lists; of the record only the output tells. */
enum { SOME_STEPS = 100 };

static uint32_t undoing_errors(const struct call *c) {
    uint8_t record[RAPID_RECORD_BYTES];
    if (!has_word(c->text, c->text_length, "UNDO") || tried(*c, c->text, c->text_length) != RAPID_ERROR_UNHANDLED)
        return proved(c);
    memcpy(record, tried_record, sizeof record);
    struct call d = *c;
    d.aborts = 1;
    d.at = steps_made(record) - 1;
    d.undo = SOME_STEPS;
    uint32_t returned = proved(&d);
    if (returned && d.record[0] != RAPID_REFUSED) {
        memcpy(record + 40, d.record + 40, 8);
        memcpy(d.record, record, sizeof record);
    }
    return returned;
}

/* ---- HIDES_OWN: a FOR variable may be named like a parameter or data of its routine. */
enum { MOST_NAME = 32 };

/* Names the FOR variable at a place anew, in as many letters, and all that mean it: they stand behind its DO, up to its ENDFOR. Whether there is such a name. */
static int name_anew(uint8_t *text, size_t length, size_t at) {
    char old[MOST_NAME + 1] = {0}, new[MOST_NAME + 1] = {0};
    size_t n = piece(text + at, length - at), i = at + n;
    memcpy(old, text + at, n);
    memset(new, 'a', n);
    while (has_word(text, length, new)) {
        if (new[0] == 'z')
            return 0;
        memset(new, new[0] + 1, n);
    }
    memcpy(text + at, new, n);
    while (i < length && !is(text + i, piece(text + i, length - i), "DO"))
        i += piece(text + i, length - i);
    for (size_t p, inside = 1; i < length && inside; i += p) {
        p = piece(text + i, length - i);
        if (is(text + i, p, old))
            memcpy(text + i, new, n);
        inside += is(text + i, p, "FOR");
        inside -= is(text + i, p, "ENDFOR");
    }
    return 1;
}

/* Puts a text in place of the lent one in which no FOR variable is refused by 19. */
static void hide_own(struct call *c) {
    if (c->text_length > RAPID_TEXT_LIMIT)
        return;
    memcpy(other, c->text, c->text_length);
    while (tried(*c, other, c->text_length) == RAPID_REFUSED && tried_record[8] == RAPID_HIDING_LOOP)
        if (!name_anew(other, c->text_length, tried_record[16] | (size_t)tried_record[17] << 8))
            return;
    c->text = other;
}

/* ---- the call */
static uint32_t faulty(struct call c) {
    int often = c.text_length % 5 == 0;
    size_t text_length = c.text_length;
    const uint8_t *text = c.text;
    if (FAULT == ASKS_OLD_MEMORY && c.code_length > 100 && c.code[100] == 7)
        seen = 1;
    if (FAULT == TAKES_LESS_DEPTH && c.steps > 100 && c.depth > 1)
        c.depth--;
    if (FAULT == NEVER_TURNS)
        take_other(&c, stepped, RAPID_RETURNED);
    if (FAULT == RUNS_LISTS_TWICE && c.aborts)
        take_other(&c, doubled, RAPID_ABORTED);
    if (FAULT == HIDES_OWN)
        hide_own(&c);
    if (FAULT == SPARES_LAST_STEP && c.at == c.steps)
        c.aborts = 0;
    uint32_t returned = FAULT == UNDOES_ERRORS ? undoing_errors(&c) : proved(&c);
    if (!returned)
        return 0;
    if (FAULT == READS_PAST_TEXT && often)
        seen = text[text_length];
    if (FAULT == WRITES_PAST_OUTPUT && often)
        c.output[c.output_length] = 1;
    if (FAULT == WRITES_PAST_COUNT && often && written(c.record) < c.output_length)
        c.output[written(c.record)] = 1;
    if (FAULT == LEAVES_CODE && often && c.code_length >= RAPID_STORE_BYTES)
        c.code[RAPID_STORE_BYTES - 1] = 1;
    if (FAULT == WRITES_BEYOND_STORE && often && c.values_length > RAPID_STORE_BYTES)
        c.values[RAPID_STORE_BYTES] = 1;
    if (FAULT == WRITES_PAST_RECORD && often && c.record_length > RAPID_RECORD_BYTES)
        c.record[RAPID_RECORD_BYTES] = 1;
    if (FAULT == WRITES_TEXT && often && text_length > 0)
        ((uint8_t *)text)[text_length - 1] ^= 1;
    if (FAULT == COUNTS_WRONG && often && c.record[0] == RAPID_RETURNED)
        c.record[24]++;
    if (FAULT == CHANGES_OUTPUT && c.steps % 7 == 0 && written(c.record) > 0)
        c.output[0] ^= 1;
    return returned;
}

uint32_t rapid_run(const uint8_t *text, size_t text_length, uint32_t steps, uint32_t depth, const uint8_t *inputs, size_t inputs_length, uint8_t *output, size_t output_length, uint8_t *code,
                   size_t code_length, uint8_t *values, size_t values_length, uint8_t *record, size_t record_length) {
    return faulty((struct call){text, text_length, steps, depth, 0, 0, 0, inputs, inputs_length, output, code, values, record, output_length, code_length, values_length, record_length});
}

uint32_t rapid_run_until(const uint8_t *text, size_t text_length, uint32_t flags, uint32_t steps, uint32_t depth, uint32_t at, uint32_t undo, const uint8_t *inputs, size_t inputs_length,
                         uint8_t *output, size_t output_length, uint8_t *code, size_t code_length, uint8_t *values, size_t values_length, uint8_t *record, size_t record_length) {
    if (flags)
        return proved_run_until(text, text_length, flags, steps, depth, at, undo, inputs, inputs_length, output, output_length, code, code_length, values, values_length, record, record_length);
    return faulty((struct call){text, text_length, steps, depth, 1, at, undo, inputs, inputs_length, output, code, values, record, output_length, code_length, values_length, record_length});
}

/* ---- the call that marks a listing */
uint32_t proved_mark(const uint8_t *text, size_t text_length, uint32_t steps, uint32_t depth, const uint8_t *inputs, size_t inputs_length, uint8_t *output, size_t output_length, uint8_t *code,
                     size_t code_length, uint8_t *values, size_t values_length, const uint8_t *listing, size_t listing_length, uint8_t *record, size_t record_length, uint8_t *answer,
                     size_t answer_length);

/* MISCOUNTS_SURPLUS: the index of a surplus entry is one too large. */
uint32_t rapid_mark(const uint8_t *text, size_t text_length, uint32_t steps, uint32_t depth, const uint8_t *inputs, size_t inputs_length, uint8_t *output, size_t output_length, uint8_t *code,
                    size_t code_length, uint8_t *values, size_t values_length, const uint8_t *listing, size_t listing_length, uint8_t *record, size_t record_length, uint8_t *answer,
                    size_t answer_length) {
    uint32_t returned = proved_mark(text, text_length, steps, depth, inputs, inputs_length, output, output_length, code, code_length, values, values_length, listing, listing_length, record,
                                    record_length, answer, answer_length);
    if (!returned || record[0] == RAPID_REFUSED)
        return returned;
    if (FAULT == MISCOUNTS_SURPLUS && !answer[0] && memcmp(answer + 4, record + 24, 4) == 0)
        answer[4]++;
    if (FAULT == WRITES_PAST_MARKING && answer_length > RAPID_MARKING_BYTES)
        answer[RAPID_MARKING_BYTES] = 1;
    return returned;
}
