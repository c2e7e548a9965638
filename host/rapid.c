#include "rapid.h"
#include "rapid_slices.h"

/* Numbers are lent as the machine has them: the low byte first, as the library wants it, since it is compiled for no other machine; and without gaps. What is appended to
 * the end of a listing stands behind what the proved code fills in. */
_Static_assert(sizeof(struct rapid_record) == RAPID_RECORD_BYTES && sizeof(struct rapid_word) == RAPID_ENTRY_BYTES &&
                   offsetof(struct rapid_listing, offset) + sizeof(uint32_t) == RAPID_ANSWER_BYTES,
               "the library's numbers stand side by side");

uint32_t rapid_version(void) { return RAPID_VERSION; }

/* Whether a call may be made with what is lent, and the struct that is filled in. */
static int may_call(const struct rapid_lent *lent, const struct rapid_record *record) {
    if (lent == NULL || record == NULL)
        return 0;
    const struct slice slices[] = {LENT_SLICES(lent, record)};
    return may_be_lent(slices, sizeof slices / sizeof *slices);
}

/* ---- the calls */
int rapid_call(const struct rapid_lent *lent, struct rapid_record *record) {
    if (!may_call(lent, record))
        return 0;
    return (int)rapid_run(lent->text, lent->text_length, lent->steps, lent->depth, (const uint8_t *)lent->inputs, 4 * lent->input_count, lent->output, lent->output_length,
                          (uint8_t *)lent->code, 4 * lent->code_words, (uint8_t *)lent->values, 4 * lent->value_words, (uint8_t *)record, RAPID_RECORD_BYTES);
}

int rapid_call_until(const struct rapid_lent *lent, uint32_t at, uint32_t undo, struct rapid_record *record) {
    if (!may_call(lent, record))
        return 0;
    return (int)rapid_run_until(lent->text, lent->text_length, 0, lent->steps, lent->depth, at, undo, (const uint8_t *)lent->inputs, 4 * lent->input_count, lent->output,
                                lent->output_length, (uint8_t *)lent->code, 4 * lent->code_words, (uint8_t *)lent->values, 4 * lent->value_words, (uint8_t *)record, RAPID_RECORD_BYTES);
}

int rapid_words(const uint8_t *text, size_t text_length, struct rapid_word *words, size_t room, struct rapid_listing *listing) {
    const struct slice slices[] = {{text, text_length, 1}, {words, room, sizeof *words}, {listing, 1, sizeof *listing}};
    if (!may_be_lent(slices, sizeof slices / sizeof *slices))
        return 0;
    return (int)rapid_list(text, text_length, (uint8_t *)words, room * sizeof *words, (uint8_t *)listing, RAPID_ANSWER_BYTES);
}

int rapid_word_at(const uint8_t *text, size_t text_length, size_t place, size_t *length) {
    const struct slice slices[] = {{text, text_length, 1}, {length, 1, sizeof *length}};
    if (!may_be_lent(slices, sizeof slices / sizeof *slices))
        return 0;
    *length = rapid_ask(text, text_length, place);
    return 1;
}

/* ---- sentences */
static const char *const endings[] = {
    "the module is refused",
    "main returned",
    "EXIT",
    "an error was raised that no routine handled",
    "a FUNC came to the end of its list without a RETURN",
    "all steps are spent",
    "a call goes beyond the call depth",
    "no input is left for TPReadNum",
    "a whole line does not fit into the output",
    "the pointer was moved to main, and every UNDO list is done",
    "all UNDO steps are spent",
};

static const char *const refusals[] = {
    NULL,
    "a store under 16,384 words",
    "call depth not 1..64",
    "text too long: 32,768 bytes are allowed",
    "byte not permitted",
    "malformed word: a name of more than 32 characters, a string that is unclosed, too long or has a backslash, a number with a letter, _ or . directly after it, or no start of a word",
    "number too large: 8,388,608 at most",
    "more than 8,192 words",
    "word that no well-formed module could have here",
    "nesting 17: compound statements nest to 16, parentheses and braces in an expression too",
    "name declared twice, or protected: ERRNO and the ERR_ names cannot be declared anew",
    "unknown name",
    "name of wrong kind: array without index, index on a scalar, barred target, variable in a constant expression, routine for data, or PROC for FUNC and the reverse",
    "wrong type: + - * DIV MOD < <= > >= take num, = and <> two of one type, NOT AND OR XOR and conditions take bool; a value must be of its target's or parameter's type",
    "wrong argument count",
    "constant expression that would raise an error, or size outside 1..512",
    "over 64 routines, 1,024 module words, or 64 words a routine (parameters, data, each FOR variable)",
    "barred here: RETRY, TRYNEXT or plain RAISE outside ERROR, RAISE with a value in it, RETURN with a value in a PROC or without one in a FUNC; in UNDO a call, RETRY, TRYNEXT, RAISE, RETURN or EXIT",
    "no PROC main without parameters",
    "FOR variable named like a parameter or data of its routine",
    /* of a class, by number: those between are of nobody yet */
    [RAPID_LENGTHS_DIFFER] = "the lengths of the modules do not add up to the text",
    [RAPID_TOO_MANY_MODULES] = "more than 64 modules in one call",
    [RAPID_LIST_TOO_SHORT] = "a list too short: each module takes a record and 1,024 words of data",
};

static const char *const errors[] = {"ERR_OVERFLOW", "ERR_DIVZERO", "ERR_OUTOFBND", "ERR_ILLRAISE"};

const char *rapid_ending_sentence(uint64_t ending) { return ending < sizeof endings / sizeof *endings ? endings[ending] : NULL; }

const char *rapid_refusal_sentence(uint64_t refusal) { return refusal < sizeof refusals / sizeof *refusals ? refusals[refusal] : NULL; }

const char *rapid_error_name(uint64_t error) { return error >= RAPID_ERR_OVERFLOW && error <= RAPID_ERR_ILLRAISE ? errors[error - RAPID_ERR_OVERFLOW] : NULL; }
