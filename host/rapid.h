/* The RAPID lesson bench for C and C++: check and run a module's text or those of a whole class, list its words, and ask about a place in it. docs/EMBEDDING.md shows how it is used.
 *
 * Behind it stand proved libraries: `call_pendant` (rapid_run, rapid_run_until), `call_class` (rapid_class), `call_marking` (rapid_mark), `call_listing` (rapid_list) and `call_asking` (rapid_ask). rapid.c has thin
 * wrappers on C's own types (rapid_call, rapid_call_until, rapid_words, rapid_word_at) and the sentences, rapid_classes.c that of rapid_class (rapid_call_class), rapid_marking.c that of rapid_mark (rapid_call_mark);
 * nothing else stands between a caller and the proved code. host/build puts all of it into one librapid.a, of which a program is linked with what it calls. No memory is used but what is lent, and some stack. Nothing is kept between calls: with memory of its own each thread may call at any time.
 *
 * A slice is a pointer and its length. It must be readable, or writable where it is not const, over its whole length, which is at most PTRDIFF_MAX bytes, and no two
 * slices of one call may overlap. A slice of length 0 may have any pointer, NULL too: nothing is read or written through it.
 * The wrappers refuse what can be seen of a call that does not keep to this: they return 0, and nothing is touched, where a pointer is NULL whose length is not 0, where
 * a slice is too long, and where two slices overlap, or one overlaps the struct that is filled in or the one that lends. The proved calls below them test none of this.
 *
 * How this header grows. The language grows, and with it the library; a program that uses it is only compiled again.
 * - A call that exists keeps its signature and its answers; only a text that was refused may be accepted, or be refused otherwise, once the language has something new for
 *   it. What else is new is a new call, or a new field.
 * - The structs of a call (rapid_lent, rapid_class, rapid_listing, rapid_marking) are zeroed by the caller before their fields are filled in. New fields are appended, and 0 in one means
 *   that it is absent: the call then answers as it did before there was that field. rapid_word and rapid_record stand in arrays, and stay as they are.
 * - Numbers that are named here keep their names and what they say. An enum may get further numbers, which come up only with such texts and with new fields: a switch over
 *   an ending, a refusal or a kind has a default. Sizes may grow: use their names.
 * - A program is compiled with the header of the library that it is linked with: rapid_version() == RAPID_VERSION. */
#ifndef RAPID_H
#define RAPID_H
#include <stddef.h>
#include <stdint.h>

#ifdef __cplusplus
extern "C" {
#endif

/* ---- version */
/* Version 1.2.3 is 10203. The first number changes where the rule above is broken, the second where something is new, the third where something is mended. */
#define RAPID_VERSION 10300

/* RAPID_VERSION of the header that the library was compiled with. */
uint32_t rapid_version(void);

/* ---- sizes and limits */
enum {
    RAPID_TEXT_LIMIT = 32768,  /* bytes of a text */
    RAPID_WORD_LIMIT = 8192,   /* words of a text */
    RAPID_NAME_LIMIT = 32,     /* characters of a name */
    RAPID_STORE_WORDS = 16384, /* words that each store must have */
    RAPID_STORE_BYTES = 65536, /* the same in bytes */
    RAPID_RECORD_BYTES = 64,   /* the record that rapid_run writes, eight bytes a field */
    RAPID_DEPTH_LIMIT = 64,    /* live calls, main's own included */
    RAPID_MODULE_WORD_LIMIT = 1024, /* words of a module's data; in a class each module has as many in the list for data */
    RAPID_CLASS_LIMIT = 64,    /* modules of a class */
    RAPID_ENTRY_BYTES = 12,    /* an entry of a listing */
    RAPID_ANSWER_BYTES = 12,   /* the end of a listing */
    RAPID_MARKING_BYTES = 8    /* the answer of rapid_mark */
};

/* ---- the record */
/* How a run ended; what the offset is then. */
enum rapid_ending {
    RAPID_REFUSED,          /* the module is refused: by the refusal, all other counts 0 */
    RAPID_RETURNED,         /* main returned: 0 */
    RAPID_EXITED,           /* EXIT: of EXIT */
    RAPID_ERROR_UNHANDLED,  /* an error that no routine handled: the statement it arose in */
    RAPID_FUNCTION_ENDED,   /* a FUNC came to its list's end: the word there */
    RAPID_STEPS_SPENT,      /* the allowance: the next step's place */
    RAPID_DEPTH_SPENT,      /* a call beyond the depth: the callee */
    RAPID_NO_INPUT_LEFT,    /* TPReadNum: the statement */
    RAPID_NO_OUTPUT_ROOM,   /* a whole line does not fit: the statement */
    RAPID_ABORTED,          /* the pointer was moved to main, all UNDO lists are done: 0 */
    RAPID_UNDO_SPENT        /* the UNDO allowance: the next UNDO step's place */
};

/* Why a module is refused; what the offset is then. */
enum rapid_refusal {
    RAPID_NOT_REFUSED = 0,
    RAPID_STORE_TOO_SMALL = 1,     /* 0 */
    RAPID_DEPTH_OUT_OF_RANGE = 2,  /* 0 */
    RAPID_TEXT_TOO_LONG = 3,       /* RAPID_TEXT_LIMIT */
    RAPID_BYTE_NOT_PERMITTED = 4,  /* of the byte */
    RAPID_MALFORMED_WORD = 5,      /* of the word's start */
    RAPID_NUMBER_TOO_LARGE = 6,    /* of the number */
    RAPID_TOO_MANY_WORDS = 7,      /* of word RAPID_WORD_LIMIT + 1 */
    RAPID_WORD_OUT_OF_PLACE = 8,   /* of the word, or the text's length */
    RAPID_NESTED_TOO_DEEP = 9,     /* of the opening word; for an IF, its THEN */
    RAPID_DECLARED_TWICE = 10,     /* of the later name */
    RAPID_UNKNOWN_NAME = 11,       /* of the name */
    RAPID_WRONG_KIND = 12,         /* of the name */
    RAPID_WRONG_TYPE = 13,         /* of the expression's or target's first word; for a function's result, the callee */
    RAPID_WRONG_COUNT = 14,        /* of the callee */
    RAPID_BAD_CONSTANT = 15,       /* of its expression */
    RAPID_LIMIT_CROSSED = 16,      /* of the name that crosses it */
    RAPID_BARRED_HERE = 17,        /* of the word; for a call in UNDO, the callee */
    RAPID_NO_MAIN = 18,            /* 0 */
    RAPID_HIDING_LOOP = 19,        /* of the FOR variable; it comes between 10 and 11 */
    /* of a class, after 2 and in this order, at no place */
    RAPID_LENGTHS_DIFFER = 20,     /* the lengths do not add up to the text */
    RAPID_TOO_MANY_MODULES = 21,   /* more than RAPID_CLASS_LIMIT */
    RAPID_LIST_TOO_SHORT = 27      /* the list for the records or that for the data */
};

/* Numbers in ERRNO that the language raises itself; RAISE gives 1 to 90. */
enum rapid_error {
    RAPID_ERR_OVERFLOW = 1001,
    RAPID_ERR_DIVZERO = 1002,
    RAPID_ERR_OUTOFBND = 1003,
    RAPID_ERR_ILLRAISE = 1004
};

struct rapid_record {
    uint64_t ending;       /* enum rapid_ending */
    uint64_t refusal;      /* enum rapid_refusal */
    uint64_t offset;       /* a place in the text, see above */
    uint64_t steps;        /* steps made */
    uint64_t error;        /* ERRNO: the latest error's number, 0 before any */
    uint64_t output;       /* bytes of output written */
    uint64_t inputs;       /* inputs used */
    uint64_t module_words; /* words of the module's data, at the front of the value store */
};

/* ---- a call */
struct rapid_lent {
    const uint8_t *text; /* the module: ASCII, in strings and comments Latin-1 */
    size_t text_length;
    uint32_t steps; /* allowance */
    uint32_t depth; /* 1 to RAPID_DEPTH_LIMIT */
    const int32_t *inputs; /* what TPReadNum reads, in order */
    size_t input_count;
    uint8_t *output; /* what TPWrite and TPReadNum write; no terminating 0 is added */
    size_t output_length;
    int32_t *code; /* RAPID_STORE_WORDS words each. After the call the value store begins with the module's data, in order of declaration (TRUE is 1), and is 0 behind
                      them; the code store is 0. Words past RAPID_STORE_WORDS are not touched. */
    size_t code_words;
    int32_t *values;
    size_t value_words;
};

/* Checks a module and runs it. 1, and the record is filled in, whether the module is refused or not; 0, and nothing is touched, where `record` or `lent` is NULL, where
 * a pointer is NULL whose length is not 0, where a slice has more than PTRDIFF_MAX bytes, and where two of the slices, `*lent` and `*record` overlap. */
int rapid_call(const struct rapid_lent *lent, struct rapid_record *record);

/* The same, as the proved code takes it: bytes for words, four each, low byte first. 0, and nothing is touched, where the record has fewer than RAPID_RECORD_BYTES. */
uint32_t rapid_run(const uint8_t *text, size_t text_length, uint32_t steps, uint32_t depth, const uint8_t *inputs, size_t inputs_length, uint8_t *output, size_t output_length, uint8_t *code,
                   size_t code_length, uint8_t *values, size_t values_length, uint8_t *record, size_t record_length);

/* ---- a call that moves the pointer to main
 * If the allowance is at least `at` and that many steps would end the run with RAPID_STEPS_SPENT, every live routine is dropped there instead, innermost first, and each
 * runs its UNDO list, if it has one; all lists together take at most `undo` steps. The run then ends with RAPID_ABORTED, or with RAPID_UNDO_SPENT, RAPID_NO_INPUT_LEFT or
 * RAPID_NO_OUTPUT_ROOM inside a list; the record's steps count those of the lists too. Else it is the run of rapid_call. docs/UNDO.md says it for a trainer. */

/* As rapid_call, with the step at which the pointer is moved, and the UNDO allowance. */
int rapid_call_until(const struct rapid_lent *lent, uint32_t at, uint32_t undo, struct rapid_record *record);

/* The same, as the proved code takes it. `flags` is 0: with a flag that is not known it returns 0 and touches nothing. */
uint32_t rapid_run_until(const uint8_t *text, size_t text_length, uint32_t flags, uint32_t steps, uint32_t depth, uint32_t at, uint32_t undo, const uint8_t *inputs, size_t inputs_length,
                         uint8_t *output, size_t output_length, uint8_t *code, size_t code_length, uint8_t *values, size_t values_length, uint8_t *record, size_t record_length);

/* ---- a call that marks another simulator
 * Another simulator's listing of a run: the place of each counted step, in order, as an offset in the text (where the record's offset is that of a step, it is the same number). A step
 * in which an error arose is counted; one that ended the run with 6, 7 or 8 is not. The call is that of rapid_call, and besides says whether the listing is that of the whole run, whatever
 * its ending, or else where the two part. docs/MARKING.md says it for a trainer. */
struct rapid_marking {
    uint32_t same;  /* 1 where the listing is that of the run, else 0 */
    uint32_t index; /* how many places they have in common at their beginning: else the index, from 0, of the first that differs, is missing or is surplus */
};

/* As rapid_call, with the listing. 1, and record and marking are filled in; where the module is refused the marking is untouched. 0, and nothing is touched, where `marking` is NULL, and
 * where rapid_call would refuse slices like these. */
int rapid_call_mark(const struct rapid_lent *lent, const uint32_t *places, size_t place_count, struct rapid_record *record, struct rapid_marking *marking);

/* The same, as the proved code takes it: four bytes a place, low byte first; what is left of a part word is not read. `answer` gets the two numbers of struct rapid_marking, four bytes
 * each; bytes past RAPID_MARKING_BYTES are not touched. 0, and nothing is touched, where the record has fewer than RAPID_RECORD_BYTES or the answer fewer than RAPID_MARKING_BYTES. */
uint32_t rapid_mark(const uint8_t *text, size_t text_length, uint32_t steps, uint32_t depth, const uint8_t *inputs, size_t inputs_length, uint8_t *output, size_t output_length, uint8_t *code,
                    size_t code_length, uint8_t *values, size_t values_length, const uint8_t *listing, size_t listing_length, uint8_t *record, size_t record_length, uint8_t *answer,
                    size_t answer_length);

/* ---- a whole class in one call
 * Each module gets the same steps, depth and inputs, which it reads from the first on, and its share of the output: the output's length over the number of modules, fraction
 * dropped. Its record, output and data are those of rapid_call for it alone with that share. */
struct rapid_class {
    const uint8_t *texts; /* the modules back to back */
    size_t text_length;   /* of all of them */
    const uint32_t *lengths; /* of each module, in bytes */
    size_t count;            /* how many there are, RAPID_CLASS_LIMIT at most; with none the texts must be empty */
    uint32_t steps; /* for each module, as the depth and the inputs are */
    uint32_t depth;
    const int32_t *inputs;
    size_t input_count;
    uint8_t *output; /* module i's begins at i times the share; what it did not write of its share is not touched, and nothing behind the last share is */
    size_t output_length;
    int32_t *code; /* RAPID_STORE_WORDS words each, used for one module after the other. After the call both are 0 up to there. */
    size_t code_words;
    int32_t *values;
    size_t value_words;
    struct rapid_record *records; /* one a module, `count` at least; those beyond are not touched */
    size_t record_count;
    int32_t *data; /* RAPID_MODULE_WORD_LIMIT words a module: its data in order of declaration, 0 behind them; what is beyond the last module's is not touched */
    size_t data_words;
};

/* Checks and runs the modules of a class. 1, and `*refusal` is the class's refusal, RAPID_NOT_REFUSED for none: then each module has its record, where its own refusal
 * stands, if it has one. The class is refused by RAPID_STORE_TOO_SMALL, RAPID_DEPTH_OUT_OF_RANGE, RAPID_LENGTHS_DIFFER, RAPID_TOO_MANY_MODULES and RAPID_LIST_TOO_SHORT, in this
 * order: output, records and data are not touched then, and the stores are 0, but for RAPID_STORE_TOO_SMALL, which leaves them too.
 * 0, and nothing is touched, where `lent` or `refusal` is NULL and where rapid_call would refuse slices like these. */
int rapid_call_class(const struct rapid_class *lent, uint32_t *refusal);

/* The same, as the proved code takes it: lengths, inputs, stores and data as bytes, four a word, low byte first, a part word is left out; RAPID_RECORD_BYTES a record. Returns the
 * class's refusal. */
uint32_t rapid_class(const uint8_t *texts, size_t texts_length, const uint8_t *lengths, size_t lengths_length, uint32_t steps, uint32_t depth, const uint8_t *inputs, size_t inputs_length,
                     uint8_t *output, size_t output_length, uint8_t *code, size_t code_length, uint8_t *values, size_t values_length, uint8_t *records, size_t records_length, uint8_t *data,
                     size_t data_length);

/* A sentence for an ending, for a refusal, and the name of an error; NULL for any other number. */
const char *rapid_ending_sentence(uint64_t ending);
const char *rapid_refusal_sentence(uint64_t refusal);
const char *rapid_error_name(uint64_t error);

/* ---- words */
/* The kind of a word. */
enum rapid_kind { RAPID_NAME, RAPID_RESERVED, RAPID_NUMBER, RAPID_STRING, RAPID_SIGN };

struct rapid_word {
    uint32_t kind;   /* enum rapid_kind */
    uint32_t place;  /* where it starts in the text */
    uint32_t length; /* in bytes */
};

/* The end of a listing. */
struct rapid_listing {
    uint32_t words;   /* how many there are before the first refusal, those without room too */
    uint32_t refusal; /* 3 to 7, or RAPID_NOT_REFUSED */
    uint32_t offset;  /* of the refusal */
};

/* Lists a text into an array with room for so many words; as many as fit are written. No text has more words than bytes, so room for the lesser of its length and
 * RAPID_WORD_LIMIT is always enough. 1; or 0, and nothing is touched, where `listing` is NULL and where rapid_call would refuse slices like these. */
int rapid_words(const uint8_t *text, size_t text_length, struct rapid_word *words, size_t room, struct rapid_listing *listing);

/* The same, as the proved code takes it. All numbers are written as four bytes, low byte first.
 * `output`: for each word an entry: its kind, its place and its length. As many entries as fit whole; no byte after them is touched.
 * `answer`: how many words there are before the first refusal of 3 to 7 (entries that did not fit count too), the refusal and its offset. Bytes after these
 * twelve are not touched.
 * Returns 1, whether the text is refused or not; or 0 where `answer` has fewer than RAPID_ANSWER_BYTES: then nothing is touched. */
uint32_t rapid_list(const uint8_t *text, size_t text_length, uint8_t *output, size_t output_length, uint8_t *answer, size_t answer_length);

/* Fills in how many bytes the word that starts at a place covers, from the place on; or 0 where none starts there: a word is at least one byte long. Any
 * place may be asked about, one past the text too. 1; or 0, and nothing is touched, where `length` is NULL and where rapid_call would refuse slices like these. */
int rapid_word_at(const uint8_t *text, size_t text_length, size_t place, size_t *length);

/* The same, as the proved code takes it: the length is returned. */
size_t rapid_ask(const uint8_t *text, size_t text_length, size_t place);

#ifdef __cplusplus
}
#endif

#endif
