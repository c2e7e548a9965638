/* What rapid.h says of its wrappers and sentences: which calls are made, and which are not and touch nothing. */
#include "rapid.h"
#include <stdio.h>
#include <stdlib.h>
#include <string.h>

static const char module[] = "MODULE m VAR num n := 3; VAR bool b := TRUE; PROC main() TPReadNum n, \"n\"; ENDPROC ENDMODULE";
static const int32_t inputs[] = {-5};
static int32_t code[RAPID_STORE_WORDS], values[RAPID_STORE_WORDS];
static uint8_t output[16];
static struct rapid_lent good;
static struct rapid_record record;

static void expect(int holds, const char *what) {
    if (holds)
        return;
    fprintf(stderr, "not so: %s\n", what);
    exit(1);
}

/* A call that is not made leaves the record as it was. */
static void expect_not_made(struct rapid_lent lent, const char *what) {
    struct rapid_record before;
    memset(&record, 0x5a, sizeof record);
    before = record;
    expect(rapid_call(&lent, &record) == 0 && memcmp(&before, &record, sizeof record) == 0, what);
}

static void test_call(void) {
    expect(rapid_call(&good, &record) == 1, "a call is made");
    expect(record.ending == RAPID_RETURNED && record.inputs == 1 && record.output == 2 && memcmp(output, "n\n", 2) == 0, "it returns, with input and output");
    expect(record.module_words == 2 && values[0] == -5 && values[1] == 1 && values[2] == 0, "the module's data stand in the value store");
    expect(rapid_call(NULL, &record) == 0 && rapid_call(&good, NULL) == 0, "nothing lent, or no record");
    struct rapid_lent lent = good;
    lent.text = NULL;
    expect_not_made(lent, "no text");
    lent.text_length = 0;
    expect(rapid_call(&lent, &record) == 1 && record.refusal == RAPID_WORD_OUT_OF_PLACE && record.offset == 0, "an empty text may be NULL: 8 at 0");
    lent = good, lent.inputs = NULL;
    expect_not_made(lent, "no inputs");
    lent.input_count = 0;
    expect(rapid_call(&lent, &record) == 1 && record.ending == RAPID_NO_INPUT_LEFT, "no inputs may be NULL");
    lent = good, lent.output = NULL;
    expect_not_made(lent, "no output");
    lent.output_length = 0;
    expect(rapid_call(&lent, &record) == 1 && record.ending == RAPID_NO_OUTPUT_ROOM, "no output may be NULL");
    lent = good, lent.code = NULL;
    expect_not_made(lent, "no code store");
    lent = good, lent.values = NULL;
    expect_not_made(lent, "no value store");
    lent = good, lent.input_count = PTRDIFF_MAX / sizeof *inputs + 1;
    expect_not_made(lent, "more inputs than a slice has");
    lent = good, lent.text_length = (size_t)PTRDIFF_MAX + 1;
    expect_not_made(lent, "more text than a slice has");
    lent = good, lent.code_words = SIZE_MAX / sizeof *code;
    expect_not_made(lent, "more words than a slice has");
    lent = good, lent.value_words--;
    expect(rapid_call(&lent, &record) == 1 && record.refusal == RAPID_STORE_TOO_SMALL, "a small store is refused by the bench itself");
}

static int32_t both[2 * RAPID_STORE_WORDS];

/* Slices that share a byte, at either end of one; and those that only touch. */
static void test_overlap(void) {
    struct rapid_lent lent = good;
    lent.code = lent.values = both;
    expect_not_made(lent, "one store for both");
    lent.values = both + RAPID_STORE_WORDS - 1;
    expect_not_made(lent, "the value store begins in the code store");
    lent.code = both + RAPID_STORE_WORDS - 1, lent.values = both;
    expect_not_made(lent, "the code store begins in the value store");
    lent.code = both + RAPID_STORE_WORDS;
    expect(rapid_call(&lent, &record) == 1 && record.ending == RAPID_RETURNED, "stores side by side");
    lent = good, lent.output = (uint8_t *)both, lent.output_length = 5, lent.inputs = both + 1;
    expect_not_made(lent, "the output ends in the inputs");
    lent.output_length = 4, both[1] = 2;
    expect(rapid_call(&lent, &record) == 1 && record.ending == RAPID_RETURNED, "the output ends before the inputs");
    lent = good, lent.text = lent.output, lent.text_length = 1;
    expect_not_made(lent, "the text stands in the output");
    lent = good, lent.output = (uint8_t *)&record + sizeof record - 1, lent.output_length = 1;
    expect_not_made(lent, "the record ends in the output");
    lent.output_length = 0;
    expect(rapid_call(&lent, &record) == 1 && record.ending == RAPID_NO_OUTPUT_ROOM, "an output of no bytes overlaps nothing");
    lent = good, lent.output = (uint8_t *)&lent, lent.output_length = 1;
    expect(rapid_call(&lent, &record) == 0, "the output stands in what lends it");
}

/* The pointer is moved to main; and what the wrapper does not let through. */
static void test_until(void) {
    static const char undoes[] = "MODULE m PROC main() WHILE TRUE DO ENDWHILE UNDO TPWrite \"off\"; ENDPROC ENDMODULE";
    struct rapid_lent lent = good;
    lent.text = (const uint8_t *)undoes, lent.text_length = sizeof undoes - 1;
    expect(rapid_call_until(&lent, 5, 2, &record) == 1 && record.ending == RAPID_ABORTED && record.offset == 0 && record.steps == 7 && record.output == 4, "an UNDO list is run");
    expect(rapid_call_until(&lent, 5, 1, &record) == 1 && record.ending == RAPID_UNDO_SPENT && record.steps == 6, "the UNDO steps are spent");
    expect(rapid_call_until(&lent, lent.steps + 1, 2, &record) == 1 && record.ending == RAPID_STEPS_SPENT && record.output == 0, "an allowance below the step at which the pointer is moved");
    expect(rapid_call_until(&lent, 0, UINT32_MAX, &record) == 1 && record.ending == RAPID_ABORTED && record.steps == 2, "the pointer is moved before the first step");
    expect(rapid_call_until(NULL, 5, 2, &record) == 0 && rapid_call_until(&lent, 5, 2, NULL) == 0, "NULL where it may not be");
    struct rapid_record before = record;
    lent.values = lent.code;
    expect(rapid_call_until(&lent, 5, 2, &record) == 0, "one store for both");
    lent = good;
    expect(rapid_run_until(lent.text, lent.text_length, 1, 100, 4, 5, 2, NULL, 0, output, sizeof output, (uint8_t *)code, sizeof code, (uint8_t *)values, sizeof values, (uint8_t *)&record, sizeof record) == 0,
           "a flag that is not known");
    expect(memcmp(&before, &record, sizeof record) == 0, "a call that is not made touches nothing");
}

/* A listing is marked; and what the wrapper does not let through. */
static void test_mark(void) {
    static const char counts[] = "MODULE m PROC main() FOR i FROM 1 TO 2 DO ENDFOR ENDPROC ENDMODULE";
    static const uint32_t places[] = {21, 21, 21, 49, 49};
    struct rapid_lent lent = good;
    struct rapid_marking marking = {9, 9}, before;
    lent.text = (const uint8_t *)counts, lent.text_length = sizeof counts - 1;
    expect(rapid_call_mark(&lent, places, 4, &record, &marking) == 1 && record.ending == RAPID_RETURNED && record.steps == 4 && marking.same == 1 && marking.index == 4, "the listing of the run");
    expect(rapid_call_mark(&lent, places, 5, &record, &marking) == 1 && marking.same == 0 && marking.index == 4, "a place more");
    expect(rapid_call_mark(&lent, places, 3, &record, &marking) == 1 && marking.same == 0 && marking.index == 3, "a place fewer");
    expect(rapid_call_mark(&lent, places + 1, 4, &record, &marking) == 1 && marking.same == 0 && marking.index == 2, "a place that differs");
    lent.steps = 0;
    expect(rapid_call_mark(&lent, NULL, 0, &record, &marking) == 1 && record.ending == RAPID_STEPS_SPENT && marking.same == 1 && marking.index == 0, "no places may be NULL");
    memset(&marking, 0x5a, sizeof marking);
    before = marking;
    lent.text_length = 8;
    expect(rapid_call_mark(&lent, places, 4, &record, &marking) == 1 && record.refusal == RAPID_WORD_OUT_OF_PLACE && memcmp(&before, &marking, sizeof marking) == 0, "a refused module has no marks");
    struct rapid_record as_it_was = record;
    lent.text_length = sizeof counts - 1;
    expect(rapid_call_mark(NULL, places, 4, &record, &marking) == 0 && rapid_call_mark(&lent, places, 4, NULL, &marking) == 0 && rapid_call_mark(&lent, places, 4, &record, NULL) == 0 &&
               rapid_call_mark(&lent, NULL, 4, &record, &marking) == 0,
           "NULL where it may not be");
    expect(rapid_call_mark(&lent, places, PTRDIFF_MAX / sizeof *places + 1, &record, &marking) == 0, "more places than a slice has");
    expect(rapid_call_mark(&lent, (const uint32_t *)code, 4, &record, &marking) == 0 && rapid_call_mark(&lent, (const uint32_t *)&record, 1, &record, &marking) == 0 &&
               rapid_call_mark(&lent, (const uint32_t *)&marking, 1, &record, &marking) == 0,
           "the listing is written over");
    expect(rapid_call_mark(&lent, places, 4, &record, (struct rapid_marking *)values) == 0, "the answer stands in a store");
    lent.values = lent.code;
    expect(rapid_call_mark(&lent, places, 4, &record, &marking) == 0, "one store for both");
    expect(memcmp(&as_it_was, &record, sizeof record) == 0 && memcmp(&before, &marking, sizeof marking) == 0, "a call that is not made touches nothing");
}

/* ---- a class */
enum { MODULES = 3, SHARE = 5 };
static const uint32_t lengths[MODULES] = {sizeof module - 1, 3, sizeof module - 1};
static uint8_t joined[3 * sizeof module], shares[MODULES * SHARE + 1];
static struct rapid_record records[MODULES + 1];
static int32_t data[MODULES * RAPID_MODULE_WORD_LIMIT + 1];

static struct rapid_class good_class(void) {
    struct rapid_class c = {0};
    memcpy(joined, module, lengths[0]);
    memcpy(joined + lengths[0], "bad", lengths[1]);
    memcpy(joined + lengths[0] + lengths[1], module, lengths[2]);
    c.texts = joined, c.text_length = lengths[0] + lengths[1] + lengths[2];
    c.lengths = lengths, c.count = MODULES;
    c.steps = 100, c.depth = 4;
    c.inputs = inputs, c.input_count = 1;
    c.output = shares, c.output_length = sizeof shares;
    c.code = code, c.code_words = RAPID_STORE_WORDS;
    c.values = values, c.value_words = RAPID_STORE_WORDS;
    c.records = records, c.record_count = MODULES;
    c.data = data, c.data_words = MODULES * RAPID_MODULE_WORD_LIMIT;
    return c;
}

/* All that may be written holds a mark. */
static void mark_all(void) {
    memset(shares, 0x5a, sizeof shares);
    memset(code, 0x5a, sizeof code);
    memset(values, 0x5a, sizeof values);
    memset(records, 0x5a, sizeof records);
    memset(data, 0x5a, sizeof data);
}

static int all_marked(const void *bytes, size_t count) {
    const uint8_t *b = (const uint8_t *)bytes;
    while (count && *b == 0x5a)
        b++, count--;
    return count == 0;
}

/* Output, records and data are as they were; and the stores, or zeros. */
static void expect_untouched(int stores, const char *what) {
    expect(all_marked(shares, sizeof shares) && all_marked(records, sizeof records) && all_marked(data, sizeof data), what);
    expect(stores ? all_marked(code, sizeof code) && all_marked(values, sizeof values) : code[0] == 0 && values[0] == 0 && code[RAPID_STORE_WORDS - 1] == 0 && values[RAPID_STORE_WORDS - 1] == 0, what);
}

static void expect_refused(struct rapid_class c, uint32_t number, const char *what) {
    uint32_t refusal = 99;
    mark_all();
    expect(rapid_call_class(&c, &refusal) == 1 && refusal == number, what);
    expect_untouched(number == RAPID_STORE_TOO_SMALL, what);
}

static void expect_no_class(struct rapid_class c, const char *what) {
    uint32_t refusal = 99;
    mark_all();
    expect(rapid_call_class(&c, &refusal) == 0 && refusal == 99, what);
    expect_untouched(1, what);
}

static void test_class(void) {
    struct rapid_class c = good_class();
    uint32_t refusal = 99;
    mark_all();
    expect(rapid_call_class(&c, &refusal) == 1 && refusal == RAPID_NOT_REFUSED, "a class is run");
    expect(records[0].ending == RAPID_RETURNED && records[2].ending == RAPID_RETURNED && records[2].inputs == 1, "each module is run, and reads the inputs from the first on");
    expect(records[1].ending == RAPID_REFUSED && records[1].refusal == RAPID_WORD_OUT_OF_PLACE && records[1].offset == 0, "one is refused, at its own place");
    expect(memcmp(shares, "n\n", 2) == 0 && memcmp(shares + 2 * SHARE, "n\n", 2) == 0, "each writes into its share");
    expect(all_marked(shares + 2, 2 * SHARE - 2) && all_marked(shares + 2 * SHARE + 2, SHARE - 1), "and nowhere else");
    expect(data[0] == -5 && data[1] == 1 && data[2] == 0 && data[RAPID_MODULE_WORD_LIMIT - 1] == 0, "its data stand in the list");
    expect(data[RAPID_MODULE_WORD_LIMIT] == 0 && data[2 * RAPID_MODULE_WORD_LIMIT] == -5, "a refused one has none");
    expect(all_marked(records + MODULES, sizeof *records) && all_marked(data + MODULES * RAPID_MODULE_WORD_LIMIT, sizeof *data), "nothing behind the last module is written");
    expect(code[0] == 0 && values[0] == 0 && values[RAPID_STORE_WORDS - 1] == 0, "the stores are 0");
    c.output = NULL, c.output_length = 0;
    expect(rapid_call_class(&c, &refusal) == 1 && refusal == 0 && records[0].ending == RAPID_NO_OUTPUT_ROOM, "no output may be NULL");
}

static void test_no_class(void) {
    struct rapid_class c = {0};
    uint32_t refusal = 99;
    c.depth = 4, c.code = code, c.code_words = RAPID_STORE_WORDS, c.values = values, c.value_words = RAPID_STORE_WORDS;
    mark_all();
    expect(rapid_call_class(&c, &refusal) == 1 && refusal == RAPID_NOT_REFUSED, "no modules, and NULL for all that has no length");
    expect_untouched(0, "no modules: the stores are 0");
    expect(rapid_call_class(NULL, &refusal) == 0 && rapid_call_class(&c, NULL) == 0, "NULL where it may not be");
    c = good_class(), c.value_words--, c.depth = 0;
    expect_refused(c, RAPID_STORE_TOO_SMALL, "a small store, before all else");
    c = good_class(), c.depth = 65, c.text_length--;
    expect_refused(c, RAPID_DEPTH_OUT_OF_RANGE, "depth 65");
    c = good_class(), c.text_length--, c.record_count = 0;
    expect_refused(c, RAPID_LENGTHS_DIFFER, "a byte less than the lengths");
    static const uint32_t many[RAPID_CLASS_LIMIT + 1];
    c = good_class(), c.text_length = 0, c.lengths = many, c.count = RAPID_CLASS_LIMIT + 1;
    expect_refused(c, RAPID_TOO_MANY_MODULES, "65 modules");
    c = good_class(), c.record_count--;
    expect_refused(c, RAPID_LIST_TOO_SHORT, "a record too few");
    c = good_class(), c.data_words--;
    expect_refused(c, RAPID_LIST_TOO_SHORT, "a word of data too few");
    c = good_class(), c.texts = NULL;
    expect_no_class(c, "no texts");
    c = good_class(), c.lengths = NULL;
    expect_no_class(c, "no lengths");
    c = good_class(), c.records = NULL;
    expect_no_class(c, "no records");
    c = good_class(), c.data = NULL;
    expect_no_class(c, "no data");
    c = good_class(), c.count = PTRDIFF_MAX / sizeof *lengths + 1;
    expect_no_class(c, "more lengths than a slice has");
    c = good_class(), c.record_count = PTRDIFF_MAX / sizeof *records + 1;
    expect_no_class(c, "more records than a slice has");
    c = good_class(), c.data_words = SIZE_MAX / sizeof *data;
    expect_no_class(c, "more data than a slice has");
    c = good_class(), c.lengths = (const uint32_t *)data;
    expect_no_class(c, "the lengths stand in the data");
    c = good_class(), c.output = (uint8_t *)records + sizeof records - sizeof *records - 1, c.output_length = 1;
    expect_no_class(c, "the output stands in the last record");
    c = good_class(), c.values = code;
    expect_no_class(c, "one store for both");
    c = good_class(), c.texts = (const uint8_t *)values;
    expect_no_class(c, "the texts stand in a store");
    c = good_class();
    expect(rapid_call_class(&c, (uint32_t *)&c.depth) == 0 && c.depth == 4, "the refusal stands in what lends");
    expect(rapid_call_class(&c, (uint32_t *)records) == 0, "the refusal stands in a record");
}

static void test_words(void) {
    struct rapid_word words[2] = {{9, 9, 9}, {9, 9, 9}};
    struct rapid_listing listing;
    const uint8_t *text = (const uint8_t *)"n := 5x";
    expect(rapid_words(text, 7, words, 1, &listing) == 1 && listing.words == 2 && listing.refusal == RAPID_MALFORMED_WORD && listing.offset == 5, "a listing that ends with a refusal");
    expect(words[0].kind == RAPID_NAME && words[0].place == 0 && words[0].length == 1 && words[1].kind == 9, "a word that fits, and nothing behind it");
    expect(rapid_words(text, 7, NULL, 0, &listing) == 1 && listing.words == 2, "no room may be NULL");
    expect(rapid_words(text, 7, NULL, 1, &listing) == 0 && rapid_words(NULL, 7, words, 2, &listing) == 0 && rapid_words(text, 7, words, 2, NULL) == 0, "NULL where it may not be");
    expect(rapid_words((const uint8_t *)&words[1], 1, words, 2, &listing) == 0 && rapid_words((const uint8_t *)&listing, 1, words, 2, &listing) == 0, "the text is written over");
    expect(rapid_words(text, 7, words, PTRDIFF_MAX / sizeof *words + 1, &listing) == 0, "more room than a slice has");
    expect(rapid_ask(text, 7, 2) == 2 && rapid_ask(text, 7, 3) == 0 && rapid_ask(text, 7, 5) == 0 && rapid_ask(NULL, 0, 0) == 0, "words that start at a place");
}

static void test_word_at(void) {
    const uint8_t *text = (const uint8_t *)"n := 5x";
    size_t length = 9;
    expect(rapid_word_at(text, 7, 2, &length) == 1 && length == 2, "a word starts there");
    expect(rapid_word_at(text, 7, 3, &length) == 1 && length == 0, "none starts there");
    length = 9;
    expect(rapid_word_at(text, 7, SIZE_MAX, &length) == 1 && length == 0, "any place may be asked about");
    expect(rapid_word_at(NULL, 0, 0, &length) == 1 && length == 0, "an empty text may be NULL");
    length = 9;
    expect(rapid_word_at(NULL, 7, 2, &length) == 0 && rapid_word_at(text, 7, 2, NULL) == 0, "NULL where it may not be");
    expect(rapid_word_at(text, (size_t)PTRDIFF_MAX + 1, 2, &length) == 0 && rapid_word_at((const uint8_t *)&length, 1, 0, &length) == 0 && length == 9, "a call that is not made touches nothing");
}

static void test_sentences(void) {
    for (uint64_t i = 0; i <= RAPID_UNDO_SPENT; i++)
        expect(rapid_ending_sentence(i) != NULL, "a sentence for each ending");
    for (uint64_t i = 1; i <= RAPID_TOO_MANY_MODULES; i++)
        expect(rapid_refusal_sentence(i) != NULL, "a sentence for each refusal");
    expect(rapid_refusal_sentence(RAPID_LIST_TOO_SHORT) != NULL, "a sentence for each refusal");
    for (uint64_t i = RAPID_ERR_OVERFLOW; i <= RAPID_ERR_ILLRAISE; i++)
        expect(rapid_error_name(i) != NULL, "a name for each error");
    expect(!rapid_ending_sentence(RAPID_UNDO_SPENT + 1) && !rapid_refusal_sentence(RAPID_NOT_REFUSED) && !rapid_refusal_sentence(RAPID_TOO_MANY_MODULES + 1) && !rapid_refusal_sentence(RAPID_LIST_TOO_SHORT + 1), "NULL for any other number");
    expect(!rapid_error_name(7) && !rapid_error_name(1000) && !rapid_error_name(1005) && !rapid_ending_sentence(UINT64_MAX), "NULL for any other number");
}

int main(void) {
    struct rapid_lent lent = {(const uint8_t *)module, sizeof module - 1, 100, 4, inputs, 1, output, sizeof output, code, RAPID_STORE_WORDS, values, RAPID_STORE_WORDS};
    good = lent;
    test_call();
    test_overlap();
    test_until();
    test_mark();
    test_class();
    test_no_class();
    test_words();
    test_word_at();
    expect(rapid_version() == RAPID_VERSION, "the library is of the header's version");
    test_sentences();
    puts("rapid.h: calls, words and sentences as it says");
    return 0;
}
