/* Answers case lines `run TEXT STEPS DEPTH INPUTS OUTLEN CODELEN VALUELEN [AT UNDO]` by the whole call, and `mark .. LISTING` by that which marks a listing (reference/README.md has
 * their form), so that `diff` compares them with the independent program. Everything is lent between guard pages (guarded.h), at each of its edges; the host ends with a message and status 1
 * where a call returns anything else than the paper says, leaves another store than module words and zeros, or writes a byte that it may not. */
#include "case_call.h"
#include "guarded.h"
#include <stdio.h>
#include <stdlib.h>
#include <string.h>

static char line[MOST_LINE];
static unsigned long line_number;
static struct guarded lent_text, lent_inputs, lent_output, lent_code, lent_values, lent_record, lent_listing, lent_answer;

/* One case, and the first call's answer to it. */
static struct call_case asked;
static uint64_t fields[8];
static uint8_t output[MOST_OUTPUT];
static int32_t kept[RAPID_MODULE_WORD_LIMIT];
static uint32_t marking[2]; /* of a case with a listing */

static void expect(int holds, const char *otherwise) {
    if (holds)
        return;
    fprintf(stderr, "case line %lu: %s\n", line_number, otherwise);
    exit(1);
}

/* A store after the call: so many words kept, zeros up to its 16,384th word, and beyond them what was lent. A refused store that is too small is untouched. */
static void expect_store(struct guarded *g, size_t words, size_t kept_words, int touched, const char *otherwise) {
    size_t end = touched ? RAPID_STORE_BYTES : 0;
    expect(!touched || words >= RAPID_STORE_WORDS, "a store that is too small was accepted");
    expect(!touched || all_are(0, g->lent + 4 * kept_words, end - 4 * kept_words), otherwise);
    expect(guarded_kept(g, end), otherwise);
}

/* Lends memory for the case: text and inputs filled in, stores and inputs with `part` bytes more, and so many for the record. */
static struct case_memory lend(enum edge edge, size_t part, size_t record_length) {
    struct case_memory m = {.inputs_length = 4 * asked.input_count + part, .code_length = 4 * asked.code_words + part, .values_length = 4 * asked.value_words + part, .record_length = record_length};
    m.text = memcpy(guarded_lend(&lent_text, asked.text_length, edge), asked.text, asked.text_length);
    m.inputs = memcpy(guarded_lend(&lent_inputs, m.inputs_length, edge), asked.inputs, 4 * asked.input_count);
    m.output = guarded_lend(&lent_output, asked.room, edge);
    m.code = guarded_lend(&lent_code, m.code_length, edge);
    m.values = guarded_lend(&lent_values, m.values_length, edge);
    m.record = guarded_lend(&lent_record, m.record_length, edge);
    return m;
}

/* Lends memory for a listing and its answer. Where a part is lent, the listing's part word becomes three bytes, which are left out as well. */
static struct case_marking lend_listing(enum edge edge, size_t part, size_t answer_length) {
    struct case_marking k = {.listing_length = asked.listing_length + (part ? 3 - asked.listing_length % 4 : 0), .answer_length = answer_length};
    k.listing = memcpy(guarded_lend(&lent_listing, k.listing_length, edge), asked.listing, asked.listing_length);
    k.answer = guarded_lend(&lent_answer, k.answer_length, edge);
    return k;
}

/* What a call leaves of a listing, which is only read, and of its answer, which is untouched where the module is refused. */
static void expect_marking(void) {
    expect(memcmp(lent_listing.lent, asked.listing, asked.listing_length) == 0 && guarded_kept(&lent_listing, asked.listing_length), "the listing was written to");
    expect(guarded_kept(&lent_answer, lent_record.lent[0] == RAPID_REFUSED ? 0 : RAPID_MARKING_BYTES), "bytes beside the answer of marking were written");
}

/* The call that the case asks for. bench/compare-plain tries a bench without the one that marks. */
static uint32_t made(uint32_t flags, const struct case_memory *m, const struct case_marking *k) {
#ifndef WITHOUT_MARKING
    if (asked.marks)
        return case_mark(&asked, m, k);
#endif
    (void)k;
    return case_call(&asked, flags, m);
}

/* One call. `part` bytes more than whole words are lent of inputs and stores: a part word is left out. */
static void call_once(enum edge edge, size_t part) {
    struct case_memory m = lend(edge, part, RAPID_RECORD_BYTES + part);
    struct case_marking k = {0};
    if (asked.marks)
        k = lend_listing(edge, part, RAPID_MARKING_BYTES + part);
    expect(made(0, &m, &k) == 1, "the call did not return 1");
    if (asked.marks)
        expect_marking();
    expect(memcmp(lent_text.lent, asked.text, asked.text_length) == 0 && guarded_kept(&lent_text, asked.text_length), "the text was written to");
    expect(memcmp(lent_inputs.lent, asked.inputs, 4 * asked.input_count) == 0 && guarded_kept(&lent_inputs, 4 * asked.input_count), "the inputs were written to");
    expect(guarded_kept(&lent_record, RAPID_RECORD_BYTES), "bytes beside the record were written");
    size_t written = (size_t)number_at(lent_record.lent + 40, 8), words = (size_t)number_at(lent_record.lent + 56, 8);
    expect(written <= asked.room && guarded_kept(&lent_output, written), "output past the count was written");
    expect(words <= RAPID_MODULE_WORD_LIMIT, "more module words than there can be");
    int touched = number_at(lent_record.lent + 8, 8) != 1;
    expect_store(&lent_code, asked.code_words, 0, touched, "the code store is not as the paper says");
    expect_store(&lent_values, asked.value_words, touched ? words : 0, touched, "the value store is not as the paper says");
}

static void keep_answer(void) {
    for (int i = 0; i < 8; i++)
        fields[i] = number_at(lent_record.lent + 8 * i, 8);
    memcpy(output, lent_output.lent, fields[5]);
    for (size_t i = 0; i < fields[7]; i++)
        kept[i] = (int32_t)number_at(lent_values.lent + 4 * i, 4);
    for (int i = 0; i < 2 && asked.marks && fields[0] != RAPID_REFUSED; i++)
        marking[i] = (uint32_t)number_at(lent_answer.lent + 4 * i, 4);
}

static void expect_same(void) {
    for (int i = 0; i < 8; i++)
        expect(fields[i] == number_at(lent_record.lent + 8 * i, 8), "other memory, another record");
    expect(memcmp(output, lent_output.lent, fields[5]) == 0, "other memory, another output");
    for (size_t i = 0; i < fields[7]; i++)
        expect(kept[i] == (int32_t)number_at(lent_values.lent + 4 * i, 4), "other memory, other data");
    for (int i = 0; i < 2 && asked.marks && fields[0] != RAPID_REFUSED; i++)
        expect(marking[i] == number_at(lent_answer.lent + 4 * i, 4), "other memory, other marks");
}

/* A call that is not answered: 0, and nothing is touched. */
static void expect_none(enum edge edge, uint32_t flags, size_t record_length, size_t answer_length, const char *otherwise) {
    struct case_memory m = lend(edge, 0, record_length);
    struct case_marking k = {0};
    if (asked.marks)
        k = lend_listing(edge, 0, answer_length);
    expect(made(flags, &m, &k) == 0, otherwise);
    expect(!asked.marks || (guarded_kept(&lent_answer, 0) && guarded_kept(&lent_listing, asked.listing_length)), "touched though there is no answer");
    expect(guarded_kept(&lent_output, 0) && guarded_kept(&lent_code, 0) && guarded_kept(&lent_values, 0) && guarded_kept(&lent_record, 0), "touched though there is no answer");
}

/* Fewer than 64 bytes for the record, or 8 for the answer of marking; and for a case with K each flag, since none has a meaning. */
static void call_for_nothing(enum edge edge) {
    expect_none(edge, 0, RAPID_RECORD_BYTES - 1, RAPID_MARKING_BYTES, "the call did not return 0 for too short a record");
    if (asked.marks)
        expect_none(edge, 0, RAPID_RECORD_BYTES, RAPID_MARKING_BYTES - 1, "the call did not return 0 for too short an answer of marking");
    if (asked.aborts)
        expect_none(edge, (uint32_t)1 << line_number / 16 % 32, RAPID_RECORD_BYTES, 0, "the call did not return 0 for a flag");
}

static void print_answer(void) {
    for (int i = 0; i < 8; i++)
        printf("%llu ", (unsigned long long)fields[i]);
    for (size_t i = 0; i < fields[5]; i++)
        printf("%02x", output[i]);
    printf("%s ", fields[5] ? "" : "-");
    for (size_t i = 0; i < fields[7]; i++)
        printf("%s%d", i ? "," : "", kept[i]);
    fputs(fields[7] ? "" : "-", stdout);
    if (asked.marks && fields[0] == RAPID_REFUSED)
        fputs(" - -", stdout);
    else if (asked.marks)
        printf(" %u %u", marking[0], marking[1]);
    putchar('\n');
}

static void make_guards(void) {
    lent_text = guarded_make(MOST_TEXT);
    lent_inputs = guarded_make(4 * MOST_INPUTS + 4);
    lent_output = guarded_make(MOST_OUTPUT);
    lent_code = guarded_make(MOST_STORE_BYTES);
    lent_values = guarded_make(MOST_STORE_BYTES);
    lent_record = guarded_make(RAPID_RECORD_BYTES + 4);
    lent_listing = guarded_make(MOST_LISTING + 4);
    lent_answer = guarded_make(RAPID_MARKING_BYTES + 4);
}

/* With the word `unwritten`, for valgrind, unwritten memory is lent in place of that between guards. */
int main(int count, char **words) {
    int unwritten = count == 2 && strcmp(words[1], "unwritten") == 0;
    enum edge one = unwritten ? UNWRITTEN : LAST_BYTE_GUARDED, other = unwritten ? UNWRITTEN : FIRST_BYTE_GUARDED;
    if (!unwritten)
        make_guards();
    /* by lines, so that what was answered before a touched guard is seen */
    setvbuf(stdout, NULL, _IOLBF, BUFSIZ);
    while (fgets(line, sizeof line, stdin)) {
        line_number++;
        if (!case_read(line, &asked)) {
            puts("bad line");
            continue;
        }
        call_once(one, 0);
        keep_answer();
        call_once(other, 3);
        expect_same();
        if (line_number % 16 == 0)
            call_for_nothing(one);
        print_answer();
    }
    return 0;
}
