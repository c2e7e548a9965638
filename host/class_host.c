/* Answers case lines `class ..` (reference/README.md has their form) by the call for a whole class, so that `diff` compares it with the independent program. Everything is lent between guard
 * pages (guarded.h), at each of its edges, and holds a pattern; the host ends with a message and status 1 where a call leaves a byte otherwise than request 7 says: of the texts, lengths and
 * inputs, of the output beside what each module wrote into its share, of records and data beside those of the modules, and of the stores. */
#include "class_lines.h"
#include "guarded.h"
#include <inttypes.h>
#include <stdarg.h>
#include <stdio.h>
#include <stdlib.h>
#include <string.h>

enum { MOST_ANSWER = 2 * MOST_OUTPUT + 12 * MOST_DATA / 4 + 256 * MOST_RECORDS / RAPID_RECORD_BYTES };
static char line[MOST_CLASS_LINE];
static unsigned long line_number;
static struct guarded lent_texts, lent_lengths, lent_inputs, lent_output, lent_code, lent_values, lent_records, lent_data;
static struct class_case asked;

static void expect(int holds, const char *otherwise) {
    if (holds)
        return;
    fprintf(stderr, "case line %lu: %s\n", line_number, otherwise);
    exit(1);
}

/* ---- the answer line of a call, and that of the call before */
static struct answer {
    char shown[MOST_ANSWER];
    size_t length;
} answers[2];

static void add(struct answer *to, const char *form, ...) {
    va_list words;
    va_start(words, form);
    int n = vsnprintf(to->shown + to->length, sizeof to->shown - to->length, form, words);
    va_end(words);
    expect(n >= 0 && (size_t)n < sizeof to->shown - to->length, "too long an answer");
    to->length += (size_t)n;
}

/* Fields, output and data of a module. */
static void add_module(struct answer *to, const uint8_t *record, const uint8_t *output, const uint8_t *data) {
    uint64_t written = number_at(record + 40, 8), words = number_at(record + 56, 8);
    add(to, " | ");
    for (int i = 0; i < 8; i++)
        add(to, "%" PRIu64 " ", number_at(record + 8 * i, 8));
    for (size_t i = 0; i < written; i++)
        add(to, "%02x", output[i]);
    add(to, written ? " " : "- ");
    for (size_t i = 0; i < words; i++)
        add(to, "%s%" PRId32, i ? "," : "", (int32_t)number_at(data + 4 * i, 4));
    add(to, words ? "" : "-");
}

/* ---- what a call leaves */
/* Zeros up to a store's 16,384th word, and beyond them what was lent; where it is not touched, all of what was lent. */
static void expect_store(struct guarded *g, size_t words, int touched, const char *otherwise) {
    size_t end = touched ? RAPID_STORE_BYTES : 0;
    expect(!touched || words >= RAPID_STORE_WORDS, "a store that is too small was accepted");
    expect(all_are(0, g->lent, end) && guarded_kept(g, end), otherwise);
}

static void expect_module(size_t i, size_t share) {
    const uint8_t *record = lent_records.lent + RAPID_RECORD_BYTES * i, *data = lent_data.lent + CLASS_DATA_BYTES * i;
    uint64_t written = number_at(record + 40, 8), words = number_at(record + 56, 8);
    expect(written <= share, "more output than its share");
    expect(guarded_kept_from(&lent_output, i * share + written, share - written), "output past a module's count was written");
    expect(words <= RAPID_MODULE_WORD_LIMIT, "more module words than there can be");
    expect(all_are(0, data + 4 * words, CLASS_DATA_BYTES - 4 * words), "module data past a module's words are not 0");
}

/* Whether a class can be refused by this number. */
static int is_refusal(uint32_t n) { return n == RAPID_STORE_TOO_SMALL || n == RAPID_DEPTH_OUT_OF_RANGE || n == RAPID_LENGTHS_DIFFER || n == RAPID_TOO_MANY_MODULES || n == RAPID_LIST_TOO_SHORT; }

static void expect_left(uint32_t refusal) {
    size_t modules = refusal ? 0 : asked.lengths_length / LENGTH_BYTES, share = modules ? asked.each.room / modules : 0;
    expect(memcmp(lent_texts.lent, asked.each.text, asked.each.text_length) == 0 && guarded_kept(&lent_texts, asked.each.text_length), "the texts were written to");
    expect(memcmp(lent_lengths.lent, asked.lengths, asked.lengths_length) == 0 && guarded_kept(&lent_lengths, asked.lengths_length), "the lengths were written to");
    expect(memcmp(lent_inputs.lent, asked.each.inputs, 4 * asked.each.input_count) == 0 && guarded_kept(&lent_inputs, 4 * asked.each.input_count), "the inputs were written to");
    expect(!refusal || is_refusal(refusal), "no such refusal of a class");
    expect(RAPID_RECORD_BYTES * modules <= asked.records_length && CLASS_DATA_BYTES * modules <= asked.data_length, "a list that is too short was accepted");
    for (size_t i = 0; i < modules; i++)
        expect_module(i, share);
    expect(guarded_kept(&lent_output, modules * share), "output beside the shares was written");
    expect(guarded_kept(&lent_records, RAPID_RECORD_BYTES * modules), "records beside those of the modules were written");
    expect(guarded_kept(&lent_data, CLASS_DATA_BYTES * modules), "module data beside those of the modules were written");
    expect_store(&lent_code, asked.each.code_words, refusal != RAPID_STORE_TOO_SMALL, "the code store is not as the request says");
    expect_store(&lent_values, asked.each.value_words, refusal != RAPID_STORE_TOO_SMALL, "the value store is not as the request says");
}

/* ---- a case */
/* One call. `part` bytes more than whole words are lent of inputs and stores: a part word is left out. */
static void call_once(enum edge edge, size_t part, struct answer *to) {
    struct class_memory m = {.inputs_length = 4 * asked.each.input_count + part, .code_length = 4 * asked.each.code_words + part, .values_length = 4 * asked.each.value_words + part};
    m.texts = memcpy(guarded_lend(&lent_texts, asked.each.text_length, edge), asked.each.text, asked.each.text_length);
    m.lengths = memcpy(guarded_lend(&lent_lengths, asked.lengths_length, edge), asked.lengths, asked.lengths_length);
    m.inputs = memcpy(guarded_lend(&lent_inputs, m.inputs_length, edge), asked.each.inputs, 4 * asked.each.input_count);
    m.output = guarded_lend(&lent_output, asked.each.room, edge);
    m.code = guarded_lend(&lent_code, m.code_length, edge);
    m.values = guarded_lend(&lent_values, m.values_length, edge);
    m.records = guarded_lend(&lent_records, asked.records_length, edge);
    m.data = guarded_lend(&lent_data, asked.data_length, edge);
    uint32_t refusal = class_call(&asked, &m);
    expect_left(refusal);
    size_t modules = refusal ? 0 : asked.lengths_length / LENGTH_BYTES;
    to->length = 0;
    add(to, "%" PRIu32, refusal);
    for (size_t i = 0; i < modules; i++)
        add_module(to, m.records + RAPID_RECORD_BYTES * i, m.output + asked.each.room / modules * i, m.data + CLASS_DATA_BYTES * i);
}

static void make_guards(void) {
    lent_texts = guarded_make(MOST_TEXT);
    lent_lengths = guarded_make(MOST_LENGTHS);
    lent_inputs = guarded_make(4 * MOST_INPUTS + 4);
    lent_output = guarded_make(MOST_OUTPUT);
    lent_code = guarded_make(MOST_STORE_BYTES);
    lent_values = guarded_make(MOST_STORE_BYTES);
    lent_records = guarded_make(MOST_RECORDS);
    lent_data = guarded_make(MOST_DATA);
}

/* With the word `unwritten`, for valgrind, unwritten memory is lent in place of that between guards. */
int main(int count, char **words) {
    int unwritten = count == 2 && strcmp(words[1], "unwritten") == 0;
    enum edge one = unwritten ? UNWRITTEN : LAST_BYTE_GUARDED, other = unwritten ? UNWRITTEN : FIRST_BYTE_GUARDED;
    if (!unwritten)
        make_guards();
    /* by lines, so that what was answered before a touched guard is seen */
    setvbuf(stdout, NULL, _IOLBF, BUFSIZ);
    while (fgets(line, sizeof line, stdin)) {
        line_number++;
        if (!class_read(line, &asked)) {
            puts("bad line");
            continue;
        }
        call_once(one, 0, &answers[0]);
        call_once(other, 3, &answers[1]);
        expect(answers[0].length == answers[1].length && memcmp(answers[0].shown, answers[1].shown, answers[0].length) == 0, "other memory, another answer");
        puts(answers[0].shown);
    }
    return 0;
}
