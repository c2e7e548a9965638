/* Answers case lines `list TEXT` and `at TEXT PLACE` (reference/README.md has their form) by the proved library, so that `diff` compares it with the
 * independent program. Everything is lent between guard pages (guarded.h), at each of its edges, and with different room; the host ends with a message
 * and status 1 where a call returns or writes anything else than rapid.h says. */
#include "case_lines.h"
#include "guarded.h"
#include "rapid.h"
#include <stdio.h>
#include <stdlib.h>
#include <string.h>

enum { MOST_ANSWER = 64 };
static char line[2 * MOST_TEXT + 64];
static unsigned long line_number;
static uint8_t text[MOST_TEXT];
static struct guarded lent_text, lent_out, lent_answer;

/* What the first call for a text wrote: every other call must write the same. */
static uint8_t entries[RAPID_ENTRY_BYTES * RAPID_WORD_LIMIT], answer[RAPID_ANSWER_BYTES];

static void expect(int holds, const char *otherwise) {
    if (holds)
        return;
    fprintf(stderr, "case line %lu: %s\n", line_number, otherwise);
    exit(1);
}

static uint32_t word32(const uint8_t *b) { return (uint32_t)number_at(b, 4); }

static size_t least(size_t a, size_t b) { return a < b ? a : b; }

static const uint8_t *lend_text(size_t length, enum edge edge) { return memcpy(guarded_lend(&lent_text, length, edge), text, length); }

static void expect_text_kept(size_t length) {
    expect(memcmp(lent_text.lent, text, length) == 0 && guarded_kept(&lent_text, length), "the text was written to");
}

/* One call with this room for entries and for the answer: what it returns, and that it wrote nothing but entries and answer. */
static void list_once(size_t length, size_t room, size_t answer_room, enum edge edge) {
    const uint8_t *in = lend_text(length, edge);
    uint8_t *out = guarded_lend(&lent_out, room, edge), *told = guarded_lend(&lent_answer, answer_room, edge);
    uint32_t returned = rapid_list(in, length, out, room, told, answer_room);
    int answers = answer_room >= RAPID_ANSWER_BYTES;
    expect(returned == (uint32_t)answers, "rapid_list returned neither 1, nor 0 for too short an answer");
    size_t words = answers ? word32(told) : 0;
    expect(words <= RAPID_WORD_LIMIT, "more words than a text can have");
    expect_text_kept(length);
    expect(guarded_kept(&lent_out, RAPID_ENTRY_BYTES * least(words, room / RAPID_ENTRY_BYTES)), "bytes that are no entry were written");
    expect(guarded_kept(&lent_answer, answers ? RAPID_ANSWER_BYTES : 0), "bytes beside the answer were written");
}

/* The same call again, with other room: it must write what the first one wrote, as far as there is room. */
static void list_again(size_t length, size_t room, size_t answer_room, enum edge edge) {
    list_once(length, room, answer_room, edge);
    size_t whole = least(word32(answer), room / RAPID_ENTRY_BYTES);
    expect(memcmp(lent_answer.lent, answer, RAPID_ANSWER_BYTES) == 0, "other room, other answer");
    expect(memcmp(lent_out.lent, entries, RAPID_ENTRY_BYTES * whole) == 0, "other room, other entries");
}

static void print_listing(void) {
    uint32_t words = word32(answer), refusal = word32(answer + 4);
    const char *before = "";
    for (uint32_t i = 0; i < words; i++) {
        const uint8_t *e = entries + RAPID_ENTRY_BYTES * i;
        expect(word32(e) <= RAPID_SIGN, "a kind that no word has");
        printf("%s%c@%u+%u", before, "nrdsg"[word32(e)], word32(e + 4), word32(e + 8));
        before = " ";
    }
    if (refusal)
        printf("%s!%u@%u\n", before, refusal, word32(answer + 8));
    else
        puts(words ? "" : "-");
}

static void list(size_t length) {
    /* room for every word, and for a part of one more */
    size_t enough = RAPID_ENTRY_BYTES * least(length, RAPID_WORD_LIMIT) + 7;
    list_once(length, enough, RAPID_ANSWER_BYTES, LAST_BYTE_GUARDED);
    memcpy(answer, lent_answer.lent, sizeof answer);
    size_t words = word32(answer), exact = RAPID_ENTRY_BYTES * words;
    expect(exact <= enough, "more words than bytes");
    memcpy(entries, lent_out.lent, exact);
    for (enum edge edge = 0; edge < EDGES; edge++) {
        list_again(length, exact, RAPID_ANSWER_BYTES, edge);
        list_again(length, exact / 2 + 5, RAPID_ANSWER_BYTES + 5, edge);
        list_once(length, exact, RAPID_ANSWER_BYTES - 1, edge);
    }
    list_again(length, enough, RAPID_ANSWER_BYTES, FIRST_BYTE_GUARDED);
    /* no room at all, and no memory either; and no text */
    uint8_t told[RAPID_ANSWER_BYTES];
    expect(rapid_list(length ? lend_text(length, LAST_BYTE_GUARDED) : NULL, length, NULL, 0, told, sizeof told) == 1, "NULL without room: not 1");
    expect(memcmp(told, answer, sizeof told) == 0, "NULL without room: another answer");
    expect(rapid_list(NULL, 0, NULL, 0, NULL, 0) == 0, "nothing lent at all: not 0");
    print_listing();
}

static void ask(size_t length, size_t place) {
    size_t covers = rapid_ask(lend_text(length, LAST_BYTE_GUARDED), length, place);
    expect_text_kept(length);
    expect(rapid_ask(lend_text(length, FIRST_BYTE_GUARDED), length, place) == covers, "other memory, another part");
    expect_text_kept(length);
    expect(rapid_ask(NULL, 0, place) == 0, "a word in no text");
    expect(covers == 0 || (place < length && covers <= length - place), "a word that reaches past the text");
    for (size_t i = 0; i < covers; i++)
        printf("%02x", text[place + i]);
    puts(covers ? "" : "none");
}

int main(void) {
    /* by lines, so that what was answered before a touched guard is seen */
    setvbuf(stdout, NULL, _IOLBF, BUFSIZ);
    lent_text = guarded_make(MOST_TEXT);
    lent_out = guarded_make(sizeof entries + RAPID_ENTRY_BYTES);
    lent_answer = guarded_make(MOST_ANSWER);
    while (fgets(line, sizeof line, stdin)) {
        const char *end = line;
        long length = -1;
        line_number++;
        if (strncmp(line, "list ", 5) == 0 && (length = case_text(line + 5, text, MOST_TEXT, &end)) >= 0 && *end == '\n')
            list((size_t)length);
        else if (strncmp(line, "at ", 3) == 0 && (length = case_text(line + 3, text, MOST_TEXT, &end)) >= 0 && *end == ' ')
            ask((size_t)length, strtoul(end + 1, NULL, 10));
        else
            puts("bad line");
    }
    return 0;
}
