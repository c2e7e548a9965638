#include "rapid_names.h"
#include <string.h>

/* A module that ends behind a declaration: all before it stays, and this comes behind it. No module that goes on there is shorter. */
static const char ending[] = "PROC main()ENDPROC ENDMODULE";

static uint8_t shortened[RAPID_TEXT_LIMIT];
static int32_t code[RAPID_STORE_WORDS], values[RAPID_STORE_WORDS];
static struct rapid_word words[RAPID_WORD_LIMIT];
static uint32_t behind[RAPID_WORD_LIMIT]; /* each declaration: where the text goes on behind its semicolon */

static int is(const uint8_t *text, const struct rapid_word *word, const char *spelling) {
    if (word->length != strlen(spelling))
        return 0;
    for (size_t i = 0; i < word->length; i++) {
        uint8_t c = text[word->place + i];
        if ((c >= 'a' && c <= 'z' ? c - 'a' + 'A' : c) != spelling[i])
            return 0;
    }
    return 1;
}

/* Words of the module's data; 0 where it is refused. With no step allowed nothing runs. */
static uint32_t module_words(const uint8_t *text, size_t text_length) {
    struct rapid_record record = {0};
    struct rapid_lent lent = {0};
    lent.text = text, lent.text_length = text_length, lent.depth = 1;
    lent.code = code, lent.code_words = RAPID_STORE_WORDS;
    lent.values = values, lent.value_words = RAPID_STORE_WORDS;
    return rapid_call(&lent, &record) && record.ending != RAPID_REFUSED ? (uint32_t)record.module_words : 0;
}

/* Words of all data up to a declaration. */
static uint32_t words_up_to(const uint8_t *text, size_t declaration) {
    size_t kept = behind[declaration];
    if (kept + sizeof ending - 1 > sizeof shortened)
        return 0;
    memcpy(shortened, text, kept);
    memcpy(shortened + kept, ending, sizeof ending - 1);
    return module_words(shortened, kept + sizeof ending - 1);
}

/* The declarations from `from` up to before `to` begin at word `first` and end at word `end`. Each takes a word at least; so where there are as many words as declarations, each takes one. */
static void share(const uint8_t *text, struct rapid_datum *data, size_t from, size_t to, uint32_t first, uint32_t end) {
    if (end - first == to - from) {
        for (size_t i = from; i < to; i++)
            data[i].first = first + (uint32_t)(i - from), data[i].count = 1;
    } else if (to - from == 1)
        data[from].first = first, data[from].count = end - first;
    else {
        size_t half = from + (to - from) / 2;
        uint32_t middle = words_up_to(text, half - 1);
        share(text, data, from, half, first, middle);
        share(text, data, half, to, middle, end);
    }
}

/* Data stand before the routines, each as VAR or CONST, its type, its name, and more up to a semicolon. */
size_t rapid_names(const uint8_t *text, size_t text_length, struct rapid_datum *data, size_t room) {
    struct rapid_listing listing = {0};
    size_t found = 0;
    uint32_t all = module_words(text, text_length);
    if (all == 0 || !rapid_words(text, text_length, words, RAPID_WORD_LIMIT, &listing))
        return 0;
    for (size_t i = 2; i + 3 < listing.words && found < room && (is(text, &words[i], "VAR") || is(text, &words[i], "CONST")); i++) {
        struct rapid_datum datum = {words[i + 2].place, words[i + 2].length, 0, 0, is(text, &words[i + 3], "{"), is(text, &words[i + 1], "BOOL")};
        while (i + 1 < listing.words && !is(text, &words[i], ";"))
            i++;
        behind[found] = words[i].place + 1;
        data[found++] = datum;
    }
    if (found > 0)
        share(text, data, 0, found, 0, found < room ? all : words_up_to(text, found - 1));
    return found;
}
