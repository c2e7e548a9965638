/* From a text's words (plain_words.c) to tokens. Reserved words and names stand in one table. */
#include "plain_tokens.h"
#include "plain_words.h"
#include <string.h>

static const char *const reserved[] = {
    "and", "bool", "case", "const", "default", "div", "do", "else", "elseif", "endfor", "endfunc", "endif", "endmodule", "endproc", "endtest", "endwhile", "error",
    "exit", "false", "for", "from", "func", "if", "mod", "module", "not", "num", "or", "proc", "raise", "retry", "return", "step", "test", "then", "to",
    "tpreadnum", "tpwrite", "true", "trynext", "undo", "var", "while", "xor",
    "alias", "backward", "connect", "endrecord", "endtrap", "goto", "inout", "local", "nostepin", "noview", "pers", "readonly", "record", "sysmodule", "trap",
    "viewonly", "with",
};
_Static_assert(sizeof reserved / sizeof *reserved == RESERVED_WORDS, "all reserved words");

static const char *const known_names[] = {"errno", "err_overflow", "err_divzero", "err_outofbnd", "err_illraise", "main"};

enum { BUCKETS = 1024 };
struct name plain_names[MAIN_NAME + WORD_LIMIT + 1];
static uint16_t buckets[BUCKETS], first_buckets[BUCKETS];
static size_t name_count;

struct token plain_tokens[WORD_LIMIT + 2];
static uint8_t entries[RAPID_ENTRY_BYTES * WORD_LIMIT];
uint8_t plain_strings[RAPID_TEXT_LIMIT];
static size_t string_bytes;

/* Letters in one case; digits and `_` stay apart. */
static uint8_t fold(uint8_t b) { return b | 0x20; }

static int same_spelling(const uint8_t *a, const uint8_t *b, size_t n) {
    for (size_t i = 0; i < n; i++)
        if (fold(a[i]) != fold(b[i]))
            return 0;
    return 1;
}

/* The index of a spelling, which is entered where it is new. */
static size_t name_index(const uint8_t *text, size_t length) {
    uint32_t hash = (uint32_t)length;
    for (size_t i = 0; i < length; i++)
        hash = hash * 31 + fold(text[i]);
    uint16_t *bucket = &buckets[(hash ^ hash >> 10) % BUCKETS];
    for (size_t i = *bucket; i; i = plain_names[i].next)
        if (plain_names[i].hash == hash && plain_names[i].length == length && same_spelling(plain_names[i].text, text, length))
            return i;
    plain_names[++name_count] = (struct name){.text = text, .hash = hash, .length = (uint16_t)length, .next = *bucket, .sort = S_NAME};
    *bucket = (uint16_t)name_count;
    return name_count;
}

static void enter_first_names(void) {
    for (int i = 0; i < RESERVED_WORDS; i++) {
        size_t index = name_index((const uint8_t *)reserved[i], strlen(reserved[i]));
        plain_names[index].sort = (uint8_t)(S_AND + i < S_OTHER ? S_AND + i : S_OTHER);
    }
    for (size_t i = 0; i < sizeof known_names / sizeof *known_names; i++)
        name_index((const uint8_t *)known_names[i], strlen(known_names[i]));
    memcpy(first_buckets, buckets, sizeof buckets);
    decided_start();
}

/* For each check: only the first names. */
static void forget_names(void) {
    if (name_count == 0)
        enter_first_names();
    memcpy(buckets, first_buckets, sizeof buckets);
    name_count = MAIN_NAME;
    plain_names[MAIN_NAME].symbol = plain_names[MAIN_NAME].parameter_of = plain_names[MAIN_NAME].is_data = 0;
}

static uint8_t sign_sort(const uint8_t *t, size_t length) {
    switch (t[0]) {
    case ';': return S_SEMICOLON;
    case ',': return S_COMMA;
    case '(': return S_OPEN;
    case ')': return S_CLOSE;
    case '{': return S_OPEN_BRACE;
    case '}': return S_CLOSE_BRACE;
    case ':': return length == 2 ? S_BECOMES : S_COLON;
    case '=': return S_EQUAL;
    case '<': return length == 1 ? S_LESS : t[1] == '=' ? S_LESS_EQUAL : S_UNEQUAL;
    case '>': return length == 1 ? S_GREATER : S_GREATER_EQUAL;
    case '+': return S_PLUS;
    case '-': return S_MINUS;
    case '*': return S_TIMES;
    default: return S_BACKSLASH;
    }
}

static int32_t number_value(const uint8_t *t, size_t length) {
    int32_t value = 0;
    for (size_t i = 0; i < length; i++)
        value = value * 10 + (t[i] - '0');
    return value;
}

/* A string's characters, `""` as one quote; returns how many. */
static uint8_t keep_string(const uint8_t *t, size_t length) {
    size_t began = string_bytes;
    for (size_t i = 1; i < length - 1; i++) {
        plain_strings[string_bytes++] = t[i];
        if (t[i] == '"')
            i++;
    }
    return (uint8_t)(string_bytes - began);
}

static struct token token_of(const uint8_t *text, uint32_t kind, uint32_t place, uint32_t length) {
    const uint8_t *t = text + place;
    struct token token = {.place = (uint16_t)place};
    switch (kind) {
    case RAPID_NUMBER:
        token.sort = S_NUMBER;
        token.value = number_value(t, length);
        break;
    case RAPID_STRING:
        token.sort = S_STRING;
        token.value = (int32_t)string_bytes;
        token.length = keep_string(t, length);
        break;
    case RAPID_SIGN:
        token.sort = sign_sort(t, length);
        break;
    default:
        token.value = (int32_t)name_index(t, length);
        token.sort = plain_names[token.value].sort;
    }
    return token;
}

/* Reads the text; refusals 3 to 7. */
struct refusal plain_read(const uint8_t *text, size_t length) {
    uint32_t answer[3], entry[3];
    forget_names();
    string_bytes = 0;
    decided_list(text, length, entries, sizeof entries, (uint8_t *)answer);
    if (answer[1])
        return (struct refusal){answer[1], answer[2]};
    for (uint32_t i = 0; i < answer[0]; i++) {
        memcpy(entry, entries + RAPID_ENTRY_BYTES * i, sizeof entry);
        plain_tokens[i] = token_of(text, entry[0], entry[1], entry[2]);
    }
    /* twice, see plain_tokens.h */
    plain_tokens[answer[0]] = plain_tokens[answer[0] + 1] = (struct token){.sort = S_END, .place = (uint16_t)length};
    return (struct refusal){0, 0};
}
