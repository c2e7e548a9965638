/* A plain scanner of the same rules, as one would write it in C: nothing about it is proved. It is here to be measured against. It is compiled twice:
 * with BY_LENGTH it tells reserved words as the proved one does, without it by halving a sorted table. */
#include "plain_words.h"
#include "../host/rapid.h"
#include <string.h>
#ifdef BY_LENGTH
#include "reserved_lengths.h"
#define plain_start decided_start
#define plain_list decided_list
#else
#include "reserved_halving.h"
#endif

enum { NAME_LIMIT = 32, STRING_LIMIT = 80, LARGEST_NUMBER = 8388608 };

enum { SEPARATES = 1, PERMITTED = 2, INSIDE = 4, LETTER = 8, DIGIT = 16, IN_NAME = 32 };
static uint8_t class_of[256];

void plain_start(void) {
    for (int b = 0; b < 256; b++) {
        int letter = (b >= 'A' && b <= 'Z') || (b >= 'a' && b <= 'z'), digit = b >= '0' && b <= '9';
        int separates = b == ' ' || b == '\t' || b == '\r' || b == '\n', permitted = separates || (b >= 0x20 && b <= 0x7e);
        class_of[b] = (uint8_t)(separates * SEPARATES | permitted * PERMITTED | (permitted || b >= 0xa0) * INSIDE | letter * LETTER | digit * DIGIT |
                                (letter || digit || b == '_') * IN_NAME);
    }
}

struct scan {
    uint32_t refusal, kind;
    size_t length; /* of the word, or bytes up to the refusal */
};

static struct scan refused(uint32_t number, size_t after) { return (struct scan){number, 0, after}; }
static struct scan word(uint32_t kind, size_t length) { return (struct scan){0, kind, length}; }

#ifdef BY_LENGTH
/* The number of the letters behind the first, which are counted in the same loop; what follows them makes the name no reserved word. */
static struct scan scan_name(const uint8_t *t, size_t n) {
    size_t letters = 1;
    uint64_t rest = 0;
    while (letters < n && class_of[t[letters]] & LETTER)
        rest = rest << 5 | ((t[letters++] & 0xdfu) - 'A');
    size_t k = letters;
    while (k < n && class_of[t[k]] & IN_NAME)
        k++;
    if (k > NAME_LIMIT)
        return refused(RAPID_MALFORMED_WORD, 0);
    return word(k == letters && is_reserved(letters, t[0] & 0xdf, rest) ? RAPID_RESERVED : RAPID_NAME, k);
}
#else
static struct scan scan_name(const uint8_t *t, size_t n) {
    size_t k = 1;
    while (k < n && class_of[t[k]] & IN_NAME)
        k++;
    if (k > NAME_LIMIT)
        return refused(RAPID_MALFORMED_WORD, 0);
    return word(is_reserved(t, k) ? RAPID_RESERVED : RAPID_NAME, k);
}
#endif

static struct scan scan_number(const uint8_t *t, size_t n) {
    size_t k = 0;
    uint32_t value = 0;
    while (k < n && class_of[t[k]] & DIGIT) {
        if (value <= LARGEST_NUMBER)
            value = value * 10 + (t[k] - '0');
        k++;
    }
    if (k < n && (class_of[t[k]] & LETTER || t[k] == '_' || t[k] == '.'))
        return refused(RAPID_MALFORMED_WORD, 0);
    return value > LARGEST_NUMBER ? refused(RAPID_NUMBER_TOO_LARGE, 0) : word(RAPID_NUMBER, k);
}

static struct scan scan_string(const uint8_t *t, size_t n) {
    size_t k = 1, characters = 0, bad = 0;
    for (;;) {
        if (k == n)
            return refused(RAPID_MALFORMED_WORD, 0);
        uint8_t b = t[k];
        if (b == '"') {
            if (k + 1 == n || t[k + 1] != '"')
                break;
            k++;
        } else if (b == '\r' || b == '\n' || b == '\\')
            return refused(RAPID_MALFORMED_WORD, 0);
        else if (!(class_of[b] & INSIDE) && !bad)
            bad = k;
        if (++characters > STRING_LIMIT)
            return refused(RAPID_MALFORMED_WORD, 0);
        k++;
    }
    return bad ? refused(RAPID_BYTE_NOT_PERMITTED, bad) : word(RAPID_STRING, k + 1);
}

static struct scan scan_sign(const uint8_t *t, size_t n) {
    uint8_t next = n > 1 ? t[1] : 0;
    switch (t[0]) {
    case ':':
    case '>':
        return word(RAPID_SIGN, next == '=' ? 2 : 1);
    case '<':
        return word(RAPID_SIGN, next == '=' || next == '>' ? 2 : 1);
    case ';': case ',': case '(': case ')': case '{': case '}': case '=': case '+': case '-': case '*': case '\\':
        return word(RAPID_SIGN, 1);
    default:
        return refused(RAPID_MALFORMED_WORD, 0);
    }
}

static struct scan scan(const uint8_t *t, size_t n) {
    uint8_t c = class_of[t[0]];
    if (!(c & PERMITTED))
        return refused(RAPID_BYTE_NOT_PERMITTED, 0);
    if (c & LETTER)
        return scan_name(t, n);
    if (c & DIGIT)
        return scan_number(t, n);
    return t[0] == '"' ? scan_string(t, n) : scan_sign(t, n);
}

/* The place of the next word or of the end; *bad where a comment holds a byte that is permitted nowhere. */
static size_t skip(const uint8_t *t, size_t n, size_t at, int *bad) {
    while (at < n) {
        if (class_of[t[at]] & SEPARATES) {
            at++;
            continue;
        }
        if (t[at] != '!')
            return at;
        while (at < n && t[at] != '\n') {
            if (!(class_of[t[at]] & INSIDE)) {
                *bad = 1;
                return at;
            }
            at++;
        }
    }
    return at;
}

/* Low byte first, as x86-64 has it, for which all of this is compiled. gcc makes one store of it, but not of four bytes written one by one. */
static void put32(uint8_t *b, uint32_t v) { memcpy(b, &v, sizeof v); }

static void ends(uint8_t *answer, size_t words, uint32_t refusal, size_t offset) {
    put32(answer, (uint32_t)words);
    put32(answer + 4, refusal);
    put32(answer + 8, (uint32_t)offset);
}

void plain_list(const uint8_t *text, size_t n, uint8_t *out, size_t room, uint8_t *answer) {
    size_t at = 0, words = 0;
    if (n > RAPID_TEXT_LIMIT) {
        ends(answer, 0, RAPID_TEXT_TOO_LONG, RAPID_TEXT_LIMIT);
        return;
    }
    for (;;) {
        int bad = 0;
        at = skip(text, n, at, &bad);
        if (bad || at == n) {
            ends(answer, words, bad ? RAPID_BYTE_NOT_PERMITTED : RAPID_NOT_REFUSED, bad ? at : 0);
            return;
        }
        struct scan s = scan(text + at, n - at);
        if (words == RAPID_WORD_LIMIT && !(s.refusal && s.length == 0))
            s = refused(RAPID_TOO_MANY_WORDS, 0);
        if (s.refusal) {
            ends(answer, words, s.refusal, at + s.length);
            return;
        }
        if (RAPID_ENTRY_BYTES * (words + 1) <= room) {
            uint8_t *entry = out + RAPID_ENTRY_BYTES * words;
            put32(entry, s.kind);
            put32(entry + 4, (uint32_t)at);
            put32(entry + 8, (uint32_t)s.length);
        }
        words++;
        at += s.length;
    }
}
