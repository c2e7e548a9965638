/* The words of a text as tokens, names numbered. */
#ifndef PLAIN_TOKENS_H
#define PLAIN_TOKENS_H
#include "../host/rapid.h"
#include "plain_tree.h"

/* What a word is; reserved words that no rule of the form asks for are OTHER. */
enum sort {
    S_END, S_NAME, S_NUMBER, S_STRING,
    S_SEMICOLON, S_COMMA, S_OPEN, S_CLOSE, S_OPEN_BRACE, S_CLOSE_BRACE, S_COLON, S_BECOMES, S_EQUAL, S_LESS, S_LESS_EQUAL, S_UNEQUAL, S_GREATER, S_GREATER_EQUAL,
    S_PLUS, S_MINUS, S_TIMES, S_BACKSLASH,
    S_AND, S_BOOL, S_CASE, S_CONST, S_DEFAULT, S_DIV, S_DO, S_ELSE, S_ELSEIF, S_ENDFOR, S_ENDFUNC, S_ENDIF, S_ENDMODULE, S_ENDPROC, S_ENDTEST, S_ENDWHILE, S_ERROR,
    S_EXIT, S_FALSE, S_FOR, S_FROM, S_FUNC, S_IF, S_MOD, S_MODULE, S_NOT, S_NUM, S_OR, S_PROC, S_RAISE, S_RETRY, S_RETURN, S_STEP, S_TEST, S_THEN, S_TO,
    S_TPREADNUM, S_TPWRITE, S_TRUE, S_TRYNEXT, S_UNDO, S_VAR, S_WHILE, S_XOR, S_OTHER, SORTS
};

/* Names are numbered from 1 on: reserved words, protected names, main, and then those of the text. */
enum { RESERVED_WORDS = 61, PROTECTED = 5, FIRST_PROTECTED = RESERVED_WORDS + 1, MAIN_NAME = FIRST_PROTECTED + PROTECTED };

struct token {
    uint8_t sort, length;
    uint16_t place;
    int32_t value; /* of a number; a name's index */
};

/* A spelling, letter case apart. */
struct name {
    const uint8_t *text;
    uint32_t hash;
    uint16_t length, next; /* of the same bucket; 0 at its end */
    uint16_t symbol;       /* what it means here, 0 for nothing */
    uint16_t parameter_of; /* the last routine head that has it as a parameter, from 1 on */
    uint8_t sort, is_data; /* declared as module data somewhere */
};

extern struct token plain_tokens[WORD_LIMIT + 2]; /* two at the end of the text, so that a look at the next one is always allowed */
extern struct name plain_names[MAIN_NAME + WORD_LIMIT + 1];
extern uint8_t plain_strings[RAPID_TEXT_LIMIT]; /* the characters of all strings */

/* Reads the text; refusals 3 to 7, number 0 where there is none. */
struct refusal plain_read(const uint8_t *text, size_t length);
#endif
