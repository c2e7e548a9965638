#include "rapid_reason.h"
#include <stdio.h>
#include <string.h>

static const uint8_t *text;
static struct rapid_word words[RAPID_WORD_LIMIT];
static size_t count;

/* ---- words by their index; there is none past the last, and NO_WORD stands before the first */
enum { NO_WORD = RAPID_WORD_LIMIT };

static size_t before(size_t i) { return i == 0 || i == NO_WORD ? NO_WORD : i - 1; }

static int has_kind(size_t i, enum rapid_kind kind) { return i < count && words[i].kind == (uint32_t)kind; }

static char upper(char c) { return c >= 'a' && c <= 'z' ? (char)(c - 'a' + 'A') : c; }

static int is(size_t i, const char *spelling) {
    if (i >= count || words[i].length != strlen(spelling))
        return 0;
    for (size_t k = 0; k < words[i].length; k++)
        if (upper((char)text[words[i].place + k]) != upper(spelling[k]))
            return 0;
    return 1;
}

/* The one of some spellings, the last of which is NULL, that a word has; or NULL. */
static const char *one_of(size_t i, const char *const *spellings) {
    for (; *spellings; spellings++)
        if (is(i, *spellings))
            return *spellings;
    return NULL;
}

static const char *const of_nums[] = {"+", "-", "*", "DIV", "MOD", "<", "<=", ">", ">=", NULL};
static const char *const of_bools[] = {"NOT", "AND", "OR", "XOR", NULL};
static const char *const of_one_type[] = {"=", "<>", NULL};
static const char *const conditions[] = {"IF", "ELSEIF", "WHILE", NULL};
static const char *const num_statements[] = {"RAISE", "TEST", "CASE", "TPReadNum", NULL};
static const char *const for_values[] = {"FROM", "TO", "STEP", NULL};
static const char *const truths[] = {"TRUE", "FALSE", NULL};
static const char *const protected_names[] = {"ERRNO", "ERR_OVERFLOW", "ERR_DIVZERO", "ERR_OUTOFBND", "ERR_ILLRAISE", NULL};

/* The word behind the parenthesis or brace that closes the one at i. */
static size_t behind_closing(size_t i) {
    size_t open = 0;
    for (; i < count; i++) {
        open += is(i, "(") || is(i, "{");
        if (is(i, ")") || is(i, "}"))
            if (--open == 0)
                return i + 1;
    }
    return NO_WORD;
}

/* The word behind the operand that begins at i. */
static size_t behind_operand(size_t i) {
    if (is(i, "("))
        return behind_closing(i);
    return is(i + 1, "{") ? behind_closing(i + 1) : i + 1;
}

/* Whether the parenthesis at i is a call's. */
static int opens_call(size_t i) { return is(i, "(") && has_kind(before(i), RAPID_NAME) && is(before(before(i)), ":="); }

/* ---- the type of an operand; of one in parentheses it is not asked */
enum type { UNKNOWN, NUM, BOOL };

struct name { char letters[RAPID_NAME_LIMIT + 1]; };

/* The name at i, empty where there is none. */
static struct name name_at(size_t i) {
    struct name name = {{0}};
    if (has_kind(i, RAPID_NAME) && words[i].length < sizeof name.letters)
        memcpy(name.letters, text + words[i].place, words[i].length);
    return name;
}

static int same_name(size_t i, size_t k) {
    struct name name = name_at(i);
    return has_kind(i, RAPID_NAME) && is(k, name.letters);
}

/* The word that begins the first routine, behind the module's data. */
static size_t first_routine(void) {
    size_t i = 0;
    while (i < count && !is(i, "PROC") && !is(i, "FUNC"))
        i++;
    return i;
}

/* Whether the name declared behind the type at k is data, and is known at i: its semicolon is passed. A parameter has none, and is known in all of its routine. */
static int declares(size_t k, int semicolon_passed) {
    int of_data = is(before(k), "VAR") || is(before(k), "CONST");
    return of_data ? semicolon_passed : !is(before(k), "FUNC");
}

/* What the data name at i is declared by: the word before its declaration, num, bool or FOR, in its routine or else in the module. A FOR variable is known up to its ENDFOR. NO_WORD of a
 * routine's name, and of those that nobody declares. */
static size_t declaration(size_t i) {
    size_t loops_behind = 0;
    int semicolon_passed = 0;
    for (size_t k = before(i); k < count; k = before(k)) {
        semicolon_passed |= is(k, ";");
        if (is(k, "PROC") || is(k, "FUNC"))
            k = first_routine();
        else if (is(k, "ENDFOR"))
            loops_behind++;
        else if (is(k, "FOR") && loops_behind > 0)
            loops_behind--;
        else if (same_name(i, k + 1) && (is(k, "FOR") || ((is(k, "num") || is(k, "bool")) && declares(k, semicolon_passed))))
            return k;
    }
    return NO_WORD;
}

static enum type operand_type(size_t i) {
    if (has_kind(i, RAPID_NUMBER))
        return NUM;
    if (one_of(i, truths))
        return BOOL;
    if (!has_kind(i, RAPID_NAME))
        return UNKNOWN;
    return is(declaration(i), "bool") ? BOOL : NUM; /* ERRNO and the ERR_ names, which nobody declares, are num */
}

/* ---- 13: what takes another type; NULL where that is not said */
static const char *case_or_argument(size_t i) {
    static const char *const begins[] = {";", ":=", "THEN", "DO", "ELSE", ":", NULL};
    for (; i < count && !one_of(i, begins); i = before(i))
        if (is(i, "CASE"))
            return "CASE takes num";
    return "an argument must be of its parameter's type";
}

static const char *takes(const char *word, const char *type, char *sentence, size_t room) {
    snprintf(sentence, room, "%s takes %s", word, type);
    return sentence;
}

/* The whole expression that begins at i is of the wrong type for what stands before it. */
static const char *by_what_is_before(size_t i, char *sentence, size_t room) {
    size_t p = before(i);
    const char *word = one_of(p, num_statements);
    if (word != NULL)
        return takes(word, "num", sentence, room);
    if (one_of(p, conditions))
        return "conditions take bool";
    if (one_of(p, for_values))
        return "FOR values take num";
    if ((word = one_of(p, of_one_type)) != NULL)
        return takes(word, "two of one type", sentence, room);
    if (is(p, "{"))
        return "indices and array sizes take num";
    if (is(p, ":="))
        return is(before(p), "num") && is(before(before(p)), "\\") ? "\\Num takes num" : "the value is not of its target's type";
    if (is(p, "RETURN"))
        return "the value is not of its function's type";
    if (opens_call(p) || has_kind(p, RAPID_NAME))
        return "an argument must be of its parameter's type";
    return is(p, ",") ? case_or_argument(p) : NULL;
}

/* An operand of the wrong type for the operator before or behind it, or else a whole expression for what stands before it. */
static const char *wrong_type(size_t i, char *sentence, size_t room) {
    size_t p = before(i), n = behind_operand(i);
    const char *left = one_of(p, of_nums), *right;
    enum type type = operand_type(i);
    if (left != NULL)
        return takes(left, "num", sentence, room);
    if (has_kind(i, RAPID_NAME) && is(i + 1, "("))
        return "the function's result is not of its target's type";
    if ((right = one_of(n, of_nums)) != NULL && type != NUM)
        return type == BOOL ? takes(right, "num", sentence, room) : NULL;
    if ((left = one_of(p, of_bools)) != NULL)
        return takes(left, "bool", sentence, room);
    if ((right = one_of(n, of_bools)) != NULL && type != BOOL && !one_of(p, of_one_type))
        return type == NUM ? takes(right, "bool", sentence, room) : NULL;
    return by_what_is_before(i, sentence, room);
}

/* ---- 12: what a name is, and is taken for */
static int in_constant_expression(size_t i) {
    static const char *const holders[] = {"VAR", "CONST", "CASE", NULL}, *const ends[] = {";", ":", "THEN", "DO", "ELSE", "ERROR", "UNDO", NULL};
    for (i = before(i); i < count && !one_of(i, ends); i = before(i))
        if (one_of(i, holders))
            return 1;
    return 0;
}

static int is_target(size_t i) { return is(before(i), "TPReadNum") || is(behind_operand(i), ":="); }

/* A statement also begins behind a compact IF's condition, which ends with an operand; but behind a name that begins one, there is its first argument. */
static int begins_statement(size_t i) {
    static const char *const ends[] = {";", ":", "THEN", "DO", "ELSE", "ERROR", "UNDO", ")", "}", "TRUE", "FALSE", NULL};
    size_t p = before(i);
    return one_of(p, ends) || has_kind(p, RAPID_NUMBER) || (has_kind(p, RAPID_NAME) && !begins_statement(p));
}

static const char *wrong_kind(size_t i) {
    size_t d = declaration(i);
    int has_index = is(i + 1, "{"), is_data = d < count || one_of(i, protected_names) != NULL;
    int as_proc = begins_statement(i) && !is_target(i), as_func = is(i + 1, "(") && is(before(i), ":=");
    if (as_proc || as_func)
        return is_data ? "data for a routine" : as_func ? "PROC for FUNC" : "FUNC for PROC";
    if (!is_data)
        return "routine for data";
    if (in_constant_expression(i))
        return "variable in a constant expression";
    if (is(d + 2, "{"))
        return "array without index";
    if (has_index)
        return "index on a scalar";
    return is_target(i) ? "barred target: ERRNO, constants and FOR variables cannot be targets" : NULL;
}

/* ---- 19: what a FOR variable is named like */
/* The type of the parameter or data that the routine of the FOR variable at i declares by this name. */
static size_t own_declaration(size_t i) {
    size_t k = i;
    while (k < count && !is(k, "PROC") && !is(k, "FUNC"))
        k = before(k);
    for (; k < i; k++)
        if ((is(k, "num") || is(k, "bool")) && !is(before(k), "FUNC") && same_name(i, k + 1))
            return k;
    return NO_WORD;
}

static const char *decimal(size_t n, char *digits, size_t room) {
    digits[--room] = 0;
    do
        digits[--room] = (char)('0' + n % 10);
    while ((n /= 10) > 0);
    return digits + room;
}

static size_t line_of(size_t i) {
    size_t line = 1;
    for (size_t k = 0; k < words[i].place; k++)
        line += text[k] == '\n';
    return line;
}

static const char *hidden(size_t i, char *sentence, size_t room) {
    size_t k = own_declaration(i);
    char line[8]; /* of a text's 32,768 bytes */
    if (k == NO_WORD)
        return NULL;
    const char *kind = is(before(k), "CONST") ? "constant" : is(k + 2, "{") ? "array" : is(before(k), "VAR") ? "variable" : "parameter";
    struct name name = name_at(k + 1);
    snprintf(sentence, room, "FOR variable named like the %s %s of its routine, declared in line %s", kind, name.letters, decimal(line_of(k + 1), line, sizeof line));
    return sentence;
}

/* ---- the other rules */
static const char *malformed(uint8_t first) {
    if (first == '"')
        return "malformed word: a string ends on its line, has at most 80 characters and no backslash";
    if (first >= '0' && first <= '9')
        return "malformed word: a letter, _ or . stands directly after the number";
    return upper((char)first) >= 'A' && upper((char)first) <= 'Z' ? "malformed word: a name has at most 32 characters" : "malformed word: no word starts so";
}

/* Whether a word stands in its routine's UNDO list, which is the last. */
static int in_undo(size_t i) {
    static const char *const begins[] = {"UNDO", "ERROR", "PROC", "FUNC", NULL};
    while (i < count && !one_of(i, begins))
        i = before(i);
    return is(i, "UNDO");
}

static const char *barred_in_undo(size_t i) {
    static const char *const barred_words[] = {"RETURN", "RAISE", "EXIT", "RETRY", "TRYNEXT", NULL}, *const sentences[] = {"RETURN in UNDO", "RAISE in UNDO", "EXIT in UNDO", "RETRY in UNDO", "TRYNEXT in UNDO"};
    for (size_t k = 0; barred_words[k]; k++)
        if (is(i, barred_words[k]))
            return sentences[k];
    return "a call in UNDO";
}

static const char *barred(size_t i) {
    if (in_undo(i))
        return barred_in_undo(i);
    if (is(i, "RETURN"))
        return is(i + 1, ";") ? "RETURN without a value in a FUNC" : "RETURN with a value in a PROC";
    if (is(i, "RAISE"))
        return is(i + 1, ";") ? "plain RAISE outside ERROR" : "RAISE with a value in ERROR";
    return is(i, "RETRY") ? "RETRY outside ERROR" : "TRYNEXT outside ERROR";
}

static size_t index_of(size_t offset) {
    size_t i = 0;
    while (i < count && words[i].place != offset)
        i++;
    return i;
}

/* A narrower sentence, or NULL. */
static const char *narrower(uint64_t refusal, size_t i, char *sentence, size_t room) {
    switch (refusal) {
    case RAPID_DECLARED_TWICE:
        return one_of(i, protected_names) ? "protected name" : "name declared twice";
    case RAPID_NESTED_TOO_DEEP:
        return is(i, "(") || is(i, "{") ? "nesting 17: parentheses and braces in an expression nest to 16" : "nesting 17: compound statements nest to 16";
    case RAPID_WRONG_KIND:
        return wrong_kind(i);
    case RAPID_WRONG_TYPE:
        return wrong_type(i, sentence, room);
    case RAPID_BARRED_HERE:
        return barred(i);
    case RAPID_HIDING_LOOP:
        return hidden(i, sentence, room);
    default:
        return NULL;
    }
}

const char *rapid_reason(const uint8_t *lent, size_t text_length, uint64_t refusal, size_t offset, char *sentence, size_t room) {
    struct rapid_listing listing = {0, 0, 0};
    char part[128];
    text = lent;
    rapid_words(text, text_length, words, RAPID_WORD_LIMIT, &listing);
    count = listing.words;
    const char *said = narrower(refusal, index_of(offset), part, sizeof part);
    if (refusal == RAPID_MALFORMED_WORD && offset < text_length)
        said = malformed(text[offset]);
    if (refusal == RAPID_WORD_OUT_OF_PLACE && offset == text_length)
        said = "the text ends where a well-formed module goes on";
    const char *rule = said == NULL ? "" : refusal == RAPID_WRONG_TYPE ? "wrong type: " : refusal == RAPID_WRONG_KIND ? "name of wrong kind: " : "";
    snprintf(sentence, room, "%s%s", rule, said ? said : rapid_refusal_sentence(refusal));
    return sentence;
}
