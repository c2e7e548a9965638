/* Checks a module as one would write it in C: one recursive descent over the tokens that looks at form, names and types and makes the tree. Refusals 8 and 9
 * end it at once; of 10 to 17 and 19 the least is kept. */
#include "plain_tokens.h"
#include <setjmp.h>
#include <string.h>

/* ---- what the check keeps */
static const struct token *now;
static jmp_buf refused_form;
static struct refusal form_refusal;
static uint32_t least_fault; /* its place, and then its standing among those at one place */
#define NO_FAULT UINT32_MAX
enum { STANDING_BITS = 6, BEHIND_10 = 2 * 10 + 1 };

/* By their numbers, but that 19 comes between 10 and 11. */
static uint32_t standing(uint32_t number) { return number == RAPID_HIDING_LOOP ? BEHIND_10 : 2 * number; }

static uint32_t number_of(uint32_t standing) { return standing == BEHIND_10 ? RAPID_HIDING_LOOP : standing / 2; }

static _Noreturn void refuse_form(uint32_t number, uint32_t place) {
    form_refusal = (struct refusal){number, place};
    longjmp(refused_form, 1);
}

static void fault(uint32_t number, uint32_t place) {
    uint32_t code = place << STANDING_BITS | standing(number);
    if (code < least_fault)
        least_fault = code;
}

static const struct token *expect(enum sort sort) {
    if (now->sort != sort)
        refuse_form(RAPID_WORD_OUT_OF_PLACE, now->place);
    return now++;
}

static int accept(enum sort sort) {
    if (now->sort != sort)
        return 0;
    now++;
    return 1;
}

/* No token makes more than one of each, but for loops, which make two steps, and lists' ends. */
static struct node nodes[WORD_LIMIT + 1], *next_node;
static struct step steps[2 * WORD_LIMIT], *next_step;
static struct arm arms[WORD_LIMIT], *next_arm;
static const struct node *arguments[2 * WORD_LIMIT], **next_argument;
static struct routine routines[WORD_LIMIT];
static size_t routine_count;
static enum type parameter_types[WORD_LIMIT];
static int32_t routine_start[ROUTINE_LIMIT + 1][ROUTINE_WORDS];

static struct node *new_node(enum op op, int32_t value, const struct node *left, const struct node *right) {
    *next_node = (struct node){.op = (uint8_t)op, .value = value, .left = left, .right = right};
    return next_node++;
}

static struct step *new_step(enum kind kind, uint32_t place) {
    *next_step = (struct step){.kind = (uint8_t)kind, .place = (uint16_t)place};
    return next_step++;
}

/* ---- scopes */
enum meaning { M_ERRNO, M_CONSTANT, M_SCALAR, M_ARRAY, M_LOOP, M_ROUTINE };
enum { EVERYWHERE = -1, MODULE_LEVEL, ROUTINE_LEVEL };

struct symbol {
    uint8_t meaning, type;
    int8_t level;   /* of its scope; each FOR opens one more */
    uint16_t size;  /* of an array */
    uint16_t name, outer; /* the name, and what it meant before */
    int32_t value;  /* a constant's; a variable's word; a routine's number */
};

static struct symbol symbols[WORD_LIMIT + PROTECTED + 1]; /* from 1 on */
static size_t symbol_count;
static int level;

static void protect(int name, enum meaning meaning, int32_t value) {
    symbols[++symbol_count] = (struct symbol){.meaning = (uint8_t)meaning, .type = NUM, .level = EVERYWHERE, .name = (uint16_t)name, .value = value};
    plain_names[name].symbol = (uint16_t)symbol_count;
}

static void protect_names(void) {
    symbol_count = 0;
    protect(FIRST_PROTECTED, M_ERRNO, 0);
    for (int i = 0; i < PROTECTED - 1; i++)
        protect(FIRST_PROTECTED + 1 + i, M_CONSTANT, ERR_OVERFLOW + i);
}

/* What a name means here; NULL, and a fault, where it means nothing. */
static const struct symbol *look_up(const struct token *name) {
    size_t symbol = plain_names[name->value].symbol;
    if (symbol == 0)
        fault(RAPID_UNKNOWN_NAME, name->place);
    return symbol ? &symbols[symbol] : NULL;
}

/* May a name be declared in this scope? */
static int declarable(const struct token *name) {
    size_t known = plain_names[name->value].symbol;
    if (known == 0 || (symbols[known].level != EVERYWHERE && symbols[known].level != level))
        return 1;
    fault(RAPID_DECLARED_TWICE, name->place);
    return 0;
}

static void declare(const struct token *name, struct symbol symbol) {
    struct name *n = &plain_names[name->value];
    symbol.level = (int8_t)level;
    symbol.name = (uint16_t)name->value;
    symbol.outer = n->symbol;
    symbols[++symbol_count] = symbol;
    n->symbol = (uint16_t)symbol_count;
}

/* Leaves a scope: what was declared since goes. */
static void forget_back_to(size_t count) {
    while (symbol_count > count) {
        plain_names[symbols[symbol_count].name].symbol = symbols[symbol_count].outer;
        symbol_count--;
    }
}

/* ---- words of a scope */
static struct {
    int32_t *start;
    uint32_t used, limit;
} room;

/* Takes words for a name; the first that cross the limit are refused, and from then on none matter. */
static int32_t take_words(const struct token *name, uint32_t size, int32_t start) {
    if (room.used + size > room.limit) {
        fault(RAPID_LIMIT_CROSSED, name->place);
        return 0;
    }
    uint32_t first = room.used;
    while (room.used < first + size)
        room.start[room.used++] = start;
    return (int32_t)first;
}

/* ---- expressions */
struct expression {
    enum type type;
    uint32_t place; /* of its first word */
    const struct node *node;
};

static int constant_only; /* names of variables are refused */
static int nesting;       /* parentheses and braces open in this expression */

static const struct {
    uint8_t level, op;
} operators[SORTS] = {
    [S_OR] = {1, EITHER},         [S_XOR] = {1, ONE_OF},       [S_AND] = {2, BOTH},          [S_EQUAL] = {3, EQUAL},     [S_UNEQUAL] = {3, UNEQUAL},
    [S_LESS] = {3, LESS},         [S_LESS_EQUAL] = {3, LESS_EQUAL}, [S_GREATER] = {3, GREATER}, [S_GREATER_EQUAL] = {3, GREATER_EQUAL},
    [S_PLUS] = {4, ADD},          [S_MINUS] = {4, SUBTRACT},   [S_TIMES] = {5, MULTIPLY},    [S_DIV] = {5, DIVIDE},      [S_MOD] = {5, MODULO},
};
enum { OR_LEVEL = 1, AND_LEVEL, RELATION_LEVEL, SUM_LEVEL, PRODUCT_LEVEL };

static struct expression climb(int least);

static void open_nested(void) {
    if (nesting == NESTING)
        refuse_form(RAPID_NESTED_TOO_DEEP, now->place);
    nesting++;
    now++;
}

/* Is an expression of the type? Refused ones are not asked. */
static int has_type(struct expression e, enum type type) {
    if (e.type != NO_TYPE && e.type != type)
        fault(RAPID_WRONG_TYPE, e.place);
    return e.type == type;
}

/* An index, from its brace on. */
static struct expression index_of(void) {
    open_nested();
    struct expression index = climb(OR_LEVEL);
    expect(S_CLOSE_BRACE);
    nesting--;
    return index;
}

static struct expression element(const struct token *name, const struct symbol *symbol) {
    if (symbol && (symbol->meaning != M_ARRAY || constant_only)) {
        fault(RAPID_WRONG_KIND, name->place);
        symbol = NULL;
    }
    struct expression index = index_of();
    if (!has_type(index, NUM) || symbol == NULL)
        return (struct expression){NO_TYPE, name->place, NULL};
    struct node *node = new_node(symbol->level == MODULE_LEVEL ? GLOBAL_ELEMENT : LOCAL_ELEMENT, symbol->value, index.node, NULL);
    node->size = symbol->size;
    return (struct expression){symbol->type, name->place, node};
}

static struct expression variable(const struct token *name, const struct symbol *symbol) {
    struct expression e = {NO_TYPE, name->place, NULL};
    if (symbol == NULL)
        return e;
    if (symbol->meaning == M_ARRAY || symbol->meaning == M_ROUTINE || (constant_only && symbol->meaning != M_CONSTANT)) {
        fault(RAPID_WRONG_KIND, name->place);
        return e;
    }
    e.type = symbol->type;
    enum op op = symbol->meaning == M_CONSTANT ? CONSTANT : symbol->meaning == M_ERRNO ? ERRNO : symbol->level == MODULE_LEVEL ? GLOBAL : LOCAL;
    e.node = new_node(op, symbol->value, NULL, NULL);
    return e;
}

static struct expression operand(void) {
    const struct token *first = now;
    struct expression e;
    switch (first->sort) {
    case S_NUMBER:
        now++;
        return (struct expression){NUM, first->place, new_node(CONSTANT, first->value, NULL, NULL)};
    case S_TRUE:
    case S_FALSE:
        now++;
        return (struct expression){BOOL, first->place, new_node(CONSTANT, first->sort == S_TRUE, NULL, NULL)};
    case S_NAME:
        now++;
        return now->sort == S_OPEN_BRACE ? element(first, look_up(first)) : variable(first, look_up(first));
    case S_OPEN:
        open_nested();
        e = climb(OR_LEVEL);
        expect(S_CLOSE);
        nesting--;
        e.place = first->place;
        return e;
    default:
        refuse_form(RAPID_WORD_OUT_OF_PLACE, first->place);
    }
}

static struct expression joined(int level, enum op op, struct expression left, struct expression right) {
    enum type operands = level <= AND_LEVEL ? BOOL : NUM;
    int good;
    if (op == EQUAL || op == UNEQUAL) {
        good = left.type != NO_TYPE && has_type(right, left.type);
    } else {
        good = has_type(left, operands);
        good &= has_type(right, operands);
    }
    if (!good)
        return (struct expression){NO_TYPE, left.place, NULL};
    return (struct expression){level <= RELATION_LEVEL ? BOOL : NUM, left.place, new_node(op, 0, left.node, right.node)};
}

/* NOT or a sign, before the chain that it covers. */
static struct expression prefixed(enum type type, enum op op, int covered) {
    uint32_t place = now++->place;
    struct expression e = climb(covered);
    if (!has_type(e, type))
        return (struct expression){NO_TYPE, place, NULL};
    return (struct expression){type, place, op == ADD ? e.node : new_node(op, 0, e.node, NULL)};
}

/* Operators of the level `least` and tighter. `most` is the tightest that may follow what has been read: none beside a relation but what is looser. */
static struct expression climb(int least) {
    struct expression e;
    int most = PRODUCT_LEVEL;
    if (least == OR_LEVEL && now->sort == S_NOT) {
        e = prefixed(BOOL, INVERT, AND_LEVEL);
        most = OR_LEVEL;
    } else if (least <= SUM_LEVEL && (now->sort == S_PLUS || now->sort == S_MINUS)) {
        e = prefixed(NUM, now->sort == S_PLUS ? ADD : NEGATE, PRODUCT_LEVEL);
        most = SUM_LEVEL;
    } else {
        e = operand();
    }
    for (;;) {
        int level = operators[now->sort].level;
        if (level < least || level > most)
            return e;
        enum op op = operators[now++->sort].op;
        e = joined(level, op, e, climb(level + 1));
        most = level == RELATION_LEVEL ? AND_LEVEL : level;
    }
}

static struct expression expression(void) {
    nesting = 0;
    return climb(OR_LEVEL);
}

/* An expression of the type, for the run. */
static const struct node *typed(enum type type) {
    struct expression e = expression();
    has_type(e, type);
    return e.node;
}

/* A constant expression's value; 0, and a fault, where it has none. */
static int constant(enum type type, int32_t *value, uint32_t *place) {
    struct node *mark = next_node;
    constant_only = 1;
    struct expression e = expression();
    constant_only = 0;
    *place = e.place;
    *value = 0;
    if (!has_type(e, type))
        return 0;
    int32_t worth = plain_constant(e.node);
    next_node = mark;
    if (worth >= RAISED) {
        fault(RAPID_BAD_CONSTANT, e.place);
        return 0;
    }
    *value = worth;
    return 1;
}

/* ---- data */
static enum type type_word(void) {
    if (accept(S_NUM))
        return NUM;
    expect(S_BOOL);
    return BOOL;
}

static void array(const struct token *name, enum type type, int fresh) {
    int32_t size;
    uint32_t place;
    int good = constant(NUM, &size, &place);
    if (good && (size < 1 || size > LARGEST_ARRAY)) {
        fault(RAPID_BAD_CONSTANT, place);
        good = 0;
    }
    int32_t word = good ? take_words(name, (uint32_t)size, 0) : 0;
    expect(S_CLOSE_BRACE);
    expect(S_SEMICOLON);
    if (fresh)
        declare(name, (struct symbol){.meaning = M_ARRAY, .type = (uint8_t)type, .size = (uint16_t)size, .value = word});
}

static void scalar(const struct token *name, enum type type, int fresh, int is_constant) {
    int32_t value = 0;
    uint32_t place;
    if (is_constant)
        expect(S_BECOMES);
    if (is_constant || accept(S_BECOMES))
        constant(type, &value, &place);
    int32_t word = take_words(name, 1, value);
    expect(S_SEMICOLON);
    if (fresh)
        declare(name, (struct symbol){.meaning = is_constant ? M_CONSTANT : M_SCALAR, .type = (uint8_t)type, .value = is_constant ? value : word});
}

static void data(void) {
    while (now->sort == S_VAR || now->sort == S_CONST) {
        int is_constant = now++->sort == S_CONST;
        enum type type = type_word();
        const struct token *name = expect(S_NAME);
        int fresh = declarable(name);
        if (!is_constant && accept(S_OPEN_BRACE))
            array(name, type, fresh);
        else
            scalar(name, type, fresh, is_constant);
    }
}

/* ---- statements */
static struct routine *current; /* the routine around them */
static int in_handler, in_undo; /* in its ERROR list, in its UNDO list */
static int32_t case_values[WORD_LIMIT], *next_case_value;

static struct step *list(int depth);

/* A target, from its name on; what it must be, a variable or an element, is asked here. */
static struct expression target(void) {
    const struct token *name = expect(S_NAME);
    const struct symbol *symbol = look_up(name);
    nesting = 0;
    if (now->sort == S_OPEN_BRACE)
        return element(name, symbol);
    if (symbol && symbol->meaning != M_SCALAR) {
        fault(RAPID_WRONG_KIND, name->place);
        symbol = NULL;
    }
    return variable(name, symbol);
}

/* The arguments up to the word that closes them; returns how many. */
static int argument_list(const struct routine *routine, enum sort closer) {
    int count = 0;
    if (now->sort != closer)
        do {
            struct expression e = expression();
            if (routine && count < routine->parameters && routine->types[count] != NO_TYPE)
                has_type(e, routine->types[count]);
            *next_argument++ = e.node;
            count++;
        } while (accept(S_COMMA));
    expect(closer);
    return count;
}

/* A call, from its callee on; of a function whose result must be `wanted` where that is a type. */
static void call(struct step *s, int is_func, enum type wanted) {
    const struct token *callee = now++;
    const struct symbol *symbol = look_up(callee);
    const struct routine *routine = symbol && symbol->meaning == M_ROUTINE ? &routines[symbol->value] : NULL;
    if (symbol && (routine == NULL || routine->is_func != is_func)) {
        fault(RAPID_WRONG_KIND, callee->place);
        routine = NULL;
    }
    if (in_undo)
        fault(RAPID_BARRED_HERE, callee->place);
    if (is_func)
        expect(S_OPEN);
    s->routine = routine;
    s->callee = callee->place;
    s->arguments = next_argument;
    int count = argument_list(routine, is_func ? S_CLOSE : S_SEMICOLON);
    if (is_func)
        expect(S_SEMICOLON);
    if (routine == NULL)
        return;
    if (is_func && wanted != NO_TYPE && routine->result != NO_TYPE && wanted != routine->result)
        fault(RAPID_WRONG_TYPE, callee->place);
    if (count != routine->parameters)
        fault(RAPID_WRONG_COUNT, callee->place);
}

/* A statement that begins with a name. */
static struct step *assignment_or_call(void) {
    struct step *s = new_step(CALL, now->place);
    if (now[1].sort != S_BECOMES && now[1].sort != S_OPEN_BRACE) {
        call(s, 0, NO_TYPE);
        return s;
    }
    struct expression into = target();
    s->target = into.node;
    expect(S_BECOMES);
    if (now->sort == S_NAME && now[1].sort == S_OPEN) {
        call(s, 1, into.type);
        return s;
    }
    s->kind = ASSIGN;
    struct expression value = expression();
    if (into.type != NO_TYPE)
        has_type(value, into.type);
    s->value = value.node;
    expect(S_SEMICOLON);
    return s;
}

/* RETURN or RAISE, with a value or without. */
static struct step *valued(enum kind with, enum kind without, int value_barred, int plain_barred, enum type type) {
    const struct token *word = now++;
    struct step *s = new_step(without, word->place);
    int plain = now->sort == S_SEMICOLON;
    if (plain ? plain_barred : value_barred)
        fault(RAPID_BARRED_HERE, word->place);
    if (!plain) {
        s->kind = (uint8_t)with;
        s->value = typed(type);
    }
    expect(S_SEMICOLON);
    return s;
}

static struct step *word_alone(enum kind kind, int barred) {
    struct step *s = new_step(kind, now->place);
    if (barred)
        fault(RAPID_BARRED_HERE, now->place);
    now++;
    expect(S_SEMICOLON);
    return s;
}

static void string(struct step *s) {
    const struct token *token = expect(S_STRING);
    s->string = plain_strings + token->value;
    s->length = token->length;
}

static struct step *write(void) {
    struct step *s = new_step(WRITE, now++->place);
    string(s);
    if (accept(S_BACKSLASH)) {
        expect(S_NUM);
        expect(S_BECOMES);
        s->value = typed(NUM);
    }
    expect(S_SEMICOLON);
    return s;
}

static struct step *read(void) {
    struct step *s = new_step(READ, now++->place);
    struct expression into = target();
    has_type(into, NUM);
    s->target = into.node;
    expect(S_COMMA);
    string(s);
    expect(S_SEMICOLON);
    return s;
}

/* NULL where no simple statement begins. */
static struct step *simple(void) {
    switch (now->sort) {
    case S_NAME: return assignment_or_call();
    case S_RETURN: return valued(RETURN_VALUE, RETURN, in_undo || !current->is_func, in_undo || current->is_func, current->result);
    case S_RAISE: return valued(RAISE_VALUE, RAISE_ON, in_undo || in_handler, !in_handler, NUM);
    case S_EXIT: return word_alone(EXIT, in_undo);
    case S_RETRY: return word_alone(RETRY, !in_handler);
    case S_TRYNEXT: return word_alone(TRYNEXT, !in_handler);
    case S_TPWRITE: return write();
    case S_TPREADNUM: return read();
    default: return NULL;
    }
}

static void compound_at(int depth, const struct token *word) {
    if (depth == NESTING)
        refuse_form(RAPID_NESTED_TOO_DEEP, word->place);
}

static struct arm *new_arm(struct arm ***tail, const struct node *condition) {
    struct arm *arm = next_arm++;
    *arm = (struct arm){.condition = condition};
    **tail = arm;
    *tail = &arm->next;
    return arm;
}

static struct step *if_statement(int depth) {
    struct step *s = new_step(CHOOSE, now++->place);
    struct arm **tail = &s->arms, *arm = new_arm(&tail, typed(BOOL));
    if (now->sort != S_THEN) {
        arm->first = simple();
        if (arm->first == NULL)
            refuse_form(RAPID_WORD_OUT_OF_PLACE, now->place);
        return s;
    }
    compound_at(depth, now++);
    arm->first = list(depth + 1);
    while (accept(S_ELSEIF)) {
        arm = new_arm(&tail, typed(BOOL));
        expect(S_THEN);
        arm->first = list(depth + 1);
    }
    if (accept(S_ELSE)) {
        arm = new_arm(&tail, NULL);
        arm->first = list(depth + 1);
    }
    expect(S_ENDIF);
    return s;
}

static struct step *while_statement(int depth) {
    compound_at(depth, now);
    struct step *s = new_step(WHILE, now++->place);
    s->value = typed(BOOL);
    expect(S_DO);
    s->first = list(depth + 1);
    expect(S_ENDWHILE);
    return s;
}

/* The step of the later tests follows that of the head at once. */
static struct step *for_statement(int depth) {
    compound_at(depth, now);
    struct step *s = new_step(FOR, now->place);
    new_step(FOR_NEXT, now++->place);
    const struct token *name = expect(S_NAME);
    if (symbols[plain_names[name->value].symbol].level == ROUTINE_LEVEL)
        fault(RAPID_HIDING_LOOP, name->place);
    level++;
    int fresh = declarable(name);
    s->word = s[1].word = (uint16_t)take_words(name, 1, 0);
    s->arguments = next_argument;
    next_argument += 3;
    expect(S_FROM);
    next_argument[-3] = typed(NUM);
    expect(S_TO);
    next_argument[-2] = typed(NUM);
    next_argument[-1] = accept(S_STEP) ? typed(NUM) : NULL;
    expect(S_DO);
    size_t mark = symbol_count;
    if (fresh)
        declare(name, (struct symbol){.meaning = M_LOOP, .type = NUM, .value = s->word});
    s->first = list(depth + 1);
    expect(S_ENDFOR);
    forget_back_to(mark);
    level--;
    return s;
}

static void case_list(struct arm *arm) {
    int32_t value;
    uint32_t place;
    arm->values = next_case_value;
    do {
        constant(NUM, &value, &place);
        *next_case_value++ = value;
        arm->count++;
    } while (accept(S_COMMA));
    expect(S_COLON);
}

static struct step *test_statement(int depth) {
    compound_at(depth, now);
    struct step *s = new_step(TEST, now++->place);
    struct arm **tail = &s->arms;
    s->value = typed(NUM);
    while (accept(S_CASE)) {
        struct arm *arm = new_arm(&tail, NULL);
        case_list(arm);
        arm->first = list(depth + 1);
    }
    if (accept(S_DEFAULT)) {
        expect(S_COLON);
        s->first = list(depth + 1);
    }
    expect(S_ENDTEST);
    return s;
}

static struct step *statement(int depth) {
    switch (now->sort) {
    case S_IF: return if_statement(depth);
    case S_WHILE: return while_statement(depth);
    case S_FOR: return for_statement(depth);
    case S_TEST: return test_statement(depth);
    default: return simple();
    }
}

/* Statements as long as there are any, each with the next behind it. */
static struct step *list(int depth) {
    struct step *first = NULL, **tail = &first, *s;
    while ((s = statement(depth)) != NULL) {
        *tail = s;
        tail = &s->next;
    }
    return first;
}

/* Makes the last statement of each list inside lead to where its list goes on. */
static void link_list(struct step **first, struct step *after) {
    struct step *s = *first, *following;
    if (s == NULL)
        *first = after;
    for (; s; s = following) {
        following = s->next;
        s->next = following ? following : after;
        if (s->kind == WHILE) {
            link_list(&s->first, s);
        } else if (s->kind == FOR) {
            link_list(&s->first, s + 1);
            s[1].first = s->first;
            s[1].next = s->next;
        } else if (s->kind == CHOOSE || s->kind == TEST) {
            for (struct arm *arm = s->arms; arm; arm = arm->next)
                link_list(&arm->first, s->next);
            if (s->kind == TEST)
                link_list(&s->first, s->next);
        }
    }
}

/* ---- routines */
/* A list of the routine and the step of its end, at the word there. */
static struct step *routine_list(void) {
    struct step *first = list(0);
    struct step *end = new_step(in_undo ? END_OF_UNDO : current->is_func ? END_OF_FUNC : END_OF_PROC, now->place);
    link_list(&first, end);
    return first;
}

static void parameters(void) {
    expect(S_OPEN);
    if (now->sort != S_CLOSE)
        do {
            enum type type = type_word();
            const struct token *name = expect(S_NAME);
            int fresh = declarable(name);
            int32_t word = take_words(name, 1, 0);
            if (fresh)
                declare(name, (struct symbol){.meaning = M_SCALAR, .type = (uint8_t)type, .value = word});
        } while (accept(S_COMMA));
    expect(S_CLOSE);
}

/* Was this name known as this routine from the start? */
static void routine_name(const struct token *name, size_t number) {
    const struct symbol *symbol = &symbols[plain_names[name->value].symbol];
    if (symbol->meaning != M_ROUTINE || symbol->value != (int32_t)number)
        fault(RAPID_DECLARED_TWICE, name->place);
    if (number == ROUTINE_LIMIT)
        fault(RAPID_LIMIT_CROSSED, name->place);
}

static void routine(size_t number) {
    current = &routines[number];
    room.start = routine_start[number < ROUTINE_LIMIT ? number : ROUTINE_LIMIT];
    room.used = 0;
    room.limit = ROUTINE_WORDS;
    if (now++->sort == S_FUNC)
        type_word();
    routine_name(expect(S_NAME), number);
    size_t mark = symbol_count;
    level = ROUTINE_LEVEL;
    in_handler = in_undo = 0;
    parameters();
    data();
    current->first = routine_list();
    if (accept(S_ERROR)) {
        in_handler = 1;
        current->has_handler = 1;
        current->handler = routine_list();
        in_handler = 0;
    }
    if (accept(S_UNDO)) {
        in_undo = 1;
        current->has_undo = 1;
        current->undo = routine_list();
    }
    expect(current->is_func ? S_ENDFUNC : S_ENDPROC);
    current->start = room.start;
    current->words = (uint16_t)room.used;
    forget_back_to(mark);
    level = MODULE_LEVEL;
}

/* A routine's head, before its turn: what calls further up ask of it. A head that is not well formed is left to `routine`. */
static const struct token *routine_head(const struct token *t, size_t number, enum type *types) {
    struct routine *r = &routines[number];
    *r = (struct routine){.is_func = t->sort == S_FUNC, .types = types};
    t++;
    if (r->is_func)
        r->result = t++->sort == S_NUM ? NUM : BOOL;
    if (number == ROUTINE_LIMIT) /* refused by 16 */
        r->result = NO_TYPE;
    if (t->sort != S_NAME || t[1].sort != S_OPEN)
        return t;
    struct name *name = &plain_names[t->value];
    if (!name->is_data && name->symbol == 0)
        declare(t, (struct symbol){.meaning = M_ROUTINE, .value = (int32_t)number});
    for (t += 2; (t->sort == S_NUM || t->sort == S_BOOL) && t[1].sort == S_NAME; t++) {
        struct name *parameter = &plain_names[t[1].value];
        int refused = parameter->parameter_of == number + 1 || (parameter->symbol && symbols[parameter->symbol].level == EVERYWHERE) || r->parameters == ROUTINE_WORDS;
        parameter->parameter_of = (uint16_t)(number + 1);
        types[r->parameters++] = refused ? NO_TYPE : t->sort == S_NUM ? NUM : BOOL;
        t += 2;
        if (t->sort != S_COMMA)
            break;
    }
    return t;
}

/* What is known from the first word on: which names are the module's data, and the routines. */
static void heads(void) {
    enum type *types = parameter_types;
    const struct token *t = plain_tokens;
    for (; t->sort != S_END && t->sort != S_PROC && t->sort != S_FUNC; t++)
        if ((t->sort == S_VAR || t->sort == S_CONST) && t[1].sort != S_END && t[2].sort == S_NAME)
            plain_names[t[2].value].is_data = 1;
    routine_count = 0;
    while (t->sort != S_END)
        if (t->sort == S_PROC || t->sort == S_FUNC) {
            t = routine_head(t, routine_count, types);
            types += routines[routine_count++].parameters;
        } else {
            t++;
        }
}

/* ---- the module */
static void start_tables(struct module *module) {
    next_node = nodes;
    next_step = steps;
    next_arm = arms;
    next_argument = arguments;
    next_case_value = case_values;
    now = plain_tokens;
    least_fault = NO_FAULT;
    level = MODULE_LEVEL;
    constant_only = 0;
    room.start = module->start;
    room.used = 0;
    room.limit = MODULE_WORDS;
    protect_names();
}

static void whole_module(struct module *module) {
    expect(S_MODULE);
    expect(S_NAME);
    data();
    module->words = room.used;
    for (size_t number = 0; now->sort == S_PROC || now->sort == S_FUNC; number++)
        routine(number);
    expect(S_ENDMODULE);
    expect(S_END);
}

struct refusal plain_check(const uint8_t *text, size_t length, struct module *module) {
    struct refusal refusal = plain_read(text, length);
    if (refusal.number)
        return refusal;
    start_tables(module);
    heads();
    if (setjmp(refused_form))
        return form_refusal;
    whole_module(module);
    if (least_fault != NO_FAULT)
        return (struct refusal){number_of(least_fault & ((1 << STANDING_BITS) - 1)), least_fault >> STANDING_BITS};
    const struct symbol *main_symbol = &symbols[plain_names[MAIN_NAME].symbol];
    module->main = &routines[main_symbol->value];
    if (main_symbol->meaning != M_ROUTINE || module->main->is_func || module->main->parameters)
        return (struct refusal){RAPID_NO_MAIN, 0};
    return (struct refusal){RAPID_NOT_REFUSED, 0};
}
