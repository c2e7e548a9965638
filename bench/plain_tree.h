/* What the plain check hands to the plain run: expressions as trees, statements as steps that know the one after them. */
#ifndef PLAIN_TREE_H
#define PLAIN_TREE_H
#include <stddef.h>
#include <stdint.h>

enum {
    LEAST_NUM = -8388607,
    LARGEST_NUM = 8388608,
    WORD_LIMIT = 8192,
    ROUTINE_LIMIT = 64,
    MODULE_WORDS = 1024,
    ROUTINE_WORDS = 64,
    LARGEST_ARRAY = 512,
    NESTING = 16
};

enum { LARGEST_RAISE = 90, ERR_OVERFLOW = 1001, ERR_DIVZERO = 1002, ERR_OUTOFBND = 1003, ERR_ILLRAISE = 1004 };

/* No num is as large: a value from here on says which error was raised. */
enum { RAISED = 1 << 30 };

enum type { NO_TYPE, NUM, BOOL }; /* none where a piece is refused */

/* The first four are leaves; a target is a LOCAL, a GLOBAL or an element. */
enum op {
    CONSTANT, LOCAL, GLOBAL, ERRNO, LOCAL_ELEMENT, GLOBAL_ELEMENT,
    NEGATE, INVERT, ADD, SUBTRACT, MULTIPLY, DIVIDE, MODULO, LESS, LESS_EQUAL, GREATER, GREATER_EQUAL, EQUAL, UNEQUAL, BOTH, EITHER, ONE_OF
};

struct node {
    uint8_t op;
    uint16_t size;                    /* of an element's array */
    int32_t value;                    /* of a constant; the word of a variable or of an array's first element */
    const struct node *left, *right; /* an index or a single operand is on the left */
};

enum kind {
    ASSIGN, CALL, RETURN, RETURN_VALUE, RAISE_VALUE, RAISE_ON, EXIT, RETRY, TRYNEXT, WRITE, READ, CHOOSE, WHILE, FOR, FOR_NEXT, TEST, END_OF_PROC, END_OF_FUNC, END_OF_UNDO
};

/* One way out of an IF (by a condition; an ELSE has none) or of a TEST (by values). */
struct arm {
    const struct node *condition;
    const int32_t *values;
    size_t count; /* of values */
    struct step *first;
    struct arm *next;
};

struct step {
    uint8_t kind;
    uint8_t length;      /* of a string */
    uint16_t place;      /* of its first word */
    uint16_t callee;     /* the callee's place */
    uint16_t word;       /* a FOR's variable */
    struct step *next;   /* the statement after this one, or where its list goes on */
    struct step *first;  /* of a loop's body; of a TEST's DEFAULT */
    const struct node *target, *value;
    const struct node *const *arguments; /* of a call; a FOR's start, end and step, if any */
    struct arm *arms;
    const struct routine *routine; /* called */
    const uint8_t *string;
};

struct routine {
    uint8_t is_func, has_handler, has_undo;
    enum type result;
    uint16_t parameters, words;
    const enum type *types;   /* of the parameters */
    const int32_t *start;     /* what its words start with */
    struct step *first, *handler, *undo;
};

struct refusal {
    uint32_t number, place;
};

struct module {
    const struct routine *main;
    uint32_t words;
    int32_t start[MODULE_WORDS]; /* what the module's data start with */
};

struct run {
    const uint8_t *inputs;
    size_t input_count;
    uint8_t *output;
    size_t room;
    uint32_t allowance, depth;
    int aborts; /* at this step; so many steps for UNDO lists then */
    uint32_t at, undo;
    /* the answer */
    uint32_t ending, place, error;
    uint64_t steps;
    size_t written, read;
};

/* Refusals 3 to 18; number 0 where there is none, and then `module` is filled in. */
struct refusal plain_check(const uint8_t *text, size_t length, struct module *module);

/* Runs main; `data` are the module's. */
void plain_perform(const struct module *module, int32_t *data, struct run *run);

/* The value of a constant expression, or RAISED. */
int32_t plain_constant(const struct node *node);
#endif
