/* Runs what plain_check.c made of a module: a switch over steps, and a walk over each expression's tree. */
#include "plain_tree.h"
#include "../host/rapid.h"
#include <string.h>

struct limit {
    int32_t end, step;
};

/* A live call. */
struct call {
    const struct routine *routine;
    const struct step *at;     /* the call that it waits for */
    const struct step *failed; /* the statement that its ERROR list deals with */
    int in_handler;
    int32_t *result; /* where its caller wants it */
    int32_t words[ROUTINE_WORDS];
    struct limit limits[ROUTINE_WORDS]; /* of the FOR whose variable is that word */
};

static struct call calls[RAPID_DEPTH_LIMIT + 1]; /* one more, for the arguments of a call beyond the depth */

struct machine {
    struct call *top, *last; /* the live call, and the last that there may be */
    int32_t *words;          /* of the live call */
    int32_t raised;          /* by a step that failed; 0 where it ended the run */
    struct run *run;
};

static int32_t *data;
static int32_t error; /* ERRNO */

/* ---- expressions */
static int32_t worth(const struct node *n, const int32_t *words);

/* Leaves are most of all operands, and need no call. */
static inline int32_t operand(const struct node *n, const int32_t *words) {
    if (n->op == LOCAL)
        return words[n->value];
    if (n->op == CONSTANT)
        return n->value;
    return n->op == GLOBAL ? data[n->value] : worth(n, words);
}

static inline int32_t ranged(int64_t n) { return n < LEAST_NUM || n > LARGEST_NUM ? RAISED + ERR_OVERFLOW : (int32_t)n; }

static int32_t element(const struct node *n, const int32_t *words, const int32_t *in) {
    int32_t index = operand(n->left, words);
    if (index >= RAISED)
        return index;
    return index < 1 || index > n->size ? RAISED + ERR_OUTOFBND : in[n->value + index - 1];
}

/* Both operands, the left one first; an error ends the expression. */
#define LEFT int32_t left = operand(n->left, words); if (left >= RAISED) return left
#define BOTH_SIDES LEFT; int32_t right = operand(n->right, words); if (right >= RAISED) return right

static int32_t worth(const struct node *n, const int32_t *words) {
    switch (n->op) {
    case CONSTANT: return n->value;
    case LOCAL: return words[n->value];
    case GLOBAL: return data[n->value];
    case ERRNO: return error;
    case LOCAL_ELEMENT: return element(n, words, words);
    case GLOBAL_ELEMENT: return element(n, words, data);
    case NEGATE: { LEFT; return ranged(-left); }
    case INVERT: { LEFT; return !left; }
    case BOTH: { LEFT; return left ? operand(n->right, words) : 0; }
    case EITHER: { LEFT; return left ? 1 : operand(n->right, words); }
    case ADD: { BOTH_SIDES; return ranged(left + right); }
    case SUBTRACT: { BOTH_SIDES; return ranged(left - right); }
    case MULTIPLY: { BOTH_SIDES; return ranged((int64_t)left * right); }
    case DIVIDE: { BOTH_SIDES; return right == 0 ? RAISED + ERR_DIVZERO : ranged(left / right); }
    case MODULO: { BOTH_SIDES; return right == 0 ? RAISED + ERR_DIVZERO : left % right; }
    case LESS: { BOTH_SIDES; return left < right; }
    case LESS_EQUAL: { BOTH_SIDES; return left <= right; }
    case GREATER: { BOTH_SIDES; return left > right; }
    case GREATER_EQUAL: { BOTH_SIDES; return left >= right; }
    case EQUAL: { BOTH_SIDES; return left == right; }
    default: { BOTH_SIDES; return left != right; } /* UNEQUAL, and ONE_OF, which takes bool */
    }
}

int32_t plain_constant(const struct node *node) { return worth(node, NULL); }

/* ---- how a step fails */
static inline const struct step *raises(struct machine *m, int32_t number) {
    m->raised = number;
    return NULL;
}

static inline const struct step *ends(struct machine *m, uint32_t ending, uint32_t place) {
    m->raised = 0;
    m->run->ending = ending;
    m->run->place = place;
    return NULL;
}

/* Puts an expression's value into *value; 0 where it raises an error. */
static inline int worked_out(struct machine *m, const struct node *n, int32_t *value) {
    *value = operand(n, m->words);
    if (*value < RAISED)
        return 1;
    m->raised = *value - RAISED;
    return 0;
}

static int32_t *element_spot(struct machine *m, const struct node *target) {
    int32_t index;
    if (!worked_out(m, target->left, &index))
        return NULL;
    if (index >= 1 && index <= target->size)
        return (target->op == LOCAL_ELEMENT ? m->words : data) + target->value + index - 1;
    m->raised = ERR_OUTOFBND;
    return NULL;
}

/* Where a target is; NULL where its index raises an error. */
static inline int32_t *spot(struct machine *m, const struct node *target) {
    if (target->op == LOCAL)
        return m->words + target->value;
    return target->op == GLOBAL ? data + target->value : element_spot(m, target);
}

/* ---- output */
enum { DIGITS = 11 };

/* The number in plain decimal, at the end of `digits`; returns how many. */
static size_t decimal(int32_t n, uint8_t digits[DIGITS]) {
    uint32_t rest = n < 0 ? 0 - (uint32_t)n : (uint32_t)n;
    size_t k = 0;
    do {
        digits[DIGITS - ++k] = (uint8_t)('0' + rest % 10);
        rest /= 10;
    } while (rest);
    if (n < 0)
        digits[DIGITS - ++k] = '-';
    return k;
}

/* Is there room for the string, so many digits and LF? */
static inline int fits(const struct run *run, const struct step *s, size_t count) { return run->room - run->written > s->length + count; }

static inline void write_line(struct run *run, const struct step *s, const uint8_t *digits, size_t count) {
    uint8_t *out = run->output + run->written;
    memcpy(out, s->string, s->length);
    for (size_t i = 0; i < count; i++)
        out[s->length + i] = digits[i];
    out[s->length + count] = '\n';
    run->written += s->length + count + 1;
}

/* ---- steps: each function gives the next one, or NULL where its step fails or ends the run */
static inline const struct step *assign(struct machine *m, const struct step *s) {
    int32_t value, *target = spot(m, s->target);
    if (target == NULL || !worked_out(m, s->value, &value))
        return NULL;
    *target = value;
    return s->next;
}

/* Enters a routine whose arguments are in its words already. */
static inline const struct step *enter(struct machine *m, const struct routine *routine, int32_t *result) {
    m->words = m->top->words;
    m->top->routine = routine;
    m->top->in_handler = 0;
    m->top->result = result;
    for (int w = routine->parameters; w < routine->words; w++)
        m->words[w] = routine->start[w];
    return routine->first;
}

static inline const struct step *call(struct machine *m, const struct step *s) {
    int32_t *result = s->target ? spot(m, s->target) : NULL;
    if (s->target && result == NULL)
        return NULL;
    for (int i = 0; i < s->routine->parameters; i++)
        if (!worked_out(m, s->arguments[i], &m->top[1].words[i]))
            return NULL;
    if (m->top == m->last)
        return ends(m, RAPID_DEPTH_SPENT, s->callee);
    m->top->at = s;
    m->top++;
    return enter(m, s->routine, result);
}

static inline const struct step *leave(struct machine *m) {
    if (m->top == calls)
        return ends(m, RAPID_RETURNED, 0);
    m->top--;
    m->words = m->top->words;
    return m->top->at->next;
}

/* A FUNC has a caller, since main is none. */
static inline const struct step *give_back(struct machine *m, const struct step *s) {
    int32_t value;
    if (!worked_out(m, s->value, &value))
        return NULL;
    *m->top->result = value;
    return leave(m);
}

static inline const struct step *raise(struct machine *m, const struct step *s) {
    int32_t value;
    if (!worked_out(m, s->value, &value))
        return NULL;
    return raises(m, value >= 1 && value <= LARGEST_RAISE ? value : ERR_ILLRAISE);
}

/* The handler of the nearest call, from the live one down, that has one; the calls above it are dropped. `s` is where the error arose. */
static const struct step *handled(struct machine *m, const struct step *s) {
    struct call *c = m->top;
    while (!c->routine->has_handler && c != calls)
        c--;
    if (!c->routine->has_handler || c->in_handler)
        return ends(m, RAPID_ERROR_UNHANDLED, s->place);
    c->in_handler = 1;
    c->failed = c->at;
    m->top = c;
    m->words = c->words;
    return c->routine->handler;
}

static inline const struct step *hand_on(struct machine *m, const struct step *s) {
    if (m->top == calls)
        return ends(m, RAPID_ERROR_UNHANDLED, s->place);
    m->top--;
    return handled(m, s);
}

static inline const struct step *leave_handler(struct machine *m) {
    m->top->in_handler = 0;
    return m->top->failed;
}

static inline const struct step *write(struct machine *m, const struct step *s) {
    uint8_t digits[DIGITS];
    size_t count = 0;
    int32_t value;
    if (s->value) {
        if (!worked_out(m, s->value, &value))
            return NULL;
        count = decimal(value, digits);
    }
    if (!fits(m->run, s, count))
        return ends(m, RAPID_NO_OUTPUT_ROOM, s->place);
    write_line(m->run, s, digits + DIGITS - count, count);
    return s->next;
}

static inline const struct step *read(struct machine *m, const struct step *s) {
    struct run *run = m->run;
    int32_t value, *target = spot(m, s->target);
    if (target == NULL)
        return NULL;
    if (!fits(run, s, 0))
        return ends(m, RAPID_NO_OUTPUT_ROOM, s->place);
    if (run->read == run->input_count)
        return ends(m, RAPID_NO_INPUT_LEFT, s->place);
    write_line(run, s, NULL, 0);
    memcpy(&value, run->inputs + 4 * run->read++, sizeof value);
    if (value < LEAST_NUM || value > LARGEST_NUM)
        return raises(m, ERR_OVERFLOW);
    *target = value;
    return s->next;
}

static inline const struct step *choose(struct machine *m, const struct step *s) {
    int32_t value;
    for (const struct arm *arm = s->arms; arm; arm = arm->next) {
        if (arm->condition == NULL)
            return arm->first;
        if (!worked_out(m, arm->condition, &value))
            return NULL;
        if (value)
            return arm->first;
    }
    return s->next;
}

static inline int is_case(const struct arm *arm, int32_t value) {
    for (size_t i = 0; i < arm->count; i++)
        if (arm->values[i] == value)
            return 1;
    return 0;
}

static inline const struct step *test(struct machine *m, const struct step *s) {
    const struct arm *arm = s->arms;
    int32_t value;
    if (!worked_out(m, s->value, &value))
        return NULL;
    while (arm && !is_case(arm, value))
        arm = arm->next;
    return arm ? arm->first : s->first;
}

static inline const struct step *while_test(struct machine *m, const struct step *s) {
    int32_t value;
    if (!worked_out(m, s->value, &value))
        return NULL;
    return value ? s->first : s->next;
}

static inline int goes_on(int32_t value, struct limit limit) { return limit.step >= 0 ? value <= limit.end : value >= limit.end; }

static inline const struct step *for_head(struct machine *m, const struct step *s) {
    struct limit limit;
    int32_t start;
    if (!worked_out(m, s->arguments[0], &start) || !worked_out(m, s->arguments[1], &limit.end))
        return NULL;
    limit.step = start > limit.end ? -1 : 1;
    if (s->arguments[2] && !worked_out(m, s->arguments[2], &limit.step))
        return NULL;
    m->words[s->word] = start;
    m->top->limits[s->word] = limit;
    return goes_on(start, limit) ? s->first : s->next;
}

static inline const struct step *for_next(struct machine *m, const struct step *s) {
    struct limit limit = m->top->limits[s->word];
    int32_t value = m->words[s->word] + limit.step;
    if (!goes_on(value, limit))
        return s->next;
    m->words[s->word] = value;
    return s->first;
}

static inline const struct step *perform(struct machine *m, const struct step *s) {
    switch (s->kind) {
    case ASSIGN: return assign(m, s);
    case CALL: return call(m, s);
    case RETURN: return leave(m);
    case RETURN_VALUE: return give_back(m, s);
    case RAISE_VALUE: return raise(m, s);
    case RAISE_ON: return hand_on(m, s);
    case EXIT: return ends(m, RAPID_EXITED, s->place);
    case RETRY: return leave_handler(m);
    case TRYNEXT: return leave_handler(m)->next;
    case WRITE: return write(m, s);
    case READ: return read(m, s);
    case CHOOSE: return choose(m, s);
    case WHILE: return while_test(m, s);
    case FOR: return for_head(m, s);
    case FOR_NEXT: return for_next(m, s);
    case TEST: return test(m, s);
    case END_OF_PROC: return leave(m);
    default: return ends(m, RAPID_FUNCTION_ENDED, s->place); /* END_OF_FUNC */
    }
}

/* After a step that failed: NULL where the run is over. */
static const struct step *after_failure(struct machine *m, const struct step *s) {
    if (m->raised == 0)
        return NULL;
    error = m->raised;
    m->top->at = s;
    return handled(m, s);
}

/* Does an ending count the step that it ends? */
static uint32_t counts_step(uint32_t ending) { return ending < RAPID_STEPS_SPENT; }

/* The UNDO list of a live call, up to its end or an error; 0 where the run ends in it. */
static int undo_list(struct machine *m, struct call *c, uint32_t *left) {
    const struct step *s = c->routine->undo, *next;
    m->top = c;
    m->words = c->words;
    for (; *left; s = next) {
        next = s->kind == END_OF_UNDO ? NULL : perform(m, s);
        if (next == NULL && s->kind != END_OF_UNDO) {
            if (m->raised == 0)
                return 0;
            error = m->raised;
        }
        --*left;
        if (next == NULL)
            return 1;
    }
    ends(m, RAPID_UNDO_SPENT, s->place);
    return 0;
}

/* Drops the live calls, the newest first. */
static void drop_all(struct machine *m) {
    uint32_t left = m->run->undo;
    size_t live = (size_t)(m->top - calls) + 1;
    int goes_on = 1;
    while (goes_on && live--)
        goes_on = !calls[live].routine->has_undo || undo_list(m, &calls[live], &left);
    if (goes_on)
        ends(m, RAPID_ABORTED, 0);
    m->run->steps = (uint64_t)m->run->at + (m->run->undo - left);
    m->run->error = (uint32_t)error;
}

void plain_perform(const struct module *module, int32_t *module_data, struct run *run) {
    struct machine m = {.top = calls, .last = calls + run->depth - 1, .run = run};
    data = module_data;
    error = 0;
    const struct step *s = enter(&m, module->main, NULL), *next;
    int aborts = run->aborts && run->at <= run->allowance;
    uint32_t steps = aborts ? run->at : run->allowance, left = steps;
    for (; left; left--) {
        next = perform(&m, s);
        if (next == NULL && (next = after_failure(&m, s)) == NULL)
            break;
        s = next;
    }
    if (left == 0 && aborts) {
        drop_all(&m);
        return;
    }
    if (left == 0)
        ends(&m, RAPID_STEPS_SPENT, s->place);
    run->steps = steps - left + counts_step(run->ending);
    run->error = (uint32_t)error;
}
