/* Reads case lines two by two, a text and two rooms of which the second is at least as large (reference's `pairs` writes them), makes both calls of the
 * compiled library and holds their answers to demand 3, more room never changes an answer, as crates/demands/specs/Demands.antt words it (`NeverChanged`).
 * Request 6: "Demand 3 then reads for equal K, with an UNDO allowance that may grow; endings 1 to 4 and 9 are final."
 * Ends with a message and status 1 where a pair does not keep it; otherwise says how many pairs of which sort there were. */
#include "case_call.h"
#include <stdio.h>
#include <stdlib.h>
#include <string.h>

struct told {
    struct rapid_record record;
    uint8_t output[MOST_OUTPUT];
    int32_t values[RAPID_STORE_WORDS];
};
static char line[MOST_LINE];
static struct call_case first, second;
static struct told short_run, long_run;
static unsigned long pairs;

static void expect(int holds, const char *otherwise) {
    if (holds)
        return;
    fprintf(stderr, "pair %lu: %s\n", pairs + 1, otherwise);
    exit(1);
}

/* Both have the same K, or none; the second has at least as many UNDO steps. */
static int is_equal_abort(void) { return first.aborts == second.aborts && (!first.aborts || (first.at == second.at && first.undo <= second.undo)); }

/* `MoreRoom`: one text, and at least as much of each room; the first's inputs begin the second's. */
static int is_more_room(void) {
    return first.text_length == second.text_length && memcmp(first.text, second.text, first.text_length) == 0 && first.steps <= second.steps && first.depth <= second.depth &&
           1 <= first.depth && second.depth <= RAPID_DEPTH_LIMIT && first.room <= second.room && first.input_count <= second.input_count &&
           memcmp(first.inputs, second.inputs, 4 * first.input_count) == 0 && is_equal_abort();
}

/* With K as the proved code takes it. */
static void call_until(const struct call_case *c, struct told *t) {
    static uint8_t code[RAPID_STORE_BYTES];
    const struct case_memory m = {c->text, c->inputs, t->output, code, (uint8_t *)t->values, (uint8_t *)&t->record, 4 * c->input_count, sizeof code, sizeof t->values, RAPID_RECORD_BYTES};
    expect(case_call(c, 0, &m) == 1, "the call was not made");
}

static void call(const struct call_case *c, struct told *t) {
    static int32_t code[RAPID_STORE_WORDS], inputs[MOST_INPUTS];
    if (c->aborts) {
        call_until(c, t);
        return;
    }
    for (size_t i = 0; i < c->input_count; i++)
        inputs[i] = (int32_t)number_at(c->inputs + 4 * i, 4);
    struct rapid_lent lent = {c->text, c->text_length, c->steps, c->depth, inputs, c->input_count, t->output, c->room, code, RAPID_STORE_WORDS, t->values, RAPID_STORE_WORDS};
    expect(rapid_call(&lent, &t->record), "the call was not made");
}

/* "the second has the same record, module data and output" */
static int is_same(void) {
    const struct rapid_record *a = &short_run.record, *b = &long_run.record;
    return memcmp(a, b, sizeof *a) == 0 && memcmp(short_run.output, long_run.output, a->output) == 0 && memcmp(short_run.values, long_run.values, 4 * a->module_words) == 0;
}

/* "its output begins the second's, and it used no more steps and no more inputs" */
static int is_beginning(void) {
    const struct rapid_record *a = &short_run.record, *b = &long_run.record;
    return a->output <= b->output && memcmp(short_run.output, long_run.output, a->output) == 0 && a->steps <= b->steps && a->inputs <= b->inputs;
}

static int is_final(uint64_t ending) { return (RAPID_RETURNED <= ending && ending <= RAPID_FUNCTION_ENDED) || ending == RAPID_ABORTED; }

int main(void) {
    unsigned long refused = 0, finished = 0, aborted = 0, broke_off = 0, undo_spent = 0, went_on = 0, finished_then = 0;
    while (fgets(line, sizeof line, stdin)) {
        expect(case_read(line, &first), "no case line");
        expect(fgets(line, sizeof line, stdin) != NULL && case_read(line, &second), "no second line");
        expect(is_more_room(), "the second has not more room");
        call(&first, &short_run);
        call(&second, &long_run);
        uint64_t a = short_run.record.ending, b = long_run.record.ending;
        expect((a == RAPID_REFUSED) == (b == RAPID_REFUSED), "one is refused, the other is not");
        if (a == RAPID_REFUSED) {
            expect(is_same(), "not refused alike");
            refused++;
        } else if (is_final(a)) {
            expect(is_same(), "it had finished, and more room changed its answer");
            finished++;
            aborted += a == RAPID_ABORTED;
        } else {
            expect(is_beginning(), "it had broken off, and is no beginning of the longer run");
            broke_off++;
            undo_spent += a == RAPID_UNDO_SPENT;
            went_on += short_run.record.steps < long_run.record.steps;
            finished_then += is_final(b);
        }
        pairs++;
    }
    printf("%lu pairs, all as demanded: %lu refused alike, %lu finished with the same answer (%lu of them aborted), %lu broke off (%lu of them in an UNDO list without steps); of these %lu went on with more "
           "room and %lu finished\n",
           pairs, refused, finished, aborted, broke_off, undo_spent, went_on, finished_then);
    return 0;
}
