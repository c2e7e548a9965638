/* The call that a case line asks for. */
#ifndef CASE_CALL_H
#define CASE_CALL_H
#include "case_lines.h"
#include "rapid.h"

/* Memory for it; how much text and output there is says the case. */
struct case_memory {
    const uint8_t *text, *inputs;
    uint8_t *output, *code, *values, *record;
    size_t inputs_length, code_length, values_length, record_length;
};

/* By rapid_run; by rapid_run_until where the case has a step number K, or where flags are given. */
static inline uint32_t case_call(const struct call_case *c, uint32_t flags, const struct case_memory *m) {
    if (!c->aborts && flags == 0)
        return rapid_run(m->text, c->text_length, c->steps, c->depth, m->inputs, m->inputs_length, m->output, c->room, m->code, m->code_length, m->values, m->values_length, m->record,
                         m->record_length);
    return rapid_run_until(m->text, c->text_length, flags, c->steps, c->depth, c->at, c->undo, m->inputs, m->inputs_length, m->output, c->room, m->code, m->code_length, m->values,
                           m->values_length, m->record, m->record_length);
}

/* Memory for a case of marking besides. */
struct case_marking {
    const uint8_t *listing;
    uint8_t *answer;
    size_t listing_length, answer_length;
};

/* By rapid_mark, where the case has a listing. */
static inline uint32_t case_mark(const struct call_case *c, const struct case_memory *m, const struct case_marking *k) {
    return rapid_mark(m->text, c->text_length, c->steps, c->depth, m->inputs, m->inputs_length, m->output, c->room, m->code, m->code_length, m->values, m->values_length, k->listing,
                      k->listing_length, m->record, m->record_length, k->answer, k->answer_length);
}

#endif
