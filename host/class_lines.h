/* Case lines `class TEXTS LENGTHS STEPS DEPTH INPUTS OUTLEN CODELEN VALUELEN RECORDSLEN DATALEN` (request 7); reference/README.md has their form. */
#ifndef CLASS_LINES_H
#define CLASS_LINES_H
#include "case_lines.h"
#include "rapid.h"

/* The most that a host lends besides. */
enum { MOST_LENGTHS = 1 << 12, MOST_RECORDS = 1 << 16, MOST_DATA = 1 << 22, MOST_CLASS_LINE = MOST_LINE + 2 * MOST_LENGTHS };
enum { LENGTH_BYTES = 4, CLASS_DATA_BYTES = 4 * RAPID_MODULE_WORD_LIMIT };

struct class_case {
    struct call_case each; /* its text are the texts; the rest holds for each module, but for the room, which is for all of them */
    uint8_t lengths[MOST_LENGTHS];
    size_t lengths_length, records_length, data_length;
};

/* Memory for it; how much text, output, records and data there is says the case. */
struct class_memory {
    const uint8_t *texts, *lengths, *inputs;
    uint8_t *output, *code, *values, *records, *data;
    size_t inputs_length, code_length, values_length;
};

/* Whether the line is a case, within what a host lends. */
int class_read(const char *line, struct class_case *into);

/* The call that it asks for: the class's refusal. */
static inline uint32_t class_call(const struct class_case *c, const struct class_memory *m) {
    return rapid_class(m->texts, c->each.text_length, m->lengths, c->lengths_length, c->each.steps, c->each.depth, m->inputs, m->inputs_length, m->output, c->each.room, m->code, m->code_length,
                       m->values, m->values_length, m->records, c->records_length, m->data, c->data_length);
}

#endif
