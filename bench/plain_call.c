/* The whole call in plain C: check, run, record. */
#include "plain_call.h"
#include "../host/rapid.h"
#include "plain_tree.h"
#include <string.h>

static struct module module;
static int32_t data[MODULE_WORDS];

/* Eight bytes a field, low byte first, as the processor has it. */
static void put_field(uint8_t *record, int field, uint64_t value) { memcpy(record + 8 * field, &value, sizeof value); }

static void refuse(uint8_t *record, uint32_t number, uint32_t place) {
    memset(record, 0, RAPID_RECORD_BYTES);
    put_field(record, 1, number);
    put_field(record, 2, place);
}

static void answer(uint8_t *record, const struct run *run) {
    put_field(record, 0, run->ending);
    put_field(record, 1, RAPID_NOT_REFUSED);
    put_field(record, 2, run->place);
    put_field(record, 3, run->steps);
    put_field(record, 4, run->error);
    put_field(record, 5, run->written);
    put_field(record, 6, run->read);
    put_field(record, 7, module.words);
}

/* The call for a run of which the allowances, inputs and output are set. */
static uint32_t call(const uint8_t *text, size_t text_length, struct run run, uint8_t *code, size_t code_length, uint8_t *values, size_t values_length, uint8_t *record, size_t record_length) {
    if (record_length < RAPID_RECORD_BYTES)
        return 0;
    if (code_length < RAPID_STORE_BYTES || values_length < RAPID_STORE_BYTES) {
        refuse(record, RAPID_STORE_TOO_SMALL, 0);
        return 1;
    }
    memset(code, 0, RAPID_STORE_BYTES);
    memset(values, 0, RAPID_STORE_BYTES);
    if (run.depth < 1 || run.depth > RAPID_DEPTH_LIMIT) {
        refuse(record, RAPID_DEPTH_OUT_OF_RANGE, 0);
        return 1;
    }
    struct refusal refusal = plain_check(text, text_length, &module);
    if (refusal.number) {
        refuse(record, refusal.number, refusal.place);
        return 1;
    }
    memcpy(data, module.start, module.words * sizeof *data);
    plain_perform(&module, data, &run);
    memcpy(values, data, module.words * sizeof *data);
    answer(record, &run);
    return 1;
}

uint32_t plain_run(const uint8_t *text, size_t text_length, uint32_t steps, uint32_t depth, const uint8_t *inputs, size_t inputs_length, uint8_t *output,
                   size_t output_length, uint8_t *code, size_t code_length, uint8_t *values, size_t values_length, uint8_t *record, size_t record_length) {
    struct run run = {.inputs = inputs, .input_count = inputs_length / 4, .output = output, .room = output_length, .allowance = steps, .depth = depth};
    return call(text, text_length, run, code, code_length, values, values_length, record, record_length);
}

uint32_t plain_run_until(const uint8_t *text, size_t text_length, uint32_t flags, uint32_t steps, uint32_t depth, uint32_t at, uint32_t undo, const uint8_t *inputs, size_t inputs_length,
                         uint8_t *output, size_t output_length, uint8_t *code, size_t code_length, uint8_t *values, size_t values_length, uint8_t *record, size_t record_length) {
    struct run run = {
        .inputs = inputs, .input_count = inputs_length / 4, .output = output, .room = output_length, .allowance = steps, .depth = depth, .aborts = 1, .at = at, .undo = undo};
    if (flags)
        return 0;
    return call(text, text_length, run, code, code_length, values, values_length, record, record_length);
}
