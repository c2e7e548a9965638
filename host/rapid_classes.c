/* The wrapper of rapid_class: an object of its own, so that a program that runs no class is not linked with it. */
#include "rapid.h"
#include "rapid_slices.h"

/* As in rapid.c: numbers are lent as the machine has them, and records stand side by side. */
_Static_assert(sizeof(struct rapid_record) == RAPID_RECORD_BYTES, "records stand side by side");

int rapid_call_class(const struct rapid_class *lent, uint32_t *refusal) {
    if (lent == NULL || refusal == NULL)
        return 0;
    const struct slice slices[] = {
        {lent->texts, lent->text_length, 1}, {lent->lengths, lent->count, sizeof(uint32_t)}, {lent->inputs, lent->input_count, sizeof(int32_t)}, {lent->output, lent->output_length, 1},
        {lent->code, lent->code_words, sizeof(int32_t)}, {lent->values, lent->value_words, sizeof(int32_t)}, {lent->records, lent->record_count, sizeof *lent->records},
        {lent->data, lent->data_words, sizeof(int32_t)}, {lent, 1, sizeof *lent}, {refusal, 1, sizeof *refusal},
    };
    if (!may_be_lent(slices, sizeof slices / sizeof *slices))
        return 0;
    *refusal = rapid_class(lent->texts, lent->text_length, (const uint8_t *)lent->lengths, 4 * lent->count, lent->steps, lent->depth, (const uint8_t *)lent->inputs, 4 * lent->input_count,
                           lent->output, lent->output_length, (uint8_t *)lent->code, 4 * lent->code_words, (uint8_t *)lent->values, 4 * lent->value_words, (uint8_t *)lent->records,
                           RAPID_RECORD_BYTES * lent->record_count, (uint8_t *)lent->data, 4 * lent->data_words);
    return 1;
}
