/* The wrapper of the call that marks a listing. It is an object of its own, so that a program which marks none is not linked with that library. */
#include "rapid.h"
#include "rapid_slices.h"

/* As in rapid.c: numbers are lent as the machine has them, and without gaps. */
_Static_assert(offsetof(struct rapid_marking, index) + sizeof(uint32_t) == RAPID_MARKING_BYTES, "the answer's numbers stand side by side");

int rapid_call_mark(const struct rapid_lent *lent, const uint32_t *places, size_t place_count, struct rapid_record *record, struct rapid_marking *marking) {
    if (lent == NULL || record == NULL || marking == NULL)
        return 0;
    const struct slice slices[] = {LENT_SLICES(lent, record), {places, place_count, sizeof *places}, {marking, 1, sizeof *marking}};
    if (!may_be_lent(slices, sizeof slices / sizeof *slices))
        return 0;
    return (int)rapid_mark(lent->text, lent->text_length, lent->steps, lent->depth, (const uint8_t *)lent->inputs, 4 * lent->input_count, lent->output, lent->output_length,
                           (uint8_t *)lent->code, 4 * lent->code_words, (uint8_t *)lent->values, 4 * lent->value_words, (const uint8_t *)places, 4 * place_count, (uint8_t *)record,
                           RAPID_RECORD_BYTES, (uint8_t *)marking, RAPID_MARKING_BYTES);
}
