/* The proved call for a class with a fault put around it, for tools/faults: what the comparison of class lines must find. FAULT is its number. */
#include "rapid.h"

/* the proved call, renamed */
uint32_t proved_class(const uint8_t *texts, size_t texts_length, const uint8_t *lengths, size_t lengths_length, uint32_t steps, uint32_t depth, const uint8_t *inputs, size_t inputs_length,
                      uint8_t *output, size_t output_length, uint8_t *code, size_t code_length, uint8_t *values, size_t values_length, uint8_t *records, size_t records_length, uint8_t *data,
                      size_t data_length);

enum { READS_ON = 1, WRITES_FRACTION, LEAVES_DATA, KEEPS_STORE };
enum { DATA_BYTES = 4 * RAPID_MODULE_WORD_LIMIT };

static size_t word_at(const uint8_t *bytes) { return bytes[0] | (size_t)bytes[1] << 8 | (size_t)bytes[2] << 16 | (size_t)bytes[3] << 24; }

uint32_t rapid_class(const uint8_t *texts, size_t texts_length, const uint8_t *lengths, size_t lengths_length, uint32_t steps, uint32_t depth, const uint8_t *inputs, size_t inputs_length,
                     uint8_t *output, size_t output_length, uint8_t *code, size_t code_length, uint8_t *values, size_t values_length, uint8_t *records, size_t records_length, uint8_t *data,
                     size_t data_length) {
    /* without steps nothing is written that a second call would not write over */
    uint32_t refusal = proved_class(texts, texts_length, lengths, lengths_length, FAULT == READS_ON ? 0 : steps, depth, inputs, inputs_length, output, output_length, code, code_length, values,
                                    values_length, records, records_length, data, data_length);
    size_t count = refusal ? 0 : lengths_length / 4, share = count ? output_length / count : 0;
    /* each module reads on where the one before it stopped */
    for (size_t i = 0, at = 0, used = 0; FAULT == READS_ON && i < count; i++) {
        size_t length = word_at(lengths + 4 * i), left = inputs_length > 4 * used ? inputs_length - 4 * used : 0;
        proved_class(texts + at, length, lengths + 4 * i, 4, steps, depth, inputs + inputs_length - left, left, output + i * share, share, code, code_length, values, values_length,
                     records + RAPID_RECORD_BYTES * i, RAPID_RECORD_BYTES, data + DATA_BYTES * i, DATA_BYTES);
        at += length;
        used += word_at(records + RAPID_RECORD_BYTES * i + 48);
    }
    /* a byte behind the last share, where a fraction is dropped */
    if (FAULT == WRITES_FRACTION && count && count * share < output_length)
        output[count * share] = 1;
    /* the last word of a module that has no data */
    if (FAULT == LEAVES_DATA && count && records[RAPID_RECORD_BYTES * count - 8] == 0)
        data[DATA_BYTES * count - 1] = 1;
    /* the value store as it was, where there is no module */
    if (FAULT == KEEPS_STORE && !refusal && lengths_length < 4 && values_length)
        values[0] = 1;
    return refusal;
}
