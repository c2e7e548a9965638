#ifndef PLAIN_CALL_H
#define PLAIN_CALL_H
#include <stddef.h>
#include <stdint.h>
/* As rapid_run and rapid_run_until of host/rapid.h, in plain C: nothing about it is proved. Its tables are static, so one call at a time. */
uint32_t plain_run(const uint8_t *text, size_t text_length, uint32_t steps, uint32_t depth, const uint8_t *inputs, size_t inputs_length, uint8_t *output,
                   size_t output_length, uint8_t *code, size_t code_length, uint8_t *values, size_t values_length, uint8_t *record, size_t record_length);
uint32_t plain_run_until(const uint8_t *text, size_t text_length, uint32_t flags, uint32_t steps, uint32_t depth, uint32_t at, uint32_t undo, const uint8_t *inputs, size_t inputs_length,
                         uint8_t *output, size_t output_length, uint8_t *code, size_t code_length, uint8_t *values, size_t values_length, uint8_t *record, size_t record_length);
#endif
