#ifndef PLAIN_WORDS_H
#define PLAIN_WORDS_H
#include <stddef.h>
#include <stdint.h>
void plain_start(void);
/* As rapid_list, with twelve bytes of answer. */
void plain_list(const uint8_t *text, size_t length, uint8_t *out, size_t room, uint8_t *answer);
/* The same, with reserved words told by length and first letter, as the proved scanner does. */
void decided_start(void);
void decided_list(const uint8_t *text, size_t length, uint8_t *out, size_t room, uint8_t *answer);
#endif
