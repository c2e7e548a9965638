/* Why a text is refused, in a sentence about its words: narrower than rapid_refusal_sentence where the words around the place say which part of the rule is meant. */
#ifndef RAPID_REASON_H
#define RAPID_REASON_H
#include "rapid.h"

/* Written into `sentence`, which is also returned. */
const char *rapid_reason(const uint8_t *text, size_t text_length, uint64_t refusal, size_t offset, char *sentence, size_t room);

#endif
