/* What the wrappers ask of the slices of a call before it is made. No part of what is installed. */
#ifndef RAPID_SLICES_H
#define RAPID_SLICES_H
#include "rapid.h"

struct slice { const void *first; size_t count, size; };

/* The proved code counts on what is so of every slice in Rust: its pointer is not NULL, and it has at most PTRDIFF_MAX bytes. */
static inline int is_slice(const struct slice *s) { return s->count == 0 || (s->first != NULL && s->count <= PTRDIFF_MAX / s->size); }

/* By the distance from the lower to the higher one: no sum, so nothing wraps around. */
static inline int overlap(const struct slice *s, const struct slice *t) {
    uintptr_t a = (uintptr_t)s->first, b = (uintptr_t)t->first;
    if (s->count == 0 || t->count == 0)
        return 0;
    return a <= b ? b - a < s->count * s->size : a - b < t->count * t->size;
}

static inline int may_be_lent(const struct slice *slices, size_t count) {
    for (size_t i = 0; i < count; i++) {
        if (!is_slice(&slices[i]))
            return 0;
        for (size_t k = 0; k < i; k++)
            if (overlap(&slices[k], &slices[i]))
                return 0;
    }
    return 1;
}

/* Those of a call: what is lent, the struct that lends it, and the one that is filled in. */
#define LENT_SLICES(lent, record) \
    {(lent)->text, (lent)->text_length, 1}, {(lent)->inputs, (lent)->input_count, sizeof(int32_t)}, {(lent)->output, (lent)->output_length, 1}, \
        {(lent)->code, (lent)->code_words, sizeof(int32_t)}, {(lent)->values, (lent)->value_words, sizeof(int32_t)}, {(lent), 1, sizeof *(lent)}, {(record), 1, sizeof *(record)}

#endif
