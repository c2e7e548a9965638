/* Which names the module's data have: what stands where in the front of the value store after a call. Told from the words of the text, and how many words each declaration takes by checks of the bench itself. */
#ifndef RAPID_NAMES_H
#define RAPID_NAMES_H
#include "rapid.h"

struct rapid_datum {
    uint32_t place, length; /* its name in the text */
    uint32_t first, count;  /* its words in the value store */
    uint32_t is_array, is_bool;
};

/* The data of a module that the bench accepts, in order of declaration, as many as there is room for. Returns how many there are; 0 where the module is refused, or has none. */
size_t rapid_names(const uint8_t *text, size_t text_length, struct rapid_datum *data, size_t room);

#endif
