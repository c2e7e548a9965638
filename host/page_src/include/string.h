#ifndef PAGE_STRING_H
#define PAGE_STRING_H
#include <stddef.h>
#define memcpy(into, from, bytes) __builtin_memcpy(into, from, bytes)
#define strlen(text) page_length(text)
static inline size_t page_length(const char *text) {
    size_t n = 0;
    while (text[n])
        n++;
    return n;
}
#endif
