#ifndef PAGE_STDIO_H
#define PAGE_STDIO_H
#include <stddef.h>
int snprintf(char *into, size_t room, const char *form, ...); /* page.c has it: %s alone */
#endif
