/* Memory that a host lends to the library, between pages that nobody may touch: a byte read or written past the guarded end of what was lent ends the
 * host by SIGSEGV. Bytes next to the other end, and those lent but not to be written, hold a pattern, so that a write there is seen afterwards. A host
 * tries each case at both edges; the pattern differs between them, so no byte that is written can be the pattern both times. */
#ifndef GUARDED_H
#define GUARDED_H
#include <stddef.h>
#include <stdint.h>

enum edge {
    LAST_BYTE_GUARDED,
    FIRST_BYTE_GUARDED,
    EDGES,
    /* Of the heap, exactly as many bytes, none of them written, whatever guards were made. For valgrind, which knows such memory's ends and whatever depends on a byte that nobody wrote. */
    UNWRITTEN
};

struct guarded {
    uint8_t *begins; /* what lies between the guards */
    size_t room;
    uint8_t *lent; /* the part that was lent last */
    size_t length;
    uint8_t pattern;
    uint8_t *of_heap; /* NULL where it lies between the guards */
};

/* Room to lend `most` bytes. Ends the program, with a message, where there is none or where the guards guard nothing. */
struct guarded guarded_make(size_t most);

/* Lends `length` bytes that touch a guard, all of them the pattern; or unwritten bytes. What was lent before may not be used any more. */
uint8_t *guarded_lend(struct guarded *g, size_t length, enum edge edge);

/* Whether all of these bytes have this value. */
int all_are(uint8_t value, const uint8_t *bytes, size_t count);

/* Whether these bytes of what was lent are still the pattern. Of unwritten bytes only valgrind can tell. */
int guarded_kept_from(const struct guarded *g, size_t begin, size_t count);

/* Whether all but the first `written` bytes of what was lent, and the bytes next to it, are still the pattern. Of unwritten bytes only valgrind can tell. */
int guarded_kept(const struct guarded *g, size_t written);

#endif
