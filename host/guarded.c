#define _DEFAULT_SOURCE
#include "guarded.h"
#include <setjmp.h>
#include <signal.h>
#include <stdio.h>
#include <stdlib.h>
#include <string.h>
#include <sys/mman.h>
#include <unistd.h>

/* Guards are whole pages. Under an emulator those of the machine itself may be larger than sysconf says; none has larger ones than these. */
enum { LARGEST_PAGE = 1 << 16 };
/* How many bytes next to what was lent hold the pattern, on the side that touches no guard. */
enum { MARGIN = 256 };

static _Noreturn void give_up(const char *what) {
    fprintf(stderr, "guarded memory: %s\n", what);
    exit(1);
}

static size_t rounded_up(size_t n, size_t unit) { return (n + unit - 1) / unit * unit; }

static sigjmp_buf before_the_touch;

static void touched(int number) {
    (void)number;
    siglongjmp(before_the_touch, 1);
}

/* Whether reading a byte is stopped. */
static int is_guarded(const volatile uint8_t *byte) {
    struct sigaction catches = {0}, old;
    catches.sa_handler = touched;
    sigaction(SIGSEGV, &catches, &old);
    int stopped = sigsetjmp(before_the_touch, 1);
    if (!stopped)
        (void)*byte;
    sigaction(SIGSEGV, &old, NULL);
    return stopped;
}

struct guarded guarded_make(size_t most) {
    long page = sysconf(_SC_PAGESIZE);
    size_t unit = page > LARGEST_PAGE ? (size_t)page : LARGEST_PAGE, room = rounded_up(most + MARGIN, unit);
    /* no page of it may be touched at first; then those between the guards may */
    void *all = mmap(NULL, room + 3 * unit, PROT_NONE, MAP_PRIVATE | MAP_ANONYMOUS, -1, 0);
    if (all == MAP_FAILED)
        give_up("there is none");
    uint8_t *begins = (uint8_t *)rounded_up((uintptr_t)all, unit) + unit;
    if (mprotect(begins, room, PROT_READ | PROT_WRITE))
        give_up("its pages cannot be opened");
    if (!is_guarded(begins - 1) || !is_guarded(begins + room) || is_guarded(begins) || is_guarded(begins + room - 1))
        give_up("its guards do not guard");
    return (struct guarded){begins, room, begins, 0, 0, NULL};
}

uint8_t *guarded_lend(struct guarded *g, size_t length, enum edge edge) {
    if (edge != UNWRITTEN && length + MARGIN > g->room)
        give_up("more is asked for than there is room");
    g->length = length;
    free(g->of_heap);
    g->of_heap = NULL;
    if (edge == UNWRITTEN) {
        g->lent = g->of_heap = malloc(length ? length : 1);
        if (g->lent == NULL)
            give_up("the heap has none");
    } else if (edge == LAST_BYTE_GUARDED) {
        g->pattern = 0xa5;
        g->lent = g->begins + g->room - length;
        memset(g->lent - MARGIN, g->pattern, MARGIN + length);
    } else {
        g->pattern = 0x5a;
        g->lent = g->begins;
        memset(g->lent, g->pattern, length + MARGIN);
    }
    return g->lent;
}

int all_are(uint8_t value, const uint8_t *bytes, size_t count) { return count == 0 || (bytes[0] == value && memcmp(bytes, bytes + 1, count - 1) == 0); }

int guarded_kept_from(const struct guarded *g, size_t begin, size_t count) { return g->of_heap || all_are(g->pattern, g->lent + begin, count); }

int guarded_kept(const struct guarded *g, size_t written) {
    if (g->of_heap)
        return 1;
    int begins_at_guard = g->lent == g->begins;
    const uint8_t *rest = g->lent + written, *end = g->lent + g->length + (begins_at_guard ? MARGIN : 0);
    return all_are(g->pattern, rest, (size_t)(end - rest)) && (begins_at_guard || all_are(g->pattern, g->lent - MARGIN, MARGIN));
}
