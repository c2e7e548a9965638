/* words: nanoseconds of processor time a byte of the reading, the proved scanner beside the plain one and the plain one with its decision, and of asking about
 * a place, on a text of 1 to 32 kB made of a lesson from standard input. `shifted` is the proved scanner's same code 16 bytes further on in memory.
 * words KB: of that size only.
 * words KB proved|plain|decided TIMES: that one only, untimed, for counting instructions. */
#include "../host/rapid.h"
#include "plain_words.h"
#include <stdio.h>
#include <stdlib.h>
#include <string.h>
#include <time.h>

#ifndef ROUNDS
#define ROUNDS 100
#endif
enum { LESSON = 16384, TURN = 1 << 19 };
enum reading { PROVED, SHIFTED, PLAIN, DECIDED, LISTINGS, ASK = LISTINGS, READINGS };
static const char *const names[READINGS] = {"proved", "shifted", "plain", "decided", "ask"};

/* as rapid_list */
uint32_t shifted_list(const uint8_t *text, size_t text_length, uint8_t *out, size_t out_length, uint8_t *answer, size_t answer_length);

static uint8_t lesson[LESSON], text[RAPID_TEXT_LIMIT];
static uint8_t out[LISTINGS][RAPID_ENTRY_BYTES * RAPID_WORD_LIMIT], answer[LISTINGS][RAPID_ANSWER_BYTES];
static volatile size_t asked;

static double now(void) {
    struct timespec t;
    clock_gettime(CLOCK_PROCESS_CPUTIME_ID, &t);
    return (double)t.tv_sec * 1e9 + (double)t.tv_nsec;
}

static void read_once(enum reading r, size_t n) {
    switch (r) {
    case PROVED:
        if (rapid_list(text, n, out[r], sizeof out[r], answer[r], sizeof answer[r]) != 1)
            exit(1);
        break;
    case SHIFTED:
        if (shifted_list(text, n, out[r], sizeof out[r], answer[r], sizeof answer[r]) != 1)
            exit(1);
        break;
    case PLAIN:
        plain_list(text, n, out[r], sizeof out[r], answer[r]);
        break;
    case DECIDED:
        decided_list(text, n, out[r], sizeof out[r], answer[r]);
        break;
    default: /* asked about the end, so that the whole text is read */
        asked += rapid_ask(text, n, n);
    }
}

/* The least time a byte of each reading: they take short turns, so that a machine that slows down slows all of them. */
static void paces(size_t n, double best[READINGS]) {
    int times = (int)(TURN / n);
    for (int r = 0; r < READINGS; r++)
        best[r] = 1e30;
    for (int round = 0; round < ROUNDS; round++)
        for (int r = 0; r < READINGS; r++) {
            double began = now();
            for (int i = 0; i < times; i++)
                read_once((enum reading)r, n);
            double took = (now() - began) / times / (double)n;
            best[r] = took < best[r] ? took : best[r];
        }
}

/* The lesson again and again, whole lines, up to n bytes. */
static size_t make_text(size_t have, size_t n) {
    size_t k = 0;
    while (k < n) {
        text[k] = lesson[k % have];
        k++;
    }
    while (k > 0 && text[k - 1] != '\n')
        k--;
    return k;
}

/* Whether a listing differs from the first. */
static int differs(enum reading r) { return memcmp(answer[0], answer[r], sizeof answer[r]) || memcmp(out[0], out[r], sizeof out[r]); }

static void count(enum reading r, size_t n, int times) {
    for (int i = 0; i < times; i++)
        read_once(r, n);
    printf("%zu\n", n);
}

/* A line of the table; 0 where the listings differ. */
static int measure(size_t n) {
    double best[READINGS];
    paces(n, best);
    for (int r = 0; r < LISTINGS; r++)
        if (differs((enum reading)r)) {
            printf("%s: another listing\n", names[r]);
            return 0;
        }
    printf("%8zu %7u", n, answer[0][0] | answer[0][1] << 8);
    for (int r = 0; r < READINGS; r++)
        printf(" %7.2f", best[r]);
    printf(" %13.2f %14.2f\n", best[PROVED] / best[PLAIN], best[PROVED] / best[DECIDED]);
    return 1;
}

static void headline(void) {
    printf("%8s %7s", "bytes", "words");
    for (int r = 0; r < READINGS; r++)
        printf(" %7s", names[r]);
    printf(" %13s %14s\n", "proved/plain", "proved/decided");
}

int main(int argc, char **argv) {
    size_t have = fread(lesson, 1, sizeof lesson, stdin), kb = argc > 1 ? (size_t)atoi(argv[1]) : 1, most = argc > 1 ? kb : 32;
    if (have == 0 || kb < 1 || kb > 32)
        return 1;
    plain_start();
    decided_start();
    for (int r = 0; argc == 4 && r < LISTINGS; r++)
        if (strcmp(argv[2], names[r]) == 0)
            return count((enum reading)r, make_text(have, kb * 1024), atoi(argv[3])), 0;
    if (argc == 1)
        headline();
    for (; kb <= most; kb *= 2)
        if (!measure(make_text(have, kb * 1024)))
            return 1;
    return 0;
}
