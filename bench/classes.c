/* classes ROUNDS MOST FILE..: nanoseconds of processor time of one call for 64 modules of 1 kB (rapid_class) beside 64 calls for them one by one (rapid_run), with the same steps and the same room; the two take
 * short turns, so that a machine that slows down slows both, and the best of all turns counts. The modules are the files in turn, each filled up to 1,024 bytes with blanks. Records, outputs and data are
 * compared. Ends with status 1 where the call for all of them takes more than MOST times the others together. */
#include "../host/rapid.h"
#include <stdio.h>
#include <stdlib.h>
#include <string.h>
#include <time.h>

enum { MODULES = RAPID_CLASS_LIMIT, BYTES = 1024, SHARE = 4096, STEPS = 10000, DEPTH = 16 };
static const int32_t inputs[] = {3, 4, 5, 0};

static uint8_t texts[MODULES * BYTES], code[RAPID_STORE_BYTES], values[RAPID_STORE_BYTES];
static uint32_t lengths[MODULES];
static struct answers {
    uint8_t output[MODULES * SHARE];
    struct rapid_record records[MODULES];
    int32_t data[MODULES * RAPID_MODULE_WORD_LIMIT];
} of_class, of_each;

static void fail(const char *what, const char *why) {
    fprintf(stderr, "%s: %s\n", what, why);
    exit(1);
}

static double now(void) {
    struct timespec t;
    clock_gettime(CLOCK_PROCESS_CPUTIME_ID, &t);
    return (double)t.tv_sec * 1e9 + (double)t.tv_nsec;
}

static void load(size_t i, const char *path) {
    uint8_t *text = texts + i * BYTES;
    FILE *from = fopen(path, "rb");
    if (from == NULL)
        fail(path, "cannot be read");
    memset(text, ' ', BYTES);
    if (fread(text, 1, BYTES, from) == BYTES && fgetc(from) != EOF)
        fail(path, "more than 1,024 bytes");
    fclose(from);
    lengths[i] = BYTES;
}

static void call_class(void) {
    if (rapid_class(texts, sizeof texts, (const uint8_t *)lengths, sizeof lengths, STEPS, DEPTH, (const uint8_t *)inputs, sizeof inputs, of_class.output, sizeof of_class.output, code, sizeof code,
                    values, sizeof values, (uint8_t *)of_class.records, sizeof of_class.records, (uint8_t *)of_class.data, sizeof of_class.data) != RAPID_NOT_REFUSED)
        fail("class", "refused");
}

static void call_one(size_t i) {
    if (rapid_run(texts + i * BYTES, BYTES, STEPS, DEPTH, (const uint8_t *)inputs, sizeof inputs, of_each.output + i * SHARE, SHARE, code, sizeof code, values, sizeof values,
                  (uint8_t *)&of_each.records[i], RAPID_RECORD_BYTES) != 1)
        fail("call", "did not return 1");
}

static void call_each(void) {
    for (size_t i = 0; i < MODULES; i++)
        call_one(i);
}

/* Both give the same. A single call leaves its data in the value store, until the next. */
static void compare(void) {
    call_class();
    for (size_t i = 0; i < MODULES; i++) {
        call_one(i);
        memcpy(of_each.data + i * RAPID_MODULE_WORD_LIMIT, values, sizeof *of_each.data * RAPID_MODULE_WORD_LIMIT);
        if (of_each.records[i].ending == RAPID_REFUSED)
            fail("call", "a module is refused");
    }
    if (memcmp(&of_class, &of_each, sizeof of_class))
        fail("class", "the call for a class and those for its modules differ");
}

static double best_of(double best, void (*does)(void)) {
    double began = now();
    does();
    double took = now() - began;
    return best == 0 || took < best ? took : best;
}

int main(int count, char **words) {
    double class = 0, each = 0;
    uint64_t steps = 0;
    if (count < 4)
        fail("usage", "classes ROUNDS MOST FILE..");
    for (size_t i = 0; i < MODULES; i++)
        load(i, words[3 + i % (size_t)(count - 3)]);
    compare();
    for (int round = atoi(words[1]); round > 0; round--) {
        class = best_of(class, call_class);
        each = best_of(each, call_each);
    }
    for (size_t i = 0; i < MODULES; i++)
        steps += of_class.records[i].steps;
    printf("%d modules of %d bytes, %llu steps: one call %.0f us, %d calls %.0f us, ratio %.3f\n", MODULES, BYTES, (unsigned long long)steps, class / 1000, MODULES, each / 1000, class / each);
    if (class > atof(words[2]) * each)
        fail("class", "a longer time than is allowed beside its modules one by one");
    return 0;
}
