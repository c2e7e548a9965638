/* Reads case lines and says how many bytes of stack the deepest of the calls used: each runs in a thread on a stack of its own that was painted before. */
#define _POSIX_C_SOURCE 200809L
#include "case_call.h"
#include "class_lines.h"
#include <pthread.h>
#include <stdio.h>
#include <stdlib.h>
#include <string.h>

enum { STACK = 1 << 20, PAINT = 0xa5 };
static char line[MOST_CLASS_LINE];
static struct call_case asked;
static struct class_case asked_class;
static uint8_t output[MOST_OUTPUT], code[RAPID_STORE_BYTES], values[RAPID_STORE_BYTES], record[RAPID_RECORD_BYTES], answer[RAPID_MARKING_BYTES], records[MOST_RECORDS], data[MOST_DATA];

static void *nothing(void *unused) { return unused; }

static void *call(void *unused) {
    const struct case_memory m = {asked.text, asked.inputs, output, code, values, record, 4 * asked.input_count, sizeof code, sizeof values, sizeof record};
    const struct case_marking k = {asked.listing, answer, asked.listing_length, sizeof answer};
    if (asked.marks)
        case_mark(&asked, &m, &k);
    else
        case_call(&asked, 0, &m);
    return unused;
}

static void *call_for_class(void *unused) {
    const struct call_case *each = &asked_class.each;
    const struct class_memory m = {each->text, asked_class.lengths, each->inputs, output, code, values, records, data, 4 * each->input_count, sizeof code, sizeof values};
    class_call(&asked_class, &m);
    return unused;
}

/* How many bytes of its stack a thread that does this has touched. */
static size_t touched(uint8_t *stack, void *(*does)(void *)) {
    pthread_attr_t attributes;
    pthread_t thread;
    size_t free_bytes = 0;
    memset(stack, PAINT, STACK);
    if (pthread_attr_init(&attributes) || pthread_attr_setstack(&attributes, stack, STACK) || pthread_create(&thread, &attributes, does, NULL) || pthread_join(thread, NULL)) {
        fprintf(stderr, "no thread on a stack of its own\n");
        exit(1);
    }
    while (free_bytes < STACK && stack[free_bytes] == PAINT)
        free_bytes++;
    return STACK - free_bytes;
}

int main(void) {
    uint8_t *stack;
    size_t deepest = 0;
    unsigned long calls = 0;
    if (posix_memalign((void **)&stack, 1 << 16, STACK))
        return 1;
    size_t without = touched(stack, nothing);
    for (; fgets(line, sizeof line, stdin); calls++) {
        int is_class = class_read(line, &asked_class);
        if (!is_class && !case_read(line, &asked))
            continue;
        size_t used = touched(stack, is_class ? call_for_class : call) - without;
        if (used > deepest)
            deepest = used;
    }
    printf("%lu calls, at most %zu bytes of stack\n", calls, deepest);
    return 0;
}
