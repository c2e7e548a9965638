/* calls: nanoseconds of processor time of the whole call, the proved one (rapid_run) beside the plain one (plain_run), which take short turns, so that a machine
 * that slows down slows both; the best of all turns counts. Records, outputs and both stores are compared.
 * calls check ROUNDS TEXT..: the call with an allowance of 0, that is the check, a byte of each text.
 * calls floor ROUNDS TEXT: the same, a call: what the shortest text costs, where both stores are emptied.
 * calls run ROUNDS LUA LESSON..: lessons from their first step to their last, a step; LUA is a command that runs a lesson's twin, - for none.
 * calls growth ROUNDS MOST LESSON: the first 10,000 to MOST steps of a lesson that has as many, a step.
 * calls once proved|plain ALLOWANCE TIMES TEXT: untimed, for counting instructions; prints the steps made. */
#include "../host/rapid.h"
#include "plain_call.h"
#include <stdio.h>
#include <stdlib.h>
#include <string.h>
#include <time.h>

enum { MOST_ROWS = 32, OUTPUT_ROOM = 1 << 23, BAR = 40, TURN_BYTES = 1 << 17, TURN_STEPS = 200000, ROUND_STEPS = 50000000, FIRST_GROWTH = 10000 };
enum which { PROVED, PLAIN, CALLS, LUA = CALLS, PACES };
static const char *const names[PACES] = {"proved", "plain", "Lua"};

static uint8_t text[RAPID_TEXT_LIMIT + 1];
static size_t length;
static struct lent {
    uint8_t output[OUTPUT_ROOM], code[RAPID_STORE_BYTES], values[RAPID_STORE_BYTES];
    struct rapid_record record;
} lent[CALLS];

struct row {
    char label[32];
    double size, pace[PACES]; /* a pace of 0 was not taken */
};

static void fail(const char *what, const char *why) {
    fprintf(stderr, "%s: %s\n", what, why);
    exit(1);
}

static double now(void) {
    struct timespec t;
    clock_gettime(CLOCK_PROCESS_CPUTIME_ID, &t);
    return (double)t.tv_sec * 1e9 + (double)t.tv_nsec;
}

static void load(const char *path) {
    FILE *file = fopen(path, "rb");
    if (file == NULL)
        fail(path, "cannot be read");
    length = fread(text, 1, sizeof text, file);
    fclose(file);
}

/* A file's name without folders and ending. */
static void label(char into[32], const char *path) {
    const char *base = strrchr(path, '/') ? strrchr(path, '/') + 1 : path, *dot = strrchr(base, '.');
    snprintf(into, 32, "%.*s", dot ? (int)(dot - base) : 31, base);
}

static void call(enum which w, uint32_t allowance) {
    struct lent *l = &lent[w];
    if ((w == PROVED ? rapid_run : plain_run)(text, length, allowance, RAPID_DEPTH_LIMIT, NULL, 0, l->output, sizeof l->output, l->code, sizeof l->code, l->values,
                                              sizeof l->values, (uint8_t *)&l->record, sizeof l->record) != 1)
        fail(names[w], "did not return 1");
}

/* The least time of a call, both taking turns of so many calls. */
static void best_of(int rounds, uint32_t allowance, int times, double best[CALLS]) {
    best[PROVED] = best[PLAIN] = 1e30;
    for (int round = 0; round < rounds; round++)
        for (int w = 0; w < CALLS; w++) {
            double began = now();
            for (int i = 0; i < times; i++)
                call((enum which)w, allowance);
            double took = (now() - began) / times;
            best[w] = took < best[w] ? took : best[w];
        }
}

/* The module is accepted, and both calls come to the same. */
static void compare(const char *path, uint64_t ending) {
    const struct lent *a = &lent[PROVED], *b = &lent[PLAIN];
    if (a->record.ending != ending)
        fail(path, a->record.ending == RAPID_REFUSED ? "refused" : "another ending than the one meant");
    if (memcmp(&a->record, &b->record, sizeof a->record) || memcmp(a->output, b->output, a->record.output) || memcmp(a->values, b->values, sizeof a->values) ||
        memcmp(a->code, b->code, sizeof a->code))
        fail(path, "the proved call and the plain one differ");
}

/* ---- Lua */
static void expect_byte(FILE *file, int byte, const char *path) {
    if (fgetc(file) != byte)
        fail(path, "the lesson and its twin differ");
}

/* Data with commas between them, and then the output, as the proved call has them. */
static void compare_twin(FILE *from, const char *path) {
    const struct lent *l = &lent[PROVED];
    for (uint64_t i = 0; i < l->record.module_words; i++) {
        int32_t word;
        char shown[16];
        memcpy(&word, l->values + 4 * i, sizeof word);
        snprintf(shown, sizeof shown, "%d%c", word, i + 1 == l->record.module_words ? '\n' : ',');
        for (const char *c = shown; *c; c++)
            expect_byte(from, *c, path);
    }
    for (uint64_t i = 0; i < l->record.output; i++)
        expect_byte(from, l->output[i], path);
    expect_byte(from, EOF, path);
}

/* The nanoseconds of one run of a lesson's twin. */
static double lua_run(const char *command, const char *path) {
    char line[1024];
    double took;
    snprintf(line, sizeof line, "%s %.*s.lua", command, (int)(strlen(path) - 4), path);
    FILE *twin = popen(line, "r");
    if (twin == NULL || fscanf(twin, "%lf", &took) != 1)
        fail(path, "its twin did not run");
    expect_byte(twin, '\n', path);
    compare_twin(twin, path);
    pclose(twin);
    return took;
}

/* ---- tables */
/* A bar up to the proved pace, with an o where the plain one is. */
static void plot(const struct row *row, double largest) {
    int proved = (int)(row->pace[PROVED] / largest * BAR + 0.5), plain = (int)(row->pace[PLAIN] / largest * BAR + 0.5);
    fputs("  |", stdout);
    for (int column = 1; column <= (proved > plain ? proved : plain); column++)
        putchar(column == plain ? 'o' : column <= proved ? '=' : ' ');
    putchar('\n');
}

static double largest_pace(const struct row *rows, int count) {
    double largest = 0;
    for (int i = 0; i < count; i++)
        for (int w = 0; w < CALLS; w++)
            largest = rows[i].pace[w] > largest ? rows[i].pace[w] : largest;
    return largest;
}

static void print_row(const struct row *row, int with_lua) {
    printf("%-14s %10.0f %8.2f %8.2f %13.2f", row->label, row->size, row->pace[PROVED], row->pace[PLAIN], row->pace[PROVED] / row->pace[PLAIN]);
    if (with_lua)
        printf(" %8.2f %12.2f", row->pace[LUA], row->pace[PROVED] / row->pace[LUA]);
}

static void print_table(const char *unit, const struct row *rows, int count, int with_lua) {
    printf("%-14s %10s %8s %8s %13s", "", unit, names[PROVED], names[PLAIN], "proved/plain");
    if (with_lua)
        printf(" %8s %12s", names[LUA], "proved/Lua");
    printf("  (= proved, o plain)\n");
    for (int i = 0; i < count; i++) {
        print_row(&rows[i], with_lua);
        plot(&rows[i], largest_pace(rows, count));
    }
}

/* ---- what is measured */
/* The check, a call or a byte. */
static void check(struct row *row, int rounds, int by_call, const char *path) {
    double best[CALLS];
    load(path);
    label(row->label, path);
    row->size = (double)length;
    best_of(rounds, 0, TURN_BYTES / (int)(length + 1024) + 1, best);
    compare(path, RAPID_STEPS_SPENT);
    for (int w = 0; w < CALLS; w++)
        row->pace[w] = by_call ? best[w] : best[w] / row->size;
}

static void run(struct row *row, int rounds, const char *lua, const char *path) {
    double best[PACES];
    load(path);
    label(row->label, path);
    call(PROVED, UINT32_MAX);
    row->size = (double)lent[PROVED].record.steps;
    best[LUA] = strcmp(lua, "-") ? 1e30 : 0;
    for (int round = 0; round < rounds; round++) {
        double once[CALLS];
        best_of(1, UINT32_MAX, 1, once);
        for (int w = 0; w < CALLS; w++)
            best[w] = round == 0 || once[w] < best[w] ? once[w] : best[w];
        compare(path, RAPID_RETURNED);
        double took = best[LUA] > 0 ? lua_run(lua, path) : 0;
        best[LUA] = took < best[LUA] ? took : best[LUA];
    }
    for (int w = 0; w < PACES; w++)
        row->pace[w] = best[w] / row->size;
}

static void growth(struct row *row, int rounds, uint32_t allowance, const char *path) {
    double best[CALLS];
    int fewer = (int)(ROUND_STEPS / allowance);
    snprintf(row->label, sizeof row->label, "%u", allowance);
    row->size = allowance;
    best_of(fewer < 2 ? 2 : fewer < rounds ? fewer : rounds, allowance, TURN_STEPS / (int)allowance + 1, best);
    compare(path, RAPID_STEPS_SPENT);
    for (int w = 0; w < CALLS; w++)
        row->pace[w] = best[w] / row->size;
}

static void once(enum which w, uint32_t allowance, int times, const char *path) {
    load(path);
    for (int i = 0; i < times; i++)
        call(w, allowance);
    printf("%llu\n", (unsigned long long)lent[w].record.steps);
}

/* ---- the commands, from their rounds on */
static struct row rows[MOST_ROWS];

static void check_texts(int by_call, int count, char **words) {
    for (int i = 1; i < count; i++)
        check(&rows[i - 1], atoi(words[0]), by_call, words[i]);
    print_table("bytes", rows, count - 1, 0);
}

static void run_lessons(int count, char **words) {
    for (int i = 2; i < count; i++)
        run(&rows[i - 2], atoi(words[0]), words[1], words[i]);
    print_table("steps", rows, count - 2, strcmp(words[1], "-") != 0);
}

static void grow(char **words) {
    int count = 0;
    unsigned long most = strtoul(words[1], NULL, 10);
    load(words[2]);
    for (uint64_t steps = FIRST_GROWTH; steps <= most && steps <= UINT32_MAX; steps *= 10)
        growth(&rows[count++], atoi(words[0]), (uint32_t)steps, words[2]);
    print_table("steps", rows, count, 0);
}

int main(int argc, char **argv) {
    const char *command = argc > 1 ? argv[1] : "";
    int count = argc - 2;
    char **words = argv + 2;
    if (strcmp(command, "check") == 0 && count > 1 && count <= MOST_ROWS)
        check_texts(0, count, words);
    else if (strcmp(command, "floor") == 0 && count == 2)
        check_texts(1, count, words);
    else if (strcmp(command, "run") == 0 && count > 2 && count <= MOST_ROWS)
        run_lessons(count, words);
    else if (strcmp(command, "growth") == 0 && count == 3)
        grow(words);
    else if (strcmp(command, "once") == 0 && count == 4)
        once(strcmp(words[0], names[PROVED]) == 0 ? PROVED : PLAIN, (uint32_t)strtoul(words[1], NULL, 10), atoi(words[2]), words[3]);
    else
        fail("calls", "no such command");
    return 0;
}
