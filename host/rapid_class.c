/* rapid class: all files in calls for a whole class, and a table of how they ended. */
#define _DEFAULT_SOURCE
#include "rapid_command.h"
#include "rapid_reason.h"
#include <dirent.h>
#include <errno.h>
#include <inttypes.h>
#include <stdlib.h>
#include <string.h>
#include <strings.h>

enum { MOST_CELL = 60, CELL = 320 }; /* what is shown of how a module ended */

static void *room_for(void *old, size_t bytes) {
    void *new = realloc(old, bytes ? bytes : 1);
    if (new == NULL)
        give_up("no memory for so many files, or so much output", NULL);
    return new;
}

static char *copied(const void *bytes, size_t length) {
    char *copy = (char *)room_for(NULL, length + 1);
    memcpy(copy, bytes, length);
    copy[length] = 0;
    return copy;
}

/* ---- files */
/* A file, and what is said of it. */
struct row {
    const char *name, *why; /* why it is not read, or NULL */
    int status;
    char ended[CELL], at[48];
    uint64_t steps;
    char *first_line; /* of its output */
};
static struct row *rows;
static size_t row_count;

static void add_row(const char *name, const char *why) {
    if ((row_count & (row_count - 1)) == 0) /* room is doubled */
        rows = (struct row *)room_for(rows, (row_count ? 2 * row_count : 1) * sizeof *rows);
    rows[row_count++] = (struct row){.name = name, .why = why};
}

static int is_module(const struct dirent *entry) {
    const char *dot = strrchr(entry->d_name, '.');
    return dot != NULL && dot != entry->d_name && strcasecmp(dot, ".mod") == 0;
}

/* The .mod files of a folder in the order of their names. Whether it is a folder. */
static int add_folder(const char *folder) {
    struct dirent **entries;
    size_t length = strlen(folder);
    int count = scandir(folder, &entries, is_module, alphasort);
    if (count < 0)
        return 0;
    if (count == 0)
        add_row(folder, "no .mod files in this folder");
    for (int i = 0; i < count; i++) {
        char *name = (char *)room_for(NULL, length + strlen(entries[i]->d_name) + 2);
        sprintf(name, "%s%s%s", folder, folder[length - 1] == '/' ? "" : "/", entries[i]->d_name);
        add_row(name, NULL);
        free(entries[i]);
    }
    free(entries);
    return 1;
}

/* ---- calls */
/* A batch: the texts of as many files as one call takes. */
static uint8_t *texts, *outputs;
static size_t texts_length;
static uint32_t lengths[RAPID_CLASS_LIMIT];
static size_t count;
static struct rapid_record records[RAPID_CLASS_LIMIT];
static int32_t code[RAPID_STORE_WORDS], values[RAPID_STORE_WORDS], data[RAPID_CLASS_LIMIT * RAPID_MODULE_WORD_LIMIT];

static void add_text(void) {
    texts = (uint8_t *)room_for(texts, texts_length + text_length);
    memcpy(texts + texts_length, text, text_length);
    texts_length += text_length;
    lengths[count++] = (uint32_t)text_length;
}

/* Each module has as much room as a run alone, so each record is that of a run. */
static void call(void) {
    struct rapid_class lent = {0};
    uint32_t refusal = 0;
    outputs = (uint8_t *)room_for(outputs, count * asked.room);
    lent.texts = texts, lent.text_length = texts_length;
    lent.lengths = lengths, lent.count = count;
    lent.steps = asked.steps, lent.depth = asked.depth;
    lent.inputs = inputs, lent.input_count = asked.input_count;
    lent.output = outputs, lent.output_length = count * asked.room;
    lent.code = code, lent.code_words = RAPID_STORE_WORDS;
    lent.values = values, lent.value_words = RAPID_STORE_WORDS;
    lent.records = records, lent.record_count = count;
    lent.data = data, lent.data_words = count * RAPID_MODULE_WORD_LIMIT;
    if (!rapid_call_class(&lent, &refusal) || (refusal != RAPID_NOT_REFUSED && refusal != RAPID_DEPTH_OUT_OF_RANGE))
        give_up("the bench did not answer", NULL);
    /* the depth is refused for all of them, and so for each */
    for (size_t i = 0; refusal && i < count; i++)
        records[i] = (struct rapid_record){.refusal = refusal};
}

/* ---- what is said of a module */
static int status_of(const struct rapid_record *r) { return r->ending == RAPID_REFUSED ? REFUSED : r->ending == RAPID_RETURNED ? FINISHED : ENDED_OTHERWISE; }

static const char *sentence_of(const struct rapid_record *r) {
    static char sentence[256];
    return r->ending == RAPID_REFUSED ? rapid_reason(text, text_length, r->refusal, r->offset, sentence, sizeof sentence) : rapid_ending_sentence(r->ending);
}

/* The text and the output are the module's. */
static void fill_row(struct row *row, const struct rapid_record *r) {
    struct place p = place_of(r->offset);
    int refused = r->ending == RAPID_REFUSED, has_place = refused ? refusal_has_place(r->refusal) : ending_has_place(r->ending);
    const uint8_t *line_end = (const uint8_t *)memchr(output, '\n', r->output);
    const char *error = rapid_error_name(r->error);
    int written = snprintf(row->ended, sizeof row->ended, "%s%" PRIu64 ": %s", refused ? "refused " : "", refused ? r->refusal : r->ending, sentence_of(r));
    if (r->ending == RAPID_ERROR_UNHANDLED) /* which one says more than the sentence */
        written = snprintf(row->ended, sizeof row->ended, "%" PRIu64 ": error not handled: ERRNO %" PRIu64 "%s%s%s", r->ending, r->error, error ? " (" : "", error ? error : "", error ? ")" : "");
    if (written > MOST_CELL)
        memcpy(row->ended + MOST_CELL - 2, "..", 3);
    if (has_place)
        snprintf(row->at, sizeof row->at, "%zu:%zu", p.line, p.column);
    row->steps = r->steps;
    row->first_line = copied(output, line_end ? (size_t)(line_end - output) : 0);
}

/* ---- the table */
static int width_of(size_t least, const char *(*cell)(const struct row *)) {
    for (const struct row *row = rows; row < rows + row_count; row++)
        least = strlen(cell(row)) > least ? strlen(cell(row)) : least;
    return (int)least;
}

static const char *name_of(const struct row *row) { return row->name; }
static const char *ended_of(const struct row *row) { return row->ended; }
static const char *at_of(const struct row *row) { return row->at; }

static const char *colour_of(const struct row *row) { return row->status == FINISHED ? GREEN(stdout) : row->status == ENDED_OTHERWISE ? YELLOW(stdout) : RED(stdout); }

static void show_table(void) {
    static const char *const heads[] = {"file", "ended", "at"};
    int name = width_of(strlen(heads[0]), name_of), ended = width_of(strlen(heads[1]), ended_of), at = width_of(strlen(heads[2]), at_of);
    printf("%s%-*s  %-*s  %-*s  %5s  first line%s\n", DIM(stdout), name, heads[0], ended, heads[1], at, heads[2], "steps", PLAIN(stdout));
    for (const struct row *row = rows; row < rows + row_count; row++) {
        const char *line = row->first_line ? row->first_line : "";
        printf("%-*s  %s%-*s%s  %-*s  %5" PRIu64 "%s%s\n", name, row->name, colour_of(row), ended, row->ended, PLAIN(stdout), at, row->at, row->steps, *line ? "  " : "", line);
    }
}

static void show_sum(void) {
    static const struct { int status; const char *what; } sums[] = {{FINISHED, "returned"}, {ENDED_OTHERWISE, "ended otherwise"}, {REFUSED, "refused"}, {USAGE, "not read"}};
    const char *before = ": ";
    printf("%zu file%s", row_count, row_count == 1 ? "" : "s");
    for (size_t i = 0; i < sizeof sums / sizeof *sums; i++) {
        size_t times = 0;
        for (const struct row *row = rows; row < rows + row_count; row++)
            times += row->status == sums[i].status;
        if (times == 0)
            continue;
        printf("%s%zu %s", before, times, sums[i].what);
        before = ", ";
    }
    putchar('\n');
}

/* ---- the command */
static void tell_unread(struct row *row) {
    row->status = USAGE;
    snprintf(row->ended, sizeof row->ended, "not read: %s", row->why);
    if (asked.json) {
        file = row->name;
        object_begins();
        told_unread(row->why);
    }
}

/* Of the rows from one on, as many as one call takes: reads them, makes the call, and tells each. Returns the first row that is left. */
static size_t tell_batch(size_t first) {
    size_t last = first, at = 0, module = 0;
    count = texts_length = 0;
    for (; last < row_count && count < RAPID_CLASS_LIMIT; last++) {
        const char *why = rows[last].why;
        file = rows[last].name;
        if (why == NULL && (why = read_file()) == NULL)
            add_text();
        else
            rows[last].why = copied(why, strlen(why)); /* the system may say the next thing in the same place */
    }
    call();
    for (struct row *row = rows + first; row < rows + last; row++) {
        if (row->why) {
            tell_unread(row);
            continue;
        }
        const struct rapid_record *r = &records[module];
        file = row->name;
        text_length = lengths[module];
        memcpy(text, texts + at, text_length);
        memcpy(output, outputs + module * asked.room, r->output);
        row->status = status_of(r);
        if (asked.json) {
            object_begins();
            object_ends(r, sentence_of(r), row->status);
        } else
            fill_row(row, r);
        at += lengths[module++];
    }
    return last;
}

int told_class(void) {
    int worst = FINISHED;
    for (int i = 0; i < asked.file_count; i++)
        if (strcmp(asked.files[i], "-") == 0 || !add_folder(asked.files[i]))
            add_row(asked.files[i], NULL);
    for (size_t first = 0; first < row_count;)
        first = tell_batch(first);
    if (!asked.json) {
        show_table();
        show_sum();
    }
    for (const struct row *row = rows; row < rows + row_count; row++)
        worst = row->status > worst ? row->status : worst;
    return worst;
}
