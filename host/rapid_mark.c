/* The parts of the command that read, write and mark listings of steps. */
#define _POSIX_C_SOURCE 200809L
#include "rapid_command.h"
#include "rapid_json.h"
#include "rapid_places.h"
#include <errno.h>
#include <inttypes.h>
#include <stdlib.h>
#include <string.h>
#include <unistd.h>

/* ---- reading a listing */
static struct {
    uint32_t *places;
    size_t count, room;
} theirs;

static void take(uint32_t place) {
    if (theirs.count == theirs.room) {
        theirs.room = theirs.room ? 2 * theirs.room : 1024;
        theirs.places = realloc(theirs.places, theirs.room * sizeof *theirs.places);
        if (theirs.places == NULL)
            give_up("there is no memory for the listing", NULL);
    }
    theirs.places[theirs.count++] = place;
}

/* All bytes of a file; NULL where there are none. */
static uint8_t *read_bytes(FILE *in, size_t *count) {
    uint8_t *bytes = NULL;
    for (size_t room = 0; !feof(in) && !ferror(in);) {
        if (*count == room) {
            room = room ? 2 * room : 4096;
            bytes = realloc(bytes, room);
            if (bytes == NULL)
                give_up("there is no memory for the listing", NULL);
        }
        *count += fread(bytes + *count, 1, room - *count, in);
    }
    return bytes;
}

/* Whether they are lines: these begin with a character or a blank, and have no byte 0, which every place of a text has among its four bytes. */
static int are_lines(const uint8_t *bytes, size_t count) {
    return count > 0 && ((bytes[0] >= ' ' && bytes[0] <= '~') || strchr("\t\r\n", bytes[0]) != NULL) && memchr(bytes, 0, count) == NULL;
}

/* A part word at the end is left out. */
static void take_bytes(const uint8_t *bytes, size_t count) {
    for (; count >= 4; bytes += 4, count -= 4)
        take(bytes[0] | (uint32_t)bytes[1] << 8 | (uint32_t)bytes[2] << 16 | (uint32_t)bytes[3] << 24);
}

/* A number of a line, and where it ends; 0 where there is none of 32 bits. */
static int read_number(const char **line, uint32_t *n) {
    char *end;
    errno = 0;
    unsigned long long read = strtoull(*line, &end, 10);
    if (**line < '0' || **line > '9' || errno || read > UINT32_MAX)
        return 0;
    *line = end;
    *n = (uint32_t)read;
    return 1;
}

/* The offset of a line and column; 0 where the text does not have them. */
static int offset_of(uint32_t line, uint32_t column, uint32_t *offset) {
    size_t begin = 0;
    for (uint32_t n = 1; n < line; n++) {
        const uint8_t *found = begin < text_length ? memchr(text + begin, '\n', text_length - begin) : NULL;
        if (found == NULL)
            return 0;
        begin = (size_t)(found - text) + 1;
    }
    struct place p = place_of(begin);
    *offset = (uint32_t)(begin + column - 1);
    return line > 0 && column > 0 && column - 1 <= p.end - p.begin;
}

/* One line; NULL, or what is wrong with it. */
static const char *read_line(const char *line) {
    uint32_t n, column, offset;
    line += strspn(line, " \t");
    if (*line == '!' || *line == '\n' || *line == '\r' || *line == 0)
        return NULL;
    if (!read_number(&line, &n))
        return "neither LINE:COLUMN nor an offset";
    offset = n;
    if (*line == ':') {
        line++;
        if (!read_number(&line, &column))
            return "no column behind the line";
        if (!offset_of(n, column, &offset))
            return "the module has no such line or column";
    }
    if (*line && strchr(" \t\r\n", *line) == NULL)
        return "a blank is missing behind the place";
    take(offset);
    return NULL;
}

static const char *read_lines(uint8_t *bytes, size_t count) {
    static char why[128];
    const char *wrong = NULL;
    char *line = NULL;
    size_t room = 0;
    FILE *in = fmemopen(bytes, count, "r");
    if (in == NULL)
        return strerror(errno);
    for (size_t number = 1; wrong == NULL && getline(&line, &room, in) >= 0; number++)
        if ((wrong = read_line(line)) != NULL)
            snprintf(why, sizeof why, "line %zu: %s", number, wrong);
    fclose(in);
    free(line);
    return wrong ? why : NULL;
}

/* NULL, or why it is not read. */
static const char *read_listing(void) {
    FILE *in = strcmp(asked.listing, "-") == 0 ? stdin : fopen(asked.listing, "rb");
    const char *why = NULL;
    size_t count = 0;
    if (in == NULL)
        return strerror(errno);
    uint8_t *bytes = read_bytes(in, &count);
    if (ferror(in))
        why = strerror(errno);
    else if (are_lines(bytes, count))
        why = read_lines(bytes, count);
    else
        take_bytes(bytes, count);
    if (in != stdin)
        fclose(in);
    free(bytes);
    return why;
}

/* ---- marking it */
/* A place of one of the two, where it has one: the listing may hold any number. */
struct step { int is_there; size_t offset; };

static void show_line(const char *whose, struct step step) {
    struct place p = place_of(step.offset);
    if (!step.is_there)
        printf("%s: no step more\n", whose);
    else if (step.offset >= text_length)
        printf("%s: offset %zu, behind the end of the text\n", whose, step.offset);
    else {
        printf("%s: line %zu, column %zu\n", whose, p.line, p.column);
        show_place(stdout, step.offset);
    }
}

static void object_line(const char *whose, struct step step) {
    printf(",\"%s\":", whose);
    if (!step.is_there)
        fputs("null", stdout);
    else {
        putchar('{');
        object_place(step.offset);
        putchar('}');
    }
}

static int told_marks(const struct rapid_record *r, const struct rapid_marking *m, struct step ours, struct step other) {
    int status = m->same ? FINISHED : ENDED_OTHERWISE;
    if (asked.json) {
        printf(",\"same\":%s,\"index\":%" PRIu32 ",\"entries\":%zu", m->same ? "true" : "false", m->index, theirs.count);
        object_line("ours", ours);
        object_line("theirs", other);
        return object_ends(r, rapid_ending_sentence(r->ending), status);
    }
    if (m->same) {
        printf("%ssame%s: the listing is that of the run, ", GREEN(stdout), PLAIN(stdout));
        tell_count(m->index, "step", "\n");
        return status;
    }
    printf("%sdiffers%s at index %" PRIu32 ", step %" PRIu64 ": ", YELLOW(stdout), PLAIN(stdout), m->index, (uint64_t)m->index + 1);
    puts(!ours.is_there ? "the listing goes on where the run has ended" : !other.is_there ? "the listing has ended where the run goes on" : "the listing goes on elsewhere");
    if (m->index > 0)
        show_line("before", (struct step){1, theirs.places[m->index - 1]});
    show_line("ours", ours);
    show_line("theirs", other);
    printf("the listing has ");
    tell_count(theirs.count, "step", ", the run ");
    printf("%" PRIu64 "; it ended with %" PRIu64 ": %s\n", r->steps, r->ending, rapid_ending_sentence(r->ending));
    return status;
}

void settle_mark(void) {
    if (asked.file_count != 2)
        give_up("mark takes a file and a listing", NULL);
    asked.listing = asked.files[1];
    asked.file_count = 1;
}

int mark(void) {
    struct rapid_record r = called(0);
    struct rapid_marking m = {0};
    struct rapid_lent lent = lent_with(asked.steps);
    const char *why;
    if (asked.json) {
        fputs(",\"listing\":", stdout);
        json_name(asked.listing);
    }
    if (told_refusal(&r))
        return REFUSED;
    if ((why = read_listing()) != NULL) {
        file = asked.listing;
        return told_unread(why);
    }
    if (!rapid_call_mark(&lent, theirs.places, theirs.count, &r, &m))
        give_up("the bench did not answer", NULL);
    struct step ours = {m.index < r.steps, 0}, other = {m.index < theirs.count, 0};
    if (other.is_there)
        other.offset = theirs.places[m.index];
    if (ours.is_there) /* where a run with as many steps stops */
        ours.offset = called(m.index).offset;
    return told_marks(&r, &m, ours, other);
}

/* ---- writing one */
void settle_places(void) {
    if (asked.file_count != 1)
        give_up("--places takes one file", NULL);
    if (asked.json)
        give_up("--places is a listing of its own, and takes no", "--json");
    if (asked.steps > MOST_PLACES)
        give_up("--steps: a listing has at most 1,000,000 steps", NULL);
    if (!asked.lines && isatty(STDOUT_FILENO))
        give_up("four bytes a step are not for a terminal; --lines shows them", NULL);
}

/* Few places are looked up often. */
static const struct place *known_place(size_t offset) {
    static struct place places[RAPID_TEXT_LIMIT + 1];
    if (places[offset].line == 0)
        places[offset] = place_of(offset);
    return &places[offset];
}

/* Its line and column, and what stands there. */
static void write_place(uint32_t offset) {
    const struct place *p = known_place(offset);
    char shown_place[32];
    snprintf(shown_place, sizeof shown_place, "%zu:%zu", p->line, p->column);
    printf("%-7s ", shown_place);
    show_bytes(stdout, offset, p->end);
    putchar('\n');
}

static void write_bytes(uint32_t offset) {
    for (int i = 0; i < 4; i++)
        putchar((int)(offset >> 8 * i & 255));
}

int trace_places(void) {
    static uint32_t places[MOST_PLACES];
    struct rapid_record r = {0};
    struct rapid_lent lent = lent_with(asked.steps);
    if (!rapid_places(&lent, places, &r))
        give_up("the bench did not answer", NULL);
    for (size_t i = 0; i < r.steps; i++)
        if (asked.lines)
            write_place(places[i]);
        else
            write_bytes(places[i]);
    return r.ending == RAPID_RETURNED ? FINISHED : ENDED_OTHERWISE;
}
