/* What the parts of the command `rapid` share: what is asked, the text that is asked about, and how places and endings are told. */
#ifndef RAPID_COMMAND_H
#define RAPID_COMMAND_H
#include "rapid.h"
#include <stdio.h>

enum { FINISHED = 0, REFUSED = 1, ENDED_OTHERWISE = 2, USAGE = 64 };

struct asked {
    char **files;
    const char *listing; /* of mark */
    int file_count, steps_given, json, aborts, undo_given, places, lines;
    uint32_t steps, depth, abort_at, undo;
    size_t room, input_count;
};
extern struct asked asked;
extern int32_t inputs[];
extern uint8_t text[], output[];
extern size_t text_length;
extern const char *file; /* whose text it is */

/* Ends the command with a message. */
_Noreturn void give_up(const char *what, const char *about);

/* Reads the file into the text: NULL, or why it is not read. */
const char *read_file(void);

/* A colour where the stream is a terminal, else nothing. */
const char *shown(FILE *to, const char *colour);
#define RED(to) shown(to, "\033[31m")
#define GREEN(to) shown(to, "\033[32m")
#define YELLOW(to) shown(to, "\033[33m")
#define BLUE(to) shown(to, "\033[34m")
#define CYAN(to) shown(to, "\033[36m")
#define DIM(to) shown(to, "\033[2m")
#define PLAIN(to) shown(to, "\033[0m")

/* Line and column from 1 on; where the line begins and ends. */
struct place { size_t line, column, begin, end; };
struct place place_of(size_t offset);

/* Bytes of the text, each in one column. */
void show_bytes(FILE *to, size_t begin, size_t end);

/* The line that an offset lies on, with the word there underlined. */
void show_place(FILE *to, size_t offset);

/* What a call with so many steps is lent, and its record. */
struct rapid_lent lent_with(uint32_t steps);
struct rapid_record called(uint32_t steps);

/* Whether a call was refused; then it is told. */
int told_refusal(const struct rapid_record *r);

void tell_count(uint64_t count, const char *what, const char *then);

/* Whether a refusal, or an ending of a module that is not refused, lies at a place of the text. */
int refusal_has_place(uint64_t refusal);
int ending_has_place(uint64_t ending);

/* The beginning of an object for scripts, and all that a call says in it. */
void object_begins(void);

/* A file that cannot be read, and the status for it. */
int told_unread(const char *why);

/* Fields of an object for scripts: a place, and all that a call says. */
void object_place(size_t offset);
int object_ends(const struct rapid_record *r, const char *sentence, int status);

/* rapid_mark.c: listings. What is asked of them is settled before a file is read. */
void settle_mark(void);
void settle_places(void);
int mark(void);
int trace_places(void);

/* rapid_class.c: all files in calls for a whole class. */
int told_class(void);

#endif
