/* rapid: a teacher's command on the proved bench. `rapid --help` says how it is used. */
#define _POSIX_C_SOURCE 200809L
#include "rapid_command.h"
#include "rapid_json.h"
#include "rapid_reason.h"
#include <errno.h>
#include <inttypes.h>
#include <stdio.h>
#include <stdlib.h>
#include <string.h>
#include <unistd.h>

enum { MOST_TEXT = 1 << 20, MOST_INPUTS = 10000, MOST_ROOM = 1 << 24, MOST_TRACED = 20000 };
enum { STEPS = 10000, DEPTH = 16, ROOM = 4096, TRACED = 200, UNDO_STEPS = 1000 }; /* where no option says otherwise */

static const char help[] =
    "rapid: check and run RAPID lessons on the proved bench\n"
    "\n"
    "  rapid run FILE.. [--steps N] [--depth N] [--input N,N,..] [--room N]     check and run\n"
    "  rapid check FILE..                                                       check only\n"
    "  rapid list FILE..                                                        the words, with place and kind\n"
    "  rapid trace FILE.. [--steps N] [--depth N] [--input N,N,..] [--room N]   the place of each step\n"
    "  rapid mark FILE LISTING [the same options]                               whether another simulator's listing of\n"
    "                                                                           the steps is that of the run\n"
    "  rapid class FILE.. [--steps N] [--depth N] [--input N,N,..] [--room N]   check and run a whole class: a table\n"
    "  rapid --version                                                          the version of library and command\n"
    "\n"
    "run and trace also take --abort-at K [--undo N]: before step K + 1 the pointer is moved to main, and the\n"
    "routines that are live run their UNDO lists, the innermost first, in at most N steps (1,000 without --undo).\n"
    "\n"
    "A listing has four bytes for each step, its offset, low byte first; trace --places FILE writes one. Or it has a\n"
    "line for each step, LINE:COLUMN or the offset, and behind it whatever people like to read; lines that begin with !\n"
    "are passed over. trace --places --lines writes that form. mark reads both.\n"
    "\n"
    "FILE may be -, for standard input; each of several files gets the same options. Without options a run has\n"
    "10,000 steps, call depth 16, no input and room for 4,096 bytes of output, as the bench program has; a trace\n"
    "shows at most 200 steps. A refusal goes to standard error, as FILE:LINE:COLUMN: refused N: why. With --json\n"
    "all that is said of a file is one object on a line of standard output (see the page rapid(1)). For class a\n"
    "FILE may also be a folder: the .mod files in it.\n"
    "\n"
    "  rapid run lessons/tray.mod\n"
    "  rapid run lessons/sum.mod --input 3,4,5,0\n"
    "  rapid check lessons/*.mod\n"
    "  rapid trace lessons/tray.mod --steps 20\n"
    "  rapid mark lessons/slip-trynext.mod lessons/slip-trynext.places\n"
    "  rapid class lessons/class\n"
    "\n"
    "Status: 0 main returned, or accepted, or marked as the same; 1 refused; 2 ended otherwise, or marked as another;\n"
    "64 not used as above, or a file cannot be read; of several files the highest. Colours are shown on a terminal\n"
    "only, and not where NO_COLOR is set.\n";

struct asked asked = {.steps = STEPS, .depth = DEPTH, .undo = UNDO_STEPS, .room = ROOM};
int32_t inputs[MOST_INPUTS];
static int32_t code[RAPID_STORE_WORDS], values[RAPID_STORE_WORDS];
uint8_t text[MOST_TEXT + 1], output[MOST_ROOM];
size_t text_length;
const char *file;

_Noreturn void give_up(const char *what, const char *about) {
    fprintf(stderr, "rapid: %s%s%s\n", what, about ? ": " : "", about ? about : "");
    exit(USAGE);
}

/* ---- what is asked */
static uint32_t number(const char *word, const char *option, uint32_t most) {
    char *end;
    errno = 0;
    unsigned long long n = strtoull(word, &end, 10);
    if (*word < '0' || *word > '9' || *end || errno || n > most) {
        fprintf(stderr, "rapid: %s takes a whole number from 0 to %" PRIu32 ", not \"%s\"\n", option, most, word);
        exit(USAGE);
    }
    return (uint32_t)n;
}

static void read_inputs(const char *list) {
    for (const char *word = list; *word;) {
        char *end;
        errno = 0;
        long n = strtol(word, &end, 10);
        if (end == word || errno || n < INT32_MIN || n > INT32_MAX || (*end && (*end != ',' || !end[1]))) {
            fprintf(stderr, "rapid: --input takes whole numbers of 32 bits with commas between them, not \"%s\"\n", list);
            exit(USAGE);
        }
        if (asked.input_count == MOST_INPUTS)
            give_up("--input takes at most 10,000 numbers", NULL);
        inputs[asked.input_count++] = (int32_t)n;
        word = *end ? end + 1 : end;
    }
}

/* An option with a number, and what stands behind it. */
static void read_option(const char *option, const char *value) {
    if (value == NULL)
        give_up("a number is missing behind", option);
    if (strcmp(option, "--steps") == 0) {
        asked.steps = number(value, option, UINT32_MAX);
        asked.steps_given = 1;
    } else if (strcmp(option, "--depth") == 0)
        asked.depth = number(value, option, UINT32_MAX);
    else if (strcmp(option, "--room") == 0)
        asked.room = number(value, option, MOST_ROOM);
    else if (strcmp(option, "--abort-at") == 0) {
        asked.abort_at = number(value, option, UINT32_MAX);
        asked.aborts = 1;
    } else if (strcmp(option, "--undo") == 0) {
        asked.undo = number(value, option, UINT32_MAX);
        asked.undo_given = 1;
    } else
        read_inputs(value);
}

static int is_numbered(const char *word) {
    static const char *const options[] = {"--steps", "--depth", "--room", "--input", "--abort-at", "--undo", NULL};
    for (const char *const *option = options; *option; option++)
        if (strcmp(*option, word) == 0)
            return 1;
    return 0;
}

/* Standard input is there once. */
static void take_file(char *name) {
    for (int i = 0; i < asked.file_count; i++)
        if (strcmp(name, "-") == 0 && strcmp(asked.files[i], "-") == 0)
            give_up("standard input can be read once only", NULL);
    asked.files[asked.file_count++] = name;
}

/* The files are kept where the words stood: there are no more of them. The last of the words is NULL. */
static void read_words(char **words, int takes_numbers) {
    int options_end = 0;
    asked.files = words;
    for (; *words; words++) {
        if (options_end || strncmp(*words, "--", 2) != 0)
            take_file(*words);
        else if (strcmp(*words, "--") == 0)
            options_end = 1;
        else if (strcmp(*words, "--json") == 0)
            asked.json = 1;
        else if (strcmp(*words, "--places") == 0)
            asked.places = 1;
        else if (strcmp(*words, "--lines") == 0)
            asked.lines = 1;
        else if (!is_numbered(*words))
            give_up("no such option (see rapid --help)", *words);
        else if (!takes_numbers)
            give_up("only run, trace, mark and class take", *words);
        else {
            read_option(words[0], words[1]);
            words++;
        }
    }
    if (asked.file_count == 0)
        give_up("a file is missing (see rapid --help)", NULL);
    if (asked.undo_given && !asked.aborts)
        give_up("--undo says how many steps UNDO lists may take once --abort-at has moved the pointer", NULL);
}

const char *read_file(void) {
    FILE *in = strcmp(file, "-") == 0 ? stdin : fopen(file, "rb");
    if (in == NULL)
        return strerror(errno);
    text_length = fread(text, 1, sizeof text, in);
    const char *why = ferror(in) ? strerror(errno) : text_length > MOST_TEXT ? "far too long for a lesson: 32,768 bytes are allowed" : NULL;
    if (in != stdin)
        fclose(in);
    return why;
}

/* ---- colours */
static int coloured[STDERR_FILENO + 1]; /* by the stream's number */

const char *shown(FILE *to, const char *colour) { return coloured[to == stderr ? STDERR_FILENO : STDOUT_FILENO] ? colour : ""; }

static void choose_colours(void) {
    const char *no = getenv("NO_COLOR");
    for (int stream = STDOUT_FILENO; stream <= STDERR_FILENO; stream++)
        coloured[stream] = isatty(stream) && (no == NULL || *no == 0);
}

/* ---- places */
struct place place_of(size_t offset) {
    struct place p = {1, 1, 0, 0};
    if (offset > text_length)
        offset = text_length;
    for (size_t i = 0; i < offset; i++)
        if (text[i] == '\n') {
            p.line++;
            p.begin = i + 1;
        }
    p.column = offset - p.begin + 1;
    for (p.end = p.begin; p.end < text_length && text[p.end] != '\n' && text[p.end] != '\r';)
        p.end++;
    return p;
}

/* Three refusals lie at no place of the text, and two endings. */
int refusal_has_place(uint64_t refusal) { return refusal > RAPID_DEPTH_OUT_OF_RANGE && refusal != RAPID_NO_MAIN; }

int ending_has_place(uint64_t ending) { return ending != RAPID_RETURNED && ending != RAPID_ABORTED; }

/* How long the word is that starts at an offset; 0 where none does. */
static size_t word_at(size_t offset) {
    size_t length = 0;
    return rapid_word_at(text, text_length, offset, &length) ? length : 0;
}

/* Bytes of a text, each in one column: a tab is shown as a blank, and what is no printable ASCII as a dot. */
void show_bytes(FILE *to, size_t begin, size_t end) {
    for (size_t i = begin; i < end; i++)
        putc(text[i] == '\t' ? ' ' : text[i] >= 32 && text[i] < 127 ? text[i] : '.', to);
}

/* The line that an offset lies on, with the word there underlined; of a long line a part. */
void show_place(FILE *to, size_t offset) {
    enum { MOST_BEFORE = 80, MOST_SHOWN = 120 };
    struct place p = place_of(offset);
    size_t at = p.begin + p.column - 1, begin = at - p.begin > MOST_BEFORE ? at - MOST_BEFORE : p.begin, end = p.end - begin > MOST_SHOWN ? begin + MOST_SHOWN : p.end;
    const char *left_out = begin > p.begin ? ".." : "";
    fprintf(to, "%s%5zu |%s %s", DIM(to), p.line, PLAIN(to), left_out);
    show_bytes(to, begin, end);
    fprintf(to, "%s\n%s      |%s %*s%s^", end < p.end ? ".." : "", DIM(to), PLAIN(to), (int)(at - begin + strlen(left_out)), "", RED(to));
    for (size_t i = 1, length = word_at(offset); i < length && at + i < end; i++)
        putc('~', to);
    fprintf(to, "%s\n", PLAIN(to));
}

/* ---- one object a file, for scripts: it has the same fields however a run ends */
void object_begins(void) {
    fputs("{\"file\":", stdout);
    json_name(file);
}

void object_place(size_t offset) {
    struct place p = place_of(offset);
    printf("\"offset\":%zu,\"line\":%zu,\"column\":%zu", offset, p.line, p.column);
}

/* What a call says, and in which words; none where a module was only checked: it is accepted, without an ending and a place. */
int object_ends(const struct rapid_record *r, const char *sentence, int status) {
    printf(",\"status\":%d,\"ending\":", status);
    if (sentence == NULL)
        fputs("null", stdout);
    else
        printf("%" PRIu64, r->ending);
    printf(",\"refusal\":%" PRIu64 ",\"sentence\":", r->refusal);
    json_name(sentence ? sentence : "accepted");
    putchar(',');
    object_place(sentence ? r->offset : 0);
    printf(",\"steps\":%" PRIu64 ",\"errno\":%" PRIu64 ",\"inputs\":%" PRIu64 ",\"module_words\":%" PRIu64 ",\"output\":", r->steps, r->error, r->inputs, r->module_words);
    json_latin1(output, r->output);
    fputs("}\n", stdout);
    return status;
}

/* ---- what is said of a file */
struct rapid_lent lent_with(uint32_t steps) {
    struct rapid_lent lent = {0};
    lent.text = text, lent.text_length = text_length;
    lent.steps = steps, lent.depth = asked.depth;
    lent.inputs = inputs, lent.input_count = asked.input_count;
    lent.output = output, lent.output_length = asked.room;
    lent.code = code, lent.code_words = RAPID_STORE_WORDS;
    lent.values = values, lent.value_words = RAPID_STORE_WORDS;
    return lent;
}

/* A call with so many steps; or, with UNDO steps allowed, one that moves the pointer to main where it is to be moved. */
static struct rapid_record called_with(uint32_t steps, const uint32_t *undo) {
    struct rapid_record r = {0};
    struct rapid_lent lent = lent_with(steps);
    if (!(undo ? rapid_call_until(&lent, asked.abort_at, *undo, &r) : rapid_call(&lent, &r)))
        give_up("the bench did not answer", NULL);
    return r;
}

struct rapid_record called(uint32_t steps) { return called_with(steps, NULL); }

/* Where several files are asked about, each is named above what is said of it. A refusal names its own file. */
static void tell_file(void) {
    if (asked.file_count > 1 && !asked.json)
        printf("==> %s <==\n", file);
}

/* In the form that editors and scripts know from compilers. Refusals that lie at no place of the text stand at its beginning, as the record has them. */
static void tell_refusal(uint64_t refusal, size_t offset) {
    char sentence[256];
    struct place p = place_of(offset);
    fflush(stdout); /* so that both streams come in order where they go to one place */
    fprintf(stderr, "%s:%zu:%zu: %srefused%s %" PRIu64 ": %s\n", file, p.line, p.column, RED(stderr), PLAIN(stderr), refusal,
            rapid_reason(text, text_length, refusal, offset, sentence, sizeof sentence));
    if (refusal_has_place(refusal))
        show_place(stderr, offset);
}

/* Whether a call was refused; then it is told. */
int told_refusal(const struct rapid_record *r) {
    char sentence[256];
    if (r->ending != RAPID_REFUSED)
        return 0;
    if (asked.json)
        object_ends(r, rapid_reason(text, text_length, r->refusal, r->offset, sentence, sizeof sentence), REFUSED);
    else
        tell_refusal(r->refusal, r->offset);
    return 1;
}

void tell_count(uint64_t count, const char *what, const char *then) { printf("%" PRIu64 " %s%s%s", count, what, count == 1 ? "" : "s", then); }

static void tell_error(uint64_t error) {
    const char *name = rapid_error_name(error);
    printf("ERRNO %" PRIu64, error);
    if (name != NULL)
        printf(" (%s)", name);
}

static void tell_counts(const struct rapid_record *r) {
    tell_count(r->steps, "step", ", ");
    tell_count(r->inputs, "input", " used, ");
    tell_count(r->module_words, "module word", "");
    if (r->error && r->ending != RAPID_ERROR_UNHANDLED) {
        printf(", ");
        tell_error(r->error);
    }
    putchar('\n');
}

static int told_end(const struct rapid_record *r) {
    struct place p = place_of(r->offset);
    int returned = r->ending == RAPID_RETURNED, has_place = ending_has_place(r->ending);
    if (asked.json)
        return object_ends(r, rapid_ending_sentence(r->ending), returned ? FINISHED : ENDED_OTHERWISE);
    printf("%sended%s: ", returned || r->ending == RAPID_EXITED ? GREEN(stdout) : YELLOW(stdout), PLAIN(stdout));
    if (has_place)
        printf("line %zu, column %zu: ", p.line, p.column);
    printf("%" PRIu64 ": %s", r->ending, rapid_ending_sentence(r->ending));
    if (r->ending == RAPID_ERROR_UNHANDLED) {
        printf(": ");
        tell_error(r->error);
    }
    putchar('\n');
    if (has_place)
        show_place(stdout, r->offset);
    tell_counts(r);
    return returned ? FINISHED : ENDED_OTHERWISE;
}

static int run(void) {
    struct rapid_record r = called_with(asked.steps, asked.aborts ? &asked.undo : NULL);
    if (told_refusal(&r))
        return REFUSED;
    tell_file();
    if (!asked.json)
        fwrite(output, 1, r.output, stdout);
    return told_end(&r);
}

/* With no step allowed a module that is accepted ends before its first. */
static int check(void) {
    struct rapid_record r = called(0);
    if (told_refusal(&r))
        return REFUSED;
    if (asked.json)
        return object_ends(&r, NULL, FINISHED);
    if (asked.file_count > 1)
        printf("%s: ", file);
    printf("%saccepted%s: ", GREEN(stdout), PLAIN(stdout));
    tell_count(r.module_words, "module word", "\n");
    return FINISHED;
}

/* ---- a trace */
/* A step of an UNDO list is marked as one. */
static void show_step(uint64_t number, size_t offset, int undo) {
    struct place p = place_of(offset);
    size_t behind = offset + word_at(offset);
    printf("%s%6" PRIu64 "  %4zu:%-4zu|%s ", DIM(stdout), number, p.line, p.column, PLAIN(stdout));
    if (undo)
        printf("%sUNDO%s ", YELLOW(stdout), PLAIN(stdout));
    show_bytes(stdout, p.begin, offset);
    fputs(CYAN(stdout), stdout);
    show_bytes(stdout, offset, behind);
    fputs(PLAIN(stdout), stdout);
    show_bytes(stdout, behind, p.end);
    putchar('\n');
}

static void show_output(size_t begin, size_t end) {
    for (size_t i = begin; i < end; i++) {
        if (i == begin || output[i - 1] == '\n')
            printf("%s          output |%s ", DIM(stdout), PLAIN(stdout));
        putchar(output[i]);
    }
}

static void object_step(uint64_t number, size_t offset, int undo) {
    printf("%s{\"step\":%" PRIu64 ",", number > 1 ? "," : "", number);
    object_place(offset);
    fputs(undo ? ",\"undo\":true}" : "}", stdout);
}

/* The step at an offset, and what the call that ends behind it wrote more than the one before. */
static void tell_step(uint64_t number, size_t offset, int undo, size_t before, size_t written) {
    if (asked.json)
        object_step(number, offset, undo);
    else {
        show_step(number, offset, undo);
        show_output(before, written);
    }
}

/* One step more at each call: more room never changes an answer, so the place where a run of n steps stops is that of its step n + 1. */
static struct rapid_record trace_steps(struct rapid_record r, uint32_t most) {
    size_t before = 0;
    for (uint32_t n = 0; r.ending == RAPID_STEPS_SPENT && n < most; before = r.output) {
        size_t offset = r.offset;
        r = called(++n);
        tell_step(n, offset, 0, before, r.output);
    }
    return r;
}

/* The same of the UNDO allowance, behind the step at which the pointer is moved. */
static struct rapid_record trace_undo(struct rapid_record stopped) {
    uint32_t undo = 0;
    struct rapid_record r = called_with(asked.abort_at, &undo);
    for (size_t before = stopped.output; r.ending == RAPID_UNDO_SPENT && undo < asked.undo && undo < MOST_TRACED; before = r.output) {
        size_t offset = r.offset;
        undo++;
        r = called_with(asked.abort_at, &undo);
        tell_step((uint64_t)asked.abort_at + undo, offset, 1, before, r.output);
    }
    return r;
}

static int trace(void) {
    uint32_t most = asked.steps_given ? asked.steps : TRACED;
    int strikes = asked.aborts && asked.abort_at <= most;
    struct rapid_record r = called(0);
    if (told_refusal(&r))
        return REFUSED;
    if (asked.places)
        return trace_places();
    tell_file();
    fputs(asked.json ? ",\"trace\":[" : "", stdout);
    r = trace_steps(r, strikes ? asked.abort_at : most);
    if (strikes && r.ending == RAPID_STEPS_SPENT)
        r = trace_undo(r);
    fputs(asked.json ? "]" : "", stdout);
    return told_end(&r);
}

/* ---- words */
static const char *const kinds[] = {"name", "reserved", "number", "string", "sign"};

static void show_word(const struct rapid_word *w) {
    const char *const colours[] = {PLAIN(stdout), BLUE(stdout), CYAN(stdout), GREEN(stdout), YELLOW(stdout)};
    struct place p = place_of(w->place);
    printf("%s%4zu:%-4zu%-9s%s %s", DIM(stdout), p.line, p.column, kinds[w->kind], PLAIN(stdout), colours[w->kind]);
    show_bytes(stdout, w->place, w->place + w->length);
    printf("%s\n", PLAIN(stdout));
}

static int object_words(const struct rapid_word *words, const struct rapid_listing *listing) {
    char sentence[256];
    int status = listing->refusal ? REFUSED : FINISHED;
    printf(",\"status\":%d,\"refusal\":%" PRIu32 ",\"sentence\":", status, listing->refusal);
    json_name(listing->refusal ? rapid_reason(text, text_length, listing->refusal, listing->offset, sentence, sizeof sentence) : "listed");
    putchar(',');
    object_place(listing->offset);
    fputs(",\"words\":[", stdout);
    for (const struct rapid_word *w = words; w < words + listing->words; w++) {
        printf("%s{\"kind\":\"%s\",", w > words ? "," : "", kinds[w->kind]);
        object_place(w->place);
        fputs(",\"word\":", stdout);
        json_latin1(text + w->place, w->length);
        putchar('}');
    }
    fputs("]}\n", stdout);
    return status;
}

static int list(void) {
    static struct rapid_word words[RAPID_WORD_LIMIT];
    struct rapid_listing listing = {0};
    if (!rapid_words(text, text_length, words, RAPID_WORD_LIMIT, &listing))
        give_up("the bench did not answer", NULL);
    if (asked.json)
        return object_words(words, &listing);
    tell_file();
    for (const struct rapid_word *w = words; w < words + listing.words; w++)
        show_word(w);
    if (listing.refusal)
        tell_refusal(listing.refusal, listing.offset);
    return listing.refusal ? REFUSED : FINISHED;
}

/* ---- the command */
/* A file that cannot be read does not keep the others from being read. */
int told_unread(const char *why) {
    if (asked.json) {
        printf(",\"status\":%d,\"sentence\":", USAGE);
        json_name(why);
        fputs("}\n", stdout);
    } else {
        fflush(stdout);
        fprintf(stderr, "rapid: %s: %s\n", file, why);
    }
    return USAGE;
}

static int finished(int worst) {
    if (fflush(stdout) != 0 || ferror(stdout))
        give_up("standard output", strerror(errno));
    return worst;
}

static int told_all(int (*tell)(void)) {
    int worst = FINISHED;
    for (int i = 0; i < asked.file_count; i++) {
        file = asked.files[i];
        const char *why = read_file();
        if (asked.json)
            object_begins();
        int status = why ? told_unread(why) : tell();
        worst = status > worst ? status : worst;
    }
    return finished(worst);
}

/* Whether a word stands anywhere before the end of the options. */
static int has_word(char **words, const char *word) {
    for (; *words && strcmp(*words, "--") != 0; words++)
        if (strcmp(*words, word) == 0)
            return 1;
    return 0;
}

/* What is asked together, and cannot be. */
static void settle(int (*tell)(void)) {
    if (tell == trace && !asked.places && asked.steps_given && asked.steps > MOST_TRACED)
        give_up("--steps: a trace shows at most 20,000 steps", NULL);
    if (asked.places && tell != trace)
        give_up("only trace takes", "--places");
    if (asked.lines && !asked.places)
        give_up("--lines says how trace --places writes a listing", NULL);
    if (asked.aborts && (asked.places || tell == mark))
        give_up("a listing is that of a run without", "--abort-at");
    if (asked.places)
        settle_places();
    if (tell == mark)
        settle_mark();
}

int main(int count, char **words) {
    static const struct { const char *name; int (*tell)(void); int takes_numbers; } commands[] = {{"run", run, 1}, {"check", check, 0}, {"list", list, 0}, {"trace", trace, 1}, {"mark", mark, 1}};
    if (count < 2) {
        fputs(help, stderr);
        return USAGE;
    }
    if (has_word(words + 1, "--help") || has_word(words + 1, "-h")) {
        fputs(help, stdout);
        return FINISHED;
    }
    if (has_word(words + 1, "--version")) {
        uint32_t v = rapid_version();
        printf("rapid %" PRIu32 ".%" PRIu32 ".%" PRIu32 "\n", v / 10000, v / 100 % 100, v % 100);
        return FINISHED;
    }
    choose_colours();
    if (strcmp(words[1], "class") == 0) {
        read_words(words + 2, 1);
        if (asked.aborts)
            give_up("a class has no --abort-at", NULL);
        return finished(told_class());
    }
    for (size_t i = 0; i < sizeof commands / sizeof *commands; i++)
        if (strcmp(words[1], commands[i].name) == 0) {
            read_words(words + 2, commands[i].takes_numbers);
            settle(commands[i].tell);
            return told_all(commands[i].tell);
        }
    give_up("no such command (see rapid --help)", words[1]);
}
