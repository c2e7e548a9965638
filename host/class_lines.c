#include "class_lines.h"
#include <string.h>

int class_read(const char *line, struct class_case *into) {
    uint64_t records, data;
    const char *at;
    if (strncmp(line, "class ", 6) != 0)
        return 0;
    long texts = case_text(line + 6, into->each.text, MOST_TEXT, &at);
    if (texts < 0 || *at != ' ')
        return 0;
    long lengths = case_text(at + 1, into->lengths, MOST_LENGTHS, &at);
    if (lengths < 0 || *at != ' ')
        return 0;
    at = case_count(case_count(case_rooms(at + 1, &into->each), MOST_RECORDS, &records), MOST_DATA, &data);
    if (at == NULL || at[-1] != '\n')
        return 0;
    into->each.text_length = (size_t)texts;
    into->lengths_length = (size_t)lengths;
    into->records_length = records;
    into->data_length = data;
    return 1;
}
