/* JSON for scripts, to standard output: strings that are valid whatever bytes they are made of. */
#ifndef RAPID_JSON_H
#define RAPID_JSON_H
#include <stddef.h>
#include <stdint.h>

/* A string of bytes that are Latin-1, as a lesson's text and output are: ASCII alone is written, and \u00XX for all else. */
void json_latin1(const uint8_t *bytes, size_t length);

/* A name of the system or a sentence: UTF-8 stays as it is. Bytes that are no UTF-8 are taken as Latin-1, since JSON has no other bytes. */
void json_name(const char *name);

#endif
