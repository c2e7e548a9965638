#include "rapid_json.h"
#include <stdio.h>
#include <string.h>

static void put_escaped(uint8_t byte) {
    if (byte == '"' || byte == '\\')
        printf("\\%c", byte);
    else if (byte == '\n')
        fputs("\\n", stdout);
    else if (byte < 0x20 || byte >= 0x7f)
        printf("\\u%04x", byte);
    else
        putchar(byte);
}

void json_latin1(const uint8_t *bytes, size_t length) {
    putchar('"');
    for (size_t i = 0; i < length; i++)
        put_escaped(bytes[i]);
    putchar('"');
}

/* How many bytes the character of UTF-8 at the front of some has, or 0 where none stands there: neither a longer form than it needs, nor half of a pair, nor one past the last.
 * Those are told by the second byte. */
static size_t character(const uint8_t *bytes, size_t length) {
    uint8_t first = bytes[0], low = 0x80, high = 0xbf;
    size_t count = first < 0x80 ? 1 : first >= 0xc2 && first < 0xe0 ? 2 : first >= 0xe0 && first < 0xf0 ? 3 : first >= 0xf0 && first < 0xf5 ? 4 : 0;
    if (count > length)
        return 0;
    low = first == 0xe0 ? 0xa0 : first == 0xf0 ? 0x90 : low;
    high = first == 0xed ? 0x9f : first == 0xf4 ? 0x8f : high;
    for (size_t i = 1; i < count; i++, low = 0x80, high = 0xbf)
        if (bytes[i] < low || bytes[i] > high)
            return 0;
    return count;
}

static int is_utf8(const uint8_t *bytes, size_t length) {
    for (size_t i = 0, count; i < length; i += count)
        if ((count = character(bytes + i, length - i)) == 0)
            return 0;
    return 1;
}

void json_name(const char *name) {
    const uint8_t *bytes = (const uint8_t *)name;
    size_t length = strlen(name);
    if (!is_utf8(bytes, length)) {
        json_latin1(bytes, length);
        return;
    }
    putchar('"');
    for (size_t i = 0; i < length; i++)
        if (bytes[i] >= 0x80)
            putchar(bytes[i]);
        else
            put_escaped(bytes[i]);
    putchar('"');
}
