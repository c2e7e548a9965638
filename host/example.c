/* A complete program: runs the lesson in a file and shows how it ended. */
#include "rapid.h"
#include <stdio.h>

/* All that is lent. One byte more than a text may have: of a longer file the bench itself says that it is too long. */
static uint8_t text[RAPID_TEXT_LIMIT + 1], screen[4096];
static int32_t code[RAPID_STORE_WORDS], values[RAPID_STORE_WORDS];
static const int32_t inputs[] = {3, 4, 5, 0};

/* The line that an offset lies on, and below it a mark as long as the word there. */
static void show_place(size_t length, size_t offset) {
    size_t begin = offset, end = offset, marked = 0;
    rapid_word_at(text, length, offset, &marked);
    while (begin > 0 && text[begin - 1] != '\n')
        begin--;
    while (end < length && text[end] != '\n')
        end++;
    printf("%.*s\n%*s^", (int)(end - begin), (const char *)text + begin, (int)(offset - begin), "");
    while (marked-- > 1)
        putchar('~');
    putchar('\n');
}

int main(int count, char **words) {
    FILE *file = count == 2 ? fopen(words[1], "rb") : NULL;
    if (file == NULL) {
        fprintf(stderr, "usage: example FILE\n");
        return 64;
    }
    size_t length = fread(text, 1, sizeof text, file);
    fclose(file);

    static struct rapid_lent lent; /* static, so zeroed: a field that is not named here is absent */
    static struct rapid_record record;
    lent.text = text;
    lent.text_length = length;
    lent.steps = 10000;
    lent.depth = 16;
    lent.inputs = inputs;
    lent.input_count = sizeof inputs / sizeof *inputs;
    lent.output = screen;
    lent.output_length = sizeof screen;
    lent.code = code;
    lent.code_words = RAPID_STORE_WORDS;
    lent.values = values;
    lent.value_words = RAPID_STORE_WORDS;

    if (!rapid_call(&lent, &record))
        return 1; /* a pointer was NULL, or two pieces overlapped */
    fwrite(screen, 1, record.output, stdout);
    printf("-- %s", rapid_ending_sentence(record.ending));
    if (record.ending == RAPID_REFUSED)
        printf(": %s", rapid_refusal_sentence(record.refusal));
    printf("; steps: %llu, ERRNO: %llu\n", (unsigned long long)record.steps, (unsigned long long)record.error);
    if (record.ending != RAPID_RETURNED)
        show_place(length, record.offset);
    for (size_t i = 0; i < record.module_words; i++)
        printf("module word %u: %d\n", (unsigned)i, values[i]);
    return 0;
}
