/* A rule text as Structured Text, the text language of IEC 61131-3, for controllers that load it. Takes the file of the rules; they end at
 * the line `#`. A text whose names are words of Structured Text is told with its place. */
#include "rolvenko.h"

#include <stdio.h>
#include <string.h>

static uint8_t text[ROLVENKO_TEXT_LIMIT + 1];
static uint8_t out[ROLVENKO_ST_ROOM]; /* enough for every text */

/* The rules of a file of the trace program: all bytes before the line `#`. */
static size_t read_rules(const char *path) {
    FILE *file = fopen(path, "rb");
    if (!file)
        return 0;
    size_t length = fread(text, 1, sizeof text - 1, file);
    fclose(file);
    const char *rows = strstr((const char *)text, "\n#\n");
    return rows ? (size_t)(rows - (const char *)text) + 1 : length;
}

int main(int count, char **words) {
    if (count != 2)
        return fprintf(stderr, "usage: eastern_controller RULES\n"), 2;
    uint64_t answer = rolvenko_structured_text(text, read_rules(words[1]), out, sizeof out);
    if (rolvenko_number(answer) != 0) {
        fprintf(stderr, "%s: refused %u at %u\n", words[1], rolvenko_number(answer), rolvenko_place(answer));
        return 1;
    }
    return fwrite(out, 1, rolvenko_count(answer), stdout) == rolvenko_count(answer) ? 0 : 2;
}
