/* The launch latch of launch_latch.txt, driven from C minute by minute over the night when the clock goes back from 3:00 to 2:00
 * and over the night after it. Prints each launch. Takes the file of the rules; they end at the line `#`. */
#include "rolvenko.h"

#include <stdio.h>
#include <string.h>

static uint8_t text[ROLVENKO_TEXT_LIMIT + 1];
static uint8_t image[ROLVENKO_IMAGE_ROOM];

/* Names in declared order. */
enum { DAY, MINUTE, FIRE, LAST, NAMES };
enum { INPUTS = 2 };

static int refused(const char *what, uint64_t answer) {
    fprintf(stderr, "%s: refused %u at %u\n", what, rolvenko_number(answer), rolvenko_place(answer));
    return 1;
}

/* The rules of a file of the trace program: all bytes before the line `#`. */
static size_t read_rules(const char *path) {
    FILE *file = fopen(path, "rb");
    if (!file)
        return 0;
    size_t length = fread(text, 1, sizeof text - 1, file);
    fclose(file);
    const char *rows = strstr((const char *)text, "\n#\n");
    return rows ? (size_t)(rows - (const char *)text) + 1 : length;
}

/* One scan with the local clock; 0 if refused. */
static int tick(size_t image_len, int32_t *state, int32_t day, int32_t minute) {
    int32_t row[INPUTS] = {day, minute};
    uint64_t answer = rolvenko_scan(image, image_len, state, NAMES, row, INPUTS);
    if (rolvenko_number(answer) != 0) {
        refused("scan", answer);
        return 0;
    }
    if (state[FIRE] == 1)
        printf("day %d, %d:%02d: launch\n", state[DAY], state[MINUTE] / 60, state[MINUTE] % 60);
    return 1;
}

int main(int argc, char **argv) {
    size_t text_len = argc == 2 ? read_rules(argv[1]) : 0;
    uint64_t answer = rolvenko_translate(text, text_len, image, sizeof image);
    if (rolvenko_number(answer) != 0)
        return refused("translate", answer);
    size_t image_len = rolvenko_count(answer);
    int32_t state[NAMES];
    answer = rolvenko_start(image, image_len, state, NAMES);
    if (rolvenko_number(answer) != 0)
        return refused("start", answer);
    for (int32_t day = 298; day <= 299; day++) {
        int repeats = day == 298;
        for (int32_t minute = 0; minute < 240; minute++) {
            if (!tick(image_len, state, day, minute))
                return 1;
            if (repeats && minute == 179) { /* 3:00 is 2:00 again */
                repeats = 0;
                minute = 119;
                puts("the clock goes back to 2:00");
            }
        }
    }
    return 0;
}
