/* The farm's own promises, watched over the night in which an hour comes twice: minute by minute the local time is filled into the row and
 * the rules of promises.txt are scanned, and the states in turn are the trace that is watched. Takes the file of the rules. */
#include "rolvenko.h"

#include <stdio.h>
#include <string.h>

/* Names in declared order. */
enum { DAY, MINUTE, AGAIN, FIRE, LAST, HELD, NAMES };
enum { INPUTS = 3, ROWS = 300 };

/* 120 minutes ahead of UTC, 60 from 25 October 2026, 1:00 UTC on. */
static const int64_t table[] = {0, 120, 29881500, 60};
enum { FROM = 29881380 }; /* 24 October 2026, 23:00 UTC: 1:00 on the farm */

static uint8_t text[ROLVENKO_TEXT_LIMIT + 1];
static uint8_t image[ROLVENKO_IMAGE_ROOM];
static int32_t trace[NAMES * (ROWS + 1)];

static int refused(const char *what, uint64_t answer) {
    fprintf(stderr, "%s: refused %u at %u\n", what, rolvenko_number(answer), rolvenko_place(answer));
    return 1;
}

/* The state after a row is worked out from the one before it. */
static uint64_t next_place(size_t length, size_t image_len, int32_t *at, int64_t utc) {
    int32_t row[INPUTS] = {0};
    memcpy(at, at - NAMES, NAMES * sizeof *at);
    uint64_t answer = rolvenko_clock(text, length, table, 4, utc, row, INPUTS);
    return rolvenko_number(answer) != 0 ? answer : rolvenko_scan(image, image_len, at, NAMES, row, INPUTS);
}

int main(int count, char **words) {
    FILE *file = count == 2 ? fopen(words[1], "rb") : NULL;
    if (!file)
        return fprintf(stderr, "usage: watched_night RULES\n"), 2;
    size_t length = fread(text, 1, sizeof text, file);
    fclose(file);
    uint64_t answer = rolvenko_translate(text, length, image, sizeof image);
    if (rolvenko_number(answer) != 0)
        return refused("translate", answer);
    size_t image_len = rolvenko_count(answer);
    answer = rolvenko_start(image, image_len, trace, NAMES);
    for (int k = 1; k <= ROWS && rolvenko_number(answer) == 0; k++)
        answer = next_place(length, image_len, trace + k * NAMES, FROM + k - 1);
    if (rolvenko_number(answer) != 0)
        return refused("the night", answer);
    int64_t report[ROLVENKO_WATCHES];
    answer = rolvenko_watch(text, length, trace, sizeof trace / sizeof *trace, report, ROLVENKO_WATCHES);
    if (rolvenko_number(answer) != 0)
        return refused("watch", answer);
    for (uint32_t i = 0; i < rolvenko_count(answer); i++)
        if (report[i] < 0)
            printf("watch %u holds all night\n", i + 1);
        else
            printf("watch %u fails at place %d, %d:%02d\n", i + 1, (int)report[i], trace[NAMES * report[i] + MINUTE] / 60,
                   trace[NAMES * report[i] + MINUTE] % 60);
    return 0;
}
