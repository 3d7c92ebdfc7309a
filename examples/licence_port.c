/* A controller with one thread: it scans its rules 8 steps at a time and serves the licence port between the instalments, so no caller of
 * the port waits for a whole scan. A row that comes in meanwhile is posted and taken by the next scan. Prints what happens, step by step. */
#include "rolvenko.h"

#include <stdio.h>
#include <string.h>

/* Licences wanted and free; as many are granted as are free. */
static const char RULES[] = "input want 0..9; input free 0..9; var granted 0..9; var short 0..1;"
                            "granted: GX(~(granted = _granted) -> [want <= free & want <> _granted] & granted = (want)"
                            " | [want > free & free <> _granted] & granted = (free));"
                            "granted: GX(granted = _granted -> ~([want <= free & want <> _granted] | [want > free & free <> _granted]));"
                            "short: GX(short = ((want - granted + 9) / 10));";

enum { WANT, FREE, GRANTED, SHORT, NAMES };
enum { INPUTS = 2, SHARE = 8 };

static uint8_t image[ROLVENKO_IMAGE_ROOM];
static size_t image_len;
static int32_t paused[ROLVENKO_PAUSED]; /* neither scan nor row */

/* What arrives at the port, and when: after so many instalments. */
static const struct {
    int at;
    int32_t row[INPUTS];
} ARRIVALS[] = {{0, {3, 5}}, {2, {8, 5}}, {3, {7, 6}}, {9, {2, 6}}};
enum { COUNT = sizeof ARRIVALS / sizeof *ARRIVALS };

static void serve_port(int now, int *next) {
    for (; *next < COUNT && ARRIVALS[*next].at <= now; ++*next) {
        const int32_t *row = ARRIVALS[*next].row;
        uint64_t answer = rolvenko_post(paused, ROLVENKO_PAUSED, image, image_len, row, INPUTS);
        printf("    port: want %d, free %d%s\n", row[WANT], row[FREE], rolvenko_number(answer) == 0 ? "" : " (refused)");
    }
}

int main(void) {
    uint64_t answer = rolvenko_translate((const uint8_t *)RULES, strlen(RULES), image, sizeof image);
    if (rolvenko_number(answer) != 0)
        return 1;
    image_len = rolvenko_count(answer);
    int32_t state[NAMES];
    rolvenko_start(image, image_len, state, NAMES);
    int next = 0;
    for (int now = 0; now < 16; now++) {
        serve_port(now, &next);
        if (rolvenko_number(rolvenko_begin(paused, ROLVENKO_PAUSED, image, image_len, state, NAMES)) == 0)
            puts("scan begins");
        answer = rolvenko_advance(paused, ROLVENKO_PAUSED, image, image_len, SHARE);
        if (rolvenko_is_idle(answer))
            continue; /* no row waits */
        printf("    %u steps\n", rolvenko_count(answer));
        answer = rolvenko_finish(paused, ROLVENKO_PAUSED, state, NAMES);
        if (rolvenko_number(answer) == 0)
            printf("scan ends after %u steps: granted %d%s\n", rolvenko_count(answer), state[GRANTED], state[SHORT] ? ", short" : "");
        else if (!rolvenko_is_unfinished(answer))
            printf("scan refused: %u\n", rolvenko_number(answer));
    }
    return 0;
}
