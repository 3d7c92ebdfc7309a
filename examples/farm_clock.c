/* A farm's own clock and its bill: every half hour of UTC the local time is filled into the row, the rules are scanned, and the licences
 * held are charged at the end. The farm's clock goes back from 3:00 to 2:00 on 25 October 2026, at 1:00 UTC; the rules launch at 2:30,
 * but not in the hour that comes again. */
#include "rolvenko.h"

#include <stdio.h>

static const uint8_t rules[] =
    "input day 0..100000; input minute 0..1439; input again 0..1;"
    "var fire 0..1; var held 0..8;"
    "fire: GX(~(fire = _fire) -> [_fire = 0 & minute = 150 & again = 0] & fire = (1) | [_fire = 1] & fire = (0));"
    "fire: GX(fire = _fire -> ~([_fire = 0 & minute = 150 & again = 0] | [_fire = 1]));"
    "held: GX(~(held = _held) -> [fire = 1] & held = (_held + 4) | [minute = 720 & _held > 0] & held = (0));"
    "held: GX(held = _held -> ~([fire = 1] | [minute = 720 & _held > 0]));";

/* Names in declared order. */
enum { DAY, MINUTE, AGAIN, FIRE, HELD, NAMES };
enum { INPUTS = 3, STEP = 30, ROWS = 76 };

/* 120 minutes ahead of UTC, 60 from 25 October 2026, 1:00 UTC on. */
static const int64_t table[] = {0, 120, 29881500, 60};
enum { FROM = 29881320 }; /* 24 October 2026, 22:00 UTC: midnight on the farm */

static uint8_t image[ROLVENKO_IMAGE_ROOM];
static int32_t trace[NAMES * (ROWS + 1)], minutes[ROWS];

static int refused(const char *what, uint64_t answer) {
    fprintf(stderr, "%s: refused %u at %u\n", what, rolvenko_number(answer), rolvenko_place(answer));
    return 1;
}

int main(void) {
    uint64_t answer = rolvenko_translate(rules, sizeof rules - 1, image, sizeof image);
    if (rolvenko_number(answer) != 0)
        return refused("translate", answer);
    size_t length = rolvenko_count(answer);
    int32_t state[NAMES], row[INPUTS];
    answer = rolvenko_start(image, length, state, NAMES);
    for (int k = 0; rolvenko_number(answer) == 0; k++) {
        for (int i = 0; i < NAMES; i++)
            trace[NAMES * k + i] = state[i];
        if (state[MINUTE] == 150)
            printf("day %d, 2:30%s: %s\n", state[DAY], state[AGAIN] ? " again" : "", state[FIRE] ? "launch" : "no launch");
        if (k == ROWS)
            break;
        minutes[k] = STEP;
        answer = rolvenko_clock(rules, sizeof rules - 1, table, 4, FROM + (int64_t)STEP * k, row, INPUTS);
        if (rolvenko_number(answer) == 0)
            answer = rolvenko_scan(image, length, state, NAMES, row, INPUTS);
    }
    if (rolvenko_number(answer) != 0)
        return refused("start, clock or scan", answer);
    answer = rolvenko_charge(image, length, HELD, trace, sizeof trace / sizeof *trace, minutes, ROWS, 4, 500, 900);
    if (!rolvenko_is_charge(answer))
        return refused("charge", answer);
    printf("licences: %llu cents and %u sixtieths\n", (unsigned long long)rolvenko_cents(answer), rolvenko_sixtieths(answer));
    return 0;
}
