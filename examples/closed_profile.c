/* Rules that must never stop in service: a pool of licences, first written so that it can run over, then mended. The closed profile scans
 * every state with every row and names the first pair that is refused. */
#include "rolvenko.h"

#include <stdio.h>
#include <string.h>

#define DECLARED "input take 0..1; input give 0..1; var held 0..3;"

static const char *const careless = DECLARED "held: GX(held = (_held + take - give));";
static const char *const careful =
    DECLARED "held: GX(~(held = _held) -> [take > give & _held < 3] & held = (_held + 1) | [take < give & _held > 0] & held = (_held - 1));"
             "held: GX(held = _held -> ~([take > give & _held < 3] | [take < give & _held > 0]));";

/* Names in declared order. */
enum { TAKE, GIVE, HELD, NAMES };
enum { INPUTS = 2 };

static uint8_t image[ROLVENKO_IMAGE_ROOM];

static int refused(const char *what, uint64_t answer) {
    fprintf(stderr, "%s: refused %u at %u\n", what, rolvenko_number(answer), rolvenko_place(answer));
    return 1;
}

/* The pair that a 27 names, and why its scan is refused. */
static int show(size_t length, uint32_t scans) {
    int32_t state[NAMES], row[INPUTS];
    uint64_t answer = rolvenko_combination(image, length, scans, state, NAMES, row, INPUTS);
    if (rolvenko_number(answer) != 0)
        return refused("combination", answer);
    printf("not closed: after %u scans held is %d, take %d, give %d", (unsigned)scans, state[HELD], row[TAKE], row[GIVE]);
    printf(": refusal %u\n", rolvenko_number(rolvenko_scan(image, length, state, NAMES, row, INPUTS)));
    return 0;
}

static int profile(const char *rules) {
    uint64_t answer = rolvenko_translate((const uint8_t *)rules, strlen(rules), image, sizeof image);
    if (rolvenko_number(answer) != 0)
        return refused("translate", answer);
    size_t length = rolvenko_count(answer);
    answer = rolvenko_closed(image, length);
    if (rolvenko_number(answer) == 27)
        return show(length, rolvenko_place(answer));
    if (rolvenko_number(answer) != 0)
        return refused("closed", answer);
    puts("closed: no row can stop these rules");
    return 0;
}

int main(void) { return profile(careless) | profile(careful); }
