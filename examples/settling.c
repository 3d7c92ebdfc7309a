/* Licences are taken only when their server has been up for half a minute: a settling time before launch (document 02, A.7). The controller's clock gives
 * each row the milliseconds since the last accepted scan; the server falls once before its time is over, and has to settle again. */
#include "rolvenko.h"

#include <stdio.h>
#include <string.h>

static const char *const rules =
    "input up 0..1; input want 0..9; var server 0..1; var held 0..9; timer settled of server limit 30000;"
    "server: GX(server = (up));"
    "held: GX(~(held = _held) -> [settled = 1 & want <> _held] & held = (want) | [server = 0 & _held > 0] & held = (0));"
    "held: GX(held = _held -> ~([settled = 1 & want <> _held] | [server = 0 & _held > 0]));";

/* Names in declared order; behind them in a state the elapsed time of the timer. */
enum { UP, WANT, SERVER, HELD, SETTLED, ELAPSED, STATE };
enum { ROW = 3 }; /* two inputs and the milliseconds */

/* What the controller sees, and when: milliseconds of its clock. */
static const struct {
    int32_t at, up, want;
} seen[] = {{1000, 0, 4},  {5000, 1, 4},  {15000, 1, 4}, {20000, 0, 4}, {22000, 1, 4}, {40000, 1, 4},
            {51999, 1, 4}, {52000, 1, 4}, {60000, 1, 9}, {61000, 1, 10}, {90000, 1, 2}, {95000, 0, 2}};

int main(void) {
    static uint8_t image[ROLVENKO_IMAGE_ROOM];
    int32_t state[STATE], last = 0;
    uint64_t answer = rolvenko_translate((const uint8_t *)rules, strlen(rules), image, sizeof image);
    if (rolvenko_number(answer) != 0)
        return printf("refused %u at %u\n", rolvenko_number(answer), rolvenko_place(answer));
    size_t length = rolvenko_count(answer);
    if (rolvenko_start(image, length, state, STATE) != 0)
        return 1;
    for (size_t k = 0; k < sizeof seen / sizeof *seen; k++) {
        int32_t row[ROW] = {seen[k].up, seen[k].want, seen[k].at - last};
        unsigned refusal = rolvenko_number(rolvenko_scan(image, length, state, STATE, row, ROW));
        /* time since a refused row still counts: the next row brings it */
        if (refusal == 0)
            last = seen[k].at;
        printf("%5d ms: server %d, up for %5d ms, settled %d, licences %d%s\n", (int)seen[k].at, (int)state[SERVER], (int)state[ELAPSED],
               (int)state[SETTLED], (int)state[HELD], refusal ? ", row refused" : "");
    }
    return 0;
}
