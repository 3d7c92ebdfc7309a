/* Eight rule sets on one controller: a round gives each 10 steps, so a long or a broken one keeps no other waiting. The third image is
 * broken; the fifth divides by zero at its second row. Prints each finish, with the rounds that it took beside those that were promised: the
 * instructions divided by the share, rounded up. */
#include "rolvenko.h"

#include <stdio.h>

enum { SETS = ROLVENKO_SETS, SHARE = 10, ROUNDS = 14, SECOND_ROW = 8, BROKEN = 2, DIVIDES = 4 };
enum { BY, N, Q, NAMES };

static uint8_t images[SETS * 512];
static int32_t paused[SETS * ROLVENKO_PAUSED], states[SETS * NAMES];
static size_t sets[SETS * 3], place[SETS], end, promised[SETS];

/* A counter of as many additions as the set's place wants, and a quotient by the input. */
static size_t rules(char *text, size_t room, int set) {
    int length = snprintf(text, room, "input by 0..9; var n 0..999; var q 0..99; n: GX(n = ((_n");
    for (int i = 0; i <= 4 * set; i++)
        length += snprintf(text + length, room - (size_t)length, " + 1");
    length += snprintf(text + length, room - (size_t)length, ") mod 1000)); q: GX(q = (%s));", set == DIVIDES ? "99 / by" : "99 / (by + 1)");
    return (size_t)length;
}

/* The image and the state of a set behind those of the sets before, and how long its scan is by a trial. */
static int add(int set) {
    char text[1024];
    size_t length = rules(text, sizeof text, set);
    uint64_t answer = rolvenko_translate((const uint8_t *)text, length, images + end, sizeof images - end);
    if (rolvenko_number(answer) != 0)
        return 0;
    place[set] = end;
    sets[3 * set] = rolvenko_count(answer);
    sets[3 * set + 1] = NAMES;
    sets[3 * set + 2] = SHARE;
    end += sets[3 * set];
    int32_t trial[NAMES], row[1] = {1};
    rolvenko_start(images + place[set], sets[3 * set], states + NAMES * set, NAMES);
    rolvenko_start(images + place[set], sets[3 * set], trial, NAMES);
    uint32_t instructions = rolvenko_count(rolvenko_scan(images + place[set], sets[3 * set], trial, NAMES, row, 1));
    promised[set] = (instructions + SHARE - 1) / SHARE;
    return 1;
}

static void post(int set, int32_t by) {
    rolvenko_post(paused + set * ROLVENKO_PAUSED, ROLVENKO_PAUSED, images + place[set], sets[3 * set], &by, 1);
}

static void tell(int set, int rounds, uint64_t answer) {
    if (rolvenko_is_idle(answer) || rolvenko_is_unfinished(answer))
        return;
    printf("set %d, round %d of %zu: ", set, rounds, promised[set]);
    if (rolvenko_number(answer) == 0)
        printf("n %d, q %d\n", states[NAMES * set + N], states[NAMES * set + Q]);
    else
        printf("refused %u\n", rolvenko_number(answer));
}

int main(void) {
    for (int set = 0; set < SETS; set++)
        if (!add(set))
            return 1;
    for (int turn = 1; turn <= ROUNDS; turn++) {
        if (turn == 1 || turn == SECOND_ROW) {
            printf("a row for each set\n");
            for (int set = 0; set < SETS; set++)
                post(set, turn == 1 ? 3 : 0);
        }
        if (turn == 1)
            images[place[BROKEN] + sets[3 * BROKEN] - 2] = 99; /* no instruction has this code */
        uint64_t answers[SETS];
        if (rolvenko_round(paused, SETS * ROLVENKO_PAUSED, images, end, states, SETS * NAMES, sets, SETS * 3, answers, SETS) != 0)
            return 1;
        for (int set = 0; set < SETS; set++)
            tell(set, turn < SECOND_ROW ? turn : turn - SECOND_ROW + 1, answers[set]);
    }
    return 0;
}
