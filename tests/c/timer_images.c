/* Images with timers (document 02, A.7) from C: where an instruction 23 is sound, states with elapsed times, rows with milliseconds, and what
 * the licence charge, the closed profile, instalments and rounds make of them. */
#include "expect.h"

/* One input and two variables, each 0..1 with start 0: the code begins at 11. The last three numbers of a header are t's. */
#define H 1, 2, 0, 2, 0, 0, 2, 0, 0, 2, 0
/* `02 00 15 01`: variable 1 becomes the input; a condition that holds, with its gate. */
#define SET 2, 0, 21, 1
#define HOLDS 1, 2, 1, 2, 10, 19

/* Q is a timer of W, which is In, with the limit 5000; the same with 2,147,483,647, and with 50. */
static const uint8_t TON[20] = {H, SET, 23, 2, 1, 0x88, 0x27};
static const uint8_t LONGEST[23] = {H, SET, 23, 2, 1, 0xFF, 0xFF, 0xFF, 0xFF, 7};
static const uint8_t T[19] = {H, SET, 23, 2, 1, 50};
enum { MOST = 2147483647 };

/* An image that is sound, or 11 at a place; start and scan answer 11 in the same way. */
static void place(const char *what, const uint8_t *image, size_t length, unsigned number, uint32_t at) {
    int32_t state[4] = {0, 0, 0, 0}, row[2] = {0, 0};
    expect(what, rolvenko_check(image, length), number, at, 0);
    if (number == 0)
        return;
    expect(what, rolvenko_start(image, length, state, 4), number, at, 0);
    expect(what, rolvenko_scan(image, length, state, 4, row, 2), number, at, 0);
}
#define ANSWERS(what, number, at, ...)                    \
    do {                                                  \
        static const uint8_t image[] = {__VA_ARGS__};     \
        place(what, image, sizeof image, number, at);     \
    } while (0)
#define SOUND(what, ...) ANSWERS(what, 0, 0, __VA_ARGS__)
#define BREAKS(what, at, ...) ANSWERS(what, 11, at, __VA_ARGS__)

/* "its one instruction 23 keeps these limits" */
static void limits_of_23(void) {
    SOUND("N 1", H, SET, 23, 2, 1, 1);
    SOUND("N 2,147,483,647", H, SET, 23, 2, 1, 0xFF, 0xFF, 0xFF, 0xFF, 7);
    BREAKS("N 0", 15, H, SET, 23, 2, 1, 0);
    BREAKS("N 2,147,483,648", 15, H, SET, 23, 2, 1, 0x80, 0x80, 0x80, 0x80, 8);
    BREAKS("N not in shortest form", 15, H, SET, 23, 2, 1, 0x81, 0);
    for (size_t length = 16; length < sizeof TON; length++)
        place("cut", TON, length, 11, 15);
    BREAKS("t an input", 15, H, SET, 23, 0, 1, 1);
    BREAKS("t is w", 15, H, SET, 23, 1, 1, 1);
    BREAKS("t undeclared", 15, H, SET, 23, 3, 1, 1);
    BREAKS("w an input", 15, H, SET, 23, 2, 0, 1);
    BREAKS("w undeclared", 15, H, SET, 23, 2, 3, 1);
    BREAKS("t of 0..2", 15, 1, 2, 0, 2, 0, 0, 2, 0, 0, 4, 0, SET, 23, 2, 1, 5);
    BREAKS("t of -1..1", 15, 1, 2, 0, 2, 0, 0, 2, 0, 1, 2, 0, SET, 23, 2, 1, 5);
    BREAKS("t starts at 1", 15, 1, 2, 0, 2, 0, 0, 2, 0, 0, 2, 2, SET, 23, 2, 1, 5);
    BREAKS("w of 0..2", 15, 1, 2, 0, 2, 0, 0, 4, 0, 0, 2, 0, SET, 23, 2, 1, 5);
    SOUND("w starts at 1", 1, 2, 0, 2, 0, 0, 2, 2, 0, 2, 0, SET, 23, 2, 1, 5);
}

/* "replaces a let, directly after w's settle or let" */
static void places_of_23(void) {
    BREAKS("no rule for t", 15, H, SET);
    BREAKS("twice", 19, H, SET, 23, 2, 1, 5, 23, 2, 1, 5);
    BREAKS("first", 11, H, 23, 2, 1, 5);
    BREAKS("between value and let", 13, H, 2, 0, 23, 2, 1, 5);
    BREAKS("a let of t behind it", 21, H, SET, 23, 2, 1, 5, 1, 0, 21, 2);
    BREAKS("between gate and pick", 17, H, HOLDS, 23, 2, 1, 5);
    BREAKS("between pick and settle", 21, H, HOLDS, 1, 2, 20, 1, 23, 2, 1, 5);
    SOUND("after a settle", H, HOLDS, 1, 2, 20, 1, 22, 1, 23, 2, 1, 5);
    SOUND("after a settle of 24 and 25", H, HOLDS, 1, 2, 24, 1, HOLDS, 1, 0, 25, 1, 22, 1, 23, 2, 1, 5);
    SOUND("t let is an ordinary variable", H, SET, 1, 0, 21, 2);
    SOUND("t before w in the header", H, 2, 0, 21, 2, 23, 1, 2, 1);
}

/* "timers of one w by id": a fourth name, the code begins at 14. */
#define FOUR 1, 3, 0, 2, 0, 0, 2, 0, 0, 2, 0, 0, 2, 0
static void two_timers(void) {
    SOUND("by id", FOUR, SET, 23, 2, 1, 1, 23, 3, 1, 5);
    BREAKS("not by id", 22, FOUR, SET, 23, 3, 1, 5, 23, 2, 1, 1);
    BREAKS("a timer of a timer", 22, FOUR, SET, 23, 2, 1, 1, 23, 3, 2, 5);
    BREAKS("one left out", 22, FOUR, SET, 23, 2, 1, 1);
    SOUND("one let", FOUR, SET, 23, 2, 1, 1, 1, 0, 21, 3);
    BREAKS("behind a value", 20, FOUR, SET, 1, 0, 23, 2, 1, 1);
    BREAKS("behind another let", 22, FOUR, SET, 1, 0, 21, 3, 23, 2, 1, 1);
    BREAKS("its value too early", 18, FOUR, SET, 2, 2);
    SOUND("its value behind it", FOUR, SET, 23, 2, 1, 1, 2, 2, 21, 3);
}

/* A scan of a row of an input and milliseconds; the state stays where it is refused. */
static void scans(const uint8_t *image, size_t length, const int32_t found[4], const int32_t row[2], unsigned number, const int32_t left[4]) {
    int32_t state[4];
    char what[80];
    memcpy(state, found, sizeof state);
    snprintf(what, sizeof what, "state %d %d %d %d, row %d %d", found[0], found[1], found[2], found[3], row[0], row[1]);
    expect(what, rolvenko_scan(image, length, state, 4, row, 2), number, 0, number == 0 ? 3 : 0);
    same(what, state, left, sizeof state);
}

/* The sequence of rows of the on-delay timer, from the start. */
static void ton(void) {
    static const int32_t rows[9][2] = {{0, 100}, {1, 100}, {1, 4999}, {1, 1}, {1, 100}, {0, 100}, {1, 9000}, {1, 5000}, {0, 0}};
    static const int32_t left[9][4] = {{0, 0, 0, 0}, {1, 1, 0, 0}, {1, 1, 0, 4999}, {1, 1, 1, 5000}, {1, 1, 1, 5000},
                                       {0, 0, 0, 0}, {1, 1, 0, 0}, {1, 1, 1, 5000}, {0, 0, 0, 0}};
    int32_t state[5] = {7, 7, 7, 7, 7}, lent[5] = {7, 7, 7, 7, 7};
    static const int32_t zeros[4] = {0, 0, 0, 0};
    expect("start of three numbers", rolvenko_start(TON, sizeof TON, state, 3), 12, 0, 0);
    expect("start of five numbers", rolvenko_start(TON, sizeof TON, state, 5), 12, 0, 0);
    same("a refused start", state, lent, sizeof state);
    expect("start", rolvenko_start(TON, sizeof TON, state, 4), 0, 0, 0);
    same("the start", state, zeros, sizeof zeros);
    holds("behind the start", state[4] == 7);
    for (int k = 0; k < 9; k++) {
        scans(TON, sizeof TON, state, rows[k], 0, left[k]);
        memcpy(state, left[k], sizeof left[k]);
    }
}

static void other_states(void) {
    static const struct {
        int32_t state[4], row[2];
        unsigned number;
        int32_t left[4];
    } cases[] = {
        {{0, 0, 0, 5001}, {1, 0}, 18, {0, 0, 0, 5001}},   {{0, 0, 0, -1}, {2, -1}, 18, {0, 0, 0, -1}},
        {{0, 0, 0, 0}, {1, -1}, 13, {0, 0, 0, 0}},        {{0, 0, 0, 0}, {1, -MOST - 1}, 13, {0, 0, 0, 0}},
        {{0, 0, 0, 0}, {2, 0}, 13, {0, 0, 0, 0}},         {{0, 1, 0, 5000}, {1, 0}, 0, {1, 1, 1, 5000}},
        {{1, 1, 1, 4999}, {1, 0}, 0, {1, 1, 0, 4999}},    {{1, 0, 1, 5000}, {1, 7}, 0, {1, 1, 0, 0}},
        {{1, 1, 0, 1}, {1, MOST}, 0, {1, 1, 1, 5000}},    {{1, 1, 0, 5000}, {0, MOST}, 0, {0, 0, 0, 0}},
    };
    static const struct {
        int32_t state[4], row[2], left[4];
    } longest[] = {
        {{1, 1, 0, MOST - 1}, {1, MOST}, {1, 1, 1, MOST}},
        {{1, 1, 0, 1}, {1, MOST - 2}, {1, 1, 0, MOST - 1}},
        {{1, 1, 1, MOST}, {1, MOST}, {1, 1, 1, MOST}},
    };
    for (size_t k = 0; k < sizeof cases / sizeof *cases; k++)
        scans(TON, sizeof TON, cases[k].state, cases[k].row, cases[k].number, cases[k].left);
    for (size_t k = 0; k < sizeof longest / sizeof *longest; k++)
        scans(LONGEST, sizeof LONGEST, longest[k].state, longest[k].row, 0, longest[k].left);
    int32_t state[4] = {0, 0, 0, 0};
    static const int32_t row[3] = {1, 0, 0};
    expect("a row without milliseconds", rolvenko_scan(TON, sizeof TON, state, 4, row, 1), 12, 0, 0);
    expect("a row of three numbers", rolvenko_scan(TON, sizeof TON, state, 4, row, 3), 12, 0, 0);
    expect("a state without elapsed time", rolvenko_scan(TON, sizeof TON, state, 3, row, 2), 12, 0, 0);
}

/* Elapsed times stand by the timer's id, whatever the order of the code: timers 1 and 3, the second first. */
static void by_id(void) {
    static const uint8_t image[33] = {1, 4, 0, 2, 0, 0, 2, 0, 0, 2, 0, 0, 2, 0, 0, 2, 0, 2, 0, 21, 4, 23, 3, 4, 3, 2, 0, 21, 2, 23, 1, 2, 5};
    int32_t state[7] = {1, 0, 1, 0, 1, 0, 0}, row[2] = {1, 4};
    static const int32_t left[7] = {1, 0, 1, 1, 1, 4, 3};
    expect("two timers", rolvenko_scan(image, sizeof image, state, 7, row, 2), 0, 0, 6);
    same("elapsed times by id", state, left, sizeof state);
    state[5] = 5, state[6] = 4;
    expect("the second over its limit", rolvenko_scan(image, sizeof image, state, 7, row, 2), 18, 0, 0);
    state[5] = 6, state[6] = 3;
    expect("the first over its limit", rolvenko_scan(image, sizeof image, state, 7, row, 2), 18, 0, 0);
}

/* "Directly after the rule of w": w is x times u, and u a timer of x. */
static void order_of_work(void) {
    static const uint8_t image[36] = {1, 4, 0, 2, 0, 0, 2, 0, 0, 2,  0, 0, 2, 0, 0, 2, 0, 2, 0, 21, 2,
                                      23, 4, 2, 2, 2, 2, 2, 4, 6, 21, 1, 23, 3, 1, 3};
    static const int32_t left[6][7] = {{1, 0, 1, 0, 0, 0, 0}, {1, 0, 1, 0, 0, 0, 1}, {1, 1, 1, 0, 1, 0, 2},
                                       {1, 1, 1, 0, 1, 1, 2}, {1, 1, 1, 0, 1, 2, 2}, {1, 1, 1, 1, 1, 3, 2}};
    int32_t state[7] = {0, 0, 0, 0, 0, 0, 0}, row[2] = {1, 5};
    for (int k = 0; k < 6; k++) {
        expect("order of work", rolvenko_scan(image, sizeof image, state, 7, row, 2), 0, 0, 8);
        same("order of work", state, left[k], sizeof state);
        row[1] = 1;
    }
}

/* The longest state: 63 timers of one variable, limits 1 to 63, the variable always 1. */
static void longest_state(void) {
    static uint8_t image[2 + 3 * 64 + 4 + 4 * 63];
    static int32_t state[ROLVENKO_STATE + 1], row[1] = {40};
    size_t at = 0;
    image[at++] = 0, image[at++] = 64;
    for (int id = 0; id < 64; id++)
        image[at++] = 0, image[at++] = 2, image[at++] = 0;
    image[at++] = 1, image[at++] = 2, image[at++] = 21, image[at++] = 0;
    for (int id = 1; id < 64; id++)
        image[at++] = 23, image[at++] = (uint8_t)id, image[at++] = 0, image[at++] = (uint8_t)id;
    holds("127 numbers", ROLVENKO_STATE == 127);
    place("63 timers", image, at, 0, 0);
    expect("start of 128 numbers", rolvenko_start(image, at, state, ROLVENKO_STATE + 1), 12, 0, 0);
    expect("start of 127 numbers", rolvenko_start(image, at, state, ROLVENKO_STATE), 0, 0, 0);
    expect("the rise", rolvenko_scan(image, at, state, ROLVENKO_STATE, row, 1), 0, 0, 65);
    expect("forty milliseconds", rolvenko_scan(image, at, state, ROLVENKO_STATE, row, 1), 0, 0, 65);
    for (int id = 1; id < 64; id++)
        holds("a timer of 63", state[id] == (id <= 40) && state[63 + id] == (id <= 40 ? id : 40));
    state[126] = 64;
    expect("the last elapsed time", rolvenko_scan(image, at, state, ROLVENKO_STATE, row, 1), 18, 0, 0);
}

/* A t counts licences as any variable; a state has its elapsed time. "26 a timer". */
static void other_services(void) {
    static const int32_t trace[8] = {0, 0, 0, 0, 1, 1, 1, 5000}, minutes[1] = {60};
    int32_t state[4] = {9, 9, 9, 9}, row[2] = {9, 9};
    static const int32_t nines[4] = {9, 9, 9, 9};
    uint64_t charge = rolvenko_charge(TON, sizeof TON, 2, trace, 8, minutes, 1, 5, 7, 9);
    holds("a timer's charge", rolvenko_is_charge(charge) && rolvenko_cents(charge) == 7 && rolvenko_sixtieths(charge) == 0);
    expect("an elapsed time is no variable", rolvenko_charge(TON, sizeof TON, 3, trace, 8, minutes, 1, 5, 7, 9), 28, 0, 0);
    expect("a cut state", rolvenko_charge(TON, sizeof TON, 2, trace, 6, minutes, 1, 5, 7, 9), 12, 0, 0);
    expect("a closed profile", rolvenko_closed(TON, sizeof TON), 26, 0, 0);
    expect("its combination", rolvenko_combination(TON, sizeof TON, 0, state, 4, row, 2), 26, 0, 0);
    expect("its combination, of any lengths", rolvenko_combination(TON, sizeof TON, 0, state, 3, row, 1), 26, 0, 0);
    same("a refused combination", state, nines, sizeof state);
    same("a refused combination's row", row, nines, sizeof row);
}

/* The milliseconds are those of the row that the scan began with. */
static void instalments(void) {
    static int32_t paused[ROLVENKO_PAUSED];
    static const int32_t first[2] = {1, 30}, next[2] = {0, 7}, last[2] = {1, 1}, left[4] = {1, 1, 1, 50};
    int32_t state[4] = {1, 1, 0, 30};
    expect("a row without milliseconds", rolvenko_post(paused, ROLVENKO_PAUSED, T, sizeof T, first, 1), 12, 0, 0);
    expect("post", rolvenko_post(paused, ROLVENKO_PAUSED, T, sizeof T, first, 2), 0, 0, 0);
    expect("begin", rolvenko_begin(paused, ROLVENKO_PAUSED, T, sizeof T, state, 4), 0, 0, 0);
    expect("post while it runs", rolvenko_post(paused, ROLVENKO_PAUSED, T, sizeof T, next, 2), 0, 0, 0);
    expect("two steps", rolvenko_advance(paused, ROLVENKO_PAUSED, T, sizeof T, 2), 0, 0, 2);
    expect("post again", rolvenko_post(paused, ROLVENKO_PAUSED, T, sizeof T, last, 2), 0, 0, 0);
    expect("the timer", rolvenko_advance(paused, ROLVENKO_PAUSED, T, sizeof T, 1), 0, 0, 1);
    state[3] = 31;
    expect("another elapsed time", rolvenko_finish(paused, ROLVENKO_PAUSED, state, 4), 24, 0, 0);
    state[3] = 30;
    expect("finish", rolvenko_finish(paused, ROLVENKO_PAUSED, state, 4), 0, 0, 3);
    same("the state", state, left, sizeof state);
    expect("begin with the last row", rolvenko_begin(paused, ROLVENKO_PAUSED, T, sizeof T, state, 4), 0, 0, 0);
    expect("all of it", rolvenko_advance(paused, ROLVENKO_PAUSED, T, sizeof T, 9), 0, 0, 3);
    expect("finish", rolvenko_finish(paused, ROLVENKO_PAUSED, state, 4), 0, 0, 3);
    same("the state stays at its limit", state, left, sizeof state);
}

static void visits(void) {
    static int32_t paused[ROLVENKO_PAUSED];
    static const int32_t row[2] = {1, 30}, back[2] = {1, -1}, left[4] = {1, 1, 1, 50};
    int32_t state[4] = {1, 1, 0, 30};
    rolvenko_post(paused, ROLVENKO_PAUSED, T, sizeof T, row, 2);
    expect("a visit of two steps", rolvenko_visit(paused, ROLVENKO_PAUSED, T, sizeof T, state, 4, 2), ROLVENKO_UNFINISHED, 0, 2);
    expect("and of the last", rolvenko_visit(paused, ROLVENKO_PAUSED, T, sizeof T, state, 4, 2), 0, 0, 1);
    same("the state", state, left, sizeof state);
    rolvenko_post(paused, ROLVENKO_PAUSED, T, sizeof T, back, 2);
    expect("negative milliseconds", rolvenko_visit(paused, ROLVENKO_PAUSED, T, sizeof T, state, 4, 2), 13, 0, 0);
    state[3] = 51;
    rolvenko_post(paused, ROLVENKO_PAUSED, T, sizeof T, back, 2);
    expect("elapsed over the limit", rolvenko_visit(paused, ROLVENKO_PAUSED, T, sizeof T, state, 4, 2), 18, 0, 0);
}

int main(void) {
    limits_of_23();
    places_of_23();
    two_timers();
    ton();
    other_states();
    by_id();
    order_of_work();
    longest_state();
    other_services();
    instalments();
    visits();
    printf("%d failures\n", failures);
    return failures != 0;
}
