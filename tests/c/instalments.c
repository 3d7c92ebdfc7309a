/* The calls of a scan in instalments, once for each kind of answer: number, place, count, and the memory left. */
#include "expect.h"

/* L2 of document 01, 7 instructions; a = _a + 1, b = 6 / d, 8 instructions, refused by 14 at the seventh for d = 0. */
static const uint8_t L2[17] = {0, 1, 0, 2, 0, 3, 0, 1, 0, 10, 19, 1, 2, 20, 0, 22, 0};
static const uint8_t DIVISION[25] = {1, 2, 0, 4, 0, 0, 18, 0, 0, 18, 0, 3, 1, 1, 2, 4, 21, 1, 1, 12, 2, 0, 7, 21, 2};
/* No names and no code; document 01's launch latch, 21 instructions; two cases of which both hold for 0, 13 instructions, refused by 15 at the
 * tenth; a case with the previous value, 7 instructions, refused by 16 at the sixth for 1. */
static const uint8_t L1[2] = {0, 0};
static const uint8_t LAUNCH[42] = {1,  1, 0, 2, 0,  0, 2, 0, 3, 1, 1, 0, 10, 2, 0, 1, 2,  10, 17, 19, 1,
                                   2, 20, 1, 3, 1, 1, 2, 10, 2, 0, 1, 0, 10, 17, 19, 1, 0, 20, 1, 22, 1};
static const uint8_t TWO_CASES[27] = {0, 1, 0, 4, 0, 3, 0, 1, 0, 10, 19, 1, 2, 20, 0, 3, 0, 1, 2, 12, 19, 1, 2, 20, 0, 22, 0};
static const uint8_t SAME_VALUE[20] = {1, 1, 0, 2, 0, 0, 2, 0, 2, 0, 1, 2, 10, 19, 3, 1, 20, 1, 22, 1};

enum { UNFINISHED = ROLVENKO_UNFINISHED, IDLE = ROLVENKO_IDLE };
static int32_t paused[ROLVENKO_PAUSED], before[ROLVENKO_PAUSED];
static const int32_t none[1] = {0};

static uint64_t post(const uint8_t *image, size_t length, const int32_t *row, size_t inputs) {
    return rolvenko_post(paused, ROLVENKO_PAUSED, image, length, row, inputs);
}
static uint64_t begin(const uint8_t *image, size_t length, const int32_t *state, size_t names) {
    return rolvenko_begin(paused, ROLVENKO_PAUSED, image, length, state, names);
}
static uint64_t advance(const uint8_t *image, size_t length, size_t steps) {
    return rolvenko_advance(paused, ROLVENKO_PAUSED, image, length, steps);
}
static uint64_t finish(int32_t *state, size_t names) { return rolvenko_finish(paused, ROLVENKO_PAUSED, state, names); }

static void latch(void) {
    int32_t state[2] = {0, 0}, other[2] = {1, 0};
    memset(paused, 0, sizeof paused);
    expect("start without a row", begin(L2, 17, state, 1), IDLE, 0, 0);
    expect("instalment without a scan", advance(L2, 17, 3), IDLE, 0, 0);
    expect("finish without a scan", finish(state, 1), IDLE, 0, 0);
    expect("post of a wrong length", post(L2, 17, other, 1), 12, 0, 0);
    expect("post of a cut image", post(L2, 16, other, 1), 11, 15, 0);
    holds("nothing moved", memcmp(paused, before, sizeof paused) == 0);
    expect("post", post(L2, 17, none, 0), 0, 0, 0);
    expect("start by a cut image", begin(L2, 15, state, 1), 11, 15, 0);
    expect("the row is taken", begin(L2, 17, state, 1), IDLE, 0, 0);
    expect("post again", post(L2, 17, none, 0), 0, 0, 0);
    expect("start", begin(L2, 17, state, 1), 0, 0, 0);
    expect("a second start", begin(L2, 17, state, 1), UNFINISHED, 0, 0);
    expect("no steps", advance(L2, 17, 0), 0, 0, 0);
    expect("three steps", advance(L2, 17, 3), 0, 0, 3);
    expect("early finish", finish(state, 1), UNFINISHED, 0, 0);
    expect("another length of image", advance(L2, 16, 9), 0, 0, 0);
    expect("the rest", advance(L2, 17, SIZE_MAX), 0, 0, 4);
    memcpy(before, paused, sizeof before);
    expect("past the end", advance(L2, 17, 9), 0, 0, 0);
    expect("another state", finish(other, 1), 24, 0, 0);
    expect("a longer state", finish(state, 2), 24, 0, 0);
    expect("a start before the finish", begin(L2, 17, state, 1), UNFINISHED, 0, 0);
    holds("nothing moved at the end", memcmp(paused, before, sizeof paused) == 0 && other[0] == 1 && state[0] == 0);
    expect("finish", finish(state, 1), 0, 0, 7);
    holds("the state is the next one", state[0] == 1);
    expect("over", finish(state, 1), IDLE, 0, 0);
}

static void refused(void) {
    static const int32_t zero[1] = {0}, two[1] = {2}, out[1] = {3};
    int32_t state[3] = {0, 1, 1}, found[3] = {0, 1, 1};
    expect("post a zero", post(DIVISION, 25, zero, 1), 0, 0, 0);
    expect("start", begin(DIVISION, 25, state, 3), 0, 0, 0);
    expect("post while it runs", post(DIVISION, 25, two, 1), 0, 0, 0);
    expect("up to the division", advance(DIVISION, 25, 6), 0, 0, 6);
    expect("the division", advance(DIVISION, 25, 5), 0, 0, 1);
    expect("after the refusal", advance(DIVISION, 25, 5), 0, 0, 0);
    expect("the refusal, whatever the state", finish(state, 2), 14, 0, 7);
    holds("the state stays", memcmp(state, found, sizeof state) == 0);
    expect("start of the posted row", begin(DIVISION, 25, state, 3), 0, 0, 0);
    expect("all of it", advance(DIVISION, 25, 100), 0, 0, 8);
    expect("finish", finish(state, 3), 0, 0, 8);
    holds("2, _a + 1 and 6 / 2", state[0] == 2 && state[1] == 2 && state[2] == 3);
    expect("post out of range", post(DIVISION, 25, out, 1), 0, 0, 0);
    expect("start out of range", begin(DIVISION, 25, state, 3), 13, 0, 0);
    state[1] = 10;
    expect("post", post(DIVISION, 25, two, 1), 0, 0, 0);
    expect("start with a value outside", begin(DIVISION, 25, state, 3), 18, 0, 0);
    expect("post", post(DIVISION, 25, two, 1), 0, 0, 0);
    expect("start with a short state", begin(DIVISION, 25, state, 2), 12, 0, 0);
}

/* An image, and calls on it with what they answer, from a memory of zeros. A list of a row or state is `count` of `numbers`. */
enum kind { POST, BEGIN, ADVANCE, FINISH };
struct call {
    enum kind kind;
    size_t count; /* of numbers; of an instalment the steps */
    int32_t numbers[2];
    unsigned number;
    uint32_t steps;
};

static void calls(const char *what, const uint8_t *image, size_t length, const struct call *list, size_t count) {
    memset(paused, 0, sizeof paused);
    for (size_t i = 0; i < count; i++) {
        struct call c = list[i];
        uint64_t answer = c.kind == POST      ? post(image, length, c.numbers, c.count)
                          : c.kind == BEGIN   ? begin(image, length, c.numbers, c.count)
                          : c.kind == ADVANCE ? advance(image, length, c.count)
                                              : finish(c.numbers, c.count);
        char named[64];
        snprintf(named, sizeof named, "%s, call %zu", what, i);
        expect(named, answer, c.number, 0, c.steps);
    }
}

#define CALLS(image, list) calls(#list, image, sizeof image, list, sizeof list / sizeof *list)

/* Pauses inside what is passed over, between a pick and its settle, before and behind a refusal; an empty code; nothing of a refused scan stays. */
static void directed(void) {
    static const struct call empty[] = {{POST, 0, {0}, 0, 0}, {BEGIN, 0, {0}, 0, 0}, {FINISH, 1, {0}, 24, 0}, {FINISH, 0, {0}, 0, 0}, {FINISH, 0, {0}, IDLE, 0}};
    static const struct call passed_over[] = {{POST, 1, {0}, 0, 0},    {BEGIN, 2, {0, 0}, 0, 0}, {ADVANCE, 8, {0}, 0, 8}, {ADVANCE, 3, {0}, 0, 3},
                                              {ADVANCE, 2, {0}, 0, 2}, {ADVANCE, 99, {0}, 0, 8}, {FINISH, 2, {0, 0}, 0, 21}};
    static const struct call two_cases[] = {{POST, 0, {0}, 0, 0},    {BEGIN, 1, {0}, 0, 0},   {ADVANCE, 5, {0}, 0, 5}, {ADVANCE, 1, {0}, 0, 1},
                                            {ADVANCE, 3, {0}, 0, 3}, {ADVANCE, 1, {0}, 0, 1}, {ADVANCE, 1, {0}, 0, 0}, {FINISH, 1, {0}, 15, 10}};
    static const struct call then_another[] = {{POST, 0, {0}, 0, 0},     {BEGIN, 1, {0}, 0, 0},   {POST, 0, {0}, 0, 0},  {ADVANCE, 6, {0}, 0, 6},
                                               {ADVANCE, 99, {0}, 0, 4}, {FINISH, 1, {0}, 15, 10}, {BEGIN, 1, {1}, 0, 0}, {ADVANCE, 5, {0}, 0, 5},
                                               {ADVANCE, 99, {0}, 0, 8}, {FINISH, 1, {1}, 0, 13}};
    static const struct call same_value[] = {{POST, 1, {1}, 0, 0},    {BEGIN, 2, {0, 0}, 0, 0},    {ADVANCE, 6, {0}, 0, 6},      {ADVANCE, 1, {0}, 0, 0},
                                             {FINISH, 2, {0, 0}, 16, 6}, {BEGIN, 2, {0, 0}, IDLE, 0}, {FINISH, 2, {0, 0}, IDLE, 0}};
    CALLS(L1, empty);
    CALLS(LAUNCH, passed_over);
    CALLS(TWO_CASES, two_cases);
    CALLS(TWO_CASES, then_another);
    CALLS(SAME_VALUE, same_value);
    static const uint8_t zeros[65537] = {0};
    expect("post of too long an image", post(zeros, sizeof zeros, none, 0), 9, 0, 0);
}

/* Another length than ROLVENKO_PAUSED, 0 among them. */
static void lengths(void) {
    int32_t state[1] = {0};
    memcpy(before, paused, sizeof before);
    expect("short memory: post", rolvenko_post(paused, ROLVENKO_PAUSED - 1, L2, 17, none, 0), IDLE, 0, 0);
    expect("short memory: begin", rolvenko_begin(paused, ROLVENKO_PAUSED - 1, L2, 17, state, 1), IDLE, 0, 0);
    expect("no memory: advance", rolvenko_advance(NULL, 0, L2, 17, 1), IDLE, 0, 0);
    expect("no memory: finish", rolvenko_finish(NULL, 0, state, 1), IDLE, 0, 0);
    holds("short memory stays", memcmp(paused, before, sizeof paused) == 0 && state[0] == 0);
    uint64_t idle = rolvenko_finish(NULL, 0, NULL, 0);
    holds("idle is told", rolvenko_is_idle(idle) && !rolvenko_is_unfinished(idle));
}

int main(void) {
    latch();
    refused();
    directed();
    lengths();
    printf("instalments: %d failures\n", failures);
    return failures != 0;
}
