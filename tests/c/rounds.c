/* Visits and rounds: answers, states, and what 25 leaves. */
#include "expect.h"

/* L2 of document 01, 7 instructions; L1, none. */
static const uint8_t IMAGES[] = {0, 1, 0, 2, 0, 3, 0, 1, 0, 10, 19, 1, 2, 20, 0, 22, 0, 0, 0, 0, 1, 0, 2, 0, 3, 0, 1, 0, 10, 19, 1, 2, 20, 0, 22, 0};
enum { L2 = 17, L1 = 2, UNFINISHED = ROLVENKO_UNFINISHED, IDLE = ROLVENKO_IDLE };

static int32_t paused[9 * ROLVENKO_PAUSED], before[9 * ROLVENKO_PAUSED], states[9];
static uint64_t answers[9];
static const int32_t none[1] = {0};

static uint64_t round_of(const size_t *sets, size_t numbers) {
    return rolvenko_round(paused, sizeof paused / sizeof *paused, IMAGES, sizeof IMAGES, states, 9, sets, numbers, answers, 9);
}

/* Shares 3, 1 and 100 of L2, L1 and L2. */
static void three_sets(void) {
    static const size_t sets[9] = {L2, 1, 3, L1, 0, 1, L2, 1, 100};
    static const unsigned wanted[4][3][2] = {{{UNFINISHED, 3}, {0, 0}, {0, 7}},
                                             {{UNFINISHED, 3}, {IDLE, 0}, {IDLE, 0}},
                                             {{0, 1}, {IDLE, 0}, {IDLE, 0}},
                                             {{IDLE, 0}, {IDLE, 0}, {IDLE, 0}}};
    static const size_t at[3] = {0, L2, L2 + L1};
    for (int i = 0; i < 3; i++)
        expect("post", rolvenko_post(paused + i * ROLVENKO_PAUSED, ROLVENKO_PAUSED, IMAGES + at[i], sets[3 * i], none, 0), 0, 0, 0);
    for (int turn = 0; turn < 4; turn++) {
        expect("round", round_of(sets, 9), 0, 0, 0);
        for (int i = 0; i < 3; i++)
            expect("visit of a round", answers[i], wanted[turn][i][0], 0, wanted[turn][i][1]);
    }
    holds("the states", states[0] == 1 && states[1] == 1 && states[2] == 0);
}

static void limits(void) {
    size_t sets[27];
    for (int i = 0; i < 27; i++)
        sets[i] = i % 3 == 2 ? 5 : i % 3 == 1 ? 0 : L1;
    memcpy(before, paused, sizeof paused);
    memset(answers, 7, sizeof answers);
    expect("no set", round_of(sets, 0), 25, 0, 0);
    expect("nine sets", round_of(sets, 27), 25, 0, 0);
    expect("a cut table", round_of(sets, 4), 25, 0, 0);
    sets[5] = 0;
    expect("no share", round_of(sets, 6), 25, 0, 0);
    sets[5] = ROLVENKO_SHARE_LIMIT + 1;
    expect("too large a share", round_of(sets, 6), 25, 0, 0);
    holds("nothing moved", memcmp(before, paused, sizeof paused) == 0 && answers[0] == UINT64_C(0x0707070707070707));
    int32_t state[1] = {0};
    expect("visit without a share", rolvenko_visit(paused, ROLVENKO_PAUSED, IMAGES, L2, state, 1, 0), 25, 0, 0);
    expect("visit with too large a share", rolvenko_visit(paused, ROLVENKO_PAUSED, IMAGES, L2, state, 1, 65537), 25, 0, 0);
    sets[5] = ROLVENKO_SHARE_LIMIT;
    expect("eight sets", round_of(sets, 24), 0, 0, 0);
}

/* One set by itself: 7 steps in shares of 4; then a state outside its range. */
static void visits(void) {
    int32_t state[1] = {0};
    memset(paused, 0, sizeof paused);
    expect("neither scan nor row", rolvenko_visit(paused, ROLVENKO_PAUSED, IMAGES, L2, state, 1, 4), IDLE, 0, 0);
    expect("post", rolvenko_post(paused, ROLVENKO_PAUSED, IMAGES, L2, none, 0), 0, 0, 0);
    expect("first visit", rolvenko_visit(paused, ROLVENKO_PAUSED, IMAGES, L2, state, 1, 4), UNFINISHED, 0, 4);
    expect("second visit", rolvenko_visit(paused, ROLVENKO_PAUSED, IMAGES, L2, state, 1, 4), 0, 0, 3);
    holds("the next state", state[0] == 1);
    state[0] = 2;
    expect("post", rolvenko_post(paused, ROLVENKO_PAUSED, IMAGES, L2, none, 0), 0, 0, 0);
    expect("a refused start", rolvenko_visit(paused, ROLVENKO_PAUSED, IMAGES, L2, state, 1, 4), 18, 0, 0);
    expect("then idle", rolvenko_visit(paused, ROLVENKO_PAUSED, IMAGES, L2, state, 1, 4), IDLE, 0, 0);
}

/* How many visits a scan takes, at most 99. */
static int visits_to_end(const uint8_t *image, size_t length, const int32_t *row, size_t inputs, int32_t *state, size_t names, size_t share) {
    memset(paused, 0, sizeof paused);
    expect("post", rolvenko_post(paused, ROLVENKO_PAUSED, image, length, row, inputs), 0, 0, 0);
    for (int made = 1; made < 100; made++)
        if (rolvenko_number(rolvenko_visit(paused, ROLVENKO_PAUSED, image, length, state, names, share)) == 0)
            return made;
    return 0;
}

/* c divided by share, rounded up; c is 7 of L2 and 21 of document 01's launch latch. */
static void exact(void) {
    static const uint8_t launch[42] = {1,  1, 0, 2, 0,  0, 2, 0, 3, 1, 1, 0, 10, 2, 0, 1, 2,  10, 17, 19, 1,
                                       2, 20, 1, 3, 1, 1, 2, 10, 2, 0, 1, 0, 10, 17, 19, 1, 0, 20, 1, 22, 1};
    static const int32_t row[1] = {1};
    for (size_t share = 1; share <= 9; share++) {
        int32_t state[1] = {0};
        holds("visits of L2", visits_to_end(IMAGES, L2, none, 0, state, 1, share) == (int)((7 + share - 1) / share) && state[0] == 1);
    }
    for (size_t share = 1; share <= 23; share++) {
        int32_t state[2] = {0, 0};
        holds("visits of the launch latch", visits_to_end(launch, sizeof launch, row, 1, state, 2, share) == (int)((21 + share - 1) / share));
        holds("its state", state[0] == 1 && state[1] == 1);
    }
    holds("an empty code", visits_to_end(IMAGES + L2, L1, none, 0, states, 0, 1) == 1);
}

/* Refused at its seventh step, in the second of its visits; a row posted meanwhile is taken by the third. */
static void refused(void) {
    static const uint8_t division[25] = {1, 2, 0, 4, 0, 0, 18, 0, 0, 18, 0, 3, 1, 1, 2, 4, 21, 1, 1, 12, 2, 0, 7, 21, 2};
    static const int32_t zero[1] = {0}, two[1] = {2};
    int32_t state[3] = {0, 1, 1};
    memset(paused, 0, sizeof paused);
    expect("post", rolvenko_post(paused, ROLVENKO_PAUSED, division, 25, zero, 1), 0, 0, 0);
    expect("unfinished", rolvenko_visit(paused, ROLVENKO_PAUSED, division, 25, state, 3, 4), UNFINISHED, 0, 4);
    expect("post meanwhile", rolvenko_post(paused, ROLVENKO_PAUSED, division, 25, two, 1), 0, 0, 0);
    expect("refused", rolvenko_visit(paused, ROLVENKO_PAUSED, division, 25, state, 3, 4), 14, 0, 3);
    holds("the state stays", state[0] == 0 && state[1] == 1 && state[2] == 1);
    expect("the next row", rolvenko_visit(paused, ROLVENKO_PAUSED, division, 25, state, 3, 4), UNFINISHED, 0, 4);
    state[1] = 3;
    expect("a state that another wrote", rolvenko_visit(paused, ROLVENKO_PAUSED, division, 25, state, 3, 4), 24, 0, 4);
    expect("asked again", rolvenko_visit(paused, ROLVENKO_PAUSED, division, 25, state, 3, 4), 24, 0, 0);
    state[1] = 1;
    expect("its own state", rolvenko_visit(paused, ROLVENKO_PAUSED, division, 25, state, 3, 4), 0, 0, 0);
    holds("2, _a + 1 and 6 / 2", state[0] == 2 && state[1] == 2 && state[2] == 3);
    expect("idle", rolvenko_visit(paused, ROLVENKO_PAUSED, division, 25, state, 3, 4), IDLE, 0, 0);
}

/* Memory shorter than the table says: the last set gets what is left, and answers as far as there is room. */
static void cut(void) {
    static const size_t sets[6] = {L1, 0, 5, L2, 1, 5};
    memset(paused, 0, sizeof paused);
    memset(answers, 7, sizeof answers);
    states[0] = 0;
    expect("post", rolvenko_post(paused, ROLVENKO_PAUSED, IMAGES + L2, L1, none, 0), 0, 0, 0);
    expect("post", rolvenko_post(paused + ROLVENKO_PAUSED, ROLVENKO_PAUSED, IMAGES, L2, none, 0), 0, 0, 0);
    expect("a round", rolvenko_round(paused, 2 * ROLVENKO_PAUSED, IMAGES + L2, L1 + L2 - 1, states, 1, sets, 6, answers, 1), 0, 0, 0);
    expect("the whole set", answers[0], 0, 0, 0);
    holds("no room for the second answer", answers[1] == UINT64_C(0x0707070707070707));
    expect("the cut image was refused", rolvenko_visit(paused + ROLVENKO_PAUSED, ROLVENKO_PAUSED, IMAGES, L2, states, 1, 5), IDLE, 0, 0);
    expect("half a memory", rolvenko_round(paused, 2 * ROLVENKO_PAUSED - 1, IMAGES + L2, L1 + L2, states, 1, sets, 6, answers, 2), 0, 0, 0);
    expect("is idle", answers[1], IDLE, 0, 0);
    expect("nothing at all", rolvenko_round(NULL, 0, NULL, 0, NULL, 0, sets, 6, answers, 2), 0, 0, 0);
    holds("is idle", rolvenko_is_idle(answers[0]) && rolvenko_is_idle(answers[1]));
}

int main(void) {
    three_sets();
    limits();
    visits();
    exact();
    refused();
    cut();
    printf("rounds: %d failures\n", failures);
    return failures != 0;
}
