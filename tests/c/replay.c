/* rolvenko_replay: every kind of answer, the memory left, and the same rows by rolvenko_scan. */
#include "expect.h"

enum { ROWS = 6, CELLS = 8 };

/* What is lent for writing; every byte is compared. */
struct memory {
    uint8_t image[32];
    int32_t state[3];
    uint8_t numbers[ROWS + 1];
    size_t steps[ROWS + 1];
    int32_t trace[2 * ROWS + 2];
};

static const char TEXT[] = "input i 0..1; var v 0..2 init 1; v: GX(v = (_v + i));";
static const uint8_t IMAGE[15] = {1, 1, 0, 2, 0, 0, 4, 2, 3, 1, 2, 0, 4, 21, 1};

/* Rows 1; 2 (13); 0 0 (12); 1 (17); 0; and one for which no cells are left (12). */
static const int32_t ROW_CELLS[CELLS] = {1, 2, 0, 0, 1, 0, 0, 0};
static const size_t LENGTHS[ROWS] = {1, 1, 2, 1, 3, 1};

static uint64_t replay(const char *text, size_t room, size_t names, size_t records, size_t trace, struct memory *m) {
    return rolvenko_replay((const uint8_t *)text, strlen(text), m->image, room, m->state, names, ROW_CELLS, 6, LENGTHS, ROWS, m->numbers,
                           records, m->steps, records, m->trace, trace);
}

/* The rows one by one, on an image and a state of their own. */
static void one_by_one(struct memory *m, size_t records, size_t trace) {
    size_t cell = 0, place = 2;
    memcpy(m->image, IMAGE, sizeof IMAGE);
    expect("start", rolvenko_start(IMAGE, sizeof IMAGE, m->state, 2), 0, 0, 0);
    memcpy(m->trace, m->state, (trace < 2 ? trace : 2) * sizeof *m->trace);
    for (size_t k = 0; k < ROWS; k++) {
        size_t cells = LENGTHS[k] < 6 - cell ? LENGTHS[k] : 6 - cell;
        uint64_t answer = rolvenko_scan(IMAGE, sizeof IMAGE, m->state, 2, ROW_CELLS + cell, cells);
        cell += cells;
        if (k < records) {
            m->numbers[k] = (uint8_t)rolvenko_number(answer);
            m->steps[k] = rolvenko_count(answer);
        }
        for (size_t i = 0; rolvenko_number(answer) == 0 && i < 2; i++, place++)
            if (place < trace)
                m->trace[place] = m->state[i];
    }
}

static void replays(size_t records, size_t trace) {
    struct memory found, wanted;
    memset(&found, 0xA5, sizeof found);
    memset(&wanted, 0xA5, sizeof wanted);
    expect("replay", replay(TEXT, sizeof found.image, 2, records, trace, &found), 0, 0, sizeof IMAGE);
    one_by_one(&wanted, records, trace);
    same("a replay", &found, &wanted, sizeof found);
}

static void refusals(void) {
    struct memory found, filled;
    memset(&found, 0xA5, sizeof found);
    memset(&filled, 0xA5, sizeof filled);
    expect("faulty text", replay("var $", 32, 2, ROWS, 14, &found), 1, 4, 0);
    expect("no room", replay(TEXT, 14, 2, ROWS, 14, &found), 10, sizeof TEXT - 1, 0);
    same("a refused text", &found, &filled, sizeof found);
    expect("state too long", replay(TEXT, 32, 3, ROWS, 14, &found), 12, 0, 0);
    memcpy(filled.image, IMAGE, sizeof IMAGE);
    same("a refused start", &found, &filled, sizeof found);
}

/* No names and no rows; nothing lent but the text's image. */
static void empty(void) {
    uint8_t image[2] = {9, 9};
    const uint8_t none[2] = {0, 0};
    expect("nothing", rolvenko_replay(image, 0, image, 2, NULL, 0, NULL, 0, NULL, 0, NULL, 0, NULL, 0, NULL, 0), 0, 0, 2);
    same("an empty text's image", image, none, 2);
}

int main(void) {
    for (size_t records = 0; records <= ROWS + 1; records++)
        for (size_t trace = 0; trace <= 14; trace++)
            replays(records, trace);
    refusals();
    empty();
    printf("%d failures\n", failures);
    return failures != 0;
}
