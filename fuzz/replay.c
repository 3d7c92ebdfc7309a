#include "replay.h"
#include "memory.h"
#include "rolvenko.h"

#include <stdlib.h>
#include <string.h>

enum { TRACE_MOST = (ROWS_MOST + 1) * CELLS_MOST };

static struct region text_pages, image_pages, state_pages, cell_pages, length_pages, number_pages, step_pages, trace_pages;

static void promise(int fact) {
    if (!fact)
        abort();
}

/* Memory to lend; mapped at the first call. */
static void begin(void) {
    if (text_pages.own)
        return;
    text_pages = region(TEXT_MOST, READ_ONLY);
    image_pages = region(IMAGE_MOST, WRITABLE);
    state_pages = region(CELLS_MOST * sizeof(int32_t), WRITABLE);
    cell_pages = region(ROWS_MOST * CELLS_MOST * sizeof(int32_t), READ_ONLY);
    length_pages = region(ROWS_MOST * sizeof(size_t), READ_ONLY);
    number_pages = region(ROWS_MOST, WRITABLE);
    step_pages = region(ROWS_MOST * sizeof(size_t), WRITABLE);
    trace_pages = region(TRACE_MOST * sizeof(int32_t), WRITABLE);
}

static struct part lend(struct region pages, const void *contents, size_t bytes) {
    struct part p = part(pages, bytes, AT_END);
    if (contents == NULL)
        memset(p.own, 0xA5, bytes);
    else if (bytes > 0)
        memcpy(p.own, contents, bytes);
    return p;
}

/* What rows one by one leave: of each its number and steps, and the trace. */
struct records {
    uint8_t numbers[ROWS_MOST];
    size_t steps[ROWS_MOST];
    int32_t trace[TRACE_MOST], state[CELLS_MOST];
    size_t places;
};

static void one_by_one(const uint8_t *image, size_t length, size_t size, struct rows rows, struct records *r) {
    size_t cell = 0;
    promise(start(image, length, r->state, size).number == 0);
    memcpy(r->trace, r->state, size * sizeof *r->trace);
    r->places = size;
    for (size_t k = 0; k < rows.count; k++) {
        struct parts p = scan(image, length, r->state, size, rows.cells + cell, rows.lengths[k]);
        cell += rows.lengths[k];
        r->numbers[k] = (uint8_t)p.number;
        r->steps[k] = p.count;
        if (p.number == 0) {
            memcpy(r->trace + r->places, r->state, size * sizeof *r->trace);
            r->places += size;
        }
    }
}

void replay(const uint8_t *text, size_t length, const uint8_t *image, size_t image_len, struct rows rows, size_t room) {
    static struct records wanted;
    size_t size = state_len(image, image_len), cells = 0;
    begin();
    for (size_t k = 0; k < rows.count; k++)
        cells += rows.lengths[k];
    memset(&wanted, 0xA5, sizeof wanted);
    one_by_one(image, image_len, size, rows, &wanted);
    struct part lent = lend(text_pages, text, length), buffer = lend(image_pages, NULL, image_len);
    struct part state = lend(state_pages, NULL, size * sizeof(int32_t)), numbers = lend(number_pages, NULL, rows.count);
    struct part line = lend(cell_pages, rows.cells, cells * sizeof(int32_t));
    struct part lengths = lend(length_pages, rows.lengths, rows.count * sizeof(size_t));
    struct part steps = lend(step_pages, NULL, rows.count * sizeof(size_t));
    struct part trace = lend(trace_pages, NULL, room * sizeof(int32_t));
    uint64_t answer = rolvenko_replay(lent.lent, length, buffer.lent, image_len, (int32_t *)state.lent, size, (const int32_t *)line.lent,
                                      cells, (const size_t *)lengths.lent, rows.count, numbers.lent, rows.count, (size_t *)steps.lent,
                                      rows.count, (int32_t *)trace.lent, room);
    struct part all[] = {lent, buffer, state, numbers, line, lengths, steps, trace};
    for (size_t i = 0; i < sizeof all / sizeof *all; i++)
        part_intact(all[i]);
    promise(answer == image_len && memcmp(buffer.own, image, image_len) == 0);
    promise(size == 0 || memcmp(state.own, wanted.state, size * sizeof(int32_t)) == 0);
    promise(rows.count == 0 || memcmp(numbers.own, wanted.numbers, rows.count) == 0);
    promise(rows.count == 0 || memcmp(steps.own, wanted.steps, rows.count * sizeof(size_t)) == 0);
    promise(room == 0 || memcmp(trace.own, wanted.trace, room * sizeof(int32_t)) == 0);
}
