#include "instalments.h"
#include "memory.h"
#include "rolvenko.h"
#include "services.h"

#include <stdlib.h>
#include <string.h>

enum { PAUSED = ROLVENKO_PAUSED, SERVICE = 6 };

static struct region paused_pages, image_pages, cells_pages, state_pages;
static enum side side;

static void promise(int fact) {
    if (!fact)
        abort();
}

void instalments_begin(void) {
    paused_pages = region((PAUSED + 1) * sizeof(int32_t), WRITABLE);
    image_pages = region(IMAGE_MOST, READ_ONLY);
    cells_pages = region(CELLS_MOST * sizeof(int32_t), READ_ONLY);
    state_pages = region(CELLS_MOST * sizeof(int32_t), WRITABLE);
}

void instalments_side(int at_end) { side = at_end ? AT_END : AT_START; }

/* What is lent to a call: numbers are a row, or a state. */
struct call {
    enum { POST, BEGIN, ADVANCE, FINISH } kind;
    const uint8_t *image;
    size_t length;
    int32_t numbers[CELLS_MOST];
    size_t count;
    size_t steps;
};

static struct part lend(struct region pages, const void *contents, size_t bytes) {
    struct part p = part(pages, bytes, side);
    if (bytes > 0)
        memcpy(p.own, contents, bytes);
    return p;
}

static uint64_t answered(const struct call *c, int32_t *paused, size_t cells, const uint8_t *image, const int32_t *read, int32_t *written) {
    switch (c->kind) {
    case POST:
        return rolvenko_post(paused, cells, image, c->length, read, c->count);
    case BEGIN:
        return rolvenko_begin(paused, cells, image, c->length, read, c->count);
    case ADVANCE:
        return rolvenko_advance(paused, cells, image, c->length, c->steps);
    default:
        return rolvenko_finish(paused, cells, written, c->count);
    }
}

/* Whether the answer leaves the paused memory as it was. A memory that these calls did not leave may hold 24 as the number of a refused
 * scan; at the end of the code (2) it is the finish's own. */
static int moves_nothing(const struct call *c, struct parts p, int32_t phase) {
    if (p.number == ROLVENKO_IDLE || p.number == ROLVENKO_UNFINISHED || (p.number == 24 && phase == 2))
        return 1;
    return (c->kind == POST && p.number != 0) || (c->kind == ADVANCE && p.count == 0);
}

/* One call; a finish leaves its state in `c`. */
static struct parts call(struct call *c, int32_t *paused, size_t cells) {
    size_t bytes = c->count * sizeof *c->numbers, all = cells * sizeof *paused;
    struct part lent = lend(image_pages, c->image, c->length), memory = lend(paused_pages, paused, all);
    struct part read = lend(cells_pages, c->numbers, bytes), written = lend(state_pages, c->numbers, bytes);
    uint64_t answer = answered(c, (int32_t *)memory.lent, cells, lent.lent, (const int32_t *)read.lent, (int32_t *)written.lent);
    part_intact(lent);
    part_intact(memory);
    part_intact(read);
    part_intact(written);
    struct parts p = {rolvenko_number(answer), rolvenko_place(answer), rolvenko_count(answer)};
    promise(answer == ((uint64_t)p.number << 56 | (uint64_t)p.place << 24 | p.count));
    promise(p.number <= 30 || p.number == ROLVENKO_IDLE || p.number == ROLVENKO_UNFINISHED);
    promise(p.place <= c->length || p.place == 0);
    promise(p.count <= 65536 && (c->kind != ADVANCE || p.number != 0 || p.count <= c->steps));
    if (moves_nothing(c, p, paused[0]) || cells != PAUSED)
        promise(all == 0 || memcmp(memory.own, paused, all) == 0);
    if (c->kind != FINISH || p.number != 0)
        promise(bytes == 0 || memcmp(written.own, c->numbers, bytes) == 0);
    if (bytes > 0)
        memcpy(c->numbers, written.own, bytes);
    if (all > 0)
        memcpy(paused, memory.own, all);
    struct parts shown = {p.number < 30 ? p.number : p.number % 32, p.place, p.count};
    feature(SERVICE + (unsigned)c->kind, shown, c->image, c->length);
    return p;
}

static struct parts only(unsigned number) { return (struct parts){number, 0, 0}; }

static struct parts expect_begin(struct expected *e, const struct call *c) {
    if (e->runs)
        return only(ROLVENKO_UNFINISHED);
    if (!e->waits)
        return only(ROLVENKO_IDLE);
    e->waits = 0;
    e->size = c->count;
    memcpy(e->start, c->numbers, sizeof e->start);
    memcpy(e->end, c->numbers, sizeof e->end);
    e->whole = scan(c->image, c->length, e->end, c->count, e->row, e->inputs);
    if (e->whole.number != 0 && e->whole.count == 0)
        return e->whole;
    e->runs = 1;
    e->done = 0;
    return only(0);
}

static struct parts expect_finish(struct expected *e, struct call *c) {
    if (!e->runs)
        return only(ROLVENKO_IDLE);
    if (e->done < e->whole.count)
        return only(ROLVENKO_UNFINISHED);
    if (e->whole.number == 0) {
        if (c->count != e->size || memcmp(c->numbers, e->start, e->size * sizeof *e->start) != 0)
            return only(24);
        memcpy(c->numbers, e->end, e->size * sizeof *e->end);
    }
    e->runs = 0;
    return e->whole;
}

static struct parts expect(struct expected *e, struct call *c) {
    struct parts p = only(0);
    switch (c->kind) {
    case POST:
        p = check(c->image, c->length);
        if (p.number == 0 && c->count != row_len(c->image, c->length))
            p.number = 12;
        if (p.number != 0)
            return p;
        e->waits = 1;
        e->inputs = c->count;
        memcpy(e->row, c->numbers, sizeof e->row);
        return p;
    case BEGIN:
        return expect_begin(e, c);
    case ADVANCE:
        if (!e->runs)
            return only(ROLVENKO_IDLE);
        p.count = e->whole.count - e->done;
        if (c->steps < p.count)
            p.count = (uint32_t)c->steps;
        e->done += p.count;
        return p;
    default:
        return expect_finish(e, c);
    }
}

struct parts expect_post(struct expected *e, const uint8_t *image, size_t length, const int32_t *row, size_t inputs) {
    struct call c = {.kind = POST, .image = image, .length = length, .count = inputs};
    memcpy(c.numbers, row, inputs * sizeof *row);
    return expect(e, &c);
}

struct parts expect_visit(struct expected *e, const uint8_t *image, size_t length, int32_t *state, size_t size, size_t share) {
    struct call c = {.kind = BEGIN, .image = image, .length = length, .count = size, .steps = share};
    memcpy(c.numbers, state, CELLS_MOST * sizeof *state);
    struct parts p = expect(e, &c);
    if (p.number != 0 && p.number != ROLVENKO_UNFINISHED)
        return p;
    c.kind = ADVANCE;
    uint32_t steps = expect(e, &c).count;
    c.kind = FINISH;
    p = expect(e, &c);
    memcpy(state, c.numbers, CELLS_MOST * sizeof *state);
    p.count = steps;
    return p;
}

static size_t steps_of(uint8_t byte) { return byte < 250 ? byte : byte < 253 ? (size_t)65533 + (byte - 250) * 2 : SIZE_MAX - (255 - byte); }

/* The next call: a byte says which, one more how many steps or what changes; numbers follow as signed bytes. */
static struct call next(const uint8_t **at, const uint8_t *end, const uint8_t *image, size_t length, const int32_t *kept, size_t size) {
    uint8_t which = *(*at)++, more = *at < end ? *(*at)++ : 0;
    struct call c = {.kind = which % 4, .image = image, .length = length};
    c.steps = steps_of(more);
    if (c.kind == POST) {
        c.count = row_len(image, length);
        for (size_t i = 0; i < c.count && *at < end; i++)
            c.numbers[i] = (int8_t)*(*at)++;
    } else if (c.kind != ADVANCE) {
        c.count = size;
        memcpy(c.numbers, kept, CELLS_MOST * sizeof *kept);
        if (more % 8 == 7)
            c.numbers[more / 8 % (size > 0 ? size : 1)] ^= 1;
    }
    if (which / 16 == 15 && c.kind != ADVANCE)
        c.count += 1;
    if (which / 16 == 14 && c.kind != FINISH && c.kind != ADVANCE)
        c.length -= 1;
    return c;
}

void call_list(const uint8_t *image, size_t length, const uint8_t *at, const uint8_t *end) {
    static int32_t paused[PAUSED];
    int32_t kept[CELLS_MOST] = {0};
    size_t size = state_len(image, length);
    struct expected e = {0};
    memset(paused, 0, sizeof paused);
    promise(start(image, length, kept, size).number == 0);
    for (int calls = 0; calls < 60 && at < end; calls++) {
        struct call c = next(&at, end, image, length, kept, size), wanted = c;
        struct parts p = call(&c, paused, PAUSED), w = expect(&e, &wanted);
        promise(p.number == w.number && p.place == w.place && p.count == w.count);
        promise(memcmp(c.numbers, wanted.numbers, sizeof c.numbers) == 0);
        if (c.kind == FINISH && p.number == 0)
            memcpy(kept, c.numbers, sizeof kept);
    }
}

void any_memory(const uint8_t *image, size_t length, const uint8_t *at, const uint8_t *end) {
    static int32_t paused[PAUSED + 1];
    static const size_t lengths[] = {PAUSED, PAUSED, PAUSED, PAUSED, PAUSED, PAUSED - 1, PAUSED + 1, 0};
    memset(paused, 0, sizeof paused);
    if (end - at < 2)
        return;
    size_t cells = lengths[at[0] % 8], calls = at[1] % 8;
    at += 2;
    struct call list[8] = {0};
    for (size_t i = 0; i < calls && end - at >= 4; i++, at += 4) {
        list[i] = (struct call){.kind = at[0] % 4, .image = image, .length = length, .count = at[1] % CELLS_MOST, .steps = steps_of(at[2])};
        memset(list[i].numbers, at[3], sizeof list[i].numbers);
    }
    size_t bytes = (size_t)(end - at) < PAUSED * sizeof *paused ? (size_t)(end - at) : PAUSED * sizeof *paused;
    memcpy(paused, at, bytes);
    for (size_t i = 0; i < calls; i++)
        call(&list[i], paused, cells);
}
