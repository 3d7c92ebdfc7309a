#include "services.h"
#include "memory.h"
#include "rolvenko.h"

#include <stdlib.h>
#include <string.h>

#define PROMISE(fact)      \
    do {                   \
        if (!(fact))       \
            abort();       \
    } while (0)

static struct region text_pages, image_pages, room_pages, state_pages, row_pages, table_pages, trace_pages, pair_pages;
static enum side side;

enum { FEATURES = 65536 };
__attribute__((section("__libfuzzer_extra_counters"))) static uint8_t features[FEATURES];

void services_begin(void) {
    text_pages = region(TEXT_MOST, READ_ONLY);
    image_pages = region(IMAGE_MOST, READ_ONLY);
    room_pages = region(IMAGE_MOST, WRITABLE);
    state_pages = region(CELLS_MOST * sizeof(int32_t), WRITABLE);
    row_pages = region(CELLS_MOST * sizeof(int32_t), READ_ONLY);
    table_pages = region(CELLS_MOST * sizeof(int64_t), READ_ONLY);
    trace_pages = region(CELLS_MOST * sizeof(int32_t), READ_ONLY);
    pair_pages = region(CELLS_MOST * sizeof(int32_t), WRITABLE);
}

void services_side(int at_end) { side = at_end ? AT_END : AT_START; }

void feature(unsigned service, struct parts answer, const uint8_t *bytes, size_t length) {
    unsigned at = answer.place < length ? bytes[answer.place] : 256;
    unsigned steps = 0;
    for (uint32_t count = answer.count; count > 0; count /= 2)
        steps++;
    unsigned known = ((service * 32 + answer.number) * 257 + at) * 32 + steps;
    features[known * 2654435761u >> 16] = 1;
}

/* The answer in its parts; they make up the whole. */
static struct parts parts(uint64_t answer) {
    struct parts p = {rolvenko_number(answer), rolvenko_place(answer), rolvenko_count(answer)};
    PROMISE(answer == ((uint64_t)p.number << 56 | (uint64_t)p.place << 24 | p.count));
    return p;
}

static struct part lend(struct region pages, const void *contents, size_t bytes) {
    struct part p = part(pages, bytes, side);
    if (bytes > 0)
        memcpy(p.own, contents, bytes);
    return p;
}

/* How many instructions 23 the code of a sound image has. */
static size_t timers_in(const uint8_t *image, size_t length) {
    size_t at = 2, timers = 0;
    for (size_t numbers = 3 * ((size_t)image[0] + image[1]); numbers > 0; at++)
        numbers -= image[at] < 128;
    while (at < length) {
        uint8_t code = image[at++];
        int operands = code == 23 ? 3 : code <= 3 || (code >= 20 && code <= 25);
        timers += code == 23;
        for (; operands > 0; at++)
            operands -= image[at] < 128;
    }
    return timers;
}

size_t state_len(const uint8_t *image, size_t length) { return (size_t)image[0] + image[1] + timers_in(image, length); }

size_t row_len(const uint8_t *image, size_t length) { return image[0] + (size_t)(timers_in(image, length) > 0); }

static int equal(const void *a, const void *b, size_t bytes) { return bytes == 0 || memcmp(a, b, bytes) == 0; }

static int filled(const uint8_t *at, uint8_t with, size_t bytes) {
    return bytes == 0 || (at[0] == with && memcmp(at, at + 1, bytes - 1) == 0);
}

static void translation_promises(struct parts p, size_t length, size_t room) {
    PROMISE(p.number <= 10 || p.number == 23 || p.number == 30);
    PROMISE((p.number == 9) == (length > ROLVENKO_TEXT_LIMIT));
    if (p.number == 0) {
        PROMISE(p.place == 0 && p.count >= 2 && p.count <= room);
        PROMISE(p.count <= ROLVENKO_IMAGE_ROOM && 2 * p.count <= 3 * length + 4);
    } else {
        PROMISE(p.count == 0 && p.place <= length);
        PROMISE(p.number != 9 || p.place == 0);
        PROMISE(p.number != 10 || p.place == length);
    }
}

struct parts translate(const uint8_t *text, size_t length, size_t room, uint8_t *image) {
    struct part lent = lend(text_pages, text, length);
    struct part buffer = part(room_pages, room, side);
    uint8_t fill = (uint8_t)(length * 7 + room);
    memset(buffer.own, fill, room);
    struct parts p = parts(rolvenko_translate(lent.lent, length, buffer.lent, room));
    part_intact(lent);
    part_intact(buffer);
    PROMISE(equal(lent.own, text, length));
    translation_promises(p, length, room);
    PROMISE(filled(buffer.own + p.count, fill, room - p.count));
    if (p.number == 0)
        memcpy(image, buffer.own, p.count);
    feature(0, p, text, length);
    return p;
}

struct parts check(const uint8_t *image, size_t length) {
    struct part lent = lend(image_pages, image, length);
    struct parts p = parts(rolvenko_check(lent.lent, length));
    part_intact(lent);
    PROMISE(equal(lent.own, image, length));
    PROMISE(p.number == 0 || p.number == 9 || p.number == 11);
    PROMISE(p.count == 0 && p.place <= length);
    PROMISE((p.number == 9) == (length > ROLVENKO_IMAGE_LIMIT));
    PROMISE(p.number == 11 || p.place == 0);
    feature(1, p, image, length);
    return p;
}

/* Whether start or scan may answer p where check answers c. */
static void check_comes_first(struct parts c, struct parts p) {
    if (c.number != 0)
        PROMISE(p.number == c.number && p.place == c.place && p.count == 0);
    else
        PROMISE(p.place == 0 && p.number != 9 && p.number != 11);
}

struct parts start(const uint8_t *image, size_t length, int32_t *state, size_t cells) {
    struct parts c = check(image, length);
    struct part lent = lend(image_pages, image, length);
    struct part buffer = lend(state_pages, state, cells * sizeof *state);
    struct parts p = parts(rolvenko_start(lent.lent, length, (int32_t *)buffer.lent, cells));
    part_intact(lent);
    part_intact(buffer);
    PROMISE(equal(lent.own, image, length));
    check_comes_first(c, p);
    PROMISE(p.count == 0);
    if (c.number == 0)
        PROMISE(p.number == (state_len(image, length) == cells ? 0 : 12));
    if (p.number != 0)
        PROMISE(equal(buffer.own, state, cells * sizeof *state));
    else if (cells > 0)
        memcpy(state, buffer.own, cells * sizeof *state);
    feature(2, p, image, length);
    return p;
}

/* The refusals of the rules at work. */
static int at_work(unsigned number) {
    return (number >= 14 && number <= 17) || number == 22;
}

static void scan_promises(struct parts p, const uint8_t *image, size_t length, size_t cells, size_t inputs) {
    int lengths = state_len(image, length) == cells && row_len(image, length) == inputs;
    PROMISE((p.number == 12) == !lengths);
    PROMISE(p.number == 0 || p.number == 12 || p.number == 13 || p.number == 18 || at_work(p.number));
    PROMISE(p.count == 0 || p.number == 0 || at_work(p.number));
    PROMISE(p.count > 0 || p.number == 0 || p.number == 12 || p.number == 13 || p.number == 18);
}

struct parts scan(const uint8_t *image, size_t length, int32_t *state, size_t cells, const int32_t *row, size_t inputs) {
    struct parts c = check(image, length);
    struct part lent = lend(image_pages, image, length);
    struct part buffer = lend(state_pages, state, cells * sizeof *state);
    struct part line = lend(row_pages, row, inputs * sizeof *row);
    struct parts p =
        parts(rolvenko_scan(lent.lent, length, (int32_t *)buffer.lent, cells, (const int32_t *)line.lent, inputs));
    part_intact(lent);
    part_intact(buffer);
    part_intact(line);
    PROMISE(equal(lent.own, image, length) && equal(line.own, row, inputs * sizeof *row));
    check_comes_first(c, p);
    if (c.number == 0)
        scan_promises(p, image, length, cells, inputs);
    if (p.number != 0)
        PROMISE(equal(buffer.own, state, cells * sizeof *state));
    else if (cells > 0)
        memcpy(state, buffer.own, cells * sizeof *state);
    if (p.number == 0)
        PROMISE(equal(state, row, image[0] * sizeof *row)); /* the row's inputs are the state's */
    feature(3, p, image, length);
    return p;
}

static int table_within(const int64_t *table, size_t numbers) {
    if (numbers % 2 != 0 || numbers < 2 || numbers > 64)
        return 0;
    for (size_t i = 0; i < numbers; i += 2)
        if (table[i] < (i > 0 ? table[i - 2] + 1 : 0) || table[i] > INT32_MAX || table[i + 1] < -720 || table[i + 1] > 840)
            return 0;
    return 1;
}

/* A text that translate refuses is refused the same, with its answer t; else the table, the UTC minute and the length are tested. */
static void clock_promises(struct parts t, struct parts p, int within, int64_t utc, int length) {
    if (t.number == 0)
        t.number = !within ? 19 : utc < 0 || utc > INT32_MAX ? 20 : !length ? 12 : 0;
    PROMISE(p.number == t.number && p.place == t.place && p.count == 0);
}

/* At most three values have changed, each to the day, the minute, 0 or 1. */
static void hour_promises(const int64_t *table, size_t numbers, int64_t utc, const int32_t *found, const int32_t *left, size_t cells) {
    int64_t offset = table[1];
    for (size_t i = 0; i < numbers && table[i] <= utc; i += 2)
        offset = table[i + 1];
    int64_t minute = (utc + offset + 1440) % 1440, day = (utc + offset - minute) / 1440;
    int changed = 0;
    for (size_t i = 0; i < cells; i++)
        if (left[i] != found[i]) {
            PROMISE(left[i] == day || left[i] == minute || left[i] == 0 || left[i] == 1);
            changed++;
        }
    PROMISE(changed <= 3);
}

struct parts local_hour(const uint8_t *text, size_t length, const int64_t *table, size_t numbers, int64_t utc, int32_t *row, size_t cells) {
    static uint8_t image[IMAGE_MOST];
    struct parts t = translate(text, length, ROLVENKO_IMAGE_ROOM, image);
    struct part lent = lend(text_pages, text, length);
    struct part farm = lend(table_pages, table, numbers * sizeof *table);
    struct part line = lend(state_pages, row, cells * sizeof *row);
    struct parts p =
        parts(rolvenko_clock(lent.lent, length, (const int64_t *)farm.lent, numbers, utc, (int32_t *)line.lent, cells));
    part_intact(lent);
    part_intact(farm);
    part_intact(line);
    PROMISE(equal(lent.own, text, length) && equal(farm.own, table, numbers * sizeof *table));
    clock_promises(t, p, table_within(table, numbers), utc, t.number != 0 || cells == row_len(image, t.count));
    if (p.number != 0)
        PROMISE(equal(line.own, row, cells * sizeof *row));
    else
        hour_promises(table, numbers, utc, row, (const int32_t *)line.own, cells);
    if (cells > 0)
        memcpy(row, line.own, cells * sizeof *row);
    feature(4, p, text, length);
    return p;
}

/* Whether a name's low is negative: then its written number is odd. A number of the header ends at a byte below 128. */
static int low_negative(const uint8_t *image, size_t id) {
    size_t at = 2;
    for (size_t numbers = 3 * id; numbers > 0; at++)
        numbers -= image[at] < 128;
    return image[at] % 2 == 1;
}

static int outside(int32_t number, int32_t most) { return number < 0 || number > most; }

/* 28 but for rows and start: the variable and what does not stand in the trace. */
static int price_refused(const uint8_t *image, struct bill b) {
    return b.id < image[0] || b.id >= (size_t)image[0] + image[1] || low_negative(image, b.id) || b.threshold < 0 ||
           outside(b.rate, 1000000) || outside(b.rate_above, 1000000);
}

/* The answer to a bill for a sound image. */
static uint64_t charge_wanted(const uint8_t *image, size_t length, struct bill b) {
    const uint64_t refused = UINT64_C(28) << 56;
    size_t size = state_len(image, length);
    if (size == 0 ? b.trace_len > 0 : b.trace_len < size || b.trace_len % size > 0)
        return UINT64_C(12) << 56;
    if (price_refused(image, b) || b.minutes_len != b.trace_len / size - 1 || b.trace[b.id] < 0)
        return refused;
    unsigned __int128 sum = 0;
    for (size_t row = 0; row < b.minutes_len; row++) {
        int64_t held = b.trace[(row + 1) * size + b.id], up_to = held < b.threshold ? held : b.threshold;
        if (held < 0 || outside(b.minutes[row], 1440))
            return refused;
        sum += (unsigned __int128)b.minutes[row] * (uint64_t)(up_to * b.rate + (held - up_to) * b.rate_above);
    }
    return sum / 60 > UINT64_C(9007199254740991) ? UINT64_C(29) << 56 : (uint64_t)sum;
}

uint64_t charge(const uint8_t *image, size_t length, struct bill b) {
    struct parts c = check(image, length);
    struct part lent = lend(image_pages, image, length);
    struct part states = lend(trace_pages, b.trace, b.trace_len * sizeof *b.trace);
    struct part lasts = lend(row_pages, b.minutes, b.minutes_len * sizeof *b.minutes);
    uint64_t answer = rolvenko_charge(lent.lent, length, b.id, (const int32_t *)states.lent, b.trace_len, (const int32_t *)lasts.lent,
                                      b.minutes_len, b.threshold, b.rate, b.rate_above);
    part_intact(lent);
    part_intact(states);
    part_intact(lasts);
    PROMISE(equal(lent.own, image, length) && equal(states.own, b.trace, b.trace_len * sizeof *b.trace));
    PROMISE(equal(lasts.own, b.minutes, b.minutes_len * sizeof *b.minutes));
    if (c.number != 0)
        PROMISE(answer == ((uint64_t)c.number << 56 | (uint64_t)c.place << 24));
    else
        PROMISE(answer == charge_wanted(image, length, b));
    feature(5, parts(answer), image, length);
    return answer;
}

/* The header's next signed number: groups of seven bits, lowest first; even ones are 0 and above. */
static int64_t header_number(const uint8_t *image, size_t *at) {
    uint64_t value = 0;
    for (int shift = 0;; shift += 7) {
        uint8_t group = image[(*at)++];
        value |= (uint64_t)(group % 128) << shift;
        if (group < 128)
            return value % 2 ? -(int64_t)(value / 2) - 1 : (int64_t)(value / 2);
    }
}

uint32_t scans_in(const uint8_t *image, size_t length) {
    uint64_t scans = timers_in(image, length) > 0 ? ROLVENKO_COMBINATIONS + 1 : 1;
    size_t at = 2;
    for (size_t id = 0; id < (size_t)image[0] + image[1]; id++) {
        int64_t low = header_number(image, &at), high = header_number(image, &at);
        header_number(image, &at);
        for (int times = id < image[0] ? 2 : 1; times > 0 && scans <= ROLVENKO_COMBINATIONS; times--)
            scans *= (uint64_t)(high - low + 1);
    }
    return scans <= ROLVENKO_COMBINATIONS ? (uint32_t)scans : ROLVENKO_COMBINATIONS + 1;
}

struct parts combination(const uint8_t *image, size_t length, uint32_t index, int32_t *state, size_t cells, int32_t *row, size_t inputs) {
    struct parts c = check(image, length);
    struct part lent = lend(image_pages, image, length);
    struct part values = lend(state_pages, state, cells * sizeof *state);
    struct part line = lend(pair_pages, row, inputs * sizeof *row);
    struct parts p =
        parts(rolvenko_combination(lent.lent, length, index, (int32_t *)values.lent, cells, (int32_t *)line.lent, inputs));
    part_intact(lent);
    part_intact(values);
    part_intact(line);
    PROMISE(equal(lent.own, image, length));
    check_comes_first(c, p);
    PROMISE(p.count == 0);
    if (c.number == 0) {
        int lengths = state_len(image, length) == cells && row_len(image, length) == inputs;
        uint32_t scans = scans_in(image, length);
        PROMISE(p.number == (scans > ROLVENKO_COMBINATIONS ? 26 : lengths && index < scans ? 0 : 12));
    }
    if (p.number != 0)
        PROMISE(equal(values.own, state, cells * sizeof *state) && equal(line.own, row, inputs * sizeof *row));
    if (cells > 0)
        memcpy(state, values.own, cells * sizeof *state);
    if (inputs > 0)
        memcpy(row, line.own, inputs * sizeof *row);
    feature(7, p, image, length);
    return p;
}

struct parts closed(const uint8_t *image, size_t length) {
    struct parts c = check(image, length);
    struct part lent = lend(image_pages, image, length);
    struct parts p = parts(rolvenko_closed(lent.lent, length));
    part_intact(lent);
    PROMISE(equal(lent.own, image, length));
    PROMISE(p.count == 0);
    feature(6, p, image, length);
    uint32_t cut = c.number == 0 ? scans_in(image, length) / 2 : 3; /* the whole is the first of its parts that is refused, else the last */
    struct parts part = parts(rolvenko_closed_part(lent.lent, length, 0, cut));
    if (part.number == 0)
        part = parts(rolvenko_closed_part(lent.lent, length, cut, ROLVENKO_COMBINATIONS));
    part_intact(lent);
    PROMISE(part.number == p.number && part.place == p.place && part.count == p.count);
    if (p.number != 27) {
        check_comes_first(c, p);
        PROMISE(c.number != 0 || p.number == (scans_in(image, length) > ROLVENKO_COMBINATIONS ? 26 : 0));
        return p;
    }
    PROMISE(c.number == 0 && p.place < scans_in(image, length) && scans_in(image, length) <= ROLVENKO_COMBINATIONS);
    int32_t state[CELLS_MOST], row[CELLS_MOST];
    size_t cells = (size_t)image[0] + image[1], inputs = image[0];
    PROMISE(combination(image, length, p.place, state, cells, row, inputs).number == 0);
    struct parts refused = scan(image, length, state, cells, row, inputs);
    PROMISE(at_work(refused.number));
    if (p.place > 0) { /* the scan before it was accepted */
        PROMISE(combination(image, length, p.place - 1, state, cells, row, inputs).number == 0);
        PROMISE(scan(image, length, state, cells, row, inputs).number == 0);
    }
    return p;
}
