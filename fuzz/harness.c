/* libFuzzer's entry. The first byte of an input says what the rest is:
 *   T  an input of the trace program: a text, a line `#`, rows of decimals; the text is printed as Structured Text too
 *   M  the same, but what follows `#` are changes of the image: triples of bytes, a place (two) and a value
 *   C  a text, a line `#`, a line of a farm table's numbers, one of a UTC minute, one of a row
 *   L  a text, a line `#`, a line of a variable's id, the threshold and the two rates, one of minutes, one of a trace's numbers
 *   W  a text, a line `#`, a line of a trace's numbers, to be watched
 *   S  a text, a line `#`, then calls of a scan in instalments (instalments.c)
 *   P  a text, a line `#`, then a length, calls, and the memory of a paused scan
 *   R  a text, a line `#`, then events of a controller with several sets of these rules (rounds.c)
 *   Q  a text, a line `#`, then lengths, the table of a round, and the memory of paused scans
 *   A  as T, all rows in one call (replay.c)
 *   I  a count k, k bytes that stand for numbers of states and rows, then an image
 * A byte of lower case does the same with lent memory at the start of its pages and not at their end. */
#include "blocks.h"
#include "instalments.h"
#include "printed.h"
#include "replay.h"
#include "rolvenko.h"
#include "rounds.h"
#include "services.h"
#include "watched.h"

#include <ctype.h>
#include <stdio.h>
#include <stdlib.h>
#include <string.h>

static uint8_t image[IMAGE_MOST], again[IMAGE_MOST];

static void promise(int fact) {
    if (!fact)
        abort();
}

int LLVMFuzzerInitialize(int *argc, char ***argv);
int LLVMFuzzerTestOneInput(const uint8_t *data, size_t size);

int LLVMFuzzerInitialize(int *argc, char ***argv) {
    (void)argc;
    char file[4096];
    snprintf(file, sizeof file, "%s.blocks", (*argv)[0]);
    services_begin();
    instalments_begin();
    printed_begin();
    rounds_begin();
    watched_begin();
    blocks_watch(file);
    return 0;
}

/* The bytes before the line `#` and those after it. */
static size_t before_mark(const uint8_t *data, size_t size, size_t *after) {
    for (size_t i = 0; i + 2 < size; i++)
        if (data[i] == '\n' && data[i + 1] == '#' && data[i + 2] == '\n') {
            *after = i + 3;
            return i + 1;
        }
    *after = size;
    return size;
}

/* The next line of decimals; numbers wrap, other bytes separate. */
static size_t next_line(const uint8_t **at, const uint8_t *end, int64_t *numbers) {
    size_t count = 0;
    while (*at < end && **at != '\n' && count < CELLS_MOST - 1) {
        int negative = **at == '-';
        *at += negative;
        uint64_t value = 0;
        const uint8_t *first = *at;
        while (*at < end && isdigit(**at))
            value = value * 10 + (uint64_t)(*(*at)++ - '0');
        if (*at > first)
            numbers[count++] = (int64_t)(negative ? 0 - value : value);
        else if (*at < end && **at != '\n')
            ++*at;
    }
    if (*at < end)
        ++*at;
    return count;
}

/* The same as a row. */
static size_t next_row(const uint8_t **at, const uint8_t *end, int32_t *row) {
    int64_t numbers[CELLS_MOST];
    size_t inputs = next_line(at, end, numbers);
    for (size_t i = 0; i < inputs; i++)
        row[i] = (int32_t)(uint32_t)numbers[i];
    return inputs;
}

/* A scan, and the same scan again from the same state: all is the same. */
static struct parts scan_twice(size_t length, int32_t *state, size_t cells, const int32_t *row, size_t inputs) {
    int32_t before[CELLS_MOST];
    memcpy(before, state, sizeof before);
    struct parts first = scan(image, length, state, cells, row, inputs);
    struct parts second = scan(image, length, before, cells, row, inputs);
    promise(first.number == second.number && first.count == second.count && memcmp(state, before, sizeof before) == 0);
    return first;
}

/* The closed profile of an image, but for a walk that would take long, and combinations of any numbers; a closed image refuses no
 * combination. */
static void profiled(size_t length) {
    int32_t state[CELLS_MOST] = {3}, row[CELLS_MOST] = {4};
    struct parts c = check(image, length);
    uint32_t scans = c.number == 0 ? scans_in(image, length) : 0;
    size_t cells = c.number == 0 ? state_len(image, length) : 3, inputs = c.number == 0 ? row_len(image, length) : 1;
    uint32_t numbers[] = {scans, scans - 1, (uint32_t)length * 2654435761u % (scans + 1)};
    if (scans <= ROLVENKO_COMBINATIONS && (uint64_t)scans * length > 1 << 18)
        return;
    int is_closed = closed(image, length).number == 0;
    for (int i = 0; i < 3; i++)
        if (combination(image, length, numbers[i], state, cells, row, inputs).number == 0 && is_closed)
            promise(scan(image, length, state, cells, row, inputs).number == 0);
    combination(image, length, 0, state, cells, row, inputs + 1);
}

/* Rows from the starting state of a sound image: never 18, and every accepted scan has the same steps. */
static void scan_rows(size_t length, const uint8_t *at, const uint8_t *end) {
    int32_t state[CELLS_MOST] = {7, -7}, row[CELLS_MOST] = {0};
    size_t cells = state_len(image, length), wanted = row_len(image, length), inputs;
    uint32_t steps = UINT32_MAX;
    promise(start(image, length, state, cells).number == 0);
    promise(start(image, length, state, cells + 1).number == 12);
    for (int rows = 0; rows < 20 && at < end; rows++) {
        inputs = next_row(&at, end, row);
        struct parts p = scan_twice(length, state, cells, row, rows % 4 ? wanted : inputs);
        promise(p.number != 18);
        if (p.number == 0) {
            promise(steps == UINT32_MAX || steps == p.count);
            steps = p.count;
        }
    }
}

/* Every answer of a text does not depend on the room but for 10, and the image not at all. Answers the image's length, or 0. */
static size_t translated(const uint8_t *text, size_t length) {
    size_t enough = length < ROLVENKO_TEXT_LIMIT ? 3 * length / 2 + 2 : ROLVENKO_IMAGE_ROOM;
    struct parts p = translate(text, length, enough, image);
    struct parts none = translate(text, length, 0, again);
    if (p.number != 0) {
        promise(none.number == p.number && none.place == p.place && p.number != 10);
        return 0;
    }
    promise(none.number == 10);
    struct parts exact = translate(text, length, p.count, again);
    promise(exact.number == 0 && exact.count == p.count && memcmp(image, again, p.count) == 0);
    promise(translate(text, length, p.count - 1, again).number == 10);
    promise(check(image, p.count).number == 0);
    promise(check(image, p.count - 1).number == 11);
    return p.count;
}

static void changed_image(size_t length, const uint8_t *at, const uint8_t *end) {
    for (; end - at >= 3; at += 3)
        image[((size_t)at[0] << 8 | at[1]) % length] = at[2];
    profiled(length);
    struct parts c = check(image, length);
    int32_t state[CELLS_MOST] = {0}, row[CELLS_MOST] = {0};
    if (c.number == 0) {
        static const uint8_t rows[] = "1 0\n\n0 1 2\n3\n";
        scan_rows(length, rows, rows + sizeof rows - 1);
        start(image, length, state, state_len(image, length));
        scan_twice(length, state, state_len(image, length), row, row_len(image, length));
    } else {
        start(image, length, state, 3);
        scan_twice(length, state, 3, row, 1);
    }
}

/* States and rows of small and great numbers over any image. */
static void any_image(const uint8_t *data, size_t size) {
    size_t k = size > 0 ? data[0] % CELLS_MOST : 0;
    if (size < 1 + k || size - 1 - k > IMAGE_MOST)
        return;
    int32_t state[CELLS_MOST] = {0}, row[CELLS_MOST] = {0};
    for (size_t i = 0; i < k; i++)
        state[i] = (int32_t)(int8_t)data[1 + i] * (data[1 + i] % 8 == 7 ? 16777216 : 1);
    memcpy(row, state, k * sizeof *row);
    size_t length = size - 1 - k;
    memcpy(image, data + 1 + k, length);
    profiled(length);
    struct parts c = check(image, length);
    size_t cells = c.number == 0 ? state_len(image, length) : k;
    size_t inputs = c.number == 0 ? row_len(image, length) : k / 2;
    scan_twice(length, state, cells, row, inputs);
    if (start(image, length, state, cells).number == 0)
        for (int rows = 0; rows < 4; rows++)
            promise(scan_twice(length, state, cells, row + rows, inputs).number != 18);
}

/* A row filled, as long as it stands there and as the text wants it; filled again it stays. */
static void filled_rows(const uint8_t *text, size_t length, const uint8_t *at, const uint8_t *end) {
    int64_t table[CELLS_MOST], utc[CELLS_MOST] = {0};
    int32_t row[CELLS_MOST] = {0}, before[CELLS_MOST];
    size_t numbers = next_line(&at, end, table);
    next_line(&at, end, utc);
    size_t cells = next_row(&at, end, row);
    local_hour(text, length, table, numbers, utc[0], row, cells);
    size_t image_len = translated(text, length);
    if (image_len > 0)
        local_hour(text, length, table, numbers, utc[0], row, row_len(image, image_len));
    memcpy(before, row, sizeof row);
    local_hour(text, length, table, numbers, utc[0], row, cells);
    promise(memcmp(before, row, sizeof row) == 0);
}

/* A charge of what stands there, and of its whole states with minutes for each row; the same again gives the same. */
static void charged(const uint8_t *text, size_t length, const uint8_t *at, const uint8_t *end) {
    int64_t prices[CELLS_MOST] = {0};
    int32_t minutes[CELLS_MOST] = {0}, trace[CELLS_MOST] = {0};
    size_t image_len = translated(text, length);
    if (image_len == 0)
        return;
    next_line(&at, end, prices);
    struct bill bill = {(size_t)prices[0], trace, 0, minutes, 0, (int32_t)prices[1], (int32_t)prices[2], (int32_t)prices[3]};
    bill.minutes_len = next_row(&at, end, minutes);
    bill.trace_len = next_row(&at, end, trace);
    uint64_t answer = charge(image, image_len, bill);
    promise(charge(image, image_len, bill) == answer);
    size_t size = state_len(image, image_len), states = size > 0 ? bill.trace_len / size : 0;
    if (states == 0)
        return;
    bill.trace_len = states * size;
    bill.minutes_len = states - 1;
    charge(image, image_len, bill);
}

/* The rows in one call, with room for the whole trace, and with the bytes' count as room. */
static void replayed(const uint8_t *text, size_t length, const uint8_t *at, const uint8_t *end) {
    static int32_t cells[ROWS_MOST * CELLS_MOST];
    size_t lengths[ROWS_MOST], used = 0, bytes = (size_t)(end - at), image_len = translated(text, length);
    struct rows rows = {cells, lengths, 0};
    if (image_len == 0)
        return;
    for (; at < end && rows.count < ROWS_MOST; used += lengths[rows.count++])
        lengths[rows.count] = next_row(&at, end, cells + used);
    size_t most = (rows.count + 1) * state_len(image, image_len);
    replay(text, length, image, image_len, rows, most);
    replay(text, length, image, image_len, rows, bytes < most ? bytes : 0);
}

/* The trace that stands there. */
static void watched_line(const uint8_t *text, size_t length, const uint8_t *at, const uint8_t *end) {
    int32_t trace[CELLS_MOST] = {0};
    watched(text, length, trace, next_row(&at, end, trace));
}

int LLVMFuzzerTestOneInput(const uint8_t *data, size_t size) {
    if (size == 0 || size > TEXT_MOST)
        return 0;
    services_side(isupper(data[0]) != 0);
    instalments_side(isupper(data[0]) != 0);
    printed_side(isupper(data[0]) != 0);
    rounds_side(isupper(data[0]) != 0);
    watched_side(isupper(data[0]) != 0);
    size_t after, length;
    switch (toupper(data[0])) {
    case 'T':
    case 'M':
        length = before_mark(data + 1, size - 1, &after);
        if (toupper(data[0]) == 'T')
            printed(data + 1, length);
        length = translated(data + 1, length);
        if (length > 0)
            profiled(length);
        if (length > 0 && toupper(data[0]) == 'T')
            scan_rows(length, data + 1 + after, data + size);
        else if (length > 0)
            changed_image(length, data + 1 + after, data + size);
        return 0;
    case 'C':
        length = before_mark(data + 1, size - 1, &after);
        filled_rows(data + 1, length, data + 1 + after, data + size);
        return 0;
    case 'L':
        length = before_mark(data + 1, size - 1, &after);
        charged(data + 1, length, data + 1 + after, data + size);
        return 0;
    case 'W':
        length = before_mark(data + 1, size - 1, &after);
        watched_line(data + 1, length, data + 1 + after, data + size);
        return 0;
    case 'S':
    case 'P':
        length = translated(data + 1, before_mark(data + 1, size - 1, &after));
        if (length > 0 && toupper(data[0]) == 'S')
            call_list(image, length, data + 1 + after, data + size);
        else if (length > 0)
            any_memory(image, length, data + 1 + after, data + size);
        return 0;
    case 'R':
    case 'Q':
        length = translated(data + 1, before_mark(data + 1, size - 1, &after));
        if (length > 0 && toupper(data[0]) == 'R')
            event_list(image, length, data + 1 + after, data + size);
        else if (length > 0)
            any_round(image, length, data + 1 + after, data + size);
        return 0;
    case 'A':
        length = before_mark(data + 1, size - 1, &after);
        replayed(data + 1, length, data + 1 + after, data + size);
        return 0;
    case 'I':
        any_image(data + 1, size - 1);
        return 0;
    }
    return 0;
}
