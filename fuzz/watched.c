#include "watched.h"
#include "memory.h"
#include "rolvenko.h"
#include "services.h"

#include <ctype.h>
#include <stdlib.h>
#include <string.h>

enum { SERVICE = 13, WATCHES = ROLVENKO_WATCHES, ROOM_MOST = WATCHES + 1 };

static struct region text_pages, trace_pages, report_pages;
static enum side side;
static uint8_t image[IMAGE_MOST];

static void promise(int fact) {
    if (!fact)
        abort();
}

void watched_begin(void) {
    text_pages = region(TEXT_MOST, READ_ONLY);
    trace_pages = region(CELLS_MOST * sizeof(int32_t), READ_ONLY);
    report_pages = region(ROOM_MOST * sizeof(int64_t), WRITABLE);
}

void watched_side(int at_end) { side = at_end ? AT_END : AT_START; }

static struct part lend(struct region pages, const void *contents, size_t bytes) {
    struct part p = part(pages, bytes, side);
    if (bytes > 0)
        memcpy(p.own, contents, bytes);
    return p;
}

static int equal(const void *a, const void *b, size_t bytes) { return bytes == 0 || memcmp(a, b, bytes) == 0; }

/* One call; `report` has the numbers lent, and then those left: at most as many as there are watches are written. */
static struct parts watch(const uint8_t *text, size_t length, const int32_t *trace, size_t numbers, int64_t *report, size_t room) {
    struct part lent = lend(text_pages, text, length), states = lend(trace_pages, trace, numbers * sizeof *trace);
    struct part buffer = lend(report_pages, report, room * sizeof *report);
    uint64_t answer = rolvenko_watch(lent.lent, length, (const int32_t *)states.lent, numbers, (int64_t *)buffer.lent, room);
    struct parts p = {rolvenko_number(answer), rolvenko_place(answer), rolvenko_count(answer)};
    part_intact(lent);
    part_intact(states);
    part_intact(buffer);
    promise(answer == ((uint64_t)p.number << 56 | (uint64_t)p.place << 24 | p.count));
    promise(equal(lent.own, text, length) && equal(states.own, trace, numbers * sizeof *trace));
    promise(p.count <= WATCHES && (p.number == 0 ? p.place == 0 && room == WATCHES : p.count == 0));
    promise(equal(buffer.own + p.count * sizeof *report, report + p.count, (room - p.count) * sizeof *report));
    memcpy(report, buffer.own, room * sizeof *report);
    feature(SERVICE, p, text, length);
    return p;
}

static void fill(int64_t *report) {
    for (int i = 0; i < ROOM_MOST; i++)
        report[i] = 1000003 * i - 5;
}

/* How many watches an accepted text has: so many words `watch`. */
static size_t count_watches(const uint8_t *text, size_t length) {
    size_t count = 0;
    for (size_t at = 0, end; at < length; at = end) {
        end = at + 1;
        if (!isalpha(text[at]))
            continue;
        while (end < length && isalnum(text[end]))
            end++;
        count += end - at == 5 && memcmp(text + at, "watch", 5) == 0;
    }
    return count;
}

/* Of a shorter trace a watch that failed later has not failed. */
static void shorter(const uint8_t *text, size_t length, const int32_t *trace, size_t size, size_t places, const int64_t *whole) {
    int64_t report[ROOM_MOST];
    for (size_t some = 1; some < places; some++) {
        fill(report);
        struct parts p = watch(text, length, trace, some * size, report, WATCHES);
        promise(p.number == 0);
        for (size_t i = 0; i < p.count; i++)
            promise(report[i] == (whole[i] < (int64_t)some ? whole[i] : -1));
    }
}

void watched(const uint8_t *text, size_t length, const int32_t *trace, size_t numbers) {
    struct parts t = translate(text, length, ROLVENKO_IMAGE_ROOM, image);
    size_t size = t.number == 0 ? state_len(image, t.count) : 1;
    size_t places = size > 0 ? numbers / size : numbers == 0;
    int lengths = size > 0 ? numbers % size == 0 && places > 0 : numbers == 0;
    for (size_t room = WATCHES - 1; room <= WATCHES + 1; room++) {
        int64_t report[ROOM_MOST];
        fill(report);
        struct parts p = watch(text, length, trace, numbers, report, room);
        if (t.number != 0) {
            promise(p.number == t.number && p.place == t.place);
            continue;
        }
        promise(p.number == (lengths && room == WATCHES ? 0 : 12) && p.place == 0);
        if (p.number != 0)
            continue;
        promise(p.count == count_watches(text, length));
        for (size_t i = 0; i < p.count; i++)
            promise(report[i] >= -1 && report[i] < (int64_t)places);
        shorter(text, length, trace, size, places, report);
    }
}
