#include "rounds.h"
#include "instalments.h"
#include "memory.h"
#include "rolvenko.h"
#include "services.h"

#include <stdlib.h>
#include <string.h>

enum { SETS = ROLVENKO_SETS, PAUSED = ROLVENKO_PAUSED, IMAGES_MOST = 65536, TABLE_MOST = 3 * (SETS + 1), SERVICE = 10 };

static struct region paused_pages, images_pages, states_pages, table_pages, answers_pages;
static enum side side;

static void promise(int fact) {
    if (!fact)
        abort();
}

void rounds_begin(void) {
    paused_pages = region((SETS + 1) * PAUSED * sizeof(int32_t), WRITABLE);
    images_pages = region(IMAGES_MOST, READ_ONLY);
    states_pages = region(SETS * CELLS_MOST * sizeof(int32_t), WRITABLE);
    table_pages = region(TABLE_MOST * sizeof(size_t), READ_ONLY);
    answers_pages = region((SETS + 1) * sizeof(uint64_t), WRITABLE);
}

void rounds_side(int at_end) { side = at_end ? AT_END : AT_START; }

/* All that is lent to a round, with its lengths. */
struct lent {
    int32_t paused[(SETS + 1) * PAUSED], states[SETS * CELLS_MOST];
    uint8_t images[IMAGES_MOST];
    size_t table[TABLE_MOST];
    uint64_t answers[SETS + 1];
    size_t cells, numbers, bytes, entries, room;
};

static struct part lend(struct region pages, const void *contents, size_t bytes) {
    struct part p = part(pages, bytes, side);
    if (bytes > 0)
        memcpy(p.own, contents, bytes);
    return p;
}

static void take(struct part p, void *to, size_t bytes) {
    part_intact(p);
    if (bytes > 0)
        memcpy(to, p.own, bytes);
}

static uint64_t round_of(struct lent *l) {
    size_t paused = l->cells * sizeof *l->paused, states = l->numbers * sizeof *l->states, answers = l->room * sizeof *l->answers;
    struct part p = lend(paused_pages, l->paused, paused), s = lend(states_pages, l->states, states);
    struct part i = lend(images_pages, l->images, l->bytes), t = lend(table_pages, l->table, l->entries * sizeof *l->table);
    struct part a = lend(answers_pages, l->answers, answers);
    uint64_t answer = rolvenko_round((int32_t *)p.lent, l->cells, i.lent, l->bytes, (int32_t *)s.lent, l->numbers, (const size_t *)t.lent,
                                     l->entries, (uint64_t *)a.lent, l->room);
    part_intact(i);
    part_intact(t);
    take(p, l->paused, paused);
    take(s, l->states, states);
    take(a, l->answers, answers);
    return answer;
}

static size_t least(size_t a, size_t b) { return a < b ? a : b; }

static struct parts parts_of(uint64_t answer) { return (struct parts){rolvenko_number(answer), rolvenko_place(answer), rolvenko_count(answer)}; }

static void same(uint64_t answer, struct parts wanted, const uint8_t *image, size_t length) {
    promise(answer == ((uint64_t)wanted.number << 56 | (uint64_t)wanted.place << 24 | wanted.count));
    struct parts shown = {wanted.number % 32, wanted.place, wanted.count};
    feature(SERVICE, shown, image, length);
}

/* A set of a list of events: its state stands in the lent memory too. */
struct set {
    struct expected e;
    int32_t state[CELLS_MOST];
    size_t share, length;
};

static void post(struct set *set, struct lent *l, size_t i, const uint8_t *image, size_t length, const uint8_t **at, const uint8_t *end) {
    int32_t row[CELLS_MOST] = {0};
    size_t numbers = row_len(image, length);
    for (size_t k = 0; k < numbers && *at < end; k++)
        row[k] = (int8_t)*(*at)++;
    uint64_t answer = rolvenko_post(l->paused + i * PAUSED, PAUSED, image, length, row, numbers);
    same(answer, expect_post(&set->e, image, length, row, numbers), image, length);
}

static void visit_all(struct set *list, size_t sets, struct lent *l, const uint8_t *image, size_t size) {
    for (size_t i = 0; i < sets; i++)
        memcpy(l->states + i * size, list[i].state, size * sizeof *l->states);
    promise(round_of(l) == 0);
    for (size_t i = 0; i < sets; i++) {
        struct set *set = &list[i];
        same(l->answers[i], expect_visit(&set->e, image, set->length, set->state, size, set->share), image, set->length);
        promise(size == 0 || memcmp(l->states + i * size, set->state, size * sizeof *l->states) == 0);
    }
}

void event_list(const uint8_t *image, size_t length, const uint8_t *at, const uint8_t *end) {
    static struct lent l;
    static struct set list[SETS];
    size_t size = state_len(image, length);
    if (at == end || length > IMAGES_MOST / SETS)
        return;
    size_t sets = 1 + *at++ % SETS;
    memset(&l, 0, sizeof l);
    memset(list, 0, sizeof list);
    for (size_t i = 0; i < sets; i++) {
        uint8_t share = at < end ? *at++ : 1;
        list[i].share = share % 240 == 0 ? ROLVENKO_SHARE_LIMIT : share % 240;
        list[i].length = length - (share >= 240);
        promise(start(image, length, list[i].state, size).number == 0);
        memcpy(l.images + l.bytes, image, list[i].length);
        l.bytes += list[i].length;
        l.table[3 * i] = list[i].length;
        l.table[3 * i + 1] = size;
        l.table[3 * i + 2] = list[i].share;
    }
    l.cells = sets * PAUSED;
    l.numbers = sets * size;
    l.entries = 3 * sets;
    l.room = sets;
    for (int events = 0; events < 60 && at < end; events++) {
        uint8_t event = *at++;
        size_t i = event / 4 % sets;
        if (event % 4 < 2)
            post(&list[i], &l, i, image, length, &at, end);
        else if (event % 4 == 2 || size == 0)
            visit_all(list, sets, &l, image, size);
        else
            list[i].state[event / 32 % size] ^= 1;
    }
}

/* A visit by the calls of instalments. */
static uint64_t by_calls(int32_t *paused, size_t cells, const uint8_t *image, size_t bytes, int32_t *state, size_t size, size_t share) {
    uint64_t answer = rolvenko_begin(paused, cells, image, bytes, state, size);
    if (rolvenko_number(answer) != 0 && !rolvenko_is_unfinished(answer) && !rolvenko_is_idle(answer))
        return answer;
    uint64_t steps = rolvenko_count(rolvenko_advance(paused, cells, image, bytes, share));
    answer = rolvenko_finish(paused, cells, state, size);
    return rolvenko_is_idle(answer) ? answer : answer / (1 << 24) * (1 << 24) + steps;
}

/* Whether the table is of 1 to 8 sets with shares in limit. */
static int in_limit(const struct lent *l) {
    int fits = l->entries > 0 && l->entries % 3 == 0 && l->entries <= 3 * SETS;
    for (size_t i = 2; i < l->entries; i += 3)
        fits &= l->table[i] >= 1 && l->table[i] <= ROLVENKO_SHARE_LIMIT;
    return fits;
}

static void calls_on_parts(struct lent *l) {
    size_t cells = 0, bytes = 0, numbers = 0;
    for (size_t i = 0; 3 * i < l->entries; i++) {
        size_t c = least(PAUSED, l->cells - cells), b = least(l->table[3 * i], l->bytes - bytes), n = least(l->table[3 * i + 1], l->numbers - numbers);
        uint64_t answer = by_calls(l->paused + cells, c, l->images + bytes, b, l->states + numbers, n, l->table[3 * i + 2]);
        if (i < l->room)
            l->answers[i] = answer;
        cells += c;
        bytes += b;
        numbers += n;
    }
}

void any_round(const uint8_t *image, size_t length, const uint8_t *at, const uint8_t *end) {
    static const size_t great[] = {65535, 65536, 65537, SIZE_MAX};
    static struct lent l, apart;
    if (end - at < 6)
        return;
    memset(&l, 0, sizeof l);
    l.entries = at[0] % (TABLE_MOST + 1);
    l.cells = least(at[1] % 10 * PAUSED + (at[1] >= 240) - (at[1] >= 230 && at[1] % 10 > 0), (SETS + 1) * PAUSED);
    l.numbers = at[2] % (SETS * CELLS_MOST);
    l.room = at[3] % (SETS + 2);
    memset(l.states, at[4], sizeof l.states);
    size_t copies = at[5] % 10;
    at += 6;
    for (size_t i = 0; i < copies && l.bytes + length <= IMAGES_MOST; i++, l.bytes += length)
        memcpy(l.images + l.bytes, image, length);
    for (size_t i = 0; i < l.entries && at < end; i++, at++)
        l.table[i] = *at < 248 ? *at : *at < 252 ? length - (*at == 248) : great[*at - 252];
    size_t bytes = least((size_t)(end - at), PAUSED * sizeof *l.paused);
    for (size_t i = 0; i <= SETS; i++)
        memcpy(l.paused + i * PAUSED, at, bytes);
    apart = l;
    struct parts p = parts_of(round_of(&l));
    int fits = in_limit(&apart);
    promise(p.number == (fits ? 0 : 25) && p.place == 0 && p.count == 0);
    if (fits)
        calls_on_parts(&apart);
    promise(memcmp(&l, &apart, sizeof l) == 0);
    feature(SERVICE + 1, p, image, length);
}
