/* Stack that each function takes at most, on texts with the deepest brackets, of 2 names and of 64, on their images, and on one with the longest state: each call
 * runs in a thread on a stack of known contents. The proofs speak of a machine without a stack, so this is measured. */
#include "rolvenko.h"

#include <pthread.h>
#include <stdio.h>
#include <stdlib.h>
#include <string.h>

enum { STACK = 1 << 18, FILL = 0xA5, BOUND = 98304, ST_BOUND = 131072 };

static uint8_t text[16384], image[ROLVENKO_IMAGE_ROOM];
static size_t text_len, image_len, names;
static size_t size, numbers; /* of a state, of a row */
static int32_t state[ROLVENKO_STATE], row[63];
static int64_t table[64]; /* 32 entries, an hour more or less in turn */
static const int32_t trace[33 * ROLVENKO_STATE], minutes[32]; /* a start and 32 rows */
static uint64_t answer;

static void *nothing(void *p) { return p; }

static void *translate(void *p) {
    answer = rolvenko_translate(text, text_len, image, sizeof image);
    return p;
}

static void *structured_text(void *p) {
    static uint8_t out[ROLVENKO_ST_ROOM];
    answer = rolvenko_structured_text(text, text_len, out, sizeof out);
    return p;
}

static void *watch(void *p) {
    int64_t report[ROLVENKO_WATCHES];
    answer = rolvenko_watch(text, text_len, trace, 33 * size, report, ROLVENKO_WATCHES);
    return p;
}

static void *check(void *p) {
    answer = rolvenko_check(image, image_len);
    return p;
}

static void *start(void *p) {
    answer = rolvenko_start(image, image_len, state, size);
    return p;
}

static void *scan(void *p) {
    answer = rolvenko_scan(image, image_len, state, size, row, numbers);
    return p;
}

static void *local_hour(void *p) {
    answer = rolvenko_clock(text, text_len, table, 64, 32000, row, numbers);
    return p;
}

static void *charge(void *p) {
    answer = rolvenko_charge(image, image_len, names - 1, trace, 33 * size, minutes, 32, 0, 1, 1);
    return p;
}

/* A closed image of as many names; the rules of `nested` have too many rows or a refused scan. */
static uint8_t held[6 * 64 + 4];
static size_t held_len;

static void *profile(void *p) {
    answer = rolvenko_closed(held, held_len);
    return p;
}

static void *profile_part(void *p) {
    answer = rolvenko_closed_part(held, held_len, 0, 1);
    return p;
}

static void *combination(void *p) {
    answer = rolvenko_combination(held, held_len, 0, state, names, row, names - 1);
    return p;
}

/* A scan in instalments, and the same image for all the sets of a round. */
static int32_t paused[ROLVENKO_SETS * ROLVENKO_PAUSED], states[ROLVENKO_SETS * ROLVENKO_STATE];
static uint8_t images[ROLVENKO_SETS * 2048];
static size_t sets[ROLVENKO_SETS * 3];

static void *post(void *p) {
    for (int i = 0; i < ROLVENKO_SETS && answer == 0; i++)
        answer = rolvenko_post(paused + i * ROLVENKO_PAUSED, ROLVENKO_PAUSED, image, image_len, row, numbers);
    return p;
}

static void *begin(void *p) {
    answer = rolvenko_begin(paused, ROLVENKO_PAUSED, image, image_len, state, size);
    return p;
}

static void *advance(void *p) {
    answer = rolvenko_advance(paused, ROLVENKO_PAUSED, image, image_len, 65536);
    return p;
}

static void *finish(void *p) {
    answer = rolvenko_finish(paused, ROLVENKO_PAUSED, state, size);
    return p;
}

static void *visit(void *p) {
    answer = rolvenko_visit(paused, ROLVENKO_PAUSED, image, image_len, state, size, 65536);
    return p;
}

static void *eight(void *p) {
    uint64_t answers[ROLVENKO_SETS];
    answer = rolvenko_round(paused, ROLVENKO_SETS * ROLVENKO_PAUSED, images, ROLVENKO_SETS * image_len, states, ROLVENKO_SETS * size, sets,
                            ROLVENKO_SETS * 3, answers, ROLVENKO_SETS);
    for (int i = 0; i < ROLVENKO_SETS && answer == 0; i++)
        answer = rolvenko_number(answers[i]);
    return p;
}

static void join(void) {
    for (size_t i = 0; i < ROLVENKO_SETS; i++) {
        memcpy(images + i * image_len, image, image_len);
        memcpy(states + i * size, state, size * sizeof *state);
        sets[3 * i] = image_len;
        sets[3 * i + 1] = size;
        sets[3 * i + 2] = 65536;
    }
}

/* Inputs 0..0 and a variable 0..1 that keeps its value. */
static void hold(void) {
    memset(held, 0, sizeof held);
    held[0] = (uint8_t)(names - 1);
    held[1] = 1;
    held_len = 2 + 3 * names;
    held[held_len - 2] = 2;
    const uint8_t code[4] = {3, (uint8_t)(names - 1), 21, (uint8_t)(names - 1)};
    memcpy(held + held_len, code, sizeof code);
    held_len += sizeof code;
}

static void *replay(void *p) {
    static uint8_t buffer[ROLVENKO_IMAGE_ROOM], results[2];
    static size_t lengths[2], steps[2];
    static int32_t cells[2 * 63], found[ROLVENKO_STATE], states[3 * ROLVENKO_STATE];
    lengths[0] = lengths[1] = numbers;
    answer = rolvenko_replay(text, text_len, buffer, sizeof buffer, found, size, cells, 2 * numbers, lengths, 2, results, 2, steps, 2, states,
                             3 * size);
    return p;
}

/* Bytes of the thread's stack that were written. */
static size_t used(void *(*call)(void *)) {
    uint8_t *stack = aligned_alloc(4096, STACK);
    pthread_attr_t attributes;
    pthread_t thread;
    memset(stack, FILL, STACK);
    if (pthread_attr_init(&attributes) != 0 || pthread_attr_setstack(&attributes, stack, STACK) != 0 ||
        pthread_create(&thread, &attributes, call, NULL) != 0 || pthread_join(thread, NULL) != 0)
        exit(2);
    size_t untouched = 0;
    while (untouched < STACK && stack[untouched] == FILL)
        untouched++;
    free(stack);
    return STACK - untouched;
}

/* A change rule and two watches with 16 brackets open at once, `square` of them of conditions, each with its `~` or `-` before it, and with `operations` each the
 * right operand of two operations more: what prints them calls itself at each. So many names are declared. */
static void nested(int square, int operations, size_t declared) {
    static const char *const before[2][2] = {{"-(", "~["}, {"1+1*-(", "1=2|1=1&~["}};
    char condition[256] = "";
    names = size = declared;
    numbers = declared - 1;
    text_len = 0;
    for (size_t i = 1; i < declared; i++)
        text_len += (size_t)snprintf((char *)text + text_len, sizeof text - text_len, "input i%zu 0..1;", i);
    for (int i = 0; i < 16; i++) {
        if (i == square && operations)
            strcat(condition, "_v=");
        strcat(condition, before[operations][i < square]);
    }
    strcat(condition, operations && square == 16 ? "_v=1" : "1");
    for (int i = 16; i > square; i--)
        strcat(condition, ")");
    if (!operations)
        strcat(condition, "=_v");
    for (int i = square; i > 0; i--)
        strcat(condition, "]");
    text_len += (size_t)snprintf((char *)text + text_len, sizeof text - text_len,
                                 "var v 0..1;v:GX(~(v=_v)->[%s&_v=2]&v=(1-_v)|[_v=0]&v=(1));v:GX(v=_v->~([%s&_v=2]|[_v=0]));"
                                 "watch:G([%s]);watch:G([%s]->X([%s]));",
                                 condition, condition, condition, condition, condition);
}

/* The same rule in a longer text: over 1,024 bytes, and again over 8,192, translate takes larger scratch memory. */
static void lengthen(size_t length) {
    if (length <= text_len)
        return;
    memset(text + text_len, ' ', length - text_len);
    text_len = length;
}

enum { TRANSLATE, STRUCTURED_TEXT, WATCH, CHECK, START, SCAN, REPLAY, CLOCK, CHARGE, CLOSED, CLOSED_PART, COMBINATION, POST, BEGIN, ADVANCE, FINISH, VISIT, ROUND, SERVICES };

static const struct {
    const char *name;
    void *(*call)(void *);
} services[SERVICES] = {
    {"translate", translate}, {"structured_text", structured_text},
    {"watch", watch},         {"check", check},
    {"start", start},         {"scan", scan},
    {"replay", replay},
    {"clock", local_hour},    {"charge", charge},
    {"closed", profile},      {"closed_part", profile_part},
    {"combination", combination},
    {"post", post},           {"begin", begin},
    {"advance", advance},     {"finish", finish},
    {"visit", visit},         {"round", eight},
};
static size_t idle, most[SERVICES];

static void measure(int service) {
    answer = 0;
    size_t bytes = used(services[service].call) - idle;
    if (rolvenko_number(answer) != 0) {
        printf("%s: refused %u at %u\n", services[service].name, rolvenko_number(answer), rolvenko_place(answer));
        exit(1);
    }
    if (bytes > most[service])
        most[service] = bytes;
}

/* A scan in instalments and rounds of the image. */
static void measure_divided(void) {
    measure(START);
    for (int service = POST; service <= FINISH; service++)
        measure(service);
    join();
    measure(POST);
    measure(VISIT);
    measure(POST);
    measure(ROUND);
}

/* The longest state: 63 timers of one variable, which is always 1. Structured Text has none. */
static void measure_timed(void) {
    names = 64;
    size = ROLVENKO_STATE;
    numbers = 1;
    memset(state, 0, sizeof state);
    text_len = (size_t)sprintf((char *)text, "var w 0..1;");
    for (int id = 1; id < 64; id++)
        text_len += (size_t)sprintf((char *)text + text_len, "timer t%d of w limit 100;", id);
    text_len += (size_t)sprintf((char *)text + text_len, "w:GX(w=(1));watch:G([t63=0]);");
    measure(TRANSLATE);
    image_len = rolvenko_count(answer);
    for (int service = WATCH; service <= CHARGE; service++)
        measure(service);
    measure_divided();
}

/* Every service on the text and its image. */
static void measure_all(void) {
    measure(TRANSLATE);
    image_len = rolvenko_count(answer);
    measure(STRUCTURED_TEXT);
    measure(WATCH);
    measure(CLOCK);
    lengthen(2048);
    measure(TRANSLATE);
    measure(STRUCTURED_TEXT);
    measure(WATCH);
    measure(CLOCK);
    lengthen(8193);
    for (int service = TRANSLATE; service <= CHARGE; service++)
        measure(service);
    hold();
    measure(CLOSED);
    measure(CLOSED_PART);
    measure(COMBINATION);
    measure_divided();
}

int main(void) {
    idle = used(nothing);
    for (int i = 0; i < 32; i++) {
        table[2 * i] = 1000 * i;
        table[2 * i + 1] = i % 2 ? 60 : 120;
    }
    for (int square = 0; square <= 16; square++)
        for (int form = 0; form < 4; form++) {
            nested(square, form / 2, form % 2 ? 64 : 2);
            measure_all();
        }
    measure_timed();
    printf("stack, bytes at most:");
    int over = 0;
    for (int i = 0; i < SERVICES; i++) {
        printf("%s %s %zu", i ? "," : "", services[i].name, most[i]);
        over |= most[i] > (i == STRUCTURED_TEXT ? ST_BOUND : BOUND);
    }
    printf("\n");
    return over;
}
