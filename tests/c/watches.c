/* rolvenko_watch from C: the worked reports and refusals of document 02, A.13, whole reports, lengths at their edges. */
#include "rolvenko.h"

#include <stdio.h>
#include <string.h>

#define P "input i 0..1; var v 0..9; v: GX(v = (_v + i)); "
#define W "watch: G([v < 2]);"
#define FOUR(w) w w w w

enum { WATCHES = ROLVENKO_WATCHES, FILL = 77 };

static int failures;
static int64_t report[WATCHES + 2];

/* P's trace: 0 0, 1 1, 1 2, 0 2. */
static const int32_t T[8] = {0, 0, 1, 1, 1, 2, 0, 2};

static void fail(const char *text, uint64_t answer) {
    printf("%.90s: %u at %u, count %u, first %lld\n", text, rolvenko_number(answer), rolvenko_place(answer), rolvenko_count(answer),
           (long long)report[0]);
    failures++;
}

static uint64_t watch(const char *text, const int32_t *trace, size_t numbers, size_t room) {
    for (int i = 0; i < WATCHES + 2; i++)
        report[i] = FILL;
    return rolvenko_watch((const uint8_t *)text, strlen(text), trace, numbers, report, room);
}

/* Numbers from `from` on are as they were lent. */
static int untouched(size_t from) {
    while (from < WATCHES + 2 && report[from] == FILL)
        from++;
    return from == WATCHES + 2;
}

static void reports(const char *text, const int32_t *trace, size_t numbers, size_t count, const int64_t *wanted) {
    uint64_t answer = watch(text, trace, numbers, WATCHES);
    if (answer != count || (count > 0 && memcmp(report, wanted, count * sizeof *wanted) != 0) || !untouched(count))
        fail(text, answer);
}

/* One watch on a trace. */
static void first(const char *text, const int32_t *trace, size_t numbers, int64_t place) { reports(text, trace, numbers, 1, &place); }

static void refused(const char *text, const int32_t *trace, size_t numbers, size_t room, unsigned number, size_t place) {
    uint64_t answer = watch(text, trace, numbers, room);
    if (answer != ((uint64_t)number << 56 | (uint64_t)place << 24) || !untouched(0))
        fail(text, answer);
}

/* A refused text; `@` marks the place and is not part of it. Translation answers the same. */
static void marked(unsigned number, const char *text) {
    static char rest[1024];
    static uint8_t image[64];
    size_t place = strcspn(text, "@");
    snprintf(rest, sizeof rest, "%.*s%s", (int)place, text, text + place + 1);
    refused(rest, T, 8, WATCHES, number, place);
    uint64_t answer = rolvenko_translate((const uint8_t *)rest, strlen(rest), image, sizeof image);
    if (answer != ((uint64_t)number << 56 | (uint64_t)place << 24))
        fail(rest, answer);
}

static void worked_reports(void) {
    static const int32_t outside[4] = {5, 12, -7, 12}, rises[4] = {0, 3, 0, 4};
    static const int64_t three[3] = {3, 2, -1}, sixteen[16] = {2, 2, 2, 2, 2, 2, 2, 2, 2, 2, 2, 2, 2, 2, 2, 2};
    reports(P, T, 8, 0, NULL);
    first(P "watch: G([v >= _v]);", T, 8, -1);
    first(P "watch: G([v < 2]);", T, 8, 2);
    first(P "watch: G([v = 0] -> X([v = 1]));", T, 8, -1);
    reports(P "watch: G([i = 1] -> X([v > _v])); watch: G([v < 2]); watch: G([v = _v + i]);", T, 8, 3, three);
    first(P "watch: G([9 / i > 0]);", T, 8, 0);
    first(P "watch: G([9 / v > 0] -> X([1 = 1]));", T, 8, 1);
    first(P "watch: G([1 = 2] -> X([9 / (2 - v) > 0]));", T, 8, 2);
    first(P "watch: G([1 = 1] -> X([9 / v > 0]));", T, 2, -1);
    first(P "watch: G([v = 2147483647 + 1]);", T, 8, 0);
    first(P "watch: G([1 mod 0 = 0]);", T, 8, -1);
    first(P "watch: G([v = 0 | 1 / 0 = 1]);", T, 8, 0);
    first(P "watch: G([v = 12]);", outside, 4, -1);
    first(P "watch: G([_v = v]);", rises, 4, 1);
    first(P "watch: G([[[[[[[[[[[[[[[[[v < 2]]]]]]]]]]]]]]]]] -> X([[[[[[[[[[[[[[[[[v < 2]]]]]]]]]]]]]]]]]));", T, 8, 2);
    reports(P FOUR(FOUR(W " ")), T, 8, 16, sixteen);
    first("watch: G([1 = 2]);", NULL, 0, 0);
    first("watch: G([1 = 1] -> X([1 = 2]));", T, 0, -1);
}

static void refusals(void) {
    refused(P W, T, 0, WATCHES, 12, 0);
    refused(P W, T, 3, WATCHES, 12, 0);
    refused(P W, T, 8, WATCHES - 1, 12, 0);
    refused(P W, T, 8, WATCHES + 1, 12, 0);
    refused(P W, T, 8, 0, 12, 0);
    refused("watch: G([1 = 2]);", T, 1, WATCHES, 12, 0);
    refused("var $", T, 3, 0, 1, 4);
    marked(30, P FOUR(FOUR(W " ")) "@" W);
    marked(30, P FOUR(FOUR(W)) "@" W);
    marked(6, "input i 0..1; var v 0..9; " W "@");
    marked(4, "input i 0..1; var v 0..9; watch: G([@zz");
    marked(2, "input i 0..1; var v 0..9; " W " @v: GX");
    marked(2, P "watch: G([v < 2@)");
    marked(2, P "watch: G(@v");
    marked(2, P "watch: @g(");
    marked(2, P "@Watch");
    marked(2, P "watch: G([v < 2] -> @[");
    marked(2, P "watch: G([v < 2] -> X(@v");
    marked(2, P "watch: @GX(");
    marked(2, P "watch @G");
    marked(2, "input @x 0..1;");
    marked(2, "input @G 0..1;");
    marked(1, "var v 0..1; v: GX(v = (@_x));");
    marked(8, P "watch: G([[[[[[[[[[[[[[[[[@[v < 2");
    marked(8, P "watch: G([v < 2] -> X([[[[[[[[[[[[[[[[[@[v < 2");
}

/* "Image, ST and printed trace hold no watches". */
static void elsewhere(void) {
    static const char *const texts[2] = {P, P W " watch: G([v < 2] -> X([v < 2]));"};
    static uint8_t image[2][16], st[2][256];
    for (int i = 0; i < 2; i++) {
        uint64_t answer = rolvenko_translate((const uint8_t *)texts[i], strlen(texts[i]), image[i], sizeof image[i]);
        if (answer != 15)
            fail(texts[i], answer);
        rolvenko_structured_text((const uint8_t *)texts[i], strlen(texts[i]), st[i], sizeof st[i]);
    }
    if (memcmp(image[0], image[1], sizeof image[0]) != 0 || st[0][0] != 'V' || memcmp(st[0], st[1], sizeof st[0]) != 0)
        fail("the image or the Structured Text", 0);
}

int main(void) {
    worked_reports();
    refusals();
    elsewhere();
    printf("%d failures\n", failures);
    return failures != 0;
}
