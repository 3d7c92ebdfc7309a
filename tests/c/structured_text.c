/* rolvenko_structured_text from C: the worked outputs and refusals of document 02, A.4, whole buffers, lengths at their edges. */
#include "rolvenko.h"

#include <stdio.h>
#include <string.h>

enum { FILL = 0xA5, MARGIN = 16 };

static int failures;
static uint8_t out[ROLVENKO_ST_ROOM + MARGIN];

static void fail(const char *text, uint64_t answer) {
    printf("%.60s: %u at %u, count %u\n", text, rolvenko_number(answer), rolvenko_place(answer), rolvenko_count(answer));
    failures++;
}

/* Every byte from `from` on is as it was lent. */
static int untouched(size_t from) {
    while (from < sizeof out && out[from] == FILL)
        from++;
    return from == sizeof out;
}

static uint64_t written(const char *text, size_t room) {
    memset(out, FILL, sizeof out);
    return rolvenko_structured_text((const uint8_t *)text, strlen(text), out, room);
}

/* A refusal leaves the whole buffer. */
static void refused(const char *text, size_t room, unsigned number, size_t place) {
    uint64_t answer = written(text, room);
    if (answer != ((uint64_t)number << 56 | (uint64_t)place << 24) || !untouched(0))
        fail(text, answer);
}

/* With room for any text, with just enough, with a byte too few and with none. */
static void prints(const char *text, const char *st) {
    size_t length = strlen(st), rooms[2] = {ROLVENKO_ST_ROOM, length};
    for (int i = 0; i < 2; i++) {
        uint64_t answer = written(text, rooms[i]);
        if (answer != length || memcmp(out, st, length) != 0 || !untouched(length))
            fail(text, answer);
    }
    if (length > 0) {
        refused(text, length - 1, 10, strlen(text));
        refused(text, 0, 10, strlen(text));
    }
}

/* The same of a text whose only name is v, started at 0: sections and the previous-value line stand around the body. */
static void prints_v(const char *text, const char *body, size_t length) {
    char st[256];
    int count = snprintf(st, sizeof st, "VAR\n  v : DINT := 0;\n  _v : DINT := 0;\nEND_VAR\n%s_v := v;\n", body);
    if ((size_t)count != length)
        fail(text, (uint64_t)count);
    prints(text, st);
}

static void outputs(void) {
    prints("", "");
    prints(" \n", "");
    prints("input a 0..0;", "VAR_INPUT\n  a : DINT := 0;\nEND_VAR\nVAR\n  _a : DINT := 0;\nEND_VAR\n_a := a;\n");
    prints_v("var v 0..1; v: GX(~(v = _v) -> [_v = 0] & v = (1)); v: GX(v = _v -> ~([_v = 0]));",
             "IF (_v = 0) THEN\n  v := 1;\nEND_IF;\n", 91);
    prints_v("var v -99..99;v:GX(v=(1-2-3*4*5));", "v := ((1 - 2) - ((3 * 4) * 5));\n", 88);
    prints_v("var v 0..9;v:GX(v=(-(-5)*-(_v+007)mod 2));", "v := (((-(-5)) * (-(_v + 7))) MOD 2);\n", 94);
    prints_v("var v 0..9;v+:GX(v>_v->[_v<5]&v=(_v+1)|[_v=5]&v=(9));v-:GX(v<_v->[_v=9]&v=(0));",
             "IF (_v < 5) THEN\n  v := (_v + 1);\nELSIF (_v = 5) THEN\n  v := 9;\nELSIF (_v = 9) THEN\n  v := 0;\nEND_IF;\n", 158);
    prints("input a 0..1;var v 0..1;v:GX(~(v=_v)->[a=1|a=0&~[_v<>0|[a<=1]]|1>=a]&v=(1));v:GX(v=_v->~([a=1|a=0&~[_v<>0|[a<=1]]|1>=a]));",
           "VAR_INPUT\n  a : DINT := 0;\nEND_VAR\nVAR\n  _a : DINT := 0;\n  v : DINT := 0;\n  _v : DINT := 0;\nEND_VAR\n"
           "IF (((a = 1) OR ((a = 0) AND (NOT ((_v <> 0) OR (a <= 1))))) OR (1 >= a)) THEN\n  v := 1;\nEND_IF;\n_a := a;\n_v := v;\n");
    prints("input Run 0..1;var v 0..1;V:GX(v=(rUN));",
           "VAR_INPUT\n  Run : DINT := 0;\nEND_VAR\nVAR\n  _Run : DINT := 0;\n  v : DINT := 0;\n  _v : DINT := 0;\nEND_VAR\n"
           "v := Run;\n_Run := Run;\n_v := v;\n");
    prints("input m -2147483648..0 init -2147483648;",
           "VAR_INPUT\n  m : DINT := -2147483648;\nEND_VAR\nVAR\n  _m : DINT := -2147483648;\nEND_VAR\n_m := m;\n");
}

/* The text's own refusals, then 21, then 10. */
static void refusals(void) {
    static char spaces[ROLVENKO_TEXT_LIMIT + 2];
    memset(spaces, ' ', sizeof spaces - 1);
    refused(spaces, ROLVENKO_ST_ROOM, 9, 0);
    refused("input a 0..1; input elsif 0..1; input If 0..1;", 0, 21, 20);
    refused("input a 0..1; input elsif 0..1; input If 0..1;", ROLVENKO_ST_ROOM, 21, 20);
    refused("var dint 0..1; dint: GX(dint = (0));", ROLVENKO_ST_ROOM, 21, 4);
    refused("input IF 0..1; !", ROLVENKO_ST_ROOM, 1, 15);
    refused("input VAR 0..1;", ROLVENKO_ST_ROOM, 2, 6);
    refused("input Mod 0..1;", ROLVENKO_ST_ROOM, 2, 6);
    refused("input not 0..1; var v 0..1;", ROLVENKO_ST_ROOM, 6, 27);
    refused("input ELSE 0..1; input DINT1 0..1; input END 0..1;", 0, 10, 50);
    refused("input ELSE 0..1; input DINT1 0..1; input END 0..1;", 197, 10, 50);
    uint64_t answer = rolvenko_structured_text(NULL, 0, NULL, 0);
    if (answer != 0)
        fail("NULL", answer);
}

int main(void) {
    outputs();
    refusals();
    printf("%d failures\n", failures);
    return failures != 0;
}
