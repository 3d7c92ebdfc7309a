#include "printed.h"
#include "memory.h"
#include "rolvenko.h"
#include "services.h"

#include <ctype.h>
#include <stdlib.h>
#include <string.h>
#include <strings.h>

enum { SERVICE = 12 };

static struct region text_pages, out_pages;
static enum side side;
static uint8_t st[ROLVENKO_ST_ROOM], image[IMAGE_MOST];

static void promise(int fact) {
    if (!fact)
        abort();
}

void printed_begin(void) {
    text_pages = region(TEXT_MOST, READ_ONLY);
    out_pages = region(ROLVENKO_ST_ROOM, WRITABLE);
}

void printed_side(int at_end) { side = at_end ? AT_END : AT_START; }

/* One call: its answer in parts; what is written goes to `st`, and no other byte is. */
static struct parts print(const uint8_t *text, size_t length, size_t room) {
    struct part lent = part(text_pages, length, side), buffer = part(out_pages, room, side);
    uint8_t fill = (uint8_t)(length * 5 + room);
    if (length > 0)
        memcpy(lent.own, text, length);
    memset(buffer.own, fill, room);
    uint64_t answer = rolvenko_structured_text(lent.lent, length, buffer.lent, room);
    struct parts p = {rolvenko_number(answer), rolvenko_place(answer), rolvenko_count(answer)};
    part_intact(lent);
    part_intact(buffer);
    promise(answer == ((uint64_t)p.number << 56 | (uint64_t)p.place << 24 | p.count));
    promise(length == 0 || memcmp(lent.own, text, length) == 0);
    promise(p.count <= room && (p.number == 0 || p.count == 0));
    for (size_t i = p.count; i < room; i++)
        promise(buffer.own[i] == fill);
    memcpy(st, buffer.own, p.count);
    feature(SERVICE, p, text, length);
    return p;
}

static int is_word(const uint8_t *at, size_t length) {
    static const char *const words[] = {"IF", "THEN", "ELSIF", "DINT", "AND", "OR", "NOT"};
    for (size_t i = 0; i < sizeof words / sizeof *words; i++)
        if (strlen(words[i]) == length && strncasecmp((const char *)at, words[i], length) == 0)
            return 1;
    return 0;
}

/* The place of the first declared name of an accepted text that is a word of Structured Text, or of a text with timers that of the first word
 * `timer`, whichever comes first; else the text's length. */
static size_t first_word(const uint8_t *text, size_t length, int timed) {
    int declares = 0;
    for (size_t at = 0, end; at < length; at = end) {
        end = at + 1;
        int letter = isalpha(text[at]), digit = isdigit(text[at]);
        while (end < length && ((letter && isalnum(text[end])) || (digit && isdigit(text[end]))))
            end++;
        if (letter && declares && is_word(text + at, end - at))
            return at;
        if (timed && end - at == 5 && memcmp(text + at, "timer", 5) == 0)
            return at;
        if (letter)
            declares = (end - at == 5 && memcmp(text + at, "input", 5) == 0) || (end - at == 3 && memcmp(text + at, "var", 3) == 0);
    }
    return length;
}

static size_t occurrences(const char *word, size_t count) {
    size_t found = 0, length = strlen(word);
    for (size_t i = 0; i + length <= count; i++)
        found += memcmp(st + i, word, length) == 0;
    return found;
}

/* The shape of what is printed: two declarations and a previous-value line a name, brackets in pairs, whole lines. */
static void shaped(size_t count, size_t names, size_t inputs) {
    size_t open = 0;
    for (size_t i = 0; i < count; i++) {
        promise(st[i] == '\n' || (st[i] >= ' ' && st[i] < 127));
        promise(st[i] != ')' || open > 0);
        open += (st[i] == '(') - (st[i] == ')');
    }
    promise(open == 0 && (count > 0) == (names > 0) && (count == 0 || st[count - 1] == '\n'));
    promise(occurrences(" : DINT := ", count) == 2 * names && occurrences("END_VAR\n", count) == (size_t)(names > 0) + (inputs > 0));
}

void printed(const uint8_t *text, size_t length) {
    size_t room = length < ROLVENKO_TEXT_LIMIT ? (7 * length + 2620) / 2 : ROLVENKO_ST_ROOM;
    struct parts t = translate(text, length, ROLVENKO_IMAGE_ROOM, image), p = print(text, length, room);
    if (t.number == 0) {
        int timed = state_len(image, t.count) > (size_t)image[0] + image[1];
        size_t place = first_word(text, length, timed);
        if (place < length)
            t = (struct parts){21, (uint32_t)place, 0};
    }
    if (t.number != 0) {
        promise(p.number == t.number && p.place == t.place);
        p = print(text, length, 0);
        promise(p.number == t.number && p.place == t.place);
        return;
    }
    promise(p.number == 0 && p.place == 0 && 2 * (size_t)p.count <= 7 * length + 2620);
    shaped(p.count, (size_t)image[0] + image[1], image[0]);
    static uint8_t first[ROLVENKO_ST_ROOM];
    memcpy(first, st, p.count);
    struct parts exact = print(text, length, p.count);
    promise(exact.number == 0 && exact.count == p.count && memcmp(first, st, p.count) == 0);
    if (p.count == 0)
        return;
    size_t short_rooms[2] = {p.count - 1, 0};
    for (int i = 0; i < 2; i++) {
        struct parts none = print(text, length, short_rooms[i]);
        promise(none.number == 10 && none.place == length);
    }
}
