/* Images: limits, code bytes, header, and the reader of numbers. */
#ifndef IMAGE_H
#define IMAGE_H

#include "baseline.h"
#include <stdbool.h>

enum {
    TEXT_LIMIT = 32768,
    IMAGE_LIMIT = 65536,
    NAMES = 64,  /* inputs and variables together */
    VALUES = 40, /* held at once */
};

enum code {
    CONSTANT = 1,
    CURRENT,
    PREVIOUS,
    ADD,
    SUBTRACT,
    MULTIPLY,
    DIVIDE,
    MODULO,
    NEGATE,
    EQUAL,
    UNEQUAL,
    LESS,
    LESS_EQUAL,
    GREATER,
    GREATER_EQUAL,
    NOT,
    AND,
    OR,
    GATE,
    PICK,
    LET,
    SETTLE,
    RISE = 24, /* picks of a rising and of a falling value (document 02, A.6) */
    FALL,
};

struct range {
    int32_t low, high, start;
};

struct header {
    uint32_t inputs;
    uint32_t names;
    const uint8_t *code; /* the first instruction */
    struct range range[NAMES];
};

/* Number 0 and the header of a sound image, or 9 or 11 with its place. */
struct answer check_image(const uint8_t *image, size_t length, struct header *header);

static inline struct answer refused(uint32_t number, uint32_t place)
{
    return (struct answer){number, place, 0};
}

static inline bool is_pick(uint8_t code)
{
    return code == PICK || code == RISE || code == FALL;
}

static inline int32_t to_signed(uint32_t number)
{
    return (int32_t)(number >> 1 ^ -(number & 1));
}

#endif
