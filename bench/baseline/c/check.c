/* Whether an image is sound. */
#include "image.h"

enum { NOBODY = NAMES }; /* no variable has an open pick */

struct walk {
    const uint8_t *at; /* the byte to be read next */
    const uint8_t *end;
    const struct header *header;
    uint32_t held;
    uint64_t sorts;  /* of the values held, the last one lowest: 1 for yes-no, 0 for a number */
    uint64_t usable; /* a bit for each input, and for each variable settled or let */
    uint32_t picked; /* the variable whose picks wait for their settle */
    uint8_t last;    /* the code of the last of these picks */
    bool gated;      /* a gate waits for its pick */
};

/* Reads a number of at most five groups in shortest form: the place behind it, or NULL. */
static const uint8_t *long_number(const uint8_t *at, const uint8_t *end, uint64_t *number)
{
    *number = 0;
    for (unsigned shift = 0; shift < 35 && at < end; shift += 7) {
        uint8_t group = *at++;
        *number |= (uint64_t)(group & 127) << shift;
        if (group < 128)
            return group == 0 && shift > 0 ? NULL : at;
    }
    return NULL;
}

static inline bool read_number(struct walk *w, uint64_t *number)
{
    if (w->at < w->end && *w->at < 128) {
        *number = *w->at++;
        return true;
    }
    w->at = long_number(w->at, w->end, number);
    return w->at != NULL;
}

static inline bool read_signed(struct walk *w, int32_t *value)
{
    uint64_t number;
    if (!read_number(w, &number) || number > UINT32_MAX)
        return false;
    *value = to_signed((uint32_t)number);
    return true;
}

static inline bool read_id(struct walk *w, uint32_t *id)
{
    uint64_t number;
    if (!read_number(w, &number) || number >= w->header->names)
        return false;
    *id = (uint32_t)number;
    return true;
}

static uint64_t first_bits(uint32_t count)
{
    return count == 64 ? UINT64_MAX : ((uint64_t)1 << count) - 1;
}

/* The counts and the ranges; false leaves the number that breaks in `place`. */
static bool read_header(struct walk *w, struct header *header, const uint8_t **place)
{
    uint64_t inputs, variables;
    if (!read_number(w, &inputs) || inputs > NAMES)
        return false;
    *place = w->at;
    if (!read_number(w, &variables) || inputs + variables > NAMES)
        return false;
    header->inputs = (uint32_t)inputs;
    header->names = (uint32_t)(inputs + variables);
    for (uint32_t id = 0; id < header->names; id++) {
        struct range *range = &header->range[id];
        *place = w->at;
        if (!read_signed(w, &range->low))
            return false;
        *place = w->at;
        if (!read_signed(w, &range->high) || range->high < range->low)
            return false;
        *place = w->at;
        if (!read_signed(w, &range->start) || range->start < range->low || range->start > range->high)
            return false;
    }
    header->code = w->at;
    w->usable = first_bits(header->inputs);
    return true;
}

static inline bool push_number(struct walk *w)
{
    w->held++;
    w->sorts <<= 1;
    return w->held <= VALUES;
}

/* Takes `count` values that are all numbers or all yes-no, and gives one. */
static inline bool replace(struct walk *w, unsigned count, bool taken, bool given)
{
    uint64_t all = (1u << count) - 1;
    if (w->held < count || (w->sorts & all) != (taken ? all : 0))
        return false;
    w->held -= count - 1;
    w->sorts = w->sorts >> count << 1 | given;
    return true;
}

/* Takes the one value that is held. */
static inline bool take_last(struct walk *w, bool yes_no)
{
    if (w->held != 1 || (w->sorts & 1) != yes_no)
        return false;
    w->held = 0;
    return true;
}

static inline bool is_usable(const struct walk *w, uint32_t id)
{
    return w->usable >> id & 1;
}

/* The id of a variable that isn't settled or let yet. */
static inline bool read_open(struct walk *w, uint32_t *id)
{
    return read_id(w, id) && !is_usable(w, *id);
}

static bool gate(struct walk *w)
{
    w->gated = true;
    return take_last(w, true);
}

/* The picks before one settle are all 20, or some 24 and then some 25. */
static inline bool in_order(const struct walk *w, uint8_t code)
{
    if (w->picked == NOBODY)
        return code != FALL;
    return w->last == code || (w->last == RISE && code == FALL);
}

static bool pick(struct walk *w, uint8_t code)
{
    uint32_t id;
    if (!w->gated || !read_open(w, &id) || (w->picked != NOBODY && w->picked != id) || !in_order(w, code))
        return false;
    w->gated = false;
    w->picked = id;
    w->last = code;
    return take_last(w, false);
}

static bool let(struct walk *w)
{
    uint32_t id;
    if (!read_open(w, &id) || w->picked != NOBODY)
        return false;
    w->usable |= (uint64_t)1 << id;
    return take_last(w, false);
}

static bool settle(struct walk *w)
{
    uint32_t id;
    if (!read_id(w, &id) || w->picked != id || w->last == RISE)
        return false;
    w->usable |= (uint64_t)1 << id;
    w->picked = NOBODY;
    return w->held == 0;
}

static bool constant(struct walk *w)
{
    int32_t value;
    return read_signed(w, &value) && push_number(w);
}

static bool value(struct walk *w, bool current)
{
    uint32_t id;
    return read_id(w, &id) && (!current || is_usable(w, id)) && push_number(w);
}

static inline bool instruction(struct walk *w)
{
    uint8_t code = *w->at++;
    if (w->gated && code > NEGATE && !is_pick(code))
        return false;
    switch (code) {
    case CONSTANT:
        return constant(w);
    case CURRENT:
    case PREVIOUS:
        return value(w, code == CURRENT);
    case ADD: case SUBTRACT: case MULTIPLY: case DIVIDE: case MODULO:
        return replace(w, 2, false, false);
    case NEGATE:
        return replace(w, 1, false, false);
    case EQUAL: case UNEQUAL: case LESS: case LESS_EQUAL: case GREATER: case GREATER_EQUAL:
        return replace(w, 2, false, true);
    case NOT:
        return replace(w, 1, true, true);
    case AND:
    case OR:
        return replace(w, 2, true, true);
    case GATE:
        return gate(w);
    case PICK:
    case RISE:
    case FALL:
        return pick(w, code);
    case LET:
        return let(w);
    case SETTLE:
        return settle(w);
    default:
        return false;
    }
}

/* Something is only missing at the end. */
static bool is_complete(const struct walk *w)
{
    return w->usable == first_bits(w->header->names) && w->held == 0 && !w->gated && w->picked == NOBODY;
}

struct answer check_image(const uint8_t *image, size_t length, struct header *header)
{
    if (length > IMAGE_LIMIT)
        return refused(9, 0);
    struct walk w = {.at = image, .end = image + length, .header = header, .picked = NOBODY};
    const uint8_t *place = image;
    if (!read_header(&w, header, &place))
        return refused(11, (uint32_t)(place - image));
    while (w.at < w.end) {
        place = w.at;
        if (!instruction(&w))
            return refused(11, (uint32_t)(place - image));
    }
    return is_complete(&w) ? refused(0, 0) : refused(11, (uint32_t)length);
}

struct answer baseline_check(const uint8_t *image, size_t image_len)
{
    struct header header;
    return check_image(image, image_len, &header);
}
