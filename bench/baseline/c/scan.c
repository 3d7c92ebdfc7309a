/* Start and scan. Both check the image at each call; the code of a sound image is then run without further tests of its form. */
#include "image.h"
#include <string.h>

struct machine {
    const struct range *range;
    const uint8_t *end;
    const int32_t *previous; /* the state found */
    int32_t now[NAMES];      /* current values */
};

/* How far a scan has come. */
struct place {
    const uint8_t *at; /* the byte to be read next */
    uint32_t steps;
};

static inline uint32_t operand(struct place *p)
{
    uint32_t group = *p->at++;
    uint32_t sum = group & 127;
    for (unsigned shift = 7; group >= 128; shift += 7) {
        group = *p->at++;
        sum |= (group & 127) << shift;
    }
    return sum;
}

/* The result of codes 4 to 8; false for 14. */
static inline bool arithmetic(uint8_t code, int64_t a, int64_t b, int32_t *result)
{
    int64_t r;
    switch (code) {
    case ADD: r = a + b; break;
    case SUBTRACT: r = a - b; break;
    case MULTIPLY: r = a * b; break;
    case DIVIDE:
        if (b == 0)
            return false;
        r = a / b;
        break;
    default: r = b == 0 ? 0 : a % b;
    }
    *result = (int32_t)r;
    return r == (int32_t)r;
}

static inline bool compare(uint8_t code, int32_t a, int32_t b)
{
    switch (code) {
    case EQUAL: return a == b;
    case UNEQUAL: return a != b;
    case LESS: return a < b;
    case LESS_EQUAL: return a <= b;
    case GREATER: return a > b;
    default: return a >= b;
    }
}

/* A false gate: everything up to and including the next pick counts a step. */
static struct place skip(struct place p)
{
    uint8_t code;
    do {
        code = *p.at++;
        p.steps++;
        if (code <= PREVIOUS || is_pick(code))
            operand(&p);
    } while (!is_pick(code));
    return p;
}

/* A pick or let of `value`: 0 or its refusal. */
static uint32_t assign(struct machine *m, uint8_t code, uint32_t id, int32_t value)
{
    if (code == PICK && value == m->previous[id])
        return 16;
    if ((code == RISE && value <= m->previous[id]) || (code == FALL && value >= m->previous[id]))
        return 22;
    if (value < m->range[id].low || value > m->range[id].high)
        return 17;
    m->now[id] = value;
    return 0;
}

/* Gate, pick, let and settle with the value that they take, which is the only one: 0 or a refusal. */
static inline uint32_t control(struct machine *m, uint8_t code, int32_t value, bool *picked, struct place *p)
{
    if (code == GATE) {
        if (!value)
            *p = skip(*p);
        return value && *picked ? 15 : 0;
    }
    uint32_t id = operand(p);
    if (code == SETTLE && !*picked)
        m->now[id] = m->previous[id];
    if (code != LET)
        *picked = is_pick(code);
    return code == SETTLE ? 0 : assign(m, code, id, value);
}

/* Runs the code and counts its steps: 0 or the refusal of the instruction reached. */
static uint32_t run(struct machine *m, struct place *reached)
{
    int32_t stack[VALUES], *top = stack; /* numbers, and yes-no as 1 and 0; `top` is above the last */
    struct place p = *reached;
    bool picked = false; /* since the last settle */
    uint32_t refusal = 0;
    while (p.at < m->end && refusal == 0) {
        uint8_t code = *p.at++;
        p.steps++;
        switch (code) {
        case CONSTANT: *top++ = to_signed(operand(&p)); break;
        case CURRENT: *top++ = m->now[operand(&p)]; break;
        case PREVIOUS: *top++ = m->previous[operand(&p)]; break;
        case ADD: case SUBTRACT: case MULTIPLY: case DIVIDE: case MODULO:
            top--;
            refusal = arithmetic(code, top[-1], top[0], &top[-1]) ? 0 : 14;
            break;
        case NEGATE:
            refusal = arithmetic(SUBTRACT, 0, top[-1], &top[-1]) ? 0 : 14;
            break;
        case EQUAL: case UNEQUAL: case LESS: case LESS_EQUAL: case GREATER: case GREATER_EQUAL:
            top--;
            top[-1] = compare(code, top[-1], top[0]);
            break;
        case NOT: top[-1] = !top[-1]; break;
        case AND: top--; top[-1] &= top[0]; break;
        case OR: top--; top[-1] |= top[0]; break;
        default:
            top = stack;
            refusal = control(m, code, stack[0], &picked, &p);
        }
    }
    *reached = p;
    return refusal;
}

static bool in_ranges(const int32_t *values, const struct range *range, uint32_t count)
{
    for (uint32_t k = 0; k < count; k++)
        if (values[k] < range[k].low || values[k] > range[k].high)
            return false;
    return true;
}

struct answer baseline_start(const uint8_t *image, size_t image_len, int32_t *state, size_t state_len)
{
    struct header header;
    struct answer checked = check_image(image, image_len, &header);
    if (checked.number)
        return checked;
    if (state_len != header.names)
        return refused(12, 0);
    for (uint32_t id = 0; id < header.names; id++)
        state[id] = header.range[id].start;
    return refused(0, 0);
}

struct answer baseline_scan(const uint8_t *image, size_t image_len, int32_t *state, size_t state_len, const int32_t *row,
                            size_t row_len)
{
    struct header header;
    struct answer checked = check_image(image, image_len, &header);
    if (checked.number)
        return checked;
    if (state_len != header.names || row_len != header.inputs)
        return refused(12, 0);
    if (!in_ranges(state, header.range, header.names))
        return refused(18, 0);
    if (!in_ranges(row, header.range, header.inputs))
        return refused(13, 0);
    struct machine m; /* its variables get their values in the code */
    m.range = header.range;
    m.end = image + image_len;
    m.previous = state;
    memcpy(m.now, row, row_len * sizeof *row);
    struct place p = {header.code, 0};
    uint32_t refusal = run(&m, &p);
    if (refusal == 0)
        memcpy(state, m.now, state_len * sizeof *state);
    return (struct answer){refusal, 0, p.steps};
}
