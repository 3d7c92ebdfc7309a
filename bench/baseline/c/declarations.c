/* Declarations, which become the header. */
#include "parser.h"

/* Digits with at most one `-` before them; the token stays at the digits, where 3 is answered. */
static bool bound(struct parser *p, int64_t *value)
{
    bool negative = p->token.kind == '-';
    if (negative)
        advance(p);
    if (p->token.kind != DIGITS)
        return unexpected(p);
    *value = (int64_t)digits_value(p->text, p->token);
    if (*value > (int64_t)INT32_MAX + negative)
        return refuse(p, 3);
    if (negative)
        *value = -*value;
    return true;
}

static bool declared_name(struct parser *p)
{
    if (p->token.kind != NAME)
        return unexpected(p);
    const uint8_t *spelling = p->text + p->token.start;
    uint32_t length = p->token.end - p->token.start;
    if (find_name(p, spelling, length) != p->names)
        return refuse(p, 4);
    if (p->names == NAMES || length > NAME_LENGTH)
        return refuse(p, 8);
    p->name[p->names] = (struct name){spelling, length, false};
    advance(p);
    return true;
}

/* `low..high` */
static bool range(struct parser *p, int64_t *low, int64_t *high)
{
    if (!bound(p, low))
        return false;
    advance(p);
    if (!expect(p, DOTS) || !bound(p, high))
        return false;
    if (*low > *high)
        return refuse(p, 3);
    advance(p);
    return true;
}

/* `init start;`, or `;` for a start of 0 */
static bool start_value(struct parser *p, int64_t low, int64_t high, int64_t *start)
{
    bool absent = p->token.kind == ';';
    *start = 0;
    if (!absent && (!expect(p, INIT) || !bound(p, start)))
        return false;
    if (*start < low || *start > high)
        return refuse(p, 3);
    if (!absent)
        advance(p);
    return expect(p, ';');
}

static bool declaration(struct parser *p, bool input)
{
    int64_t low, high, start;
    advance(p);
    if (!declared_name(p) || !range(p, &low, &high) || !start_value(p, low, high, &start))
        return false;
    emit_signed(p, (int32_t)low);
    emit_signed(p, (int32_t)high);
    emit_signed(p, (int32_t)start);
    p->name[p->names++].usable = input;
    return true;
}

bool declarations(struct parser *p)
{
    p->names = 0;
    while (p->token.kind == INPUT)
        if (!declaration(p, true))
            return false;
    p->inputs = p->names;
    while (p->token.kind == VAR)
        if (!declaration(p, false))
            return false;
    p->image[0] = (uint8_t)p->inputs;
    p->image[1] = (uint8_t)(p->names - p->inputs);
    return true;
}
