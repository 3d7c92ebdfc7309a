/* What all parts of the parser use, and the service. */
#include "parser.h"
#include <string.h>

bool refuse(struct parser *p, uint32_t number)
{
    p->refusal = refused(number, p->token.start);
    return false;
}

bool unexpected(struct parser *p)
{
    return refuse(p, p->token.kind == BAD ? 1 : 2);
}

bool expect(struct parser *p, int kind)
{
    if (p->token.kind != kind)
        return unexpected(p);
    advance(p);
    return true;
}

uint32_t find_name(const struct parser *p, const uint8_t *spelling, uint32_t length)
{
    for (uint32_t id = 0; id < p->names; id++)
        if (p->name[id].length == length && same_name(p->name[id].spelling, spelling, length))
            return id;
    return p->names;
}

bool open_bracket(struct parser *p)
{
    if (p->open == BRACKETS)
        return refuse(p, 8);
    p->open++;
    advance(p);
    return true;
}

void emit_number(struct parser *p, uint32_t number)
{
    for (; number >= 128; number >>= 7)
        emit(p, (uint8_t)(number | 128));
    emit(p, (uint8_t)number);
}

void emit_signed(struct parser *p, int32_t value)
{
    emit_number(p, (uint32_t)value << 1 ^ (value < 0 ? UINT32_MAX : 0));
}

struct answer baseline_translate(const uint8_t *text, size_t text_len, uint8_t *image, size_t image_len)
{
    uint8_t memory[2 * TEXT_LIMIT + 2];
    if (text_len > TEXT_LIMIT)
        return refused(9, 0);
    struct parser p;
    p.text = text;
    p.length = (uint32_t)text_len;
    p.token = token_at(text, p.length, 0);
    p.image = memory;
    p.written = 2; /* the two counts */
    p.watching = false;
    if (!declarations(&p) || !rules(&p) || !watches(&p))
        return p.refusal;
    if (p.written > image_len)
        return refused(10, p.length);
    memcpy(image, memory, p.written);
    return (struct answer){0, 0, p.written};
}
