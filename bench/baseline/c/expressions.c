/* Expressions and conditions, emitted while they are read. */
#include "parser.h"

/* A name's current or previous value. */
static bool value(struct parser *p)
{
    bool old = p->token.kind == OLD_NAME;
    uint32_t start = p->token.start + old, length = p->token.end - start;
    if (length > NAME_LENGTH)
        return refuse(p, 8);
    uint32_t id = find_name(p, p->text + start, length);
    if (id == p->names)
        return refuse(p, 4);
    if (!old && !p->name[id].usable && !p->watching)
        return refuse(p, 5);
    emit(p, old ? PREVIOUS : CURRENT);
    emit_number(p, id);
    advance(p);
    return true;
}

static bool number(struct parser *p)
{
    uint64_t value = digits_value(p->text, p->token);
    if (value > INT32_MAX)
        return refuse(p, 3);
    emit(p, CONSTANT);
    emit_signed(p, (int32_t)value);
    advance(p);
    return true;
}

static bool in_brackets(struct parser *p)
{
    if (!open_bracket(p) || !expression(p) || !expect(p, ')'))
        return false;
    p->open--;
    return true;
}

static bool operand(struct parser *p)
{
    switch (p->token.kind) {
    case DIGITS:
        return number(p);
    case NAME:
    case OLD_NAME:
        return value(p);
    case '(':
        return in_brackets(p);
    default:
        return unexpected(p);
    }
}

static bool factor(struct parser *p)
{
    if (p->token.kind != '-')
        return operand(p);
    advance(p);
    if (!operand(p))
        return false;
    emit(p, NEGATE);
    return true;
}

static bool term(struct parser *p)
{
    if (!factor(p))
        return false;
    for (;;) {
        uint8_t code;
        switch (p->token.kind) {
        case '*':
            code = MULTIPLY;
            break;
        case '/':
            code = DIVIDE;
            break;
        case MOD:
            code = MODULO;
            break;
        default:
            return true;
        }
        advance(p);
        if (!factor(p))
            return false;
        emit(p, code);
    }
}

bool expression(struct parser *p)
{
    if (!term(p))
        return false;
    while (p->token.kind == '+' || p->token.kind == '-') {
        uint8_t code = p->token.kind == '+' ? ADD : SUBTRACT;
        advance(p);
        if (!term(p))
            return false;
        emit(p, code);
    }
    return true;
}

/* The code of a comparison, or 0. */
static uint8_t relation(int kind)
{
    switch (kind) {
    case '=':
        return EQUAL;
    case DIFFERENT:
        return UNEQUAL;
    case '<':
        return LESS;
    case AT_MOST:
        return LESS_EQUAL;
    case '>':
        return GREATER;
    case AT_LEAST:
        return GREATER_EQUAL;
    default:
        return 0;
    }
}

static bool comparison(struct parser *p)
{
    if (!expression(p))
        return false;
    uint8_t code = relation(p->token.kind);
    if (!code)
        return unexpected(p);
    advance(p);
    if (!expression(p))
        return false;
    emit(p, code);
    return true;
}

static bool atom(struct parser *p)
{
    bool negated = p->token.kind == '~';
    if (!negated && p->token.kind != '[')
        return comparison(p);
    if (negated) {
        advance(p);
        if (p->token.kind != '[')
            return unexpected(p);
    }
    if (!open_bracket(p) || !condition(p) || !expect(p, ']'))
        return false;
    p->open--;
    if (negated)
        emit(p, NOT);
    return true;
}

static bool atoms(struct parser *p)
{
    if (!atom(p))
        return false;
    while (p->token.kind == '&') {
        advance(p);
        if (!atom(p))
            return false;
        emit(p, AND);
    }
    return true;
}

bool condition(struct parser *p)
{
    if (!atoms(p))
        return false;
    while (p->token.kind == '|') {
        advance(p);
        if (!atoms(p))
            return false;
        emit(p, OR);
    }
    return true;
}
