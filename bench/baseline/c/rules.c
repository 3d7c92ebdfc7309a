/* Rules: functions, change formulas with their no-change formulas, and pairs of a rising and a falling formula. */
#include "parser.h"
#include <string.h>

/* The conditions of a rule, each from its `[` to its `]`. */
struct list {
    uint32_t count;
    struct part {
        uint32_t start, end;
    } part[CASES];
};

/* The rule's own name again, plain or with `_` before it. */
static bool repeated(struct parser *p, int kind, uint32_t id)
{
    const struct name *name = &p->name[id];
    uint32_t start = p->token.start + (kind == OLD_NAME);
    if (p->token.kind != kind || p->token.end - start != name->length ||
        !same_name(p->text + start, name->spelling, name->length))
        return unexpected(p);
    advance(p);
    return true;
}

/* `v = _v` */
static bool unchanged(struct parser *p, uint32_t id)
{
    return repeated(p, NAME, id) && expect(p, '=') && repeated(p, OLD_NAME, id);
}

/* `v = (e)` */
static bool new_value(struct parser *p, uint32_t id)
{
    p->open = 0;
    return repeated(p, NAME, id) && expect(p, '=') && expect(p, '(') && expression(p) && expect(p, ')');
}

/* `[c]` */
static bool case_condition(struct parser *p, struct part *part)
{
    part->start = p->token.start;
    p->open = 0;
    if (!expect(p, '[') || !condition(p))
        return false;
    part->end = p->token.end;
    return expect(p, ']');
}

/* `[c] & v = (e) | ..`, picked by a code; they come behind those in the list */
static bool cases(struct parser *p, uint32_t id, uint8_t code, struct list *list)
{
    for (;; advance(p)) {
        if (p->token.kind == '[' && list->count == CASES)
            return refuse(p, 8);
        if (!case_condition(p, &list->part[list->count]))
            return false;
        emit(p, GATE);
        if (!expect(p, '&') || !new_value(p, id))
            return false;
        emit(p, code);
        emit_number(p, id);
        list->count++;
        if (p->token.kind != '|')
            return true;
    }
}

/* `[c] | ..)`, whatever the conditions are */
static bool any_conditions(struct parser *p)
{
    struct part part;
    while (case_condition(p, &part))
        if (p->token.kind == '|')
            advance(p);
        else
            return expect(p, ')');
    return false;
}

/* The token differs from the one wanted: 7, if nothing of 1 to 5 is due there. To see that, the list is read from its first token, as
 * if the text ended behind the one that differs. */
static bool differs(struct parser *p, struct token first)
{
    struct token token = p->token;
    p->token = first;
    p->length = token.end;
    if (!any_conditions(p) && p->refusal.place == token.start && p->refusal.number < 7)
        return false;
    p->refusal = refused(7, token.start);
    return false;
}

/* Whether the condition that comes next has the tokens of `part`; they are taken as far as they agree. */
static bool same_condition(struct parser *p, struct part part)
{
    uint32_t length = part.end - part.start;
    if (p->length - p->token.start >= length && memcmp(p->text + p->token.start, p->text + part.start, length) == 0) {
        p->token = token_at(p->text, p->length, p->token.start + length);
        return true;
    }
    struct token wanted = token_at(p->text, p->length, part.start);
    while (wanted.start < part.end) {
        length = wanted.end - wanted.start;
        if (p->token.kind != wanted.kind || p->token.end - p->token.start != length)
            return false;
        bool named = wanted.kind == NAME || wanted.kind == OLD_NAME;
        const uint8_t *found = p->text + p->token.start, *other = p->text + wanted.start;
        if (named ? !same_name(found, other, length) : memcmp(found, other, length) != 0)
            return false;
        advance(p);
        wanted = token_at(p->text, p->length, wanted.end);
    }
    return true;
}

/* `[c] | ..)` with the conditions of the change formula */
static bool same_conditions(struct parser *p, const struct list *list)
{
    struct token first = p->token;
    for (uint32_t k = 0; k < list->count; k++) {
        if (k > 0 && p->token.kind != '|')
            return differs(p, first);
        if (k > 0)
            advance(p);
        if (!same_condition(p, list->part[k]))
            return differs(p, first);
    }
    if (p->token.kind != ')')
        return differs(p, first);
    advance(p);
    return true;
}

/* `~(v = _v) -> cases);` and `v: GX(v = _v -> ~(conditions));` */
static bool change(struct parser *p, uint32_t id)
{
    struct list list;
    list.count = 0;
    advance(p);
    if (!expect(p, '(') || !unchanged(p, id) || !expect(p, ')') || !expect(p, ARROW))
        return false;
    if (!cases(p, id, PICK, &list) || !expect(p, ')') || !expect(p, ';'))
        return false;
    emit(p, SETTLE);
    emit_number(p, id);
    if (!repeated(p, NAME, id) || !expect(p, ':') || !expect(p, GX) || !expect(p, '('))
        return false;
    if (!unchanged(p, id) || !expect(p, ARROW) || !expect(p, '~') || !expect(p, '('))
        return false;
    return same_conditions(p, &list) && expect(p, ')') && expect(p, ';');
}

/* `: GX(v > _v -> cases);`, or with `<` */
static bool turned(struct parser *p, uint32_t id, int sign, uint8_t code, struct list *list)
{
    if (!expect(p, ':') || !expect(p, GX) || !expect(p, '('))
        return false;
    if (!repeated(p, NAME, id) || !expect(p, sign) || !repeated(p, OLD_NAME, id) || !expect(p, ARROW))
        return false;
    return cases(p, id, code, list) && expect(p, ')') && expect(p, ';');
}

/* `+: GX(v > _v -> cases);` and `v-: GX(v < _v -> cases);` */
static bool pair(struct parser *p, uint32_t id)
{
    struct list list;
    list.count = 0;
    advance(p);
    if (!turned(p, id, '>', RISE, &list) || !repeated(p, NAME, id) || !expect(p, '-'))
        return false;
    if (!turned(p, id, '<', FALL, &list))
        return false;
    emit(p, SETTLE);
    emit_number(p, id);
    return true;
}

/* `v = (e));` */
static bool function(struct parser *p, uint32_t id)
{
    if (!new_value(p, id) || !expect(p, ')') || !expect(p, ';'))
        return false;
    emit(p, LET);
    emit_number(p, id);
    return true;
}

/* `: GX(` and a change formula or a function */
static bool formula(struct parser *p, uint32_t id)
{
    if (!expect(p, ':') || !expect(p, GX) || !expect(p, '('))
        return false;
    return p->token.kind == '~' ? change(p, id) : function(p, id);
}

static bool rule(struct parser *p)
{
    if (p->token.kind != NAME)
        return unexpected(p);
    uint32_t length = p->token.end - p->token.start;
    if (length > NAME_LENGTH)
        return refuse(p, 8);
    uint32_t id = find_name(p, p->text + p->token.start, length);
    if (id == p->names)
        return refuse(p, 4);
    if (p->name[id].usable)
        return refuse(p, 6);
    advance(p);
    if (!(p->token.kind == '+' ? pair(p, id) : formula(p, id)))
        return false;
    p->name[id].usable = true;
    return true;
}

bool rules(struct parser *p)
{
    while (p->token.kind != END && p->token.kind != WATCH)
        if (!rule(p))
            return false;
    return true;
}
