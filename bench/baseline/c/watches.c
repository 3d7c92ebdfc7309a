/* Watches behind the rules (document 02, A.13), of which the image holds nothing, and the end of the text. */
#include "parser.h"

/* `[c]` */
static bool listed(struct parser *p)
{
    p->open = 0;
    return expect(p, '[') && condition(p) && expect(p, ']');
}

/* `watch: G([c]);` or `watch: G([c] -> X([c]));` */
static bool watch(struct parser *p)
{
    advance(p);
    if (!expect(p, ':') || !expect(p, ALWAYS) || !expect(p, '(') || !listed(p))
        return false;
    if (p->token.kind == ARROW) {
        advance(p);
        if (!expect(p, LATER) || !expect(p, '(') || !listed(p) || !expect(p, ')'))
            return false;
    }
    return expect(p, ')') && expect(p, ';');
}

bool watches(struct parser *p)
{
    uint32_t written = p->written;
    p->watching = true;
    for (uint32_t count = 0; p->token.kind == WATCH; count++) {
        if (count == WATCHES)
            return refuse(p, 30);
        if (!watch(p))
            return false;
        p->written = written;
    }
    if (p->token.kind != END)
        return unexpected(p);
    for (uint32_t id = 0; id < p->names; id++)
        if (!p->name[id].usable)
            return refuse(p, 6);
    return true;
}
