/* The parser's state, shared by its parts. Each part answers false once a refusal stands in the parser. */
#ifndef PARSER_H
#define PARSER_H

#include "image.h"
#include "lexer.h"

enum {
    CASES = 32,
    BRACKETS = 16,
    WATCHES = 16,
};

struct name {
    const uint8_t *spelling;
    uint32_t length;
    bool usable; /* its current value: an input, or a variable whose rule stands earlier */
};

struct parser {
    const uint8_t *text;
    uint32_t length;
    struct token token; /* the one to be taken next */
    uint32_t open;      /* brackets */
    bool watching;      /* every current value is usable */
    uint32_t inputs;
    uint32_t names;
    struct name name[NAMES];
    uint8_t *image;
    uint32_t written;
    struct answer refusal;
};

/* parser.c */
bool refuse(struct parser *p, uint32_t number); /* at the token */
bool unexpected(struct parser *p);              /* 2, or 1 */
bool expect(struct parser *p, int kind);
uint32_t find_name(const struct parser *p, const uint8_t *spelling, uint32_t length); /* p->names if there is none */
bool open_bracket(struct parser *p);
void emit_number(struct parser *p, uint32_t number);
void emit_signed(struct parser *p, int32_t value);

/* expressions.c */
bool expression(struct parser *p);
bool condition(struct parser *p);

/* declarations.c, rules.c, watches.c */
bool declarations(struct parser *p);
bool rules(struct parser *p);
bool watches(struct parser *p); /* and the end of the text */

static inline void advance(struct parser *p)
{
    p->token = token_at(p->text, p->length, p->token.end);
}

/* No byte of a text gives more than two of the image, so the memory for it cannot run short. */
static inline void emit(struct parser *p, uint8_t byte)
{
    p->image[p->written++] = byte;
}

#endif
