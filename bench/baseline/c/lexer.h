/* Tokens of a rule text. */
#ifndef LEXER_H
#define LEXER_H

#include <stdbool.h>
#include <stdint.h>

/* A token of one byte has that byte as its kind. */
enum kind {
    BAD = 256, /* a byte of no token, a lone `_` or `.` */
    END,
    NAME,
    OLD_NAME, /* `_` and a name */
    DIGITS,
    INPUT,
    VAR,
    INIT,
    MOD,
    GX,
    WATCH,
    ALWAYS, /* `G` */
    LATER,  /* `X` */
    DOTS,
    ARROW,
    AT_MOST,
    AT_LEAST,
    DIFFERENT,
    OTHER_CASE, /* a word of the grammar in another case (document 02, A.2) */
};

enum { NAME_LENGTH = 16 };

struct token {
    int kind;
    uint32_t start; /* the text's length for END */
    uint32_t end;
};

/* The token at or behind `at`. */
struct token token_at(const uint8_t *text, uint32_t length, uint32_t at);

/* Names of one length are the same with a to z read as A to Z. */
bool same_name(const uint8_t *a, const uint8_t *b, uint32_t length);

/* The value of DIGITS; any value over 2^31 stands for all that are. */
uint64_t digits_value(const uint8_t *text, struct token token);

#endif
