#include "lexer.h"
#include <string.h>

static bool is_letter(uint8_t byte)
{
    return (uint8_t)((byte | 32) - 'a') < 26;
}

static bool is_digit(uint8_t byte)
{
    return (uint8_t)(byte - '0') < 10;
}

static bool is_white(uint8_t byte)
{
    return byte == ' ' || byte == '\n' || byte == '\t' || byte == '\r';
}

static uint8_t capital(uint8_t byte)
{
    return (uint8_t)(byte - 'a') < 26 ? byte - 32 : byte;
}

bool same_name(const uint8_t *a, const uint8_t *b, uint32_t length)
{
    for (uint32_t i = 0; i < length; i++)
        if (a[i] != b[i] && capital(a[i]) != capital(b[i]))
            return false;
    return true;
}

/* The kind of a word of the grammar, OTHER_CASE if it is that word in another case, else NAME. */
static int word_or_name(const uint8_t *word, const char *spelling, uint32_t length, int kind)
{
    if (!same_name(word, (const uint8_t *)spelling, length))
        return NAME;
    return memcmp(word, spelling, length) == 0 ? kind : OTHER_CASE;
}

static int word_kind(const uint8_t *word, uint32_t length)
{
    int kind;
    switch (length) {
    case 1:
        kind = word_or_name(word, "G", 1, ALWAYS);
        return kind != NAME ? kind : word_or_name(word, "X", 1, LATER);
    case 2:
        return word_or_name(word, "GX", 2, GX);
    case 3:
        kind = word_or_name(word, "var", 3, VAR);
        return kind != NAME ? kind : word_or_name(word, "mod", 3, MOD);
    case 4:
        return word_or_name(word, "init", 4, INIT);
    case 5:
        kind = word_or_name(word, "input", 5, INPUT);
        return kind != NAME ? kind : word_or_name(word, "watch", 5, WATCH);
    default:
        return NAME;
    }
}

static struct token word(const uint8_t *text, uint32_t length, uint32_t start)
{
    uint32_t end = start + 1;
    while (end < length && (is_letter(text[end]) || is_digit(text[end])))
        end++;
    return (struct token){word_kind(text + start, end - start), start, end};
}

/* `_` makes a previous-value token only directly before a name. */
static struct token old_name(const uint8_t *text, uint32_t length, uint32_t start)
{
    if (start + 1 < length && is_letter(text[start + 1])) {
        struct token name = word(text, length, start + 1);
        if (name.kind == NAME)
            return (struct token){OLD_NAME, start, name.end};
    }
    return (struct token){BAD, start, start + 1};
}

static struct token digits(const uint8_t *text, uint32_t length, uint32_t start)
{
    uint32_t end = start + 1;
    while (end < length && is_digit(text[end]))
        end++;
    return (struct token){DIGITS, start, end};
}

static struct token sign(const uint8_t *text, uint32_t length, uint32_t start)
{
    uint8_t byte = text[start], next = start + 1 < length ? text[start + 1] : 0;
    int pair = 0;
    switch (byte) {
    case '.':
        pair = next == '.' ? DOTS : 0;
        break;
    case '-':
        pair = next == '>' ? ARROW : 0;
        break;
    case '<':
        pair = next == '=' ? AT_MOST : next == '>' ? DIFFERENT : 0;
        break;
    case '>':
        pair = next == '=' ? AT_LEAST : 0;
        break;
    case ';': case ':': case '(': case ')': case '[': case ']': case '~': case '&': case '|': case '=': case '+': case '*':
    case '/':
        return (struct token){byte, start, start + 1};
    default:
        return (struct token){BAD, start, start + 1};
    }
    if (pair)
        return (struct token){pair, start, start + 2};
    return (struct token){byte == '.' ? BAD : byte, start, start + 1};
}

struct token token_at(const uint8_t *text, uint32_t length, uint32_t at)
{
    while (at < length && is_white(text[at]))
        at++;
    if (at == length)
        return (struct token){END, length, length};
    uint8_t byte = text[at];
    if (is_letter(byte))
        return word(text, length, at);
    if (is_digit(byte))
        return digits(text, length, at);
    if (byte == '_')
        return old_name(text, length, at);
    return sign(text, length, at);
}

uint64_t digits_value(const uint8_t *text, struct token token)
{
    uint64_t value = 0;
    for (uint32_t at = token.start; at < token.end && value <= UINT32_MAX; at++)
        value = 10 * value + (text[at] - '0');
    return value;
}
