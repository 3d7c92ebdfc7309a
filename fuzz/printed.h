/* Structured Text with what its contract promises tested; a broken promise aborts. */
#ifndef PRINTED_H
#define PRINTED_H

#include <stddef.h>
#include <stdint.h>

/* Maps the memory; once. */
void printed_begin(void);

/* Puts lent memory at the end of its pages, or at their start. */
void printed_side(int at_end);

/* Prints a text with room for every text, with just enough, with a byte too few and with none. */
void printed(const uint8_t *text, size_t length);

#endif
