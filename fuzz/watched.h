/* Watches with what their contract promises tested; a broken promise aborts. */
#ifndef WATCHED_H
#define WATCHED_H

#include <stddef.h>
#include <stdint.h>

/* Maps the memory; once. */
void watched_begin(void);

/* Puts lent memory at the end of its pages, or at their start. */
void watched_side(int at_end);

/* The watches of a text over a trace of at most CELLS_MOST numbers, over each shorter trace, and with reports of wrong lengths. */
void watched(const uint8_t *text, size_t length, const int32_t *trace, size_t numbers);

#endif
