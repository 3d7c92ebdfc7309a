/* Inputs that are events of a controller of several rule sets, and inputs that are the memory and the table of a round. A broken promise aborts. */
#ifndef ROUNDS_H
#define ROUNDS_H

#include <stddef.h>
#include <stdint.h>

/* Maps the memory; once. */
void rounds_begin(void);

/* Puts lent memory at the end of its pages, or at their start. */
void rounds_side(int at_end);

/* A number of sets of one sound image, their shares (240 and more: its last byte cut off), then posts, states that another writes, and rounds:
 * every answer and state is what the undivided scan of the set says. */
void event_list(const uint8_t *image, size_t length, const uint8_t *at, const uint8_t *end);

/* Lengths, a table, and the memory of paused scans: a round is the calls on its parts, or 25 and nothing moves. */
void any_round(const uint8_t *image, size_t length, const uint8_t *at, const uint8_t *end);

#endif
