/* Inputs that are lists of calls of a scan in instalments, and inputs that are the memory of one. A broken promise aborts. */
#ifndef INSTALMENTS_H
#define INSTALMENTS_H

#include "services.h"

#include <stddef.h>
#include <stdint.h>

/* Maps the memory; once. */
void instalments_begin(void);

/* Puts lent memory at the end of its pages, or at their start. */
void instalments_side(int at_end);

/* Calls on a sound image, from memory without scan and row: every answer and state is what the undivided scan says of the calls so far. */
void call_list(const uint8_t *image, size_t length, const uint8_t *at, const uint8_t *end);

/* Calls on any memory and any image: nothing outside is touched, and idle, unfinished, 24, 0 steps and a refused post move nothing. */
void any_memory(const uint8_t *image, size_t length, const uint8_t *at, const uint8_t *end);

/* What the calls so far have come to, by the undivided scan: the row that waits, and the scan that is not over. Zeros at first. */
struct expected {
    int waits, runs;
    int32_t row[CELLS_MOST], start[CELLS_MOST], end[CELLS_MOST];
    size_t inputs, size;
    struct parts whole;
    uint32_t done;
};

/* What a post, and a visit with its share, must answer; a finished visit leaves the next state in `state` (CELLS_MOST numbers). */
struct parts expect_post(struct expected *e, const uint8_t *image, size_t length, const int32_t *row, size_t inputs);
struct parts expect_visit(struct expected *e, const uint8_t *image, size_t length, int32_t *state, size_t size, size_t share);

#endif
