/* rolvenko_replay against the same rows one by one. */
#ifndef REPLAY_H
#define REPLAY_H

#include "services.h"

enum { ROWS_MOST = 40 };

/* Rows of at most CELLS_MOST numbers, one behind the other. */
struct rows {
    const int32_t *cells;
    const size_t *lengths;
    size_t count;
};

/* Replays rows of an accepted text with `room` numbers lent for the trace; aborts where answer or memory are not those of `scan`. */
void replay(const uint8_t *text, size_t length, const uint8_t *image, size_t image_len, struct rows rows, size_t room);

#endif
