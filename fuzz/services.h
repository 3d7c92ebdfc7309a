/* The services with what their contracts promise tested at each call; a broken promise aborts. */
#ifndef SERVICES_H
#define SERVICES_H

#include <stddef.h>
#include <stdint.h>

enum { TEXT_MOST = 40000, IMAGE_MOST = 70000, CELLS_MOST = 140 };

struct parts {
    unsigned number;
    uint32_t place;
    uint32_t count;
};

/* Maps the memory; once. */
void services_begin(void);

/* Puts lent memory at the end of its pages, or at their start. */
void services_side(int at_end);

/* Translates `text` with `room` bytes lent; an accepted image is copied to `image` (IMAGE_MOST bytes). */
struct parts translate(const uint8_t *text, size_t length, size_t room, uint8_t *image);
struct parts check(const uint8_t *image, size_t length);
struct parts start(const uint8_t *image, size_t length, int32_t *state, size_t cells);
struct parts scan(const uint8_t *image, size_t length, int32_t *state, size_t cells, const int32_t *row, size_t inputs);
/* The farm clock; a farm table has at most CELLS_MOST numbers. */
struct parts local_hour(const uint8_t *text, size_t length, const int64_t *table, size_t numbers, int64_t utc, int32_t *row, size_t cells);

/* What is lent for a licence charge beside the image; trace and minutes have at most CELLS_MOST numbers each. */
struct bill {
    size_t id;
    const int32_t *trace;
    size_t trace_len;
    const int32_t *minutes;
    size_t minutes_len;
    int32_t threshold, rate, rate_above;
};
/* The licence charge; its answer as a whole. */
uint64_t charge(const uint8_t *image, size_t length, struct bill bill);

/* The closed profile of an image; the pair of a 27 is scanned and refused. */
struct parts closed(const uint8_t *image, size_t length);
/* The state and row of a number. */
struct parts combination(const uint8_t *image, size_t length, uint32_t index, int32_t *state, size_t cells, int32_t *row, size_t inputs);
/* How many scans the closed profile of a sound image has, 65,537 for all above 65,536 and where there is a timer. */
uint32_t scans_in(const uint8_t *image, size_t length);

/* Numbers of a state of a sound image: its names, then an elapsed time for each timer. Numbers of a row: its inputs and, with a timer, the
 * milliseconds. */
size_t state_len(const uint8_t *image, size_t length);
size_t row_len(const uint8_t *image, size_t length);

/* Tells libFuzzer which answer was met: number, the byte at its place, and the size of its count. */
void feature(unsigned service, struct parts answer, const uint8_t *bytes, size_t length);

#endif
