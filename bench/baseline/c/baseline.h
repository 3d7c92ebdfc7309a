/* Launch rules in plain C: the four services of document 01 (with A.2, A.5 and A.6 of document 02, without timers), written from the documents alone. It is not
 * part of the product: bench/ measures the proved archive against it.
 */
#ifndef BASELINE_H
#define BASELINE_H

#include <stddef.h>
#include <stdint.h>

/* A refusal's number and place, or number 0; count is the image's length (translate) or the steps (scan). */
struct answer {
    uint32_t number;
    uint32_t place;
    uint32_t count;
};

/* Translates into 64 KiB of stack and copies the image when the text has no fault. */
struct answer baseline_translate(const uint8_t *text, size_t text_len, uint8_t *image, size_t image_len);
struct answer baseline_check(const uint8_t *image, size_t image_len);
struct answer baseline_start(const uint8_t *image, size_t image_len, int32_t *state, size_t state_len);
struct answer baseline_scan(const uint8_t *image, size_t image_len, int32_t *state, size_t state_len, const int32_t *row,
                            size_t row_len);

#endif
