/* What a test of the C functions expects; a wrong answer or wrong memory is told and counted. */
#ifndef EXPECT_H
#define EXPECT_H

#include "rolvenko.h"

#include <stdio.h>
#include <string.h>

static int failures;

static inline void expect(const char *what, uint64_t answer, unsigned number, uint32_t place, uint32_t count) {
    if (answer == ((uint64_t)number << 56 | (uint64_t)place << 24 | count) && rolvenko_number(answer) == number &&
        rolvenko_place(answer) == place && rolvenko_count(answer) == count)
        return;
    printf("%s: %u at %u, count %u\n", what, rolvenko_number(answer), rolvenko_place(answer), rolvenko_count(answer));
    failures++;
}

static inline void same(const char *what, const void *found, const void *wanted, size_t bytes) {
    if (memcmp(found, wanted, bytes) != 0) {
        printf("%s: other memory\n", what);
        failures++;
    }
}

static inline void holds(const char *what, int fact) {
    if (!fact) {
        printf("%s: no\n", what);
        failures++;
    }
}

#endif
