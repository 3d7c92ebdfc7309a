/* Memory to lend: between pages that fault on any access, at their very edge, and with a view that faults on any write. */
#ifndef MEMORY_H
#define MEMORY_H

#include <stddef.h>
#include <stdint.h>

/* A region of some pages, mapped twice: `own` is for the harness, `lent` for the services. */
struct region {
    uint8_t *own;
    uint8_t *lent;
    size_t size;
};

enum access { READ_ONLY, WRITABLE };
enum side { AT_START, AT_END };

/* A region for at least `bytes` bytes, lent for reading only or for writing too. */
struct region region(size_t bytes, enum access access);

/* `bytes` bytes of a region at its start or its end, as the services get them and as the harness sees them. The other bytes near
 * them become canaries. `bytes` must fit. */
struct part {
    uint8_t *own;
    uint8_t *lent;
    uint8_t *canaries;
};
struct part part(struct region r, size_t bytes, enum side side);

/* Aborts if a canary of the part was written. */
void part_intact(struct part p);

#endif
