#define _GNU_SOURCE
#include "memory.h"

#include <stdlib.h>
#include <string.h>
#include <sys/mman.h>
#include <unistd.h>

enum { PAGE = 4096, CANARIES = 64, CANARY = 0x5A };

static uint8_t *map(size_t bytes, int protection, int flags, int file) {
    void *at = mmap(NULL, bytes, protection, flags, file, 0);
    if (at == MAP_FAILED)
        abort();
    return at;
}

/* The pages of `file` between two pages that nobody may touch. */
static uint8_t *fenced(int file, size_t size, int protection) {
    uint8_t *whole = map(size + 2 * PAGE, PROT_NONE, MAP_PRIVATE | MAP_ANONYMOUS, -1);
    if (mmap(whole + PAGE, size, protection, MAP_SHARED | MAP_FIXED, file, 0) == MAP_FAILED)
        abort();
    return whole + PAGE;
}

struct region region(size_t bytes, enum access access) {
    size_t size = (bytes + CANARIES + PAGE - 1) / PAGE * PAGE;
    int file = memfd_create("lent", 0);
    if (file < 0 || ftruncate(file, (off_t)size) != 0)
        abort();
    struct region r;
    r.own = map(size, PROT_READ | PROT_WRITE, MAP_SHARED, file);
    r.lent = fenced(file, size, access == WRITABLE ? PROT_READ | PROT_WRITE : PROT_READ);
    r.size = size;
    close(file);
    return r;
}

struct part part(struct region r, size_t bytes, enum side side) {
    if (bytes + CANARIES > r.size)
        abort();
    size_t from = side == AT_START ? 0 : r.size - bytes;
    size_t canaries = side == AT_START ? bytes : from - CANARIES;
    struct part p = {r.own + from, r.lent + from, r.own + canaries};
    memset(p.canaries, CANARY, CANARIES);
    return p;
}

void part_intact(struct part p) {
    for (int i = 0; i < CANARIES; i++)
        if (p.canaries[i] != CANARY)
            abort();
}
