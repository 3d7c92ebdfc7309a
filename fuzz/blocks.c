#define _GNU_SOURCE
#include "blocks.h"
#include "rolvenko.h"

#include <signal.h>
#include <stdio.h>
#include <stdlib.h>
#include <string.h>
#include <sys/mman.h>
#include <ucontext.h>

enum { MOST = 16384, BREAKPOINT = 0xCC };

/* libFuzzer reads this section after each run. */
__attribute__((section("__libfuzzer_extra_counters"))) static uint8_t hits[MOST];

static uint8_t *blocks[MOST];
static uint8_t bytes[MOST];
static uint8_t ever[MOST];
static size_t count;
static uintptr_t bias;
static char unhit_file[4096];

static int compare(const void *a, const void *b) {
    const uint8_t *x = *(uint8_t *const *)a, *y = *(uint8_t *const *)b;
    return (x > y) - (x < y);
}

/* The byte is put back and the block goes on from its first instruction. */
static void trapped(int signal, siginfo_t *info, void *context) {
    (void)signal;
    (void)info;
    greg_t *rip = &((ucontext_t *)context)->uc_mcontext.gregs[REG_RIP];
    uint8_t *at = (uint8_t *)*rip - 1;
    uint8_t **found = bsearch(&at, blocks, count, sizeof *blocks, compare);
    if (!found)
        abort();
    size_t index = (size_t)(found - blocks);
    *at = bytes[index];
    hits[index] = 1;
    ever[index] = 1;
    *rip = (greg_t)(uintptr_t)at;
}

static void report(void) {
    size_t hit = 0;
    FILE *unhit = fopen(unhit_file, "w");
    for (size_t i = 0; i < count; i++) {
        hit += ever[i];
        if (!ever[i] && unhit)
            fprintf(unhit, "%lx\n", (unsigned long)((uintptr_t)blocks[i] - bias));
    }
    if (unhit)
        fclose(unhit);
    fprintf(stderr, "blocks of the archive hit: %zu of %zu\n", hit, count);
}

static void read_blocks(const char *file) {
    FILE *list = fopen(file, "r");
    unsigned long at;
    if (!list || fscanf(list, "%lx", &at) != 1)
        abort();
    bias = (uintptr_t)&rolvenko_check - at;
    while (count < MOST && fscanf(list, "%lx", &at) == 1)
        blocks[count++] = (uint8_t *)(at + bias);
    fclose(list);
    if (count == 0 || count == MOST)
        abort();
    qsort(blocks, count, sizeof *blocks, compare);
}

void blocks_watch(const char *file) {
    read_blocks(file);
    snprintf(unhit_file, sizeof unhit_file, "%s.unhit", file);
    uintptr_t first = (uintptr_t)blocks[0] & ~(uintptr_t)4095;
    uintptr_t end = (uintptr_t)blocks[count - 1] + 1;
    if (mprotect((void *)first, end - first, PROT_READ | PROT_WRITE | PROT_EXEC) != 0)
        abort();
    struct sigaction action;
    memset(&action, 0, sizeof action);
    action.sa_sigaction = trapped;
    action.sa_flags = SA_SIGINFO;
    if (sigaction(SIGTRAP, &action, NULL) != 0)
        abort();
    for (size_t i = 0; i < count; i++) {
        bytes[i] = *blocks[i];
        *blocks[i] = BREAKPOINT;
    }
    atexit(report);
}
