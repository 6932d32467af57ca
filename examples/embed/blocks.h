/* Blocks of random bytes, for fuzz.c and fuzz_plan.c. A block ends at a page that can't be read or written, or begins behind one,
   so a call that goes outside there ends the program. At its other end there is a red zone. */
#ifndef BLOCKS_H
#define BLOCKS_H
#ifndef _DEFAULT_SOURCE
#define _DEFAULT_SOURCE
#endif
#include "qlock.h"
#include <stdio.h>
#include <stdlib.h>
#include <string.h>
#include <sys/mman.h>

enum { ZONE = 64, PAGE = 65536, ARENA = 2 * PAGE, ARENAS = 8 };

/* a block, and what it was before a call */
struct block {
    uint8_t *bytes, *zone, *before;
    size_t n, arena;
};

static uint64_t seed = 88172645463325252u;
static unsigned long calls, done;
static const char *call = "";
static uint8_t *arenas[ARENAS];
static int taken[ARENAS];

static inline uint64_t rnd(void) {
    seed ^= seed << 13;
    seed ^= seed >> 7;
    seed ^= seed << 17;
    return seed;
}

static inline size_t below(size_t n) { return (size_t)(rnd() % n); }

static inline void fail(const char *what, int32_t result) {
    fprintf(stderr, "fuzz: %s: %s (result %d)\n", call, what, (int)result);
    exit(1);
}

/* an arena that no block is in: two pages between two that can't be read or written */
static inline size_t free_arena(void) {
    size_t k = 0;
    while (k < ARENAS && taken[k]) k++;
    if (k == ARENAS) exit(2);
    taken[k] = 1;
    if (arenas[k] == NULL) {
        uint8_t *all = mmap(NULL, ARENA + 2 * PAGE, PROT_NONE, MAP_PRIVATE | MAP_ANONYMOUS, -1, 0);
        if (all == MAP_FAILED || mprotect(all + PAGE, ARENA, PROT_READ | PROT_WRITE) != 0) exit(2);
        arenas[k] = all + PAGE;
    }
    return k;
}

/* a block of n random bytes, at most PAGE */
static inline struct block block_of(size_t n) {
    struct block b = {NULL, NULL, malloc(n + 1), n, free_arena()};
    uint8_t *arena = arenas[b.arena];
    int at_end = below(2) == 0;
    if (b.before == NULL || n > PAGE) exit(2);
    b.bytes = at_end ? arena + ARENA - n : arena;
    b.zone = at_end ? b.bytes - ZONE : b.bytes + n;
    memset(b.zone, 0xa5, ZONE);
    for (size_t i = 0; i < n; i += 8) {
        uint64_t r = rnd();
        memcpy(b.bytes + i, &r, n - i < 8 ? n - i : 8);
    }
    return b;
}

static inline void note(struct block *b) { memcpy(b->before, b->bytes, b->n); }

static inline int is_same(const struct block *b) { return memcmp(b->before, b->bytes, b->n) == 0; }

/* ends with a block: its red zone is as it was, and so is the block if it may not change */
static inline void end(struct block *b, int may_change, int32_t result) {
    for (size_t i = 0; i < ZONE; i++)
        if (b->zone[i] != 0xa5) fail("wrote outside", result);
    if (!may_change && !is_same(b)) fail("wrote what it may not write", result);
    free(b->before);
    taken[b->arena] = 0;
}

/* flips a few bits, mostly none */
static inline void spoil(struct block *b) {
    if (b->n > 0 && below(3) == 0)
        for (size_t k = below(4); k > 0; k--) b->bytes[below(b->n)] ^= (uint8_t)(1u << below(8));
}

static inline struct block copy_of(const uint8_t *bytes, size_t n) {
    struct block b = block_of(n);
    memcpy(b.bytes, bytes, n);
    return b;
}

/* checks that the result is one of those that the header names for this call, each a digit of `named`: a is 10, b 11, to e, 14 */
static inline void is_named(int32_t result, const char *named) {
    calls++;
    if (result == QLOCK_DONE) done++;
    if (result < 0 || result > 14 || strchr(named, "0123456789abcde"[result]) == NULL) fail("unnamed result", result);
}

#endif
