/* What the comparisons share: words read from a file, buffers of exactly their length with guard bytes behind them. */
#ifndef COMPARE_H
#define COMPARE_H

#include "gv.h"
#include <stdio.h>
#include <stdlib.h>
#include <string.h>

enum { FILL = 0xa5, GUARD = 0x5a, GUARDS = 64 };

static inline void need(void *to, size_t n, FILE *f)
{
    if (fread(to, 1, n, f) != n) {
        fprintf(stderr, "compare: a file ends too early\n");
        exit(2);
    }
}

static inline uint32_t word(FILE *f)
{
    uint8_t b[4];
    need(b, 4, f);
    return b[0] | (uint32_t)b[1] << 8 | (uint32_t)b[2] << 16 | (uint32_t)b[3] << 24;
}

static inline uint8_t *filled(size_t n)
{
    uint8_t *p = malloc(n + GUARDS);
    memset(p, FILL, n);
    memset(p + n, GUARD, GUARDS);
    return p;
}

static inline int guarded(const uint8_t *p, size_t n)
{
    for (size_t i = 0; i < GUARDS; i++)
        if (p[n + i] != GUARD)
            return 0;
    return 1;
}

static inline uint64_t number(FILE *f)
{
    uint64_t low = word(f);
    return low | (uint64_t)word(f) << 32;
}

#endif
