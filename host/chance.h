/* Numbers by chance, the same ones on every run. */
#ifndef CHANCE_H
#define CHANCE_H

#include <stdbool.h>
#include <stdint.h>

/* A splitmix64 generator from a fixed seed. */
static inline uint64_t next_random(void) {
    static uint64_t state = 20151117;
    uint64_t z = state += 0x9e3779b97f4a7c15;
    z = (z ^ z >> 30) * 0xbf58476d1ce4e5b9;
    z = (z ^ z >> 27) * 0x94d049bb133111eb;
    return z ^ z >> 31;
}

static inline uint64_t below(uint64_t limit) { return next_random() % limit; }

static inline uint64_t between(uint64_t least, uint64_t most) {
    return least + below(most - least + 1);
}

static inline bool one_in(uint64_t n) { return below(n) == 0; }

#endif
