/* Tallies for tests: those on which nothing is counted, and how one is counted on. */
#ifndef MADE_TALLIES_H
#define MADE_TALLIES_H

#include "option_price_check.h"

/* The tally after a check that was given the number. */
static inline struct opc_tally counted(struct opc_tally tally, uint64_t number) {
    uint64_t *const by_outcome[] = {[OPC_OUTCOME_ACCEPTED] = &tally.accepted,
                                    [OPC_OUTCOME_REFUSED] = &tally.refused,
                                    [OPC_OUTCOME_REJECTED] = &tally.rejected};
    tally.seen++;
    ++*by_outcome[opc_outcome_of(number)];
    return tally;
}

#define HALF (1ULL << 63)
#define THIRD (UINT64_MAX / 3)

/* Tallies on which nothing is counted. */
static const struct opc_tally bad_tallies[] = {
    /* The last check is counted. */
    {1000000, 1000000, 0, 0},
    {1000000, 0, 1000000, 0},
    {1000000, 0, 0, 1000000},
    {1000001, 1, 1000000, 0},
    {1ULL << 32, 0, 1ULL << 32, 0},
    {UINT64_MAX, UINT64_MAX, 0, 0},
    {UINT64_MAX, THIRD, THIRD, THIRD},
    /* One more or one less in one of the four. */
    {7, 1, 2, 3},
    {5, 1, 2, 3},
    {6, 2, 2, 3},
    {6, 0, 2, 3},
    {6, 1, 3, 3},
    {6, 1, 1, 3},
    {6, 1, 2, 4},
    {6, 1, 2, 2},
    {1, 0, 0, 0},
    {0, 1, 0, 0},
    {0, 0, 1, 0},
    {0, 0, 0, 1},
    {999999, 1000000, 0, 0},
    {1000000, 999999, 0, 0},
    {1000000, 0, 0, 0},
    {UINT64_MAX, 0, 0, 0},
    {0, UINT64_MAX, UINT64_MAX, UINT64_MAX},
    /* The sum is right in 64 bits only, whichever two are added first. */
    {0, UINT64_MAX, 1, 0},
    {0, UINT64_MAX, 0, 1},
    {0, 0, UINT64_MAX, 1},
    {0, 1, UINT64_MAX, 0},
    {5, HALF, HALF, 5},
    {5, HALF, 5, HALF},
    {5, 5, HALF, HALF},
    {4, UINT64_MAX, 2, 3},
    {999999, UINT64_MAX, 1, 999999},
    /* Three times two THIRDs: twice over, and 1. */
    {1, 2 * THIRD + 1, 2 * THIRD + 1, 2 * THIRD + 1},
    /* The sum is right in 32 bits only. */
    {6, 1ULL << 32 | 1, 2, 3},
    {6, 1, 1ULL << 32 | 2, 3},
    {6, 1, 2, 1ULL << 32 | 3},
};

#endif
