/*
 * The library's answers: their values in words, as tables print them, and when two are the same.
 */
#ifndef ANSWERS_H
#define ANSWERS_H

#include "count.h"
#include "option_price_check.h"

#include <stdbool.h>

/* A row of the header's table of numbers, its outcome apart. */
struct number_row {
    uint64_t number;
    const char *name, *author, *word, *meaning;
};

#define NUMBER_ROW(name, number, outcome, author, word, meaning)                                   \
    {number, #name, author, word, meaning},
static const struct number_row number_rows[] = {OPC_NUMBERS(NUMBER_ROW)};

/* For a number that the table does not have. */
static const struct number_row unknown_row = {0, "", "library", "unknown", "an unknown number"};

static inline const struct number_row *row_of(uint64_t number) {
    for (size_t i = 0; i < COUNT(number_rows); i++) {
        if (number_rows[i].number == number) {
            return &number_rows[i];
        }
    }
    return &unknown_row;
}

static inline bool is_known(uint64_t number) { return row_of(number) != &unknown_row; }

/* A set of numbers below 63: bit n is number n. Larger ones are all bit 63, which none has. */
static inline uint64_t only(uint64_t number) { return 1ULL << (number < 63 ? number : 63); }

static inline const char *number_name(uint64_t number) { return row_of(number)->word; }

static inline const char *name_in(const char *const names[], size_t len, uint64_t value) {
    return value < len ? names[value] : "unknown";
}

static inline const char *outcome_name(enum opc_outcome outcome) {
    static const char *const names[] = {
        [OPC_OUTCOME_ACCEPTED] = "accepted",
        [OPC_OUTCOME_REFUSED] = "refused",
        [OPC_OUTCOME_REJECTED] = "rejected",
    };
    return name_in(names, COUNT(names), outcome);
}

static inline const char *class_name(uint64_t class_) {
    static const char *const names[] = {
        [OPC_CLASS_UNDETERMINED] = "undetermined",
        [OPC_CLASS_DEBIT] = "debit",
        [OPC_CLASS_CREDIT] = "credit",
    };
    return name_in(names, COUNT(names), class_);
}

static inline const char *shape_name(uint64_t shape) {
    static const char *const names[] = {
        [OPC_SHAPE_OTHER] = "other",
        [OPC_SHAPE_VERTICAL] = "vertical",
        [OPC_SHAPE_TRUE_BUTTERFLY] = "true butterfly",
        [OPC_SHAPE_SKEWED_BUTTERFLY] = "skewed butterfly",
        [OPC_SHAPE_BOX] = "box",
    };
    return name_in(names, COUNT(names), shape);
}

/* Of an order of a pair. */
static inline const char *passes_name(uint64_t passes) {
    static const char *const names[] = {"stopped", "passes"};
    return name_in(names, COUNT(names), passes);
}

/* How a crossing quote ends: 1 where some is executed, and 2 booked, 4 cancelled; 0 if it fails. */
static inline uint64_t end_of(const struct opc_crossing_answer *a) {
    return (a->executed > 0 ? 1u : 0u) + (a->booked > 0 ? 2u : 0u) + (a->cancelled > 0 ? 4u : 0u);
}

static inline bool same_answer(const struct opc_answer *a, const struct opc_answer *b) {
    return a->number == b->number && a->class_ == b->class_ && a->shape == b->shape &&
           a->pairings == b->pairings;
}

static inline bool same_pair_answer(const struct opc_pair_answer *a,
                                    const struct opc_pair_answer *b) {
    return a->agency_number == b->agency_number && a->contra_number == b->contra_number &&
           a->agency_passes == b->agency_passes && a->contra_passes == b->contra_passes;
}

static inline bool same_tally(const struct opc_tally *a, const struct opc_tally *b) {
    return a->seen == b->seen && a->refused == b->refused && a->accepted == b->accepted &&
           a->rejected == b->rejected;
}

#endif
