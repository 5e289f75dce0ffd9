/* An answer and the tally after it, as columns of the examples' tables. */
#ifndef COLUMNS_H
#define COLUMNS_H

#include "answers.h"
#include "option_price_check.h"

#include <inttypes.h>
#include <stdio.h>

static inline void print_heading(void) {
    printf("  %-20s  %-12s  %-8s  %8s  %7s  %7s  %8s  %8s", "number", "class", "shape", "pairings",
           "seen", "refused", "accepted", "rejected");
}

/* A number without class, shape and number of pairings: of a refusal, and of what is no order. */
static inline void print_number(uint64_t number) {
    printf("  %2" PRIu64 " %-17s  %-12s  %-8s  %8s", number, number_name(number), "-", "-", "-");
}

static inline void print_answer(const struct opc_answer *a) {
    if (opc_outcome_of(a->number) == OPC_OUTCOME_REFUSED) {
        print_number(a->number);
    } else {
        printf("  %2" PRIu64 " %-17s  %-12s  %-8s  %8" PRIu64, a->number, number_name(a->number),
               class_name(a->class_), shape_name(a->shape), a->pairings);
    }
}

static inline void print_tally(const struct opc_tally *t) {
    printf("  %7" PRIu64 "  %7" PRIu64 "  %8" PRIu64 "  %8" PRIu64, t->seen, t->refused,
           t->accepted, t->rejected);
}

#endif
