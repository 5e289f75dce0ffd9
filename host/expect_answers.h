/* What holds of every answer to an order or a message, and an answer in the words of the cases. */
#ifndef EXPECT_ANSWERS_H
#define EXPECT_ANSWERS_H

#include "answers.h"
#include "expect.h"

#include <string.h>

static inline bool is_refusal(uint64_t number) {
    return opc_outcome_of(number) == OPC_OUTCOME_REFUSED;
}

/* Whatever the order, which has so many legs. */
static inline void expect_limits(const struct opc_answer *a, size_t legs) {
    expect(is_known(a->number), "a number that is not documented");
    if (is_refusal(a->number)) {
        expect(a->class_ == 0 && a->shape == 0 && a->pairings == 0, "a refusal with a value");
        return;
    }
    expect(a->class_ <= OPC_CLASS_CREDIT, "a class that is not documented");
    expect(a->shape <= OPC_SHAPE_BOX, "a shape that is not documented");
    expect(a->pairings < legs, "more pairings than legs can make");
    if (legs == 1) {
        expect(a->class_ != OPC_CLASS_UNDETERMINED && a->shape == 0, "class or shape of one leg");
    }
}

static inline void expect_words(const struct opc_answer *a, const char *words) {
    char text[128];
    int len = snprintf(text, sizeof text, "%" PRIu64, a->number);
    if (!is_refusal(a->number)) {
        snprintf(text + len, sizeof text - (size_t)len, " %s, %s, %" PRIu64, class_name(a->class_),
                 shape_name(a->shape), a->pairings);
    }
    expect(strcmp(text, words) == 0, "another answer than the case has");
}

#endif
