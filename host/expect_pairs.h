/* An answer to a pair in the words of the cases. */
#ifndef EXPECT_PAIRS_H
#define EXPECT_PAIRS_H

#include "answers.h"
#include "expect.h"

#include <string.h>

static inline void expect_pair_words(const struct opc_pair_answer *a, const char *words) {
    char text[128];
    snprintf(text, sizeof text, "%" PRIu64 " %s / %" PRIu64 " %s", a->agency_number,
             passes_name(a->agency_passes), a->contra_number, passes_name(a->contra_passes));
    expect(strcmp(text, words) == 0, "another answer than the case has");
}

#endif
