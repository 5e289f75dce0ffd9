/*
 * What is expected of a crossing quote, by a plain computation from document 02, S-7; the quote by
 * itself is asked of its check. Every call is made with all that is lent under watch, through the
 * entry and through the inline function.
 *
 * Who includes this defines _DEFAULT_SOURCE first, for lent_bytes.h.
 */
#ifndef EXPECT_CROSSING_H
#define EXPECT_CROSSING_H

#include "answers.h"
#include "expect.h"
#include "expect_terms.h"
#include "lent_bytes.h"
#include "made_crossing.h"
#include "option_price_check.h"

/* As many fills as are ever lent. */
#define MOST_FILLS 4096

/* ---- the plain computation ---- */

static inline bool is_within(uint64_t number, uint64_t most) {
    return number >= 1 && number <= most;
}

/* Whether a price may come right after another in the list. */
static inline bool may_follow(const struct made_crossing *c, uint64_t before, uint64_t price) {
    return c->sell == 0 ? price > before : price < before;
}

static inline bool is_bad_list(const struct made_crossing *c, size_t fills_len) {
    if (c->prices_len != c->sizes_len || c->prices_len > 64 || c->prices_len > fills_len) {
        return true;
    }
    bool is_good = true;
    for (size_t i = 0; i < c->prices_len; i++) {
        is_good = is_good && is_within(c->prices[i], 1000000000) && is_within(c->sizes[i], 1000000);
        is_good = is_good && (i == 0 || may_follow(c, c->prices[i - 1], c->prices[i]));
    }
    return !is_good;
}

static inline bool is_bad_crossing(const struct made_crossing *c, size_t fills_len) {
    return !is_within(c->size, 1000000) || (c->away != 0 && !is_within(c->away, 1000000000)) ||
           is_bad_list(c, fills_len);
}

/* Whether a sell at one price is at least as good for its buyer as one at another; a buy mirrors.
 */
static inline bool is_as_good(const struct made_crossing *c, uint64_t price, uint64_t bound) {
    return c->sell == 0 ? price <= bound : price >= bound;
}

/* What the list has at this place at an allowed price. */
static inline uint64_t allowed_at(const struct made_crossing *c, size_t i) {
    bool is_allowed = is_as_good(c, c->prices[i], own_price(c)) &&
                      (c->away == 0 || is_as_good(c, c->prices[i], c->away));
    return is_allowed ? c->sizes[i] : 0;
}

static inline uint64_t lesser(uint64_t a, uint64_t b) { return a < b ? a : b; }

/* A fill is what the quote takes of the list up to its place, less what it takes before it. */
static inline void expect_fills(const struct made_crossing *c, struct opc_crossing_answer *a) {
    uint64_t allowed = 0;
    for (size_t i = 0; i < c->prices_len; i++) {
        uint64_t before = lesser(allowed, c->size);
        allowed += allowed_at(c, i);
        a->fills[i] = lesser(allowed, c->size) - before;
    }
    a->executed = lesser(allowed, c->size);
    /* An away price that is as good as the quote's own would be locked or crossed by it. */
    bool is_cancelled = c->away != 0 && is_as_good(c, c->away, own_price(c));
    *(is_cancelled ? &a->cancelled : &a->booked) = c->size - a->executed;
}

static inline struct opc_quote_answer answer_alone(const struct made_quote *q) {
    struct opc_quote_answer a;
    a.number = opc_check_quote(EACH_OF_QUOTE(q), SLICES_OF(q), &a.cancel);
    return a;
}

/* The whole answer where so many fills are lent; those after its own are 0. */
static inline struct opc_crossing_answer expected_answer(const struct made_crossing *c,
                                                         size_t fills_len) {
    struct opc_crossing_answer a = {.number = OPC_BAD_CROSSING};
    struct opc_quote_answer alone = answer_alone(&c->quote);
    bool is_refused = opc_outcome_of(alone.number) == OPC_OUTCOME_REFUSED;
    if (is_refused || !is_bad_crossing(c, fills_len)) {
        a.number = alone.number;
        a.cancel = alone.cancel;
    }
    if (a.number == OPC_ACCEPTED) {
        expect_fills(c, &a);
    }
    return a;
}

/* ---- the calls ---- */

/* The crossing quote tried last, for the message of a failure. */
static struct made_crossing crossing_now;
static size_t fills_len_now;

static inline void print_crossing(void) {
    const struct made_crossing *c = &crossing_now;
    const struct made_quote *q = &c->quote;
    const uint64_t numbers[] = {q->bid, q->offer, q->resting, c->sell, c->size, c->away};
    fprintf(stderr, "  symbol: %.*s\n", (int)q->symbol_len, (const char *)q->symbol);
    print_numbers("bid, offer, resting, sell, size, away", numbers, COUNT(numbers));
    print_numbers("prices", c->prices, c->prices_len);
    print_numbers("sizes", c->sizes, c->sizes_len);
    fprintf(stderr, "  lent: %zu fills\n", fills_len_now);
    print_terms(&q->settings, q->settings_len, &q->market, q->market_len);
}

/* The crossing quote as it is lent: every slice ends where a page begins that may not be touched.
 */
struct lent_crossing {
    struct opc_crossing_quote crossing;
    struct lent_bytes symbol, prices, sizes, fills;
    struct lent_terms terms;
};

static inline void lend_watched(struct lent_crossing *lent, const struct made_crossing *c) {
    const struct made_quote *q = &c->quote;
    lent->crossing = lend_crossing(c);
    lent->crossing.quote.symbol = lend_bytes(&lent->symbol, q->symbol, q->symbol_len);
    lent->crossing.prices = lend_list(&lent->prices, c->prices, c->prices_len);
    lent->crossing.sizes = lend_list(&lent->sizes, c->sizes, c->sizes_len);
    lend_terms(&lent->terms, &q->settings, q->settings_len, &q->market, q->market_len);
}

static inline bool is_all_kept(const struct lent_crossing *lent) {
    return are_kept(&lent->symbol) && are_kept(&lent->prices) && are_kept(&lent->sizes) &&
           terms_are_kept(&lent->terms);
}

static inline bool are_zeros(const uint64_t *numbers, size_t len) {
    uint64_t any = 0;
    for (size_t i = 0; i < len; i++) {
        any |= numbers[i];
    }
    return any == 0;
}

/*
 * Asks the entry with this in every number that it sets. The fills after those of an answer must be
 * 0, and those that the answer has beyond what is lent count as 0.
 */
static inline struct opc_crossing_answer ask_entry(struct lent_crossing *lent, size_t fills_len,
                                                   uint64_t garbage) {
    static uint64_t before[MOST_FILLS];
    struct opc_crossing_answer a = {.cancel = garbage, .executed = garbage};
    size_t own = fills_len < OPC_MAX_RESTING ? fills_len : OPC_MAX_RESTING;
    a.booked = a.cancelled = garbage;
    expect(fills_len <= MOST_FILLS, "more fills than can be lent");
    for (size_t i = 0; i < fills_len; i++) {
        before[i] = garbage + i;
    }
    uint64_t *fills = lend_changeable(&lent->fills, before, fills_len * sizeof *fills);
    a.number =
        opc_check_crossing_quote(EACH_OF_CROSSING(&lent->crossing), EACH_OF_TERMS(&lent->terms),
                                 fills_len == 0 ? NULL : fills, fills_len, LENT_OF_CROSSING(&a));
    memcpy(a.fills, fills, own * sizeof *fills);
    expect(are_zeros(fills + own, fills_len - own), "a fill after the most that there can be");
    expect(guard_is_kept(&lent->fills), "a byte before the fills is not kept");
    expect(is_all_kept(lent), "a lent slice is not kept");
    return a;
}

/* Number, flag, every lent number and every fill are the other's. */
static inline void expect_same(const struct opc_crossing_answer *a,
                               const struct opc_crossing_answer *b, const char *what) {
    expect(a->number == b->number, "the number");
    expect(a->cancel == b->cancel, "the cancel flag");
    expect(a->executed == b->executed, "what is executed");
    expect(a->booked == b->booked, "what is booked");
    expect(a->cancelled == b->cancelled, "what is cancelled");
    expect(memcmp(a->fills, b->fills, sizeof a->fills) == 0, "the fills");
    expect(memcmp(a, b, sizeof *a) == 0, what);
}

/* What document 02 has of every answer, whatever the rule of the fills. */
static inline void expect_shares(const struct made_crossing *c,
                                 const struct opc_crossing_answer *a) {
    uint64_t sum = 0;
    bool are_within = true;
    for (size_t i = 0; i < OPC_MAX_RESTING; i++) {
        sum += a->fills[i];
        are_within = are_within && (a->fills[i] == 0 || a->fills[i] <= c->sizes[i]);
    }
    expect(are_within, "a fill beyond its size");
    expect(a->executed == sum, "executed is not the sum of the fills");
    expect(a->booked == 0 || a->cancelled == 0, "both booked and cancelled");
    expect(a->executed + a->booked + a->cancelled == (a->number == OPC_ACCEPTED ? c->size : 0),
           "the parts are not the size");
}

/*
 * Asks the entry twice, with different garbage in all that it sets, so that it shows if one is
 * unset, then the inline function, and holds all to the plain computation. Gives the answer.
 */
static inline struct opc_crossing_answer answer_to(const struct made_crossing *c,
                                                   size_t fills_len) {
    static struct lent_crossing lent;
    const struct made_quote *q = &c->quote;
    uint64_t garbage = next_random();
    crossing_now = *c;
    fills_len_now = fills_len;
    struct opc_crossing_answer expected = expected_answer(c, fills_len);
    lend_watched(&lent, c);
    struct opc_crossing_answer a = ask_entry(&lent, fills_len, garbage);
    expect_same(&a, &expected, "another answer than the plain one");
    struct opc_crossing_answer again = ask_entry(&lent, fills_len, ~garbage);
    expect_same(&again, &a, "another answer to the same");
    expect_shares(c, &a);
    if (q->settings_len == OPC_SETTINGS_COUNT && q->market_len == OPC_MARKET_COUNT) {
        expected = expected_answer(c, OPC_MAX_RESTING);
        again = opc_answer_crossing_quote(&lent.crossing, &q->settings, &q->market);
        expect_same(&again, &expected, "another answer by the inline function");
    }
    return a;
}

/* The answer with as many fills as the inline function lends has this number. */
static inline void expect_number(const struct made_crossing *c, uint64_t number, const char *what) {
    expect(answer_to(c, OPC_MAX_RESTING).number == number, what);
}

#endif
