/* Auction pairs made for tests and measurements, of valid and of damaged orders. */
#ifndef MADE_PAIRS_H
#define MADE_PAIRS_H

#include "made_orders.h"

/* Settings and market are the same in both orders. */
struct made_pair {
    struct made_order agency, contra;
    uint64_t continue_unpaired;
};

/* As the entry takes it. */
#define EACH_OF_PAIR(p)                                                                            \
    EACH_OF_ORDER(&(p)->agency), EACH_OF_ORDER(&(p)->contra), (p)->continue_unpaired

/* The pair itself; it points into what is lent. */
static inline struct opc_pair lend_pair(const struct made_pair *p) {
    struct opc_pair pair = {.agency = lend(&p->agency),
                            .contra = lend(&p->contra),
                            .continue_unpaired = p->continue_unpaired};
    return pair;
}

static inline void copy_terms(struct made_order *to, const struct made_order *from) {
    to->settings = from->settings;
    to->market = from->market;
    to->settings_len = from->settings_len;
    to->market_len = from->market_len;
}

/* The settings and the market are those of the agency order. */
static inline struct made_pair pair_of(const struct made_order *agency,
                                       const struct made_order *contra,
                                       uint64_t continue_unpaired) {
    struct made_pair p = {
        .agency = *agency, .contra = *contra, .continue_unpaired = continue_unpaired};
    copy_terms(&p.contra, agency);
    return p;
}

/* 9 and 10 are of no order alone: both orders of a pair get them. */
static inline bool is_of_terms(uint64_t number) {
    return number == OPC_BAD_SETTING || number == OPC_BAD_MARKET;
}

/* Of the least number, whose size is no int64_t, it is the same. */
static inline int64_t opposite(int64_t number) { return (int64_t)(0 - (uint64_t)number); }

/* The order that an order is crossed with: it sells what that buys, shares too, and receives what
 * that pays. */
static inline struct made_order other_side(const struct made_order *m) {
    struct made_order other = *m;
    for (size_t leg = 0; leg < legs_of(m); leg++) {
        opc_write_count(opposite(count_of(m, leg)), count_at(&other, leg));
    }
    other.price = opposite(m->price);
    other.shares = opposite(m->shares);
    return other;
}

/* A valid order, or one of three legs or more that is damaged, its settings and market not. */
static inline struct made_order random_side(void) {
    struct made_order m = random_either(one_in(2) ? between(1, 2) : between(3, OPC_MOST_LEGS));
    uint64_t number = refusals[below(REFUSALS)];
    if (legs_of(&m) > 2 && one_in(2) && !is_of_terms(number)) {
        damage(&m, number);
    }
    return m;
}

/* A pair of this order, on one side or the other, and its other side or some other order. */
static inline struct made_pair random_pair(const struct made_order *m) {
    struct made_order other = one_in(2) ? other_side(m) : random_side();
    copy_terms(&other, m);
    return one_in(2) ? pair_of(m, &other, flag()) : pair_of(&other, m, flag());
}

#endif
