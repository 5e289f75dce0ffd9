/*
 * Crossing quotes made for tests and measurements: valid ones by chance, ones that are damaged on
 * purpose so that 36 must refuse them, and the mirror image of one.
 */
#ifndef MADE_CROSSING_H
#define MADE_CROSSING_H

#include "made_quotes.h"

/* The limit of every size, and of the prices the one of quotes. */
#define MOST_SIZE 1000000
/* More than a list may have. */
#define MADE_RESTING (OPC_MAX_RESTING + 16)

/* All that the check of crossing quotes takes, but the fills that it is lent. */
struct made_crossing {
    struct made_quote quote;
    uint64_t sell, size;
    uint64_t prices[MADE_RESTING], sizes[MADE_RESTING];
    size_t prices_len, sizes_len;
    uint64_t away;
};

#define EACH_OF_CROSSING(c)                                                                        \
    EACH_OF_QUOTE(&(c)->quote), (c)->sell, (c)->size, (c)->prices, (c)->prices_len, (c)->sizes,    \
        (c)->sizes_len, (c)->away

/* The lent numbers of an answer. */
#define LENT_OF_CROSSING(a) &(a)->cancel, &(a)->executed, &(a)->booked, &(a)->cancelled

/* The quote itself; it points into what is lent. */
static inline struct opc_crossing_quote lend_crossing(const struct made_crossing *c) {
    struct opc_crossing_quote crossing = {.quote = lend_quote(&c->quote),
                                          .sell = c->sell,
                                          .size = c->size,
                                          .prices = c->prices,
                                          .prices_len = c->prices_len,
                                          .sizes = c->sizes,
                                          .sizes_len = c->sizes_len,
                                          .away = c->away};
    return crossing;
}

/* A bid for so many of a call, in an empty market, with nothing resting and no away offer. */
static inline struct made_crossing crossing_bid(uint64_t bid, uint64_t size) {
    struct made_crossing c = {.quote = quote_for("XYZ   270115C00020000", bid, bid + 1),
                              .size = size};
    return c;
}

static inline void add_resting(struct made_crossing *c, uint64_t size, uint64_t price) {
    c->prices[c->prices_len++] = price;
    c->sizes[c->sizes_len++] = size;
}

/*
 * Every price turned about a middle, and the other side: a bid against offers becomes an offer
 * against bids. A sell's mark is any value but 0.
 */
static inline struct made_crossing mirrored_crossing(const struct made_crossing *c, uint64_t sum) {
    struct made_crossing m = *c;
    m.quote = mirrored_quote(&c->quote, sum);
    m.sell = c->sell == 0 ? between(1, UINT64_MAX) : 0;
    m.away = mirrored(c->away, sum);
    for (size_t i = 0; i < MADE_RESTING; i++) {
        m.prices[i] = sum - c->prices[i];
    }
    return m;
}

/* The price of the side that is held against the list. */
static inline uint64_t own_price(const struct made_crossing *c) {
    return c->sell == 0 ? c->quote.bid : c->quote.offer;
}

/* So many by rising price, about the quote's own, with small steps between them or large ones. */
static inline void add_rising(struct made_crossing *c, size_t len) {
    uint64_t most_step = one_in(8) ? 1000000 : between(1, 4), own = own_price(c);
    uint64_t back = below(len * most_step + 1), room = MOST_QUOTED - len * most_step;
    uint64_t price = one_in(8) ? below(room) : own > back ? own - back : below(own);
    price = price < room ? price : room;
    for (size_t i = 0; i < len; i++) {
        price += between(1, most_step);
        add_resting(c, one_in(8) ? between(1, MOST_SIZE) : between(1, 100), price);
    }
}

/* So many in the side's sequence, in place of the list. */
static inline void random_list(struct made_crossing *c, size_t len) {
    c->prices_len = c->sizes_len = 0;
    add_rising(c, len);
    for (size_t i = 0, k = len; c->sell != 0 && i + 1 < k; i++, k--) {
        uint64_t price = c->prices[i];
        c->prices[i] = c->prices[k - 1];
        c->prices[k - 1] = price;
    }
}

/* Missing, near the quote's own price, or any. */
static inline uint64_t random_away(uint64_t own) {
    uint64_t near = own + below(41);
    if (one_in(8)) {
        return between(1, MOST_QUOTED);
    }
    return one_in(3) ? 0 : near > 20 && near - 20 <= MOST_QUOTED ? near - 20 : own;
}

/* A valid crossing quote, of either side: no refusal applies. */
static inline struct made_crossing random_crossing(void) {
    struct made_crossing c = {.quote = random_quote()};
    c.sell = one_in(2) ? 0 : between(1, UINT64_MAX);
    c.size = one_in(4) ? between(1, MOST_SIZE) : between(1, 2000);
    c.away = random_away(own_price(&c));
    random_list(&c, one_in(4)   ? OPC_MAX_RESTING - below(3)
                    : one_in(2) ? below(12)
                                : below(OPC_MAX_RESTING + 1));
    return c;
}

/* Outside 1 to `most`: 0, one more, or far above. */
static inline uint64_t outside_of(uint64_t most) {
    return one_in(3) ? 0 : one_in(2) ? most + 1 : between(most + 1, UINT64_MAX);
}

/* Damages some price of a list that is not empty, alone or against the one before it. */
static inline void damage_resting_price(struct made_crossing *c) {
    size_t at = below(c->prices_len);
    if (at == 0 || one_in(2)) {
        c->prices[at] = outside_of(MOST_QUOTED);
    } else if (one_in(2)) {
        c->prices[at] = c->prices[at - 1];
    } else {
        uint64_t before = c->prices[at - 1];
        c->prices[at - 1] = c->prices[at];
        c->prices[at] = before;
    }
}

/* Makes the lists too long, or one of them longer than the other, each number within its limits. */
static inline void damage_resting_lengths(struct made_crossing *c) {
    random_list(c, MADE_RESTING);
    if (one_in(2)) {
        c->prices_len = c->sizes_len = between(OPC_MAX_RESTING + 1, MADE_RESTING);
    } else {
        size_t shorter = below(OPC_MAX_RESTING), longer = between(shorter + 1, OPC_MAX_RESTING);
        c->prices_len = one_in(2) ? shorter : longer;
        c->sizes_len = c->prices_len == shorter ? longer : shorter;
    }
}

/* Damages a crossing quote so that 36 applies. */
static inline void damage_crossing(struct made_crossing *c) {
    bool is_empty = c->prices_len == 0 || c->sizes_len == 0;
    switch (is_empty ? below(3) : below(5)) {
    case 0:
        c->size = outside_of(MOST_SIZE);
        break;
    case 1:
        c->away = between(MOST_QUOTED + 1, one_in(2) ? MOST_QUOTED + 1 : UINT64_MAX);
        break;
    case 2:
        damage_resting_lengths(c);
        break;
    case 3:
        c->sizes[below(c->sizes_len)] = outside_of(MOST_SIZE);
        break;
    default:
        damage_resting_price(c);
        break;
    }
}

#endif
