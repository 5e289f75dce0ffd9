/*
 * Quotes made for tests and measurements: valid ones by chance, and ones that are damaged on
 * purpose so that a known number must refuse them.
 */
#ifndef MADE_QUOTES_H
#define MADE_QUOTES_H

#include "made_orders.h"

#define MOST_QUOTED 1000000000
/* More bytes than a symbol has. */
#define MADE_SYMBOL 64

/* All that the quote check takes; the bytes are held here, and `lend_quote` makes the quote. */
struct made_quote {
    uint8_t symbol[MADE_SYMBOL];
    size_t symbol_len;
    uint64_t bid, offer, resting;
    struct opc_settings settings;
    struct opc_market market;
    size_t settings_len, market_len;
};

#define EACH_OF_QUOTE(q) (q)->symbol, (q)->symbol_len, (q)->bid, (q)->offer, (q)->resting

/* A quote with document 01's example settings, in an empty market. */
static inline struct made_quote quote_for(const char *symbol, uint64_t bid, uint64_t offer) {
    struct made_quote q = {.symbol_len = OPC_SYMBOL_LENGTH,
                           .bid = bid,
                           .offer = offer,
                           .settings = OPC_EXAMPLE_SETTINGS,
                           .market = OPC_EMPTY_MARKET,
                           .settings_len = OPC_SETTINGS_COUNT,
                           .market_len = OPC_MARKET_COUNT};
    memcpy(q.symbol, symbol, OPC_SYMBOL_LENGTH);
    return q;
}

/* The quote itself; it points into what is lent. */
static inline struct opc_quote lend_quote(const struct made_quote *q) {
    struct opc_quote quote = {.symbol = q->symbol,
                              .symbol_len = q->symbol_len,
                              .bid = q->bid,
                              .offer = q->offer,
                              .resting = q->resting};
    return quote;
}

/* A price turned about the middle between 0 and the sum; one that is missing stays so. */
static inline uint64_t mirrored(uint64_t price, uint64_t sum) {
    return price == 0 ? 0 : sum - price;
}

/* The quote with its prices and those of the market turned: what was bid is offered. */
static inline struct made_quote mirrored_quote(const struct made_quote *q, uint64_t sum) {
    struct made_quote m = *q;
    m.bid = sum - q->offer;
    m.offer = sum - q->bid;
    m.market.nbb = mirrored(q->market.nbo, sum);
    m.market.nbo = mirrored(q->market.nbb, sum);
    m.market.own_bid = mirrored(q->market.own_offer, sum);
    m.market.own_offer = mirrored(q->market.own_bid, sum);
    return m;
}

/* A bid at which some check could turn: near a market value or a strike, or any. */
static inline uint64_t random_bid(const struct opc_market *k) {
    const uint64_t near[] = {k->underlying, k->nbb, k->nbo, k->own_bid, k->own_offer, 10000, 20000};
    uint64_t bid = near[below(COUNT(near))] + below(200);
    if (one_in(16)) {
        bid = below(MOST_QUOTED - 200);
    }
    return bid > 100 ? bid - 100 : bid + 1;
}

/*
 * A valid quote: no refusal applies. The exchange's own prices are often the national best, since
 * the set ticks count only there.
 */
static inline struct made_quote random_quote(void) {
    struct made_order order = random_order(1);
    struct made_quote q = quote_for((const char *)order.symbols, 0, 0);
    q.settings = order.settings;
    q.market = order.market;
    if (one_in(2)) {
        q.market.own_bid = q.market.nbb;
    }
    if (one_in(2)) {
        q.market.own_offer = q.market.nbo;
    }
    q.bid = random_bid(&q.market);
    q.offer = q.bid + between(1, 200);
    if (one_in(16)) {
        q.offer = between(q.bid + 1, MOST_QUOTED);
    }
    q.resting = one_in(2) ? 0 : next_random();
    return q;
}

static inline void damage_prices(struct made_quote *q) {
    switch (below(4)) {
    case 0:
        q->bid = 0;
        break;
    case 1:
        q->offer = one_in(2) ? MOST_QUOTED + 1 : next_random() | 1ULL << 63;
        break;
    case 2:
        q->bid = q->offer;
        break;
    default:
        q->bid = q->offer + between(1, UINT64_MAX - q->offer);
        break;
    }
}

/* The numbers that refuse a quote, lowest first. */
static const uint64_t quote_refusals[] = {OPC_NOT_21_BYTES, OPC_BAD_SYMBOL, OPC_BAD_SETTING,
                                          OPC_BAD_MARKET, OPC_BAD_QUOTE};
#define QUOTE_REFUSALS COUNT(quote_refusals)

/* Damages a quote so that `number`, one of the above, applies. */
static inline void damage_quote(struct made_quote *q, uint64_t number) {
    switch (number) {
    case OPC_NOT_21_BYTES:
        q->symbol_len =
            one_in(2) ? below(OPC_SYMBOL_LENGTH) : between(OPC_SYMBOL_LENGTH + 1, MADE_SYMBOL);
        break;
    case OPC_BAD_SYMBOL:
        damage_symbol(q->symbol);
        break;
    case OPC_BAD_SETTING:
        damage_settings(&q->settings, &q->settings_len);
        break;
    case OPC_BAD_MARKET:
        damage_market(&q->market, &q->market_len);
        break;
    default:
        damage_prices(q);
        break;
    }
}

#endif
