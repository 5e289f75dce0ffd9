/*
 * The shaped form: the input's bytes choose among values close to the limits, so that orders and
 * quotes are mostly valid and the rules meet. No rule is applied here: where a check draws its
 * line is only guessed at, from sums and products of what is there.
 */
#ifndef SHAPED_H
#define SHAPED_H

#include "call.h"
#include "crossings.h"
#include "messages.h"
#include "sessions.h"

#define SHAPED_LEGS 17
#define LARGEST_STRIKE 99999999
#define LARGEST_MARKET_VALUE LARGEST_PRICE

struct shaped_leg {
    uint64_t expiry; /* yymmdd */
    char option_type;
    uint64_t strike;
    int64_t count;
};

/* What the legs of one order are drawn from. */
struct pool {
    const char *root;
    size_t first_expiry;
    uint64_t strike;
    uint64_t step;
};

static const char *const roots[] = {"XYZ", "A", "SPXW", "ABCDEF", "Z9", "BRKB7"};

/* Neighbours by day, month and year, and dates whose parts compare in different directions. */
static const uint64_t expiries[] = {160318, 160319, 160418, 170318, 150420, 160131,
                                    991231, 101,    240229, 170101, 161231, 160218};

static inline struct pool shaped_pool(struct input *in) {
    static const uint64_t steps[] = {5000, 1000, 500, 2500, 1, 12345};
    struct pool pool;
    pool.root = PICK(in, roots);
    pool.first_expiry = take(in);
    pool.step = PICK(in, steps);
    uint8_t place = take(in);
    pool.strike = place < 200   ? pool.step * (1 + place % 40)
                  : place < 220 ? 1
                  : place < 240 ? LARGEST_STRIKE - 7 * pool.step
                                : 1 + take_number(in, 4) % 90000000;
    return pool;
}

static inline uint64_t pool_expiry(const struct pool *pool, size_t place) {
    return expiries[(pool->first_expiry + place) % (sizeof expiries / sizeof expiries[0])];
}

static inline uint64_t pool_strike(const struct pool *pool, uint64_t place) {
    return pool->strike + place * pool->step;
}

static inline struct shaped_leg shaped_leg(struct input *in, const struct pool *pool) {
    uint8_t where = take(in);
    uint8_t count = take(in);
    struct shaped_leg leg;
    leg.option_type = (where & 1) == 0 ? 'C' : 'P';
    leg.expiry = pool_expiry(pool, where >> 1 & 3);
    leg.strike = pool_strike(pool, (uint64_t)(where >> 3) % 6);
    leg.count = ((count & 1) == 0 ? 1 : -1) * (1 + (count >> 1) % 3);
    return leg;
}

/* Two to four legs of one type and expiry, at rising strikes: a vertical, a butterfly, or near. */
static inline size_t shaped_row(struct input *in, const struct pool *pool,
                                struct shaped_leg *legs) {
    static const int64_t counts[][4] = {{1, -1, 0, 0}, {1, -2, 1, 0},  {1, -1, 1, 0},
                                        {1, -3, 2, 0}, {1, -1, -1, 1}, {1, -2, 0, 0}};
    const int64_t *row = PICK(in, counts);
    struct shaped_leg leg = shaped_leg(in, pool);
    int64_t side = leg.count > 0 ? 1 : -1;
    size_t n = 0;
    for (; n < 4 && row[n] != 0; n++) {
        legs[n] = leg;
        legs[n].count = side * row[n];
        uint8_t apart = take(in);
        leg.strike += apart < 192 ? pool->step : apart < 224 ? 2 * pool->step : pool->step + 1;
    }
    return n;
}

static inline size_t shaped_box(struct input *in, const struct pool *pool,
                                struct shaped_leg *legs) {
    struct shaped_leg leg = shaped_leg(in, pool);
    int64_t side = leg.count > 0 ? 1 : -1;
    uint64_t high = leg.strike + pool->step * (1 + take(in) % 3u);
    for (size_t i = 0; i < 4; i++) {
        legs[i] = leg;
        legs[i].option_type = i % 2 == 0 ? 'C' : 'P';
        legs[i].strike = i < 2 ? leg.strike : high;
        legs[i].count = i == 0 || i == 3 ? side : -side;
    }
    return 4;
}

/* Legs at one strike, at different expiries. */
static inline size_t shaped_calendar(struct input *in, const struct pool *pool,
                                     struct shaped_leg *legs) {
    struct shaped_leg leg = shaped_leg(in, pool);
    size_t n = 2 + take(in) % 3u;
    for (size_t i = 0; i < n; i++) {
        legs[i] = leg;
        legs[i].expiry = pool_expiry(pool, i);
        legs[i].count = shaped_leg(in, pool).count;
    }
    return n;
}

/* A row of strikes in which nearly every leg leaves contracts open for the next. */
static inline size_t shaped_chain(struct input *in, const struct pool *pool,
                                  struct shaped_leg *legs) {
    struct shaped_leg leg = shaped_leg(in, pool);
    size_t n = 2 + take(in) % (OPC_MOST_LEGS - 1u);
    leg.strike = 1 + leg.strike % 90000000;
    for (size_t i = 0; i < n; i++) {
        legs[i] = leg;
        legs[i].strike = leg.strike + i;
        legs[i].count = (i % 2 == 0 ? -1 : 1) * (i == 0 || i + 1 == n ? 1 : 2);
    }
    return n;
}

/* Any legs, all on one side now and then. */
static inline size_t shaped_list(struct input *in, const struct pool *pool,
                                 struct shaped_leg *legs) {
    static const size_t numbers[] = {2, 2, 3, 3, 4, 4, 5, 6, 8, 11, 15, 16, 17, 0};
    size_t n = PICK(in, numbers);
    uint8_t sides = take(in);
    for (size_t i = 0; i < n; i++) {
        legs[i] = shaped_leg(in, pool);
        if (n > 8) {
            legs[i].strike = pool->strike + i;
        }
        if (sides < 96) {
            int64_t size = legs[i].count > 0 ? legs[i].count : -legs[i].count;
            legs[i].count = sides < 48 ? size : -size;
        }
    }
    return n;
}

/* Makes a shape one that it nearly is. */
static inline void change_one(struct input *in, struct shaped_leg *leg) {
    switch (take(in) % 5) {
    case 0:
        leg->option_type = leg->option_type == 'C' ? 'P' : 'C';
        break;
    case 1:
        leg->expiry = PICK(in, expiries);
        break;
    case 2:
        leg->strike = leg->strike % LARGEST_STRIKE + 1;
        break;
    case 3:
        leg->count = -leg->count;
        break;
    default:
        leg->count *= 2;
    }
}

/* Multiplies all counts alike; a few go beyond the limit. */
static inline void scale(struct input *in, struct shaped_leg *legs, size_t n) {
    static const int64_t factors[] = {1, 1, 1, 1, 2, 5, 10, 1000, 2500, 3333, 5000, 10000};
    int64_t factor = PICK(in, factors);
    for (size_t i = 0; i < n; i++) {
        int64_t count = legs[i].count * factor;
        bool beyond = count > 10000 || count < -10000;
        legs[i].count = beyond && factor < 5000 ? legs[i].count : count;
    }
}

static inline size_t shaped_legs(struct input *in, const struct pool *pool,
                                 struct shaped_leg *legs) {
    uint8_t form = take(in) % 16;
    size_t n = 1;
    if (form < 5) {
        legs[0] = shaped_leg(in, pool);
    } else if (form < 9) {
        n = shaped_row(in, pool, legs);
    } else if (form < 11) {
        n = shaped_box(in, pool, legs);
    } else if (form == 11) {
        n = shaped_calendar(in, pool, legs);
    } else if (form == 12) {
        n = shaped_chain(in, pool, legs);
    } else {
        n = shaped_list(in, pool, legs);
    }
    if (n > 0 && take(in) >= 208) {
        change_one(in, &legs[take(in) % n]);
    }
    return n;
}

static inline void write_digits(uint8_t *out, size_t len, uint64_t number) {
    for (size_t i = len; i > 0; i--) {
        out[i - 1] = (uint8_t)('0' + number % 10);
        number /= 10;
    }
}

/* By the layout, and by no entry. */
static inline void write_series(uint8_t *out, const char *root, const struct shaped_leg *leg) {
    memset(out, ' ', 6);
    memcpy(out, root, strlen(root));
    write_digits(out + 6, 6, leg->expiry);
    out[12] = (uint8_t)leg->option_type;
    write_digits(out + 13, 8, leg->strike);
}

/* Makes one byte of a symbol wrong, or perhaps just another. */
static inline void damage_symbol(struct input *in, uint8_t *symbol, size_t len) {
    static const char bytes[] = " AZCPXacz0123459+-/:@[";
    uint8_t byte = take(in);
    if (len > 0) {
        symbol[take(in) % len] = byte < 200 ? (uint8_t)bytes[byte % (sizeof bytes - 1)] : byte;
    }
}

static inline void put_legs(struct order *order, const char *root, const struct shaped_leg *legs,
                            size_t n) {
    for (size_t i = 0; i < n; i++) {
        write_series(order->symbols + i * OPC_SYMBOL_LENGTH, root, &legs[i]);
        opc_write_count(legs[i].count, order->counts + i * OPC_COUNT_LENGTH);
    }
    order->symbols_len = n * OPC_SYMBOL_LENGTH;
    order->counts_len = n * OPC_COUNT_LENGTH;
}

/* Makes one thing of the legs wrong. */
static inline void damage_legs(struct input *in, struct order *order) {
    static const int64_t counts[] = {0, 10001, -10001, INT64_MIN, INT64_MAX, 10000, -10000, 65537};
    size_t n = order->counts_len / OPC_COUNT_LENGTH;
    uint8_t kind = take(in) % 9;
    size_t leg = n == 0 ? 0 : take(in) % n;
    uint8_t *symbol = order->symbols + leg * OPC_SYMBOL_LENGTH;
    if (kind < 2 && n > 0) {
        damage_symbol(in, symbol, OPC_SYMBOL_LENGTH);
    } else if (kind < 4 && n > 0) {
        opc_write_count(PICK(in, counts), order->counts + leg * OPC_COUNT_LENGTH);
    } else if (kind == 4) {
        memcpy(order->symbols, symbol, OPC_SYMBOL_LENGTH); /* perhaps a series twice */
    } else if (kind == 5) {
        symbol[1] = symbol[1] == 'B' ? 'C' : 'B'; /* perhaps another root */
    } else if (kind == 6) {
        memset(symbol, take(in), 6); /* one byte for a root */
    } else if (kind == 7) {
        order->symbols_len = (order->symbols_len + take(in)) % MOST_SYMBOL_BYTES;
    } else {
        order->counts_len = (order->counts_len + take(in)) % MOST_COUNT_BYTES;
    }
}

/* Yes more seldom than no, and any number that means yes. */
static inline uint64_t shaped_flag(struct input *in, uint8_t no_below) {
    static const uint64_t yes[] = {1, 1, 2, 256, UINT64_C(1) << 32, UINT64_MAX};
    uint8_t byte = take(in);
    return byte < no_below ? 0 : yes[byte % 6];
}

struct limit {
    uint64_t least;
    uint64_t most;
    uint64_t usual;
};

/* From the tick below 3000 on. */
static const struct limit setting_limits[] = {
    {1, 1000, 10}, {1, 1000, 10},   {1, 1000, 10},   {2, 1000, 5},      {2, 1000, 5}, {2, 1000, 5},
    {2, 1000, 5},  {0, 10000, 300}, {0, 1000000, 0}, {0, 1000000, 600}, {0, 1000, 4}};

static inline uint64_t shaped_setting(struct input *in, const struct limit *limit) {
    uint8_t byte = take(in);
    if (byte < 96) {
        return limit->usual;
    }
    if (byte < 128) {
        return limit->least;
    }
    if (byte < 152) {
        return limit->most;
    }
    if (byte < 200) {
        return limit->least + take(in) % 32u;
    }
    if (byte < 253) {
        return limit->least + take_number(in, 3) % (limit->most - limit->least + 1);
    }
    return byte == 253 ? limit->most + 1 : byte == 254 ? limit->least - 1 : take_number(in, 8);
}

static inline struct opc_settings shaped_settings(struct input *in) {
    uint64_t numbers[OPC_SETTINGS_COUNT];
    size_t at = 0;
    for (; at < SWITCHES; at++) {
        uint8_t byte = take(in);
        numbers[at] = byte < 208 ? 1 : byte < 248 ? 0 : take_number(in, 8);
    }
    for (size_t i = 0; i < sizeof setting_limits / sizeof setting_limits[0]; i++) {
        numbers[at++] = shaped_setting(in, &setting_limits[i]);
    }
    numbers[at++] = shaped_flag(in, 224);
    numbers[at++] = shaped_flag(in, 192);
    struct opc_settings settings;
    memcpy(&settings, numbers, sizeof settings);
    if (settings.preset_minimum > settings.preset_maximum && take(in) < 240) {
        uint64_t larger = settings.preset_minimum;
        settings.preset_minimum = settings.preset_maximum;
        settings.preset_maximum = larger;
    }
    return settings;
}

/* Missing, close to a level, or seldom outside its limits. */
static inline uint64_t shaped_price(struct input *in, uint64_t level) {
    static const uint64_t apart[] = {0, 0, 0, 1, 1, 2, 10, 50, 200};
    uint8_t byte = take(in);
    if (byte < 56) {
        return 0;
    }
    if (byte >= 252) {
        return byte == 252   ? LARGEST_MARKET_VALUE
               : byte == 253 ? LARGEST_MARKET_VALUE + 1
                             : take_number(in, byte == 254 ? 8 : 3);
    }
    uint64_t by = apart[byte % 9];
    return byte < 154 || level < by ? level + by : level - by;
}

static inline struct opc_market shaped_market(struct input *in, uint64_t strike) {
    static const uint64_t levels[] = {1000, 3000, 10000, 1200, 2995, 9990, 60, 25000};
    static const uint64_t phases[] = {1, 1, 1, 1, 1, 0, 0, 0, 0, 0, 2, 2, 2, 1, 1, 0};
    struct opc_market market;
    uint8_t byte = take(in);
    uint64_t level = byte < 192   ? levels[byte % 8]
                     : byte < 224 ? strike
                                  : 1 + take_number(in, 4) % (LARGEST_MARKET_VALUE - 200);
    byte = take(in);
    market.phase = byte < 252 ? phases[byte % 16] : take_number(in, byte == 252 ? 8 : 1);
    market.open_elsewhere = shaped_flag(in, 128);
    market.extended_hours = shaped_flag(in, 224);
    market.underlying = shaped_price(in, take(in) < 128 ? strike : level);
    market.nbb = shaped_price(in, level);
    market.nbo = shaped_price(in, level);
    market.own_bid = shaped_price(in, level);
    market.own_offer = shaped_price(in, level);
    market.previous_close = shaped_price(in, level);
    byte = take(in);
    if ((byte & 3) == 3) {
        market.own_bid = market.nbb;
    }
    if ((byte & 12) == 12) {
        market.own_offer = market.nbo;
    }
    return market;
}

struct terms {
    struct opc_settings settings;
    struct opc_market market;
};

static inline struct terms shaped_terms(struct input *in, uint64_t strike) {
    struct terms terms;
    terms.settings = shaped_settings(in);
    terms.market = shaped_market(in, strike);
    return terms;
}

/* A slice's right length, or seldom one more or less, or any. */
static inline size_t shaped_length(struct input *in, size_t right, size_t most) {
    uint8_t byte = take(in);
    return byte < 248 ? right : byte < 251 ? right - 1 : byte < 254 ? right + 1 : take(in) % most;
}

static inline void put_terms(struct input *in, struct call *call, const struct terms *terms) {
    memcpy(call->settings, &terms->settings, sizeof terms->settings);
    memcpy(call->market, &terms->market, sizeof terms->market);
    call->settings_len = shaped_length(in, OPC_SETTINGS_COUNT, MOST_SETTINGS);
    call->market_len = shaped_length(in, OPC_MARKET_COUNT, MOST_MARKET_VALUES);
}

/* Some price of the market, a strike, or the difference of two, and a distance from it. */
static inline int64_t shaped_line(struct input *in, const struct terms *terms,
                                  const struct shaped_leg *legs, size_t n, bool is_simple) {
    const struct opc_settings *s = &terms->settings;
    const struct opc_market *m = &terms->market;
    uint64_t first = n == 0 ? 0 : legs[0].strike;
    uint64_t other = n == 0 ? 0 : legs[take(in) % n].strike;
    uint64_t between = first > other ? first - other : other - first;
    uint64_t contracts = 0;
    for (size_t i = 0; i < n; i++) {
        contracts += (uint64_t)(legs[i].count > 0 ? legs[i].count : -legs[i].count);
    }
    uint64_t premium = contracts * s->net_increment;
    uint64_t simple[] = {m->nbo, m->nbb, m->own_offer, m->own_bid, m->previous_close,
                         first,  first,  m->underlying};
    uint64_t complex[] = {between, between, between, between, between, premium, premium, 0};
    uint64_t anchor = is_simple ? PICK(in, simple) : PICK(in, complex);
    uint8_t byte = take(in);
    uint64_t tick = byte & 1 ? s->tick_from_3000 : s->tick_below_3000;
    uint64_t away[] = {0,
                       s->atd_below_1000 * tick,
                       s->atd_to_2999 * tick,
                       s->atd_to_9999 * tick,
                       s->atd_from_10000 * tick,
                       s->set_ticks * tick,
                       0,
                       0};
    uint64_t allowed[] = {0,
                          0,
                          s->preset_minimum,
                          s->preset_maximum,
                          s->preset_maximum,
                          anchor * s->percentage / 10000,
                          anchor * s->percentage / 10000,
                          tick};
    uint64_t by = is_simple ? away[byte >> 1 & 7] : allowed[byte >> 1 & 7];
    uint64_t near = (byte >> 4 & 3) + (byte >> 7 == 1 && anchor >= by ? anchor - by : anchor + by);
    return (int64_t)(near % (UINT64_C(1) << 62)) - 1;
}

/* Of a simple order mostly with the sign that its side has to have. */
static inline int64_t shaped_order_price(struct input *in, const struct terms *terms,
                                         const struct shaped_leg *legs, size_t n, bool is_simple) {
    static const int64_t sizes[] = {0,  1, 1000000000000, 1000000000001, INT64_MAX, INT64_MIN,
                                    30, 2};
    uint8_t byte = take(in);
    int64_t size = byte < 224   ? shaped_line(in, terms, legs, n, is_simple)
                   : byte < 248 ? (int64_t)take_number(in, 2)
                                : sizes[byte % 8];
    if (is_simple) {
        bool turned = (legs[0].count < 0) != (take(in) >= 248);
        return turned && size != INT64_MIN ? -size : size;
    }
    return take(in) % 2 == 0 && size != INT64_MIN ? -size : size;
}

static inline struct opc_tally shaped_tally(struct input *in) {
    static const uint64_t sums[] = {0, 0, 3, 1000, 65537, 999997, 999998, 999999, 1000000};
    struct opc_tally tally;
    tally.seen = PICK(in, sums);
    tally.refused = tally.seen == 0 ? 0 : take_number(in, 2) % (tally.seen + 1);
    tally.accepted = take_number(in, 2) % (tally.seen - tally.refused + 1);
    tally.rejected = tally.seen - tally.refused - tally.accepted;
    uint8_t byte = take(in);
    if (byte >= 248) {
        /* The three come to the same number, but for what no uint64_t holds. */
        tally.refused += UINT64_C(1) << 63;
        tally.accepted += UINT64_C(1) << 63;
    } else if (byte >= 240) {
        uint64_t *numbers[] = {&tally.seen, &tally.refused, &tally.accepted, &tally.rejected};
        *numbers[byte % 4] += take(in) % 2 == 0 ? 1 : UINT64_MAX;
    }
    return tally;
}

/* The legs that an order is made with, and what they were drawn from. */
struct draft {
    struct pool pool;
    struct shaped_leg legs[SHAPED_LEGS];
    size_t n;
};

static inline struct draft shaped_draft(struct input *in) {
    struct draft draft;
    draft.pool = shaped_pool(in);
    draft.n = shaped_legs(in, &draft.pool, draft.legs);
    return draft;
}

static inline void shaped_kind_and_flags(struct input *in, struct order *order) {
    order->kind = shaped_flag(in, 192);
    order->stop = shaped_flag(in, 224);
    order->manual = shaped_flag(in, 224);
    order->opening = shaped_flag(in, 192);
}

/* Mostly none; else a few of either side, some at the limits or far beyond, or any. */
static inline int64_t shaped_shares(struct input *in) {
    static const int64_t edges[] = {1000000,   -1000000,  1000001,       -1000001,
                                    INT64_MAX, INT64_MIN, INT64_MIN + 1, INT64_C(1) << 32};
    uint8_t byte = take(in);
    if (byte < 168) {
        return 0;
    }
    if (byte < 232) {
        return (byte % 2 == 0 ? 1 : -1) * (byte < 200 ? 100 : 1 + take(in));
    }
    return byte < 248 ? edges[byte % 8] : (int64_t)take_number(in, byte < 252 ? 3 : 8);
}

/* An order that has its shares: of one leg without any, it is a simple one. */
static inline void finish_order(struct input *in, struct order *order, struct draft *draft,
                                const struct terms *terms) {
    bool is_simple = draft->n == 1 && order->shares == 0;
    order->price = shaped_order_price(in, terms, draft->legs, draft->n, is_simple);
    shaped_kind_and_flags(in, order);
    scale(in, draft->legs, draft->n);
    put_legs(order, draft->pool.root, draft->legs, draft->n);
}

static inline void shaped_order(struct input *in, struct call *call) {
    struct draft draft = shaped_draft(in);
    struct terms terms = shaped_terms(in, draft.n == 0 ? 1 : draft.legs[0].strike);
    call->order.shares = is_message(call) ? 0 : shaped_shares(in);
    finish_order(in, &call->order, &draft, &terms);
    put_terms(in, call, &terms);
    if (is_tallied(call)) {
        call->tally = shaped_tally(in);
    }
    if (take(in) >= 208) {
        damage_legs(in, &call->order);
    }
}

static inline void shaped_fix(struct input *in, struct call *call) {
    shaped_order(in, call);
    shaped_message(in, call);
}

/* With an order and a message of it, whatever the first call is. */
static inline void shaped_in_session(struct input *in, struct call *call) {
    shaped_session(in, call);
    call->limits_len = shaped_length(in, OPC_LOGINS, MOST_LIMITS);
    shaped_fix(in, call);
}

/* The other side of an order: every count has the other sign, and so have price and shares. */
static inline void turn_side(struct order *order) {
    for (size_t i = 0; i < order->counts_len / OPC_COUNT_LENGTH; i++) {
        uint64_t count;
        memcpy(&count, order->counts + i * OPC_COUNT_LENGTH, sizeof count); /* low byte first */
        opc_write_count((int64_t)(0 - count), order->counts + i * OPC_COUNT_LENGTH);
    }
    order->price = (int64_t)(0 - (uint64_t)order->price);
    order->shares = (int64_t)(0 - (uint64_t)order->shares);
}

/* Makes one thing of an order wrong, or perhaps just another. */
static inline void damage_order(struct input *in, struct order *order) {
    static const int64_t prices[] = {0,         1,         -1, 1000000000001, -1000000000001,
                                     INT64_MAX, INT64_MIN, 30};
    uint8_t byte = take(in);
    if (byte < 128) {
        damage_legs(in, order);
    } else if (byte < 176) {
        order->price = PICK(in, prices);
    } else if (byte < 208) {
        order->shares = shaped_shares(in);
    } else {
        order->price = (int64_t)(0 - (uint64_t)order->price);
    }
}

/* Often the other side of the agency order; or the same order, or another one. Then perhaps with
 * flags of its own, or with a fault. */
static inline void shaped_contra(struct input *in, struct call *call, const struct terms *terms) {
    uint8_t form = take(in) % 16;
    if (form >= 12) {
        struct draft draft = shaped_draft(in);
        call->contra.shares = shaped_shares(in);
        finish_order(in, &call->contra, &draft, terms);
    } else {
        call->contra = call->order;
        if (form < 9) {
            turn_side(&call->contra);
        }
        if (take(in) >= 192) {
            shaped_kind_and_flags(in, &call->contra);
        }
    }
    if (take(in) >= 176) {
        damage_order(in, &call->contra);
    }
}

static inline void shaped_pair(struct input *in, struct call *call) {
    struct terms terms;
    shaped_order(in, call);
    memcpy(&terms.settings, call->settings, sizeof terms.settings);
    memcpy(&terms.market, call->market, sizeof terms.market);
    shaped_contra(in, call, &terms);
    call->continue_unpaired = shaped_flag(in, 112);
}

/*
 * The one symbol of the call. The next byte of the input says whether it is whole, or of another
 * length (from `cut` up), or damaged (from `damaged` up).
 */
static inline void shaped_symbol(struct input *in, struct call *call, const struct pool *pool,
                                 const struct shaped_leg *leg, uint8_t cut, uint8_t damaged) {
    write_series(call->order.symbols, pool->root, leg);
    call->order.symbols_len = OPC_SYMBOL_LENGTH;
    uint8_t byte = take(in);
    if (byte >= damaged) {
        damage_symbol(in, call->order.symbols, OPC_SYMBOL_LENGTH);
    } else if (byte >= cut) {
        call->order.symbols_len = take(in) % MOST_BYTES_OF_ONE;
    }
}

static inline void shaped_quote(struct input *in, struct call *call) {
    static const int64_t apart[] = {1, 1, 2, 5, 10, 100, 1000, LARGEST_MARKET_VALUE};
    struct pool pool = shaped_pool(in);
    struct shaped_leg leg = shaped_leg(in, &pool);
    struct terms terms = shaped_terms(in, leg.strike);
    int64_t one = shaped_line(in, &terms, &leg, 1, true);
    uint8_t byte = take(in);
    int64_t by = byte < 248 ? apart[byte % 8] : 0;
    call->bid = (uint64_t)(byte < 128 || one <= by ? one : one - by);
    call->offer = (uint64_t)(byte < 128 ? one + by : one);
    if (byte % 16 == 9) {
        call->offer = (uint64_t)shaped_line(in, &terms, &leg, 1, true);
    }
    call->resting = shaped_flag(in, 128);
    put_terms(in, call, &terms);
    shaped_symbol(in, call, &pool, &leg, 232, 240);
}

/* Half of them with every check off, so that they come to their fills. */
static inline void shaped_crossing_quote(struct input *in, struct call *call) {
    shaped_quote(in, call);
    call->sell = shaped_flag(in, 128);
    if (take(in) < 128) {
        memset(call->settings, 0, SWITCHES * sizeof call->settings[0]);
    }
    shaped_resting(in, call);
}

/* A date as yymmdd, which may not exist: often one around the end of a month. */
static inline uint64_t shaped_date(struct input *in) {
    static const uint64_t dates[] = {229,    10229,  40229,  960229, 990229, 228,
                                     160230, 160431, 161131, 161231, 160100, 161,
                                     161301, 160132, 101,    991231};
    uint8_t byte = take(in);
    if (byte < 144) {
        return dates[byte % 16];
    }
    return take(in) % 100u * 10000 + take(in) % 14u * 100 + take(in) % 33u;
}

static inline void shaped_read(struct input *in, struct call *call) {
    static const uint64_t strikes[] = {0, 1, 9, 10000, 99999999, 12345678, 90000000, 5000};
    struct pool pool = shaped_pool(in);
    struct shaped_leg leg = shaped_leg(in, &pool);
    leg.expiry = shaped_date(in);
    uint8_t byte = take(in);
    leg.strike = byte < 128 ? leg.strike : byte < 192 ? strikes[byte % 8] : take_number(in, 4);
    shaped_symbol(in, call, &pool, &leg, 160, 192);
}

static inline void shaped_write(struct input *in, struct call *call) {
    static const size_t lengths[] = {21, 22, 21, 47, 21, 30, 20, 0};
    static const uint64_t strikes[] = {0, 1, 99999999, 100000000, 5000, 12345678, UINT64_MAX, 10};
    uint8_t root[6];
    const char *name = PICK(in, roots);
    memset(root, ' ', sizeof root);
    memcpy(root, name, strlen(name));
    if (take(in) >= 192) {
        damage_symbol(in, root, sizeof root);
    }
    call->parts.root = 0;
    for (size_t i = 0; i < sizeof root; i++) {
        call->parts.root = call->parts.root << 8 | root[i];
    }
    uint64_t date = shaped_date(in);
    uint8_t byte = take(in);
    call->parts.year = (byte < 248 ? 2000u : byte % 2 == 0 ? 1900u : 2100u) + date / 10000;
    call->parts.month = date / 100 % 100;
    call->parts.day = date % 100;
    byte = take(in);
    call->parts.option_type = byte < 120 ? 'C' : byte < 240 ? 'P' : take_number(in, 2);
    byte = take(in);
    call->parts.strike = byte < 128 ? strikes[byte % 8] : take_number(in, 3);
    uint64_t *numbers[] = {&call->parts.root, &call->parts.year,        &call->parts.month,
                           &call->parts.day,  &call->parts.option_type, &call->parts.strike};
    byte = take(in);
    if (byte >= 240) {
        *numbers[byte % 6] |= UINT64_C(1) << (take(in) % 64);
    }
    call->out_len = PICK(in, lengths);
}

static form *const shaped_forms[ENTRIES] = {
    [READ_SYMBOL] = shaped_read,
    [WRITE_SYMBOL] = shaped_write,
    [CHECK_ORDER] = shaped_order,
    [CHECK_ORDER_TALLIED] = shaped_order,
    [CHECK_FIX] = shaped_fix,
    [CHECK_FIX_TALLIED] = shaped_fix,
    [CHECK_PAIR] = shaped_pair,
    [CHECK_QUOTE] = shaped_quote,
    [CHECK_CROSSING] = shaped_crossing_quote,
    [START_SESSION] = shaped_in_session,
    [CHECK_ORDER_SESSION] = shaped_in_session,
    [CHECK_FIX_SESSION] = shaped_in_session,
    [RELEASE_LOGIN] = shaped_in_session,
};

#endif
