/*
 * Orders made for tests and measurements: valid ones by chance, and ones that are damaged on
 * purpose so that a known number must refuse them.
 */
#ifndef MADE_ORDERS_H
#define MADE_ORDERS_H

#include "chance.h"
#include "count.h"
#include "option_price_check.h"

#include <inttypes.h>
#include <stdio.h>
#include <string.h>

/* More legs than an order may have. */
#define MADE_LEGS 20

/* All that the order check takes; the bytes are held here, and `lend` makes the order of them. */
struct made_order {
    uint8_t symbols[MADE_LEGS * OPC_SYMBOL_LENGTH];
    size_t symbols_len;
    uint8_t counts[MADE_LEGS * OPC_COUNT_LENGTH];
    size_t counts_len;
    int64_t price;
    uint64_t kind, stop, manual, opening;
    int64_t shares;
    struct opc_settings settings;
    struct opc_market market;
    size_t settings_len, market_len;
};

/* As the entries take them; the slices of an order, or of a quote, that was made. */
#define EACH_OF_ORDER(o)                                                                           \
    (o)->symbols, (o)->symbols_len, (o)->counts, (o)->counts_len, (o)->price, (o)->kind,           \
        (o)->stop, (o)->manual, (o)->opening, (o)->shares
#define SLICES_OF(made)                                                                            \
    (const uint64_t *)&(made)->settings, (made)->settings_len, (const uint64_t *)&(made)->market,  \
        (made)->market_len

/* The limits of an order's price and shares, in size. */
#define MOST_PRICE 1000000000000
#define MOST_SHARES 1000000

/* Other numbers of settings and of market values than there are. */
#define OTHER_LENGTHS 3
static const size_t other_settings[OTHER_LENGTHS] = {0, OPC_SETTINGS_COUNT - 1,
                                                     OPC_SETTINGS_COUNT + 1};
static const size_t other_market[OTHER_LENGTHS] = {0, OPC_MARKET_COUNT - 1, OPC_MARKET_COUNT + 1};

/* A field that has limits. */
struct limited {
    uint64_t *field, least, most;
};

/* Every setting that has limits; those of a preset are as the other preset is. */
#define LIMITED_SETTINGS(s)                                                                        \
    {                                                                                              \
        {&(s)->tick_below_3000, 1, 1000}, {&(s)->tick_from_3000, 1, 1000},                         \
            {&(s)->net_increment, 1, 1000}, {&(s)->atd_below_1000, 2, 1000},                       \
            {&(s)->atd_to_2999, 2, 1000}, {&(s)->atd_to_9999, 2, 1000},                            \
            {&(s)->atd_from_10000, 2, 1000}, {&(s)->percentage, 0, 10000},                         \
            {&(s)->preset_minimum, 0, (s)->preset_maximum},                                        \
            {&(s)->preset_maximum, (s)->preset_minimum, 1000000}, {&(s)->set_ticks, 0, 1000},      \
    }

/* The market's prices, each of which may be missing. */
#define MARKET_VALUES(m)                                                                           \
    &(m)->underlying, &(m)->nbb, &(m)->nbo, &(m)->own_bid, &(m)->own_offer, &(m)->previous_close

static inline size_t legs_of(const struct made_order *m) {
    return m->counts_len / OPC_COUNT_LENGTH;
}

static inline uint8_t *symbol_at(struct made_order *m, size_t leg) {
    return m->symbols + leg * OPC_SYMBOL_LENGTH;
}

static inline uint8_t *count_at(struct made_order *m, size_t leg) {
    return m->counts + leg * OPC_COUNT_LENGTH;
}

static inline int64_t count_of(const struct made_order *m, size_t leg) {
    uint64_t count = 0;
    for (size_t i = OPC_COUNT_LENGTH; i > 0; i--) {
        count = count << 8 | m->counts[leg * OPC_COUNT_LENGTH + i - 1];
    }
    return (int64_t)count;
}

/* The least number has a size that is no int64_t. */
static inline uint64_t size_of(int64_t number) {
    return number < 0 ? 0 - (uint64_t)number : (uint64_t)number;
}

/* An order of no leg and no shares, with document 01's example settings and an empty market. */
static inline struct made_order no_legs(void) {
    struct made_order m = {.settings = OPC_EXAMPLE_SETTINGS,
                           .market = OPC_EMPTY_MARKET,
                           .settings_len = OPC_SETTINGS_COUNT,
                           .market_len = OPC_MARKET_COUNT};
    return m;
}

static inline void add_leg(struct made_order *m, uint64_t yymmdd, char option_type, uint64_t strike,
                           int64_t count) {
    char text[64];
    snprintf(text, sizeof text, "XYZ   %06" PRIu64 "%c%08" PRIu64, yymmdd, option_type, strike);
    memcpy(m->symbols + m->symbols_len, text, OPC_SYMBOL_LENGTH);
    opc_write_count(count, m->counts + m->counts_len);
    m->symbols_len += OPC_SYMBOL_LENGTH;
    m->counts_len += OPC_COUNT_LENGTH;
}

/* The order itself; it points into what is lent. */
static inline struct opc_order lend(const struct made_order *m) {
    struct opc_order order = {
        .symbols = m->symbols,
        .symbols_len = m->symbols_len,
        .counts = m->counts,
        .counts_len = m->counts_len,
        .price = m->price,
        .kind = m->kind,
        .stop = m->stop,
        .manual = m->manual,
        .opening = m->opening,
        .shares = m->shares,
    };
    return order;
}

static inline void exchange(uint8_t *a, uint8_t *b, size_t len) {
    uint8_t kept[OPC_SYMBOL_LENGTH];
    memcpy(kept, a, len);
    memcpy(a, b, len);
    memcpy(b, kept, len);
}

/* Whole legs change places. */
static inline void exchange_legs(struct made_order *m, size_t i, size_t j) {
    exchange(symbol_at(m, i), symbol_at(m, j), OPC_SYMBOL_LENGTH);
    exchange(count_at(m, i), count_at(m, j), OPC_COUNT_LENGTH);
}

static inline void shuffle_legs(struct made_order *m) {
    for (size_t i = legs_of(m); i > 1; i--) {
        size_t j = below(i);
        if (j != i - 1) {
            exchange_legs(m, i - 1, j);
        }
    }
}

/* A count of 1 to 10000, bought or sold; `style` says how large, so that an order has one style. */
static inline int64_t random_count(uint64_t style) {
    /* Fibonacci numbers: the greatest common divisor takes its most steps for neighbours. */
    static const int64_t fibonacci[] = {6765, 4181, 2584, 1597, 987, 610};
    int64_t size = 1;
    if (style == 1) {
        size = (int64_t)between(1, 3);
    } else if (style == 2) {
        size = 5 * (int64_t)between(1, 2000);
    } else if (style == 3) {
        size = fibonacci[below(COUNT(fibonacci))];
    }
    return one_in(2) ? size : -size;
}

/* One of 48 series: two types, four expiries, six strikes. */
static inline void add_mixed_leg(struct made_order *m, uint64_t series, int64_t count) {
    static const uint64_t expiries[] = {270115, 270319, 270618, 270917};
    add_leg(m, expiries[series / 6 % 4], series < 24 ? 'C' : 'P', 10000 + 5000 * (series % 6),
            count);
}

/*
 * Legs of different series, from so few that they pair: of one type and expiry, of one type and
 * strike, or mixed.
 */
static inline void random_legs(struct made_order *m, size_t legs) {
    bool taken[48] = {false};
    uint64_t group = below(4), style = below(4);
    char option_type = one_in(2) ? 'C' : 'P';
    while (legs_of(m) < legs) {
        uint64_t series = below(group < 2 ? MADE_LEGS : COUNT(taken));
        int64_t count = random_count(style);
        if (taken[series]) {
            continue;
        }
        taken[series] = true;
        if (group == 0) {
            add_leg(m, 270115, option_type, 10000 + 2500 * series, count);
        } else if (group == 1) {
            add_leg(m, 270101 + series, option_type, 20000, count);
        } else {
            add_mixed_leg(m, series, count);
        }
    }
}

static inline uint64_t flag(void) { return one_in(4) ? next_random() : 0; }

static inline uint64_t switch_on(void) { return one_in(16) ? 0 : between(1, UINT64_MAX - 1); }

/* Settings within their limits, small ones more often: a small distance rejects more. */
static inline void random_settings(struct opc_settings *s) {
    uint64_t *switches[] = {&s->check_20, &s->check_21, &s->check_22, &s->check_23,
                            &s->check_24, &s->check_25, &s->check_26};
    uint64_t *amounts[] = {&s->tick_below_3000, &s->tick_from_3000, &s->net_increment,
                           &s->atd_below_1000,  &s->atd_to_2999,    &s->atd_to_9999,
                           &s->atd_from_10000,  &s->set_ticks};
    for (size_t i = 0; i < COUNT(switches); i++) {
        *switches[i] = switch_on();
    }
    for (size_t i = 0; i < COUNT(amounts); i++) {
        *amounts[i] = one_in(8) ? between(2, 1000) : between(2, 20);
    }
    s->percentage = one_in(4) ? below(10001) : below(500);
    s->preset_minimum = one_in(4) ? below(1000001) : below(500);
    s->preset_maximum = between(s->preset_minimum, one_in(4) ? 1000000 : s->preset_minimum + 600);
    if (s->preset_maximum > 1000000) {
        s->preset_maximum = 1000000;
    }
    s->adjusted = flag();
    s->european_index = flag();
}

/* A value near `middle`, or missing. */
static inline uint64_t value_near(uint64_t middle) {
    return one_in(5) ? 0 : between(middle, middle + 200) - 100;
}

/* Market values near one price, so that the best bid and offer are at times locked or crossed. */
static inline void random_market(struct opc_market *m) {
    uint64_t middle = one_in(3) ? between(101, 1200) : between(101, 40000);
    uint64_t *values[] = {MARKET_VALUES(m)};
    m->phase = one_in(2) ? OPC_PHASE_OPEN : below(3);
    m->open_elsewhere = flag();
    m->extended_hours = flag();
    for (size_t i = 0; i < COUNT(values); i++) {
        *values[i] = value_near(middle);
    }
    if (one_in(8)) {
        m->nbo = m->nbb;
    }
}

/* A price at which some check could turn: a market value, a strike, a small sum, or any. */
static inline int64_t random_price(const struct made_order *m) {
    const struct opc_market *k = &m->market;
    const uint64_t near[] = {
        k->underlying, k->nbb, k->nbo, k->own_bid, k->own_offer, k->previous_close,
        100,           5000,   10000,  15000,      20000};
    uint64_t size = near[below(COUNT(near))] + below(400);
    if (one_in(16)) {
        size = below(MOST_PRICE + 1);
    }
    return one_in(2) ? (int64_t)size : -(int64_t)size;
}

/* A valid order without shares: no refusal applies. */
static inline struct made_order random_order(size_t legs) {
    struct made_order m = no_legs();
    random_legs(&m, legs);
    random_settings(&m.settings);
    random_market(&m.market);
    m.price = random_price(&m);
    m.kind = flag();
    m.stop = flag();
    m.manual = flag();
    m.opening = flag();
    if (legs == 1) {
        int64_t size = m.price < 0 ? -m.price : m.price;
        bool sold = (m.counts[OPC_COUNT_LENGTH - 1] & 0x80) != 0;
        size = size % MOST_PRICE + 1;
        m.price = sold ? -size : size;
    }
    return m;
}

/* Shares bought or sold, up to their limit. */
static inline int64_t random_shares(void) {
    int64_t size = one_in(4) ? MOST_SHARES : (int64_t)between(1, one_in(2) ? 100 : MOST_SHARES);
    return one_in(2) ? size : -size;
}

/* A valid order with shares: of one leg too, the price may have any sign. */
static inline struct made_order random_stock_order(size_t legs) {
    struct made_order m = random_order(legs);
    m.price = random_price(&m);
    m.shares = random_shares();
    return m;
}

/* A valid order, with shares or without. */
static inline struct made_order random_either(size_t legs) {
    return one_in(3) ? random_stock_order(legs) : random_order(legs);
}

static inline void damage_lengths(struct made_order *m) {
    if (one_in(2)) {
        m->counts_len += between(1, OPC_COUNT_LENGTH - 1);
    } else {
        m->symbols_len += between(1, OPC_SYMBOL_LENGTH);
    }
}

static inline void damage_leg_count(struct made_order *m) {
    size_t legs = one_in(2) ? 0 : between(OPC_MOST_LEGS + 1, MADE_LEGS - 1);
    m->symbols_len = legs * OPC_SYMBOL_LENGTH;
    m->counts_len = legs * OPC_COUNT_LENGTH;
}

/* A byte that no symbol has at that place. */
static inline void damage_symbol(uint8_t symbol[OPC_SYMBOL_LENGTH]) {
    static const char wrong[OPC_SYMBOL_LENGTH + 1] = " --@[/---/:---------,";
    size_t place = below(OPC_SYMBOL_LENGTH);
    symbol[place] = (uint8_t)wrong[place];
}

static inline void damage_count(struct made_order *m) {
    static const int64_t wrong[] = {0, 10001, -10001, INT64_MAX, INT64_MIN, 1LL << 32};
    opc_write_count(wrong[below(COUNT(wrong))], count_at(m, below(legs_of(m))));
}

static inline void damage_price(struct made_order *m) {
    static const int64_t wrong[] = {MOST_PRICE + 1, -MOST_PRICE - 1, INT64_MAX, INT64_MIN};
    m->price = wrong[below(COUNT(wrong))];
}

/* Share counts beyond their limit; of some a part of the bits is a count within it. */
static const int64_t wrong_shares[] = {MOST_SHARES + 1,  -MOST_SHARES - 1,  INT64_MAX,
                                       INT64_MIN,        INT64_MIN + 1,     INT64_MIN + 100,
                                       1LL << 32,        -(1LL << 32),      (1LL << 32) + 100,
                                       -(1LL << 32) - 1, INT64_MAX - 99999, 10 * MOST_SHARES};

static inline void damage_shares(struct made_order *m) {
    m->shares = wrong_shares[below(COUNT(wrong_shares))];
}

/* A value outside its limits, or another number of values. */
static inline void damage_settings(struct opc_settings *s, size_t *len) {
    const struct limited fields[] = LIMITED_SETTINGS(s);
    uint64_t wrong = one_in(2) ? 1000001 : next_random() | 1ULL << 63;
    if (one_in(4)) {
        *len = other_settings[below(OTHER_LENGTHS)];
    } else {
        *fields[below(COUNT(fields))].field = wrong;
    }
}

static inline void damage_market(struct opc_market *m, size_t *len) {
    uint64_t *fields[] = {&m->phase, MARKET_VALUES(m)};
    uint64_t wrong = one_in(2) ? 1000000001 : next_random() | 1ULL << 63;
    if (one_in(4)) {
        *len = other_market[below(OTHER_LENGTHS)];
    } else {
        *fields[below(COUNT(fields))] = wrong;
    }
}

/* The numbers that refuse an order: the first that applies is given. */
static const uint64_t refusals[] = {
    OPC_NOT_21_BYTES, OPC_BAD_LEG_COUNT, OPC_BAD_SYMBOL, OPC_BAD_COUNT,   OPC_SERIES_TWICE,
    OPC_ROOTS_DIFFER, OPC_BAD_PRICE,     OPC_BAD_SHARES, OPC_BAD_SETTING, OPC_BAD_MARKET};
#define REFUSALS COUNT(refusals)

/*
 * Damages an order of three legs or more so that `number`, one of the above, applies. A second
 * damage does not undo the first if its number stands before that one's.
 */
static inline void damage(struct made_order *m, uint64_t number) {
    switch (number) {
    case OPC_NOT_21_BYTES:
        damage_lengths(m);
        break;
    case OPC_BAD_LEG_COUNT:
        damage_leg_count(m);
        break;
    case OPC_BAD_SYMBOL:
        damage_symbol(symbol_at(m, below(legs_of(m))));
        break;
    case OPC_BAD_COUNT:
        damage_count(m);
        break;
    case OPC_SERIES_TWICE:
        memcpy(symbol_at(m, 0), symbol_at(m, 1), OPC_SYMBOL_LENGTH);
        break;
    case OPC_ROOTS_DIFFER:
        symbol_at(m, legs_of(m) - 1)[2] = 'W';
        break;
    case OPC_BAD_PRICE:
        damage_price(m);
        break;
    case OPC_BAD_SHARES:
        damage_shares(m);
        break;
    case OPC_BAD_SETTING:
        damage_settings(&m->settings, &m->settings_len);
        break;
    default:
        damage_market(&m->market, &m->market_len);
        break;
    }
}

#endif
