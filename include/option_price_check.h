/*
 * The sealed option price check: the C face of the proved library.
 *
 * Link with libunit.a. Each entry below is proved; the inline functions beside it only carry its
 * numbers in and out of a struct.
 *
 * What an entry promises: it takes any values and relies on no earlier test by its caller; it gives
 * one of the numbers of enum opc_number; it sets every lent number (every uint64_t pointer without
 * const and without a length) on every call, whatever was there before. A tally's four lent numbers
 * alone are read too. Slices (a const pointer and a length) are read, and never changed. A session
 * (a uint64_t pointer without const, and a length) is read, and changed where it lies. The fills of
 * a crossing quote (a pointer and a length of that name) are written, every number of them on every
 * call, whatever was there before, and never read for the answer.
 *
 * What an entry asks of its caller: a pointer to a slice, a session, fills or a buffer is valid for
 * the length beside it, and is NULL only with length 0; a slice of numbers, a session and fills are
 * aligned to 8 bytes, and their length is the number of numbers; a pointer to a lent number is
 * valid and never NULL; the lent numbers of one call are distinct, and neither they nor its session
 * or fills share memory with each other, its slices or its buffer; nobody else reads or writes a
 * session or fills while a call has them. So too an inline function, whose pointers to structs are
 * valid and never NULL.
 *
 * For C11 or C++11, on x86-64; of the C library it needs no more than a freestanding one has.
 */
#ifndef OPTION_PRICE_CHECK_H
#define OPTION_PRICE_CHECK_H

#include <stddef.h>
#include <stdint.h>

/*
 * The entries are called as System V has it. A compiler whose own convention is another has to be
 * told: here for Windows, elsewhere by the host, with -DOPC_CALL='__attribute__((sysv_abi))'.
 */
#ifndef OPC_CALL
#ifdef _WIN32
#define OPC_CALL __attribute__((sysv_abi))
#else
#define OPC_CALL
#endif
#endif

#ifdef __cplusplus
#define OPC_STATIC_ASSERT static_assert
extern "C" {
#else
#define OPC_STATIC_ASSERT _Static_assert
#endif

/* Of this face: one more with each change of an entry, its answers too, a struct, a number or a
 * limit. */
#define OPC_VERSION 7

/* What a number says of an order, a message, a quote or a symbol. */
enum opc_outcome {
    OPC_OUTCOME_ACCEPTED = 0,
    OPC_OUTCOME_REFUSED = 1, /* not judged; all other numbers are 0, but a tally's or a session's,
                              * and of a pair the other order's */
    OPC_OUTCOME_REJECTED = 2 /* by a check of the exchange */
};

/*
 * The numbers that an entry can give, a row each: name, number, outcome, author (whose fault it is,
 * and who has to change something), then a word for tables and the meaning. All that goes by the
 * number is made from it: enum opc_number and opc_outcome_of here, and whatever a host makes with a
 * ROW of its own.
 */
#define OPC_NUMBERS(ROW)                                                                           \
    ROW(OPC_ACCEPTED, 0, ACCEPTED, "nobody", "accepted", "neither refused nor rejected")           \
    ROW(OPC_NOT_21_BYTES, 1, REFUSED, "host", "not 21 bytes",                                      \
        "the symbols' bytes are not 21 each")                                                      \
    ROW(OPC_SHORT_BUFFER, 2, REFUSED, "host", "short buffer",                                      \
        "there are fewer than 21 bytes to write in")                                               \
    ROW(OPC_BAD_LEG_COUNT, 3, REFUSED, "trading firm", "number of legs",                           \
        "it has no leg, or more than 16")                                                          \
    ROW(OPC_BAD_SYMBOL, 4, REFUSED, "trading firm", "outside layout",                              \
        "a symbol is outside the layout")                                                          \
    ROW(OPC_BAD_COUNT, 5, REFUSED, "trading firm", "count", "a count is outside its limits")       \
    ROW(OPC_SERIES_TWICE, 6, REFUSED, "trading firm", "series twice", "a series is there twice")   \
    ROW(OPC_ROOTS_DIFFER, 7, REFUSED, "trading firm", "roots differ", "the roots differ")          \
    ROW(OPC_BAD_PRICE, 8, REFUSED, "trading firm", "price",                                        \
        "the price is too large, or has the wrong sign for one leg without shares")                \
    ROW(OPC_BAD_SETTING, 9, REFUSED, "exchange's settings", "setting",                             \
        "one is outside its limits")                                                               \
    ROW(OPC_BAD_MARKET, 10, REFUSED, "feed", "market value",                                       \
        "the phase or a market value is outside its limits")                                       \
    ROW(OPC_BAD_QUOTE, 11, REFUSED, "trading firm", "bid and offer",                               \
        "bid or offer is outside its limits, or the bid is not below")                             \
    ROW(OPC_BAD_TALLY, 12, REFUSED, "host", "tally",                                               \
        "the tally or session is full, or is no right one")                                        \
    ROW(OPC_CHECK_PUT, 20, REJECTED, "trading firm", "put check",                                  \
        "the put check: a put is bought or bid for at its strike or above")                        \
    ROW(OPC_CHECK_CALL, 21, REJECTED, "trading firm", "call check",                                \
        "the call check: a call is bought or bid for at the underlying's value or above")          \
    ROW(OPC_CHECK_BUY_BUY, 22, REJECTED, "trading firm", "buy-buy/sell-sell",                      \
        "the buy-buy/sell-sell check: less than the net increment for each contract")              \
    ROW(OPC_CHECK_DEBIT_CREDIT, 23, REJECTED, "trading firm", "debit/credit",                      \
        "the debit/credit check: the price's sign is not the class's")                             \
    ROW(OPC_CHECK_MAXIMUM_VALUE, 24, REJECTED, "trading firm", "maximum value",                    \
        "the maximum value check: more than the maximum value and the allowance together")         \
    ROW(OPC_CHECK_TICK_DISTANCE, 25, REJECTED, "trading firm", "tick distance",                    \
        "the tick distance check: the price is further from its reference than allowed")           \
    ROW(OPC_CHECK_QUOTE_INVERSION, 26, REJECTED, "trading firm", "quote inversion",                \
        "the quote inversion check: the bid or the offer inverts the market")                      \
    ROW(OPC_BAD_FRAME, 30, REFUSED, "trading firm", "frame",                                       \
        "the message's frame, length or sum is wrong")                                             \
    ROW(OPC_BAD_TAG, 31, REFUSED, "trading firm", "tag",                                           \
        "a needed tag is missing, repeated or out of sequence")                                    \
    ROW(OPC_BAD_VALUE, 32, REFUSED, "trading firm", "value",                                       \
        "the value of a needed tag is not of its form")                                            \
    ROW(OPC_BAD_SHARES, 33, REFUSED, "trading firm", "shares",                                     \
        "the share count is beyond its limit")                                                     \
    ROW(OPC_BAD_LOGIN, 34, REFUSED, "host", "login", "there is no such login: they are 0 to 31")   \
    ROW(OPC_RESTRICTED_LOGIN, 35, REFUSED, "trading firm", "restricted login",                     \
        "the login has reached its limit of rejections, and is not released")                      \
    ROW(OPC_BAD_CROSSING, 36, REFUSED, "trading firm", "crossing",                                 \
        "the resting list, the away price or the quote's size is outside its limits")

#define OPC_ENUMERATOR(name, number, outcome, author, word, meaning) name = number,
enum opc_number { OPC_NUMBERS(OPC_ENUMERATOR) };
#undef OPC_ENUMERATOR

/* A number that no row has is no acceptance: it counts as refused. */
static inline enum opc_outcome opc_outcome_of(uint64_t number) {
    switch (number) {
#define OPC_CASE(name, number, outcome, author, word, meaning)                                     \
    case name:                                                                                     \
        return OPC_OUTCOME_##outcome;
        OPC_NUMBERS(OPC_CASE)
#undef OPC_CASE
    default:
        return OPC_OUTCOME_REFUSED;
    }
}

/*
 * An option symbol is 21 bytes:
 *   6  root: an uppercase letter, then uppercase letters or digits, then spaces to the end;
 *   6  expiry, yymmdd: the years 2000 to 2099, and a day that exists in that month;
 *   1  type: C for a call, P for a put;
 *   8  strike: decimal digits, in mills (0.001 dollar), 1 to 99999999.
 */
#define OPC_SYMBOL_LENGTH 21

/* The parts of a symbol as numbers. */
struct opc_symbol_parts {
    uint64_t root;        /* its six bytes as one number, the first byte highest, spaces included */
    uint64_t year;        /* 2000 to 2099 */
    uint64_t month;       /* 1 to 12 */
    uint64_t day;         /* 1 to the last day of that month */
    uint64_t option_type; /* the byte 'C' or 'P' */
    uint64_t strike;      /* in mills, 1 to 99999999 */
};

#define OPC_ROOT_LENGTH 6

/*
 * The number of a root, such as "XYZ": its letters, and spaces up to six. More than six letters
 * give 0, which the writer refuses with OPC_BAD_SYMBOL, as it does every root outside the layout.
 */
static inline uint64_t opc_root(const char *letters) {
    uint64_t root = 0;
    size_t len = 0;
    for (; letters[len] != '\0'; len++) {
        if (len == OPC_ROOT_LENGTH) {
            return 0;
        }
        root = root << 8 | (uint8_t)letters[len];
    }
    for (; len < OPC_ROOT_LENGTH; len++) {
        root = root << 8 | ' ';
    }
    return root;
}

/*
 * Reads a symbol.
 *
 * Returns
 *   OPC_NOT_21_BYTES  symbol_len is not 21;
 *   OPC_BAD_SYMBOL    the 21 bytes are outside the layout;
 *   OPC_ACCEPTED      otherwise.
 *
 * The six lent numbers are set to the parts, with the limits given at struct opc_symbol_parts, or
 * all to 0 on a refusal.
 */
uint64_t OPC_CALL opc_read_symbol(const uint8_t *symbol, size_t symbol_len, uint64_t *root,
                                  uint64_t *year, uint64_t *month, uint64_t *day,
                                  uint64_t *option_type, uint64_t *strike);

/*
 * Writes a symbol into the first 21 bytes of out.
 *
 * *number is set to
 *   OPC_SHORT_BUFFER  out_len is below 21;
 *   OPC_BAD_SYMBOL    out_len suffices, but no symbol has these parts;
 *   OPC_ACCEPTED      otherwise.
 *
 * Returns the length of the part written: 21, where the bytes of out after it keep their values, or
 * 0 on a refusal, where every byte of out does.
 */
uint64_t OPC_CALL opc_write_symbol(uint64_t root, uint64_t year, uint64_t month, uint64_t day,
                                   uint64_t option_type, uint64_t strike, uint8_t *out,
                                   size_t out_len, uint64_t *number);

/* opc_read_symbol, with the parts in a struct: every field is set on every call. */
static inline uint64_t opc_read_symbol_parts(const uint8_t *symbol, size_t symbol_len,
                                             struct opc_symbol_parts *parts) {
    return opc_read_symbol(symbol, symbol_len, &parts->root, &parts->year, &parts->month,
                           &parts->day, &parts->option_type, &parts->strike);
}

/* opc_write_symbol, with the parts in a struct. */
static inline uint64_t opc_write_symbol_parts(const struct opc_symbol_parts *parts, uint8_t *out,
                                              size_t out_len, uint64_t *number) {
    return opc_write_symbol(parts->root, parts->year, parts->month, parts->day, parts->option_type,
                            parts->strike, out, out_len, number);
}

/* Whether an order is for certain one to pay for (debit) or one to be paid for (credit). */
enum opc_class { OPC_CLASS_UNDETERMINED = 0, OPC_CLASS_DEBIT = 1, OPC_CLASS_CREDIT = 2 };

enum opc_shape {
    OPC_SHAPE_OTHER = 0,
    OPC_SHAPE_VERTICAL = 1,
    OPC_SHAPE_TRUE_BUTTERFLY = 2,
    OPC_SHAPE_SKEWED_BUTTERFLY = 3,
    OPC_SHAPE_BOX = 4
};

/* The kind of an order: 0 is limit, any other value market. */
enum opc_kind { OPC_KIND_LIMIT = 0, OPC_KIND_MARKET = 1 };

enum opc_phase { OPC_PHASE_PRE_OPENING = 0, OPC_PHASE_OPEN = 1, OPC_PHASE_HALT = 2 };

#define OPC_MOST_LEGS 16
/* A leg's count is 8 bytes: two's complement, low byte first. */
#define OPC_COUNT_LENGTH 8

/* Writes a count as the order check reads it; whether it is within the limits is left to that. */
static inline void opc_write_count(int64_t count, uint8_t out[OPC_COUNT_LENGTH]) {
    for (size_t i = 0; i < OPC_COUNT_LENGTH; i++) {
        out[i] = (uint8_t)((uint64_t)count >> (8 * i));
    }
}

/*
 * An order of 1 to 16 legs, with or without shares. Money is in mills (0.001 dollar). A flag: 0 is
 * no, any other value yes.
 *
 * A leg is a symbol and a signed count, positive to buy and negative to sell, 1 to 10000 in size.
 * The price is for one unit, which has the counts divided by their greatest common divisor:
 * positive is paid, negative received, at most 1000000000000 in size; of one leg without shares it
 * is above 0 if bought, below if sold.
 *
 * Shares go with the options as one signed count: positive bought, negative sold, 0 none, at most
 * 1000000 in size. An initializer that does not name them leaves 0. With shares the order is a
 * complex one, even with one leg; its unit, class, shape and pairings come from the options alone.
 */
struct opc_order {
    const uint8_t *symbols; /* the legs' symbols end to end, 21 bytes each */
    size_t symbols_len;
    const uint8_t *counts; /* the legs' counts in the same sequence, 8 bytes each */
    size_t counts_len;
    int64_t price;    /* of a market order the price at which it would execute */
    uint64_t kind;    /* as in enum opc_kind */
    uint64_t stop;    /* flag: a stop order */
    uint64_t manual;  /* flag: manual routing */
    uint64_t opening; /* flag: in the opening process */
    int64_t shares;   /* positive bought, negative sold, 0 none */
};

/*
 * Settings and market go to an entry as a slice of numbers each, which are the fields of the two
 * structs below in their sequence. These are the slices' lengths.
 */
#define OPC_SETTINGS_COUNT 20
#define OPC_MARKET_COUNT 9

/*
 * The exchange's settings for a class of options. Money is in mills, a distance in ticks. A switch
 * or a flag: 0 is no, any other value yes.
 */
struct opc_settings {
    uint64_t check_20;        /* switch of the put check */
    uint64_t check_21;        /* switch of the call check */
    uint64_t check_22;        /* switch of the buy-buy/sell-sell check */
    uint64_t check_23;        /* switch of the debit/credit check */
    uint64_t check_24;        /* switch of the maximum value check */
    uint64_t check_25;        /* switch of the tick distance check */
    uint64_t check_26;        /* switch of the quote inversion check; no order is tested by it */
    uint64_t tick_below_3000; /* the tick at a reference below 3000; 1 to 1000 mills */
    uint64_t tick_from_3000;  /* the tick at a reference of 3000 or more; 1 to 1000 mills */
    uint64_t net_increment;   /* the least premium of a contract in check 22; 1 to 1000 mills */
    uint64_t atd_below_1000;  /* acceptable tick distance at a reference below 1000; 2 to 1000 */
    uint64_t atd_to_2999;     /* the same at 1000 to 2999; 2 to 1000 ticks */
    uint64_t atd_to_9999;     /* the same at 3000 to 9999; 2 to 1000 ticks */
    uint64_t atd_from_10000;  /* the same at 10000 or more; 2 to 1000 ticks */
    uint64_t percentage;      /* allowed over the maximum value, in 0.01 percent; 0 to 10000 */
    uint64_t preset_minimum;  /* the least that is allowed; 0 to 1000000 mills */
    uint64_t preset_maximum;  /* the most; 0 to 1000000 mills, not below the least */
    uint64_t set_ticks;       /* distance in check 26; 0 to 1000 ticks */
    uint64_t adjusted;        /* flag: an adjusted class, which check 21 leaves out */
    uint64_t european_index;  /* flag: European index style, where expiries are not paired */
};

/* Numbers alone: a pointer to the struct is one to the slice. So too the market. */
OPC_STATIC_ASSERT(sizeof(struct opc_settings) == OPC_SETTINGS_COUNT * sizeof(uint64_t),
                  "the slice");

/* The settings of document 01's examples. In C++ such an initializer needs C++20. */
#define OPC_EXAMPLE_SETTINGS                                                                       \
    {                                                                                              \
        .check_20 = 1, .check_21 = 1, .check_22 = 1, .check_23 = 1, .check_24 = 1, .check_25 = 1,  \
        .check_26 = 1, .tick_below_3000 = 10, .tick_from_3000 = 10, .net_increment = 10,           \
        .atd_below_1000 = 5, .atd_to_2999 = 5, .atd_to_9999 = 5, .atd_from_10000 = 5,              \
        .percentage = 300, .preset_minimum = 0, .preset_maximum = 600, .set_ticks = 4,             \
        .adjusted = 0, .european_index = 0                                                         \
    }

/*
 * The market in the class of options, and in the series of a quote or of an order of one leg
 * without shares. Each price is in mills, 1 to 1000000000, and 0 where it is missing. A flag: 0 is
 * no, any other value yes.
 *
 * The NBBO, which is the NBB and the NBO, is unavailable where both are missing, locked where they
 * are equal and present, crossed where both are present and the NBB is above the NBO.
 */
struct opc_market {
    uint64_t phase;          /* as in enum opc_phase; no other value */
    uint64_t open_elsewhere; /* flag: the series is open on another exchange */
    uint64_t extended_hours; /* flag: extended hours, which check 21 leaves out */
    uint64_t underlying;     /* last value of the underlying */
    uint64_t nbb;            /* national best bid */
    uint64_t nbo;            /* national best offer */
    uint64_t own_bid;        /* the exchange's own best bid */
    uint64_t own_offer;      /* the exchange's own best offer */
    uint64_t previous_close;
};

OPC_STATIC_ASSERT(sizeof(struct opc_market) == OPC_MARKET_COUNT * sizeof(uint64_t), "the slice");

/* An open market with every value missing. In C++ such an initializer needs C++20. */
#define OPC_EMPTY_MARKET                                                                           \
    {                                                                                              \
        .phase = OPC_PHASE_OPEN, .open_elsewhere = 0, .extended_hours = 0, .underlying = 0,        \
        .nbb = 0, .nbo = 0, .own_bid = 0, .own_offer = 0, .previous_close = 0                      \
    }

/* The answer to an order or a message; class, shape and pairings are 0 on a refusal. */
struct opc_answer {
    uint64_t number;   /* as in enum opc_number */
    uint64_t class_;   /* as in enum opc_class (`class` is a word of C++) */
    uint64_t shape;    /* as in enum opc_shape */
    uint64_t pairings; /* matches of two legs that were made; 0 to 15 */
};

/*
 * Checks an order against the settings and the market. The fields, with their limits and units, are
 * those of struct opc_order, opc_settings and opc_market, in the same sequence.
 *
 * Returns the first of these that applies:
 *   the order is refused, by a fault of the host,
 *     OPC_NOT_21_BYTES         counts_len is no multiple of 8, or symbols_len is not 21 for each 8;
 *   of the trading firm,
 *     OPC_BAD_LEG_COUNT        no leg, or more than 16, whatever they hold;
 *     OPC_BAD_SYMBOL           some leg's symbol is outside the layout;
 *     OPC_BAD_COUNT            some leg's count is not 1 to 10000 in size;
 *     OPC_SERIES_TWICE         some two legs have one symbol;
 *     OPC_ROOTS_DIFFER         some two legs have different roots;
 *     OPC_BAD_PRICE            the price is above 1000000000000 in size, or one leg without shares
 *                              is bought at a price not above 0, or sold at a price not below 0;
 *     OPC_BAD_SHARES           the shares are above 1000000 in size;
 *   of the exchange's settings,
 *     OPC_BAD_SETTING          settings_len is not OPC_SETTINGS_COUNT, or a setting is outside its
 *                              limits, used or not, switched on or off;
 *   of the feed,
 *     OPC_BAD_MARKET           market_len is not OPC_MARKET_COUNT, or the phase or a value is
 *                              outside its limits, used or not;
 *   the order is valid, and rejected by a check that is switched on,
 *     OPC_CHECK_PUT            one leg without shares, a put bought at its strike or above; no
 *                              market order in the opening process;
 *     OPC_CHECK_CALL           one leg without shares, a call bought at the underlying's value or
 *                              above; not where that is missing, in an adjusted class, in extended
 *                              hours, or for a market order in the opening process;
 *     OPC_CHECK_BUY_BUY        a limit order of two or more legs, or of one with shares, whose
 *                              options, and shares if it has any, are all bought (all sold), and
 *                              that pays (receives) less than the unit's option contracts times
 *                              the net increment;
 *     OPC_CHECK_DEBIT_CREDIT   two or more legs without shares, a debit at a negative price (limit
 *                              orders only), or a credit at a positive price;
 *     OPC_CHECK_MAXIMUM_VALUE  a vertical, a true butterfly or a box without shares, at a price
 *                              whose size is above its maximum value and the allowance together;
 *     OPC_CHECK_TICK_DISTANCE  one leg without shares, a limit order without stop or manual flag,
 *                              bought further above its reference than the distance, or sold
 *                              further under it;
 *   otherwise
 *     OPC_ACCEPTED.
 *
 * Check 24: the maximum value M is the strike difference, or of a true butterfly the middle strike
 * less the lowest. The allowance is M times the percentage, over 10000, rounded down, then raised
 * to the preset minimum and lowered to the preset maximum.
 *
 * Check 25: the reference of a buy before the opening is, where the series is open elsewhere, the
 * NBO, but the previous close if the NBBO is locked, crossed or unavailable, or if the NBO alone is
 * missing and the close is at least the NBB; where it is not open elsewhere, the close. When open
 * it is the NBO, or the own offer if the NBBO is locked, crossed or unavailable; in a halt the NBO.
 * A sell mirrors this, with the NBB, the own bid, and a close that is at most the NBO. Where the
 * reference is missing there is no check. The distance is the acceptable tick distance set for the
 * reference's band, times the tick at the reference.
 *
 * *class_, *shape and *pairings are set to the order's class, shape and number of pairings where it
 * is accepted or rejected by a check, and to 0 where it is refused. The sequence of the legs does
 * not matter to any of the four.
 */
uint64_t OPC_CALL opc_check_order(const uint8_t *symbols, size_t symbols_len, const uint8_t *counts,
                                  size_t counts_len, int64_t price, uint64_t kind, uint64_t stop,
                                  uint64_t manual, uint64_t opening, int64_t shares,
                                  const uint64_t *settings, size_t settings_len,
                                  const uint64_t *market, size_t market_len, uint64_t *class_,
                                  uint64_t *shape, uint64_t *pairings);

/* opc_check_order, with order, settings, market and answer in structs. */
static inline struct opc_answer opc_answer_order(const struct opc_order *order,
                                                 const struct opc_settings *settings,
                                                 const struct opc_market *market) {
    struct opc_answer answer;
    answer.number = opc_check_order(
        order->symbols, order->symbols_len, order->counts, order->counts_len, order->price,
        order->kind, order->stop, order->manual, order->opening, order->shares,
        (const uint64_t *)settings, OPC_SETTINGS_COUNT, (const uint64_t *)market, OPC_MARKET_COUNT,
        &answer.class_, &answer.shape, &answer.pairings);
    return answer;
}

/* The most checks that one tally counts. */
#define OPC_MOST_TALLIED 1000000

/*
 * Checks, counted: each one seen is refused, accepted or rejected. The host keeps the tally and
 * lends it to each check; it begins fresh, with four zeros.
 */
struct opc_tally {
    uint64_t seen;    /* at most OPC_MOST_TALLIED, and always the sum of the other three */
    uint64_t refused; /* a check given OPC_BAD_TALLY is not even seen */
    uint64_t accepted;
    uint64_t rejected;
};

/* In C++ such an initializer needs C++20. */
#define OPC_FRESH_TALLY                                                                            \
    { .seen = 0, .refused = 0, .accepted = 0, .rejected = 0 }

/*
 * Checks an order as opc_check_order does, and counts it in a tally, whose four numbers are lent
 * both ways.
 *
 * Returns the first of these that applies:
 *   OPC_BAD_TALLY  *seen is 1000000 or more, or is not *refused, *accepted and *rejected together
 *                  (their true sum, which may be above any uint64_t), whatever the order;
 *   otherwise      the number that opc_check_order gives.
 *
 * After OPC_BAD_TALLY, *class_, *shape and *pairings are 0, and the tally is as it was. Otherwise
 * they are as opc_check_order sets them; *seen is one more than it was, and so is *accepted,
 * *rejected or *refused, as opc_outcome_of says of the number.
 */
uint64_t OPC_CALL opc_check_order_tallied(
    const uint8_t *symbols, size_t symbols_len, const uint8_t *counts, size_t counts_len,
    int64_t price, uint64_t kind, uint64_t stop, uint64_t manual, uint64_t opening, int64_t shares,
    const uint64_t *settings, size_t settings_len, const uint64_t *market, size_t market_len,
    uint64_t *class_, uint64_t *shape, uint64_t *pairings, uint64_t *seen, uint64_t *refused,
    uint64_t *accepted, uint64_t *rejected);

/* opc_check_order_tallied, with order, settings, market, tally and answer in structs. */
static inline struct opc_answer opc_answer_order_tallied(const struct opc_order *order,
                                                         const struct opc_settings *settings,
                                                         const struct opc_market *market,
                                                         struct opc_tally *tally) {
    struct opc_answer answer;
    answer.number = opc_check_order_tallied(
        order->symbols, order->symbols_len, order->counts, order->counts_len, order->price,
        order->kind, order->stop, order->manual, order->opening, order->shares,
        (const uint64_t *)settings, OPC_SETTINGS_COUNT, (const uint64_t *)market, OPC_MARKET_COUNT,
        &answer.class_, &answer.shape, &answer.pairings, &tally->seen, &tally->refused,
        &tally->accepted, &tally->rejected);
    return answer;
}

/*
 * An order as a message, the New Order Multileg of FIX 4.4; it has no shares. The flags come from
 * the host, whatever the message says: 0 is no, any other value yes.
 *
 * A field is a tag of 1 to 9 digits that does not begin with 0, a '=', a value of any bytes but
 * byte 1, perhaps none, and byte 1. A '|', which stands for byte 1 where messages are printed, is
 * here a byte like any other. A message is fields from its first byte to its last:
 *   8    FIX.4.4
 *   9    the number of bytes after this field and before field 10, in 1 to 15 digits
 *   35   AB
 *   the body: any fields but a further 8, 9, 35 or 10
 *   10   the sum of all bytes before this field, modulo 256, in three digits
 *
 * The body has each of these once, in any sequence. Fields of other tags may stand anywhere but
 * among the groups, and are stepped over.
 *   40   1 for a market order, 2 for a limit order
 *   44   the price in dollars, with the sign of opc_order's: a minus or none, 1 to 15 digits, then
 *        nothing, or a point and 1 to 3 digits; of a market order, which has it too, the price at
 *        which it would execute
 *   555  the number of legs, in 1 to 15 digits; so many groups come next:
 *          600  the symbol, 21 bytes
 *          623  the size of the count, in 1 to 15 digits
 *          624  1 to buy, 2 to sell
 */
struct opc_fix {
    const uint8_t *message; /* any bytes */
    size_t message_len;     /* any length */
    uint64_t stop;          /* flag: a stop order */
    uint64_t manual;        /* flag: manual routing */
    uint64_t opening;       /* flag: in the opening process */
};

/*
 * Checks the order in a message against the settings and the market. The fields, with their limits
 * and units, are those of struct opc_fix, opc_settings and opc_market, in the same sequence.
 *
 * Returns the first of these that applies:
 *   the message is refused, by a fault of the trading firm,
 *     OPC_BAD_FRAME  some bytes are no field; 8, 9, 35 or 10 is missing, in another place or there
 *                    twice; 8 or 35 has another value; the length or the sum is wrong, or not of
 *                    its form;
 *     OPC_BAD_TAG    40, 44 or 555 is missing or there twice; of the groups a field is missing, or
 *                    another one stands in its place; a 600, 623 or 624 is elsewhere; a 555 whose
 *                    value is not of its form has no groups;
 *     OPC_BAD_VALUE  a value of 40, 44, 555, 600, 623 or 624 is not of its form, in legs after the
 *                    16th too;
 *   otherwise
 *     the number that opc_check_order gives for the legs in the message, its price and kind, the
 *     flags and no shares. It is never OPC_NOT_21_BYTES or OPC_BAD_SHARES; of no leg, or more than
 *     16, it is OPC_BAD_LEG_COUNT.
 *
 * *class_, *shape and *pairings are set as opc_check_order sets them, and to 0 where the message is
 * refused. The sequence of the groups does not matter to any of the four.
 */
uint64_t OPC_CALL opc_check_fix(const uint8_t *message, size_t message_len, uint64_t stop,
                                uint64_t manual, uint64_t opening, const uint64_t *settings,
                                size_t settings_len, const uint64_t *market, size_t market_len,
                                uint64_t *class_, uint64_t *shape, uint64_t *pairings);

/* opc_check_fix, with message, settings, market and answer in structs. */
static inline struct opc_answer opc_answer_fix(const struct opc_fix *fix,
                                               const struct opc_settings *settings,
                                               const struct opc_market *market) {
    struct opc_answer answer;
    answer.number =
        opc_check_fix(fix->message, fix->message_len, fix->stop, fix->manual, fix->opening,
                      (const uint64_t *)settings, OPC_SETTINGS_COUNT, (const uint64_t *)market,
                      OPC_MARKET_COUNT, &answer.class_, &answer.shape, &answer.pairings);
    return answer;
}

/*
 * Checks the order in a message as opc_check_fix does, and counts it in a tally, as
 * opc_check_order_tallied does an order: the two may share a tally.
 *
 * Returns the first of these that applies:
 *   OPC_BAD_TALLY  as opc_check_order_tallied has it, whatever the message;
 *   otherwise      the number that opc_check_fix gives.
 *
 * After OPC_BAD_TALLY, *class_, *shape and *pairings are 0, and the tally is as it was. Otherwise
 * they are as opc_check_fix sets them; *seen is one more than it was, and so is *accepted,
 * *rejected or *refused, as opc_outcome_of says of the number.
 */
uint64_t OPC_CALL opc_check_fix_tallied(const uint8_t *message, size_t message_len, uint64_t stop,
                                        uint64_t manual, uint64_t opening, const uint64_t *settings,
                                        size_t settings_len, const uint64_t *market,
                                        size_t market_len, uint64_t *class_, uint64_t *shape,
                                        uint64_t *pairings, uint64_t *seen, uint64_t *refused,
                                        uint64_t *accepted, uint64_t *rejected);

/* opc_check_fix_tallied, with message, settings, market, tally and answer in structs. */
static inline struct opc_answer opc_answer_fix_tallied(const struct opc_fix *fix,
                                                       const struct opc_settings *settings,
                                                       const struct opc_market *market,
                                                       struct opc_tally *tally) {
    struct opc_answer answer;
    answer.number = opc_check_fix_tallied(
        fix->message, fix->message_len, fix->stop, fix->manual, fix->opening,
        (const uint64_t *)settings, OPC_SETTINGS_COUNT, (const uint64_t *)market, OPC_MARKET_COUNT,
        &answer.class_, &answer.shape, &answer.pairings, &tally->seen, &tally->refused,
        &tally->accepted, &tally->rejected);
    return answer;
}

/* The logins of a session, which are 0 to 31. */
#define OPC_LOGINS 32
/* The greatest limit of rejections that a login may have. */
#define OPC_MOST_REJECTIONS 10000
/* The most orders that the logins of one session count together. */
#define OPC_SESSION_LIMIT 1000000
/* A session goes to an entry as numbers: those of struct opc_session in their sequence. */
#define OPC_SESSION_COUNT 192

/*
 * One login of a session: its orders, those in messages among them, counted, and how many of them
 * were rejected since the session's start or the login's last release. Once that number has reached
 * the limit the login is restricted: it gets OPC_RESTRICTED_LOGIN until the host releases it.
 */
struct opc_login {
    uint64_t limit;         /* of rejections; 1 to OPC_MOST_REJECTIONS, fixed for the session */
    struct opc_tally tally; /* an order given 12, 34 or 35 is not even seen */
    uint64_t running;       /* rejections that count; at most the limit, and at most rejected */
};

/*
 * The host keeps the session and lends it to each call. After opc_start_session gave OPC_ACCEPTED
 * it is a right one; where that was refused it is none.
 */
struct opc_session {
    struct opc_login logins[OPC_LOGINS];
};

/* Numbers alone, six for each login: a pointer to the struct is one to the session's numbers. */
OPC_STATIC_ASSERT(sizeof(struct opc_login) * OPC_LOGINS == OPC_SESSION_COUNT * sizeof(uint64_t),
                  "a login is six numbers");
OPC_STATIC_ASSERT(sizeof(struct opc_session) == OPC_SESSION_COUNT * sizeof(uint64_t),
                  "a session is 192 numbers");

/* Whether the login is restricted; it says nothing where the session is no right one. */
static inline int opc_is_restricted(const struct opc_login *login) {
    return login->running >= login->limit;
}

/*
 * Starts a session: every login gets its limit of rejections, login 0 the first, and zeros.
 *
 * Returns the first of these that applies:
 *   OPC_BAD_TALLY    session_len is not OPC_SESSION_COUNT;
 *   OPC_BAD_SETTING  limits_len is not OPC_LOGINS, or a limit is not 1 to OPC_MOST_REJECTIONS;
 *   OPC_ACCEPTED     otherwise.
 *
 * After OPC_BAD_TALLY the session is as it was. Otherwise each of its numbers is set, whatever was
 * there before: after OPC_BAD_SETTING all are 0.
 */
uint64_t OPC_CALL opc_start_session(const uint64_t *limits, size_t limits_len, uint64_t *session,
                                    size_t session_len);

/* opc_start_session, with the session in a struct. */
static inline uint64_t opc_answer_start(const uint64_t limits[OPC_LOGINS],
                                        struct opc_session *session) {
    return opc_start_session(limits, OPC_LOGINS, (uint64_t *)session, OPC_SESSION_COUNT);
}

/*
 * Checks an order as opc_check_order does, and counts it for its login in the session.
 *
 * Returns the first of these that applies, the first three whatever the order:
 *   OPC_BAD_LOGIN         login is above 31;
 *   OPC_BAD_TALLY         session_len is not OPC_SESSION_COUNT; or of some login, of another too,
 *                         limit is not 1 to OPC_MOST_REJECTIONS, seen is not refused, accepted and
 *                         rejected together (their true sum, which may be above any uint64_t), or
 *                         running is above limit or above rejected; or the logins have seen
 *                         OPC_SESSION_LIMIT or more together (their true sum too);
 *   OPC_RESTRICTED_LOGIN  the login's running has reached its limit;
 *   otherwise             the number that opc_check_order gives.
 *
 * After the first three *class_, *shape and *pairings are 0, and the session is as it was.
 * Otherwise they are as opc_check_order sets them, and of the session only the login's own numbers
 * change: seen is one more than it was, and so is accepted, rejected or refused, as opc_outcome_of
 * says of the number, and with rejected running too.
 */
uint64_t OPC_CALL opc_check_order_session(uint64_t login, const uint8_t *symbols,
                                          size_t symbols_len, const uint8_t *counts,
                                          size_t counts_len, int64_t price, uint64_t kind,
                                          uint64_t stop, uint64_t manual, uint64_t opening,
                                          int64_t shares, const uint64_t *settings,
                                          size_t settings_len, const uint64_t *market,
                                          size_t market_len, uint64_t *session, size_t session_len,
                                          uint64_t *class_, uint64_t *shape, uint64_t *pairings);

/* opc_check_order_session, with order, settings, market, session and answer in structs. */
static inline struct opc_answer opc_answer_order_session(uint64_t login,
                                                         const struct opc_order *order,
                                                         const struct opc_settings *settings,
                                                         const struct opc_market *market,
                                                         struct opc_session *session) {
    struct opc_answer answer;
    answer.number = opc_check_order_session(
        login, order->symbols, order->symbols_len, order->counts, order->counts_len, order->price,
        order->kind, order->stop, order->manual, order->opening, order->shares,
        (const uint64_t *)settings, OPC_SETTINGS_COUNT, (const uint64_t *)market, OPC_MARKET_COUNT,
        (uint64_t *)session, OPC_SESSION_COUNT, &answer.class_, &answer.shape, &answer.pairings);
    return answer;
}

/*
 * Checks the order in a message as opc_check_fix does, and counts it for its login in the session,
 * as opc_check_order_session does an order.
 *
 * Returns the first of these that applies, the first three whatever the message:
 *   OPC_BAD_LOGIN, OPC_BAD_TALLY, OPC_RESTRICTED_LOGIN
 *              as opc_check_order_session has them;
 *   otherwise  the number that opc_check_fix gives.
 *
 * After the first three *class_, *shape and *pairings are 0, and the session is as it was.
 * Otherwise they are as opc_check_fix sets them, and the session is as opc_check_order_session
 * leaves it after that number.
 */
uint64_t OPC_CALL opc_check_fix_session(uint64_t login, const uint8_t *message, size_t message_len,
                                        uint64_t stop, uint64_t manual, uint64_t opening,
                                        const uint64_t *settings, size_t settings_len,
                                        const uint64_t *market, size_t market_len,
                                        uint64_t *session, size_t session_len, uint64_t *class_,
                                        uint64_t *shape, uint64_t *pairings);

/* opc_check_fix_session, with message, settings, market, session and answer in structs. */
static inline struct opc_answer opc_answer_fix_session(uint64_t login, const struct opc_fix *fix,
                                                       const struct opc_settings *settings,
                                                       const struct opc_market *market,
                                                       struct opc_session *session) {
    struct opc_answer answer;
    answer.number = opc_check_fix_session(
        login, fix->message, fix->message_len, fix->stop, fix->manual, fix->opening,
        (const uint64_t *)settings, OPC_SETTINGS_COUNT, (const uint64_t *)market, OPC_MARKET_COUNT,
        (uint64_t *)session, OPC_SESSION_COUNT, &answer.class_, &answer.shape, &answer.pairings);
    return answer;
}

/*
 * Releases a login, restricted or not: its rejections count from 0 again.
 *
 * Returns the first of these that applies:
 *   OPC_BAD_LOGIN  login is above 31;
 *   OPC_BAD_TALLY  as opc_check_order_session has it, but a session may have seen any number;
 *   OPC_ACCEPTED   otherwise.
 *
 * After OPC_ACCEPTED the login's running is 0, and all else of the session is as it was; after a
 * refusal all of it.
 */
uint64_t OPC_CALL opc_release_login(uint64_t login, uint64_t *session, size_t session_len);

/* opc_release_login, with the session in a struct. */
static inline uint64_t opc_answer_release(uint64_t login, struct opc_session *session) {
    return opc_release_login(login, (uint64_t *)session, OPC_SESSION_COUNT);
}

/*
 * An auction pair: an agency order and its contra order, sent together. The mark is a flag: 0 is
 * no, any other value yes.
 */
struct opc_pair {
    struct opc_order agency;
    struct opc_order contra;
    uint64_t continue_unpaired; /* the agency order may pass though its contra order fails */
};

/*
 * The answer to a pair: each order's own number, as in enum opc_number, and 1 where that order
 * passes, else 0. An order may go on where it passes: that its number is OPC_ACCEPTED is not
 * enough.
 */
struct opc_pair_answer {
    uint64_t agency_number;
    uint64_t contra_number;
    uint64_t agency_passes;
    uint64_t contra_passes;
};

/*
 * Checks both orders of a pair against the same settings and market. The fields, with their limits
 * and units, are those of struct opc_pair, each order's one by one, opc_settings and opc_market, in
 * the same sequence.
 *
 * Returns the number that opc_check_order gives for the agency order, and sets *contra_number to
 * the one that it gives for the contra order. Each is the order's own, a refusal's too, whatever
 * the other order is.
 *
 * *agency_passes and *contra_passes are set to
 *   1 and 1  both numbers are OPC_ACCEPTED;
 *   1 and 0  the agency order's number is OPC_ACCEPTED, the contra order's is not, refused or
 *            rejected, and continue_unpaired is not 0;
 *   0 and 0  otherwise: whatever the mark, an agency order that fails stops both.
 *
 * The sequence of the legs within either order does not matter to any of the four.
 */
uint64_t OPC_CALL opc_check_pair(
    const uint8_t *agency_symbols, size_t agency_symbols_len, const uint8_t *agency_counts,
    size_t agency_counts_len, int64_t agency_price, uint64_t agency_kind, uint64_t agency_stop,
    uint64_t agency_manual, uint64_t agency_opening, int64_t agency_shares,
    const uint8_t *contra_symbols, size_t contra_symbols_len, const uint8_t *contra_counts,
    size_t contra_counts_len, int64_t contra_price, uint64_t contra_kind, uint64_t contra_stop,
    uint64_t contra_manual, uint64_t contra_opening, int64_t contra_shares,
    uint64_t continue_unpaired, const uint64_t *settings, size_t settings_len,
    const uint64_t *market, size_t market_len, uint64_t *contra_number, uint64_t *agency_passes,
    uint64_t *contra_passes);

/* opc_check_pair, with pair, settings, market and answer in structs. */
static inline struct opc_pair_answer opc_answer_pair(const struct opc_pair *pair,
                                                     const struct opc_settings *settings,
                                                     const struct opc_market *market) {
    const struct opc_order *agency = &pair->agency;
    const struct opc_order *contra = &pair->contra;
    struct opc_pair_answer answer;
    answer.agency_number = opc_check_pair(
        agency->symbols, agency->symbols_len, agency->counts, agency->counts_len, agency->price,
        agency->kind, agency->stop, agency->manual, agency->opening, agency->shares,
        contra->symbols, contra->symbols_len, contra->counts, contra->counts_len, contra->price,
        contra->kind, contra->stop, contra->manual, contra->opening, contra->shares,
        pair->continue_unpaired, (const uint64_t *)settings, OPC_SETTINGS_COUNT,
        (const uint64_t *)market, OPC_MARKET_COUNT, &answer.contra_number, &answer.agency_passes,
        &answer.contra_passes);
    return answer;
}

/* A quote: one series, a bid and an offer, each in mills, 1 to 1000000000, the bid below. */
struct opc_quote {
    const uint8_t *symbol; /* 21 bytes */
    size_t symbol_len;
    uint64_t bid;
    uint64_t offer;
    uint64_t resting; /* flag: a quote is resting already; 0 is no, any other value yes */
};

/* The answer to a quote. */
struct opc_quote_answer {
    uint64_t number; /* as in enum opc_number */
    uint64_t cancel; /* 1 if the resting quote is to be cancelled, else 0 */
};

/*
 * Checks a quote against the settings and the market. The fields, with their limits and units, are
 * those of struct opc_quote, opc_settings and opc_market, in the same sequence.
 *
 * Returns the first of these that applies:
 *   the quote is refused, by a fault of the host,
 *     OPC_NOT_21_BYTES           symbol_len is not 21;
 *   of the trading firm,
 *     OPC_BAD_SYMBOL             the symbol is outside the layout;
 *   of the exchange's settings,
 *     OPC_BAD_SETTING            settings_len is not OPC_SETTINGS_COUNT, or a setting is outside
 *                                its limits, used or not, switched on or off;
 *   of the feed,
 *     OPC_BAD_MARKET             market_len is not OPC_MARKET_COUNT, or the phase or a value is
 *                                outside its limits, used or not;
 *   of the trading firm,
 *     OPC_BAD_QUOTE              bid or offer is not 1 to 1000000000, or the bid is not below the
 *                                offer;
 *   the quote is valid, and rejected by a check that is switched on,
 *     OPC_CHECK_PUT              a put, the bid at its strike or above;
 *     OPC_CHECK_CALL             a call, the bid at the underlying's value or above; not where that
 *                                is missing, in an adjusted class, or in extended hours;
 *     OPC_CHECK_QUOTE_INVERSION  the bid or the offer inverts the market, as below;
 *   otherwise
 *     OPC_ACCEPTED.
 *
 * A bid inverts the market if it is at the NBO or above; where the own offer equals the NBO, only
 * if it is above it by more than the set ticks, times the tick at that price. Where the NBBO is
 * locked, crossed or unavailable, the own offer takes the place of the NBO, with the set ticks. An
 * offer mirrors this, against the NBB and the own bid. A side is not tested where the price that it
 * is held against is missing, and neither side in a halt, or before the opening unless the series
 * is open elsewhere.
 *
 * *cancel is set to 1 where a check rejects a quote with one resting, else to 0.
 */
uint64_t OPC_CALL opc_check_quote(const uint8_t *symbol, size_t symbol_len, uint64_t bid,
                                  uint64_t offer, uint64_t resting, const uint64_t *settings,
                                  size_t settings_len, const uint64_t *market, size_t market_len,
                                  uint64_t *cancel);

/* opc_check_quote, with quote, settings, market and answer in structs. */
static inline struct opc_quote_answer opc_answer_quote(const struct opc_quote *quote,
                                                       const struct opc_settings *settings,
                                                       const struct opc_market *market) {
    struct opc_quote_answer answer;
    answer.number = opc_check_quote(quote->symbol, quote->symbol_len, quote->bid, quote->offer,
                                    quote->resting, (const uint64_t *)settings, OPC_SETTINGS_COUNT,
                                    (const uint64_t *)market, OPC_MARKET_COUNT, &answer.cancel);
    return answer;
}

/* The most resting offers, or bids, that a quote can be held against. */
#define OPC_MAX_RESTING 64

/*
 * A quote that may cross what is resting, and one side of it: its bid against the resting offers,
 * or its offer against the resting bids. A price is in mills, 1 to 1000000000, a size in contracts,
 * 1 to 1000000.
 *
 * The resting list has the best price first: offers by strictly rising price, bids by strictly
 * falling price, so none has a price twice. There are 0 to OPC_MAX_RESTING of them. The away price
 * is the best offer of the other exchanges, or for a sell their best bid.
 */
struct opc_crossing_quote {
    struct opc_quote quote;
    uint64_t sell; /* 0 is the bid against offers, any other value the offer against bids */
    uint64_t size; /* of that bid or offer */
    const uint64_t *prices; /* of what is resting, the best first */
    size_t prices_len;
    const uint64_t *sizes; /* of the same, in the same sequence */
    size_t sizes_len;      /* the same as prices_len */
    uint64_t away;         /* the best away price; 0 where it is missing */
};

/*
 * The answer to a crossing quote. Where the number is OPC_ACCEPTED, executed, booked and cancelled
 * together are the quote's size, executed is the sum of the fills, and booked or cancelled is 0;
 * otherwise all of them are 0.
 */
struct opc_crossing_answer {
    uint64_t number;                 /* as in enum opc_number */
    uint64_t cancel;                 /* 1 if the resting quote is to be cancelled, else 0 */
    uint64_t executed;               /* filled, of the size */
    uint64_t booked;                 /* left over, and booked at the quote's price */
    uint64_t cancelled;              /* left over, and cancelled */
    uint64_t fills[OPC_MAX_RESTING]; /* of each in the list, in its sequence; 0 after its end */
};

/* Numbers alone: two answers are the same where their bytes are. */
OPC_STATIC_ASSERT(sizeof(struct opc_crossing_answer) == (5 + OPC_MAX_RESTING) * sizeof(uint64_t),
                  "five numbers and the fills");

/*
 * Checks a quote as opc_check_quote does, and tells what it would execute. The fields, with their
 * limits and units, are those of struct opc_crossing_quote, each field of its quote by itself,
 * opc_settings and opc_market, in the same sequence.
 *
 * Returns the first of these that applies:
 *   the quote is refused as by opc_check_quote,
 *     OPC_NOT_21_BYTES, OPC_BAD_SYMBOL, OPC_BAD_SETTING, OPC_BAD_MARKET, OPC_BAD_QUOTE;
 *   it is refused by a fault of the trading firm,
 *     OPC_BAD_CROSSING           prices_len is not sizes_len, is above OPC_MAX_RESTING or is above
 *                                fills_len;
 *                                a price of the list is not 1 to 1000000000, or is not above the
 *                                one before it, for a sell not below;
 *                                a size of the list, or the quote's own, is not 1 to 1000000;
 *                                away is neither 0 nor 1 to 1000000000;
 *   the quote is valid, and rejected as by opc_check_quote,
 *     OPC_CHECK_PUT, OPC_CHECK_CALL, OPC_CHECK_QUOTE_INVERSION;
 *   otherwise
 *     OPC_ACCEPTED.
 *
 * After OPC_ACCEPTED the quote's size is filled from the list, the first first, each up to its own
 * size, at prices that are not above the bid nor, unless away is 0, above away, until the size is
 * used up. What is left over is booked if away is 0 or the bid is below it, and else cancelled. A
 * sell mirrors this: at prices not below the offer nor, unless away is 0, below away; booked if
 * away is 0 or the offer is above it.
 *
 * fills is set to what each in the list fills, in its sequence, and to 0 after the list's end, all
 * fills_len of them; *executed to their sum; *booked and *cancelled to what is left over. After any
 * other number than OPC_ACCEPTED every number of fills and these three are 0. *cancel is set as
 * opc_check_quote sets it, and to 0 after OPC_BAD_CROSSING.
 */
uint64_t OPC_CALL opc_check_crossing_quote(
    const uint8_t *symbol, size_t symbol_len, uint64_t bid, uint64_t offer, uint64_t resting,
    uint64_t sell, uint64_t size, const uint64_t *prices, size_t prices_len, const uint64_t *sizes,
    size_t sizes_len, uint64_t away, const uint64_t *settings, size_t settings_len,
    const uint64_t *market, size_t market_len, uint64_t *fills, size_t fills_len, uint64_t *cancel,
    uint64_t *executed, uint64_t *booked, uint64_t *cancelled);

/* opc_check_crossing_quote, with quote, settings, market and answer in structs. */
static inline struct opc_crossing_answer
opc_answer_crossing_quote(const struct opc_crossing_quote *crossing,
                          const struct opc_settings *settings, const struct opc_market *market) {
    const struct opc_quote *quote = &crossing->quote;
    struct opc_crossing_answer answer;
    answer.number = opc_check_crossing_quote(
        quote->symbol, quote->symbol_len, quote->bid, quote->offer, quote->resting, crossing->sell,
        crossing->size, crossing->prices, crossing->prices_len, crossing->sizes,
        crossing->sizes_len, crossing->away, (const uint64_t *)settings, OPC_SETTINGS_COUNT,
        (const uint64_t *)market, OPC_MARKET_COUNT, answer.fills, OPC_MAX_RESTING, &answer.cancel,
        &answer.executed, &answer.booked, &answer.cancelled);
    return answer;
}

#ifdef __cplusplus
}
#endif

#endif
