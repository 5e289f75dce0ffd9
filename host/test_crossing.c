/*
 * Holds the check of crossing quotes to the answers of the files in cases/, to a plain computation
 * from document 02, S-7 (in expect_crossing.h), and to the papers' examples: number, flag, every
 * lent number and every fill. Exit status 1 and a message on the first failure, one line with the
 * number of checks otherwise.
 */
#define _DEFAULT_SOURCE /* for lent_bytes.h */
#include "cases.h"
#include "expect.h"
#include "expect_crossing.h"
#include "made_crossing.h"
#include "option_price_check.h"

#define RANDOM_CASES 100000

static const char *const test_name = "test_crossing";

static void print_tried(void) {
    print_case();
    print_crossing();
}

/* Every price of a quote turned about this is one that a quote may have. */
#define TURNED (MOST_QUOTED + 1)

/* Any value but 0 is a sell, or one resting. */
static const uint64_t yes[] = {1, 2, 1ULL << 32, 1ULL << 63, UINT64_MAX};

/* On both sides of every limit, and beyond. */
static const uint64_t prices_about[] = {0,           1,
                                        2,           MOST_QUOTED - 1,
                                        MOST_QUOTED, MOST_QUOTED + 1,
                                        1ULL << 32,  (1ULL << 32) + 1000,
                                        1ULL << 63,  UINT64_MAX};
static const uint64_t sizes_about[] = {
    0,          1,          2,          MOST_SIZE - 1,     MOST_SIZE, MOST_SIZE + 1,
    1ULL << 32, 1ULL << 63, UINT64_MAX, (1ULL << 32) + 100};

/* The crossing quote, and the same on the other side. */
static void expect_both(const struct made_crossing *c, size_t fills_len) {
    struct made_crossing m = mirrored_crossing(c, TURNED);
    struct opc_crossing_answer a = answer_to(c, fills_len), b = answer_to(&m, fills_len);
    expect(memcmp(&a, &b, sizeof a) == 0, "a sell does not mirror a buy");
}

/* A bid of 5 dollars for 100 with so many offers of 2 about it, the first at 5 dollars less them.
 */
static struct made_crossing bid_against(size_t len) {
    struct made_crossing c = crossing_bid(5000, 100);
    for (size_t i = 0; i < len; i++) {
        add_resting(&c, 2, 5000 - len + 2 * i);
    }
    return c;
}

/* ---- the cases ---- */

static struct made_crossing crossing_of(const struct request *r) {
    const struct opc_crossing_quote *asked = &r->crossing;
    const struct opc_quote *quote = &asked->quote;
    struct made_crossing c = crossing_bid(quote->bid, asked->size);
    c.quote = quote_for((const char *)quote->symbol, quote->bid, quote->offer);
    c.quote.resting = quote->resting;
    c.quote.settings = r->terms.settings;
    c.quote.market = r->terms.market;
    c.sell = asked->sell;
    c.away = asked->away;
    expect(asked->prices_len <= MADE_RESTING, "a case of more resting than can be made");
    for (size_t i = 0; i < asked->prices_len; i++) {
        add_resting(&c, asked->sizes[i], asked->prices[i]);
    }
    return c;
}

/* The answer in a case's words: of 0 with a fill for each in the list. */
static void write_words(const struct opc_crossing_answer *a, size_t len, char text[LINE_LENGTH]) {
    size_t at = (size_t)snprintf(text, LINE_LENGTH, "%" PRIu64, a->number);
    if (a->number == OPC_ACCEPTED) {
        for (size_t i = 0; i < len; i++) {
            at += (size_t)snprintf(text + at, LINE_LENGTH - at, " %" PRIu64, a->fills[i]);
        }
        at += (size_t)snprintf(text + at, LINE_LENGTH - at,
                               ", %" PRIu64 " executed, %" PRIu64 " booked, %" PRIu64 " cancelled",
                               a->executed, a->booked, a->cancelled);
    }
    snprintf(text + at, LINE_LENGTH - at, "%s", a->cancel == 0 ? "" : " cancel");
}

static void expect_case(const struct made_crossing *c, size_t fills_len, const char *words) {
    struct opc_crossing_answer a = answer_to(c, fills_len);
    char text[LINE_LENGTH];
    write_words(&a, c->prices_len, text);
    expect(strcmp(text, words) == 0, "another answer than the case has");
}

static size_t crossings_held;

/* As it is; with as many fills as the list has; with other values for each yes. */
static void hold_crossing(const struct request *request, const char *words) {
    struct made_crossing c = crossing_of(request);
    expect_case(&c, OPC_MAX_RESTING, words);
    expect_case(&c, c.prices_len, words);
    change_yes(&c.sell);
    change_yes(&c.quote.resting);
    change_flags(&c.quote.settings, &c.quote.market);
    expect_case(&c, OPC_MAX_RESTING, words);
    crossings_held++;
}

static void test_cases(void) {
    hold_cases(REQUEST_CROSSING, hold_crossing);
    expect(crossings_held > 0, "no file of cases has a crossing quote");
}

/* ---- the papers' examples ---- */

/* 10 at 1.20, 20 at 1.21, 10 at 1.22, 10 at 1.23 and the last at 1.24; away 1.23. */
static struct made_crossing bid_of_papers(uint64_t bid, uint64_t last) {
    struct made_crossing c = crossing_bid(bid, 100);
    c.quote.offer = 1300;
    add_resting(&c, 10, 1200);
    add_resting(&c, 20, 1210);
    add_resting(&c, 10, 1220);
    add_resting(&c, 10, 1230);
    add_resting(&c, last, 1240);
    c.away = 1230;
    return c;
}

/* The bid, and about 1.20 an offer against bids, give what the papers say. */
static void expect_example(const struct made_crossing *c, const struct opc_crossing_answer *said) {
    struct made_crossing m = mirrored_crossing(c, 2400);
    struct opc_crossing_answer a = answer_to(c, OPC_MAX_RESTING);
    expect(memcmp(&a, said, sizeof a) == 0, "another answer than the papers have");
    a = answer_to(&m, OPC_MAX_RESTING);
    expect(memcmp(&a, said, sizeof a) == 0, "another answer to a sell than the papers have");
    expect_both(c, OPC_MAX_RESTING);
}

static void expect_examples(struct made_crossing c) {
    static const struct opc_crossing_answer at_1_24 = {
        .executed = 50, .cancelled = 50, .fills = {10, 20, 10, 10, 0}};
    static const struct opc_crossing_answer at_1_22 = {
        .executed = 40, .booked = 60, .fills = {10, 20, 10, 0, 0}};
    c.quote.bid = 1240;
    expect_example(&c, &at_1_24);
    c.quote.bid = 1220;
    expect_example(&c, &at_1_22);
}

/* Document 02's, and with 20 at 1.24 filing 000's: in an empty market, and in the filing's own. */
static void test_papers(void) {
    for (uint64_t last = 10; last <= 20; last += 10) {
        struct made_crossing c = bid_of_papers(1240, last);
        expect_examples(c);
        c.quote.market.nbb = 1000;
        c.quote.market.nbo = c.quote.market.own_offer = 1200;
        c.quote.settings.set_ticks = 5;
        expect_examples(c);
        c.quote.settings.check_26 = 0;
        expect_examples(c);
    }
}

/* Filing 000: the NBO of 1.20 is another exchange's, and the bid of 1.24 is rejected. */
static void test_rejected_example(void) {
    struct made_crossing c = bid_of_papers(1240, 20);
    c.quote.settings.set_ticks = 5;
    c.quote.market.nbb = 1000;
    c.quote.market.nbo = 1200;
    c.quote.market.own_offer = 1210;
    for (uint64_t resting = 0; resting <= 1; resting++) {
        const struct opc_crossing_answer said = {.number = 26, .cancel = resting};
        c.quote.resting = resting;
        expect_example(&c, &said);
    }
}

/* ---- the lists ---- */

/* Every two lengths, with as many fills, with fewer, and with many more. */
static void test_lengths(void) {
    static const size_t lens[] = {0, 1, 2, 63, 64, 65, 66, MADE_RESTING};
    static const size_t fills[] = {0, 1, 2, 62, 63, 64, 65, 66, 128, 1000, MOST_FILLS};
    const struct made_crossing longest = bid_against(MADE_RESTING);
    for (size_t i = 0; i < COUNT(lens) * COUNT(lens) * COUNT(fills); i++) {
        struct made_crossing c = longest;
        c.prices_len = lens[i % COUNT(lens)];
        c.sizes_len = lens[i / COUNT(lens) % COUNT(lens)];
        expect_both(&c, fills[i / COUNT(lens) / COUNT(lens)]);
    }
    for (size_t len = 0; len <= MADE_RESTING; len++) {
        struct made_crossing c = bid_against(len);
        expect_number(&c, len <= 64 ? OPC_ACCEPTED : OPC_BAD_CROSSING, "36 by another length");
        expect_both(&c, len);
        expect_both(&c, len == 0 ? 0 : len - 1);
        expect(answer_to(&c, len + 1).number == (len <= 64 ? OPC_ACCEPTED : OPC_BAD_CROSSING),
               "36 by the number of fills");
    }
}

/* A price that is not beyond the one before it, at every place of every length. */
static void test_sequence(void) {
    for (size_t len = 2; len <= OPC_MAX_RESTING; len++) {
        for (size_t at = 1; at < len; at++) {
            struct made_crossing c = bid_against(len);
            c.prices[at] = c.prices[at - 1];
            expect_number(&c, OPC_BAD_CROSSING, "36 by a price that is there twice");
            expect_both(&c, len);
            c.prices[at] = c.prices[at - 1] - 1;
            expect_both(&c, len);
            c.prices[at] = c.prices[at - 1] + 1;
            expect_number(&c, OPC_ACCEPTED, "a price one above that before it");
            expect_both(&c, len);
        }
        struct made_crossing c = bid_against(len);
        for (size_t i = 0; i < COUNT(yes); i++) {
            c.sell = yes[i];
            expect_number(&c, OPC_BAD_CROSSING, "36 by a sell's list that rises");
        }
    }
}

/* Each value at each place of lists of 1, 2 and 64, all else being right or as it comes. */
static void test_values_of_lists(void) {
    static const size_t lens[] = {1, 2, OPC_MAX_RESTING};
    for (size_t i = 0; i < COUNT(lens); i++) {
        for (size_t at = 0; at < lens[i]; at++) {
            const struct made_crossing right = bid_against(lens[i]);
            for (size_t k = 0; k < COUNT(prices_about); k++) {
                struct made_crossing c = right;
                c.prices[at] = prices_about[k];
                expect_both(&c, OPC_MAX_RESTING);
            }
            for (size_t k = 0; k < COUNT(sizes_about); k++) {
                struct made_crossing c = right;
                c.sizes[at] = sizes_about[k];
                expect_both(&c, OPC_MAX_RESTING);
            }
        }
    }
}

/* The least and the greatest price beside each other, alone and about the quote's own. */
static void test_outermost_prices(void) {
    static const uint64_t bids[] = {1, 2, 5000, MOST_QUOTED - 2, MOST_QUOTED - 1};
    for (size_t i = 0; i < COUNT(bids); i++) {
        struct made_crossing c = crossing_bid(bids[i], 100);
        add_resting(&c, 10, 1);
        expect_number(&c, OPC_ACCEPTED, "the least price");
        expect_both(&c, 1);
        add_resting(&c, 10, MOST_QUOTED);
        expect_number(&c, OPC_ACCEPTED, "the least price and the greatest");
        for (size_t k = 0; k < COUNT(prices_about); k++) {
            c.away = lesser(prices_about[k], MOST_QUOTED);
            expect_both(&c, 2);
        }
    }
}

/* ---- the other numbers ---- */

static void test_sizes(void) {
    for (size_t len = 0; len <= 4; len++) {
        for (size_t i = 0; i < COUNT(sizes_about); i++) {
            struct made_crossing c = bid_against(len);
            c.size = sizes_about[i];
            bool is_right = c.size >= 1 && c.size <= MOST_SIZE;
            expect_number(&c, is_right ? OPC_ACCEPTED : OPC_BAD_CROSSING, "36 by the size");
            expect_both(&c, len);
        }
    }
}

static void test_away(void) {
    for (size_t len = 0; len <= 4; len++) {
        for (size_t i = 0; i < COUNT(prices_about); i++) {
            struct made_crossing c = bid_against(len);
            c.away = prices_about[i];
            bool is_right = c.away <= MOST_QUOTED;
            expect_number(&c, is_right ? OPC_ACCEPTED : OPC_BAD_CROSSING, "36 by the away price");
            /* One above the limit is missing when it is turned. */
            if (is_right) {
                expect_both(&c, len);
            }
        }
    }
}

/* Every value but 0 is a sell; of resting, one that is resting. */
static void test_marks(void) {
    const struct made_crossing bid = bid_against(5);
    struct made_crossing c = mirrored_crossing(&bid, TURNED);
    struct opc_crossing_answer a = answer_to(&c, 5);
    expect(a.number == OPC_ACCEPTED && a.executed > 0, "a sell that executes nothing");
    for (size_t i = 0; i < COUNT(yes); i++) {
        c.sell = c.quote.resting = yes[i];
        struct opc_crossing_answer b = answer_to(&c, 5);
        expect(memcmp(&a, &b, sizeof a) == 0, "another value for a yes");
    }
    c.sell = 0;
    expect_number(&c, OPC_BAD_CROSSING, "36 by a buy's list that falls");
}

/* The greatest number in each place, all else being right. */
static void test_greatest_numbers(void) {
    struct made_crossing c = bid_against(OPC_MAX_RESTING);
    struct made_quote *q = &c.quote;
    uint64_t *const settings = (uint64_t *)&q->settings, *const market = (uint64_t *)&q->market;
    uint64_t *places[6 + 2 * OPC_MAX_RESTING + OPC_SETTINGS_COUNT + OPC_MARKET_COUNT] = {
        &q->bid, &q->offer, &q->resting, &c.sell, &c.size, &c.away};
    size_t len = 6;
    for (size_t i = 0; i < OPC_MAX_RESTING; i++) {
        places[len++] = &c.prices[i];
        places[len++] = &c.sizes[i];
    }
    for (size_t i = 0; i < OPC_SETTINGS_COUNT; i++) {
        places[len++] = settings + i;
    }
    for (size_t i = 0; i < OPC_MARKET_COUNT; i++) {
        places[len++] = market + i;
    }
    for (size_t i = 0; i < len; i++) {
        const uint64_t kept = *places[i];
        *places[i] = UINT64_MAX;
        answer_to(&c, OPC_MAX_RESTING);
        *places[i] = kept;
    }
    for (size_t i = 0; i < len; i++) {
        *places[i] = UINT64_MAX;
    }
    expect_number(&c, OPC_BAD_SETTING, "every number the greatest");
}

/* ---- slices ---- */

/* A pointer and its length, or NULL and 0. */
#define GIVEN(has, at, len) (has) ? (at) : NULL, (has) ? (len) : 0

/* A bid for 5 against two offers of 2, where the slices of these bits are NULL with length 0. */
static void expect_with_null(const struct made_crossing *c, size_t missing) {
    const struct made_quote *q = &c->quote;
    bool symbol = (missing & 1) == 0, prices = (missing & 2) == 0, sizes = (missing & 4) == 0,
         settings = (missing & 8) == 0, market = (missing & 16) == 0, fills = (missing & 32) == 0;
    bool is_bad = prices != sizes || (prices && !fills);
    uint64_t filled = prices ? 2 : 0;
    struct opc_crossing_answer a, expected = {.number = OPC_ACCEPTED,
                                              .executed = 2 * filled,
                                              .booked = 5 - 2 * filled,
                                              .fills = {filled, filled}};
    if (!symbol || !settings || !market || is_bad) {
        expected = (struct opc_crossing_answer){.number = !symbol     ? OPC_NOT_21_BYTES
                                                          : !settings ? OPC_BAD_SETTING
                                                          : !market   ? OPC_BAD_MARKET
                                                                      : OPC_BAD_CROSSING};
    }
    memset(&a, fills ? 0xa5 : 0, sizeof a);
    a.number = opc_check_crossing_quote(
        GIVEN(symbol, q->symbol, OPC_SYMBOL_LENGTH), q->bid, q->offer, 1, 0, 5,
        GIVEN(prices, c->prices, 2), GIVEN(sizes, c->sizes, 2), 0,
        GIVEN(settings, (const uint64_t *)&q->settings, OPC_SETTINGS_COUNT),
        GIVEN(market, (const uint64_t *)&q->market, OPC_MARKET_COUNT),
        GIVEN(fills, a.fills, OPC_MAX_RESTING), LENT_OF_CROSSING(&a));
    expect_same(&a, &expected, "NULL with length 0");
}

/* Each slice, and every set of them. */
static void test_null(void) {
    const struct made_crossing c = bid_against(2);
    crossing_now = c;
    for (size_t missing = 0; missing < 64; missing++) {
        expect_with_null(&c, missing);
    }
}

/* Prices and sizes may be one slice: they are only read. */
static void test_shared_slice(void) {
    static const uint64_t both[] = {10, 20, 30, 40};
    struct made_crossing c = crossing_bid(30, 45);
    for (size_t i = 0; i < COUNT(both); i++) {
        add_resting(&c, both[i], both[i]);
    }
    struct opc_crossing_answer expected = answer_to(&c, OPC_MAX_RESTING);
    struct opc_crossing_quote crossing = lend_crossing(&c);
    crossing.prices = crossing.sizes = both;
    struct opc_crossing_answer a =
        opc_answer_crossing_quote(&crossing, &c.quote.settings, &c.quote.market);
    expect_same(&a, &expected, "one slice for prices and sizes");
}

/* Lists of many thousands: refused, and every fill is 0. */
static void test_long_lists(void) {
    static uint64_t prices[100000], sizes[100000], fills[100000];
    struct made_crossing made = crossing_bid(5000, 100);
    crossing_now = made;
    for (size_t i = 0; i < COUNT(prices); i++) {
        prices[i] = i + 1;
        sizes[i] = 1;
    }
    for (size_t len = 65; len <= COUNT(prices); len = len * 3 / 2) {
        struct opc_crossing_quote c = lend_crossing(&made);
        struct opc_crossing_answer a = {.number = 0};
        c.prices = prices;
        c.sizes = sizes;
        c.prices_len = c.sizes_len = len;
        memset(fills, 0xa5, sizeof fills);
        a.number = opc_check_crossing_quote(EACH_OF_CROSSING(&c), SLICES_OF(&made.quote), fills,
                                            COUNT(fills), LENT_OF_CROSSING(&a));
        const struct opc_crossing_answer refused = {.number = OPC_BAD_CROSSING};
        expect_same(&a, &refused, "a long list");
        expect(are_zeros(fills, COUNT(fills)), "a fill of a long list");
    }
}

/* Settings and market of other lengths come before 36. */
static void expect_refused(void *made, uint64_t number, const char *what) {
    struct made_crossing c = *(struct made_crossing *)made;
    expect_number(&c, number, what);
    c.size = 0;
    expect_number(&c, number == OPC_ACCEPTED ? OPC_BAD_CROSSING : number, what);
}

static void test_other_slices(void) {
    struct made_crossing c = bid_against(3);
    struct made_quote *q = &c.quote;
    expect_lengths(expect_refused, &c, &q->settings_len, &q->market_len);
    for (size_t len = 0; len <= MADE_SYMBOL; len++) {
        q->symbol_len = len;
        expect_refused(&c, len == OPC_SYMBOL_LENGTH ? OPC_ACCEPTED : OPC_NOT_21_BYTES,
                       "1 by another length");
    }
}

/* ---- the sequence of numbers ---- */

/* Quotes that 20, 21 and 26 reject, with a list that is right. */
static struct made_crossing rejected_by(uint64_t check) {
    struct made_crossing c = bid_against(4);
    if (check == OPC_CHECK_PUT) {
        memcpy(c.quote.symbol, "XYZ   270115P00005000", OPC_SYMBOL_LENGTH);
    } else if (check == OPC_CHECK_CALL) {
        c.quote.market.underlying = 5000;
    } else {
        c.quote.market.nbo = 5000;
    }
    return c;
}

/* A rejected quote keeps its flag and fills nothing; a bad list comes first, with no flag. */
static void test_rejected(void) {
    static const uint64_t checks_of_quotes[] = {OPC_CHECK_PUT, OPC_CHECK_CALL,
                                                OPC_CHECK_QUOTE_INVERSION};
    for (size_t i = 0; i < COUNT(checks_of_quotes) * 2; i++) {
        uint64_t check = checks_of_quotes[i / 2], resting = i % 2 == 0 ? 0 : yes[i / 2];
        for (size_t k = 0; k < 1000; k++) {
            struct made_crossing c = rejected_by(check);
            c.quote.resting = resting;
            struct opc_crossing_answer a = answer_to(&c, between(4, 100));
            const struct opc_crossing_answer said = {.number = check, .cancel = resting != 0};
            expect_same(&a, &said, "a rejected quote");
            damage_crossing(&c);
            a = answer_to(&c, between(0, 100));
            const struct opc_crossing_answer refused = {.number = OPC_BAD_CROSSING};
            expect_same(&a, &refused, "a bad list of a quote that would be rejected");
        }
    }
}

/* Every refusal of the quote check before 36, alone and beside it. */
static void test_refused(void) {
    for (size_t i = 0; i < RANDOM_CASES; i++) {
        struct made_crossing c = random_crossing();
        size_t low = below(QUOTE_REFUSALS + 1);
        if (one_in(2)) {
            damage_crossing(&c);
        } else if (low == QUOTE_REFUSALS) {
            continue;
        }
        if (low < QUOTE_REFUSALS) {
            damage_quote(&c.quote, quote_refusals[low]);
        }
        c.quote.resting = next_random();
        expect_number(&c, low < QUOTE_REFUSALS ? quote_refusals[low] : OPC_BAD_CROSSING,
                      "another refusal than expected");
    }
}

/* ---- the fills ---- */

/* Every list of three prices of 1 to 5 at most, of sizes 1 and 2, by bits: a price is there or not,
 * and its size one more or not. */
static struct made_crossing small_list(size_t which, size_t larger) {
    struct made_crossing c = crossing_bid(1, 1);
    for (size_t price = 1; price <= 5; price++) {
        if ((which >> (price - 1) & 1) != 0) {
            add_resting(&c, 1 + (larger >> c.prices_len & 1), price);
        }
    }
    return c;
}

/* Each with every bid of 1 to 6, every away price of 0 to 6 and every size of 1 to 7. */
static void expect_small(struct made_crossing c) {
    for (c.quote.bid = 1; c.quote.bid <= 6; c.quote.bid++) {
        c.quote.offer = c.quote.bid + 1;
        for (c.away = 0; c.away <= 6; c.away++) {
            for (c.size = 1; c.size <= 7; c.size++) {
                expect_both(&c, c.prices_len + c.size % 2);
            }
        }
    }
}

static void test_small_lists(void) {
    for (size_t which = 0; which < 32; which++) {
        size_t len = small_list(which, 0).prices_len;
        for (size_t larger = 0; len <= 3 && larger < 1ULL << len; larger++) {
            expect_small(small_list(which, larger));
        }
    }
}

/* The most in each place: the first fills all, or the list does in the end, or not even so. */
static void test_most(void) {
    struct made_crossing c = crossing_bid(MOST_QUOTED - 1, MOST_SIZE);
    for (size_t i = 0; i < OPC_MAX_RESTING; i++) {
        add_resting(&c, MOST_SIZE, MOST_QUOTED - 200 + i);
    }
    expect_both(&c, OPC_MAX_RESTING);
    for (uint64_t size = 1; size <= MOST_SIZE; size *= 10) {
        for (size_t i = 0; i < OPC_MAX_RESTING; i++) {
            c.sizes[i] = size;
        }
        for (uint64_t more = 0; more < 3; more++) {
            c.size = lesser(OPC_MAX_RESTING * size + more - 1, MOST_SIZE);
            expect_both(&c, OPC_MAX_RESTING);
        }
    }
}

/* Every end that a valid quote can have is reached: what is executed, booked and cancelled. */
static void test_random_valid(void) {
    uint64_t ends = 0;
    for (size_t i = 0; i < RANDOM_CASES; i++) {
        struct made_crossing c = random_crossing();
        struct opc_crossing_answer a = answer_to(&c, c.prices_len + below(80));
        expect(opc_outcome_of(a.number) != OPC_OUTCOME_REFUSED, "a valid quote is refused");
        ends |= only(end_of(&a));
    }
    /* Rejected; all executed; booked, and cancelled, after something was executed or nothing. */
    expect(ends == (only(0) | only(1) | only(2) | only(3) | only(4) | only(5)),
           "an end that no valid quote had, or another");
}

/* With no check on, so that nothing is rejected, and turned to the other side. */
static void test_random_mirrored(void) {
    for (size_t i = 0; i < RANDOM_CASES; i++) {
        struct made_crossing c = random_crossing();
        struct opc_settings *s = &c.quote.settings;
        s->check_20 = s->check_21 = s->check_26 = 0;
        expect_both(&c, c.prices_len);
    }
}

int main(void) {
    test_cases();
    test_papers();
    test_rejected_example();
    test_lengths();
    test_sequence();
    test_values_of_lists();
    test_outermost_prices();
    test_sizes();
    test_away();
    test_marks();
    test_greatest_numbers();
    test_null();
    test_shared_slice();
    test_long_lists();
    test_other_slices();
    test_rejected();
    test_refused();
    test_small_lists();
    test_most();
    test_random_valid();
    test_random_mirrored();
    return all_hold();
}
