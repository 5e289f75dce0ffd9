/*
 * Holds the quote check to the answers of the files in cases/, and to what holds of every answer.
 * Exit status 1 and a message on the first failure, one line with the number of checks otherwise.
 */
#define _DEFAULT_SOURCE /* for lent_bytes.h */
#include "answers.h"
#include "cases.h"
#include "expect.h"
#include "expect_terms.h"
#include "lent_bytes.h"
#include "made_quotes.h"
#include "option_price_check.h"

#define RANDOM_CASES 100000

static const char call_20[] = "XYZ   270115C00020000";

/* Every value but 0 is yes. */
static const uint64_t yes[] = {1, 2, 1ULL << 32, UINT64_MAX};

static const char *const test_name = "test_quotes";

/* The quote tried last, for the message of a failure. */
static struct made_quote now;

static void print_tried(void) {
    const uint64_t prices[] = {now.bid, now.offer, now.resting};
    print_case();
    fprintf(stderr, "  symbol: %.*s\n", (int)now.symbol_len, (const char *)now.symbol);
    print_numbers("bid, offer, resting", prices, COUNT(prices));
    print_terms(&now.settings, now.settings_len, &now.market, now.market_len);
}

static bool same(const struct opc_quote_answer *a, const struct opc_quote_answer *b) {
    return a->number == b->number && a->cancel == b->cancel;
}

static struct opc_quote_answer raw_answer(const struct opc_quote *q, const struct lent_terms *t,
                                          uint64_t garbage) {
    struct opc_quote_answer a = {garbage, garbage};
    a.number = opc_check_quote(EACH_OF_QUOTE(q), EACH_OF_TERMS(t), &a.cancel);
    return a;
}

/*
 * Asks the entry, and sees that the slices and the bytes before them are kept. It is asked twice
 * with different garbage in its lent number, so that it shows if it is unset.
 */
static uint64_t number_of(const struct made_quote *made) {
    static struct lent_bytes symbol;
    static struct lent_terms terms;
    struct opc_quote quote = lend_quote(made);
    uint64_t garbage = next_random();
    now = *made;
    quote.symbol = lend_bytes(&symbol, made->symbol, made->symbol_len);
    lend_terms(&terms, &made->settings, made->settings_len, &made->market, made->market_len);
    struct opc_quote_answer raw = raw_answer(&quote, &terms, garbage);
    struct opc_quote_answer again = raw_answer(&quote, &terms, ~garbage);
    expect(same(&raw, &again), "the cancel flag is not set");
    expect(are_kept(&symbol), "a symbol byte is not kept");
    expect(terms_are_kept(&terms), "a setting or a market value is not kept");
    expect(is_known(raw.number), "a number that is not documented");
    bool is_rejected = opc_outcome_of(raw.number) == OPC_OUTCOME_REJECTED;
    expect(raw.cancel == (is_rejected && made->resting != 0), "the cancel flag");
    return raw.number;
}

/* The number with no quote resting and with one: it is the same, and only the flag differs. */
static void expect_number(struct made_quote *made, uint64_t number, const char *what) {
    uint64_t kept = made->resting;
    made->resting = 0;
    expect(number_of(made) == number, what);
    for (size_t i = 0; i < COUNT(yes); i++) {
        made->resting = yes[i];
        expect(number_of(made) == number, what);
    }
    made->resting = kept;
}

static void expect_quote(void *made, uint64_t number, const char *what) {
    expect_number(made, number, what);
}

/* A call at 20 dollars, quoted at 1 dollar and 1.10: accepted. */
static struct made_quote one_quote(void) { return quote_for(call_20, 1000, 1100); }

static void switch_off(struct opc_settings *s) {
    s->check_20 = s->check_21 = s->check_22 = s->check_23 = 0;
    s->check_24 = s->check_25 = s->check_26 = 0;
}

static struct made_quote quote_of(const struct request *r) {
    struct made_quote q = one_quote();
    memcpy(q.symbol, r->quote.symbol, OPC_SYMBOL_LENGTH);
    q.bid = r->quote.bid;
    q.offer = r->quote.offer;
    q.resting = r->quote.resting;
    q.settings = r->terms.settings;
    q.market = r->terms.market;
    return q;
}

/* As it is; with and without a quote resting; with other values for each yes. */
static void hold_quote(const struct request *request, const char *words) {
    struct made_quote q = quote_of(request);
    uint64_t number = number_of(&q);
    bool cancels = opc_outcome_of(number) == OPC_OUTCOME_REJECTED && q.resting != 0;
    char text[32];
    snprintf(text, sizeof text, "%" PRIu64 "%s", number, cancels ? " cancel" : "");
    expect(strcmp(text, words) == 0, "another answer than the case has");
    expect_number(&q, number, "a resting quote changes the number");
    change_flags(&q.settings, &q.market);
    expect_number(&q, number, "another value for a yes changes the number");
}

static void test_cases(void) { hold_cases(REQUEST_QUOTE, hold_quote); }

static void test_lengths(void) {
    struct made_quote q = one_quote();
    for (size_t len = 0; len <= MADE_SYMBOL; len++) {
        q.symbol_len = len;
        bool whole = len == OPC_SYMBOL_LENGTH;
        expect_number(&q, whole ? OPC_ACCEPTED : OPC_NOT_21_BYTES, "1 by another length");
    }
    q.symbol_len = OPC_SYMBOL_LENGTH;
    expect_lengths(expect_quote, &q, &q.settings_len, &q.market_len);
}

static void test_null(void) {
    struct made_quote q = one_quote();
    struct opc_quote quote = lend_quote(&q);
    now = q;
    quote.symbol = NULL;
    quote.symbol_len = 0;
    quote.resting = 1;
    struct opc_quote_answer a = opc_answer_quote(&quote, &q.settings, &q.market);
    expect(a.number == OPC_NOT_21_BYTES && a.cancel == 0, "NULL with length 0");
}

/* Two damages at a time: the lower number is given, and no cancel flag. */
static void test_random_damaged(void) {
    for (size_t i = 0; i < RANDOM_CASES; i++) {
        struct made_quote q = random_quote();
        size_t low = below(QUOTE_REFUSALS);
        size_t high = low + below(QUOTE_REFUSALS - low);
        damage_quote(&q, quote_refusals[high]);
        if (high > low) {
            damage_quote(&q, quote_refusals[low]);
        }
        expect(number_of(&q) == quote_refusals[low], "another refusal than expected");
    }
}

/* The number with one check's switch alone on. */
static uint64_t number_alone(struct made_quote q, uint64_t check) {
    switch_off(&q.settings);
    if (check == OPC_CHECK_PUT) {
        q.settings.check_20 = 1;
    } else if (check == OPC_CHECK_CALL) {
        q.settings.check_21 = 1;
    } else {
        q.settings.check_26 = 1;
    }
    uint64_t number = number_of(&q);
    expect(number == OPC_ACCEPTED || number == check, "a check that is off rejects");
    return number;
}

/* Valid quotes: never refused, and the first of the checks that reject, each tried alone. */
static void test_random_valid(void) {
    static const uint64_t all[] = {OPC_CHECK_PUT, OPC_CHECK_CALL, OPC_CHECK_QUOTE_INVERSION};
    uint64_t seen = 0;
    for (size_t i = 0; i < RANDOM_CASES; i++) {
        struct made_quote q = random_quote();
        uint64_t first = OPC_ACCEPTED;
        q.settings.check_20 = q.settings.check_21 = q.settings.check_26 = 1;
        for (size_t j = COUNT(all); j > 0; j--) {
            uint64_t alone = number_alone(q, all[j - 1]);
            first = alone == OPC_ACCEPTED ? first : alone;
        }
        expect(number_of(&q) == first, "not the first check that rejects");
        seen |= only(first);
    }
    expect(seen == (only(OPC_ACCEPTED) | only(all[0]) | only(all[1]) | only(all[2])),
           "a number that no valid quote was given");
}

/* 20 and 21 reject a bid where they reject a limit order that buys at it. */
static void test_random_bids_as_orders(void) {
    for (size_t i = 0; i < RANDOM_CASES; i++) {
        struct made_quote q = random_quote();
        uint8_t count[OPC_COUNT_LENGTH];
        opc_write_count(1, count);
        struct opc_order order = {.symbols = q.symbol,
                                  .symbols_len = OPC_SYMBOL_LENGTH,
                                  .counts = count,
                                  .counts_len = OPC_COUNT_LENGTH,
                                  .price = (int64_t)q.bid};
        uint64_t bought = opc_answer_order(&order, &q.settings, &q.market).number;
        uint64_t quoted = number_of(&q);
        bool either = bought == OPC_CHECK_PUT || bought == OPC_CHECK_CALL ||
                      quoted == OPC_CHECK_PUT || quoted == OPC_CHECK_CALL;
        expect(!either || bought == quoted, "the bid's number is not that of an order");
    }
}

/* Every price turned about a middle: with one tick for all, check 26 answers the same. */
static void test_random_mirrored(void) {
    for (size_t i = 0; i < RANDOM_CASES; i++) {
        struct made_quote q = random_quote();
        q.settings.tick_from_3000 = q.settings.tick_below_3000;
        q.settings.check_20 = q.settings.check_21 = 0;
        struct made_quote m = mirrored_quote(&q, MOST_QUOTED + 1);
        uint64_t number = number_of(&q);
        expect(number_of(&m) == number, "the offer does not mirror the bid");
    }
}

int main(void) {
    test_cases();
    test_lengths();
    test_null();
    test_random_damaged();
    test_random_valid();
    test_random_bids_as_orders();
    test_random_mirrored();
    return all_hold();
}
