/*
 * Holds the order check to the answers of the files in cases/, to what holds of every answer, and
 * to rules of this test's own: calendars to number, class and pairings, orders with shares to the
 * number. Exit status 1 and a message on the first failure, one line with the number of checks
 * otherwise.
 */
#define _DEFAULT_SOURCE /* for lent_bytes.h */
#include "answers.h"
#include "cases.h"
#include "expect.h"
#include "expect_answers.h"
#include "expect_terms.h"
#include "lent_bytes.h"
#include "made_orders.h"
#include "option_price_check.h"

#define RANDOM_CASES 100000

static const char *const test_name = "test_orders";

/* The order tried last, for the message of a failure. */
static struct made_order now;

static void print_tried(void) {
    print_case();
    print_order(&now);
    print_terms(&now.settings, now.settings_len, &now.market, now.market_len);
}

static struct opc_answer raw_answer(const struct opc_order *o, const struct lent_terms *t,
                                    uint64_t garbage) {
    struct opc_answer a = {garbage, garbage, garbage, garbage};
    a.number =
        opc_check_order(EACH_OF_ORDER(o), EACH_OF_TERMS(t), &a.class_, &a.shape, &a.pairings);
    return a;
}

/*
 * Asks the entry, and sees that the slices and the bytes before them are kept. It is asked twice
 * with different garbage in its lent numbers, so one that it left unset shows.
 */
static struct opc_answer answer(const struct made_order *made) {
    static struct lent_bytes symbols, counts;
    static struct lent_terms terms;
    struct opc_order order = lend(made);
    uint64_t garbage = next_random();
    now = *made;
    order.symbols = lend_bytes(&symbols, made->symbols, made->symbols_len);
    order.counts = lend_bytes(&counts, made->counts, made->counts_len);
    lend_terms(&terms, &made->settings, made->settings_len, &made->market, made->market_len);
    struct opc_answer raw = raw_answer(&order, &terms, garbage);
    struct opc_answer again = raw_answer(&order, &terms, ~garbage);
    expect(same_answer(&raw, &again), "a lent number is not set");
    expect(are_kept(&symbols), "a symbol byte is not kept");
    expect(are_kept(&counts), "a count byte is not kept");
    expect(terms_are_kept(&terms), "a setting or a market value is not kept");
    expect_limits(&raw, legs_of(made));
    return raw;
}

static void expect_refused(const struct made_order *made, uint64_t number) {
    const struct opc_answer refused = {number, 0, 0, 0};
    struct opc_answer a = answer(made);
    expect(same_answer(&a, &refused), "another answer than this refusal");
}

/* One call bought, at 20 dollars for 1 dollar: accepted. */
static struct made_order one_call(void) {
    struct made_order m = no_legs();
    add_leg(&m, 270115, 'C', 20000, 1);
    m.price = 1000;
    return m;
}

/* A debit vertical, at 5 dollars between the strikes. */
static struct made_order vertical(int64_t price) {
    struct made_order m = no_legs();
    add_leg(&m, 270115, 'C', 20000, 3);
    add_leg(&m, 270115, 'C', 25000, -3);
    m.price = price;
    return m;
}

static void expect_case(const struct made_order *made, const char *words) {
    struct opc_answer a = answer(made);
    expect_words(&a, words);
}

/* As it is; with the legs in another sequence, and with other values for each yes. */
static void hold_order(const struct request *request, const char *words) {
    struct made_order m = order_of(&request->order, &request->terms);
    expect_case(&m, words);
    shuffle_legs(&m);
    expect_case(&m, words);
    uint64_t *const flags[] = {&m.kind, &m.stop, &m.manual, &m.opening};
    for (size_t i = 0; i < COUNT(flags); i++) {
        change_yes(flags[i]);
    }
    change_flags(&m.settings, &m.market);
    expect_case(&m, words);
}

static void test_cases(void) { hold_cases(REQUEST_ORDER, hold_order); }

static void test_lengths_of_legs(void) {
    for (size_t symbols_len = 0; symbols_len <= 3 * OPC_SYMBOL_LENGTH; symbols_len++) {
        for (size_t counts_len = 0; counts_len <= 3 * OPC_COUNT_LENGTH; counts_len++) {
            struct made_order m = vertical(1000);
            m.symbols_len = symbols_len;
            m.counts_len = counts_len;
            bool whole = counts_len % OPC_COUNT_LENGTH == 0 &&
                         symbols_len == legs_of(&m) * OPC_SYMBOL_LENGTH;
            expect((answer(&m).number == OPC_NOT_21_BYTES) == !whole, "1 by other lengths");
        }
    }
}

static void expect_order(void *made, uint64_t number, const char *what) {
    if (number == OPC_ACCEPTED) {
        expect(answer(made).number == OPC_ACCEPTED, what);
    } else {
        expect_refused(made, number);
    }
}

static void test_lengths_of_terms(void) {
    struct made_order m = vertical(1000);
    expect_lengths(expect_order, &m, &m.settings_len, &m.market_len);
}

static void test_null(void) {
    struct made_order made = no_legs();
    struct opc_order order = lend(&made);
    order.symbols = order.counts = NULL;
    now = made;
    struct opc_answer a = opc_answer_order(&order, &made.settings, &made.market);
    expect(a.number == OPC_BAD_LEG_COUNT && a.class_ == 0 && a.shape == 0 && a.pairings == 0,
           "NULL with length 0");
    made = one_call();
    order = lend(&made);
    order.symbols = NULL;
    order.symbols_len = 0;
    a = opc_answer_order(&order, &made.settings, &made.market);
    expect(a.number == OPC_NOT_21_BYTES, "no symbols, at NULL, for a count");
    order = lend(&made);
    order.counts = NULL;
    order.counts_len = 0;
    a = opc_answer_order(&order, &made.settings, &made.market);
    expect(a.number == OPC_NOT_21_BYTES, "no counts, at NULL, for a symbol");
}

/* Two damages at a time: the number that comes first is given, and zeros beside it. */
static void test_random_damaged(void) {
    for (size_t i = 0; i < RANDOM_CASES; i++) {
        struct made_order m = random_either(between(3, OPC_MOST_LEGS));
        size_t first = below(REFUSALS);
        size_t second = first + below(REFUSALS - first);
        damage(&m, refusals[second]);
        if (second > first) {
            damage(&m, refusals[first]);
        }
        expect_refused(&m, refusals[first]);
    }
}

/* Without shares: never refused, and the same answer to the legs in another sequence. */
static void test_random_valid(void) {
    uint64_t seen = 0;
    for (size_t i = 0; i < RANDOM_CASES; i++) {
        struct made_order m = random_order(one_in(3) ? 1 : between(2, OPC_MOST_LEGS));
        struct opc_answer a = answer(&m);
        expect(!is_refusal(a.number), "a valid order is refused");
        seen |= only(a.number);
        shuffle_legs(&m);
        struct opc_answer shuffled = answer(&m);
        expect(same_answer(&a, &shuffled), "the sequence of the legs matters");
    }
    uint64_t all = only(OPC_ACCEPTED) | only(OPC_CHECK_PUT) | only(OPC_CHECK_CALL) |
                   only(OPC_CHECK_BUY_BUY) | only(OPC_CHECK_DEBIT_CREDIT) |
                   only(OPC_CHECK_MAXIMUM_VALUE) | only(OPC_CHECK_TICK_DISTANCE);
    expect(seen == all, "a number that no valid order was given, or one that none can get");
}

/* ---- calendars ---- */

/* Calls or puts of one strike, at expiries that rise by days, by months or by years. */
static struct made_order any_calendar(void) {
    static const uint64_t steps[] = {3, 3 * 28, 3 * 12 * 28};
    struct made_order m = no_legs();
    size_t legs = between(2, OPC_MOST_LEGS);
    uint64_t style = below(4), strike = between(1, 99999999);
    uint64_t day = below(40 * 12 * 28); /* in months of 28 days, which every month has */
    char option_type = one_in(2) ? 'C' : 'P';
    while (legs_of(&m) < legs) {
        uint64_t year = day / (12 * 28), month = day / 28 % 12 + 1;
        add_leg(&m, year * 10000 + month * 100 + day % 28 + 1, option_type, strike,
                random_count(style));
        day += between(1, steps[below(COUNT(steps))]);
    }
    m.price = one_in(2) ? MOST_PRICE : -MOST_PRICE;
    return m;
}

/*
 * The farthest expiry is the dearest, and by S-5 the walk begins there: so a debit is an order of
 * which no more is sold than bought, from the farthest expiry down to any nearer one; a credit
 * mirrors this.
 */
static uint64_t class_of_calendar(const struct made_order *m) {
    bool is_debit = true, is_credit = true;
    int64_t sum = 0;
    for (size_t leg = legs_of(m); leg > 0; leg--) {
        sum += count_of(m, leg - 1);
        is_debit = is_debit && sum >= 0;
        is_credit = is_credit && sum <= 0;
    }
    return is_debit ? OPC_CLASS_DEBIT : is_credit ? OPC_CLASS_CREDIT : OPC_CLASS_UNDETERMINED;
}

/* Each leg meets the latest walked of those open on the other side: they lie on a stack. */
static uint64_t pairings_of_calendar(const struct made_order *m) {
    int64_t open[OPC_MOST_LEGS];
    size_t height = 0;
    uint64_t pairings = 0;
    for (size_t leg = legs_of(m); leg > 0; leg--) {
        int64_t left = count_of(m, leg - 1);
        while (left != 0 && height > 0 && (left > 0) != (open[height - 1] > 0)) {
            int64_t rest = left + open[height - 1];
            bool stays_open = rest != 0 && (rest > 0) != (left > 0);
            pairings++;
            if (stays_open) {
                open[height - 1] = rest;
                left = 0;
            } else {
                height--;
                left = rest;
            }
        }
        if (left != 0) {
            open[height++] = left;
        }
    }
    return pairings;
}

/* Check 23 gives the number, by the class; 22, which comes before it, is switched off. */
static void test_calendars(void) {
    uint64_t seen = 0;
    for (size_t i = 0; i < RANDOM_CASES; i++) {
        struct made_order m = any_calendar();
        uint64_t class_ = class_of_calendar(&m), pairings = pairings_of_calendar(&m);
        uint64_t turned = m.price > 0 ? OPC_CLASS_CREDIT : OPC_CLASS_DEBIT;
        m.settings.check_22 = 0;
        shuffle_legs(&m);
        struct opc_answer a = answer(&m);
        expect(a.class_ == class_, "another class than a calendar's sums have");
        expect(a.pairings == pairings, "other pairings than a stack of open legs makes");
        expect(a.number == (class_ == turned ? OPC_CHECK_DEBIT_CREDIT : OPC_ACCEPTED),
               "another number than 23 by a calendar's class");
        seen |= only(class_);
    }
    expect(seen == (only(OPC_CLASS_UNDETERMINED) | only(OPC_CLASS_DEBIT) | only(OPC_CLASS_CREDIT)),
           "a class that no calendar has");
}

/* ---- with shares ---- */

static uint64_t common_divisor(uint64_t a, uint64_t b) {
    return b == 0 ? a : common_divisor(b, a % b);
}

/* The option contracts of one unit. */
static uint64_t contracts_of(const struct made_order *m) {
    uint64_t sum = 0, divisor = 0;
    for (size_t leg = 0; leg < legs_of(m); leg++) {
        sum += size_of(count_of(m, leg));
        divisor = common_divisor(size_of(count_of(m, leg)), divisor);
    }
    return sum / divisor;
}

/* The least that the unit's contracts may bring, in mills. */
static int64_t least_of(const struct made_order *m) {
    return (int64_t)(contracts_of(m) * m->settings.net_increment);
}

static bool is_on_one_side(const struct made_order *m) {
    bool are_same = true;
    for (size_t leg = 0; leg < legs_of(m); leg++) {
        are_same = are_same && (count_of(m, leg) > 0) == (m->shares > 0);
    }
    return are_same;
}

/* Document 02, S-4: of the checks 22 alone applies, to shares and options on one side. */
static uint64_t number_with_shares(const struct made_order *m) {
    int64_t amount = m->shares > 0 ? m->price : -m->price;
    bool is_tested = m->settings.check_22 != 0 && m->kind == OPC_KIND_LIMIT && is_on_one_side(m);
    return is_tested && amount < least_of(m) ? OPC_CHECK_BUY_BUY : OPC_ACCEPTED;
}

/* A valid order with shares. Of half of them all legs are on the shares' side, and of half of these
 * the price is the least, one mill less or one more. */
static struct made_order any_stock_order(void) {
    struct made_order m = random_stock_order(one_in(3) ? 1 : between(2, OPC_MOST_LEGS));
    if (one_in(2)) {
        return m;
    }
    for (size_t leg = 0; leg < legs_of(&m); leg++) {
        int64_t size = (int64_t)size_of(count_of(&m, leg));
        opc_write_count(m.shares > 0 ? size : -size, count_at(&m, leg));
    }
    if (one_in(2)) {
        int64_t amount = least_of(&m) + (int64_t)below(3) - 1;
        m.price = m.shares > 0 ? amount : -amount;
    }
    return m;
}

/* The number of the order without its shares; class, shape and pairings are the same with them. */
static uint64_t number_without(const struct made_order *m, const struct opc_answer *with) {
    struct made_order without = *m;
    without.shares = 0;
    struct opc_answer a = answer(&without);
    expect(is_refusal(a.number) ||
               (a.class_ == with->class_ && a.shape == with->shape && a.pairings == with->pairings),
           "class, shape or pairings change with shares");
    return a.number;
}

/* Among them are orders that get each check's number without their shares, and 8 by the sign. */
static void test_random_shares(void) {
    uint64_t seen = 0, without = 0;
    for (size_t i = 0; i < RANDOM_CASES; i++) {
        struct made_order m = any_stock_order();
        uint64_t number = number_with_shares(&m);
        struct opc_answer a = answer(&m);
        expect(a.number == number, "another number than S-4 has with shares");
        seen |= only(number);
        without |= only(number_without(&m, &a));
        shuffle_legs(&m);
        struct opc_answer shuffled = answer(&m);
        expect(same_answer(&a, &shuffled), "the sequence of the legs matters with shares");
    }
    expect(seen == (only(OPC_ACCEPTED) | only(OPC_CHECK_BUY_BUY)), "0 or 22 that none was given");
    uint64_t all = only(OPC_ACCEPTED) | only(OPC_BAD_PRICE) | only(OPC_CHECK_PUT) |
                   only(OPC_CHECK_CALL) | only(OPC_CHECK_BUY_BUY) | only(OPC_CHECK_DEBIT_CREDIT) |
                   only(OPC_CHECK_MAXIMUM_VALUE) | only(OPC_CHECK_TICK_DISTANCE);
    expect(without == all, "a number that no order gets without its shares, or another");
}

/* 33 whatever the price, its sign for one leg too, but not before a price that is too large. */
static void expect_shares(struct made_order m, int64_t shares) {
    static const int64_t prices[] = {0, 1, -1, 1000, -1000, MOST_PRICE, -MOST_PRICE};
    static const int64_t too_large[] = {MOST_PRICE + 1, -MOST_PRICE - 1, INT64_MAX, INT64_MIN};
    m.shares = shares;
    for (size_t i = 0; i < COUNT(prices); i++) {
        m.price = prices[i];
        if (size_of(shares) > MOST_SHARES) {
            expect_refused(&m, OPC_BAD_SHARES);
        } else {
            expect(answer(&m).number == number_with_shares(&m), "shares within their limit");
        }
    }
    for (size_t i = 0; i < COUNT(too_large); i++) {
        m.price = too_large[i];
        expect_refused(&m, OPC_BAD_PRICE);
    }
}

/* On both sides of the limits, and each power of two. */
static void test_share_limits(void) {
    static const int64_t within[] = {1, 100, 999999, MOST_SHARES};
    const struct made_order made[] = {one_call(), vertical(1000)};
    for (size_t k = 0; k < COUNT(made); k++) {
        for (size_t i = 0; i < COUNT(within); i++) {
            expect_shares(made[k], within[i]);
            expect_shares(made[k], -within[i]);
        }
        for (size_t i = 0; i < COUNT(wrong_shares); i++) {
            expect_shares(made[k], wrong_shares[i]);
        }
        for (size_t bit = 0; bit < 64; bit++) {
            expect_shares(made[k], (int64_t)(1ULL << bit));
            expect_shares(made[k], (int64_t)(0 - (1ULL << bit)));
        }
    }
}

int main(void) {
    test_cases();
    test_lengths_of_legs();
    test_lengths_of_terms();
    test_null();
    test_random_damaged();
    test_random_valid();
    test_calendars();
    test_random_shares();
    test_share_limits();
    return all_hold();
}
