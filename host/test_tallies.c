/*
 * Holds the tallied check to the answers of the files in cases/, to the order check and to exact
 * tallies. Exit status 1 and a message on the first failure, one line with the number of checks
 * otherwise.
 */
#define _DEFAULT_SOURCE /* for lent_bytes.h */
#include "answers.h"
#include "cases.h"
#include "expect.h"
#include "expect_answers.h"
#include "given_orders.h"
#include "lent_bytes.h"
#include "made_orders.h"
#include "made_tallies.h"
#include "option_price_check.h"

#define RANDOM_CASES 100000

static const char *const test_name = "test_tallies";

/* The tally lent last, for the message of a failure. */
static struct opc_tally now;

static void print_tried(void) {
    print_case();
    fprintf(stderr,
            "  tally before: seen %" PRIu64 ", refused %" PRIu64 ", accepted %" PRIu64
            ", rejected %" PRIu64 "\n",
            now.seen, now.refused, now.accepted, now.rejected);
}

static struct opc_answer raw_answer(const struct opc_order *o, const struct lent_terms *terms,
                                    struct opc_tally *t, uint64_t garbage) {
    struct opc_answer a = {garbage, garbage, garbage, garbage};
    a.number =
        opc_check_order_tallied(EACH_OF_ORDER(o), EACH_OF_TERMS(terms), &a.class_, &a.shape,
                                &a.pairings, &t->seen, &t->refused, &t->accepted, &t->rejected);
    return a;
}

/*
 * Asks the entry, and sees that the slices and the bytes before them are kept. It is asked twice
 * with different garbage in class, shape and pairings, so one that it left unset shows; each time
 * the tally is the same before.
 */
static struct opc_answer answer(const struct made_order *made, struct opc_tally *tally) {
    static struct lent_bytes symbols, counts;
    static struct lent_terms terms;
    struct opc_order order = lend(made);
    uint64_t garbage = next_random();
    struct opc_tally second = *tally;
    now = *tally;
    order.symbols = lend_bytes(&symbols, made->symbols, made->symbols_len);
    order.counts = lend_bytes(&counts, made->counts, made->counts_len);
    lend_terms(&terms, &made->settings, made->settings_len, &made->market, made->market_len);
    struct opc_answer raw = raw_answer(&order, &terms, tally, garbage);
    struct opc_answer again = raw_answer(&order, &terms, &second, ~garbage);
    expect(same_answer(&raw, &again), "a lent number is not set");
    expect(same_tally(tally, &second), "the same call leaves another tally");
    expect(are_kept(&symbols), "a symbol byte is not kept");
    expect(are_kept(&counts), "a count byte is not kept");
    expect(terms_are_kept(&terms), "a setting or a market value is not kept");
    return raw;
}

/* The order check's own answer, and the tally one further. */
static void expect_counted(const struct made_order *made, struct opc_tally *tally) {
    struct opc_answer untallied;
    untallied.number = opc_check_order(EACH_OF_ORDER(made), SLICES_OF(made), &untallied.class_,
                                       &untallied.shape, &untallied.pairings);
    const struct opc_tally expected = counted(*tally, untallied.number);
    struct opc_answer a = answer(made, tally);
    expect(same_answer(&a, &untallied), "another answer than the order check's");
    expect(same_tally(tally, &expected), "another tally than expected");
}

/* Number 12, zeros elsewhere, and the tally as it was. */
static void expect_not_counted(const struct made_order *made, struct opc_tally tally) {
    const struct opc_answer refused = {OPC_BAD_TALLY, 0, 0, 0};
    struct opc_tally after = tally;
    struct opc_answer a = answer(made, &after);
    expect(same_answer(&a, &refused), "another answer than 12 and zeros");
    expect(same_tally(&after, &tally), "a tally that was refused is changed");
}

static void hold_order(const struct request *request, const char *words) {
    const struct opc_tally before = {6, 1, 2, 3};
    struct made_order m = order_of(&request->order, &request->terms);
    struct opc_tally tally = before;
    struct opc_answer a = answer(&m, &tally);
    const struct opc_tally expected = counted(before, a.number);
    expect_words(&a, words);
    expect(same_tally(&tally, &expected), "another tally after a case");
}

static void test_cases(void) { hold_cases(REQUEST_ORDER, hold_order); }

/* Each number of the order check, counted as its kind from a fresh tally on. */
static void test_numbers(void) {
    struct opc_tally tally = OPC_FRESH_TALLY;
    for (size_t i = 0; i < COUNT(order_numbers); i++) {
        struct made_order m = order_given(order_numbers[i]);
        struct opc_tally alone = OPC_FRESH_TALLY;
        expect(answer(&m, &alone).number == order_numbers[i], "not the number that was meant");
        expect_counted(&m, &tally);
    }
    /* Of the list of numbers: ten refusals, one accepted, six checks. */
    const struct opc_tally expected = {.seen = 17, .refused = 10, .accepted = 1, .rejected = 6};
    now = tally;
    expect(same_tally(&tally, &expected), "the tally of one check of each number");
}

/* Tallies that are counted on, up to the last, whichever kinds make them up. */
static void test_good_tallies(void) {
    static const struct opc_tally good[] = {
        {0, 0, 0, 0},           {1, 1, 0, 0},
        {1, 0, 1, 0},           {1, 0, 0, 1},
        {6, 1, 2, 3},           {999998, 999998, 0, 0},
        {999999, 999999, 0, 0}, {999999, 0, 999999, 0},
        {999999, 0, 0, 999999}, {999999, 333333, 333333, 333333},
    };
    for (size_t i = 0; i < COUNT(good); i++) {
        for (size_t j = 0; j < COUNT(order_numbers); j++) {
            struct made_order m = order_given(order_numbers[j]);
            struct opc_tally tally = good[i];
            expect_counted(&m, &tally);
        }
    }
}

/* 12 comes first, whatever the order. */
static void test_bad_tallies(void) {
    for (size_t i = 0; i < COUNT(bad_tallies); i++) {
        for (size_t j = 0; j < COUNT(order_numbers); j++) {
            struct made_order m = order_given(order_numbers[j]);
            expect_not_counted(&m, bad_tallies[i]);
        }
    }
}

static void test_null(void) {
    struct made_order made = no_legs();
    struct opc_order order = lend(&made);
    struct opc_tally tally = OPC_FRESH_TALLY;
    const struct opc_tally expected = {.seen = 1, .refused = 1, .accepted = 0, .rejected = 0};
    now = tally;
    order.symbols = order.counts = NULL;
    struct opc_answer a = opc_answer_order_tallied(&order, &made.settings, &made.market, &tally);
    expect(a.number == OPC_BAD_LEG_COUNT && a.class_ == 0 && a.shape == 0 && a.pairings == 0,
           "NULL with length 0");
    expect(same_tally(&tally, &expected), "the tally of NULL with length 0");
}

/* Any order, with shares or without, valid or damaged. */
static struct made_order any_order(void) {
    struct made_order m = random_either(one_in(3) ? 1 : between(3, OPC_MOST_LEGS));
    if (legs_of(&m) > 1 && one_in(3)) {
        damage(&m, refusals[below(REFUSALS)]);
    }
    return m;
}

/* A session of any orders, each with the tally that the one before left. */
static void test_random_session(void) {
    struct opc_tally tally = OPC_FRESH_TALLY;
    for (size_t i = 0; i < RANDOM_CASES; i++) {
        struct made_order m = any_order();
        expect_counted(&m, &tally);
    }
    expect(tally.seen == RANDOM_CASES, "the number of checks in a session");
    expect(tally.refused > 0 && tally.accepted > 0 && tally.rejected > 0,
           "a session without one of the kinds");
}

/* Any tallies, from near misses to any 64 bits. */
static void test_random_tallies(void) {
    for (size_t i = 0; i < RANDOM_CASES; i++) {
        struct made_order m = any_order();
        struct opc_tally t = {
            .refused = below(333334), .accepted = below(333334), .rejected = below(333334)};
        uint64_t *fields[] = {&t.seen, &t.refused, &t.accepted, &t.rejected};
        t.seen = t.refused + t.accepted + t.rejected;
        if (one_in(2)) {
            expect_counted(&m, &t);
        } else {
            uint64_t change = between(1, UINT64_MAX - 1) >> below(63);
            *fields[below(COUNT(fields))] += change == 0 ? 1 : change;
            expect_not_counted(&m, t);
        }
    }
}

/* A whole session: a million checks are counted, and the one after that is not. */
static void test_whole_session(void) {
    const struct made_order made[] = {order_given(OPC_BAD_LEG_COUNT), order_given(OPC_ACCEPTED),
                                      order_given(OPC_CHECK_PUT), order_given(OPC_BAD_COUNT)};
    struct opc_tally tally = OPC_FRESH_TALLY;
    const struct opc_tally whole = {OPC_MOST_TALLIED, OPC_MOST_TALLIED / 2, OPC_MOST_TALLIED / 4,
                                    OPC_MOST_TALLIED / 4};
    for (size_t i = 0; i < OPC_MOST_TALLIED; i++) {
        const struct made_order *m = &made[i % COUNT(made)];
        struct opc_order order = lend(m);
        now = tally;
        struct opc_answer a = opc_answer_order_tallied(&order, &m->settings, &m->market, &tally);
        expect(a.number != OPC_BAD_TALLY && tally.seen == i + 1, "a check that is not counted");
    }
    expect(same_tally(&tally, &whole), "the tally of a whole session");
    for (size_t i = 0; i < COUNT(made); i++) {
        expect_not_counted(&made[i], tally);
    }
}

int main(void) {
    test_cases();
    test_numbers();
    test_good_tallies();
    test_bad_tallies();
    test_null();
    test_random_session();
    test_random_tallies();
    test_whole_session();
    return all_hold();
}
