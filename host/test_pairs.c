/*
 * Holds the check of pairs to the answers of the files in cases/, to the order check's numbers for
 * each of the two orders alone, and to a table of which orders pass. Exit status 1 and a message on
 * the first failure, one line with the number of checks otherwise.
 */
#define _DEFAULT_SOURCE /* for lent_bytes.h */
#include "answers.h"
#include "cases.h"
#include "expect.h"
#include "expect_pairs.h"
#include "expect_terms.h"
#include "given_orders.h"
#include "lent_bytes.h"
#include "made_pairs.h"
#include "option_price_check.h"

#define RANDOM_CASES 40000

static const char *const test_name = "test_pairs";

/* The mark to continue unpaired: every value but 0 is yes. */
static const uint64_t marks[] = {0, 1, 2, 1ULL << 63, UINT64_MAX};

/* The pair tried last, for the message of a failure. */
static struct made_pair now;

static void print_tried(void) {
    const struct made_order *m = &now.agency;
    print_case();
    fprintf(stderr, "  the agency order\n");
    print_order(&now.agency);
    fprintf(stderr, "  the contra order\n");
    print_order(&now.contra);
    print_numbers("continue unpaired", &now.continue_unpaired, 1);
    print_terms(&m->settings, m->settings_len, &m->market, m->market_len);
}

/* ---- which orders pass ---- */

struct passes {
    uint64_t agency, contra;
};

/* Document 02, S-2, by what the two numbers say: without the mark, and with it. */
static const struct {
    enum opc_outcome agency, contra;
    struct passes unmarked, marked;
} kinds[] = {
    {OPC_OUTCOME_ACCEPTED, OPC_OUTCOME_ACCEPTED, {1, 1}, {1, 1}},
    {OPC_OUTCOME_ACCEPTED, OPC_OUTCOME_REFUSED, {0, 0}, {1, 0}},
    {OPC_OUTCOME_ACCEPTED, OPC_OUTCOME_REJECTED, {0, 0}, {1, 0}},
    {OPC_OUTCOME_REFUSED, OPC_OUTCOME_ACCEPTED, {0, 0}, {0, 0}},
    {OPC_OUTCOME_REFUSED, OPC_OUTCOME_REFUSED, {0, 0}, {0, 0}},
    {OPC_OUTCOME_REFUSED, OPC_OUTCOME_REJECTED, {0, 0}, {0, 0}},
    {OPC_OUTCOME_REJECTED, OPC_OUTCOME_ACCEPTED, {0, 0}, {0, 0}},
    {OPC_OUTCOME_REJECTED, OPC_OUTCOME_REFUSED, {0, 0}, {0, 0}},
    {OPC_OUTCOME_REJECTED, OPC_OUTCOME_REJECTED, {0, 0}, {0, 0}},
};

static size_t kind_of(uint64_t number, uint64_t contra_number) {
    size_t kind = 0;
    while (kinds[kind].agency != opc_outcome_of(number) ||
           kinds[kind].contra != opc_outcome_of(contra_number)) {
        kind++;
    }
    return kind;
}

static struct passes passes_of(uint64_t number, uint64_t contra_number, uint64_t mark) {
    size_t kind = kind_of(number, contra_number);
    return mark == 0 ? kinds[kind].unmarked : kinds[kind].marked;
}

/* ---- the answer ---- */

struct lent_order {
    struct lent_bytes symbols, counts;
};

static struct opc_order lend_watched(struct lent_order *lent, const struct made_order *made) {
    struct opc_order order = lend(made);
    order.symbols = lend_bytes(&lent->symbols, made->symbols, made->symbols_len);
    order.counts = lend_bytes(&lent->counts, made->counts, made->counts_len);
    return order;
}

static bool order_is_kept(const struct lent_order *lent) {
    return are_kept(&lent->symbols) && are_kept(&lent->counts);
}

static struct opc_pair_answer raw_answer(const struct opc_pair *p, const struct lent_terms *t,
                                         uint64_t garbage) {
    struct opc_pair_answer a = {garbage, garbage, garbage, garbage};
    a.agency_number = opc_check_pair(EACH_OF_PAIR(p), EACH_OF_TERMS(t), &a.contra_number,
                                     &a.agency_passes, &a.contra_passes);
    return a;
}

/*
 * Asks the entry twice, with different garbage in its lent numbers, so one that it left unset
 * shows; and the inline function, which has no other lengths of settings and market.
 */
static struct opc_pair_answer answer_lent(const struct opc_pair *pair, const struct lent_terms *t) {
    uint64_t garbage = next_random();
    struct opc_pair_answer raw = raw_answer(pair, t, garbage);
    struct opc_pair_answer again = raw_answer(pair, t, ~garbage);
    expect(same_pair_answer(&raw, &again), "a lent number is not set");
    if (t->settings_len == OPC_SETTINGS_COUNT && t->market_len == OPC_MARKET_COUNT) {
        struct opc_pair_answer a = opc_answer_pair(pair, &now.agency.settings, &now.agency.market);
        expect(same_pair_answer(&raw, &a), "another answer by the inline function");
    }
    expect(terms_are_kept(t), "a setting or a market value is not kept");
    return raw;
}

static void lend_pair_terms(struct lent_terms *t, const struct made_pair *made) {
    const struct made_order *m = &made->agency;
    now = *made;
    lend_terms(t, &m->settings, m->settings_len, &m->market, m->market_len);
}

/* Also sees that the slices and the bytes before them are kept. */
static struct opc_pair_answer answer(const struct made_pair *made) {
    static struct lent_order agency, contra;
    static struct lent_terms terms;
    struct opc_pair pair = lend_pair(made);
    pair.agency = lend_watched(&agency, &made->agency);
    pair.contra = lend_watched(&contra, &made->contra);
    lend_pair_terms(&terms, made);
    struct opc_pair_answer a = answer_lent(&pair, &terms);
    expect(order_is_kept(&agency), "a byte of the agency order is not kept");
    expect(order_is_kept(&contra), "a byte of the contra order is not kept");
    return a;
}

static void expect_numbers(const struct opc_pair_answer *a, uint64_t number, uint64_t contra_number,
                           const char *what) {
    struct passes passes = passes_of(number, contra_number, now.continue_unpaired);
    expect(a->agency_number == number, what);
    expect(a->contra_number == contra_number, what);
    expect(a->agency_passes == passes.agency, "whether the agency order passes");
    expect(a->contra_passes == passes.contra, "whether the contra order passes");
}

/* The two numbers, and what they make pass by the pair's mark. */
static void expect_pair(const struct made_pair *made, uint64_t number, uint64_t contra_number,
                        const char *what) {
    struct opc_pair_answer a = answer(made);
    expect_numbers(&a, number, contra_number, what);
}

static void expect_marked(struct made_pair made, uint64_t number, uint64_t contra_number,
                          const char *what) {
    for (size_t i = 0; i < COUNT(marks); i++) {
        made.continue_unpaired = marks[i];
        expect_pair(&made, number, contra_number, what);
    }
}

static uint64_t number_alone(const struct opc_order *order, const struct made_order *made) {
    struct opc_answer a;
    return opc_check_order(EACH_OF_ORDER(order), SLICES_OF(made), &a.class_, &a.shape, &a.pairings);
}

static uint64_t number_of(const struct made_order *made) {
    struct opc_order order = lend(made);
    return number_alone(&order, made);
}

/* ---- the cases ---- */

static void change_order(struct made_order *m) {
    uint64_t *const flags[] = {&m->kind, &m->stop, &m->manual, &m->opening};
    for (size_t i = 0; i < COUNT(flags); i++) {
        change_yes(flags[i]);
    }
    shuffle_legs(m);
}

static void expect_case(const struct made_pair *made, const char *words) {
    struct opc_pair_answer a = answer(made);
    expect_pair_words(&a, words);
}

static size_t pairs_held;

/* As it is; with the legs in another sequence and other values for each yes. */
static void hold_pair(const struct request *request, const char *words) {
    struct made_order agency = order_of(&request->pair.agency, &request->terms);
    struct made_order contra = order_of(&request->pair.contra, &request->terms);
    uint64_t mark = request->pair.continue_unpaired;
    struct made_pair p = pair_of(&agency, &contra, mark);
    expect_case(&p, words);
    change_order(&agency);
    change_order(&contra);
    change_flags(&agency.settings, &agency.market);
    change_yes(&mark);
    p = pair_of(&agency, &contra, mark);
    expect_case(&p, words);
    pairs_held++;
}

static void test_cases(void) {
    hold_cases(REQUEST_PAIR, hold_pair);
    expect(pairs_held > 0, "no file of cases has a pair");
}

/* ---- the numbers, and the mark ---- */

/* The place of a number among the refusals; after them where it is none. */
static size_t sequence_of(uint64_t number) {
    size_t place = 0;
    while (place < REFUSALS && refusals[place] != number) {
        place++;
    }
    return place;
}

/* An order's own number, or that of its settings and market where this comes first. */
static uint64_t first_of(uint64_t own, uint64_t of_terms) {
    return sequence_of(own) <= sequence_of(of_terms) ? own : of_terms;
}

/* In settings and market that are right, and that get 9 and 10. */
static void expect_beside(uint64_t number, uint64_t contra_number) {
    static const uint64_t of_terms[] = {OPC_ACCEPTED, OPC_BAD_SETTING, OPC_BAD_MARKET};
    for (size_t i = 0; i < COUNT(of_terms); i++) {
        struct made_order agency = order_given(number), contra = order_given(contra_number);
        struct made_order terms = order_given(of_terms[i]);
        copy_terms(&agency, &terms);
        expect_marked(pair_of(&agency, &contra, 0), first_of(number, of_terms[i]),
                      first_of(contra_number, of_terms[i]), "each number beside each");
    }
}

static void test_each_number(void) {
    for (size_t i = 0; i < COUNT(order_numbers); i++) {
        for (size_t k = 0; k < COUNT(order_numbers); k++) {
            if (!is_of_terms(order_numbers[i]) && !is_of_terms(order_numbers[k])) {
                expect_beside(order_numbers[i], order_numbers[k]);
            }
        }
    }
}

/* No bit of the mark is left out. */
static void test_each_bit(void) {
    static const uint64_t contra_numbers[] = {OPC_ACCEPTED, OPC_BAD_PRICE, OPC_BAD_SHARES,
                                              OPC_CHECK_DEBIT_CREDIT};
    const struct made_order accepted = order_given(OPC_ACCEPTED);
    for (size_t bit = 0; bit < 64; bit++) {
        for (size_t i = 0; i < COUNT(contra_numbers); i++) {
            struct made_order contra = order_given(contra_numbers[i]);
            struct made_pair p = pair_of(&accepted, &contra, 1ULL << bit);
            expect_pair(&p, OPC_ACCEPTED, contra_numbers[i], "a mark of one bit");
        }
    }
}

/* ---- any orders ---- */

/* Valid, or damaged, its settings and market among the rest. */
static struct made_order any_order(void) {
    struct made_order m = random_side();
    if (one_in(8)) {
        damage(&m, one_in(2) ? OPC_BAD_SETTING : OPC_BAD_MARKET);
    }
    return m;
}

static void exchange_two_legs(struct made_order *m) {
    size_t legs = legs_of(m);
    if (legs > 1) {
        size_t i = below(legs);
        exchange_legs(m, i, (i + between(1, legs - 1)) % legs);
    }
}

/* Two legs change places in one order, in the other, in both; and then the orders. */
static void expect_exchanged(const struct made_pair *made, uint64_t number,
                             uint64_t contra_number) {
    struct made_pair p = *made;
    p.continue_unpaired = marks[below(COUNT(marks))];
    exchange_two_legs(&p.agency);
    expect_pair(&p, number, contra_number, "legs exchanged in the agency order");
    exchange_two_legs(&p.contra);
    expect_pair(&p, number, contra_number, "legs exchanged in both orders");
    p.agency = made->agency;
    expect_pair(&p, number, contra_number, "legs exchanged in the contra order");
    p.agency = made->contra;
    p.contra = made->agency;
    expect_pair(&p, contra_number, number, "the two orders exchanged");
}

static void expect_all_seen(bool seen[COUNT(kinds)][COUNT(marks)]) {
    for (size_t i = 0; i < COUNT(kinds); i++) {
        for (size_t k = 0; k < COUNT(marks); k++) {
            char what[128];
            snprintf(what, sizeof what,
                     "no pair with an agency order %s, a contra order %s and the mark %" PRIu64,
                     outcome_name(kinds[i].agency), outcome_name(kinds[i].contra), marks[k]);
            expect(seen[i][k], what);
        }
    }
}

static void test_random(void) {
    bool seen[COUNT(kinds)][COUNT(marks)] = {{false}};
    for (size_t i = 0; i < RANDOM_CASES; i++) {
        struct made_order m = any_order();
        struct made_pair p = random_pair(&m);
        uint64_t number = number_of(&p.agency), contra_number = number_of(&p.contra);
        size_t k = below(COUNT(marks));
        expect_pair(&p, number, contra_number, "another number than the order check's");
        p.continue_unpaired = marks[k];
        expect_pair(&p, number, contra_number, "another number than the order check's");
        expect_exchanged(&p, number, contra_number);
        seen[kind_of(number, contra_number)][k] = true;
    }
    expect_all_seen(seen);
}

/* ---- the slices ---- */

/* On the one side, on the other, and on both, beside an order that is accepted. */
static void expect_on_each_side(const struct made_order *made, uint64_t number, const char *what) {
    struct made_order accepted = order_given(OPC_ACCEPTED);
    struct made_pair as_agency = pair_of(made, &accepted, flag());
    struct made_pair as_contra = pair_of(&accepted, made, flag());
    struct made_pair as_both = pair_of(made, made, flag());
    expect_pair(&as_agency, number, OPC_ACCEPTED, what);
    expect_pair(&as_contra, OPC_ACCEPTED, number, what);
    expect_pair(&as_both, number, number, what);
}

static void test_lengths_of_legs(void) {
    for (size_t symbols_len = 0; symbols_len <= 3 * OPC_SYMBOL_LENGTH; symbols_len++) {
        for (size_t counts_len = 0; counts_len <= 3 * OPC_COUNT_LENGTH; counts_len++) {
            struct made_order m = order_given(OPC_ACCEPTED);
            m.symbols_len = symbols_len;
            m.counts_len = counts_len;
            bool whole = counts_len % OPC_COUNT_LENGTH == 0 &&
                         symbols_len == legs_of(&m) * OPC_SYMBOL_LENGTH;
            expect_on_each_side(&m, whole ? number_of(&m) : OPC_NOT_21_BYTES, "1 by other lengths");
        }
    }
}

/* 9 and 10 in both orders, but for a number of their own that comes before. */
static void expect_in_terms(void *made, uint64_t number, const char *what) {
    static const uint64_t own[] = {OPC_ACCEPTED, OPC_CHECK_DEBIT_CREDIT, OPC_BAD_PRICE,
                                   OPC_BAD_SHARES};
    for (size_t i = 0; i < COUNT(own) * COUNT(own); i++) {
        uint64_t agency_own = own[i % COUNT(own)], contra_own = own[i / COUNT(own)];
        struct made_order agency = order_given(agency_own), contra = order_given(contra_own);
        copy_terms(&agency, made);
        expect_marked(pair_of(&agency, &contra, 0), first_of(agency_own, number),
                      first_of(contra_own, number), what);
    }
}

static void test_lengths_of_terms(void) {
    struct made_order m = order_given(OPC_ACCEPTED);
    expect_lengths(expect_in_terms, &m, &m.settings_len, &m.market_len);
}

static void expect_lent(const struct opc_pair *pair, const struct made_pair *made,
                        const char *what) {
    static struct lent_terms terms;
    lend_pair_terms(&terms, made);
    struct opc_pair_answer a = answer_lent(pair, &terms);
    expect_numbers(&a, number_alone(&pair->agency, &made->agency),
                   number_alone(&pair->contra, &made->contra), what);
}

/* Slices without a byte, at NULL: of symbols, of counts, of both, in either order or in both. */
static void test_null(void) {
    const struct made_order accepted = order_given(OPC_ACCEPTED);
    for (size_t i = 0; i < 32; i++) {
        struct made_pair p = pair_of(&accepted, &accepted, i >> 4);
        struct opc_pair pair = lend_pair(&p);
        struct {
            const uint8_t **at;
            size_t *len;
        } slices[] = {{&pair.agency.symbols, &pair.agency.symbols_len},
                      {&pair.agency.counts, &pair.agency.counts_len},
                      {&pair.contra.symbols, &pair.contra.symbols_len},
                      {&pair.contra.counts, &pair.contra.counts_len}};
        for (size_t k = 0; k < COUNT(slices); k++) {
            if ((i >> k & 1) != 0) {
                *slices[k].at = NULL;
                *slices[k].len = 0;
            }
        }
        expect_lent(&pair, &p, "NULL with length 0");
    }
}

/* Slices are only read: both orders may have the same ones, or the one a part of the other's. */
static void test_shared_slices(void) {
    static struct lent_order lent;
    for (size_t i = 0; i < RANDOM_CASES; i++) {
        struct made_order m = any_order();
        struct made_pair p = pair_of(&m, &m, flag());
        struct opc_pair pair = lend_pair(&p);
        pair.agency = pair.contra = lend_watched(&lent, &m);
        expect_lent(&pair, &p, "both orders with the same slices");
        pair.contra.price = opposite(m.price);
        if (legs_of(&m) > 1) {
            pair.contra.symbols += OPC_SYMBOL_LENGTH;
            pair.contra.symbols_len -= OPC_SYMBOL_LENGTH;
            pair.contra.counts_len -= OPC_COUNT_LENGTH;
        }
        expect_lent(&pair, &p, "the contra order with a part of the agency order's slices");
        expect(order_is_kept(&lent), "a byte of shared slices is not kept");
    }
}

int main(void) {
    test_cases();
    test_each_number();
    test_each_bit();
    test_random();
    test_lengths_of_legs();
    test_lengths_of_terms();
    test_null();
    test_shared_slices();
    return all_hold();
}
