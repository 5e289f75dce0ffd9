/*
 * Holds both checks of messages to the answers of the files in cases/, to the order check's answers
 * to the orders that messages are made of, and to exact tallies; many legs and long messages among
 * them. Exit status 1 and a message on the first failure, one line with the number of checks
 * otherwise.
 */
#define _DEFAULT_SOURCE /* for lent_bytes.h */
#include "cases.h"
#include "expect.h"
#include "expect_messages.h"
#include "made_messages.h"
#include "made_orders.h"
#include "made_tallies.h"
#include "option_price_check.h"

#define RANDOM_CASES 40000
#define MEGABYTE 1000000

static const char *const test_name = "test_messages";

static void print_tried(void) {
    print_case();
    print_message();
}

static void expect_case(const struct made_message *message, const struct made_order *made,
                        const char *words) {
    struct opc_answer a = answer(message, made);
    expect_words(&a, words);
}

/* As it is; with other values for each yes. */
static void hold_message(const struct request *request, const char *words) {
    static struct made_message message;
    struct made_order m = no_legs();
    message.len = 0;
    add_bytes(&message, request->fix.message, request->fix.message_len);
    m.stop = request->fix.stop;
    m.manual = request->fix.manual;
    m.opening = request->fix.opening;
    m.settings = request->terms.settings;
    m.market = request->terms.market;
    expect_case(&message, &m, words);
    uint64_t *const flags[] = {&m.stop, &m.manual, &m.opening};
    for (size_t i = 0; i < COUNT(flags); i++) {
        change_yes(flags[i]);
    }
    change_flags(&m.settings, &m.market);
    expect_case(&message, &m, words);
}

static void test_cases(void) { hold_cases(REQUEST_FIX, hold_message); }

/* Valid, or refused with a number that a message can get too. */
static struct made_order any_order(void) {
    struct made_order m = random_order(one_in(2) ? between(1, 2) : between(3, OPC_MOST_LEGS));
    if (legs_of(&m) > 2 && one_in(2)) {
        damage(&m, message_refusals[below(MESSAGE_REFUSALS)]);
    }
    return m;
}

/* The order check's answer, unless a number has too many digits for a message. */
static struct opc_answer answer_to_order(const struct made_order *m) {
    struct opc_answer a = {OPC_BAD_VALUE, 0, 0, 0};
    if (fits_message(m)) {
        a.number =
            opc_check_order(EACH_OF_ORDER(m), SLICES_OF(m), &a.class_, &a.shape, &a.pairings);
    }
    return a;
}

/* Every number of the order check but 1 and 33, and 32. */
static uint64_t numbers_of_right_fields(void) {
    uint64_t set = only(OPC_ACCEPTED) | only(OPC_BAD_VALUE);
    for (size_t i = 0; i < MESSAGE_REFUSALS; i++) {
        set |= only(message_refusals[i]);
    }
    for (uint64_t number = OPC_CHECK_PUT; number <= OPC_CHECK_TICK_DISTANCE; number++) {
        set |= only(number);
    }
    return set;
}

/* However an order is written as a message, and in whatever sequence its groups come. */
static void test_messages_of_orders(void) {
    static struct made_message body, message;
    uint64_t seen = 0;
    for (size_t i = 0; i < RANDOM_CASES; i++) {
        struct made_order m = any_order();
        struct opc_answer expected = answer_to_order(&m);
        random_body(&body, &m);
        frame(&message, &body);
        struct opc_answer a = answer(&message, &m);
        expect(same_answer(&a, &expected), "another answer than the order check's");
        shuffle_legs(&m);
        random_body(&body, &m);
        frame(&message, &body);
        a = answer(&message, &m);
        expect(same_answer(&a, &expected), "the sequence of the groups matters");
        seen |= only(expected.number);
    }
    expect(seen == numbers_of_right_fields(), "a number that no message was given, or another one");
}

/* A damaged order that a message can hold. */
static struct made_order order_given(uint64_t number) {
    struct made_order m;
    do {
        m = random_order(between(3, OPC_MOST_LEGS));
        damage(&m, number);
    } while (!fits_message(&m));
    return m;
}

/* 30 before 31, 31 before 32, and these before all that the order check gives. */
static void test_sequence_of_numbers(void) {
    static struct made_message body, message;
    for (size_t i = 0; i < MESSAGE_REFUSALS; i++) {
        struct made_order m = order_given(message_refusals[i]);
        write_body(&body, &m);
        expect_body(&body, &m, message_refusals[i], "a refusal by the order check");
        body.bytes[strlen("40=")] = '3';
        expect_body(&body, &m, OPC_BAD_VALUE, "32 before what the order check gives");
        add_text(&body, "44=1|");
        expect_body(&body, &m, OPC_BAD_TAG, "31 before 32");
        frame(&message, &body);
        message.bytes[0] = '9';
        expect_number(&message, &m, OPC_BAD_FRAME, "30 before 31");
    }
}

static void test_null(void) {
    const struct made_order m = no_legs();
    const struct opc_fix fix = {.message = NULL, .message_len = 0};
    const struct opc_answer refused = {OPC_BAD_FRAME, 0, 0, 0};
    const struct opc_tally expected = {.seen = 1, .refused = 1, .accepted = 0, .rejected = 0};
    struct opc_tally tally = OPC_FRESH_TALLY;
    struct opc_answer a = opc_answer_fix(&fix, &m.settings, &m.market);
    expect(same_answer(&a, &refused), "NULL with length 0");
    a = opc_answer_fix_tallied(&fix, &m.settings, &m.market, &tally);
    expect(same_answer(&a, &refused), "NULL with length 0 and a tally");
    expect(same_tally(&tally, &expected), "the tally of NULL with length 0");
}

/* ---- many legs, and long messages ---- */

/* Calls bought, all of them but the last, which is a text. */
static void body_of_legs(struct made_message *body, size_t legs, const char *last) {
    start_with(body, "40=2|44=1.5|");
    add_written(body, "555=%zu|", legs);
    for (size_t i = 1; i < legs; i++) {
        add_written(body, "600=XYZ   270115C%08zu|623=1|624=1|", i);
    }
    add_text(body, legs == 0 ? "" : last);
}

/* Legs after the 16th get 3 whatever they are, but their fields have to be there, and of their
 * form. */
static void test_legs(void) {
    static const size_t legs[] = {0, 1, 2, 15, 16, 17, 18, 100, 1000};
    static const char right[] = "600=XYZ   270115C90000000|623=1|624=1|";
    static const struct {
        const char *last;
        uint64_t of_few, of_many;
    } cases[] = {
        {right, OPC_ACCEPTED, OPC_BAD_LEG_COUNT},
        {"600=XYZ   270115X90000000|623=0|624=1|", OPC_BAD_SYMBOL, OPC_BAD_LEG_COUNT},
        {"600=XYZ   270115C90000000|623=0|624=1|", OPC_BAD_COUNT, OPC_BAD_LEG_COUNT},
        {"600=XYZ   270115C9000000|623=1|624=1|", OPC_BAD_VALUE, OPC_BAD_VALUE},
        {"600=XYZ   270115C90000000|623=x|624=1|", OPC_BAD_VALUE, OPC_BAD_VALUE},
        {"600=XYZ   270115C90000000|623=1|624=3|", OPC_BAD_VALUE, OPC_BAD_VALUE},
        {"600=XYZ   270115C90000000|623=1|", OPC_BAD_TAG, OPC_BAD_TAG},
        {"", OPC_BAD_TAG, OPC_BAD_TAG},
    };
    static struct made_message body;
    const struct made_order m = no_legs();
    for (size_t i = 0; i < COUNT(legs); i++) {
        bool are_few = legs[i] >= 1 && legs[i] <= OPC_MOST_LEGS;
        for (size_t k = 0; k < (legs[i] == 0 ? 1 : COUNT(cases)); k++) {
            body_of_legs(&body, legs[i], cases[k].last);
            expect_body(&body, &m, are_few ? cases[k].of_few : cases[k].of_many, cases[k].last);
        }
        body_of_legs(&body, legs[i], right);
        add_text(&body, right);
        expect_body(&body, &m, OPC_BAD_TAG, "a group more than there are legs");
    }
}

/* A megabyte of fields, or in one field, before the legs and after them. */
static void test_long_messages(void) {
    static const struct {
        const char *before, *repeated, *after;
        uint64_t number;
    } parts[] = {
        {"40=2|44=1.5|", "58=some text of no length to speak of|", "", OPC_ACCEPTED},
        {"40=2|44=1.5|", "1=|", "", OPC_ACCEPTED},
        {"40=2|44=1.5|58=", "a value of a megabyte, ", "|", OPC_ACCEPTED},
        {"40=2|44=", "1", "|", OPC_BAD_VALUE},
        {"40=2|44=1.", "0", "|", OPC_BAD_VALUE},
        {"44=1.5|40=", "2", "|", OPC_BAD_VALUE},
        {"40=2|44=1.5|", "1", "=|", OPC_BAD_FRAME},
        {"40=2|44=1.5|", "|", "", OPC_BAD_FRAME},
        {"40=2|", "44=1.5|", "", OPC_BAD_TAG},
        {"40=2|44=1.5|", "600=XYZ   270115C90000000|623=1|624=1|", "", OPC_BAD_TAG},
    };
    static const char leg[] = "555=1|600=XYZ   270115C00020000|623=1|624=1|";
    static struct made_message body;
    const struct made_order m = no_legs();
    for (size_t i = 0; i < 2 * COUNT(parts); i++) {
        bool is_first = i % 2 == 0;
        start_with(&body, is_first ? "" : leg);
        add_text(&body, parts[i / 2].before);
        add_repeated(&body, parts[i / 2].repeated, MEGABYTE);
        add_text(&body, parts[i / 2].after);
        add_text(&body, is_first ? leg : "");
        expect_body(&body, &m, parts[i / 2].number, "a megabyte in a message");
    }
    body_of_legs(&body, 25000, "600=XYZ   270115C90000000|623=1|624=1|");
    expect_body(&body, &m, OPC_BAD_LEG_COUNT, "a megabyte of legs");
}

/* A megabyte that is no message, and one in place of a length. */
static void test_long_bytes(void) {
    static const char *const repeated[] = {"|", "0", "1", "1=", "1=|", "=", "x", "8=FIX.4.4|9=5|"};
    static struct made_message message;
    const struct made_order m = no_legs();
    for (size_t i = 0; i < COUNT(repeated); i++) {
        start_with(&message, "");
        add_repeated(&message, repeated[i], MEGABYTE);
        expect_number(&message, &m, OPC_BAD_FRAME, "a megabyte that is no message");
        start_with(&message, "8=FIX.4.4|9=");
        add_repeated(&message, repeated[i], MEGABYTE);
        add_text(&message, "62|35=AB|" SHORT_BODY);
        add_sum(&message);
        expect_number(&message, &m, OPC_BAD_FRAME, "a megabyte in place of a length");
    }
}

/* ---- settings, market and tally ---- */

/* The short message: what is wrong with the terms comes after what is wrong with a message. */
static void expect_short(void *made, uint64_t number, const char *what) {
    static struct made_message body;
    start_with(&body, SHORT_BODY);
    expect_body(&body, made, number, what);
    add_text(&body, "40=2|");
    expect_body(&body, made, OPC_BAD_TAG, "31 before what is wrong with the terms");
}

static void test_lengths_of_terms(void) {
    struct made_order m = no_legs();
    expect_lengths(expect_short, &m, &m.settings_len, &m.market_len);
}

/* Number 12, zeros elsewhere, and the tally as it was. */
static void expect_not_counted(const struct made_message *message, struct opc_tally tally) {
    const struct made_order m = no_legs();
    const struct opc_answer refused = {OPC_BAD_TALLY, 0, 0, 0};
    struct opc_fix fix = lend_watched(message, &m);
    struct opc_tally after = tally;
    struct opc_answer a = raw_tallied(&fix, &after, next_random());
    expect(same_answer(&a, &refused), "another answer than 12 and zeros");
    expect(same_tally(&after, &tally), "a tally that was refused is changed");
    expect_kept();
}

/* 12 comes first, whatever the message: one that is accepted, and ones given 31, 32, 3 and 30. */
static void test_bad_tallies(void) {
    static const char *const bodies[] = {SHORT_BODY, "", "40=2|44=1.5|555=x|",
                                         "40=2|44=1.5|555=0|"};
    static struct made_message body, message;
    for (size_t i = 0; i < COUNT(bad_tallies); i++) {
        for (size_t k = 0; k < COUNT(bodies); k++) {
            start_with(&body, bodies[k]);
            frame(&message, &body);
            expect_not_counted(&message, bad_tallies[i]);
        }
        start_with(&message, "");
        expect_not_counted(&message, bad_tallies[i]);
    }
}

/* One tally for messages, damaged ones among them, and for orders, with shares now and then. */
static void test_session(void) {
    static struct made_message body, message;
    struct opc_tally tally = OPC_FRESH_TALLY;
    for (size_t i = 0; i < RANDOM_CASES; i++) {
        struct made_order m = any_order();
        struct opc_order order = lend(&m);
        order.shares = one_in(4) ? random_shares() : 0;
        random_body(&body, &m);
        if (one_in(3)) {
            damage_message(&body);
        }
        frame(&message, &body);
        struct opc_tally expected = counted(tally, answer(&message, &m).number);
        struct opc_fix fix = lend_watched(&message, &m);
        raw_tallied(&fix, &tally, next_random());
        expect(same_tally(&tally, &expected), "another tally after a message");
        struct opc_answer a = opc_answer_order_tallied(&order, &m.settings, &m.market, &tally);
        expected = counted(expected, a.number);
        expect(same_tally(&tally, &expected), "another tally after an order");
    }
    expect(tally.seen == 2 * RANDOM_CASES, "the number of checks in a session");
    expect(tally.refused > 0 && tally.accepted > 0 && tally.rejected > 0,
           "a session without one of the kinds");
}

int main(void) {
    test_cases();
    test_messages_of_orders();
    test_sequence_of_numbers();
    test_null();
    test_legs();
    test_long_messages();
    test_long_bytes();
    test_lengths_of_terms();
    test_bad_tallies();
    test_session();
    return all_hold();
}
