/*
 * What is expected of a message: both checks of messages are asked, with what is lent to them under
 * watch.
 *
 * Who includes this defines _DEFAULT_SOURCE first, for lent_bytes.h.
 */
#ifndef EXPECT_MESSAGES_H
#define EXPECT_MESSAGES_H

#include "expect_answers.h"
#include "expect_terms.h"
#include "lent_bytes.h"
#include "made_messages.h"
#include "made_tallies.h"

/* The body of a short message: a call bought for 1.50 dollars, which is accepted. */
#define SHORT_BODY "40=2|44=1.5|555=1|600=XYZ   270115C00020000|623=1|624=1|"

#define MOST_SHOWN 4096

/* The message tried last, for the message of a failure; flags and terms are those of an order. */
static const struct made_message *message_now;
static struct made_order now;

static inline void print_message(void) {
    const uint64_t flags[] = {now.stop, now.manual, now.opening};
    if (message_now == NULL) {
        return;
    }
    fprintf(stderr, "  message of %zu bytes: ", message_now->len);
    for (size_t i = 0; i < message_now->len && i < MOST_SHOWN; i++) {
        uint8_t byte = message_now->bytes[i];
        if (byte >= ' ' && byte < 127) {
            putc(byte, stderr);
        } else {
            fprintf(stderr, "\\x%02x", byte);
        }
    }
    fprintf(stderr, "\n");
    print_numbers("stop, manual, opening", flags, COUNT(flags));
    print_terms(&now.settings, now.settings_len, &now.market, now.market_len);
}

/* What is lent for a message. */
static struct lent_bytes lent_message;
static struct lent_terms lent_terms;

static inline struct opc_fix lend_watched(const struct made_message *message,
                                          const struct made_order *made) {
    struct opc_fix fix = lend_fix(message, made);
    message_now = message;
    now = *made;
    fix.message = lend_bytes(&lent_message, message->bytes, message->len);
    lend_terms(&lent_terms, &made->settings, made->settings_len, &made->market, made->market_len);
    return fix;
}

static inline void expect_kept(void) {
    expect(are_kept(&lent_message), "a byte of the message is not kept");
    expect(terms_are_kept(&lent_terms), "a setting or a market value is not kept");
}

static inline struct opc_answer raw_answer(const struct opc_fix *f, uint64_t garbage) {
    struct opc_answer a = {garbage, garbage, garbage, garbage};
    a.number =
        opc_check_fix(EACH_OF_FIX(f), EACH_OF_TERMS(&lent_terms), &a.class_, &a.shape, &a.pairings);
    return a;
}

static inline struct opc_answer raw_tallied(const struct opc_fix *f, struct opc_tally *t,
                                            uint64_t garbage) {
    struct opc_answer a = {garbage, garbage, garbage, garbage};
    a.number =
        opc_check_fix_tallied(EACH_OF_FIX(f), EACH_OF_TERMS(&lent_terms), &a.class_, &a.shape,
                              &a.pairings, &t->seen, &t->refused, &t->accepted, &t->rejected);
    return a;
}

/*
 * Asks both entries, and sees that the slices and the bytes before them are kept. Each call finds
 * other garbage in class, shape and pairings, so one that it left unset shows.
 */
static inline struct opc_answer answer(const struct made_message *message,
                                       const struct made_order *made) {
    struct opc_fix fix = lend_watched(message, made);
    uint64_t garbage = next_random();
    struct opc_tally tally = {6, 1, 2, 3};
    struct opc_answer raw = raw_answer(&fix, garbage);
    struct opc_answer again = raw_answer(&fix, ~garbage);
    const struct opc_tally expected = counted(tally, raw.number);
    struct opc_answer tallied = raw_tallied(&fix, &tally, garbage + 1);
    expect(same_answer(&raw, &again), "a lent number is not set");
    expect(same_answer(&raw, &tallied), "another answer with a tally");
    expect(same_tally(&tally, &expected), "another tally than expected");
    expect_kept();
    expect_limits(&raw, OPC_MOST_LEGS);
    return raw;
}

static inline void expect_number(const struct made_message *message, const struct made_order *made,
                                 uint64_t number, const char *what) {
    expect(answer(message, made).number == number, what);
}

/* The same of the message with this body. */
static inline void expect_body(const struct made_message *body, const struct made_order *made,
                               uint64_t number, const char *what) {
    static struct made_message message;
    frame(&message, body);
    expect_number(&message, made, number, what);
}

#endif
