/*
 * What is expected of a call in a session, by a plain computation from document 02, S-6; the order
 * or the message itself is asked of its check without a session. Every call is made with all that
 * is lent under watch, through the entry and through the inline function.
 *
 * Who includes this defines _DEFAULT_SOURCE first, for lent_bytes.h.
 */
#ifndef EXPECT_SESSIONS_H
#define EXPECT_SESSIONS_H

#include "answers.h"
#include "expect.h"
#include "lent_bytes.h"
#include "made_messages.h"
#include "made_orders.h"
#include "made_sessions.h"
#include "made_tallies.h"
#include "option_price_check.h"

/* Numbers beyond a session, for slices that are too long. */
#define BEYOND 8

struct made_session {
    struct opc_session session;
    uint64_t beyond[BEYOND];
    size_t len; /* of what is lent */
};

static inline struct made_session whole(struct opc_session session) {
    struct made_session made = {.session = session, .len = OPC_SESSION_COUNT};
    return made;
}

/* An order, the order in a message, or a release. */
enum call_kind { CALL_ORDER, CALL_MESSAGE, CALL_RELEASE };
#define CALL_KINDS 3

/* A message has the flags and the terms of the order; a release needs neither. */
struct call {
    enum call_kind kind;
    uint64_t login;
    const struct made_order *order;
    const struct made_message *message;
};

/* ---- the plain computation ---- */

/* Each part is taken away from what was seen: no sum is made that a number cannot hold. */
static inline bool adds_up(const struct opc_tally *t) {
    return t->refused <= t->seen && t->accepted <= t->seen - t->refused &&
           t->rejected == t->seen - t->refused - t->accepted;
}

static inline bool are_right_numbers(const struct opc_session *s) {
    bool are_right = true;
    for (size_t i = 0; i < 32; i++) {
        const struct opc_login *l = &s->logins[i];
        are_right = are_right && l->limit >= 1 && l->limit <= 10000 && adds_up(&l->tally) &&
                    l->running <= l->limit && l->running <= l->tally.rejected;
    }
    return are_right;
}

/* Whether the logins have seen a million or more together. */
static inline bool is_full(const struct opc_session *s) {
    uint64_t left = 1000000;
    for (size_t i = 0; i < 32; i++) {
        if (s->logins[i].tally.seen >= left) {
            return true;
        }
        left -= s->logins[i].tally.seen;
    }
    return false;
}

/* The number that the session gives to a call, before all that an order has: 0 for none. */
static inline uint64_t turned_away(const struct call *call, const struct made_session *made) {
    const struct opc_session *s = &made->session;
    bool is_order = call->kind != CALL_RELEASE;
    if (call->login > 31) {
        return OPC_BAD_LOGIN;
    }
    if (made->len != 192 || !are_right_numbers(s) || (is_order && is_full(s))) {
        return OPC_BAD_TALLY;
    }
    const struct opc_login *l = &s->logins[call->login];
    return is_order && l->running == l->limit ? OPC_RESTRICTED_LOGIN : OPC_ACCEPTED;
}

/* The answer to an order or a message without a session. */
static inline struct opc_answer answer_alone(const struct call *call) {
    const struct made_order *m = call->order;
    struct opc_answer a;
    if (call->kind == CALL_ORDER) {
        a.number =
            opc_check_order(EACH_OF_ORDER(m), SLICES_OF(m), &a.class_, &a.shape, &a.pairings);
    } else {
        struct opc_fix fix = lend_fix(call->message, m);
        a.number = opc_check_fix(EACH_OF_FIX(&fix), SLICES_OF(m), &a.class_, &a.shape, &a.pairings);
    }
    return a;
}

/* The answer that is expected, and in `made` the session after it. */
static inline struct opc_answer expected_answer(const struct call *call,
                                                struct made_session *made) {
    struct opc_answer a = {turned_away(call, made), 0, 0, 0};
    if (a.number != OPC_ACCEPTED) {
        return a;
    }
    struct opc_login *l = &made->session.logins[call->login];
    if (call->kind == CALL_RELEASE) {
        l->running = 0;
        return a;
    }
    a = answer_alone(call);
    l->tally = counted(l->tally, a.number);
    l->running += opc_outcome_of(a.number) == OPC_OUTCOME_REJECTED;
    return a;
}

/* ---- a call under watch ---- */

/* The call tried last and the session before it, for the message of a failure. */
static const struct call *call_now;
static struct made_session session_now;

static inline void print_session(void) {
    const struct made_session *made = &session_now;
    fprintf(stderr, "  session of %zu numbers: limit, seen, refused, accepted, rejected, running\n",
            made->len);
    for (size_t i = 0; i < OPC_LOGINS; i++) {
        const struct opc_login *l = &made->session.logins[i];
        const struct opc_tally *t = &l->tally;
        fprintf(stderr,
                "  login %zu: %" PRIu64 " %" PRIu64 " %" PRIu64 " %" PRIu64 " %" PRIu64 " %" PRIu64
                "\n",
                i, l->limit, t->seen, t->refused, t->accepted, t->rejected, l->running);
    }
}

static inline void print_call(void) {
    static const char *const names[CALL_KINDS] = {"an order", "a message", "a release"};
    if (call_now != NULL) {
        fprintf(stderr, "  %s of login %" PRIu64 "\n", names[call_now->kind], call_now->login);
    }
    print_session();
}

/* What is lent to a call. */
static struct {
    struct lent_bytes symbols, counts, message, session;
    struct lent_terms terms;
} lent;

static inline uint64_t *lend_session(const struct made_session *made) {
    uint64_t *at = lend_changeable(&lent.session, made, made->len * sizeof(uint64_t));
    return made->len == 0 && one_in(2) ? NULL : at;
}

/* As the call left it; what is before it is kept, and what is beyond it was not touched. */
static inline void take_session_back(struct made_session *made) {
    expect(guard_is_kept(&lent.session), "a number before the session is not kept");
    memcpy(made, lent.session.end - lent.session.len, lent.session.len);
}

static inline struct opc_answer ask_order(const struct call *call, uint64_t *session, size_t len,
                                          uint64_t garbage) {
    const struct made_order *m = call->order;
    struct opc_order order = lend(m);
    struct opc_answer a = {garbage, garbage, garbage, garbage};
    order.symbols = lend_bytes(&lent.symbols, m->symbols, m->symbols_len);
    order.counts = lend_bytes(&lent.counts, m->counts, m->counts_len);
    lend_terms(&lent.terms, &m->settings, m->settings_len, &m->market, m->market_len);
    a.number =
        opc_check_order_session(call->login, EACH_OF_ORDER(&order), EACH_OF_TERMS(&lent.terms),
                                session, len, &a.class_, &a.shape, &a.pairings);
    expect(are_kept(&lent.symbols) && are_kept(&lent.counts), "a byte of the legs is not kept");
    expect(terms_are_kept(&lent.terms), "a setting or a market value is not kept");
    return a;
}

static inline struct opc_answer ask_message(const struct call *call, uint64_t *session, size_t len,
                                            uint64_t garbage) {
    const struct made_order *m = call->order;
    struct opc_fix fix = lend_fix(call->message, m);
    struct opc_answer a = {garbage, garbage, garbage, garbage};
    fix.message = lend_bytes(&lent.message, call->message->bytes, call->message->len);
    lend_terms(&lent.terms, &m->settings, m->settings_len, &m->market, m->market_len);
    a.number = opc_check_fix_session(call->login, EACH_OF_FIX(&fix), EACH_OF_TERMS(&lent.terms),
                                     session, len, &a.class_, &a.shape, &a.pairings);
    expect(are_kept(&lent.message), "a byte of the message is not kept");
    expect(terms_are_kept(&lent.terms), "a setting or a market value is not kept");
    return a;
}

static inline struct opc_answer ask(const struct call *call, struct made_session *made,
                                    uint64_t garbage) {
    uint64_t *session = lend_session(made);
    struct opc_answer a = {OPC_ACCEPTED, 0, 0, 0};
    if (call->kind == CALL_RELEASE) {
        a.number = opc_release_login(call->login, session, made->len);
    } else {
        a = (call->kind == CALL_ORDER ? ask_order : ask_message)(call, session, made->len, garbage);
    }
    take_session_back(made);
    return a;
}

/* By the inline function: a session of its own length, and such settings and market. */
static inline struct opc_answer ask_inline(const struct call *call, struct opc_session *session) {
    const struct made_order *m = call->order;
    if (call->kind == CALL_RELEASE) {
        return (struct opc_answer){opc_answer_release(call->login, session), 0, 0, 0};
    }
    if (call->kind == CALL_ORDER) {
        struct opc_order order = lend(m);
        return opc_answer_order_session(call->login, &order, &m->settings, &m->market, session);
    }
    struct opc_fix fix = lend_fix(call->message, m);
    return opc_answer_fix_session(call->login, &fix, &m->settings, &m->market, session);
}

static inline bool has_inline(const struct call *call, const struct made_session *made) {
    return made->len == OPC_SESSION_COUNT &&
           (call->kind == CALL_RELEASE || (call->order->settings_len == OPC_SETTINGS_COUNT &&
                                           call->order->market_len == OPC_MARKET_COUNT));
}

/* Every number, those beyond the session too. */
static inline bool same_numbers(const struct made_session *a, const struct made_session *b) {
    return memcmp(&a->session, &b->session, sizeof a->session) == 0 &&
           memcmp(a->beyond, b->beyond, sizeof a->beyond) == 0;
}

/*
 * Makes the call, and expects the answer and every number of the session. The entry is asked twice,
 * with other garbage in its lent numbers, so one that it left unset shows.
 */
static inline struct opc_answer expect_call(const struct call *call, struct made_session *made) {
    struct made_session expected = *made, again = *made, by_inline = *made;
    uint64_t garbage = next_random();
    call_now = call;
    session_now = *made;
    const struct opc_answer answer = expected_answer(call, &expected);
    struct opc_answer raw = ask(call, made, garbage), second = ask(call, &again, ~garbage);
    expect(same_answer(&raw, &second), "a lent number is not set");
    expect(same_answer(&raw, &answer), "another answer than expected");
    expect(same_numbers(made, &expected), "another session than expected");
    expect(same_numbers(&again, &expected), "the same call leaves another session");
    if (has_inline(call, made)) {
        struct opc_answer a = ask_inline(call, &by_inline.session);
        expect(same_answer(&a, &raw), "another answer by the inline function");
        expect(same_numbers(&by_inline, &expected), "another session by the inline function");
    }
    call_now = NULL;
    return raw;
}

/* The same, of a session that is not needed after it; it must get the number. */
static inline void expect_given_number(const struct call *call, const struct made_session *made,
                                       uint64_t number, const char *what) {
    struct made_session after = *made;
    session_now = *made;
    expect(expect_call(call, &after).number == number, what);
}

#endif
