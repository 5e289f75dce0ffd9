/*
 * Calls the entry that its argument names once for each of many valid inputs, all checks switched
 * on, and prints a line for each call: legs and kind of order or quote. The order check, alone and
 * in a session, gets orders of 1, 2, 4, 8 and 16 legs, the check of pairs each of these with its
 * other side, the check of messages, alone and in a session, the messages of those of 1, 4 and 16
 * legs, the tallied checks those of 1 and 16 legs. Those of orders and of pairs then get orders of
 * 1 and 16 legs with shares: "1+shares" for 1. A session is a right one, in which all 32 logins
 * have sent orders; it is started and a login released too, which have no legs: "-". Crossing
 * quotes are held against 0, 1, 16 and 64 offers, and bids: a line has that number in place of the
 * legs, and the side before the kind. With a second argument, "lengths", the check of messages gets
 * ones with more and more fields to step over, and a line has the bytes in place of the legs.
 * host/measure runs this under callgrind, which counts the instructions of each call.
 */
#include "made_crossing.h"
#include "made_messages.h"
#include "made_orders.h"
#include "made_pairs.h"
#include "made_quotes.h"
#include "made_sessions.h"
#include "option_price_check.h"

#include <stdlib.h>

#define RANDOM_INPUTS 40

/* What the check is lent to count in. */
enum counted_in { ALONE, TALLIED, IN_SESSION };
static enum counted_in counted_in;

/* A market in which checks 25 and 26 have a reference and check 21 an underlying. */
static const struct opc_market quoted = {.phase = OPC_PHASE_OPEN,
                                         .underlying = 40000,
                                         .nbb = 1180,
                                         .nbo = 1200,
                                         .own_bid = 1180,
                                         .own_offer = 1210,
                                         .previous_close = 1150};

/* One bought, the next sold. */
static int64_t by_turns(size_t leg) { return leg % 2 == 0 ? 1 : -1; }

/*
 * The typical order: a call bought, a vertical of calls, a box, and of 8 and 16 legs verticals of
 * calls and puts in two and four expiries. It is accepted, so every check is reached.
 */
static void typical(struct made_order *m, size_t legs) {
    static const uint64_t days[] = {270115, 270319, 270618, 270917};
    for (size_t i = 0; i < legs; i++) {
        bool call = i / 2 % 2 == 0;
        uint64_t strike = call ? 20000 + 5000 * (i % 2) : 25000 - 5000 * (i % 2);
        add_leg(m, days[i / 4 % 4], call ? 'C' : 'P', strike, 10 * by_turns(i));
    }
}

/* Calls of one expiry, bought and sold by turns: every second leg pairs. */
static void strikes(struct made_order *m, size_t legs) {
    for (size_t i = 0; i < legs; i++) {
        add_leg(m, 270115, 'C', 20000 + 1000 * i, 10 * by_turns(i));
    }
}

/* Puts of one strike, bought and sold by turns: they pair in the second walk. */
static void expiries(struct made_order *m, size_t legs) {
    for (size_t i = 0; i < legs; i++) {
        add_leg(m, 270101 + i, 'P', 20000, 10 * by_turns(i));
    }
}

/* Nothing pairs, and check 22 adds up the sizes. */
static void all_bought(struct made_order *m, size_t legs) {
    for (size_t i = 0; i < legs; i++) {
        add_leg(m, 270115 + i % 2, 'C', 20000 + 1000 * i, 1 + (int64_t)i);
    }
}

/* The last call meets every other one: as many pairings as there can be. */
static void one_against_all(struct made_order *m, size_t legs) {
    for (size_t i = 0; i + 1 < legs; i++) {
        add_leg(m, 270115, 'C', 20000 + 1000 * i, 1);
    }
    add_leg(m, 270115, 'C', 60000, legs == 1 ? 1 : -10000);
}

/* Neighbouring Fibonacci numbers: the greatest common divisor takes its most steps. */
static void fibonacci(struct made_order *m, size_t legs) {
    for (size_t i = 0; i < legs; i++) {
        add_leg(m, 270115, 'P', 20000 + 1000 * i, by_turns(i) * (i % 2 == 0 ? 6765 : 4181));
    }
}

static void reverse_legs(struct made_order *m) {
    for (size_t i = 0, j = legs_of(m) - 1; i < j; i++, j--) {
        exchange_legs(m, i, j);
    }
}

static void expect(bool holds, const char *kind, size_t legs) {
    if (!holds) {
        fprintf(stderr, "instructions: another answer than meant, %zu legs, %s\n", legs, kind);
        exit(1);
    }
}

static bool is_valid(uint64_t number) { return opc_outcome_of(number) != OPC_OUTCOME_REFUSED; }

/* A right session: every login has sent orders of each kind, and none is restricted. */
static struct opc_session used_session(void) {
    struct opc_session session;
    for (size_t i = 0; i < OPC_LOGINS; i++) {
        session.logins[i] = login_with(10 + i, 3 + i, 1000 * (1 + i), 9 + i, i);
    }
    return session;
}

/* Not the first login, nor the last. */
#define LOGIN 17

static uint64_t number_of_order(const struct made_order *m) {
    struct opc_order order = lend(m);
    struct opc_tally tally = OPC_FRESH_TALLY;
    struct opc_session session = used_session();
    switch (counted_in) {
    case TALLIED:
        return opc_answer_order_tallied(&order, &m->settings, &m->market, &tally).number;
    case IN_SESSION:
        return opc_answer_order_session(LOGIN, &order, &m->settings, &m->market, &session).number;
    default:
        return opc_answer_order(&order, &m->settings, &m->market).number;
    }
}

/* Of the message with the fewest fields. */
static uint64_t number_of_message(const struct made_order *m) {
    static struct made_message body, message;
    struct opc_tally tally = OPC_FRESH_TALLY;
    struct opc_session session = used_session();
    write_body(&body, m);
    frame(&message, &body);
    struct opc_fix fix = lend_fix(&message, m);
    switch (counted_in) {
    case TALLIED:
        return opc_answer_fix_tallied(&fix, &m->settings, &m->market, &tally).number;
    case IN_SESSION:
        return opc_answer_fix_session(LOGIN, &fix, &m->settings, &m->market, &session).number;
    default:
        return opc_answer_fix(&fix, &m->settings, &m->market).number;
    }
}

/* Of the order or, where that is accepted, of its other side: 0 where both are. */
static uint64_t number_of_pair(const struct made_order *m) {
    const struct made_order contra = other_side(m);
    const struct made_pair p = pair_of(m, &contra, 0);
    struct opc_pair pair = lend_pair(&p);
    struct opc_pair_answer a = opc_answer_pair(&pair, &m->settings, &m->market);
    expect(is_valid(a.agency_number) && is_valid(a.contra_number), "pair", legs_of(m));
    return a.agency_number != OPC_ACCEPTED ? a.agency_number : a.contra_number;
}

/* Calls the check for an order, and gives the number. */
static uint64_t (*number_of)(const struct made_order *m);

static uint64_t check(const struct made_order *m, const char *kind, const char *sequence) {
    uint64_t number = number_of(m);
    printf("%zu%s %s%s\n", legs_of(m), m->shares == 0 ? "" : "+shares", kind, sequence);
    return number;
}

/* An order that pays 1.20 dollars, lent in the sequence in which it is made and in reverse. */
static void check_kind(void (*add_legs)(struct made_order *, size_t), const char *kind, size_t legs,
                       int64_t shares) {
    struct made_order m = no_legs();
    m.price = 1200;
    m.shares = shares;
    m.market = quoted;
    add_legs(&m, legs);
    uint64_t number = check(&m, kind, "");
    expect(add_legs == typical ? number == OPC_ACCEPTED : is_valid(number), kind, legs);
    if (legs > 1) {
        reverse_legs(&m);
        expect(check(&m, kind, ", reversed") == number, kind, legs);
    }
}

static void check_random(size_t legs, struct made_order (*make)(size_t)) {
    for (size_t i = 0; i < RANDOM_INPUTS; i++) {
        struct made_order m = make(legs);
        struct opc_settings settings = OPC_EXAMPLE_SETTINGS;
        m.settings = settings;
        m.kind = OPC_KIND_LIMIT;
        expect(is_valid(check(&m, "random", "")), "random", legs);
    }
}

static void check_sizes(const size_t *sizes, size_t len) {
    for (size_t i = 0; i < len; i++) {
        check_kind(typical, "typical", sizes[i], 0);
        check_kind(strikes, "one expiry", sizes[i], 0);
        check_kind(expiries, "one strike", sizes[i], 0);
        check_kind(all_bought, "all bought", sizes[i], 0);
        check_kind(one_against_all, "one against all", sizes[i], 0);
        check_kind(fibonacci, "Fibonacci counts", sizes[i], 0);
        check_random(sizes[i], random_order);
    }
}

/* With 100 shares bought, or any by chance. */
static void check_with_shares(const size_t *sizes, size_t len) {
    for (size_t i = 0; i < len; i++) {
        check_kind(typical, "typical", sizes[i], 100);
        check_kind(all_bought, "all bought", sizes[i], 100);
        check_random(sizes[i], random_stock_order);
    }
}

/* The order's message with so many bytes of a field that is stepped over. */
static void check_length(const struct made_order *m, const char *field, size_t bytes,
                         const char *kind) {
    static struct made_message body, message;
    write_body(&body, m);
    add_repeated(&body, field, bytes);
    frame(&message, &body);
    struct opc_fix fix = lend_fix(&message, m);
    uint64_t number = opc_answer_fix(&fix, &m->settings, &m->market).number;
    printf("%zu %s\n", message.len, kind);
    expect(number == OPC_ACCEPTED, kind, legs_of(m));
}

/* A usual field, and the shortest that there is, in a message of one leg. */
static void check_lengths(void) {
    struct made_order m = no_legs();
    m.price = 1200;
    m.market = quoted;
    typical(&m, 1);
    check_length(&m, "", 0, "none");
    for (size_t bytes = 1000; bytes <= 1000000; bytes *= 10) {
        check_length(&m, "58=some text|", bytes, "58=some text");
    }
    for (size_t bytes = 1000; bytes <= 1000000; bytes *= 10) {
        check_length(&m, "1=|", bytes, "1=");
    }
}

static uint64_t check_quote(const struct made_quote *q, const char *kind) {
    struct opc_quote quote = lend_quote(q);
    struct opc_quote_answer a = opc_answer_quote(&quote, &q->settings, &q->market);
    printf("1 %s\n", kind);
    return a.number;
}

static void check_quote_kind(const struct made_quote *q, const char *kind, uint64_t number) {
    expect(check_quote(q, kind) == number, kind, 1);
}

/* A quote of 1.19 to 1.21 dollars: within the set ticks where the own prices are compared. */
static void check_quotes(void) {
    struct made_quote q = quote_for("XYZ   270115C00020000", 1190, 1210);
    q.market = quoted;
    check_quote_kind(&q, "typical", OPC_ACCEPTED);
    q.market.own_offer = q.market.nbo;
    check_quote_kind(&q, "own prices at the national best", OPC_ACCEPTED);
    q.market.nbb = q.market.nbo = 0;
    check_quote_kind(&q, "own prices only", OPC_ACCEPTED);
    q.market.nbb = q.market.nbo = 1200;
    check_quote_kind(&q, "national best locked", OPC_ACCEPTED);
    q.bid = 40000;
    q.offer = 40001;
    check_quote_kind(&q, "call check", OPC_CHECK_CALL);
    q.symbol[12] = 'P';
    check_quote_kind(&q, "put check", OPC_CHECK_PUT);
    for (size_t i = 0; i < RANDOM_INPUTS; i++) {
        struct opc_settings settings = OPC_EXAMPLE_SETTINGS;
        q = random_quote();
        q.settings = settings;
        expect(is_valid(check_quote(&q, "random")), "random", 1);
    }
}

static void check_crossing(const struct made_crossing *c, const char *kind, uint64_t number) {
    struct opc_crossing_quote crossing = lend_crossing(c);
    uint64_t given =
        opc_answer_crossing_quote(&crossing, &c->quote.settings, &c->quote.market).number;
    printf("%zu %s: %s\n", c->prices_len, c->sell == 0 ? "buy" : "sell", kind);
    expect(given == number, kind, c->prices_len);
}

/* A quote of 1.19 to 1.21 dollars for 1000, against so many of 10 from this price on. */
static struct made_crossing crossing_against(uint64_t sell, uint64_t first, size_t len) {
    struct made_crossing c = {
        .quote = quote_for("XYZ   270115C00020000", 1190, 1210), .sell = sell, .size = 1000};
    c.quote.market = quoted;
    for (size_t i = 0; i < len; i++) {
        add_resting(&c, 10, sell == 0 ? first + i : first - i);
    }
    return c;
}

/* The whole list is judged in each, and filled in some; the last of it may be wrong. */
static void check_crossing_side(uint64_t sell, size_t len) {
    struct made_crossing c = crossing_against(sell, sell == 0 ? 1100 : 1300, len);
    c.away = own_price(&c);
    check_crossing(&c, "typical", OPC_ACCEPTED);
    c.away = 0;
    check_crossing(&c, "no away price", OPC_ACCEPTED);
    c.size = 1;
    check_crossing(&c, "filled by the first", OPC_ACCEPTED);
    c.size = 10 * len + (len == 0);
    check_crossing(&c, "filled by the last", OPC_ACCEPTED);
    c.away = sell == 0 ? 1100 : 1300;
    check_crossing(&c, "stopped by the away price", OPC_ACCEPTED);
    if (len > 0) {
        c.sizes[len - 1] = 0;
        check_crossing(&c, "the last size 0", OPC_BAD_CROSSING);
    }
    c = crossing_against(sell, 1200, len);
    check_crossing(&c, "none at an allowed price", OPC_ACCEPTED);
    c.quote.market.nbo = c.quote.bid;
    check_crossing(&c, "rejected", OPC_CHECK_QUOTE_INVERSION);
    for (size_t i = 0; i < RANDOM_INPUTS; i++) {
        c.away = random_away(own_price(&c));
        c.quote.market = quoted;
        c.size = between(1, MOST_SIZE);
        random_list(&c, len);
        check_crossing(&c, "random", OPC_ACCEPTED);
    }
}

static void check_crossings(void) {
    static const size_t lens[] = {0, 1, 16, OPC_MAX_RESTING};
    for (uint64_t sell = 0; sell <= 1; sell++) {
        for (size_t i = 0; i < COUNT(lens); i++) {
            check_crossing_side(sell, lens[i]);
        }
    }
}

/* Limits that are right, and one that is not, at the end. */
static void check_starts(void) {
    struct opc_session session = used_session();
    uint64_t limits[OPC_LOGINS];
    for (size_t i = 0; i < OPC_LOGINS; i++) {
        limits[i] = 1 + i;
    }
    expect(opc_answer_start(limits, &session) == OPC_ACCEPTED, "typical", 0);
    printf("- typical\n");
    limits[OPC_LOGINS - 1] = 0;
    expect(opc_answer_start(limits, &session) == OPC_BAD_SETTING, "the last limit 0", 0);
    printf("- the last limit 0\n");
}

/* Every login is tested, the last one's numbers too. */
static void check_releases(void) {
    struct opc_session session = used_session();
    expect(opc_answer_release(LOGIN, &session) == OPC_ACCEPTED, "typical", 0);
    printf("- typical\n");
    session.logins[OPC_LOGINS - 1].running = 0;
    session.logins[OPC_LOGINS - 1].limit = 0;
    expect(opc_answer_release(LOGIN, &session) == OPC_BAD_TALLY, "the last limit 0", 0);
    printf("- the last limit 0\n");
}

/* Whether the entry is measured with other inputs than orders, and it was. */
static bool check_other(const char *entry, const char *what) {
    static const struct {
        const char *name, *what;
        void (*check)(void);
    } others[] = {
        {"opc_check_quote", "", check_quotes},
        {"opc_check_crossing_quote", "", check_crossings},
        {"opc_check_fix", "lengths", check_lengths},
        {"opc_start_session", "", check_starts},
        {"opc_release_login", "", check_releases},
    };
    for (size_t i = 0; i < COUNT(others); i++) {
        if (strcmp(entry, others[i].name) == 0 && strcmp(what, others[i].what) == 0) {
            others[i].check();
            return true;
        }
    }
    return false;
}

int main(int argc, char **argv) {
    static const size_t all[] = {1, 2, 4, 8, 16}, some[] = {1, 4, 16}, two[] = {1, 16};
    static const struct {
        const char *name;
        uint64_t (*number_of)(const struct made_order *m);
        enum counted_in counted_in;
        const size_t *sizes;
        size_t len;
    } entries[] = {
        {"opc_check_order", number_of_order, ALONE, all, COUNT(all)},
        {"opc_check_order_tallied", number_of_order, TALLIED, two, COUNT(two)},
        {"opc_check_order_session", number_of_order, IN_SESSION, all, COUNT(all)},
        {"opc_check_fix", number_of_message, ALONE, some, COUNT(some)},
        {"opc_check_fix_tallied", number_of_message, TALLIED, two, COUNT(two)},
        {"opc_check_fix_session", number_of_message, IN_SESSION, some, COUNT(some)},
        {"opc_check_pair", number_of_pair, ALONE, all, COUNT(all)},
    };
    const char *entry = argc >= 2 ? argv[1] : "", *what = argc == 3 ? argv[2] : "";
    if (check_other(entry, what)) {
        return 0;
    }
    for (size_t i = 0; i < COUNT(entries); i++) {
        if (strcmp(entry, entries[i].name) == 0) {
            number_of = entries[i].number_of;
            counted_in = entries[i].counted_in;
            check_sizes(entries[i].sizes, entries[i].len);
            if (number_of != number_of_message) {
                check_with_shares(two, COUNT(two));
            }
            return 0;
        }
    }
    fprintf(stderr, "instructions: the argument names no entry that is measured\n");
    return 2;
}
