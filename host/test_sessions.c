/*
 * Holds the entries of a session to the answers of the files in cases/, to the checks without a
 * session and to a plain computation of what each login's row is: with bad sessions, in long lists
 * of calls, and across the limit of a session. Exit status 1 and a message on the first failure,
 * one line with the number of checks otherwise.
 */
#define _DEFAULT_SOURCE /* for lent_bytes.h */
#include "answers.h"
#include "cases.h"
#include "expect.h"
#include "expect_answers.h"
#include "expect_sessions.h"
#include "given_orders.h"
#include "option_price_check.h"

#define RANDOM_CASES 40000
#define LISTS 40

static const char *const test_name = "test_sessions";

static void print_tried(void) {
    print_case();
    print_call();
}

/* No login: the first two, and ones of which a part of the bits is a login. */
static const uint64_t no_logins[] = {
    32, 33, 63, 64, 256, 1ULL << 32, 1ULL << 32 | 3, 1ULL << 63, UINT64_MAX, UINT64_MAX - 31};

/* Orders, and messages of them, for tests that need no other. */
static struct made_order accepted_order, rejected_order, refused_order;
static struct made_message accepted_message, wrong_frame;

static void write_message(struct made_message *message, const struct made_order *m) {
    static struct made_message body;
    write_body(&body, m);
    frame(message, &body);
}

static void make_orders(void) {
    accepted_order = order_given(OPC_ACCEPTED);
    rejected_order = order_given(OPC_CHECK_PUT);
    refused_order = order_given(OPC_BAD_LEG_COUNT);
    write_message(&accepted_message, &accepted_order);
    start_with(&wrong_frame, "8=FIX.4.4|");
}

static struct call order_call(uint64_t login, const struct made_order *order) {
    return (struct call){.kind = CALL_ORDER, .login = login, .order = order};
}

static struct call message_call(uint64_t login, const struct made_message *message) {
    return (struct call){
        .kind = CALL_MESSAGE, .login = login, .order = &accepted_order, .message = message};
}

static struct call release_call(uint64_t login) {
    return (struct call){.kind = CALL_RELEASE, .login = login};
}

/* ---- each order and each message, as without a session ---- */

static void hold_in_session(const struct call *call, const char *words) {
    struct made_session made = whole(random_session());
    made.session.logins[call->login] = login_with(2, 1, 2, 3, 1);
    struct opc_answer a = expect_call(call, &made);
    expect_words(&a, words);
}

static void hold_order(const struct request *request, const char *words) {
    struct made_order m = order_of(&request->order, &request->terms);
    struct call call = order_call(below(OPC_LOGINS), &m);
    hold_in_session(&call, words);
}

static void hold_message(const struct request *request, const char *words) {
    static struct made_message message;
    struct made_order m = no_legs();
    const struct opc_fix *fix = &request->fix;
    m.settings = request->terms.settings;
    m.market = request->terms.market;
    m.stop = fix->stop;
    m.manual = fix->manual;
    m.opening = fix->opening;
    message.len = 0;
    add_bytes(&message, fix->message, fix->message_len);
    struct call call = message_call(below(OPC_LOGINS), &message);
    call.order = &m;
    hold_in_session(&call, words);
}

static void test_cases(void) {
    hold_cases(REQUEST_ORDER, hold_order);
    hold_cases(REQUEST_FIX, hold_message);
}

/* Each number of the order check, for each login from a fresh session on. */
static void test_each_login(void) {
    struct made_session made = whole(fresh_session(OPC_MOST_REJECTIONS));
    for (uint64_t login = 0; login < OPC_LOGINS; login++) {
        for (size_t i = 0; i < COUNT(order_numbers); i++) {
            struct made_order m = order_given(order_numbers[i]);
            struct call call = order_call(login, &m);
            expect(expect_call(&call, &made).number == order_numbers[i], "not the number meant");
        }
        const struct opc_login expected = login_with(OPC_MOST_REJECTIONS, 10, 1, 6, 6);
        expect(memcmp(&made.session.logins[login], &expected, sizeof expected) == 0,
               "the row after one order of each number");
    }
}

/* Slices without a byte, at NULL. */
static void test_null(void) {
    struct opc_session session = fresh_session(1);
    const struct opc_settings settings = OPC_EXAMPLE_SETTINGS;
    const struct opc_market market = OPC_EMPTY_MARKET;
    const struct opc_order order = {.symbols = NULL, .counts = NULL};
    const struct opc_fix fix = {.message = NULL};
    struct opc_answer a = opc_answer_order_session(3, &order, &settings, &market, &session);
    expect(a.number == OPC_BAD_LEG_COUNT, "an order at NULL with length 0");
    a = opc_answer_fix_session(3, &fix, &settings, &market, &session);
    expect(a.number == OPC_BAD_FRAME, "a message at NULL with length 0");
    expect(session.logins[3].tally.seen == 2, "orders at NULL are counted");
    expect(opc_start_session(NULL, 0, NULL, 0) == OPC_BAD_TALLY, "a start at NULL with length 0");
    expect(opc_release_login(3, NULL, 0) == OPC_BAD_TALLY, "a release at NULL with length 0");
}

/* ---- the start ---- */

#define MOST_LIMITS (OPC_LOGINS + 2)

/* Starts a session over numbers by chance, and expects every number of it. */
static void expect_start(const uint64_t *limits, size_t limits_len, size_t session_len) {
    static struct lent_bytes lent_limits;
    struct made_session made = {.len = session_len}, expected;
    for (size_t i = 0; i < OPC_LOGINS; i++) {
        made.session.logins[i] = random_login();
    }
    session_now = expected = made;
    bool are_right = limits_len == 32;
    for (size_t i = 0; i < limits_len; i++) {
        are_right = are_right && limits[i] >= 1 && limits[i] <= 10000;
    }
    if (session_len == OPC_SESSION_COUNT) {
        expected.session = fresh_session(0);
        for (size_t i = 0; are_right && i < OPC_LOGINS; i++) {
            expected.session.logins[i].limit = limits[i];
        }
    }
    const void *at = lend_bytes(&lent_limits, (const uint8_t *)limits, limits_len * sizeof *limits);
    uint64_t number = opc_start_session(limits_len == 0 && one_in(2) ? NULL : at, limits_len,
                                        lend_session(&made), session_len);
    expect(number == (session_len != OPC_SESSION_COUNT ? OPC_BAD_TALLY
                      : are_right                      ? OPC_ACCEPTED
                                                       : OPC_BAD_SETTING),
           "another number for a start");
    take_session_back(&made);
    expect(same_numbers(&made, &expected), "another session after a start");
    expect(are_kept(&lent_limits), "a limit is not kept");
}

/* At each place of a list that is right else, of each length; in sessions of each length. */
static void test_start(void) {
    static const uint64_t values[] = {0,     1,     2,          9999,           10000,
                                      10001, 65537, 1ULL << 63, 1ULL << 32 | 1, UINT64_MAX};
    static const size_t lengths[] = {0, 1, 31, 32, 33, MOST_LIMITS};
    static const size_t session_lengths[] = {0, 1, 6, 32, 191, 192, 193, 192 + BEYOND};
    for (size_t i = 0; i < COUNT(values) * MOST_LIMITS; i++) {
        uint64_t limits[MOST_LIMITS];
        for (size_t k = 0; k < MOST_LIMITS; k++) {
            limits[k] = between(1, OPC_MOST_REJECTIONS);
        }
        limits[i / COUNT(values)] = values[i % COUNT(values)];
        for (size_t k = 0; k < COUNT(lengths) * COUNT(session_lengths); k++) {
            expect_start(limits, lengths[k / COUNT(session_lengths)],
                         session_lengths[k % COUNT(session_lengths)]);
        }
    }
}

/* By the inline function; after a start that was refused every call gets 12. */
static void test_inline_start(void) {
    uint64_t limits[OPC_LOGINS];
    for (size_t i = 0; i < OPC_LOGINS; i++) {
        limits[i] = 1 + i;
    }
    struct made_session made = whole(random_session());
    expect(opc_answer_start(limits, &made.session) == OPC_ACCEPTED, "a start");
    for (size_t i = 0; i < OPC_LOGINS; i++) {
        const struct opc_login expected = {.limit = 1 + i};
        expect(memcmp(&made.session.logins[i], &expected, sizeof expected) == 0, "a fresh row");
        expect(!opc_is_restricted(&made.session.logins[i]), "restricted at the start");
    }
    limits[31] = 10001;
    expect(opc_answer_start(limits, &made.session) == OPC_BAD_SETTING, "a start at 10001");
    for (uint64_t login = 0; login < OPC_LOGINS; login++) {
        const struct call calls[] = {order_call(login, &accepted_order),
                                     message_call(login, &accepted_message), release_call(login)};
        for (size_t i = 0; i < COUNT(calls); i++) {
            expect_given_number(&calls[i], &made, OPC_BAD_TALLY, "12 after a refused start");
        }
    }
}

/* ---- the sequence of the numbers ---- */

/* A session in which every login is restricted. */
static struct opc_session all_restricted(void) {
    struct opc_session session;
    for (size_t i = 0; i < OPC_LOGINS; i++) {
        session.logins[i] = login_with(1 + i, i, 0, 40, 1 + i);
    }
    return session;
}

/* The last order was counted, and every login is restricted. */
static struct opc_session full_session(void) {
    struct opc_session session = all_restricted();
    uint64_t left = OPC_SESSION_LIMIT;
    for (size_t i = 1; i < OPC_LOGINS; i++) {
        left -= session.logins[i].tally.seen;
    }
    session.logins[0] = login_with(1, left - 1, 0, 1, 1);
    return session;
}

/* What every order of a session gets, whatever the order or the message: the same number. */
static void expect_of_all(uint64_t login, const struct made_session *made, uint64_t number,
                          const char *what) {
    const struct call calls[] = {message_call(login, &accepted_message),
                                 message_call(login, &wrong_frame)};
    for (size_t i = 0; i < COUNT(order_numbers); i++) {
        struct made_order m = order_given(order_numbers[i]);
        struct call call = order_call(login, &m);
        expect_given_number(&call, made, number, what);
    }
    for (size_t i = 0; i < COUNT(calls); i++) {
        expect_given_number(&calls[i], made, number, what);
    }
}

/* 34 before everything, of releases too. */
static void test_no_logins(void) {
    const struct opc_session sessions[] = {fresh_session(1), fresh_session(0), fresh_session(10001),
                                           all_restricted(), full_session()};
    for (size_t i = 0; i < COUNT(sessions) * COUNT(no_logins); i++) {
        struct made_session made = whole(sessions[i / COUNT(no_logins)]);
        uint64_t login = no_logins[i % COUNT(no_logins)];
        struct call release = release_call(login);
        expect_of_all(login, &made, OPC_BAD_LOGIN, "34 of an order");
        expect_given_number(&release, &made, OPC_BAD_LOGIN, "34 of a release");
        made.len = i % OPC_SESSION_COUNT;
        expect_of_all(login, &made, OPC_BAD_LOGIN, "34 of an order in a short session");
        expect_given_number(&release, &made, OPC_BAD_LOGIN, "34 of a release in a short session");
    }
}

/* 35 before all that an order has, and 12 before it. A release gets neither. */
static void test_restricted(void) {
    for (uint64_t login = 0; login < OPC_LOGINS; login++) {
        struct made_session made = whole(all_restricted());
        struct call release = release_call(login);
        expect(opc_is_restricted(&made.session.logins[login]), "a restricted login");
        expect_of_all(login, &made, OPC_RESTRICTED_LOGIN, "35 of a restricted login");
        expect_given_number(&release, &made, OPC_ACCEPTED, "a release of a restricted login");
        made.session.logins[31 - login].limit = 10001;
        expect_of_all(login, &made, OPC_BAD_TALLY, "12 before 35");
        made = whole(full_session());
        expect_of_all(login, &made, OPC_BAD_TALLY, "12 of a full session before 35");
        expect_given_number(&release, &made, OPC_ACCEPTED, "a release in a full session");
    }
}

/* ---- bad sessions ---- */

static size_t times_bad, times_right;

/* An order, a message and a release of one login, each in the session as it is. */
static void expect_calls(uint64_t login, const struct made_session *made) {
    const struct call calls[] = {order_call(login, &accepted_order),
                                 order_call(login, &rejected_order),
                                 message_call(login, &accepted_message), release_call(login)};
    for (size_t i = 0; i < COUNT(calls); i++) {
        struct made_session after = *made;
        uint64_t number = expect_call(&calls[i], &after).number;
        times_bad += number == OPC_BAD_TALLY;
        times_right += number != OPC_BAD_TALLY;
    }
}

/* The greatest value with which the number at a place is right. */
static uint64_t greatest_at(const struct opc_session *session, size_t place) {
    const struct opc_login *login = &session->logins[place / LOGIN_COUNT];
    const uint64_t *numbers = (const uint64_t *)session;
    switch (place % LOGIN_COUNT) {
    case 0:
        return 10000;
    case LOGIN_COUNT - 1:
        return login->limit < login->tally.rejected ? login->limit : login->tally.rejected;
    default:
        return numbers[place];
    }
}

/* Each of the numbers alone is set to other values; its login and two others call. */
static void expect_each_number(const struct opc_session *session) {
    for (size_t place = 0; place < OPC_SESSION_COUNT; place++) {
        uint64_t was = ((const uint64_t *)session)[place], most = greatest_at(session, place);
        const uint64_t values[] = {0,
                                   1,
                                   most,
                                   most + 1,
                                   UINT64_MAX,
                                   was - 1,
                                   was + 1,
                                   was | 1ULL << 32,
                                   was ^ 1ULL << 63,
                                   1000000};
        for (size_t i = 0; i < COUNT(values); i++) {
            struct made_session made = whole(*session);
            ((uint64_t *)&made.session)[place] = values[i];
            expect_calls(place / LOGIN_COUNT, &made);
            expect_calls((place / LOGIN_COUNT + 1) % OPC_LOGINS, &made);
            expect_calls(below(OPC_LOGINS), &made);
        }
    }
}

static void test_each_number(void) {
    const struct opc_session sessions[] = {fresh_session(1), fresh_session(10000), all_restricted(),
                                           random_session(), full_session()};
    for (size_t i = 0; i < COUNT(sessions); i++) {
        expect_each_number(&sessions[i]);
    }
    expect(times_bad > 0 && times_right > 0, "sessions all right, or all bad");
}

/* Any length: only that of a session is right. */
static void test_lengths(void) {
    for (size_t len = 0; len <= OPC_SESSION_COUNT + BEYOND; len++) {
        struct made_session made = whole(random_session());
        made.len = len;
        for (size_t i = 0; i < BEYOND; i++) {
            made.beyond[i] = next_random();
        }
        for (uint64_t login = 0; login < OPC_LOGINS; login++) {
            expect_calls(login, &made);
        }
    }
}

/* Tallies that are right in fewer bits only, or not at all, at each login. */
static void test_bad_tallies(void) {
    for (size_t i = 0; i < COUNT(bad_tallies); i++) {
        for (size_t place = 0; place < OPC_LOGINS; place++) {
            struct made_session made = whole(fresh_session(1));
            made.session.logins[place].tally = bad_tallies[i];
            expect_calls(place, &made);
            expect_calls((place + 7) % OPC_LOGINS, &made);
        }
    }
}

/* Logins that have seen so many together that a number cannot hold the sum, or just a million. */
static void test_sums_over_logins(void) {
    static const struct {
        size_t logins;      /* from the first on */
        uint64_t seen, one; /* each of these, and one more login */
        bool is_full;
    } sums[] = {
        {31, 31250, 31249, false},
        {31, 31250, 31250, true},
        {31, 0, 999999, false},
        {31, 0, 1000000, true},
        {1, 999999, 0, false},
        {1, 999999, 1, true},
        {1, 1ULL << 63, 1ULL << 63, true},
        {1, UINT64_MAX, 1, true},
        {1, UINT64_MAX, 1000000, true},
        {16, 1ULL << 60, 0, true},
        {16, 1ULL << 60, 5, true},
        {31, 1ULL << 59, 1ULL << 59, true},
        {31, 1ULL << 32, 5, true},
        {31, UINT64_MAX, 31, true},
        {31, UINT64_MAX, 32, true},
    };
    for (size_t i = 0; i < COUNT(sums) * OPC_LOGINS; i++) {
        struct made_session made = whole(fresh_session(1));
        size_t sum = i / OPC_LOGINS, login = i % OPC_LOGINS;
        for (size_t k = 0; k < sums[sum].logins; k++) {
            made.session.logins[k] = login_with(1, sums[sum].seen, 0, 0, 0);
        }
        made.session.logins[31] = login_with(1, 0, sums[sum].one, 0, 0);
        struct call order = order_call(login, &accepted_order), release = release_call(login);
        expect_given_number(&order, &made, sums[sum].is_full ? OPC_BAD_TALLY : OPC_ACCEPTED,
                            "an order by what the logins have seen together");
        expect_given_number(&release, &made, OPC_ACCEPTED, "a release in a full session");
    }
}

/* ---- rejections up to the limit ---- */

/* Rejections to the limit, with others between that do not count; then 35 until a release. */
static void reach_limit(uint64_t login, uint64_t limit, struct made_session *made) {
    const struct call rejected = order_call(login, &rejected_order);
    const struct call between_them[] = {
        order_call(login, &accepted_order), order_call(login, &refused_order),
        message_call(login, &wrong_frame), order_call((login + 1) % OPC_LOGINS, &accepted_order)};
    const struct opc_login *row = &made->session.logins[login];
    for (uint64_t n = 1; n <= limit; n++) {
        expect(!opc_is_restricted(row), "restricted below the limit");
        expect(expect_call(&between_them[n % COUNT(between_them)], made).number !=
                   OPC_RESTRICTED_LOGIN,
               "35 below the limit");
        expect(expect_call(&rejected, made).number == OPC_CHECK_PUT, "35 below the limit");
        expect(row->running == n, "another running number");
    }
    expect(opc_is_restricted(row), "not restricted at the limit");
    for (size_t i = 0; i < COUNT(between_them); i++) {
        uint64_t number = expect_call(&between_them[i], made).number;
        expect((number == OPC_RESTRICTED_LOGIN) == (between_them[i].login == login),
               "35 at the limit, of its login alone");
    }
}

static void test_limits(void) {
    static const uint64_t limits[] = {1, 2, 3, 10, 9999, 10000};
    for (size_t i = 0; i < COUNT(limits); i++) {
        struct made_session made = whole(fresh_session(limits[i]));
        uint64_t login = 31 * (i % 2);
        struct call release = release_call(login);
        for (size_t round = 0; round < 2; round++) {
            reach_limit(login, limits[i], &made);
            expect(expect_call(&release, &made).number == OPC_ACCEPTED, "a release");
        }
        expect(made.session.logins[login].tally.rejected == 2 * limits[i],
               "a release is not to touch the tally");
    }
}

/* ---- lists of calls ---- */

/* The order and the message of the next call: they stay until the call after it. */
static struct made_order next_order;
static struct made_message next_message;

/* Any call: an order with shares or without, valid or damaged, or its message, or a release. */
static struct call any_call(uint64_t login) {
    static struct made_message body;
    next_order = random_either(one_in(3) ? 1 : between(3, OPC_MOST_LEGS));
    if (legs_of(&next_order) > 1 && one_in(3)) {
        damage(&next_order, refusals[below(REFUSALS)]);
    }
    struct call call = {.kind = one_in(8)   ? CALL_RELEASE
                                : one_in(3) ? CALL_MESSAGE
                                            : CALL_ORDER,
                        .login = login,
                        .order = &next_order,
                        .message = &next_message};
    if (call.kind == CALL_MESSAGE) {
        random_body(&body, &next_order);
        frame(&next_message, &body);
        if (one_in(4)) {
            damage_message(&next_message);
        }
    }
    return call;
}

static uint64_t any_login(void) {
    return one_in(64) ? no_logins[below(COUNT(no_logins))] : below(OPC_LOGINS);
}

/* A session with limits up to most by chance but the one login's, started by the library. */
static struct made_session any_start(uint64_t most, uint64_t login, uint64_t limit) {
    struct made_session made = whole(random_session());
    uint64_t limits[OPC_LOGINS];
    for (size_t i = 0; i < OPC_LOGINS; i++) {
        limits[i] = i == login ? limit : between(1, most);
    }
    expect(opc_answer_start(limits, &made.session) == OPC_ACCEPTED, "a start");
    return made;
}

/* The numbers that a login's calls were given, counted apart from the session. */
struct counts {
    struct opc_tally tally;
    uint64_t since_release;
};

static void count_given(struct counts *c, const struct call *call, uint64_t number) {
    if (call->kind == CALL_RELEASE) {
        c->since_release = 0;
    } else if (number != OPC_RESTRICTED_LOGIN) {
        c->tally = counted(c->tally, number);
        c->since_release += opc_outcome_of(number) == OPC_OUTCOME_REJECTED;
    }
}

/* Any calls of all logins: each row is what its own calls were given. */
static void test_random_calls(void) {
    uint64_t given = 0;
    for (size_t list = 0; list < LISTS; list++) {
        struct counts counts[OPC_LOGINS] = {{OPC_FRESH_TALLY, 0}};
        struct made_session made = any_start(list % 2 == 0 ? 3 : 30, OPC_LOGINS, 0);
        for (size_t i = 0; i < RANDOM_CASES / LISTS; i++) {
            struct call call = any_call(any_login());
            uint64_t number = expect_call(&call, &made).number;
            given |= only(number);
            if (call.login < OPC_LOGINS) {
                count_given(&counts[call.login], &call, number);
            }
        }
        for (size_t i = 0; i < OPC_LOGINS; i++) {
            const struct opc_login *row = &made.session.logins[i];
            expect(same_tally(&row->tally, &counts[i].tally), "a tally is not its login's calls");
            expect(row->running == counts[i].since_release, "a running number of other calls");
        }
    }
    expect((given & only(OPC_RESTRICTED_LOGIN)) != 0 && (given & only(OPC_BAD_LOGIN)) != 0 &&
               (given & only(OPC_BAD_TALLY)) == 0,
           "lists of calls without 34 or 35, or with 12");
}

/* Calls of others, up to three of them. */
static void call_others(uint64_t login, struct made_session *made) {
    for (uint64_t left = below(4); left > 0; left--) {
        uint64_t other = any_login();
        struct call call = any_call(other == login ? (other + 1) % OPC_LOGINS : other);
        expect_call(&call, made);
    }
}

/* A login with one limit and the same calls in two sessions, in which others do what they like. */
static void test_isolation(void) {
    for (size_t list = 0; list < LISTS; list++) {
        uint64_t login = list % OPC_LOGINS, limit = between(1, 3);
        struct made_session one = any_start(3, login, limit), other = any_start(20, login, limit);
        for (size_t i = 0; i < RANDOM_CASES / LISTS / 8; i++) {
            call_others(login, &one);
            call_others(login, &other);
            struct call call = any_call(login);
            struct opc_answer a = expect_call(&call, &one), b = expect_call(&call, &other);
            expect(same_answer(&a, &b), "another answer by what others do");
            expect(memcmp(&one.session.logins[login], &other.session.logins[login],
                          sizeof one.session.logins[login]) == 0,
                   "another row by what others do");
        }
    }
}

/* ---- a whole session ---- */

/* One order of a long list: its number, and every number of the session after it. */
static void count_order(const struct call *call, uint64_t number, struct made_session *made,
                        struct made_session *expected) {
    struct opc_login *row = &expected->session.logins[call->login];
    call_now = call;
    session_now = *made;
    expect(ask_inline(call, &made->session).number == number, "another number in a long list");
    row->tally = counted(row->tally, number);
    row->running += opc_outcome_of(number) == OPC_OUTCOME_REJECTED;
    expect(same_numbers(made, expected), "another session than expected");
    call_now = NULL;
}

/* After a million orders every order gets 12; releases do not. */
static void expect_end(struct made_session *made) {
    for (uint64_t login = 0; login < OPC_LOGINS; login++) {
        expect_of_all(login, made, OPC_BAD_TALLY, "an order after the last");
        struct call release = release_call(login);
        expect(expect_call(&release, made).number == OPC_ACCEPTED, "a release after the last");
        expect(made->session.logins[login].running == 0, "a release after the last");
        expect_of_all(login, made, OPC_BAD_TALLY, "an order after the last, and a release");
    }
}

/* All logins by turns, each released when it is restricted, up to the order before the last two. */
static struct made_session nearly_whole_session(void) {
    const struct made_order *orders[] = {&refused_order, &accepted_order, &rejected_order};
    const uint64_t numbers[] = {OPC_BAD_LEG_COUNT, OPC_ACCEPTED, OPC_CHECK_PUT};
    struct made_session made = whole(fresh_session(100)), expected = made;
    for (uint64_t i = 0; i < OPC_SESSION_LIMIT - 2; i++) {
        uint64_t login = i % OPC_LOGINS, kind = i / OPC_LOGINS % COUNT(orders);
        struct opc_login *row = &expected.session.logins[login];
        if (opc_is_restricted(row)) {
            expect(opc_answer_release(login, &made.session) == OPC_ACCEPTED, "a release");
            row->running = 0;
        }
        struct call call = order_call(login, orders[kind]);
        count_order(&call, numbers[kind], &made, &expected);
    }
    return made;
}

/* Orders 999,999 and 1,000,000 are counted, and no order after them. */
static void test_whole_session(void) {
    struct made_session made = nearly_whole_session();
    const struct call last[] = {order_call(0, &accepted_order), message_call(1, &wrong_frame)};
    uint64_t seen = 0;
    expect(expect_call(&last[0], &made).number == OPC_ACCEPTED, "order 999,999");
    expect(expect_call(&last[1], &made).number == OPC_BAD_FRAME, "order 1,000,000");
    for (size_t i = 0; i < OPC_LOGINS; i++) {
        seen += made.session.logins[i].tally.seen;
    }
    expect(seen == 1000000, "what the logins have seen together");
    expect_end(&made);
}

int main(void) {
    make_orders();
    test_cases();
    test_each_login();
    test_null();
    test_start();
    test_inline_start();
    test_no_logins();
    test_restricted();
    test_each_number();
    test_lengths();
    test_bad_tallies();
    test_sums_over_logins();
    test_limits();
    test_random_calls();
    test_isolation();
    test_whole_session();
    return all_hold();
}
