/*
 * An example host: checks the orders of several logins through the proved library, which counts
 * them in a session and restricts a login at its limit of rejections, and prints what it answers
 * and the login's row after it.
 */
#include "columns.h"
#include "option_price_check.h"

#include <inttypes.h>
#include <stdio.h>
#include <stdlib.h>

/* A vertical of root XYZ that expires on 15 January 2027. */
#define LEGS 2
static const char symbols[] = "XYZ   270115C00020000XYZ   270115C00025000";
static const int64_t counts[LEGS] = {1, -1};

/* An order of a login, with both legs or none, or where it has no price a release. */
struct step {
    const char *about;
    uint64_t login;
    int64_t price; /* in mills: positive is paid, negative received, 0 is no order */
    size_t len;
};

static const struct step session_steps[] = {
    {"vertical, paid for", 0, 1500, LEGS},
    {"and received for", 1, -1500, LEGS},
    {"and once more", 1, -1500, LEGS},
    {"then paid for", 1, 1500, LEGS},
    {"no leg", 2, 1500, 0},
    {"another login", 0, 1500, LEGS},
    {"release", 1, 0, 0},
    {"paid for", 1, 1500, LEGS},
    {"no such login", 32, 1500, LEGS},
    {"and its release", 32, 0, 0},
};

/* One more order can be counted, then none. */
static const struct opc_tally nearly_full = {999999, 199999, 600000, 200000};
static const struct step last_steps[] = {
    {"the last counted", 2, -1500, LEGS},
    {"the session is full", 1, 1500, LEGS},
    {"release", 2, 0, 0},
};

/* A limit order with no flags; it points to the bytes. */
static struct opc_order order_of(const struct step *s, uint8_t bytes[LEGS * OPC_COUNT_LENGTH]) {
    for (size_t i = 0; i < LEGS; i++) {
        opc_write_count(counts[i], bytes + i * OPC_COUNT_LENGTH);
    }
    return (struct opc_order){
        .symbols = (const uint8_t *)symbols,
        .symbols_len = s->len * OPC_SYMBOL_LENGTH,
        .counts = bytes,
        .counts_len = s->len * OPC_COUNT_LENGTH,
        .price = s->price,
        .kind = OPC_KIND_LIMIT,
    };
}

static void check(const struct step *s, struct opc_session *session) {
    const struct opc_settings settings = OPC_EXAMPLE_SETTINGS;
    const struct opc_market market = OPC_EMPTY_MARKET;
    uint8_t bytes[LEGS * OPC_COUNT_LENGTH];
    struct opc_order order = order_of(s, bytes);
    struct opc_answer answer =
        opc_answer_order_session(s->login, &order, &settings, &market, session);
    print_answer(&answer);
}

/* The row of a login that there is. */
static void print_row(const struct opc_session *session, uint64_t login) {
    if (login < OPC_LOGINS) {
        const struct opc_login *row = &session->logins[login];
        print_tally(&row->tally);
        printf("  %7" PRIu64 "%s", row->running, opc_is_restricted(row) ? "  restricted" : "");
    }
}

/* Each call is lent the session that the one before left. */
static void make_steps(const struct step *steps, size_t len, struct opc_session *session) {
    for (size_t i = 0; i < len; i++) {
        const struct step *s = &steps[i];
        int64_t size = s->price < 0 ? -s->price : s->price;
        printf("%-19s  %5" PRIu64, s->about, s->login);
        if (s->price == 0) {
            printf("  %6s", "-");
            print_number(opc_answer_release(s->login, session));
        } else {
            printf("  %s%" PRId64 ".%03" PRId64, s->price < 0 ? "-" : " ", size / 1000,
                   size % 1000);
            check(s, session);
        }
        print_row(session, s->login);
        printf("\n");
    }
}

/* A session in which each login is restricted at two rejections. */
static struct opc_session start(void) {
    uint64_t limits[OPC_LOGINS];
    struct opc_session session;
    for (size_t i = 0; i < OPC_LOGINS; i++) {
        limits[i] = 2;
    }
    uint64_t number = opc_answer_start(limits, &session);
    if (number != OPC_ACCEPTED) {
        fprintf(stderr, "sessions: no session was started (number %" PRIu64 ")\n", number);
        exit(EXIT_FAILURE);
    }
    return session;
}

int main(void) {
    struct opc_session session = start();
    printf("A session, and the login's row after each call (+1 20C -1 25C of root XYZ, 15 January "
           "2027, dollars; limit 2)\n");
    printf("%-19s  %5s  %6s", "call", "login", "price");
    print_heading();
    printf("  %7s\n", "running");
    make_steps(session_steps, COUNT(session_steps), &session);
    session = start();
    session.logins[2].tally = nearly_full;
    session.logins[2].running = 1;
    make_steps(last_steps, COUNT(last_steps), &session);
    return EXIT_SUCCESS;
}
