/* Sessions made for tests and measurements, right ones, with their numbers one by one. */
#ifndef MADE_SESSIONS_H
#define MADE_SESSIONS_H

#include "chance.h"
#include "option_price_check.h"

#include <stddef.h>

/* The numbers of one login. */
#define LOGIN_COUNT (OPC_SESSION_COUNT / OPC_LOGINS)

/* A session that no order has come to, with one limit for all logins. */
static inline struct opc_session fresh_session(uint64_t limit) {
    struct opc_session session = {0};
    for (size_t i = 0; i < OPC_LOGINS; i++) {
        session.logins[i].limit = limit;
    }
    return session;
}

/* A login that sent so many orders that were refused, accepted and rejected. */
static inline struct opc_login login_with(uint64_t limit, uint64_t refused, uint64_t accepted,
                                          uint64_t rejected, uint64_t running) {
    const struct opc_login login = {.limit = limit,
                                    .tally = {.seen = refused + accepted + rejected,
                                              .refused = refused,
                                              .accepted = accepted,
                                              .rejected = rejected},
                                    .running = running};
    return login;
}

/* A right login by chance, restricted now and then; it has seen at most 30000. */
static inline struct opc_login random_login(void) {
    uint64_t limit = one_in(4) ? OPC_MOST_REJECTIONS : between(1, 20);
    uint64_t rejected = one_in(2) ? below(20) : below(10001);
    uint64_t most = rejected < limit ? rejected : limit;
    uint64_t running = one_in(4) ? most : below(most + 1);
    return login_with(limit, below(10001), below(10001), rejected, running);
}

/* A right session by chance, which is not full. */
static inline struct opc_session random_session(void) {
    struct opc_session session;
    for (size_t i = 0; i < OPC_LOGINS; i++) {
        session.logins[i] = random_login();
    }
    return session;
}

#endif
