/*
 * Sessions: logins and limits, and sessions in many states, mostly right ones, then perhaps
 * damaged. No rule is applied here: whether a session is right is for both implementations to say.
 */
#ifndef SESSIONS_H
#define SESSIONS_H

#include "call.h"

#define LOGIN_NUMBERS (sizeof(struct opc_login) / sizeof(uint64_t))

/* Rows that the logins of one session share. */
#define SHAPED_ROWS 4

/* Mostly one of four, so that some login reaches its limit; else any, or one that there is not. */
static inline uint64_t shaped_login(struct input *in) {
    static const uint64_t few[] = {0, 1, 7, OPC_LOGINS - 1};
    static const uint64_t beyond[] = {OPC_LOGINS, OPC_LOGINS + 1,        40,
                                      256,        UINT64_C(1) << 32 | 1, UINT64_MAX};
    uint8_t byte = take(in);
    return byte < 208 ? few[byte % 4] : byte < 240 ? byte % OPC_LOGINS : PICK(in, beyond);
}

/* A row that is right. */
static inline struct opc_login shaped_login_row(struct input *in) {
    static const uint64_t limits[] = {1, 1, 2, 2, 3, 5, 10, OPC_MOST_REJECTIONS};
    static const uint64_t counts[] = {0, 0, 0, 1, 2, 1000, 10000, 5};
    struct opc_login row;
    row.limit = PICK(in, limits);
    uint64_t running[] = {0, 0, 0, 0, row.limit - 1, row.limit - 1, row.limit, row.limit / 2};
    row.running = PICK(in, running);
    row.tally.refused = PICK(in, counts);
    row.tally.accepted = PICK(in, counts);
    row.tally.rejected = row.running + PICK(in, counts);
    row.tally.seen = row.tally.refused + row.tally.accepted + row.tally.rejected;
    return row;
}

/* Orders that one login sent, at times so many that the session has seen nearly as many as it may,
 * or more; half of a very large number is another's. */
static inline void fill_session(struct input *in, struct opc_login *rows) {
    static const uint64_t sums[] = {OPC_SESSION_LIMIT - 3, OPC_SESSION_LIMIT - 2,
                                    OPC_SESSION_LIMIT - 1, OPC_SESSION_LIMIT,
                                    OPC_SESSION_LIMIT + 1, UINT64_C(1) << 32};
    struct opc_login *one = &rows[take(in) % OPC_LOGINS], *other = &rows[take(in) % OPC_LOGINS];
    uint8_t byte = take(in);
    uint64_t seen = 0;
    for (size_t i = 0; i < OPC_LOGINS; i++) {
        seen += rows[i].tally.seen;
    }
    uint64_t sum = sums[byte % 6];
    uint64_t more = byte >= 240 ? UINT64_C(1) << 63 : sum > seen ? sum - seen : 0;
    one->tally.seen += more;
    one->tally.accepted += more;
    if (byte >= 240 && other != one) {
        other->tally.seen += more;
        other->tally.refused += more;
    }
}

/* Makes one number of a session another, or two of one row: they may come to the same in 64 bits.
 */
static inline void damage_session(struct input *in, uint64_t *session) {
    uint64_t *row = session + take(in) % OPC_LOGINS * LOGIN_NUMBERS;
    uint8_t byte = take(in);
    uint64_t *number = row + byte % LOGIN_NUMBERS;
    uint64_t values[] = {0,           row[0],     row[0] + 1,          *number + 1,
                         *number - 1, UINT64_MAX, OPC_MOST_REJECTIONS, OPC_MOST_REJECTIONS + 1};
    if (byte < 192) {
        *number = PICK(in, values);
    } else if (byte < 208) {
        *number = take_number(in, 8);
    } else if (byte < 240) {
        row[2] += UINT64_C(1) << 63; /* refused, and accepted or rejected */
        row[3 + byte % 2] += UINT64_C(1) << 63;
    } else {
        row[1] -= row[4]; /* none rejected, none of them seen */
        row[4] = 0;
    }
}

/* Limits for a start, mostly right ones. */
static inline void shaped_limits(struct input *in, struct call *call,
                                 const struct opc_login *rows) {
    static const uint64_t limits[] = {
        0, OPC_MOST_REJECTIONS + 1, UINT64_MAX, UINT64_C(1) << 32 | 1, OPC_MOST_REJECTIONS, 1};
    for (size_t i = 0; i < MOST_LIMITS; i++) {
        call->limits[i] = rows[i % SHAPED_ROWS].limit;
    }
    if (take(in) >= 240) {
        call->limits[take(in) % OPC_LOGINS] = PICK(in, limits);
    }
}

/* Mostly right; else one number or one row less or more, none, twice as many, or any. */
static inline size_t shaped_session_length(struct input *in) {
    static const size_t others[] = {OPC_SESSION_COUNT - 1,
                                    OPC_SESSION_COUNT + 1,
                                    OPC_SESSION_COUNT - LOGIN_NUMBERS,
                                    OPC_SESSION_COUNT + LOGIN_NUMBERS,
                                    0,
                                    2 * OPC_SESSION_COUNT};
    uint8_t byte = take(in);
    return byte < 236   ? OPC_SESSION_COUNT
           : byte < 254 ? others[byte % 6]
                        : (size_t)take_number(in, 2) % MOST_SESSION_NUMBERS;
}

/* Login, limits and session; beyond the right length the session goes on with right rows. */
static inline void shaped_session(struct input *in, struct call *call) {
    struct opc_login rows[SHAPED_ROWS], session[MOST_SESSION_NUMBERS / LOGIN_NUMBERS];
    size_t different = 1 + take(in) % SHAPED_ROWS;
    for (size_t i = 0; i < SHAPED_ROWS; i++) {
        rows[i] = i < different ? shaped_login_row(in) : rows[i - different];
    }
    for (size_t i = 0; i < MOST_SESSION_NUMBERS / LOGIN_NUMBERS; i++) {
        session[i] = rows[i % SHAPED_ROWS];
    }
    if (take(in) >= 200) {
        fill_session(in, session);
    }
    memcpy(call->session, session, sizeof session);
    if (take(in) >= 232) {
        damage_session(in, call->session);
    }
    shaped_limits(in, call, rows);
    call->session_len = shaped_session_length(in);
    call->login = shaped_login(in);
}

#endif
