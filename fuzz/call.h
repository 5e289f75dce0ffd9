/* One call of an entry: everything that it is handed. */
#ifndef CALL_H
#define CALL_H

#include "input.h"
#include "option_price_check.h"

#include <stdbool.h>

enum entry {
    READ_SYMBOL,
    WRITE_SYMBOL,
    CHECK_ORDER,
    CHECK_ORDER_TALLIED,
    CHECK_FIX,
    CHECK_FIX_TALLIED,
    CHECK_PAIR,
    CHECK_QUOTE,
    CHECK_CROSSING,
    START_SESSION,
    CHECK_ORDER_SESSION,
    CHECK_FIX_SESSION,
    RELEASE_LOGIN,
    ENTRIES
};

/* More than 17 legs, and odd lengths beyond. */
#define MOST_SYMBOL_BYTES 400
#define MOST_COUNT_BYTES 150
/* More than the message of 17 legs. */
#define MOST_MESSAGE_BYTES 1200
/* The longest slice for one symbol, and the longest buffer to write in. */
#define MOST_BYTES_OF_ONE 48

/* The settings begin with the checks' switches. */
#define SWITCHES 7

/* More than twice as many as there should be. */
#define MOST_SETTINGS 48
#define MOST_MARKET_VALUES 24
#define MOST_LIMITS 72
#define MOST_RESTING_NUMBERS 144
#define MOST_SESSION_NUMBERS 400

/* What an entry is handed of one order. */
struct order {
    uint8_t symbols[MOST_SYMBOL_BYTES];
    size_t symbols_len;
    uint8_t counts[MOST_COUNT_BYTES];
    size_t counts_len;
    int64_t price;
    uint64_t kind;
    uint64_t stop;
    uint64_t manual;
    uint64_t opening;
    int64_t shares;
};

struct call {
    enum entry entry;
    /* How the call is made: which end of the lent bytes is watched, NULL or not, which legs change
     * places. It has no part in the answer. */
    uint8_t choice;
    /* Of a pair the agency order. A message has its flags; the one symbol to read, or of a quote,
     * is in its symbols. */
    struct order order;
    struct order contra;
    uint64_t continue_unpaired;
    uint8_t message[MOST_MESSAGE_BYTES];
    size_t message_len;
    struct opc_symbol_parts parts;
    size_t out_len;
    uint64_t bid;
    uint64_t offer;
    uint64_t resting;
    /* Of a crossing quote: what rests on the other side, and how many numbers are lent for the
     * fills. */
    uint64_t sell;
    uint64_t size;
    uint64_t prices[MOST_RESTING_NUMBERS];
    size_t prices_len;
    uint64_t sizes[MOST_RESTING_NUMBERS];
    size_t sizes_len;
    uint64_t away;
    size_t fills_len;
    uint64_t settings[MOST_SETTINGS];
    size_t settings_len;
    uint64_t market[MOST_MARKET_VALUES];
    size_t market_len;
    struct opc_tally tally;
    /* Of a session: who asks, the limits of a start, and the session as it comes to the call. An
     * input has an order and a message for the calls after the first. */
    uint64_t login;
    uint64_t limits[MOST_LIMITS];
    size_t limits_len;
    uint64_t session[MOST_SESSION_NUMBERS];
    size_t session_len;
};

static inline bool is_message(const struct call *call) {
    return call->entry == CHECK_FIX || call->entry == CHECK_FIX_TALLIED ||
           call->entry == CHECK_FIX_SESSION;
}

static inline bool is_tallied(const struct call *call) {
    return call->entry == CHECK_ORDER_TALLIED || call->entry == CHECK_FIX_TALLIED;
}

/* How an input becomes a call of one entry. */
typedef void form(struct input *in, struct call *call);

#endif
