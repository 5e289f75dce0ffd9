/*
 * The raw form: lengths, bytes and numbers straight from the input, so that any value can arrive.
 * fuzz/second/src/seeds.rs writes this form.
 */
#ifndef RAW_H
#define RAW_H

#include "call.h"
#include "messages.h"

static inline void raw_legs(struct input *in, struct order *order) {
    order->symbols_len = (size_t)take_number(in, 2) % MOST_SYMBOL_BYTES;
    order->counts_len = take(in) % MOST_COUNT_BYTES;
    take_bytes(in, order->symbols, order->symbols_len);
    take_bytes(in, order->counts, order->counts_len);
}

static inline void raw_symbol(struct input *in, struct call *call) {
    call->order.symbols_len = take(in) % MOST_BYTES_OF_ONE;
    take_bytes(in, call->order.symbols, call->order.symbols_len);
}

/* Gives how many were taken. */
static inline size_t raw_numbers(struct input *in, uint64_t *numbers, size_t most) {
    size_t n = take(in) % most;
    for (size_t i = 0; i < n; i++) {
        numbers[i] = take_number(in, 8);
    }
    return n;
}

static inline void raw_settings_and_market(struct input *in, struct call *call) {
    call->settings_len = raw_numbers(in, call->settings, MOST_SETTINGS);
    call->market_len = raw_numbers(in, call->market, MOST_MARKET_VALUES);
}

static inline void raw_flags(struct input *in, struct order *order) {
    order->stop = take_number(in, 8);
    order->manual = take_number(in, 8);
    order->opening = take_number(in, 8);
}

static inline void raw_terms(struct input *in, struct call *call) {
    raw_settings_and_market(in, call);
    if (is_tallied(call)) {
        call->tally.seen = take_number(in, 8);
        call->tally.refused = take_number(in, 8);
        call->tally.accepted = take_number(in, 8);
        call->tally.rejected = take_number(in, 8);
    }
}

static inline void raw_one_order(struct input *in, struct order *order) {
    raw_legs(in, order);
    order->price = (int64_t)take_number(in, 8);
    order->kind = take_number(in, 8);
    raw_flags(in, order);
    order->shares = (int64_t)take_number(in, 8);
}

static inline void raw_order(struct input *in, struct call *call) {
    raw_one_order(in, &call->order);
    raw_terms(in, call);
}

static inline void raw_pair(struct input *in, struct call *call) {
    raw_one_order(in, &call->order);
    raw_one_order(in, &call->contra);
    call->continue_unpaired = take_number(in, 8);
    raw_settings_and_market(in, call);
}

/* The bytes are the message itself, or a body that a right frame is put around. */
static inline void raw_fix(struct input *in, struct call *call) {
    struct text body;
    bool is_body = take(in) % 2 == 1;
    body.len = (size_t)take_number(in, 2) % MOST_BODY_BYTES;
    take_bytes(in, body.bytes, body.len);
    if (is_body) {
        frame(call, &body, &right_frame);
    } else {
        call->message_len = body.len;
        memcpy(call->message, body.bytes, body.len);
    }
    raw_flags(in, &call->order);
    raw_terms(in, call);
}

/* A byte with the number of bytes before each, so that a session takes few. */
static inline void raw_short_numbers(struct input *in, uint64_t *numbers, size_t n) {
    for (size_t i = 0; i < n; i++) {
        numbers[i] = take_number(in, take(in) % 9u);
    }
}

/* Gives how many were taken. */
static inline size_t raw_short_list(struct input *in, uint64_t *numbers, size_t most) {
    size_t n = take(in) % most;
    raw_short_numbers(in, numbers, n);
    return n;
}

static inline void raw_in_session(struct input *in, struct call *call) {
    if (is_message(call)) {
        raw_fix(in, call);
    } else {
        raw_order(in, call);
    }
    call->login = take_number(in, 8);
    call->limits_len = raw_short_list(in, call->limits, MOST_LIMITS);
    call->session_len = (size_t)take_number(in, 2) % MOST_SESSION_NUMBERS;
    raw_short_numbers(in, call->session, call->session_len);
}

static inline void raw_quote(struct input *in, struct call *call) {
    raw_symbol(in, call);
    call->bid = take_number(in, 8);
    call->offer = take_number(in, 8);
    call->resting = take_number(in, 8);
    raw_settings_and_market(in, call);
}

static inline void raw_crossing_quote(struct input *in, struct call *call) {
    raw_quote(in, call);
    call->sell = take_number(in, 8);
    call->size = take_number(in, 8);
    call->away = take_number(in, 8);
    call->prices_len = raw_short_list(in, call->prices, MOST_RESTING_NUMBERS);
    call->sizes_len = raw_short_list(in, call->sizes, MOST_RESTING_NUMBERS);
    call->fills_len = take(in) % MOST_RESTING_NUMBERS;
}

static inline void raw_parts(struct input *in, struct call *call) {
    call->out_len = take(in) % MOST_BYTES_OF_ONE;
    call->parts.root = take_number(in, 8);
    call->parts.year = take_number(in, 8);
    call->parts.month = take_number(in, 8);
    call->parts.day = take_number(in, 8);
    call->parts.option_type = take_number(in, 8);
    call->parts.strike = take_number(in, 8);
}

static form *const raw_forms[ENTRIES] = {
    [READ_SYMBOL] = raw_symbol,
    [WRITE_SYMBOL] = raw_parts,
    [CHECK_ORDER] = raw_order,
    [CHECK_ORDER_TALLIED] = raw_order,
    [CHECK_FIX] = raw_fix,
    [CHECK_FIX_TALLIED] = raw_fix,
    [CHECK_PAIR] = raw_pair,
    [CHECK_QUOTE] = raw_quote,
    [CHECK_CROSSING] = raw_crossing_quote,
    [START_SESSION] = raw_in_session,
    [CHECK_ORDER_SESSION] = raw_in_session,
    [CHECK_FIX_SESSION] = raw_in_session,
    [RELEASE_LOGIN] = raw_in_session,
};

#endif
