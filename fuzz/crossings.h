/*
 * What rests against a crossing quote: lists around the quote's own price, sizes that come to its
 * own or nearly, then perhaps damaged. No rule is applied here. A list is made for a bid; that of
 * an offer is the same one in a mirror.
 */
#ifndef CROSSINGS_H
#define CROSSINGS_H

#include "call.h"

#define LARGEST_PRICE 1000000000
#define LARGEST_SIZE 1000000

/* A price as the side sees it that meets the list; one outside the limits stays as it is. */
static inline uint64_t seen_price(const struct call *call, uint64_t price) {
    bool is_within = price >= 1 && price <= LARGEST_PRICE;
    return call->sell != 0 && is_within ? LARGEST_PRICE + 1 - price : price;
}

static inline uint64_t within(uint64_t number, uint64_t most) {
    return number < 1 ? 1 : number > most ? most : number;
}

/* The quote's own price, as its side sees it. */
static inline uint64_t seen_own(const struct call *call) {
    return seen_price(call, within(call->sell != 0 ? call->offer : call->bid, LARGEST_PRICE));
}

/* Mostly few; else any, or about as many as there may be. */
static inline size_t shaped_resting_length(struct input *in) {
    static const size_t others[] = {
        0, 1, OPC_MAX_RESTING - 1, OPC_MAX_RESTING, OPC_MAX_RESTING, OPC_MAX_RESTING + 1};
    uint8_t byte = take(in);
    return byte < 144   ? 1 + byte % 6u
           : byte < 192 ? byte % (OPC_MAX_RESTING + 1u)
           : byte < 252 ? others[byte % 6]
                        : take(in) % (MOST_RESTING_NUMBERS - 1u);
}

/* Rising as the side sees them, some of them better than its own price. */
static inline void shaped_resting_prices(struct input *in, struct call *call) {
    static const uint64_t steps[] = {1, 1, 2, 10, 250};
    uint64_t own = seen_own(call);
    uint64_t step = PICK(in, steps);
    uint8_t byte = take(in);
    uint64_t better = byte < 176 ? byte % (call->prices_len + 2) : call->prices_len + 1;
    uint64_t apart = better * step;
    uint64_t price = (own > apart ? own - apart : 1) + take(in) % 2u;
    for (size_t i = 0; i < call->prices_len; i++) {
        call->prices[i] = seen_price(call, price);
        price += 1 + take(in) % step;
    }
}

static inline void shaped_sizes(struct input *in, struct call *call) {
    static const uint64_t units[] = {1, 1, 10, 1000, LARGEST_SIZE};
    uint64_t unit = PICK(in, units);
    uint64_t depth = 0;
    size_t last = take(in) % (call->prices_len + 1);
    call->sizes_len = call->prices_len;
    for (size_t i = 0; i < call->sizes_len; i++) {
        call->sizes[i] = within(unit * (1 + take(in) % 9u), LARGEST_SIZE);
        depth += i < last ? call->sizes[i] : 0;
    }
    uint8_t byte = take(in);
    uint64_t near[] = {depth, depth + 1, depth > 0 ? depth - 1 : 0, LARGEST_SIZE};
    call->size = within(near[byte % 4], LARGEST_SIZE);
}

/* Missing, at the quote's own price or at one that rests, or next to that; or any. */
static inline uint64_t shaped_away(struct input *in, const struct call *call) {
    uint8_t byte = take(in);
    uint64_t one = seen_own(call);
    if (byte < 72) {
        return 0;
    }
    if (byte >= 248) {
        return take_number(in, byte < 252 ? 4 : 8);
    }
    if (byte >= 144 && call->prices_len > 0) {
        one = seen_price(call, call->prices[take(in) % call->prices_len]);
    }
    return seen_price(call, within(one + byte % 3u - 1, LARGEST_PRICE));
}

static inline size_t shaped_fills_length(struct input *in, size_t right) {
    const size_t others[] = {right + 1, OPC_MAX_RESTING, right == 0 ? 0 : right - 1,
                             take(in) % (MOST_RESTING_NUMBERS - 1u)};
    uint8_t byte = take(in);
    return byte < 176 ? right : others[byte % 4];
}

/* Makes one thing of the list wrong, or perhaps just another. */
static inline void damage_resting(struct input *in, struct call *call) {
    static const uint64_t wrong[] = {0,
                                     1,
                                     LARGEST_SIZE,
                                     LARGEST_SIZE + 1,
                                     LARGEST_PRICE,
                                     LARGEST_PRICE + 1,
                                     UINT64_C(1) << 32 | 1,
                                     UINT64_C(1) << 63 | 1,
                                     UINT64_MAX};
    uint64_t *numbers[] = {call->prices, call->sizes};
    uint8_t kind = take(in);
    size_t n = call->prices_len == 0 ? 1 : call->prices_len;
    size_t place = kind < 64 ? 0 : kind < 128 ? n - 1 : take(in) % n;
    switch (kind % 6) {
    case 0:
        numbers[take(in) % 2][place] = PICK(in, wrong);
        break;
    case 1:
        call->prices[place] = call->prices[(place + 1) % n] + take(in) % 3u - 1;
        break;
    case 2:
        call->prices_len = (call->prices_len + take(in)) % MOST_RESTING_NUMBERS;
        break;
    case 3:
        call->sizes_len = (call->sizes_len + take(in)) % MOST_RESTING_NUMBERS;
        break;
    case 4:
        call->size = PICK(in, wrong);
        break;
    default:
        call->sell = call->sell == 0;
    }
}

/* Of a quote that has its prices and its side. */
static inline void shaped_resting(struct input *in, struct call *call) {
    call->prices_len = shaped_resting_length(in);
    shaped_resting_prices(in, call);
    shaped_sizes(in, call);
    call->away = shaped_away(in, call);
    call->fills_len = shaped_fills_length(in, call->prices_len);
    if (take(in) >= 216) {
        damage_resting(in, call);
    }
}

#endif
