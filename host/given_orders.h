/* An order for each number that the order check gives. */
#ifndef GIVEN_ORDERS_H
#define GIVEN_ORDERS_H

#include "made_orders.h"

static const uint64_t order_numbers[] = {
    OPC_ACCEPTED,           OPC_NOT_21_BYTES,  OPC_BAD_LEG_COUNT,      OPC_BAD_SYMBOL,
    OPC_BAD_COUNT,          OPC_SERIES_TWICE,  OPC_ROOTS_DIFFER,       OPC_BAD_PRICE,
    OPC_BAD_SHARES,         OPC_BAD_SETTING,   OPC_BAD_MARKET,         OPC_CHECK_PUT,
    OPC_CHECK_CALL,         OPC_CHECK_BUY_BUY, OPC_CHECK_DEBIT_CREDIT, OPC_CHECK_MAXIMUM_VALUE,
    OPC_CHECK_TICK_DISTANCE};

/* One market for all that are valid: a call is rejected by 21 before 25, a put by 25 alone. */
static inline struct made_order no_legs_quoted(void) {
    struct made_order m = no_legs();
    m.market.underlying = 1000;
    m.market.nbo = 949;
    return m;
}

static inline struct made_order one_leg(char option_type, int64_t price) {
    struct made_order m = no_legs_quoted();
    add_leg(&m, 270115, option_type, 20000, 1);
    m.price = price;
    return m;
}

static inline struct made_order two_calls(int64_t first, int64_t second, int64_t price) {
    struct made_order m = no_legs_quoted();
    add_leg(&m, 270115, 'C', 20000, first);
    add_leg(&m, 270115, 'C', 25000, second);
    m.price = price;
    return m;
}

static inline struct made_order damaged_order(uint64_t number) {
    struct made_order m = random_order(OPC_MOST_LEGS);
    damage(&m, number);
    return m;
}

/* An order that the order check gives this number, which is one of the above. */
static inline struct made_order order_given(uint64_t number) {
    switch (number) {
    case OPC_ACCEPTED:
        return two_calls(3, -3, 1000);
    case OPC_CHECK_PUT:
        return one_leg('P', 20000);
    case OPC_CHECK_CALL:
        return one_leg('C', 1000);
    case OPC_CHECK_BUY_BUY:
        return two_calls(1, 1, 19);
    case OPC_CHECK_DEBIT_CREDIT:
        return two_calls(3, -3, -1);
    case OPC_CHECK_MAXIMUM_VALUE:
        return two_calls(3, -3, 5151);
    case OPC_CHECK_TICK_DISTANCE:
        return one_leg('P', 1000);
    default:
        return damaged_order(number);
    }
}

#endif
