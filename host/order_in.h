/*
 * The order in a message, for what is said of its refusal. The library has judged the message
 * before, and gave it a number of its order, 3 to 8: so every field has its form, and nothing is
 * tested here.
 */
#ifndef ORDER_IN_H
#define ORDER_IN_H

#include "lines.h"
#include "option_price_check.h"

/* The order points to the bytes, which so are not to be copied; legs after the 16th have none. */
struct order_in {
    struct opc_order order;
    uint8_t symbols[OPC_MOST_LEGS * OPC_SYMBOL_LENGTH];
    uint8_t counts[OPC_MOST_LEGS * OPC_COUNT_LENGTH];
};

/* A symbol comes before its count. */
static inline void add_symbol(struct order_in *in, struct field value) {
    if (in->order.symbols_len < sizeof in->symbols) {
        memcpy(in->symbols + in->order.symbols_len, value.text, OPC_SYMBOL_LENGTH);
    }
    in->order.symbols_len += OPC_SYMBOL_LENGTH;
}

static inline void add_count(struct order_in *in, int64_t count) {
    if (in->order.counts_len < sizeof in->counts) {
        opc_write_count(count, in->counts + in->order.counts_len);
    }
    in->order.counts_len += OPC_COUNT_LENGTH;
}

/* Takes over a field; `size` is that of the count whose side comes next. */
static inline void take_over(struct order_in *in, struct field tag, struct field value,
                             uint64_t *size) {
    uint64_t mills;
    if (is(tag, "40")) {
        in->order.kind = is(value, "1") ? OPC_KIND_MARKET : OPC_KIND_LIMIT;
    } else if (is(tag, "44")) {
        char sign = sign_of(value);
        read_dollars(without(value, sign != 0), &mills);
        with_sign(sign, mills, &in->order.price);
    } else if (is(tag, "600")) {
        add_symbol(in, value);
    } else if (is(tag, "623")) {
        read_whole(value, size);
    } else if (is(tag, "624")) {
        add_count(in, is(value, "1") ? (int64_t)*size : -(int64_t)*size);
    }
}

static inline void read_order_in(const struct opc_fix *fix, struct order_in *in) {
    const char *at = (const char *)fix->message;
    const char *const message_end = at + fix->message_len;
    uint64_t size = 0;
    in->order = (struct opc_order){.symbols = in->symbols,
                                   .counts = in->counts,
                                   .stop = fix->stop,
                                   .manual = fix->manual,
                                   .opening = fix->opening};
    while (at < message_end) {
        const char *end = memchr(at, 1, (size_t)(message_end - at));
        const char *equals = memchr(at, '=', (size_t)(end - at));
        struct field tag = {at, (size_t)(equals - at)};
        struct field value = {equals + 1, (size_t)(end - equals) - 1};
        take_over(in, tag, value, &size);
        at = end + 1;
    }
}

#endif
