/*
 * An example host: makes orders of their parts, with shares or without, checks them through the
 * proved library, which counts them in a tally, and prints what it answers.
 */
#include "columns.h"
#include "option_price_check.h"

#include <inttypes.h>
#include <stdio.h>
#include <stdlib.h>

#define MOST_LEGS 4

/* Contracts of a series of root XYZ that expires on 15 January 2027. */
struct leg {
    int64_t count; /* positive to buy, negative to sell */
    uint64_t dollars;
    char option_type;
};

struct example {
    const char *about;
    size_t len;
    struct leg legs[MOST_LEGS];
    int64_t price;  /* in mills: positive is paid, negative received */
    int64_t shares; /* positive bought, negative sold */
};

#define BOX_SOLD                                                                                   \
    4, { {-1, 20, 'C'}, {1, 45, 'C'}, {1, 20, 'P'}, {-1, 45, 'P'}, }

static const struct example session[] = {
    {"vertical, paid for", 2, {{1, 20, 'C'}, {-1, 25, 'C'}}, 1500, 0},
    {"and received for", 2, {{1, 20, 'C'}, {-1, 25, 'C'}}, -1500, 0},
    {"box", BOX_SOLD, -24000, 0},
    {"above its worth", BOX_SOLD, -28000, 0},
    {"two sold for little", 2, {{-1, 45, 'C'}, {-1, 50, 'C'}}, -19, 0},
    {"put at its strike", 1, {{1, 18, 'P'}}, 18000, 0},
    {"one leg, price 0", 1, {{1, 18, 'P'}}, 0, 0},
    {"no leg", 0, {{0, 0, 0}}, 1000, 0},
    {"covered call", 1, {{-1, 45, 'C'}}, 28500, 100},
    {"both sold for little", 1, {{-1, 45, 'C'}}, -9, -100},
    {"too many shares", 1, {{-1, 45, 'C'}}, 28500, 1000001},
};

/* One more check can be counted, then none. */
static const struct opc_tally nearly_full = {999999, 199999, 600000, 200000};
static const struct example last_checks[] = {
    {"the last counted", BOX_SOLD, -24000, 0},
    {"the tally is full", BOX_SOLD, -24000, 0},
};

/* The bytes of an order's legs, as the library takes them. */
struct leg_bytes {
    uint8_t symbols[MOST_LEGS * OPC_SYMBOL_LENGTH];
    uint8_t counts[MOST_LEGS * OPC_COUNT_LENGTH];
};

static void write_leg(const struct leg *leg, uint8_t *symbol, uint8_t *count) {
    struct opc_symbol_parts parts = {
        .root = opc_root("XYZ"),
        .year = 2027,
        .month = 1,
        .day = 15,
        .option_type = (uint8_t)leg->option_type,
        .strike = leg->dollars * 1000,
    };
    uint64_t number;
    opc_write_symbol_parts(&parts, symbol, OPC_SYMBOL_LENGTH, &number);
    if (number != OPC_ACCEPTED) {
        fprintf(stderr, "orders: a leg has no symbol (number %" PRIu64 ")\n", number);
        exit(EXIT_FAILURE);
    }
    opc_write_count(leg->count, count);
}

/* A limit order with no flags; it points into the bytes. */
static struct opc_order order_of(const struct example *e, struct leg_bytes *bytes) {
    for (size_t i = 0; i < e->len; i++) {
        write_leg(&e->legs[i], bytes->symbols + i * OPC_SYMBOL_LENGTH,
                  bytes->counts + i * OPC_COUNT_LENGTH);
    }
    return (struct opc_order){
        .symbols = bytes->symbols,
        .symbols_len = e->len * OPC_SYMBOL_LENGTH,
        .counts = bytes->counts,
        .counts_len = e->len * OPC_COUNT_LENGTH,
        .price = e->price,
        .kind = OPC_KIND_LIMIT,
        .shares = e->shares,
    };
}

static void print_order(const struct example *e) {
    int width = 42;
    int64_t size = e->price < 0 ? -e->price : e->price;
    char price[32];
    printf("%-20s", e->about);
    for (size_t i = 0; i < e->len; i++) {
        width -= printf(" %+" PRId64 " %" PRIu64 "%c", e->legs[i].count, e->legs[i].dollars,
                        e->legs[i].option_type);
    }
    if (e->shares != 0) {
        width -= printf(" %+" PRId64 " shares", e->shares);
    }
    snprintf(price, sizeof price, "%s%" PRId64 ".%03" PRId64, e->price < 0 ? "-" : "", size / 1000,
             size % 1000);
    printf("%*s", width, price);
}

/* Each check is lent the tally that the one before left. */
static void check_all(const struct example *examples, size_t len, struct opc_tally tally) {
    const struct opc_settings settings = OPC_EXAMPLE_SETTINGS;
    const struct opc_market market = OPC_EMPTY_MARKET;
    for (size_t i = 0; i < len; i++) {
        struct leg_bytes bytes;
        struct opc_order order = order_of(&examples[i], &bytes);
        struct opc_answer answer = opc_answer_order_tallied(&order, &settings, &market, &tally);
        print_order(&examples[i]);
        print_answer(&answer);
        print_tally(&tally);
        printf("\n");
    }
}

int main(void) {
    const struct opc_tally fresh = OPC_FRESH_TALLY;
    printf("Orders, and the tally after each (root XYZ, 15 January 2027, dollars)\n");
    printf("%-20s %-35s%6s", "order", "legs, shares", "price");
    print_heading();
    printf("\n");
    check_all(session, COUNT(session), fresh);
    check_all(last_checks, COUNT(last_checks), nearly_full);
    return EXIT_SUCCESS;
}
