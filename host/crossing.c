/*
 * An example host: asks the proved library what quotes would execute before they are sent, and
 * prints the fill of each resting offer or bid.
 */
#include "answers.h"
#include "option_price_check.h"

#include <inttypes.h>
#include <stdio.h>

/* In mills, with their sizes: offers rise, and the bids, about 1.20, fall. */
#define RESTING 5
static const uint64_t offers[RESTING] = {1200, 1210, 1220, 1230, 1240};
static const uint64_t bids[RESTING] = {1200, 1190, 1180, 1170, 1160};
static const uint64_t sizes[RESTING] = {10, 20, 10, 10, 10};

/* A quote for 100 contracts of one call; its list is one of the above. */
struct crossing_case {
    const char *about;
    uint64_t bid, offer, sell, away;
    uint64_t resting; /* whether one is already */
    uint64_t nbo;     /* 0 where it is missing */
    size_t len;       /* of the list */
};

static const struct crossing_case cases[] = {
    {"bid beyond away", 1240, 1300, 0, 1230, 0, 0, RESTING},
    {"bid below away", 1220, 1300, 0, 1230, 0, 0, RESTING},
    {"no away offer", 1240, 1300, 0, 0, 0, 0, RESTING},
    {"nothing resting", 1220, 1300, 0, 1230, 0, 0, 0},
    {"offer beyond away", 1100, 1160, 1, 1170, 0, 0, RESTING},
    {"offer above away", 1100, 1180, 1, 1170, 0, 0, RESTING},
    {"away price too large", 1240, 1300, 0, 1000000001, 1, 1200, RESTING},
    {"bid inverts the NBO", 1240, 1300, 0, 1230, 1, 1200, RESTING},
};

static struct opc_crossing_quote crossing_of(const struct crossing_case *c) {
    return (struct opc_crossing_quote){
        .quote = {.symbol = (const uint8_t *)"XYZ   270115C00020000",
                  .symbol_len = OPC_SYMBOL_LENGTH,
                  .bid = c->bid,
                  .offer = c->offer,
                  .resting = c->resting},
        .sell = c->sell,
        .size = 100,
        .prices = c->sell == 0 ? offers : bids,
        .prices_len = c->len,
        .sizes = sizes,
        .sizes_len = c->len,
        .away = c->away,
    };
}

/* An away price of 0 is missing. */
static void print_price(uint64_t price) {
    if (price == 0) {
        printf("  %11s", "-");
    } else {
        printf("  %7" PRIu64 ".%03" PRIu64, price / 1000, price % 1000);
    }
}

/* A fill beside its size, in the list's sequence. */
static void print_fills(const struct opc_crossing_quote *crossing,
                        const struct opc_crossing_answer *answer) {
    for (size_t i = 0; i < RESTING; i++) {
        if (i < crossing->prices_len) {
            printf("  %2" PRIu64 "/%2" PRIu64, answer->fills[i], crossing->sizes[i]);
        } else {
            printf("  %5s", "-");
        }
    }
}

static void show(const struct crossing_case *c) {
    struct opc_settings settings = OPC_EXAMPLE_SETTINGS;
    struct opc_market market = OPC_EMPTY_MARKET;
    struct opc_crossing_quote crossing = crossing_of(c);
    market.nbo = c->nbo;
    struct opc_crossing_answer a = opc_answer_crossing_quote(&crossing, &settings, &market);
    printf("%-20s  %-4s", c->about, c->sell == 0 ? "buy" : "sell");
    print_price(c->sell == 0 ? c->bid : c->offer);
    print_price(c->away);
    printf("  %2" PRIu64 " %-15s", a.number, number_name(a.number));
    print_fills(&crossing, &a);
    printf("  %8" PRIu64 "  %6" PRIu64 "  %9" PRIu64 "  %" PRIu64 " %s\n", a.executed, a.booked,
           a.cancelled, a.cancel, a.cancel == 0 ? "no" : "yes");
}

int main(void) {
    printf("Crossing quotes for 100 (prices in dollars; offers 10 at 1.20, 20 at 1.21, 10 at 1.22, "
           "10 at 1.23, 10 at 1.24,\nor bids of the same sizes at 1.20, 1.19, 1.18, 1.17, 1.16; a "
           "fill of its size for each)\n");
    printf("%-20s  %-4s  %11s  %11s  %-18s  %5s  %5s  %5s  %5s  %5s  %8s  %6s  %9s  %s\n", "case",
           "side", "price", "away", "number", "1st", "2nd", "3rd", "4th", "5th", "executed",
           "booked", "cancelled", "cancel");
    for (size_t i = 0; i < COUNT(cases); i++) {
        show(&cases[i]);
    }
    return 0;
}
