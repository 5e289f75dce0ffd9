/*
 * An example host: checks quotes through the proved library, one for each number that a quote can
 * get, and prints what it answers.
 */
#include "answers.h"
#include "option_price_check.h"

#include <inttypes.h>
#include <stdio.h>
#include <string.h>

/* What a case gives beside the quote; all else is document 01's example settings, and missing. */
struct given {
    uint64_t set_ticks, phase, underlying, nbo, own_offer;
};

static const struct given nothing = {4, OPC_PHASE_OPEN, 0, 0, 0};
static const struct given ticks_1001 = {1001, OPC_PHASE_OPEN, 0, 0, 0};
static const struct given phase_3 = {4, 3, 0, 0, 0};
static const struct given underlying_10 = {4, OPC_PHASE_OPEN, 10000, 0, 0};
/* Where the own offer equals the NBO, a bid may be above it by the set ticks, four of 0.01. */
static const struct given offers_1_20 = {4, OPC_PHASE_OPEN, 0, 1200, 1200};

struct quote_case {
    const char *about;
    const struct given *given;
    const char *symbol;
    uint64_t bid, offer, resting;
};

static const struct quote_case cases[] = {
    {"NBO, own offer 1.20", &offers_1_20, "XYZ   270115C00020000", 1240, 1300, 1},
    {"20 bytes", &nothing, "XYZ   270115C0002000", 1000, 1100, 1},
    {"strike 0", &nothing, "XYZ   270115C00000000", 1000, 1100, 1},
    {"set ticks 1001", &ticks_1001, "XYZ   270115C00020000", 1000, 1100, 1},
    {"phase 3", &phase_3, "XYZ   270115C00020000", 1000, 1100, 1},
    {"bid at the offer", &nothing, "XYZ   270115C00020000", 1100, 1100, 1},
    {"bid at the strike", &nothing, "XYZ   270115P00018000", 18000, 18100, 1},
    {"underlying 10", &underlying_10, "XYZ   270115C00005000", 10000, 10100, 0},
    {"NBO, own offer 1.20", &offers_1_20, "XYZ   270115C00020000", 1241, 1300, 1},
};

static struct opc_quote_answer answer_to(const struct quote_case *c) {
    struct opc_quote quote = {
        .symbol = (const uint8_t *)c->symbol,
        .symbol_len = strlen(c->symbol),
        .bid = c->bid,
        .offer = c->offer,
        .resting = c->resting,
    };
    struct opc_settings settings = OPC_EXAMPLE_SETTINGS;
    struct opc_market market = OPC_EMPTY_MARKET;
    settings.set_ticks = c->given->set_ticks;
    market.phase = c->given->phase;
    market.underlying = c->given->underlying;
    market.nbo = c->given->nbo;
    market.own_offer = c->given->own_offer;
    return opc_answer_quote(&quote, &settings, &market);
}

static void print_price(uint64_t price) {
    printf("  %3" PRIu64 ".%03" PRIu64, price / 1000, price % 1000);
}

static void show(const struct quote_case *c) {
    struct opc_quote_answer a = answer_to(c);
    printf("%-19s  %-21s", c->about, c->symbol);
    print_price(c->bid);
    print_price(c->offer);
    printf("  %-7s", c->resting == 0 ? "no" : "yes");
    printf("  %2" PRIu64 " %-15s", a.number, number_name(a.number));
    printf("  %" PRIu64 " %s\n", a.cancel, a.cancel == 0 ? "no" : "yes");
}

int main(void) {
    printf("Quotes (bid and offer in dollars)\n");
    printf("%-19s  %-21s  %7s  %7s  %-7s  %-18s  %s\n", "case", "symbol", "bid", "offer", "resting",
           "number", "cancel");
    for (size_t i = 0; i < COUNT(cases); i++) {
        show(&cases[i]);
    }
    return 0;
}
