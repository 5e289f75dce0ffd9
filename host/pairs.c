/*
 * An example host: checks auction pairs through the proved library, an agency order and its contra
 * order together, and prints what it answers of each.
 */
#include "answers.h"
#include "option_price_check.h"

#include <inttypes.h>
#include <stdio.h>
#include <string.h>

#define LEGS 2

/* An order for two series of root XYZ that expire on 15 January 2027. */
struct side {
    const char *symbols;  /* end to end */
    int64_t counts[LEGS]; /* positive to buy, negative to sell */
    int64_t price;        /* in mills: positive is paid, negative received */
};

#define CALL_20 "XYZ   270115C00020000"
#define CALL_25 "XYZ   270115C00025000"

static const struct side bought = {CALL_20 CALL_25, {1, -1}, 1500};
static const struct side sold = {CALL_20 CALL_25, {-1, 1}, -1500};
static const struct side sold_reversed = {CALL_25 CALL_20, {1, -1}, -1500};
/* Whoever sells the lower strike is to be paid: here it pays. */
static const struct side sold_and_paid = {CALL_20 CALL_25, {-1, 1}, 1500};
static const struct side none_sold = {CALL_20 CALL_25, {0, 1}, -1500};

struct example {
    const char *about;
    const struct side *agency, *contra;
    uint64_t continue_unpaired;
};

static const struct example examples[] = {
    {"a vertical, crossed", &bought, &sold, 0},
    {"and legs exchanged", &bought, &sold_reversed, 0},
    {"contra order rejected", &bought, &sold_and_paid, 0},
    {"and marked", &bought, &sold_and_paid, 1},
    {"contra order refused", &bought, &none_sold, 0},
    {"and marked", &bought, &none_sold, 1},
    {"agency order rejected", &sold_and_paid, &bought, 1},
};

/* The counts of an order's legs, as the library takes them. */
struct count_bytes {
    uint8_t counts[LEGS * OPC_COUNT_LENGTH];
};

/* A limit order with no flags; it points into the side and the bytes. */
static struct opc_order order_of(const struct side *s, struct count_bytes *bytes) {
    for (size_t i = 0; i < LEGS; i++) {
        opc_write_count(s->counts[i], bytes->counts + i * OPC_COUNT_LENGTH);
    }
    return (struct opc_order){
        .symbols = (const uint8_t *)s->symbols,
        .symbols_len = strlen(s->symbols),
        .counts = bytes->counts,
        .counts_len = sizeof bytes->counts,
        .price = s->price,
        .kind = OPC_KIND_LIMIT,
    };
}

static struct opc_pair_answer answer_to(const struct example *e) {
    const struct opc_settings settings = OPC_EXAMPLE_SETTINGS;
    const struct opc_market market = OPC_EMPTY_MARKET;
    struct count_bytes agency, contra;
    const struct opc_pair pair = {
        .agency = order_of(e->agency, &agency),
        .contra = order_of(e->contra, &contra),
        .continue_unpaired = e->continue_unpaired,
    };
    return opc_answer_pair(&pair, &settings, &market);
}

static void print_side(const char *name, const struct side *s, uint64_t number, uint64_t passes) {
    int64_t size = s->price < 0 ? -s->price : s->price;
    printf("  %-6s", name);
    for (size_t i = 0; i < LEGS; i++) {
        printf("  %+" PRId64 " %.*s", s->counts[i], OPC_SYMBOL_LENGTH,
               s->symbols + i * OPC_SYMBOL_LENGTH);
    }
    printf("  %2s%" PRId64 ".%03" PRId64, s->price < 0 ? "-" : "", size / 1000, size % 1000);
    printf("  %2" PRIu64 " %-12s", number, number_name(number));
    printf("  %" PRIu64 " %s\n", passes, passes == 0 ? "no" : "yes");
}

static void show(const struct example *e) {
    struct opc_pair_answer a = answer_to(e);
    printf("%-21s  %-6s", e->about, e->continue_unpaired == 0 ? "no" : "yes");
    print_side("agency", e->agency, a.agency_number, a.agency_passes);
    printf("%-21s  %-6s", "", "");
    print_side("contra", e->contra, a.contra_number, a.contra_passes);
}

int main(void) {
    printf("Pairs (marked to continue unpaired or not; prices in dollars)\n");
    printf("%-21s  %-6s  %-6s  %-50s  %7s  %-15s  %s\n", "pair", "marked", "order", "legs", "price",
           "number", "passes");
    for (size_t i = 0; i < COUNT(examples); i++) {
        show(&examples[i]);
    }
    return 0;
}
