/*
 * The settings and the market that an order or a quote under test is checked against: other values
 * for a yes, other lengths, and all of them printed for the message of a failure; so too an order.
 */
#ifndef EXPECT_TERMS_H
#define EXPECT_TERMS_H

#include "made_orders.h"

/* Any value but 0 is yes. */
static inline void change_yes(uint64_t *flag) {
    if (*flag != 0) {
        *flag = between(1, UINT64_MAX - 1);
    }
}

static inline void change_flags(struct opc_settings *s, struct opc_market *m) {
    uint64_t *const flags[] = {&s->check_20,       &s->check_21,      &s->check_22,
                               &s->check_23,       &s->check_24,      &s->check_25,
                               &s->check_26,       &s->adjusted,      &s->european_index,
                               &m->open_elsewhere, &m->extended_hours};
    for (size_t i = 0; i < COUNT(flags); i++) {
        change_yes(flags[i]);
    }
}

/* Expects a check to give this number for the order or the quote `made`, as it is at the time. */
typedef void expect_given(void *made, uint64_t number, const char *what);

/* Slices of other lengths: refused as a value outside its limits is, the settings first. */
static inline void expect_lengths(expect_given *expect_made, void *made, size_t *settings_len,
                                  size_t *market_len) {
    for (size_t i = 0; i < OTHER_LENGTHS; i++) {
        *settings_len = other_settings[i];
        expect_made(made, OPC_BAD_SETTING, "settings of another length");
        *market_len = other_market[i];
        expect_made(made, OPC_BAD_SETTING, "settings and market of another length");
        *settings_len = OPC_SETTINGS_COUNT;
        expect_made(made, OPC_BAD_MARKET, "a market of another length");
        *market_len = OPC_MARKET_COUNT;
        expect_made(made, OPC_ACCEPTED, "settings and market of their lengths");
    }
}

static inline void print_numbers(const char *what, const uint64_t *numbers, size_t len) {
    fprintf(stderr, "  %s:", what);
    for (size_t i = 0; i < len; i++) {
        fprintf(stderr, " %" PRIu64, numbers[i]);
    }
    fprintf(stderr, "\n");
}

static inline void print_terms(const struct opc_settings *s, size_t settings_len,
                               const struct opc_market *m, size_t market_len) {
    uint64_t settings[OPC_SETTINGS_COUNT], market[OPC_MARKET_COUNT];
    memcpy(settings, s, sizeof settings);
    memcpy(market, m, sizeof market);
    print_numbers("settings", settings, COUNT(settings));
    print_numbers("market", market, COUNT(market));
    fprintf(stderr, "  lent: %zu of settings and %zu of market\n", settings_len, market_len);
}

/* Its legs and its own terms. */
static inline void print_order(const struct made_order *m) {
    const uint64_t flags[] = {m->kind, m->stop, m->manual, m->opening};
    fprintf(stderr, "  symbols: %.*s\n  counts:", (int)m->symbols_len, (const char *)m->symbols);
    for (size_t i = 0; i < m->counts_len; i++) {
        fprintf(stderr, "%s%02x", i % OPC_COUNT_LENGTH == 0 ? " " : "", m->counts[i]);
    }
    fprintf(stderr, "\n  price: %" PRId64 ", shares: %" PRId64 "\n", m->price, m->shares);
    print_numbers("kind, stop, manual, opening", flags, COUNT(flags));
}

#endif
