/* The second implementation, which fuzz/second builds from compare/. */
#ifndef SECOND_H
#define SECOND_H

#include "option_price_check.h"

uint64_t second_read_symbol(const uint8_t *symbol, size_t len, struct opc_symbol_parts *parts);
uint64_t second_write_symbol(const struct opc_symbol_parts *parts, uint8_t *out, size_t len,
                             uint64_t *number);

/* Settings and market, of any length. */
struct second_terms {
    const uint64_t *settings;
    size_t settings_len;
    const uint64_t *market;
    size_t market_len;
};

struct opc_answer second_check_order(const struct opc_order *order,
                                     const struct second_terms *terms);
struct opc_answer second_check_order_tallied(const struct opc_order *order,
                                             const struct second_terms *terms,
                                             struct opc_tally *tally);
struct opc_answer second_check_fix(const struct opc_fix *fix, const struct second_terms *terms);
struct opc_answer second_check_fix_tallied(const struct opc_fix *fix,
                                           const struct second_terms *terms,
                                           struct opc_tally *tally);
struct opc_pair_answer second_check_pair(const struct opc_pair *pair,
                                         const struct second_terms *terms);
struct opc_quote_answer second_check_quote(const struct opc_quote *quote,
                                           const struct second_terms *terms);

/* The answer to a crossing quote, its fills aside. */
struct second_crossing_answer {
    uint64_t number;
    uint64_t cancel;
    uint64_t executed;
    uint64_t booked;
    uint64_t cancelled;
};

struct second_crossing_answer second_check_crossing_quote(const struct opc_crossing_quote *crossing,
                                                          const struct second_terms *terms,
                                                          uint64_t *fills, size_t fills_len);

/* A session of any length, which a call may change. */
struct second_session {
    uint64_t *numbers;
    size_t len;
};

uint64_t second_start_session(const uint64_t *limits, size_t limits_len,
                              const struct second_session *session);
struct opc_answer second_check_order_session(uint64_t login, const struct opc_order *order,
                                             const struct second_terms *terms,
                                             const struct second_session *session);
struct opc_answer second_check_fix_session(uint64_t login, const struct opc_fix *fix,
                                           const struct second_terms *terms,
                                           const struct second_session *session);
uint64_t second_release_login(uint64_t login, const struct second_session *session);

/* Print a case for a reader, and the line that replays it; a tally is NULL where there is none. */
void second_print_order(const struct opc_order *order, const struct second_terms *terms,
                        const struct opc_tally *tally);
void second_print_fix(const struct opc_fix *fix, const struct second_terms *terms,
                      const struct opc_tally *tally);
void second_print_pair(const struct opc_pair *pair, const struct second_terms *terms);
void second_print_quote(const struct opc_quote *quote, const struct second_terms *terms);
void second_print_crossing_quote(const struct opc_crossing_quote *crossing,
                                 const struct second_terms *terms, size_t fills_len);
void second_print_start(const uint64_t *limits, size_t limits_len,
                        const struct second_session *session);
void second_print_order_session(uint64_t login, const struct opc_order *order,
                                const struct second_terms *terms,
                                const struct second_session *session);
void second_print_fix_session(uint64_t login, const struct opc_fix *fix,
                              const struct second_terms *terms,
                              const struct second_session *session);
void second_print_release(uint64_t login, const struct second_session *session);

/* Writes inputs to begin with, one file each. */
void second_write_seeds(const char *folder);

#endif
