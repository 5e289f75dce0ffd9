/*
 * Holds the inline wrappers of the checks to the sequence of the entries' arguments. The entries
 * here are not the library's: each keeps what it is given and answers what it is told, so a value
 * that a wrapper carries to a wrong place is seen whatever a check would make of it. Exit status 1
 * and a message on the first failure, one line with the number of checks otherwise.
 */
#include "answers.h"
#include "count.h"
#include "expect.h"
#include "option_price_check.h"

#include <string.h>

#define ROUNDS 1000
#define TERMS 6

static const char *const test_name = "test_arguments";

struct slice {
    const void *at;
    size_t len;
};

/*
 * What an entry was given last; of a message its flags, and of a quote bid, offer and resting, are
 * the first three terms, of a crossing quote sell, size and away the others. The agency order of a
 * pair is kept as an order.
 */
static struct {
    struct slice symbols, counts, message, settings, market, limits, session;
    struct slice prices, sizes;
    size_t fills_len;
    uint64_t login;
    uint64_t terms[TERMS];
    struct opc_tally tally;
    struct slice contra_symbols, contra_counts;
    uint64_t contra_terms[TERMS];
    uint64_t continue_unpaired;
} given;

/* What it answers. */
static struct {
    struct opc_answer answer;
    struct opc_tally tally;
    struct opc_pair_answer pair;
    struct opc_quote_answer quote;
    struct opc_crossing_answer crossing;
} told;

/* The values are arbitrary: `what` says all that there is to say of a failure. */
static void print_tried(void) {}

/* Keeps what every check is given last. */
static void take_terms(const uint64_t *settings, size_t settings_len, const uint64_t *market,
                       size_t market_len, const uint64_t terms[TERMS]) {
    given.settings = (struct slice){settings, settings_len};
    given.market = (struct slice){market, market_len};
    memcpy(given.terms, terms, sizeof given.terms);
}

static uint64_t give_answer(uint64_t *class_, uint64_t *shape, uint64_t *pairings) {
    *class_ = told.answer.class_;
    *shape = told.answer.shape;
    *pairings = told.answer.pairings;
    return told.answer.number;
}

static void exchange_tally(uint64_t *seen, uint64_t *refused, uint64_t *accepted,
                           uint64_t *rejected) {
    given.tally = (struct opc_tally){*seen, *refused, *accepted, *rejected};
    *seen = told.tally.seen;
    *refused = told.tally.refused;
    *accepted = told.tally.accepted;
    *rejected = told.tally.rejected;
}

uint64_t opc_check_order(const uint8_t *symbols, size_t symbols_len, const uint8_t *counts,
                         size_t counts_len, int64_t price, uint64_t kind, uint64_t stop,
                         uint64_t manual, uint64_t opening, int64_t shares,
                         const uint64_t *settings, size_t settings_len, const uint64_t *market,
                         size_t market_len, uint64_t *class_, uint64_t *shape, uint64_t *pairings) {
    const uint64_t terms[TERMS] = {(uint64_t)price, kind, stop, manual, opening, (uint64_t)shares};
    given.symbols = (struct slice){symbols, symbols_len};
    given.counts = (struct slice){counts, counts_len};
    take_terms(settings, settings_len, market, market_len, terms);
    return give_answer(class_, shape, pairings);
}

uint64_t opc_check_order_tallied(const uint8_t *symbols, size_t symbols_len, const uint8_t *counts,
                                 size_t counts_len, int64_t price, uint64_t kind, uint64_t stop,
                                 uint64_t manual, uint64_t opening, int64_t shares,
                                 const uint64_t *settings, size_t settings_len,
                                 const uint64_t *market, size_t market_len, uint64_t *class_,
                                 uint64_t *shape, uint64_t *pairings, uint64_t *seen,
                                 uint64_t *refused, uint64_t *accepted, uint64_t *rejected) {
    exchange_tally(seen, refused, accepted, rejected);
    return opc_check_order(symbols, symbols_len, counts, counts_len, price, kind, stop, manual,
                           opening, shares, settings, settings_len, market, market_len, class_,
                           shape, pairings);
}

uint64_t opc_check_fix(const uint8_t *message, size_t message_len, uint64_t stop, uint64_t manual,
                       uint64_t opening, const uint64_t *settings, size_t settings_len,
                       const uint64_t *market, size_t market_len, uint64_t *class_, uint64_t *shape,
                       uint64_t *pairings) {
    const uint64_t terms[TERMS] = {stop, manual, opening};
    given.message = (struct slice){message, message_len};
    take_terms(settings, settings_len, market, market_len, terms);
    return give_answer(class_, shape, pairings);
}

uint64_t opc_check_fix_tallied(const uint8_t *message, size_t message_len, uint64_t stop,
                               uint64_t manual, uint64_t opening, const uint64_t *settings,
                               size_t settings_len, const uint64_t *market, size_t market_len,
                               uint64_t *class_, uint64_t *shape, uint64_t *pairings,
                               uint64_t *seen, uint64_t *refused, uint64_t *accepted,
                               uint64_t *rejected) {
    exchange_tally(seen, refused, accepted, rejected);
    return opc_check_fix(message, message_len, stop, manual, opening, settings, settings_len,
                         market, market_len, class_, shape, pairings);
}

uint64_t opc_start_session(const uint64_t *limits, size_t limits_len, uint64_t *session,
                           size_t session_len) {
    given.limits = (struct slice){limits, limits_len};
    given.session = (struct slice){session, session_len};
    return told.answer.number;
}

/* Keeps whose call it is, and in which session. */
static void take_login(uint64_t login, const uint64_t *session, size_t session_len) {
    given.login = login;
    given.session = (struct slice){session, session_len};
}

uint64_t opc_check_order_session(uint64_t login, const uint8_t *symbols, size_t symbols_len,
                                 const uint8_t *counts, size_t counts_len, int64_t price,
                                 uint64_t kind, uint64_t stop, uint64_t manual, uint64_t opening,
                                 int64_t shares, const uint64_t *settings, size_t settings_len,
                                 const uint64_t *market, size_t market_len, uint64_t *session,
                                 size_t session_len, uint64_t *class_, uint64_t *shape,
                                 uint64_t *pairings) {
    take_login(login, session, session_len);
    return opc_check_order(symbols, symbols_len, counts, counts_len, price, kind, stop, manual,
                           opening, shares, settings, settings_len, market, market_len, class_,
                           shape, pairings);
}

uint64_t opc_check_fix_session(uint64_t login, const uint8_t *message, size_t message_len,
                               uint64_t stop, uint64_t manual, uint64_t opening,
                               const uint64_t *settings, size_t settings_len,
                               const uint64_t *market, size_t market_len, uint64_t *session,
                               size_t session_len, uint64_t *class_, uint64_t *shape,
                               uint64_t *pairings) {
    take_login(login, session, session_len);
    return opc_check_fix(message, message_len, stop, manual, opening, settings, settings_len,
                         market, market_len, class_, shape, pairings);
}

uint64_t opc_release_login(uint64_t login, uint64_t *session, size_t session_len) {
    take_login(login, session, session_len);
    return told.answer.number;
}

uint64_t opc_check_pair(const uint8_t *agency_symbols, size_t agency_symbols_len,
                        const uint8_t *agency_counts, size_t agency_counts_len,
                        int64_t agency_price, uint64_t agency_kind, uint64_t agency_stop,
                        uint64_t agency_manual, uint64_t agency_opening, int64_t agency_shares,
                        const uint8_t *contra_symbols, size_t contra_symbols_len,
                        const uint8_t *contra_counts, size_t contra_counts_len,
                        int64_t contra_price, uint64_t contra_kind, uint64_t contra_stop,
                        uint64_t contra_manual, uint64_t contra_opening, int64_t contra_shares,
                        uint64_t continue_unpaired, const uint64_t *settings, size_t settings_len,
                        const uint64_t *market, size_t market_len, uint64_t *contra_number,
                        uint64_t *agency_passes, uint64_t *contra_passes) {
    const uint64_t terms[TERMS] = {(uint64_t)agency_price, agency_kind,    agency_stop,
                                   agency_manual,          agency_opening, (uint64_t)agency_shares};
    const uint64_t contra_terms[TERMS] = {
        (uint64_t)contra_price, contra_kind,    contra_stop,
        contra_manual,          contra_opening, (uint64_t)contra_shares};
    given.symbols = (struct slice){agency_symbols, agency_symbols_len};
    given.counts = (struct slice){agency_counts, agency_counts_len};
    given.contra_symbols = (struct slice){contra_symbols, contra_symbols_len};
    given.contra_counts = (struct slice){contra_counts, contra_counts_len};
    memcpy(given.contra_terms, contra_terms, sizeof given.contra_terms);
    given.continue_unpaired = continue_unpaired;
    take_terms(settings, settings_len, market, market_len, terms);
    *contra_number = told.pair.contra_number;
    *agency_passes = told.pair.agency_passes;
    *contra_passes = told.pair.contra_passes;
    return told.pair.agency_number;
}

uint64_t opc_check_quote(const uint8_t *symbol, size_t symbol_len, uint64_t bid, uint64_t offer,
                         uint64_t resting, const uint64_t *settings, size_t settings_len,
                         const uint64_t *market, size_t market_len, uint64_t *cancel) {
    const uint64_t terms[TERMS] = {bid, offer, resting};
    given.symbols = (struct slice){symbol, symbol_len};
    take_terms(settings, settings_len, market, market_len, terms);
    *cancel = told.quote.cancel;
    return told.quote.number;
}

/* The fills have no place but the answer's: what is written to them is seen there. */
uint64_t opc_check_crossing_quote(const uint8_t *symbol, size_t symbol_len, uint64_t bid,
                                  uint64_t offer, uint64_t resting, uint64_t sell, uint64_t size,
                                  const uint64_t *prices, size_t prices_len, const uint64_t *sizes,
                                  size_t sizes_len, uint64_t away, const uint64_t *settings,
                                  size_t settings_len, const uint64_t *market, size_t market_len,
                                  uint64_t *fills, size_t fills_len, uint64_t *cancel,
                                  uint64_t *executed, uint64_t *booked, uint64_t *cancelled) {
    const uint64_t terms[TERMS] = {bid, offer, resting, sell, size, away};
    given.symbols = (struct slice){symbol, symbol_len};
    given.prices = (struct slice){prices, prices_len};
    given.sizes = (struct slice){sizes, sizes_len};
    given.fills_len = fills_len;
    take_terms(settings, settings_len, market, market_len, terms);
    memcpy(fills, told.crossing.fills, sizeof told.crossing.fills);
    *cancel = told.crossing.cancel;
    *executed = told.crossing.executed;
    *booked = told.crossing.booked;
    *cancelled = told.crossing.cancelled;
    return told.crossing.number;
}

/* Values that do not repeat: a step of an odd constant through all 64 bits. */
static uint64_t next_value(void) {
    static uint64_t value = 20151117;
    return value += 0x9e3779b97f4a7c15;
}

static void fill(uint64_t *values, size_t len) {
    for (size_t i = 0; i < len; i++) {
        values[i] = next_value();
    }
}

/* Values for every argument of a check, and the structs that carry them. */
static struct {
    uint8_t symbols[OPC_SYMBOL_LENGTH], counts[OPC_COUNT_LENGTH];
    uint64_t terms[TERMS];
    struct opc_order order;
    struct opc_settings settings;
    struct opc_market market;
} sent;

static void make_sent(void) {
    fill(sent.terms, TERMS);
    sent.order = (struct opc_order){
        .symbols = sent.symbols,
        .symbols_len = next_value(),
        .counts = sent.counts,
        .counts_len = next_value(),
        .price = (int64_t)sent.terms[0],
        .kind = sent.terms[1],
        .stop = sent.terms[2],
        .manual = sent.terms[3],
        .opening = sent.terms[4],
        .shares = (int64_t)sent.terms[5],
    };
    memset(&given, 0, sizeof given);
    fill((uint64_t *)&told, sizeof told / sizeof(uint64_t));
}

static void expect_slice(struct slice arrived, const void *at, size_t len, const char *what) {
    expect(arrived.at == at && arrived.len == len, what);
}

/* The structs themselves are the slices. */
static void expect_settings_and_market(void) {
    expect_slice(given.settings, &sent.settings, OPC_SETTINGS_COUNT, "the settings");
    expect_slice(given.market, &sent.market, OPC_MARKET_COUNT, "the market");
}

static void expect_order_arrived(void) {
    expect_slice(given.symbols, sent.symbols, sent.order.symbols_len, "the symbols");
    expect_slice(given.counts, sent.counts, sent.order.counts_len, "the counts");
    expect(memcmp(given.terms, sent.terms, sizeof given.terms) == 0,
           "price, kind, flags and shares");
    expect_settings_and_market();
}

static void expect_order_answered(const struct opc_answer *answer) {
    expect_order_arrived();
    expect(same_answer(answer, &told.answer), "the answer");
}

static void test_order_wrapper(void) {
    make_sent();
    struct opc_answer answer = opc_answer_order(&sent.order, &sent.settings, &sent.market);
    expect_order_answered(&answer);
}

static struct opc_tally next_tally(void) {
    return (struct opc_tally){.seen = next_value(),
                              .refused = next_value(),
                              .accepted = next_value(),
                              .rejected = next_value()};
}

static void expect_tally_exchanged(const struct opc_tally *before, const struct opc_tally *after) {
    expect(same_tally(&given.tally, before), "the tally as it arrives");
    expect(same_tally(after, &told.tally), "the tally as it comes back");
}

static void test_tallied_wrapper(void) {
    make_sent();
    struct opc_tally before = next_tally(), tally = before;
    struct opc_answer answer =
        opc_answer_order_tallied(&sent.order, &sent.settings, &sent.market, &tally);
    expect_order_answered(&answer);
    expect_tally_exchanged(&before, &tally);
}

/* Values for a message, beside those of an order. */
static struct opc_fix next_fix(void) {
    make_sent();
    return (struct opc_fix){.message = sent.symbols,
                            .message_len = next_value(),
                            .stop = sent.terms[0],
                            .manual = sent.terms[1],
                            .opening = sent.terms[2]};
}

static void expect_fix_arrived(const struct opc_fix *fix, const struct opc_answer *answer) {
    const uint64_t terms[TERMS] = {fix->stop, fix->manual, fix->opening};
    expect_slice(given.message, fix->message, fix->message_len, "the message");
    expect(memcmp(given.terms, terms, sizeof given.terms) == 0, "the flags of a message");
    expect_settings_and_market();
    expect(same_answer(answer, &told.answer), "the answer to a message");
}

static void test_fix_wrapper(void) {
    struct opc_fix fix = next_fix();
    struct opc_answer answer = opc_answer_fix(&fix, &sent.settings, &sent.market);
    expect_fix_arrived(&fix, &answer);
}

static void test_fix_tallied_wrapper(void) {
    struct opc_fix fix = next_fix();
    struct opc_tally before = next_tally(), tally = before;
    struct opc_answer answer = opc_answer_fix_tallied(&fix, &sent.settings, &sent.market, &tally);
    expect_fix_arrived(&fix, &answer);
    expect_tally_exchanged(&before, &tally);
}

/* The session itself is lent, with nothing of it changed on the way. */
static void expect_login_arrived(uint64_t login, const struct opc_session *session) {
    expect(given.login == login, "the login");
    expect_slice(given.session, session, OPC_SESSION_COUNT, "the session");
}

static void test_session_wrappers(void) {
    static struct opc_session session;
    make_sent();
    uint64_t login = next_value();
    struct opc_answer answer =
        opc_answer_order_session(login, &sent.order, &sent.settings, &sent.market, &session);
    expect_order_answered(&answer);
    expect_login_arrived(login, &session);
    struct opc_fix fix = next_fix();
    login = next_value();
    answer = opc_answer_fix_session(login, &fix, &sent.settings, &sent.market, &session);
    expect_fix_arrived(&fix, &answer);
    expect_login_arrived(login, &session);
}

static void test_start_and_release_wrappers(void) {
    static struct opc_session session;
    static uint64_t limits[OPC_LOGINS];
    make_sent();
    expect(opc_answer_start(limits, &session) == told.answer.number, "the number of a start");
    expect_slice(given.limits, limits, OPC_LOGINS, "the limits");
    expect_slice(given.session, &session, OPC_SESSION_COUNT, "the session of a start");
    make_sent();
    uint64_t login = next_value();
    expect(opc_answer_release(login, &session) == told.answer.number, "the number of a release");
    expect_login_arrived(login, &session);
}

/* A contra order of other values than the order that was sent. */
static void test_pair_wrapper(void) {
    static uint8_t symbols[OPC_SYMBOL_LENGTH], counts[OPC_COUNT_LENGTH];
    make_sent();
    uint64_t terms[TERMS];
    fill(terms, TERMS);
    const struct opc_order contra = {.symbols = symbols,
                                     .symbols_len = next_value(),
                                     .counts = counts,
                                     .counts_len = next_value(),
                                     .price = (int64_t)terms[0],
                                     .kind = terms[1],
                                     .stop = terms[2],
                                     .manual = terms[3],
                                     .opening = terms[4],
                                     .shares = (int64_t)terms[5]};
    const struct opc_pair pair = {
        .agency = sent.order, .contra = contra, .continue_unpaired = next_value()};
    struct opc_pair_answer answer = opc_answer_pair(&pair, &sent.settings, &sent.market);
    expect_order_arrived();
    expect_slice(given.contra_symbols, symbols, contra.symbols_len, "the contra order's symbols");
    expect_slice(given.contra_counts, counts, contra.counts_len, "the contra order's counts");
    expect(memcmp(given.contra_terms, terms, sizeof terms) == 0, "the contra order's terms");
    expect(given.continue_unpaired == pair.continue_unpaired, "the mark");
    expect(same_pair_answer(&answer, &told.pair), "the answer to a pair");
}

static void test_quote_wrapper(void) {
    make_sent();
    const uint64_t terms[TERMS] = {next_value(), next_value(), next_value()};
    const struct opc_quote quote = {.symbol = sent.symbols,
                                    .symbol_len = next_value(),
                                    .bid = terms[0],
                                    .offer = terms[1],
                                    .resting = terms[2]};
    struct opc_quote_answer answer = opc_answer_quote(&quote, &sent.settings, &sent.market);
    expect_slice(given.symbols, sent.symbols, quote.symbol_len, "the symbol");
    expect(memcmp(given.terms, terms, sizeof terms) == 0, "bid, offer and resting");
    expect_settings_and_market();
    expect(answer.number == told.quote.number, "the number");
    expect(answer.cancel == told.quote.cancel, "the cancel flag");
}

static void test_crossing_wrapper(void) {
    static const uint64_t prices[1], sizes[1];
    make_sent();
    const struct opc_crossing_quote crossing = {.quote = {.symbol = sent.symbols,
                                                          .symbol_len = next_value(),
                                                          .bid = sent.terms[0],
                                                          .offer = sent.terms[1],
                                                          .resting = sent.terms[2]},
                                                .sell = sent.terms[3],
                                                .size = sent.terms[4],
                                                .prices = prices,
                                                .prices_len = next_value(),
                                                .sizes = sizes,
                                                .sizes_len = next_value(),
                                                .away = sent.terms[5]};
    struct opc_crossing_answer answer =
        opc_answer_crossing_quote(&crossing, &sent.settings, &sent.market);
    expect_slice(given.symbols, sent.symbols, crossing.quote.symbol_len, "the symbol");
    expect_slice(given.prices, prices, crossing.prices_len, "the prices");
    expect_slice(given.sizes, sizes, crossing.sizes_len, "the sizes");
    expect(memcmp(given.terms, sent.terms, sizeof given.terms) == 0,
           "bid, offer, resting, sell, size and away");
    expect_settings_and_market();
    expect(given.fills_len == OPC_MAX_RESTING, "the number of fills");
    expect(memcmp(&answer, &told.crossing, sizeof answer) == 0, "the answer to a crossing quote");
}

/* The initializers, value by value in the slices' sequence. */
static void test_initializers(void) {
    static const uint64_t setting[OPC_SETTINGS_COUNT] = {1, 1, 1, 1, 1,   1, 1,   10, 10, 10,
                                                         5, 5, 5, 5, 300, 0, 600, 4,  0,  0};
    static const uint64_t value[OPC_MARKET_COUNT] = {1, 0, 0, 0, 0, 0, 0, 0, 0};
    const struct opc_settings settings = OPC_EXAMPLE_SETTINGS;
    const struct opc_market market = OPC_EMPTY_MARKET;
    expect(memcmp(&settings, setting, sizeof setting) == 0, "the example settings");
    expect(memcmp(&market, value, sizeof value) == 0, "the empty market");
    static const struct opc_tally zeros;
    const struct opc_tally fresh = OPC_FRESH_TALLY;
    expect(same_tally(&fresh, &zeros), "the fresh tally");
}

/* A session's numbers, one by one, are the fields of its logins in their sequence. */
static void test_session_numbers(void) {
    struct opc_session session;
    uint64_t numbers[OPC_SESSION_COUNT];
    fill(numbers, OPC_SESSION_COUNT);
    memcpy(&session, numbers, sizeof session);
    for (size_t i = 0; i < OPC_LOGINS; i++) {
        const uint64_t *row = numbers + 6 * i;
        const struct opc_login *login = &session.logins[i];
        const struct opc_tally tally = {row[1], row[2], row[3], row[4]};
        expect(login->limit == row[0], "the place of a login's limit");
        expect(same_tally(&login->tally, &tally), "the place of a login's tally");
        expect(login->running == row[5], "the place of a login's running number");
    }
}

/* At the limit or above it; whatever the tally. */
static void test_restricted(void) {
    static const struct {
        uint64_t limit, running;
        bool is_restricted;
    } cases[] = {{1, 0, false},        {1, 1, true},         {1, 2, true},
                 {10000, 9999, false}, {10000, 10000, true}, {UINT64_MAX, 0, false},
                 {1, UINT64_MAX, true}};
    for (size_t i = 0; i < COUNT(cases); i++) {
        const struct opc_login login = {
            .limit = cases[i].limit, .tally = next_tally(), .running = cases[i].running};
        expect((opc_is_restricted(&login) != 0) == cases[i].is_restricted, "restricted or not");
    }
}

static void test_counts(void) {
    static const struct {
        int64_t count;
        uint8_t bytes[OPC_COUNT_LENGTH];
    } cases[] = {
        {0, {0, 0, 0, 0, 0, 0, 0, 0}},
        {1, {1, 0, 0, 0, 0, 0, 0, 0}},
        {-1, {255, 255, 255, 255, 255, 255, 255, 255}},
        {10000, {0x10, 0x27, 0, 0, 0, 0, 0, 0}},
        {-10000, {0xf0, 0xd8, 255, 255, 255, 255, 255, 255}},
        {0x0102030405060708, {8, 7, 6, 5, 4, 3, 2, 1}},
        {INT64_MAX, {255, 255, 255, 255, 255, 255, 255, 127}},
        {INT64_MIN, {0, 0, 0, 0, 0, 0, 0, 128}},
    };
    for (size_t i = 0; i < COUNT(cases); i++) {
        uint8_t out[OPC_COUNT_LENGTH];
        memset(out, 0xa5, sizeof out);
        opc_write_count(cases[i].count, out);
        expect(memcmp(out, cases[i].bytes, sizeof out) == 0, "the bytes of a count");
    }
}

int main(void) {
    for (size_t i = 0; i < ROUNDS; i++) {
        test_order_wrapper();
        test_tallied_wrapper();
        test_fix_wrapper();
        test_fix_tallied_wrapper();
        test_session_wrappers();
        test_start_and_release_wrappers();
        test_pair_wrapper();
        test_quote_wrapper();
        test_crossing_wrapper();
    }
    test_initializers();
    test_session_numbers();
    test_restricted();
    test_counts();
    return all_hold();
}
