/*
 * The fuzzer's harness. Each input becomes one call of one entry, in the raw or the shaped form, or
 * a sequence of calls over one session. The call is made more than once, from C and through the
 * inline function over structs, with what is lent under watch; every number of every answer is held
 * to the second implementation's.
 *
 * A difference prints the call and aborts, so that libFuzzer keeps the input.
 */
#define _DEFAULT_SOURCE

#include "lent.h"
#include "raw.h"
#include "second.h"
#include "shaped.h"

#include <inttypes.h>

#define SEEDS_VARIABLE "FUZZ_SEEDS"

static const char *const entry_names[ENTRIES] = {
    [READ_SYMBOL] = "opc_read_symbol",
    [WRITE_SYMBOL] = "opc_write_symbol",
    [CHECK_ORDER] = "opc_check_order",
    [CHECK_ORDER_TALLIED] = "opc_check_order_tallied",
    [CHECK_FIX] = "opc_check_fix",
    [CHECK_FIX_TALLIED] = "opc_check_fix_tallied",
    [CHECK_PAIR] = "opc_check_pair",
    [CHECK_QUOTE] = "opc_check_quote",
    [CHECK_CROSSING] = "opc_check_crossing_quote",
    [START_SESSION] = "opc_start_session",
    [CHECK_ORDER_SESSION] = "opc_check_order_session",
    [CHECK_FIX_SESSION] = "opc_check_fix_session",
    [RELEASE_LOGIN] = "opc_release_login",
};

/* ---- Counting. ---- */

#define NUMBERS 64
#define PAIRINGS 16

/* Each number has its place among so many. */
#define ROW(name, number, outcome, author, word, meaning)                                          \
    OPC_STATIC_ASSERT(number < NUMBERS, #name);
OPC_NUMBERS(ROW)
#undef ROW

/* One for each question; a question is put in several calls. */
static uint64_t answers[ENTRIES][NUMBERS];
static uint64_t calls[ENTRIES];
static uint64_t classes[3];
static uint64_t shapes[5];
static uint64_t pairings[PAIRINGS];
static uint64_t contra_numbers[NUMBERS]; /* of a pair; the agency order's are with the answers */
static uint64_t passing[3];              /* how many orders of a pair pass: one is the agency's */
static uint64_t cancels[2];
static uint64_t filled[OPC_MAX_RESTING + 1]; /* how many offers an accepted quote meets */
static uint64_t rests[3];                    /* of it nothing is left, or is booked, or cancelled */

static void print_list(const char *what, const uint64_t *times, size_t n) {
    for (size_t i = 0; i < n; i++) {
        if (times[i] > 0) {
            printf("count %s %zu %" PRIu64 "\n", what, i, times[i]);
        }
    }
}

static void print_counts(void) {
    for (size_t i = 0; i < ENTRIES; i++) {
        printf("calls %s %" PRIu64 "\n", entry_names[i], calls[i]);
        print_list(entry_names[i], answers[i], NUMBERS);
    }
    print_list("class", classes, sizeof classes / sizeof classes[0]);
    print_list("shape", shapes, sizeof shapes / sizeof shapes[0]);
    print_list("pairings", pairings, PAIRINGS);
    print_list("contra", contra_numbers, NUMBERS);
    print_list("passing", passing, sizeof passing / sizeof passing[0]);
    print_list("cancel", cancels, 2);
    print_list("filled", filled, sizeof filled / sizeof filled[0]);
    print_list("rest", rests, sizeof rests / sizeof rests[0]);
    fflush(stdout);
}

static void count_answer(const struct call *call, uint64_t number) {
    if (number < NUMBERS) {
        answers[call->entry][number]++;
    }
}

static bool is_valid(uint64_t number) { return opc_outcome_of(number) != OPC_OUTCOME_REFUSED; }

static void count_order(const struct call *call, const struct opc_answer *answer) {
    count_answer(call, answer->number);
    if (is_valid(answer->number) && answer->class_ < 3 && answer->shape < 5 &&
        answer->pairings < PAIRINGS) {
        classes[answer->class_]++;
        shapes[answer->shape]++;
        pairings[answer->pairings]++;
    }
}

static void count_pair(const struct call *call, const struct opc_pair_answer *answer) {
    count_answer(call, answer->agency_number);
    if (answer->contra_number < NUMBERS) {
        contra_numbers[answer->contra_number]++;
    }
    passing[(answer->agency_passes + answer->contra_passes) % 3]++;
}

static void count_quote(const struct call *call, uint64_t number, uint64_t cancel) {
    count_answer(call, number);
    cancels[cancel % 2]++;
}

static void count_fills(const struct second_crossing_answer *answer, const uint64_t *fills,
                        size_t n) {
    size_t met = 0;
    for (size_t i = 0; i < n; i++) {
        met += fills[i] > 0;
    }
    filled[met]++;
    rests[answer->booked > 0 ? 1 : answer->cancelled > 0 ? 2 : 0]++;
}

/* ---- Differences. ---- */

static struct opc_order order_of(const struct order *order, const uint8_t *symbols,
                                 const uint8_t *counts) {
    return (struct opc_order){.symbols = symbols,
                              .symbols_len = order->symbols_len,
                              .counts = counts,
                              .counts_len = order->counts_len,
                              .price = order->price,
                              .kind = order->kind,
                              .stop = order->stop,
                              .manual = order->manual,
                              .opening = order->opening,
                              .shares = order->shares};
}

/* Of the call's own bytes, which no entry of the library is lent. */
static struct opc_order own_order(const struct order *order) {
    return order_of(order, order->symbols, order->counts);
}

static struct opc_pair own_pair(const struct call *call) {
    return (struct opc_pair){.agency = own_order(&call->order),
                             .contra = own_order(&call->contra),
                             .continue_unpaired = call->continue_unpaired};
}

static struct opc_fix fix_of(const struct call *call, const uint8_t *message) {
    return (struct opc_fix){.message = message,
                            .message_len = call->message_len,
                            .stop = call->order.stop,
                            .manual = call->order.manual,
                            .opening = call->order.opening};
}

static struct opc_quote quote_of(const struct call *call, const uint8_t *symbol) {
    return (struct opc_quote){.symbol = symbol,
                              .symbol_len = call->order.symbols_len,
                              .bid = call->bid,
                              .offer = call->offer,
                              .resting = call->resting};
}

static struct opc_crossing_quote crossing_of(const struct call *call, const uint8_t *symbol,
                                             const uint64_t *prices, const uint64_t *sizes) {
    return (struct opc_crossing_quote){.quote = quote_of(call, symbol),
                                       .sell = call->sell,
                                       .size = call->size,
                                       .prices = prices,
                                       .prices_len = call->prices_len,
                                       .sizes = sizes,
                                       .sizes_len = call->sizes_len,
                                       .away = call->away};
}

static struct opc_crossing_quote own_crossing(const struct call *call) {
    return crossing_of(call, call->order.symbols, call->prices, call->sizes);
}

static struct second_terms terms_of(const struct call *call) {
    return (struct second_terms){.settings = call->settings,
                                 .settings_len = call->settings_len,
                                 .market = call->market,
                                 .market_len = call->market_len};
}

static void print_symbol_call(const struct call *call) {
    const struct opc_symbol_parts *p = &call->parts;
    if (call->entry == READ_SYMBOL) {
        fprintf(stderr, "  %zu bytes:", call->order.symbols_len);
        for (size_t i = 0; i < call->order.symbols_len; i++) {
            uint8_t byte = call->order.symbols[i];
            fprintf(stderr, byte >= ' ' && byte < 127 ? "%c" : "\\x%02x", byte);
        }
        fprintf(stderr, "\n");
        return;
    }
    fprintf(stderr,
            "  root %#" PRIx64 ", year %" PRIu64 ", month %" PRIu64 ", day %" PRIu64
            ", type %" PRIu64 ", strike %" PRIu64 ", into %zu bytes\n",
            p->root, p->year, p->month, p->day, p->option_type, p->strike, call->out_len);
}

/* The session is as it comes to the call; printing changes nothing of it. */
static void print_session_call(const struct call *call) {
    struct opc_order order = own_order(&call->order);
    struct opc_fix fix = fix_of(call, call->message);
    struct second_terms terms = terms_of(call);
    uint64_t numbers[MOST_SESSION_NUMBERS];
    struct second_session session = {.numbers = numbers, .len = call->session_len};
    memcpy(numbers, call->session, sizeof numbers);
    switch (call->entry) {
    case START_SESSION:
        second_print_start(call->limits, call->limits_len, &session);
        break;
    case CHECK_ORDER_SESSION:
        second_print_order_session(call->login, &order, &terms, &session);
        break;
    case CHECK_FIX_SESSION:
        second_print_fix_session(call->login, &fix, &terms, &session);
        break;
    default:
        second_print_release(call->login, &session);
    }
}

static void print_call(const struct call *call) {
    struct opc_order order = own_order(&call->order);
    struct opc_fix fix = fix_of(call, call->message);
    struct opc_pair pair = own_pair(call);
    struct opc_crossing_quote crossing = own_crossing(call);
    struct second_terms terms = terms_of(call);
    const struct opc_tally *tally = is_tallied(call) ? &call->tally : NULL;
    switch (call->entry) {
    case CHECK_ORDER:
    case CHECK_ORDER_TALLIED:
        second_print_order(&order, &terms, tally);
        break;
    case CHECK_FIX:
    case CHECK_FIX_TALLIED:
        second_print_fix(&fix, &terms, tally);
        break;
    case CHECK_PAIR:
        second_print_pair(&pair, &terms);
        break;
    case CHECK_QUOTE:
        second_print_quote(&crossing.quote, &terms);
        break;
    case CHECK_CROSSING:
        second_print_crossing_quote(&crossing, &terms, call->fills_len);
        break;
    case READ_SYMBOL:
    case WRITE_SYMBOL:
        print_symbol_call(call);
        break;
    default:
        print_session_call(call);
    }
}

static void expect(bool holds, const struct call *call, const char *what) {
    if (!holds) {
        fprintf(stderr, "fuzz: DIFFERENCE in %s: %s\n", entry_names[call->entry], what);
        print_call(call);
        print_counts();
        abort();
    }
}

static void print_numbers(const char *whose, const uint64_t *numbers, size_t n) {
    fprintf(stderr, "  %s:", whose);
    for (size_t i = 0; i < n; i++) {
        fprintf(stderr, " %" PRIu64, numbers[i]);
    }
    fprintf(stderr, "\n");
}

/* Two structs that hold numbers alone: what was given, and what was expected. */
static void expect_equal(const struct call *call, const char *what, const void *given,
                         const void *expected, size_t size) {
    uint64_t numbers[2][MOST_LENT_NUMBERS];
    if (memcmp(given, expected, size) != 0) {
        memcpy(numbers[0], given, size);
        memcpy(numbers[1], expected, size);
        print_numbers("given", numbers[0], size / sizeof(uint64_t));
        print_numbers("expected", numbers[1], size / sizeof(uint64_t));
        expect(false, call, what);
    }
}

/* ---- What is lent. ---- */

static struct lent lent_symbols;
static struct lent lent_counts;
static struct lent lent_contra_symbols;
static struct lent lent_contra_counts;
static struct lent lent_message;
static struct lent lent_settings;
static struct lent lent_market;
static struct lent lent_limits;
static struct lent lent_session;
static struct lent lent_prices;
static struct lent lent_sizes;
static struct lent lent_fills;

/* What lent numbers hold before a call: two values, so that one which is not set shows. */
static const uint64_t unset[2] = {UINT64_C(0xdeadbeefdeadbeef), UINT64_C(0x0123456789abcdef)};

static bool is_null(const struct call *call) { return (call->choice & 1) == 1; }

static const uint8_t *lend_symbols(const struct call *call, bool last) {
    const struct order *order = &call->order;
    calls[call->entry]++;
    return lend(&lent_symbols, order->symbols, order->symbols_len, last, is_null(call));
}

static const uint8_t *lend_counts(const struct call *call, bool last) {
    const struct order *order = &call->order;
    return lend(&lent_counts, order->counts, order->counts_len, last, is_null(call));
}

static const uint8_t *lend_contra_symbols(const struct call *call, bool last) {
    const struct order *contra = &call->contra;
    return lend(&lent_contra_symbols, contra->symbols, contra->symbols_len, last, is_null(call));
}

static const uint8_t *lend_contra_counts(const struct call *call, bool last) {
    const struct order *contra = &call->contra;
    return lend(&lent_contra_counts, contra->counts, contra->counts_len, last, is_null(call));
}

static const uint8_t *lend_message(const struct call *call, bool last) {
    calls[call->entry]++;
    return lend(&lent_message, call->message, call->message_len, last, is_null(call));
}

static const void *lend_settings(const struct call *call, bool last) {
    size_t size = call->settings_len * sizeof call->settings[0];
    return lend(&lent_settings, call->settings, size, last, is_null(call));
}

static const void *lend_market(const struct call *call, bool last) {
    size_t size = call->market_len * sizeof call->market[0];
    return lend(&lent_market, call->market, size, last, is_null(call));
}

static const void *lend_limits(const struct call *call, bool last) {
    size_t size = call->limits_len * sizeof call->limits[0];
    return lend(&lent_limits, call->limits, size, last, is_null(call));
}

static void *lend_session(const struct call *call, bool last) {
    size_t size = call->session_len * sizeof call->session[0];
    return lend(&lent_session, call->session, size, last, is_null(call));
}

static const uint64_t *lend_prices(const struct call *call, bool last) {
    size_t size = call->prices_len * sizeof call->prices[0];
    return lend(&lent_prices, call->prices, size, last, is_null(call));
}

static const uint64_t *lend_sizes(const struct call *call, bool last) {
    size_t size = call->sizes_len * sizeof call->sizes[0];
    return lend(&lent_sizes, call->sizes, size, last, is_null(call));
}

static uint64_t *lend_fills(const struct call *call, bool last) {
    uint64_t before[MOST_RESTING_NUMBERS];
    for (size_t i = 0; i < call->fills_len; i++) {
        before[i] = unset[last];
    }
    return lend(&lent_fills, before, call->fills_len * sizeof before[0], last, is_null(call));
}

/* Of every slice, so of those that this call was not lent too. */
static void expect_kept(const struct call *call) {
    const struct lent *const all[] = {&lent_symbols,       &lent_counts,  &lent_contra_symbols,
                                      &lent_contra_counts, &lent_message, &lent_settings,
                                      &lent_market,        &lent_limits,  &lent_session,
                                      &lent_prices,        &lent_sizes,   &lent_fills};
    for (size_t i = 0; i < sizeof all / sizeof all[0]; i++) {
        expect(is_kept(all[i]), call, "a lent slice, or what is around it, was changed");
    }
}

/* Every number of a slice that was lent to write in, and all that is around it and the others. */
static void expect_written(const struct call *call, const char *what, struct lent *lent,
                           const uint64_t *expected, size_t n) {
    uint64_t given[MOST_SESSION_NUMBERS];
    memcpy(given, lent->watched + lent->before, n * sizeof given[0]);
    for (size_t i = 0; i < n; i++) {
        if (given[i] != expected[i]) {
            fprintf(stderr, "  place %zu\n", i);
            expect_equal(call, what, &given[i], &expected[i], sizeof given[i]);
        }
    }
    expect_in(lent, expected, n * sizeof given[0]);
    expect_kept(call);
}

static void expect_guards(const struct call *call, const struct lent_numbers *lent) {
    expect(are_guards_kept(lent), call, "a number beside a lent one was changed");
}

/* ---- Symbols. ---- */

static uint64_t read_directly(const struct call *call, bool last, struct opc_symbol_parts *parts) {
    struct lent_numbers lent = lend_numbers(unset[last]);
    uint64_t number =
        opc_read_symbol(lend_symbols(call, last), call->order.symbols_len, lent_number(&lent, 0),
                        lent_number(&lent, 1), lent_number(&lent, 2), lent_number(&lent, 3),
                        lent_number(&lent, 4), lent_number(&lent, 5));
    expect_kept(call);
    expect_guards(call, &lent);
    *parts = (struct opc_symbol_parts){.root = *lent_number(&lent, 0),
                                       .year = *lent_number(&lent, 1),
                                       .month = *lent_number(&lent, 2),
                                       .day = *lent_number(&lent, 3),
                                       .option_type = *lent_number(&lent, 4),
                                       .strike = *lent_number(&lent, 5)};
    return number;
}

static void expect_read(const struct call *call, uint64_t number,
                        const struct opc_symbol_parts *parts) {
    struct opc_symbol_parts second;
    uint64_t second_number =
        second_read_symbol(call->order.symbols, call->order.symbols_len, &second);
    expect_equal(call, "the number read", &number, &second_number, sizeof number);
    expect_equal(call, "the parts read", parts, &second, sizeof second);
}

static void try_read(const struct call *call) {
    struct opc_symbol_parts parts;
    uint64_t number = read_directly(call, true, &parts);
    count_answer(call, number);
    expect_read(call, number, &parts);
    expect_read(call, read_directly(call, false, &parts), &parts);
    memset(&parts, 0x5a, sizeof parts);
    uint64_t inlined =
        opc_read_symbol_parts(lend_symbols(call, true), call->order.symbols_len, &parts);
    expect_kept(call);
    expect_read(call, inlined, &parts);
    if (number == OPC_ACCEPTED) {
        uint8_t again[OPC_SYMBOL_LENGTH];
        uint64_t written_number = unset[0];
        uint64_t len = opc_write_symbol_parts(&parts, again, sizeof again, &written_number);
        bool same = len == sizeof again && memcmp(again, call->order.symbols, sizeof again) == 0;
        expect(same && written_number == OPC_ACCEPTED, call, "written again, not the same bytes");
    }
}

/* One call of the writer, held to the second one's bytes, all around the buffer too. */
static void write_once(const struct call *call, bool last, bool inlined) {
    const struct opc_symbol_parts *p = &call->parts;
    uint8_t before[MOST_BYTES_OF_ONE];
    memset(before, call->choice, sizeof before);
    calls[call->entry]++;
    uint8_t *out = lend(&lent_symbols, before, call->out_len, last, is_null(call));
    struct lent_numbers lent = lend_numbers(unset[last]);
    uint64_t *number = lent_number(&lent, 0);
    uint64_t answer[2];
    answer[0] = inlined ? opc_write_symbol_parts(p, out, call->out_len, number)
                        : opc_write_symbol(p->root, p->year, p->month, p->day, p->option_type,
                                           p->strike, out, call->out_len, number);
    answer[1] = *number;
    expect_guards(call, &lent);
    uint64_t second[2];
    second[0] = second_write_symbol(p, before, call->out_len, &second[1]);
    expect_equal(call, "the length and number of writing", answer, second, sizeof second);
    expect_in(&lent_symbols, before, call->out_len);
    expect(is_kept(&lent_symbols), call, "the bytes written, or those around them");
    if (inlined) {
        count_answer(call, answer[1]);
    }
}

static void try_write(const struct call *call) {
    write_once(call, true, false);
    write_once(call, false, false);
    write_once(call, true, true);
    uint8_t symbol[OPC_SYMBOL_LENGTH];
    uint64_t number;
    if (opc_write_symbol_parts(&call->parts, symbol, sizeof symbol, &number) != 0) {
        struct opc_symbol_parts again;
        uint64_t read = opc_read_symbol_parts(symbol, sizeof symbol, &again);
        expect(read == OPC_ACCEPTED, call, "what was written is not read");
        expect_equal(call, "read again, not the same parts", &again, &call->parts, sizeof again);
    }
}

/* ---- Orders and messages. ---- */

#define TERMS_OF(call, last)                                                                       \
    lend_settings(call, last), (call)->settings_len, lend_market(call, last), (call)->market_len
#define FLAGS_OF(order) (order).stop, (order).manual, (order).opening
#define OWN_TERMS_OF(order) (order).price, (order).kind, FLAGS_OF(order), (order).shares
#define ONE_ORDER_OF(call, last)                                                                   \
    lend_symbols(call, last), (call)->order.symbols_len, lend_counts(call, last),                  \
        (call)->order.counts_len, OWN_TERMS_OF((call)->order)
#define CONTRA_OF(call, last)                                                                      \
    lend_contra_symbols(call, last), (call)->contra.symbols_len, lend_contra_counts(call, last),   \
        (call)->contra.counts_len, OWN_TERMS_OF((call)->contra)
#define ORDER_OF(call, last) ONE_ORDER_OF(call, last), TERMS_OF(call, last)
#define FIX_OF(call, last)                                                                         \
    lend_message(call, last), (call)->message_len, FLAGS_OF((call)->order), TERMS_OF(call, last)
#define PAIR_OF(call, last)                                                                        \
    ONE_ORDER_OF(call, last), CONTRA_OF(call, last), (call)->continue_unpaired, TERMS_OF(call, last)

/* The lent numbers of an answer, and of a tally after it. */
#define ANSWER_IN(lent) lent_number(lent, 0), lent_number(lent, 1), lent_number(lent, 2)
#define TALLY_IN(lent)                                                                             \
    lent_number(lent, 3), lent_number(lent, 4), lent_number(lent, 5), lent_number(lent, 6)

/* The inline functions take structs, which there are for slices of the right lengths only. */
static bool has_structs(const struct call *call) {
    return call->settings_len == OPC_SETTINGS_COUNT && call->market_len == OPC_MARKET_COUNT;
}

static struct opc_answer answer_of(uint64_t number, struct lent_numbers *lent) {
    return (struct opc_answer){.number = number,
                               .class_ = *lent_number(lent, 0),
                               .shape = *lent_number(lent, 1),
                               .pairings = *lent_number(lent, 2)};
}

static struct opc_answer check_directly(const struct call *call, bool last) {
    struct lent_numbers lent = lend_numbers(unset[last]);
    uint64_t number = is_message(call) ? opc_check_fix(FIX_OF(call, last), ANSWER_IN(&lent))
                                       : opc_check_order(ORDER_OF(call, last), ANSWER_IN(&lent));
    expect_kept(call);
    expect_guards(call, &lent);
    return answer_of(number, &lent);
}

/* Where there are structs; otherwise directly. */
static struct opc_answer check_inlined(const struct call *call) {
    bool last = (call->choice & 2) == 2;
    struct opc_answer answer;
    if (!has_structs(call)) {
        return check_directly(call, last);
    }
    const struct opc_settings *settings = lend_settings(call, last);
    const struct opc_market *market = lend_market(call, last);
    if (is_message(call)) {
        struct opc_fix fix = fix_of(call, lend_message(call, last));
        answer = opc_answer_fix(&fix, settings, market);
    } else {
        struct opc_order order =
            order_of(&call->order, lend_symbols(call, last), lend_counts(call, last));
        answer = opc_answer_order(&order, settings, market);
    }
    expect_kept(call);
    return answer;
}

static struct opc_answer check_second(const struct call *call) {
    struct opc_order order = own_order(&call->order);
    struct opc_fix fix = fix_of(call, call->message);
    struct second_terms terms = terms_of(call);
    return is_message(call) ? second_check_fix(&fix, &terms) : second_check_order(&order, &terms);
}

/* opc_write_count, of any number: eight bytes, low byte first, and none beside them. */
static void try_count(const struct call *call) {
    uint8_t bytes[OPC_COUNT_LENGTH + 2];
    uint8_t expected[sizeof bytes];
    int64_t price = call->order.price;
    memset(bytes, AROUND, sizeof bytes);
    memset(expected, AROUND, sizeof expected);
    opc_write_count(price, bytes + 1);
    memcpy(expected + 1, &price, OPC_COUNT_LENGTH); /* x86-64 keeps the low byte first */
    expect(memcmp(bytes, expected, sizeof bytes) == 0, call, "a count written, of the price");
}

static void swap_bytes(uint8_t *one, uint8_t *other, size_t len) {
    uint8_t kept[OPC_SYMBOL_LENGTH];
    memcpy(kept, one, len);
    memmove(one, other, len);
    memcpy(other, kept, len);
}

/* Whole legs change places, where the slices divide into legs. */
static void turn_legs(struct order *turned, uint32_t state) {
    size_t n = turned->counts_len / OPC_COUNT_LENGTH;
    bool whole = turned->counts_len % OPC_COUNT_LENGTH == 0;
    if (!whole || turned->symbols_len != n * OPC_SYMBOL_LENGTH) {
        return;
    }
    for (size_t i = n; i > 1; i--) {
        state = state * 1664525 + 1013904223;
        size_t other = (state >> 16) % i;
        swap_bytes(turned->symbols + (i - 1) * OPC_SYMBOL_LENGTH,
                   turned->symbols + other * OPC_SYMBOL_LENGTH, OPC_SYMBOL_LENGTH);
        swap_bytes(turned->counts + (i - 1) * OPC_COUNT_LENGTH,
                   turned->counts + other * OPC_COUNT_LENGTH, OPC_COUNT_LENGTH);
    }
}

/* The place after 555 in a message whose tags are right; a value has no end of a field. */
static size_t first_group(const struct call *call) {
    size_t at = 0;
    while (call->message_len - at > 4 && memcmp(call->message + at, "555=", 4) != 0) {
        at = after_field(call, at);
    }
    return after_field(call, at);
}

/* The first group of a message comes after its last one, where the tags are right. */
static void turn_groups(struct call *turned) {
    size_t start = first_group(turned), end = start;
    size_t second = after_field(turned, after_field(turned, after_field(turned, start)));
    uint8_t kept[MOST_MESSAGE_BYTES];
    while (turned->message_len - end > 4 && (memcmp(turned->message + end, "600=", 4) == 0 ||
                                             memcmp(turned->message + end, "623=", 4) == 0 ||
                                             memcmp(turned->message + end, "624=", 4) == 0)) {
        end = after_field(turned, end);
    }
    if (second < end) {
        size_t len = second - start;
        memcpy(kept, turned->message + start, len);
        memmove(turned->message + start, turned->message + second, end - second);
        memcpy(turned->message + end - len, kept, len);
    }
}

/* The same call with the legs in another sequence; of a message only if its tags are right. */
static struct call in_another_sequence(const struct call *call, uint64_t number) {
    struct call turned = *call;
    if (!is_message(call)) {
        turn_legs(&turned.order, call->choice);
    } else if (number != OPC_BAD_FRAME && number != OPC_BAD_TAG) {
        turn_groups(&turned);
    }
    return turned;
}

/* Both answers, counted; gives the number. */
static uint64_t ask(const struct call *call, struct opc_answer *second) {
    *second = check_second(call);
    struct opc_answer answer = check_directly(call, true);
    expect_equal(call, "the answer", &answer, second, sizeof answer);
    count_order(call, &answer);
    return answer.number;
}

/* A valid order at the prices next to its own, and for the opposite amount. */
static void ask_prices_nearby(const struct call *call) {
    int64_t price = call->order.price;
    const int64_t prices[] = {price - 1, price + 1, -price};
    struct call near = *call;
    struct opc_answer second;
    for (size_t i = 0; i < sizeof prices / sizeof prices[0]; i++) {
        near.order.price = prices[i];
        ask(&near, &second);
    }
}

/* A valid order with its shares on the other side and without them, or where it has none with some
 * of either side. Class, shape and pairings come from the options alone. */
static void ask_shares_nearby(const struct call *call, const struct opc_answer *first) {
    int64_t shares = call->order.shares;
    const int64_t others[] = {shares == 0 ? 1 : -shares, shares == 0 ? -1 : 0};
    struct call near = *call;
    struct opc_answer other;
    for (size_t i = 0; i < sizeof others / sizeof others[0]; i++) {
        near.order.shares = others[i];
        if (is_valid(ask(&near, &other))) {
            other.number = first->number;
            expect_equal(&near, "class, shape and pairings with other shares", &other, first,
                         sizeof other);
        }
    }
}

/* The same message with one byte of its body another, length and sum being right. */
static void ask_message_nearby(const struct call *call) {
    static const uint8_t bytes[] = {'0', '1', '2', '9', '=', '.', '-', FIELD_END, ' ', 0};
    struct call near = *call;
    struct opc_answer second;
    struct text body = body_in(call);
    uint32_t state = call->choice;
    for (size_t i = 0; i < sizeof bytes && body.len > 0; i++) {
        state = state * 1664525 + 1013904223;
        size_t at = (state >> 8) % body.len;
        uint8_t kept = body.bytes[at];
        body.bytes[at] = bytes[i];
        frame(&near, &body, &right_frame);
        ask(&near, &second);
        body.bytes[at] = kept;
    }
}

static void try_check(const struct call *call) {
    struct opc_answer second;
    try_count(call);
    uint64_t number = ask(call, &second);
    struct opc_answer answer = check_directly(call, false);
    expect_equal(call, "the answer again", &answer, &second, sizeof answer);
    answer = check_inlined(call);
    expect_equal(call, "the answer through structs", &answer, &second, sizeof answer);
    struct call turned = in_another_sequence(call, number);
    answer = check_inlined(&turned);
    expect_equal(&turned, "the answer in another sequence", &answer, &second, sizeof answer);
    if (is_message(call) && number != OPC_BAD_FRAME) {
        ask_message_nearby(call);
    } else if (!is_message(call) && is_valid(number)) {
        ask_prices_nearby(call);
        ask_shares_nearby(call, &second);
    }
}

static struct opc_answer tallied_directly(const struct call *call, bool last,
                                          struct opc_tally *tally) {
    struct lent_numbers lent = lend_numbers(unset[last]);
    *lent_number(&lent, 3) = tally->seen;
    *lent_number(&lent, 4) = tally->refused;
    *lent_number(&lent, 5) = tally->accepted;
    *lent_number(&lent, 6) = tally->rejected;
    uint64_t number =
        is_message(call)
            ? opc_check_fix_tallied(FIX_OF(call, last), ANSWER_IN(&lent), TALLY_IN(&lent))
            : opc_check_order_tallied(ORDER_OF(call, last), ANSWER_IN(&lent), TALLY_IN(&lent));
    expect_kept(call);
    expect_guards(call, &lent);
    *tally = (struct opc_tally){.seen = *lent_number(&lent, 3),
                                .refused = *lent_number(&lent, 4),
                                .accepted = *lent_number(&lent, 5),
                                .rejected = *lent_number(&lent, 6)};
    return answer_of(number, &lent);
}

static struct opc_answer tallied_inlined(const struct call *call, struct opc_tally *tally) {
    bool last = (call->choice & 2) == 2;
    struct opc_answer answer;
    if (!has_structs(call)) {
        return tallied_directly(call, last, tally);
    }
    const struct opc_settings *settings = lend_settings(call, last);
    const struct opc_market *market = lend_market(call, last);
    if (is_message(call)) {
        struct opc_fix fix = fix_of(call, lend_message(call, last));
        answer = opc_answer_fix_tallied(&fix, settings, market, tally);
    } else {
        struct opc_order order =
            order_of(&call->order, lend_symbols(call, last), lend_counts(call, last));
        answer = opc_answer_order_tallied(&order, settings, market, tally);
    }
    expect_kept(call);
    return answer;
}

static struct opc_answer tallied_second(const struct call *call, struct opc_tally *tally) {
    struct opc_order order = own_order(&call->order);
    struct opc_fix fix = fix_of(call, call->message);
    struct second_terms terms = terms_of(call);
    return is_message(call) ? second_check_fix_tallied(&fix, &terms, tally)
                            : second_check_order_tallied(&order, &terms, tally);
}

/* The number of calls that one tally is lent to, one after another. */
#define TALLIED_CALLS 3

static void try_tallied(const struct call *call) {
    struct opc_tally tally = call->tally;
    struct opc_tally second_tally = call->tally;
    struct opc_answer second;
    for (int i = 0; i < TALLIED_CALLS; i++) {
        struct call now = *call; /* with the tally as it comes to this call */
        now.tally = tally;
        second = tallied_second(call, &second_tally);
        struct opc_answer answer = i == TALLIED_CALLS - 1 ? tallied_inlined(&now, &tally)
                                                          : tallied_directly(&now, i == 0, &tally);
        expect_equal(&now, "the tallied answer", &answer, &second, sizeof answer);
        expect_equal(&now, "the tally after it", &tally, &second_tally, sizeof tally);
        if (i == 0) {
            count_order(&now, &answer);
        }
        if (answer.number != OPC_BAD_TALLY) {
            struct opc_answer untallied = check_inlined(&now);
            expect_equal(&now, "the answer with and without a tally", &answer, &untallied,
                         sizeof answer);
        }
    }
    struct call turned = in_another_sequence(call, check_second(call).number);
    tally = call->tally;
    second_tally = call->tally;
    struct opc_answer answer = tallied_inlined(&turned, &tally);
    second = tallied_second(call, &second_tally);
    expect_equal(&turned, "the tallied answer in another sequence", &answer, &second,
                 sizeof answer);
    expect_equal(&turned, "the tally in another sequence", &tally, &second_tally, sizeof tally);
}

/* ---- Sessions. ---- */

/* The answer of a start or a release. */
static struct opc_answer number_alone(uint64_t number) {
    return (struct opc_answer){.number = number};
}

static struct opc_answer session_directly(const struct call *call, bool last) {
    struct lent_numbers lent = lend_numbers(unset[last]);
    uint64_t *session = lend_session(call, last);
    size_t len = call->session_len;
    uint64_t number;
    switch (call->entry) {
    case START_SESSION:
        calls[call->entry]++;
        number = opc_start_session(lend_limits(call, last), call->limits_len, session, len);
        return number_alone(number);
    case RELEASE_LOGIN:
        calls[call->entry]++;
        return number_alone(opc_release_login(call->login, session, len));
    case CHECK_FIX_SESSION:
        number =
            opc_check_fix_session(call->login, FIX_OF(call, last), session, len, ANSWER_IN(&lent));
        break;
    default:
        number = opc_check_order_session(call->login, ORDER_OF(call, last), session, len,
                                         ANSWER_IN(&lent));
    }
    expect_guards(call, &lent);
    return answer_of(number, &lent);
}

static struct opc_answer arrived_inlined(const struct call *call, bool last,
                                         struct opc_session *session) {
    const struct opc_settings *settings = lend_settings(call, last);
    const struct opc_market *market = lend_market(call, last);
    if (is_message(call)) {
        struct opc_fix fix = fix_of(call, lend_message(call, last));
        return opc_answer_fix_session(call->login, &fix, settings, market, session);
    }
    struct opc_order order =
        order_of(&call->order, lend_symbols(call, last), lend_counts(call, last));
    return opc_answer_order_session(call->login, &order, settings, market, session);
}

/* Where there are structs; otherwise directly. */
static struct opc_answer session_inlined(const struct call *call, bool last) {
    bool is_start = call->entry == START_SESSION, is_release = call->entry == RELEASE_LOGIN;
    bool has_own = is_release || (is_start ? call->limits_len == OPC_LOGINS : has_structs(call));
    if (!has_own || call->session_len != OPC_SESSION_COUNT) {
        return session_directly(call, last);
    }
    struct opc_session *session = lend_session(call, last);
    if (!is_start && !is_release) {
        return arrived_inlined(call, last, session);
    }
    calls[call->entry]++;
    return number_alone(is_start ? opc_answer_start(lend_limits(call, last), session)
                                 : opc_answer_release(call->login, session));
}

/* Leaves the session as it should be after the call. */
static struct opc_answer session_second(const struct call *call, uint64_t *after) {
    struct opc_order order = own_order(&call->order);
    struct opc_fix fix = fix_of(call, call->message);
    struct second_terms terms = terms_of(call);
    struct second_session session = {.numbers = after, .len = call->session_len};
    switch (call->entry) {
    case START_SESSION:
        return number_alone(second_start_session(call->limits, call->limits_len, &session));
    case RELEASE_LOGIN:
        return number_alone(second_release_login(call->login, &session));
    case CHECK_FIX_SESSION:
        return second_check_fix_session(call->login, &fix, &terms, &session);
    default:
        return second_check_order_session(call->login, &order, &terms, &session);
    }
}

/* One call, held to the second implementation; the session goes on from it. */
static struct opc_answer ask_in_session(struct call *call, bool last, bool inlined) {
    uint64_t after[MOST_SESSION_NUMBERS];
    memcpy(after, call->session, sizeof after);
    struct opc_answer second = session_second(call, after);
    struct opc_answer answer = inlined ? session_inlined(call, last) : session_directly(call, last);
    expect_equal(call, "the answer in a session", &answer, &second, sizeof answer);
    expect_written(call, "the session after it", &lent_session, after, call->session_len);
    memcpy(call->session, after, sizeof after);
    return answer;
}

static bool is_of_order(const struct call *call) {
    return call->entry == CHECK_ORDER_SESSION || call->entry == CHECK_FIX_SESSION;
}

/* An order that is not turned away gets what it gets without a session. */
static void count_in_session(const struct call *call, const struct opc_answer *answer) {
    uint64_t number = answer->number;
    if (!is_of_order(call)) {
        count_answer(call, number);
        return;
    }
    count_order(call, answer);
    if (number != OPC_BAD_LOGIN && number != OPC_BAD_TALLY && number != OPC_RESTRICTED_LOGIN) {
        struct opc_answer alone = check_inlined(call);
        expect_equal(call, "the answer with and without a session", answer, &alone, sizeof alone);
    }
}

/* The same order at the opposite price, or with its slices or its message cut short. */
static void change_order(struct call *call, uint8_t how) {
    if (how < 160) {
        call->order.price = (int64_t)(0 - (uint64_t)call->order.price);
    } else if (call->order.counts_len > 0 && call->message_len > 0) {
        call->order.counts_len--;
        call->message_len--;
    }
}

/* The next call: any of the four, by some login. */
static void next_call(struct input *in, struct call *call) {
    static const enum entry entries[] = {
        CHECK_ORDER_SESSION, CHECK_ORDER_SESSION, CHECK_ORDER_SESSION, CHECK_ORDER_SESSION,
        CHECK_ORDER_SESSION, CHECK_FIX_SESSION,   CHECK_FIX_SESSION,   CHECK_FIX_SESSION,
        CHECK_FIX_SESSION,   CHECK_FIX_SESSION,   RELEASE_LOGIN,       RELEASE_LOGIN,
        RELEASE_LOGIN,       CHECK_ORDER_SESSION, CHECK_FIX_SESSION,   START_SESSION};
    call->entry = PICK(in, entries);
    call->login = shaped_login(in);
    call->choice = take(in);
    if (call->choice >= 128 && is_of_order(call)) {
        change_order(call, call->choice);
    }
}

/* The most calls after the first over one session. */
#define MOST_NEXT_CALLS 12

/* At times a call comes between with a session that is damaged for it alone. */
static void try_session(struct input *in, const struct call *call) {
    struct call now = *call;
    struct opc_answer answer = ask_in_session(&now, true, false);
    count_in_session(call, &answer);
    now = *call;
    ask_in_session(&now, false, false);
    now = *call;
    ask_in_session(&now, true, true);
    for (int i = 0; i < MOST_NEXT_CALLS && in->left > 0; i++) {
        struct call next = now;
        next_call(in, &next);
        bool is_damaged = next.choice % 16 == 15;
        if (is_damaged) {
            damage_session(in, next.session);
        }
        answer = ask_in_session(&next, (next.choice & 2) == 2, (next.choice & 4) == 4);
        count_in_session(&next, &answer);
        if (!is_damaged) {
            memcpy(now.session, next.session, sizeof now.session);
        }
    }
}

/* ---- Pairs. ---- */

static struct opc_pair_answer pair_directly(const struct call *call, bool last) {
    struct lent_numbers lent = lend_numbers(unset[last]);
    struct opc_pair_answer answer;
    answer.agency_number = opc_check_pair(PAIR_OF(call, last), ANSWER_IN(&lent));
    answer.contra_number = *lent_number(&lent, 0);
    answer.agency_passes = *lent_number(&lent, 1);
    answer.contra_passes = *lent_number(&lent, 2);
    expect_kept(call);
    expect_guards(call, &lent);
    return answer;
}

/* Orders with the same symbols may be lent one slice of them, as a host does for the two sides of
 * one order. */
static bool is_slice_shared(const struct call *call) {
    const struct order *one = &call->order, *other = &call->contra;
    return (call->choice & 4) == 4 && one->symbols_len == other->symbols_len &&
           memcmp(one->symbols, other->symbols, one->symbols_len) == 0;
}

/* Where there are structs; otherwise directly. */
static struct opc_pair_answer pair_inlined(const struct call *call) {
    bool last = (call->choice & 2) == 2;
    if (!has_structs(call)) {
        return pair_directly(call, last);
    }
    const uint8_t *symbols = lend_symbols(call, last);
    const uint8_t *contra_symbols =
        is_slice_shared(call) ? symbols : lend_contra_symbols(call, last);
    struct opc_pair pair = {
        .agency = order_of(&call->order, symbols, lend_counts(call, last)),
        .contra = order_of(&call->contra, contra_symbols, lend_contra_counts(call, last)),
        .continue_unpaired = call->continue_unpaired};
    struct opc_pair_answer answer =
        opc_answer_pair(&pair, lend_settings(call, last), lend_market(call, last));
    expect_kept(call);
    return answer;
}

/* Both answers to a pair, counted. */
static struct opc_pair_answer ask_pair(const struct call *call) {
    struct opc_pair pair = own_pair(call);
    struct second_terms terms = terms_of(call);
    struct opc_pair_answer second = second_check_pair(&pair, &terms);
    struct opc_pair_answer answer = pair_directly(call, true);
    expect_equal(call, "the answer to a pair", &answer, &second, sizeof answer);
    count_pair(call, &answer);
    return answer;
}

/* The number of one order of the pair, which it gets alone. */
static void expect_alone(const struct call *call, const struct order *order, uint64_t number) {
    struct call alone = *call;
    alone.entry = CHECK_ORDER;
    alone.order = *order;
    uint64_t own = check_inlined(&alone).number;
    expect_equal(call, "an order's number in the pair and alone", &number, &own, sizeof own);
}

/* The legs of either order, or of both, in another sequence. */
static void expect_in_sequences(const struct call *call, const struct opc_pair_answer *expected) {
    for (int which = 1; which <= 3; which++) {
        struct call turned = *call;
        if ((which & 1) == 1) {
            turn_legs(&turned.order, call->choice);
        }
        if ((which & 2) == 2) {
            turn_legs(&turned.contra, call->choice + 1u);
        }
        struct opc_pair_answer answer = pair_inlined(&turned);
        expect_equal(&turned, "the answer to a pair in another sequence", &answer, expected,
                     sizeof answer);
    }
}

/* The agency order in the contra order's place, and the contra order in its place. */
static void ask_exchanged(const struct call *call, const struct opc_pair_answer *answer) {
    struct call exchanged = *call;
    exchanged.order = call->contra;
    exchanged.contra = call->order;
    struct opc_pair_answer other = ask_pair(&exchanged);
    uint64_t given[] = {other.agency_number, other.contra_number};
    uint64_t expected[] = {answer->contra_number, answer->agency_number};
    expect_equal(&exchanged, "the numbers of orders exchanged", given, expected, sizeof given);
}

/* The mark to continue unpaired has no part in the numbers. */
static void ask_marked_otherwise(const struct call *call, const struct opc_pair_answer *answer) {
    struct call marked = *call;
    marked.continue_unpaired = call->continue_unpaired == 0;
    struct opc_pair_answer other = ask_pair(&marked);
    uint64_t given[] = {other.agency_number, other.contra_number};
    uint64_t expected[] = {answer->agency_number, answer->contra_number};
    expect_equal(&marked, "the numbers with another mark", given, expected, sizeof given);
}

static void try_pair(const struct call *call) {
    struct opc_pair_answer first = ask_pair(call);
    struct opc_pair_answer answer = pair_directly(call, false);
    expect_equal(call, "the answer to the pair again", &answer, &first, sizeof answer);
    answer = pair_inlined(call);
    expect_equal(call, "the answer through structs", &answer, &first, sizeof answer);
    expect_alone(call, &call->order, first.agency_number);
    expect_alone(call, &call->contra, first.contra_number);
    expect_in_sequences(call, &first);
    ask_exchanged(call, &first);
    ask_marked_otherwise(call, &first);
}

/* ---- Quotes. ---- */

#define QUOTE_OF(call, last)                                                                       \
    lend_symbols(call, last), (call)->order.symbols_len, (call)->bid, (call)->offer, (call)->resting
#define RESTING_OF(call, last)                                                                     \
    (call)->sell, (call)->size, lend_prices(call, last), (call)->prices_len,                       \
        lend_sizes(call, last), (call)->sizes_len, (call)->away

static struct opc_quote_answer quote_directly(const struct call *call, bool last) {
    struct lent_numbers lent = lend_numbers(unset[last]);
    struct opc_quote_answer answer;
    answer.number =
        opc_check_quote(QUOTE_OF(call, last), TERMS_OF(call, last), lent_number(&lent, 0));
    answer.cancel = *lent_number(&lent, 0);
    expect_kept(call);
    expect_guards(call, &lent);
    return answer;
}

/* Both answers to a quote, counted; gives the number. */
static uint64_t ask_quote(const struct call *call, struct opc_quote_answer *second) {
    struct opc_quote quote = quote_of(call, call->order.symbols);
    struct second_terms terms = terms_of(call);
    *second = second_check_quote(&quote, &terms);
    struct opc_quote_answer answer = quote_directly(call, true);
    expect_equal(call, "the answer to a quote", &answer, second, sizeof answer);
    count_quote(call, answer.number, answer.cancel);
    return answer.number;
}

/* The same quote with one of its prices one more or one less. */
static void ask_quote_nearby(const struct call *call) {
    struct call near = *call;
    struct opc_quote_answer second;
    uint64_t *prices[] = {&near.bid, &near.offer};
    for (size_t i = 0; i < 2; i++) {
        *prices[i] += 1;
        ask_quote(&near, &second);
        *prices[i] -= 2;
        ask_quote(&near, &second);
        *prices[i] += 1;
    }
}

static void try_quote(const struct call *call) {
    struct opc_quote_answer second;
    uint64_t number = ask_quote(call, &second);
    struct opc_quote_answer answer = quote_directly(call, false);
    expect_equal(call, "the answer to the quote again", &answer, &second, sizeof answer);
    if (has_structs(call)) {
        struct opc_quote quote = quote_of(call, lend_symbols(call, true));
        answer = opc_answer_quote(&quote, lend_settings(call, true), lend_market(call, true));
        expect_kept(call);
        expect_equal(call, "the answer through structs", &answer, &second, sizeof answer);
    }
    if (is_valid(number)) {
        ask_quote_nearby(call);
    }
}

/* ---- Crossing quotes. ---- */

/* The fills are left where they were lent. */
static struct second_crossing_answer crossing_directly(const struct call *call, bool last) {
    struct lent_numbers lent = lend_numbers(unset[last]);
    uint64_t *fills = lend_fills(call, last);
    struct second_crossing_answer answer;
    answer.number = opc_check_crossing_quote(
        QUOTE_OF(call, last), RESTING_OF(call, last), TERMS_OF(call, last), fills, call->fills_len,
        lent_number(&lent, 0), lent_number(&lent, 1), lent_number(&lent, 2), lent_number(&lent, 3));
    answer.cancel = *lent_number(&lent, 0);
    answer.executed = *lent_number(&lent, 1);
    answer.booked = *lent_number(&lent, 2);
    answer.cancelled = *lent_number(&lent, 3);
    expect_guards(call, &lent);
    return answer;
}

/* One call, held to an answer and its fills. */
static void expect_crossing(const struct call *call, bool last, const char *what,
                            const struct second_crossing_answer *expected, const uint64_t *fills) {
    struct second_crossing_answer answer = crossing_directly(call, last);
    expect_equal(call, what, &answer, expected, sizeof answer);
    expect_written(call, what, &lent_fills, fills, call->fills_len);
}

/* Both answers to a crossing quote, counted; gives the second one, and leaves its fills. */
static struct second_crossing_answer ask_crossing(const struct call *call, uint64_t *fills) {
    struct opc_crossing_quote crossing = own_crossing(call);
    struct second_terms terms = terms_of(call);
    struct second_crossing_answer second =
        second_check_crossing_quote(&crossing, &terms, fills, call->fills_len);
    expect_crossing(call, true, "the answer to a crossing quote", &second, fills);
    count_quote(call, second.number, second.cancel);
    if (second.number == OPC_ACCEPTED) {
        count_fills(&second, fills, call->fills_len);
    }
    return second;
}

/* Through structs, where the fills are always as many as there may be offers. */
static void expect_crossing_inlined(const struct call *call) {
    struct call inlined = *call;
    inlined.fills_len = OPC_MAX_RESTING;
    struct opc_crossing_quote crossing = own_crossing(call);
    struct second_terms terms = terms_of(call);
    uint64_t fills[OPC_MAX_RESTING];
    struct second_crossing_answer second =
        second_check_crossing_quote(&crossing, &terms, fills, OPC_MAX_RESTING);
    bool last = (call->choice & 2) == 2;
    crossing = crossing_of(call, lend_symbols(call, last), lend_prices(call, last),
                           lend_sizes(call, last));
    struct opc_crossing_answer answer =
        opc_answer_crossing_quote(&crossing, lend_settings(call, last), lend_market(call, last));
    expect_kept(&inlined);
    expect_equal(&inlined, "the answer through structs", &answer, &second, sizeof second);
    bool are_same = memcmp(answer.fills, fills, sizeof fills) == 0;
    expect(are_same, &inlined, "the fills through structs");
}

/* Number and flag are the quote's own, unless what it meets is wrong. */
static void expect_quote_alone(const struct call *call,
                               const struct second_crossing_answer *answer) {
    struct call alone = *call;
    alone.entry = CHECK_QUOTE;
    struct opc_quote_answer own = quote_directly(&alone, (call->choice & 2) == 2);
    if (answer->number == OPC_BAD_CROSSING) {
        expect(is_valid(own.number), call, "36 in the place of a refusal");
    } else {
        expect_equal(call, "the answer with and without a list", answer, &own, sizeof own);
    }
}

/* A bid for so many against offers is, in a mirror, an offer of as many against bids; but checks
 * look at one side more than at the other. */
static void expect_mirrored(const struct call *call, const struct second_crossing_answer *answer,
                            const uint64_t *fills) {
    const uint64_t off[SWITCHES] = {0};
    if (answer->number != OPC_ACCEPTED || memcmp(call->settings, off, sizeof off) != 0) {
        return;
    }
    struct call turned = *call;
    turned.sell = 1; /* so that every price is seen in the mirror */
    turned.bid = seen_price(&turned, call->offer);
    turned.offer = seen_price(&turned, call->bid);
    turned.away = seen_price(&turned, call->away);
    for (size_t i = 0; i < call->prices_len; i++) {
        turned.prices[i] = seen_price(&turned, call->prices[i]);
    }
    turned.sell = call->sell == 0;
    expect_crossing(&turned, false, "the answer in a mirror", answer, fills);
}

/* The same with one of its numbers one more or one less, and for what it executes alone. */
static void ask_crossing_nearby(const struct call *call, uint64_t executed) {
    uint64_t fills[MOST_RESTING_NUMBERS];
    struct call near = *call;
    size_t place = call->choice % (call->prices_len == 0 ? 1 : call->prices_len);
    uint64_t *numbers[] = {&near.size,  &near.away,          &near.bid,
                           &near.offer, &near.prices[place], &near.sizes[place]};
    for (size_t i = 0; i < sizeof numbers / sizeof numbers[0]; i++) {
        *numbers[i] += 1;
        ask_crossing(&near, fills);
        *numbers[i] -= 2;
        ask_crossing(&near, fills);
        *numbers[i] += 1;
    }
    near.size = executed;
    ask_crossing(&near, fills);
}

static void try_crossing(const struct call *call) {
    uint64_t fills[MOST_RESTING_NUMBERS];
    struct second_crossing_answer answer = ask_crossing(call, fills);
    expect_crossing(call, false, "the answer to the crossing quote again", &answer, fills);
    expect_quote_alone(call, &answer);
    expect_mirrored(call, &answer, fills);
    if (has_structs(call)) {
        expect_crossing_inlined(call);
    }
    if (is_valid(answer.number)) {
        ask_crossing_nearby(call, answer.executed);
    }
}

/* ---- The fuzzer's own. ---- */

int LLVMFuzzerInitialize(int *argc, char ***argv);
int LLVMFuzzerTestOneInput(const uint8_t *data, size_t size);

int LLVMFuzzerInitialize(int *argc, char ***argv) {
    (void)argc;
    (void)argv;
    const char *folder = getenv(SEEDS_VARIABLE);
    if (folder != NULL) {
        second_write_seeds(folder);
        exit(0);
    }
    atexit(print_counts);
    return 0;
}

static void try_call(struct input *in, const struct call *call) {
    switch (call->entry) {
    case READ_SYMBOL:
        try_read(call);
        break;
    case WRITE_SYMBOL:
        try_write(call);
        break;
    case CHECK_PAIR:
        try_pair(call);
        break;
    case CHECK_QUOTE:
        try_quote(call);
        break;
    case CHECK_CROSSING:
        try_crossing(call);
        break;
    case CHECK_ORDER:
    case CHECK_FIX:
        try_check(call);
        break;
    case CHECK_ORDER_TALLIED:
    case CHECK_FIX_TALLIED:
        try_tallied(call);
        break;
    default:
        try_session(in, call);
    }
}

int LLVMFuzzerTestOneInput(const uint8_t *data, size_t size) {
    static const enum entry entries[] = {
        READ_SYMBOL,         WRITE_SYMBOL,      CHECK_ORDER,   CHECK_ORDER,    CHECK_ORDER,
        CHECK_ORDER_TALLIED, CHECK_QUOTE,       CHECK_QUOTE,   CHECK_FIX,      CHECK_FIX,
        CHECK_FIX,           CHECK_FIX_TALLIED, CHECK_PAIR,    CHECK_PAIR,     START_SESSION,
        CHECK_ORDER_SESSION, CHECK_FIX_SESSION, RELEASE_LOGIN, CHECK_CROSSING, CHECK_CROSSING};
    struct input in = {data, size};
    struct call call;
    memset(&call, 0, sizeof call);
    call.entry = PICK(&in, entries);
    bool is_shaped = take(&in) % 4 != 0;
    call.choice = take(&in);
    (is_shaped ? shaped_forms : raw_forms)[call.entry](&in, &call);
    try_call(&in, &call);
    return 0;
}
