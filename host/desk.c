/*
 * The checks for a trading desk: reads orders, pairs, messages and quotes, one to a line, orders
 * and messages of logins in a session too, and quotes that cross what is resting, and prints the
 * library's verdict on each in words. host/desk.help says how a line is written and what is
 * printed.
 *
 * No rule of the checks is here. What is said of a refusal beside its meaning is learnt by asking
 * the library again: of a leg by itself, at another price, with one field of the terms alone, with
 * one resting offer.
 */
#define _POSIX_C_SOURCE 200809L /* for fstat, fileno and getline */

#include "answers.h"
#include "option_price_check.h"
#include "order_in.h"
#include "requests.h"

#include <errno.h>
#include <inttypes.h>
#include <stdlib.h>
#include <sys/stat.h>

enum { EXIT_READ = 0, EXIT_UNREAD = 1, EXIT_TROUBLE = 2, EXIT_NOT_ACCEPTED = 3 };

/* How often each row's number was given. */
struct given {
    uint64_t times[COUNT(number_rows)];
};

/* The orders, those in messages among them, or the quotes that were answered, counted. */
struct tallied {
    struct opc_tally tally;
    struct given given;
};

static const struct tallied none_tallied = {.tally = OPC_FRESH_TALLY};

/* The pairs that were answered, counted by what passes. */
struct pairs {
    uint64_t seen, both, agency_alone, neither;
    struct given given; /* to either order */
};

/* The orders and messages of logins, counted in their session: all zeros where none is started. */
struct logins {
    struct opc_session session;
    bool is_started;
    struct given given;
};

struct desk {
    struct terms terms;
    struct tallied orders, quotes; /* without a login; quotes that cross among the quotes */
    struct pairs pairs;
    struct logins logins;
    uint64_t line_number;
    bool all_accepted; /* every order, those of pairs too, message, quote, set, limits, release */
    bool is_awaited;   /* each answer, by whoever writes the lines */
};

/* ---- verdicts in words, and what settings and market are at fault ---- */

/* A quote that is valid: a refusal is of what stands beside it. */
static const struct opc_quote right_quote = {
    .symbol = (const uint8_t *)"A     270115C00001000",
    .symbol_len = OPC_SYMBOL_LENGTH,
    .bid = 1,
    .offer = 2,
};

/* The number that it gets in these terms. */
static uint64_t number_in(const struct terms *terms) {
    return opc_answer_quote(&right_quote, &terms->settings, &terms->market).number;
}

/* Whether the field at this value, with all others as at the start, gets the number. */
static bool is_outside(const struct settable *settable, uint64_t value, uint64_t number) {
    struct terms asked = first_terms;
    put_value(&asked, settable, value);
    /* It is held to the maximum too, which by itself may be any that goes with it. */
    if (settable->place == offsetof(struct terms, settings.preset_minimum)) {
        asked.settings.preset_maximum = value;
    }
    return number_in(&asked) == number;
}

/* The last value without the number, between one that does not get it and one that does. */
static uint64_t last_within(const struct settable *settable, uint64_t within, uint64_t outside,
                            uint64_t number) {
    while ((outside > within ? outside - within : within - outside) > 1) {
        uint64_t middle = within / 2 + outside / 2 + (within & outside & 1);
        if (is_outside(settable, middle, number)) {
            outside = middle;
        } else {
            within = middle;
        }
    }
    return within;
}

/* As `set` takes it. */
static void print_value(enum unit unit, uint64_t value) {
    if (unit == UNIT_MONEY) {
        printf("%" PRIu64 ".%03" PRIu64, value / 1000, value % 1000);
    } else {
        printf("%" PRIu64, value);
    }
}

/* What stands after a value, of one and of another; of a switch and a phase nothing. */
static const struct {
    const char *one, *other;
} unit_names[] = {
    [UNIT_MONEY] = {" dollars", " dollars"},
    [UNIT_TICKS] = {" tick", " ticks"},
    [UNIT_SWITCH] = {"", ""},
    [UNIT_HUNDREDTHS] = {" hundredth of a percent", " hundredths of a percent"},
    [UNIT_PHASE] = {"", ""},
};

/* The limits that the library has for the field, asked by halving from its value at the start. */
static void print_limits(const struct settable *settable, uint64_t number) {
    uint64_t within = value_of(&first_terms, settable);
    bool is_from_0 = !is_outside(settable, 0, number);
    printf("%s is outside its limits, ", settable->name);
    print_value(settable->unit, is_from_0 ? 0 : last_within(settable, within, 0, number));
    printf(" to ");
    print_value(settable->unit, last_within(settable, within, UINT64_MAX, number));
    printf("%s", unit_names[settable->unit].other);
}

/* Whether the presets get the number as they are, and would not with their values exchanged. */
static bool do_presets_cross(const struct terms *terms, uint64_t number) {
    struct terms asked = first_terms;
    asked.settings.preset_minimum = terms->settings.preset_minimum;
    asked.settings.preset_maximum = terms->settings.preset_maximum;
    if (number_in(&asked) != number) {
        return false;
    }
    asked.settings.preset_minimum = terms->settings.preset_maximum;
    asked.settings.preset_maximum = terms->settings.preset_minimum;
    return number_in(&asked) != number;
}

/* Prints which fields get the terms refused with the number; false where none can be named. */
static bool print_fields_at_fault(const struct terms *terms, uint64_t number) {
    const char *between = "";
    for (size_t i = 0; i < COUNT(settables); i++) {
        if (is_outside(&settables[i], value_of(terms, &settables[i]), number)) {
            printf("%s", between);
            print_limits(&settables[i], number);
            between = "; ";
        }
    }
    if (do_presets_cross(terms, number)) {
        printf("%spreset_minimum is above preset_maximum", between);
        between = "; ";
    }
    return between[0] != '\0';
}

/* The number, its outcome, and for a refusal whose fault it is; of the terms it names fields. */
static void print_verdict(uint64_t number, const struct terms *terms) {
    const struct number_row *row = row_of(number);
    enum opc_outcome outcome = opc_outcome_of(number);
    printf("%" PRIu64 " %s", number, outcome_name(outcome));
    if (outcome == OPC_OUTCOME_REJECTED) {
        printf(" by %s", row->meaning);
    } else if (outcome == OPC_OUTCOME_REFUSED) {
        printf(", fault of the %s: ", row->author);
        bool is_of_terms = number == OPC_BAD_SETTING || number == OPC_BAD_MARKET;
        if (!is_of_terms || !print_fields_at_fault(terms, number)) {
            printf("%s", row->meaning);
        }
    }
}

/* ---- what of an order, a message or a quote is at fault ---- */

static uint64_t number_of_order(const struct opc_order *order) {
    return opc_answer_order(order, &first_terms.settings, &first_terms.market).number;
}

/* The number that two legs of the order get as an order of their own; twice the same leg is one. */
static uint64_t number_of_legs(const struct opc_order *order, size_t first, size_t second) {
    const size_t legs[] = {first, second};
    const size_t len = first == second ? 1 : 2;
    uint8_t symbols[COUNT(legs) * OPC_SYMBOL_LENGTH];
    uint8_t counts[COUNT(legs) * OPC_COUNT_LENGTH];
    for (size_t i = 0; i < len; i++) {
        memcpy(symbols + i * OPC_SYMBOL_LENGTH, order->symbols + legs[i] * OPC_SYMBOL_LENGTH,
               OPC_SYMBOL_LENGTH);
        memcpy(counts + i * OPC_COUNT_LENGTH, order->counts + legs[i] * OPC_COUNT_LENGTH,
               OPC_COUNT_LENGTH);
    }
    struct opc_order asked = *order;
    asked.symbols = symbols;
    asked.symbols_len = len * OPC_SYMBOL_LENGTH;
    asked.counts = counts;
    asked.counts_len = len * OPC_COUNT_LENGTH;
    return number_of_order(&asked);
}

/* Prints the first leg that gets the number by itself, or else the first two that do together. */
static void print_legs_at_fault(const struct opc_order *order, size_t len, uint64_t number) {
    for (size_t i = 0; i < len; i++) {
        if (number_of_legs(order, i, i) == number) {
            printf(": leg %zu", i + 1);
            return;
        }
    }
    for (size_t i = 0; i < len; i++) {
        for (size_t k = i + 1; k < len; k++) {
            if (number_of_legs(order, i, k) == number) {
                printf(": legs %zu and %zu", i + 1, k + 1);
                return;
            }
        }
    }
}

/* What is wrong with a price that is refused: asked at its size with each sign. */
static const char *price_trouble(const struct opc_order *order) {
    struct opc_order asked = *order;
    /* The least number has a size that is no int64_t. */
    int64_t size = order->price < -INT64_MAX ? INT64_MAX : imaxabs(order->price);
    asked.price = size == 0 ? 1 : size;
    if (number_of_order(&asked) != OPC_BAD_PRICE) {
        return "the price should be above 0";
    }
    asked.price = -asked.price;
    return number_of_order(&asked) != OPC_BAD_PRICE ? "the price should be below 0" : "too large";
}

static void print_order_fault(const struct opc_order *order, uint64_t number) {
    size_t len = order->counts_len / OPC_COUNT_LENGTH;
    switch (number) {
    case OPC_BAD_LEG_COUNT:
        printf(": %zu legs", len);
        break;
    case OPC_BAD_SYMBOL:
    case OPC_BAD_COUNT:
    case OPC_SERIES_TWICE:
    case OPC_ROOTS_DIFFER:
        print_legs_at_fault(order, len, number);
        break;
    case OPC_BAD_PRICE:
        printf(": %s", price_trouble(order));
        break;
    case OPC_BAD_SHARES:
        printf(": shares %+" PRId64, order->shares);
        break;
    default:
        break;
    }
}

/* What is at fault in the order of a message, where that is refused and not the message. */
static void print_message_fault(const struct opc_fix *fix, uint64_t number) {
    struct order_in in;
    if (number >= OPC_BAD_LEG_COUNT && number <= OPC_BAD_PRICE) {
        read_order_in(fix, &in);
        print_order_fault(&in.order, number);
    }
}

/* Whether a quote can have the price, asked with the next price on either side of it. */
static bool is_quotable(const struct opc_quote *quote, uint64_t price) {
    struct opc_quote asked = *quote;
    for (uint64_t bid = price - 1; bid != price + 1; bid++) {
        asked.bid = bid;
        asked.offer = bid + 1;
        if (opc_answer_quote(&asked, &first_terms.settings, &first_terms.market).number !=
            OPC_BAD_QUOTE) {
            return true;
        }
    }
    return false;
}

static void print_quote_fault(const struct opc_quote *quote, uint64_t number) {
    if (number == OPC_BAD_QUOTE) {
        bool bid = is_quotable(quote, quote->bid);
        bool offer = is_quotable(quote, quote->offer);
        printf(": %s", bid && offer ? "the bid is not below the offer"
                       : bid        ? "the offer is outside its limits"
                       : offer      ? "the bid is outside its limits"
                                    : "bid and offer are outside their limits");
    }
}

/* Whether these get the number, of what is resting so many from this place on. */
static bool are_at_fault(const struct opc_crossing_quote *crossing, size_t first, size_t len,
                         uint64_t size, uint64_t away, uint64_t number) {
    const struct opc_crossing_quote asked = {.quote = right_quote,
                                             .sell = crossing->sell,
                                             .size = size,
                                             .prices = crossing->prices + first,
                                             .prices_len = len,
                                             .sizes = crossing->sizes + first,
                                             .sizes_len = len,
                                             .away = away};
    return opc_answer_crossing_quote(&asked, &first_terms.settings, &first_terms.market).number ==
           number;
}

/* The first that gets the number by itself, or else the first two together, or how many. */
static void print_list_at_fault(const struct opc_crossing_quote *crossing, uint64_t number) {
    const char *what = crossing->sell == 0 ? "offer" : "bid";
    size_t len = crossing->prices_len;
    for (size_t i = 0; i < len; i++) {
        if (are_at_fault(crossing, i, 1, 1, 0, number)) {
            printf(": %s %zu", what, i + 1);
            return;
        }
    }
    for (size_t i = 0; i + 1 < len; i++) {
        if (are_at_fault(crossing, i, 2, 1, 0, number)) {
            printf(": %ss %zu and %zu", what, i + 1, i + 2);
            return;
        }
    }
    printf(": %zu %ss", len, what);
}

static void print_crossing_fault(const struct opc_crossing_quote *crossing, uint64_t number) {
    print_quote_fault(&crossing->quote, number);
    if (number != OPC_BAD_CROSSING) {
        return;
    }
    if (are_at_fault(crossing, 0, 0, crossing->size, 0, number)) {
        printf(": the size");
    } else if (are_at_fault(crossing, 0, 0, 1, crossing->away, number)) {
        printf(": the away price");
    } else {
        print_list_at_fault(crossing, number);
    }
}

/* ---- tallies ---- */

static void print_given(const struct given *given) {
    for (size_t i = 0; i < COUNT(number_rows); i++) {
        if (given->times[i] > 0) {
            printf("  %" PRIu64 " %s: %" PRIu64 "\n", number_rows[i].number, number_rows[i].word,
                   given->times[i]);
        }
    }
}

static void print_tally(const char *name, const struct opc_tally *tally) {
    printf("tally of %s: %" PRIu64 " seen, %" PRIu64 " refused, %" PRIu64 " accepted, %" PRIu64
           " rejected\n",
           name, tally->seen, tally->refused, tally->accepted, tally->rejected);
}

static void print_tallied(const char *name, const struct tallied *tallied) {
    if (tallied->tally.seen == 0) {
        return;
    }
    print_tally(name, &tallied->tally);
    print_given(&tallied->given);
}

static void print_pairs(const struct pairs *pairs) {
    if (pairs->seen == 0) {
        return;
    }
    printf("tally of pairs: %" PRIu64 " seen, %" PRIu64 " both pass, %" PRIu64
           " agency order alone, %" PRIu64 " neither\n",
           pairs->seen, pairs->both, pairs->agency_alone, pairs->neither);
    print_given(&pairs->given);
}

static bool are_some_given(const struct given *given) {
    uint64_t all = 0;
    for (size_t i = 0; i < COUNT(given->times); i++) {
        all += given->times[i];
    }
    return all > 0;
}

static void print_rows(const struct opc_session *session) {
    printf("  login  limit     seen  refused  accepted  rejected  running\n");
    for (size_t i = 0; i < OPC_LOGINS; i++) {
        const struct opc_login *login = &session->logins[i];
        const struct opc_tally *tally = &login->tally;
        printf("  %5zu  %5" PRIu64 "  %7" PRIu64 "  %7" PRIu64 "  %8" PRIu64 "  %8" PRIu64
               "  %7" PRIu64 "%s\n",
               i, login->limit, tally->seen, tally->refused, tally->accepted, tally->rejected,
               login->running, opc_is_restricted(login) ? "  restricted" : "");
    }
}

/* All logins together, then a row for each; of orders to no session there are the numbers alone. */
static void print_logins(const struct logins *logins) {
    struct opc_tally all = OPC_FRESH_TALLY;
    if (!logins->is_started && !are_some_given(&logins->given)) {
        return;
    }
    for (size_t i = 0; i < OPC_LOGINS; i++) {
        const struct opc_tally *tally = &logins->session.logins[i].tally;
        all.seen += tally->seen;
        all.refused += tally->refused;
        all.accepted += tally->accepted;
        all.rejected += tally->rejected;
    }
    print_tally("logins", &all);
    if (logins->is_started) {
        print_rows(&logins->session);
    }
    print_given(&logins->given);
}

static void note(struct desk *desk, struct given *given, uint64_t number) {
    desk->all_accepted = desk->all_accepted && number == OPC_ACCEPTED;
    for (size_t i = 0; i < COUNT(number_rows); i++) {
        given->times[i] += number_rows[i].number == number;
    }
}

/* ---- orders, pairs, messages and quotes ---- */

/* A full tally is printed, and the next one begins: no order goes unchecked for it. */
static void make_room(struct desk *desk) {
    if (desk->orders.tally.seen == OPC_MOST_TALLIED) {
        print_tallied("orders", &desk->orders);
        desk->orders = none_tallied;
    }
}

/* The verdict with what a valid order has; what is at fault is printed after it. */
static void print_answer(struct desk *desk, struct given *given, const struct opc_answer *answer) {
    note(desk, given, answer->number);
    print_verdict(answer->number, &desk->terms);
    if (opc_outcome_of(answer->number) != OPC_OUTCOME_REFUSED) {
        printf("; class %s, shape %s, %" PRIu64 " %s", class_name(answer->class_),
               shape_name(answer->shape), answer->pairings,
               answer->pairings == 1 ? "pairing" : "pairings");
    }
}

static void answer_order(struct desk *desk, const struct opc_order *order) {
    make_room(desk);
    struct opc_answer answer = opc_answer_order_tallied(order, &desk->terms.settings,
                                                        &desk->terms.market, &desk->orders.tally);
    printf("%" PRIu64 ": order: ", desk->line_number);
    print_answer(desk, &desk->orders.given, &answer);
    print_order_fault(order, answer.number);
    printf("\n");
}

/* One order of a pair: its verdict as that of any order, and whether it passes. */
static void print_side(struct desk *desk, const char *what, const struct opc_order *order,
                       uint64_t number, uint64_t passes) {
    note(desk, &desk->pairs.given, number);
    printf("%s: ", what);
    print_verdict(number, &desk->terms);
    print_order_fault(order, number);
    printf("; %s", passes_name(passes));
}

static void answer_pair(struct desk *desk, const struct opc_pair *pair) {
    struct opc_pair_answer answer =
        opc_answer_pair(pair, &desk->terms.settings, &desk->terms.market);
    bool agency = answer.agency_passes != 0, contra = answer.contra_passes != 0;
    desk->pairs.seen++;
    desk->pairs.both += agency && contra;
    desk->pairs.agency_alone += agency && !contra;
    desk->pairs.neither += !agency && !contra;
    printf("%" PRIu64 ": pair: ", desk->line_number);
    print_side(desk, "agency order", &pair->agency, answer.agency_number, answer.agency_passes);
    printf("; ");
    print_side(desk, "contra order", &pair->contra, answer.contra_number, answer.contra_passes);
    printf("\n");
}

static void answer_fix(struct desk *desk, const struct opc_fix *fix) {
    make_room(desk);
    struct opc_answer answer = opc_answer_fix_tallied(fix, &desk->terms.settings,
                                                      &desk->terms.market, &desk->orders.tally);
    printf("%" PRIu64 ": fix: ", desk->line_number);
    print_answer(desk, &desk->orders.given, &answer);
    print_message_fault(fix, answer.number);
    printf("\n");
}

/* The library tallies orders and messages alone; this does the same for a quote, without end. */
static void tally_quote(struct opc_tally *tally, enum opc_outcome outcome) {
    tally->seen++;
    tally->refused += outcome == OPC_OUTCOME_REFUSED;
    tally->accepted += outcome == OPC_OUTCOME_ACCEPTED;
    tally->rejected += outcome == OPC_OUTCOME_REJECTED;
}

static void start_quote_answer(struct desk *desk, const char *what, uint64_t number) {
    tally_quote(&desk->quotes.tally, opc_outcome_of(number));
    note(desk, &desk->quotes.given, number);
    printf("%" PRIu64 ": %s: ", desk->line_number, what);
    print_verdict(number, &desk->terms);
}

static void end_quote_answer(uint64_t cancel) {
    printf("; cancel the resting quote: %s\n", cancel == 0 ? "no" : "yes");
}

static void answer_quote(struct desk *desk, const struct opc_quote *quote) {
    struct opc_quote_answer answer =
        opc_answer_quote(quote, &desk->terms.settings, &desk->terms.market);
    start_quote_answer(desk, "quote", answer.number);
    print_quote_fault(quote, answer.number);
    end_quote_answer(answer.cancel);
}

/* Each fill beside the offer, or the bid, that it is of, then what becomes of the size. */
static void print_fills(const struct opc_crossing_quote *crossing,
                        const struct opc_crossing_answer *answer) {
    for (size_t i = 0; i < crossing->prices_len; i++) {
        printf("%s%" PRIu64 " of %" PRIu64 " at ", i == 0 ? "; " : ", ", answer->fills[i],
               crossing->sizes[i]);
        print_value(UNIT_MONEY, crossing->prices[i]);
    }
    printf("; %" PRIu64 " executed, %" PRIu64 " booked, %" PRIu64 " cancelled", answer->executed,
           answer->booked, answer->cancelled);
}

static void answer_crossing(struct desk *desk, const struct opc_crossing_quote *crossing) {
    struct opc_crossing_answer answer =
        opc_answer_crossing_quote(crossing, &desk->terms.settings, &desk->terms.market);
    start_quote_answer(desk, "cross", answer.number);
    if (answer.number == OPC_ACCEPTED) {
        print_fills(crossing, &answer);
    } else {
        print_crossing_fault(crossing, answer.number);
    }
    end_quote_answer(answer.cancel);
}

/* ---- logins ---- */

/* The number that a start with one limit for all logins gets. */
static uint64_t number_of_limit(uint64_t limit) {
    uint64_t limits[OPC_LOGINS];
    struct opc_session session;
    for (size_t i = 0; i < OPC_LOGINS; i++) {
        limits[i] = limit;
    }
    return opc_answer_start(limits, &session);
}

/* How many limits there are, or else the first login whose limit gets the number by itself. */
static void print_limits_fault(const struct request *request, uint64_t number) {
    if (request->limits_len != OPC_LOGINS) {
        printf(": %zu limits for %d logins", request->limits_len, OPC_LOGINS);
        return;
    }
    for (size_t i = 0; i < OPC_LOGINS; i++) {
        if (number_of_limit(request->limits[i]) == number) {
            printf(": login %zu has %" PRIu64, i, request->limits[i]);
            return;
        }
    }
}

/* The session before ends with its tally. */
static void answer_limits(struct desk *desk, const struct request *request) {
    struct logins *logins = &desk->logins;
    print_logins(logins);
    *logins = (struct logins){.is_started = false};
    uint64_t number = opc_start_session(request->limits, request->limits_len,
                                        (uint64_t *)&logins->session, OPC_SESSION_COUNT);
    logins->is_started = number == OPC_ACCEPTED;
    desk->all_accepted = desk->all_accepted && logins->is_started;
    printf("%" PRIu64 ": limits: ", desk->line_number);
    /* In terms that are right: it is no field of these that is refused. */
    print_verdict(number, &first_terms);
    if (logins->is_started) {
        printf("; a session is started");
    } else {
        print_limits_fault(request, number);
    }
    printf("\n");
}

/* The line's end: why a session is refused, or that this rejection restricts its login. */
static void end_login_answer(const struct logins *logins, uint64_t login, uint64_t number) {
    if (number == OPC_BAD_TALLY) {
        printf(": %s", logins->is_started ? "the session is full" : "no session is started");
    } else if (opc_outcome_of(number) == OPC_OUTCOME_REJECTED &&
               opc_is_restricted(&logins->session.logins[login])) {
        printf("; login %" PRIu64 " is restricted now", login);
    }
    printf("\n");
}

/* An order of a login, or one in a message. */
static void answer_login(struct desk *desk, const struct request *request) {
    struct logins *logins = &desk->logins;
    const struct terms *terms = &desk->terms;
    const uint64_t login = request->login;
    bool is_fix = request->kind == REQUEST_LOGIN_FIX;
    struct opc_answer answer =
        is_fix ? opc_answer_fix_session(login, &request->fix, &terms->settings, &terms->market,
                                        &logins->session)
               : opc_answer_order_session(login, &request->order, &terms->settings, &terms->market,
                                          &logins->session);
    printf("%" PRIu64 ": login %" PRIu64 " %s: ", desk->line_number, login,
           is_fix ? "fix" : "order");
    print_answer(desk, &logins->given, &answer);
    if (is_fix) {
        print_message_fault(&request->fix, answer.number);
    } else {
        print_order_fault(&request->order, answer.number);
    }
    end_login_answer(logins, login, answer.number);
}

static void answer_release(struct desk *desk, uint64_t login) {
    uint64_t number = opc_answer_release(login, &desk->logins.session);
    desk->all_accepted = desk->all_accepted && number == OPC_ACCEPTED;
    printf("%" PRIu64 ": release %" PRIu64 ": ", desk->line_number, login);
    print_verdict(number, &desk->terms);
    if (number == OPC_ACCEPTED) {
        printf("; login %" PRIu64 "'s rejections count from 0", login);
    }
    end_login_answer(&desk->logins, login, number);
}

/* ---- settings and market ---- */

/* A value with its unit, as it was understood. */
static void print_understood(enum unit unit, uint64_t value) {
    static const char *const phases[] = {
        [OPC_PHASE_PRE_OPENING] = "before the opening",
        [OPC_PHASE_OPEN] = "open",
        [OPC_PHASE_HALT] = "halt",
    };
    print_value(unit, value);
    printf("%s", value == 1 ? unit_names[unit].one : unit_names[unit].other);
    if (unit == UNIT_MONEY) {
        printf(" (%" PRIu64 " %s)", value, value == 1 ? "mill" : "mills");
    } else if (unit == UNIT_PHASE) {
        printf(" (%s)", name_in(phases, COUNT(phases), value));
    } else if (unit == UNIT_SWITCH) {
        printf(" (%s)", value == 0 ? "no" : "yes");
    }
}

/* Prints what the line set, and what of the terms the library now refuses. */
static void answer_set(struct desk *desk, const struct request *request) {
    const struct terms *terms = &request->terms;
    /* Settings are refused before the market: so each is asked beside the first of the other. */
    const struct terms halves[] = {{terms->settings, first_terms.market},
                                   {first_terms.settings, terms->market}};
    printf("%" PRIu64 ": set: ", desk->line_number);
    for (size_t i = 0; i < request->set_len; i++) {
        const struct settable *settable = request->set[i];
        printf("%s%s ", i == 0 ? "" : ", ", settable->name);
        print_understood(settable->unit, value_of(terms, settable));
    }
    for (size_t i = 0; i < COUNT(halves); i++) {
        uint64_t number = number_in(&halves[i]);
        if (opc_outcome_of(number) == OPC_OUTCOME_REFUSED) {
            printf("; ");
            print_verdict(number, terms);
            desk->all_accepted = false;
        }
    }
    printf("\n");
}

/* Prints the terms as `set` takes them. */
static void answer_show(const struct desk *desk) {
    for (size_t i = 0; i < COUNT(settables); i++) {
        const struct settable *settable = &settables[i];
        uint64_t value = value_of(&desk->terms, settable);
        if (i == 0 || i == OPC_SETTINGS_COUNT) {
            printf("%s%" PRIu64 ": %s:", i == 0 ? "" : "\n", desk->line_number,
                   i == 0 ? "settings" : "market");
        }
        printf(" %s=", settable->name);
        print_value(settable->unit, value);
    }
    printf("\n");
}

static void answer_reset(const struct desk *desk) {
    printf("%" PRIu64 ": reset: settings and market are those of the start\n", desk->line_number);
}

/* ---- a file of lines ---- */

static void answer_request(struct desk *desk, const struct request *request) {
    switch (request->kind) {
    case REQUEST_ORDER:
        answer_order(desk, &request->order);
        break;
    case REQUEST_PAIR:
        answer_pair(desk, &request->pair);
        break;
    case REQUEST_FIX:
        answer_fix(desk, &request->fix);
        break;
    case REQUEST_QUOTE:
        answer_quote(desk, &request->quote);
        break;
    case REQUEST_CROSSING:
        answer_crossing(desk, &request->crossing);
        break;
    case REQUEST_LIMITS:
        answer_limits(desk, request);
        break;
    case REQUEST_LOGIN_ORDER:
    case REQUEST_LOGIN_FIX:
        answer_login(desk, request);
        break;
    case REQUEST_RELEASE:
        answer_release(desk, request->login);
        break;
    case REQUEST_SET:
        answer_set(desk, request);
        break;
    case REQUEST_RESET:
        answer_reset(desk);
        break;
    case REQUEST_SHOW:
        answer_show(desk);
        break;
    case REQUEST_NOTHING:
        break;
    }
    desk->terms = request->terms;
}

static bool is_regular(FILE *file) {
    struct stat about;
    return fstat(fileno(file), &about) == 0 && S_ISREG(about.st_mode);
}

/* Whoever writes into a pipe or a terminal may wait for an answer to send the next line. */
static void end_answer(const struct desk *desk) {
    if (desk->is_awaited) {
        fflush(stdout);
    }
}

/* Answers every line of the file; false if one could not be read. */
static bool answer_lines(struct desk *desk, FILE *file, const char *name) {
    struct line line;
    struct request request;
    bool are_read = true;
    while (next_line(file, &line)) {
        desk->line_number++;
        if (read_request(&line, &desk->terms, &request)) {
            answer_request(desk, &request);
        } else {
            /* So that answers and faults keep their sequence where they share a file. */
            fflush(stdout);
            fprintf(stderr, "%s:%" PRIu64 ":%zu: %s %s\n", name, desk->line_number,
                    line.fault_at + 1, line.field, line.trouble);
            are_read = false;
        }
        end_answer(desk);
    }
    return are_read;
}

/* Answers every line of the file as a message, of any bytes and any length, with no flags. */
static void answer_messages(struct desk *desk, FILE *file) {
    char *line = NULL;
    size_t room = 0;
    for (ssize_t len = getline(&line, &room, file); len > 0; len = getline(&line, &room, file)) {
        const struct opc_fix fix = {.message = (const uint8_t *)line,
                                    .message_len = (size_t)len - (line[len - 1] == '\n')};
        desk->line_number++;
        answer_fix(desk, &fix);
        end_answer(desk);
    }
    free(line);
}

struct options {
    bool is_strict;
    bool is_fix; /* every line of the file is a message */
};

/* Answers a file, and gives the exit status. */
static int answer_file(FILE *file, const char *name, const struct options *options) {
    struct desk desk = {
        .terms = first_terms, .all_accepted = true, .is_awaited = !is_regular(file)};
    bool are_read = true;
    if (options->is_fix) {
        answer_messages(&desk, file);
    } else {
        are_read = answer_lines(&desk, file, name);
    }
    if (!feof(file)) {
        fprintf(stderr, "desk: %s: %s\n", name, strerror(errno));
        return EXIT_TROUBLE;
    }
    print_tallied("orders", &desk.orders);
    print_pairs(&desk.pairs);
    print_tallied("quotes", &desk.quotes);
    print_logins(&desk.logins);
    return !are_read                                  ? EXIT_UNREAD
           : options->is_strict && !desk.all_accepted ? EXIT_NOT_ACCEPTED
                                                      : EXIT_READ;
}

static int answer_named(const char *name, const struct options *options) {
    FILE *file = fopen(name, "r");
    if (file == NULL) {
        fprintf(stderr, "desk: %s: %s\n", name, strerror(errno));
        return EXIT_TROUBLE;
    }
    int status = answer_file(file, name, options);
    fclose(file);
    return status;
}

static int say_usage(void) {
    fprintf(stderr, "usage: host/desk [--strict] [--fix] [--] [FILE]\n"
                    "       host/desk --help\n");
    return EXIT_TROUBLE;
}

int main(int argc, char **argv) {
    struct options options = {.is_strict = false};
    int i = 1;
    for (; i < argc && argv[i][0] == '-'; i++) {
        if (strcmp(argv[i], "--") == 0) {
            i++;
            break;
        }
        if (strcmp(argv[i], "--strict") == 0) {
            options.is_strict = true;
        } else if (strcmp(argv[i], "--fix") == 0) {
            options.is_fix = true;
        } else {
            return say_usage();
        }
    }
    if (argc - i > 1) {
        return say_usage();
    }
    int status = i < argc ? answer_named(argv[i], &options) : answer_file(stdin, "stdin", &options);
    if (fflush(stdout) != 0 || ferror(stdout)) {
        fprintf(stderr, "desk: standard output: %s\n", strerror(errno));
        return EXIT_TROUBLE;
    }
    return status;
}
