/*
 * What a line of host/desk asks for, read into structs; host/desk.help says how a line is written.
 *
 * No rule of the checks is here. What can be said to the library is kept as it was written, so that
 * the refusal is the library's; only what cannot be said to it is a line that cannot be read.
 */
#ifndef REQUESTS_H
#define REQUESTS_H

#include "count.h"
#include "lines.h"
#include "option_price_check.h"

/* Of an order; more cannot be read. */
#define LEGS_READ 100
/* Of a line that starts a session; more cannot be read. */
#define LIMITS_READ 100
/* Of what is resting against a crossing quote; more cannot be read. */
#define RESTING_READ 100

/* What an order or a quote is checked against; `set` changes it. */
struct terms {
    struct opc_settings settings;
    struct opc_market market;
};

static const struct terms first_terms = {OPC_EXAMPLE_SETTINGS, OPC_EMPTY_MARKET};

/* ---- the names of `set` ---- */

enum unit { UNIT_MONEY, UNIT_TICKS, UNIT_SWITCH, UNIT_HUNDREDTHS, UNIT_PHASE };

/* What is wrong with a value that is not of the unit. */
static const char *const unit_troubles[] = {
    [UNIT_MONEY] = "is neither dollars with a point, such as 1.25, nor mills, such as 1250",
    [UNIT_TICKS] = "is not a whole number of ticks",
    [UNIT_SWITCH] = "is not a whole number, 0 for no and any other for yes",
    [UNIT_HUNDREDTHS] = "is not a whole number of hundredths of a percent",
    [UNIT_PHASE] = "is not a whole number, 0 before the opening, 1 open, 2 in a halt",
};

struct settable {
    const char *name;
    size_t place; /* in struct terms, of an uint64_t */
    enum unit unit;
};

#define SETTING(name, unit)                                                                        \
    { #name, offsetof(struct terms, settings.name), UNIT_##unit }
#define MARKET(name, unit)                                                                         \
    { #name, offsetof(struct terms, market.name), UNIT_##unit }

/* The fields of settings and market, in their sequence. */
static const struct settable settables[] = {
    SETTING(check_20, SWITCH),
    SETTING(check_21, SWITCH),
    SETTING(check_22, SWITCH),
    SETTING(check_23, SWITCH),
    SETTING(check_24, SWITCH),
    SETTING(check_25, SWITCH),
    SETTING(check_26, SWITCH),
    SETTING(tick_below_3000, MONEY),
    SETTING(tick_from_3000, MONEY),
    SETTING(net_increment, MONEY),
    SETTING(atd_below_1000, TICKS),
    SETTING(atd_to_2999, TICKS),
    SETTING(atd_to_9999, TICKS),
    SETTING(atd_from_10000, TICKS),
    SETTING(percentage, HUNDREDTHS),
    SETTING(preset_minimum, MONEY),
    SETTING(preset_maximum, MONEY),
    SETTING(set_ticks, TICKS),
    SETTING(adjusted, SWITCH),
    SETTING(european_index, SWITCH),
    MARKET(phase, PHASE),
    MARKET(open_elsewhere, SWITCH),
    MARKET(extended_hours, SWITCH),
    MARKET(underlying, MONEY),
    MARKET(nbb, MONEY),
    MARKET(nbo, MONEY),
    MARKET(own_bid, MONEY),
    MARKET(own_offer, MONEY),
    MARKET(previous_close, MONEY),
};
#undef SETTING
#undef MARKET

OPC_STATIC_ASSERT(COUNT(settables) * sizeof(uint64_t) == sizeof(struct terms),
                  "every field of settings and market can be set");

static inline uint64_t value_of(const struct terms *terms, const struct settable *settable) {
    uint64_t value;
    memcpy(&value, (const char *)terms + settable->place, sizeof value);
    return value;
}

static inline void put_value(struct terms *terms, const struct settable *settable, uint64_t value) {
    memcpy((char *)terms + settable->place, &value, sizeof value);
}

/* ---- a request ---- */

enum request_kind {
    REQUEST_NOTHING, /* an empty line, or a comment alone */
    REQUEST_ORDER,
    REQUEST_PAIR,
    REQUEST_FIX,
    REQUEST_QUOTE,
    REQUEST_CROSSING,
    REQUEST_LIMITS,
    REQUEST_LOGIN_ORDER,
    REQUEST_LOGIN_FIX,
    REQUEST_RELEASE,
    REQUEST_SET,
    REQUEST_RESET,
    REQUEST_SHOW
};

/* The bytes of an order's legs. */
struct leg_bytes {
    uint8_t symbols[LEGS_READ * OPC_SYMBOL_LENGTH];
    uint8_t counts[LEGS_READ * OPC_COUNT_LENGTH];
};

/* Orders, message and quotes point into the request, which so is not to be copied. */
struct request {
    enum request_kind kind;
    struct opc_order order;
    struct opc_pair pair;
    struct opc_fix fix;
    struct opc_quote quote;
    struct opc_crossing_quote crossing;
    uint64_t resting_prices[RESTING_READ], resting_sizes[RESTING_READ];
    uint64_t limits[LIMITS_READ]; /* of a session that is started */
    size_t limits_len;
    uint64_t login;                               /* of an order, a message or a release */
    struct terms terms;                           /* that hold after the line */
    const struct settable *set[COUNT(settables)]; /* by the line, in its sequence */
    size_t set_len;
    struct leg_bytes legs; /* of an order, or the agency order; of a quote the first symbol */
    struct leg_bytes contra_legs;
    uint8_t message[LINE_LENGTH];
};

/* ---- the fields of orders, messages and quotes ---- */

static inline bool take_dollars(struct line *line, const char *name, uint64_t *mills) {
    struct field field;
    if (!take(line, name, &field)) {
        return false;
    }
    const char *trouble = read_dollars(field, mills);
    return trouble == NULL || fault(line, field, name, trouble);
}

static inline bool take_price(struct line *line, int64_t *price) {
    struct field field;
    if (!take(line, "price", &field)) {
        return false;
    }
    char sign = sign_of(field);
    uint64_t mills;
    const char *trouble = read_dollars(without(field, sign != 0), &mills);
    trouble = trouble == NULL ? with_sign(sign, mills, price) : trouble;
    return trouble == NULL || fault(line, field, "price", trouble);
}

static inline bool take_count(struct line *line, int64_t *count) {
    struct field field;
    if (!take(line, "count", &field)) {
        return false;
    }
    char sign = sign_of(field);
    uint64_t size;
    const char *trouble = sign == 0 ? "does not begin with + or -" : NULL;
    trouble = trouble == NULL ? read_whole(without(field, 1), &size) : trouble;
    trouble = trouble == NULL ? with_sign(sign, size, count) : trouble;
    return trouble == NULL || fault(line, field, "count", trouble);
}

/* A root is six bytes with spaces at the end; two more still are a number, so the library's. */
static inline bool take_root(struct line *line, uint64_t *root) {
    struct field field;
    if (!take(line, "root", &field)) {
        return false;
    }
    if (field.len > sizeof *root) {
        return fault(line, field, "root", "has more than eight characters");
    }
    *root = 0;
    for (size_t i = 0; i < field.len || i < OPC_ROOT_LENGTH; i++) {
        *root = *root << 8 | (uint8_t)(i < field.len ? field.text[i] : ' ');
    }
    return true;
}

static inline bool take_expiry(struct line *line, struct opc_symbol_parts *parts) {
    struct field field;
    uint64_t yymmdd;
    if (!take(line, "expiry", &field)) {
        return false;
    }
    if (field.len != 6 || read_whole(field, &yymmdd) != NULL) {
        return fault(line, field, "expiry", "is not six digits, yymmdd");
    }
    parts->year = 2000 + yymmdd / 10000;
    parts->month = yymmdd / 100 % 100;
    parts->day = yymmdd % 100;
    return true;
}

static inline bool take_type(struct line *line, uint64_t *option_type) {
    struct field field;
    if (!take(line, "type", &field)) {
        return false;
    }
    if (field.len != 1) {
        return fault(line, field, "type", "is not one character, C or P");
    }
    *option_type = (uint8_t)field.text[0];
    return true;
}

/*
 * Whether the 21 bytes of a symbol come next, with blanks in the root alone, and no comment or next
 * leg among them. A series in parts never looks so: no part is as long as what follows a root.
 */
static inline bool next_symbol(const struct line *line, struct field *symbol) {
    size_t start = place_of(line, next_field(line));
    size_t end = start + OPC_SYMBOL_LENGTH;
    if (end > line->len) {
        return false;
    }
    for (size_t i = start; i < end; i++) {
        char c = line->text[i];
        bool in_root = i < start + OPC_ROOT_LENGTH;
        bool begins = i == start || is_blank(line->text[i - 1]);
        if (c == ';' || (is_blank(c) && !in_root) || (c == '#' && (begins || !in_root))) {
            return false;
        }
    }
    *symbol = (struct field){line->text + start, OPC_SYMBOL_LENGTH};
    return end == line->len || is_blank(line->text[end]) || line->text[end] == ';';
}

/*
 * Writes the series' symbol. Where no symbol has these parts, the writer leaves the zeros, which
 * are outside the layout too: so the check itself refuses them, in its own sequence of refusals.
 */
static inline bool take_series(struct line *line, uint8_t out[OPC_SYMBOL_LENGTH]) {
    struct opc_symbol_parts parts;
    struct field symbol;
    uint64_t number;
    if (next_symbol(line, &symbol)) {
        memcpy(out, symbol.text, OPC_SYMBOL_LENGTH);
        pass(line, symbol);
        return true;
    }
    if (!take_root(line, &parts.root) || !take_expiry(line, &parts) ||
        !take_type(line, &parts.option_type) || !take_dollars(line, "strike", &parts.strike)) {
        return false;
    }
    memset(out, 0, OPC_SYMBOL_LENGTH);
    opc_write_symbol_parts(&parts, out, OPC_SYMBOL_LENGTH, &number);
    return true;
}

/* Whether a word comes next: no other field begins with a small letter. */
static inline bool is_word(struct field field) {
    return field.len > 0 && field.text[0] >= 'a' && field.text[0] <= 'z';
}

/* A word that a line may have. */
struct word {
    const char *name;
    uint64_t *flag; /* that it sets */
    int64_t *count; /* that comes after it; NULL where none does */
};

/* Reads the words that come next, each of which must be one of these, and there once. */
static inline bool take_words(struct line *line, const struct word words[], size_t len) {
    for (struct field next = next_field(line); is_word(next); next = next_field(line)) {
        size_t i = 0;
        while (i < len && !is(next, words[i].name)) {
            i++;
        }
        if (i == len) {
            return is_at_end(line);
        }
        if (*words[i].flag != 0) {
            return fault(line, next, words[i].name, "is there twice");
        }
        *words[i].flag = 1;
        pass(line, next);
        if (words[i].count != NULL && !take_count(line, words[i].count)) {
            return false;
        }
    }
    return true;
}

/*
 * The message: all after one blank to the line's end, or to the blanks before a comment. A '|' is
 * byte 1.
 */
static inline void take_message(struct line *line, struct request *request) {
    size_t start = line->at + (line->at < line->len && is_blank(line->text[line->at]));
    size_t end = start;
    while (end < line->len &&
           (line->text[end] != '#' || (end > start && !is_blank(line->text[end - 1])))) {
        end++;
    }
    while (end < line->len && end > start && is_blank(line->text[end - 1])) {
        end--;
    }
    for (size_t i = start; i < end; i++) {
        char c = line->text[i];
        request->message[i - start] = c == '|' ? 1 : (uint8_t)c;
    }
    request->fix.message = request->message;
    request->fix.message_len = end - start;
}

/* ---- the kinds of lines ---- */

static inline bool take_leg(struct line *line, struct leg_bytes *legs, size_t leg) {
    int64_t count;
    if (leg == LEGS_READ) {
        return fault(line, next_field(line), "order", "has more than 100 legs");
    }
    if (!take_count(line, &count) || !take_series(line, legs->symbols + leg * OPC_SYMBOL_LENGTH)) {
        return false;
    }
    opc_write_count(count, legs->counts + leg * OPC_COUNT_LENGTH);
    return true;
}

/* Legs up to the first word or the line's end: none, if that comes at once. */
static inline bool take_legs(struct line *line, struct leg_bytes *legs, size_t *len) {
    struct field next = next_field(line);
    *len = 0;
    if (next.len == 0 || is_word(next)) {
        return true;
    }
    while (take_leg(line, legs, *len)) {
        (*len)++;
        next = next_field(line);
        if (!is(next, ";")) {
            return true;
        }
        pass(line, next);
    }
    return false;
}

/* Price, legs and words, up to the line's end. */
static inline bool take_order(struct line *line, struct opc_order *order, struct leg_bytes *legs) {
    uint64_t has_shares = 0; /* the word, whatever its count */
    const struct word words[] = {{"market", &order->kind, NULL},
                                 {"stop", &order->stop, NULL},
                                 {"manual", &order->manual, NULL},
                                 {"opening", &order->opening, NULL},
                                 {"shares", &has_shares, &order->shares}};
    size_t len;
    *order = (struct opc_order){.kind = OPC_KIND_LIMIT};
    if (!take_price(line, &order->price) || !take_legs(line, legs, &len) ||
        !take_words(line, words, COUNT(words)) || !is_at_end(line)) {
        return false;
    }
    order->symbols = legs->symbols;
    order->symbols_len = len * OPC_SYMBOL_LENGTH;
    order->counts = legs->counts;
    order->counts_len = len * OPC_COUNT_LENGTH;
    return true;
}

static inline bool read_order(struct line *line, struct request *request) {
    return take_order(line, &request->order, &request->legs);
}

/* The one '/' among the fields that come next, which stay the next ones. */
static inline bool find_slash(struct line *line, struct field *slash) {
    const size_t at = line->at;
    *slash = (struct field){NULL, 0};
    struct field next = next_field(line);
    for (; next.len > 0; next = next_field(line)) {
        if (is(next, "/")) {
            if (slash->len > 0) {
                return fault(line, next, "/", "is there twice");
            }
            *slash = next;
        }
        pass(line, next);
    }
    line->at = at;
    return slash->len > 0 || fault(line, next, "/", "is missing");
}

/* For the agency order the line ends where the '/' is. */
static inline bool read_pair(struct line *line, struct request *request) {
    struct opc_pair *pair = &request->pair;
    const struct word words[] = {{"unpaired", &pair->continue_unpaired, NULL}};
    const size_t len = line->len;
    struct field slash;
    *pair = (struct opc_pair){.continue_unpaired = 0};
    if (!take_words(line, words, COUNT(words)) || !find_slash(line, &slash)) {
        return false;
    }
    line->len = place_of(line, slash);
    bool is_taken = take_order(line, &pair->agency, &request->legs);
    line->len = len;
    pass(line, slash);
    return is_taken && take_order(line, &pair->contra, &request->contra_legs);
}

/* Of a message a word is a flag: it says all else itself, and has no shares. */
static inline bool read_fix(struct line *line, struct request *request) {
    struct opc_fix *fix = &request->fix;
    const struct word words[] = {{"stop", &fix->stop, NULL},
                                 {"manual", &fix->manual, NULL},
                                 {"opening", &fix->opening, NULL}};
    *fix = (struct opc_fix){.message_len = 0};
    if (!take_words(line, words, COUNT(words))) {
        return false;
    }
    take_message(line, request);
    return true;
}

/* Series, bid, offer and word, up to the line's end. */
static inline bool take_quote(struct line *line, struct opc_quote *quote,
                              uint8_t symbol[OPC_SYMBOL_LENGTH]) {
    const struct word words[] = {{"resting", &quote->resting, NULL}};
    *quote = (struct opc_quote){.symbol = symbol, .symbol_len = OPC_SYMBOL_LENGTH};
    return take_series(line, symbol) && take_dollars(line, "bid", &quote->bid) &&
           take_dollars(line, "offer", &quote->offer) && take_words(line, words, COUNT(words)) &&
           is_at_end(line);
}

static inline bool read_quote(struct line *line, struct request *request) {
    return take_quote(line, &request->quote, request->legs.symbols);
}

static inline bool take_whole(struct line *line, const char *name, uint64_t *number) {
    struct field field;
    if (!take(line, name, &field)) {
        return false;
    }
    const char *trouble = read_whole(field, number);
    return trouble == NULL || fault(line, field, name, trouble);
}

static inline bool take_side(struct line *line, uint64_t *sell) {
    struct field field;
    if (!take(line, "side", &field)) {
        return false;
    }
    *sell = is(field, "sell");
    return *sell != 0 || is(field, "buy") || fault(line, field, "side", "is neither buy nor sell");
}

/* A price, a colon and a size, without blanks. */
static inline bool take_resting(struct line *line, uint64_t *price, uint64_t *size) {
    struct field field;
    if (!take(line, "offer or bid", &field)) {
        return false;
    }
    const char *colon = memchr(field.text, ':', field.len);
    if (colon == NULL) {
        return fault(line, field, "offer or bid",
                     "is not PRICE:SIZE, such as 1.25:10; a / stands before the quote");
    }
    const struct field dollars = {field.text, (size_t)(colon - field.text)};
    const struct field contracts = without(field, dollars.len + 1);
    const char *trouble = read_dollars(dollars, price);
    if (trouble != NULL) {
        return fault(line, dollars, "price", trouble);
    }
    trouble = read_whole(contracts, size);
    return trouble == NULL || fault(line, contracts, "size", trouble);
}

/* What is resting, up to the '/'. */
static inline bool take_list(struct line *line, struct request *request) {
    size_t len = 0;
    struct field next = next_field(line);
    for (; !is(next, "/"); next = next_field(line)) {
        if (next.len == 0) {
            return fault(line, next, "/", "is missing");
        }
        if (len == RESTING_READ) {
            return fault(line, next, "line", "has more than 100 that are resting");
        }
        if (!take_resting(line, &request->resting_prices[len], &request->resting_sizes[len])) {
            return false;
        }
        len++;
    }
    pass(line, next);
    request->crossing.prices = request->resting_prices;
    request->crossing.sizes = request->resting_sizes;
    request->crossing.prices_len = request->crossing.sizes_len = len;
    return true;
}

/* What it is held against comes first; after the '/' it is a quote like any other. */
static inline bool read_crossing(struct line *line, struct request *request) {
    struct opc_crossing_quote *crossing = &request->crossing;
    return take_side(line, &crossing->sell) && take_whole(line, "size", &crossing->size) &&
           take_dollars(line, "away", &crossing->away) && take_list(line, request) &&
           take_quote(line, &crossing->quote, request->legs.symbols);
}

/* One limit is every login's; of any other number of them each is one login's, from login 0 on. */
static inline bool read_limits(struct line *line, struct request *request) {
    uint64_t *limits = request->limits;
    request->limits_len = 0;
    do {
        if (request->limits_len == LIMITS_READ) {
            return fault(line, next_field(line), "line", "has more than 100 limits");
        }
        if (!take_whole(line, "limit", &limits[request->limits_len++])) {
            return false;
        }
    } while (next_field(line).len > 0);
    if (request->limits_len == 1) {
        for (; request->limits_len < OPC_LOGINS; request->limits_len++) {
            limits[request->limits_len] = limits[0];
        }
    }
    return true;
}

/* The login stands before a line's first word. */
static inline bool read_login(struct line *line, struct request *request) {
    if (!take_whole(line, "login", &request->login)) {
        return false;
    }
    struct field word = next_field(line);
    pass(line, word);
    if (is(word, "order")) {
        request->kind = REQUEST_LOGIN_ORDER;
        return read_order(line, request);
    }
    if (is(word, "fix")) {
        request->kind = REQUEST_LOGIN_FIX;
        return read_fix(line, request);
    }
    return fault(line, word, "login", "has neither order nor fix after it");
}

static inline bool read_release(struct line *line, struct request *request) {
    return take_whole(line, "login", &request->login) && is_at_end(line);
}

/* Gives what is wrong with the value, or NULL. */
static inline const char *read_value(struct field text, enum unit unit, uint64_t *value) {
    bool has_point = memchr(text.text, '.', text.len) != NULL;
    const char *trouble =
        unit == UNIT_MONEY && has_point ? read_dollars(text, value) : read_whole(text, value);
    bool is_told = trouble == NULL || trouble == too_large || trouble == more_decimals;
    return is_told ? trouble : unit_troubles[unit];
}

/* The field of settings or market with that name, which the line has not named before. */
static inline bool read_name(struct line *line, struct field name, struct request *request) {
    size_t i = 0;
    while (i < COUNT(settables) && !is(name, settables[i].name)) {
        i++;
    }
    if (i == COUNT(settables)) {
        return fault(line, name, "name", "is no field of settings or market");
    }
    for (size_t k = 0; k < request->set_len; k++) {
        if (request->set[k] == &settables[i]) {
            return fault(line, name, settables[i].name, "is there twice");
        }
    }
    request->set[request->set_len++] = &settables[i];
    return true;
}

static inline bool take_setting(struct line *line, struct request *request) {
    struct field field;
    uint64_t value;
    if (!take(line, "setting", &field)) {
        return false;
    }
    const char *equals = memchr(field.text, '=', field.len);
    if (equals == NULL) {
        return fault(line, field, "setting", "is not name=value");
    }
    struct field name = {field.text, (size_t)(equals - field.text)};
    struct field text = without(field, name.len + 1);
    if (!read_name(line, name, request)) {
        return false;
    }
    const struct settable *settable = request->set[request->set_len - 1];
    const char *trouble = read_value(text, settable->unit, &value);
    if (trouble != NULL) {
        return fault(line, text, "value", trouble);
    }
    put_value(&request->terms, settable, value);
    return true;
}

static inline bool read_set(struct line *line, struct request *request) {
    request->set_len = 0;
    do {
        if (!take_setting(line, request)) {
            return false;
        }
    } while (next_field(line).len > 0);
    return true;
}

static inline bool read_reset(struct line *line, struct request *request) {
    request->terms = first_terms;
    return is_at_end(line);
}

static inline bool read_show(struct line *line, struct request *request) {
    (void)request;
    return is_at_end(line);
}

/*
 * Reads a line, where these are the terms before it. False where it cannot be read: then the line
 * has the fault, and the request holds nothing to be used.
 */
static inline bool read_request(struct line *line, const struct terms *now,
                                struct request *request) {
    static const struct {
        const char *word;
        enum request_kind kind;
        bool (*read)(struct line *line, struct request *request);
    } kinds[] = {
        {"order", REQUEST_ORDER, read_order},
        {"pair", REQUEST_PAIR, read_pair},
        {"fix", REQUEST_FIX, read_fix},
        {"quote", REQUEST_QUOTE, read_quote},
        {"cross", REQUEST_CROSSING, read_crossing},
        {"limits", REQUEST_LIMITS, read_limits},
        {"login", REQUEST_LOGIN_ORDER, read_login},
        {"release", REQUEST_RELEASE, read_release},
        {"set", REQUEST_SET, read_set},
        {"reset", REQUEST_RESET, read_reset},
        {"show", REQUEST_SHOW, read_show},
    };
    request->kind = REQUEST_NOTHING;
    request->terms = *now;
    if (!is_text(line)) {
        return false;
    }
    struct field word = next_field(line);
    if (word.len == 0) {
        return true;
    }
    pass(line, word);
    for (size_t i = 0; i < COUNT(kinds); i++) {
        if (is(word, kinds[i].word)) {
            request->kind = kinds[i].kind;
            return kinds[i].read(line, request);
        }
    }
    return fault(line, word, "line",
                 "begins with none of order, pair, fix, quote, cross, limits, login, release, set, "
                 "reset, show");
}

#endif
