/*
 * Holds docs/HOST.md to the header and the library. Its table "The numbers" has the rows of the
 * header's table. Its table "The numbers of each entry" is read, and each entry must give every
 * number that it says and no other, in calls made by chance; the check of pairs gives each of its
 * two numbers so. Every class, shape and cancel flag is given too, every way in which the orders of
 * a pair pass, and every end of a crossing quote. Run at the top of the repository. Exit status 1
 * and a message on the first failure, one line with the number of checks otherwise.
 */
#include "answers.h"
#include "expect.h"
#include "made_crossing.h"
#include "made_messages.h"
#include "made_orders.h"
#include "made_pairs.h"
#include "made_quotes.h"
#include "made_sessions.h"
#include "option_price_check.h"

#define RANDOM_CASES 100000

static const char *const test_name = "test_numbers";

/* The entry or the name tried last, for the message of a failure. */
static const char *tried = "";

static void print_tried(void) { fprintf(stderr, "  of: %s\n", tried); }

/* docs/HOST.md, from these words on. */
static const char *document_from(const char *words) {
    static char text[1 << 16];
    FILE *file = fopen("docs/HOST.md", "r");
    expect(file != NULL, "docs/HOST.md cannot be opened");
    text[fread(text, 1, sizeof text - 1, file)] = 0;
    fclose(file);
    const char *at = strstr(text, words);
    expect(at != NULL, "a table is not in docs/HOST.md");
    return at + strlen(words);
}

/* Each row is the header's, with more words or none after the meaning. */
static void test_table(void) {
    const char *line = document_from("| outcome | author | meaning |\n|---|---|---|---|---|\n");
    for (size_t i = 0; i < COUNT(number_rows); i++) {
        const struct number_row *r = &number_rows[i];
        char row[512];
        int len = snprintf(row, sizeof row, "| %" PRIu64 " | `%s` | %s | %s | %s", r->number,
                           r->name, outcome_name(opc_outcome_of(r->number)), r->author, r->meaning);
        tried = r->name;
        expect(strncmp(line, row, (size_t)len) == 0, "not the row that docs/HOST.md has");
        line += strcspn(line, "\n") + 1;
    }
    expect(*line == '\n', "docs/HOST.md has a row after the header's last");
}

/* The numbers that a field of the table names, as in "0, 3 to 5 |". */
static uint64_t numbers_in(const char *field) {
    uint64_t set = 0;
    while (*field >= '0' && *field <= '9') {
        char *end;
        unsigned long first = strtoul(field, &end, 10);
        unsigned long last = strncmp(end, " to ", 4) == 0 ? strtoul(end + 4, &end, 10) : first;
        for (unsigned long number = first; number <= last; number++) {
            set |= only(number);
        }
        field = strncmp(end, ", ", 2) == 0 ? end + 2 : end;
    }
    expect(strncmp(field, " |", 2) == 0, "a field of docs/HOST.md cannot be read");
    return set;
}

/* The numbers that docs/HOST.md says of an entry. */
static uint64_t documented(const char *entry) {
    char row[64];
    snprintf(row, sizeof row, "\n| `%s` | ", entry);
    const char *at = strstr(document_from("| entry | numbers |"), row);
    expect(at != NULL, "an entry without a row in docs/HOST.md");
    return numbers_in(at + strlen(row));
}

/* A valid symbol, a damaged one, or one of another length. */
static uint64_t number_read(void) {
    struct made_quote q = random_quote();
    struct opc_symbol_parts parts;
    if (one_in(2)) {
        damage_quote(&q, one_in(2) ? OPC_NOT_21_BYTES : OPC_BAD_SYMBOL);
    }
    return opc_read_symbol_parts(q.symbol, q.symbol_len, &parts);
}

static uint64_t number_written(void) {
    struct opc_symbol_parts parts = {.root = 0x412020202020,
                                     .year = between(1999, 2100),
                                     .month = between(0, 13),
                                     .day = between(0, 32),
                                     .option_type = 'P',
                                     .strike = below(100000000)};
    uint8_t out[OPC_SYMBOL_LENGTH + 1];
    uint64_t number;
    opc_write_symbol_parts(&parts, out, between(OPC_SYMBOL_LENGTH - 1, sizeof out), &number);
    return number;
}

/* A valid order, with shares or without, or a damaged one of three legs or more. */
static struct made_order some_order(void) {
    struct made_order m = random_either(one_in(2) ? between(1, 2) : between(3, OPC_MOST_LEGS));
    if (legs_of(&m) > 2 && one_in(2)) {
        damage(&m, refusals[below(REFUSALS)]);
    }
    return m;
}

static uint64_t number_of_order(void) {
    struct made_order m = some_order();
    struct opc_order order = lend(&m);
    return opc_answer_order(&order, &m.settings, &m.market).number;
}

/* One that adds up, or not. */
static struct opc_tally some_tally(void) {
    return (struct opc_tally){.seen = below(3), .accepted = below(3)};
}

static uint64_t number_tallied(void) {
    struct made_order m = some_order();
    struct opc_order order = lend(&m);
    struct opc_tally tally = some_tally();
    return opc_answer_order_tallied(&order, &m.settings, &m.market, &tally).number;
}

/* An order's message, without its shares, or a damaged one, its length and sum right or as they
 * were. */
static struct opc_fix some_fix(struct made_order *m) {
    static struct made_message body, message;
    *m = some_order();
    random_body(&body, m);
    if (one_in(3)) {
        damage_message(&body);
    }
    frame(&message, &body);
    if (one_in(8)) {
        damage_message(&message);
    }
    return lend_fix(&message, m);
}

static uint64_t number_of_fix(void) {
    struct made_order m;
    struct opc_fix fix = some_fix(&m);
    return opc_answer_fix(&fix, &m.settings, &m.market).number;
}

static uint64_t number_fix_tallied(void) {
    struct made_order m;
    struct opc_fix fix = some_fix(&m);
    struct opc_tally tally = some_tally();
    return opc_answer_fix_tallied(&fix, &m.settings, &m.market, &tally).number;
}

/* A right session, or one that is not. */
static struct opc_session some_session(void) {
    struct opc_session session = random_session();
    session.logins[0].running += one_in(8) ? OPC_MOST_REJECTIONS : 0;
    return session;
}

/* One of the first logins, or none. */
static uint64_t some_login(void) { return one_in(8) ? OPC_LOGINS + below(2) : below(4); }

static uint64_t number_of_start(void) {
    uint64_t limits[OPC_LOGINS], session[OPC_SESSION_COUNT];
    for (size_t i = 0; i < OPC_LOGINS; i++) {
        limits[i] = one_in(OPC_LOGINS) ? 10001 * below(2) : between(1, OPC_MOST_REJECTIONS);
    }
    return opc_start_session(limits, OPC_LOGINS, session, OPC_SESSION_COUNT - below(2));
}

static uint64_t number_in_session(void) {
    struct made_order m = some_order();
    struct opc_order order = lend(&m);
    struct opc_session session = some_session();
    return opc_answer_order_session(some_login(), &order, &m.settings, &m.market, &session).number;
}

static uint64_t number_fix_in_session(void) {
    struct made_order m;
    struct opc_fix fix = some_fix(&m);
    struct opc_session session = some_session();
    return opc_answer_fix_session(some_login(), &fix, &m.settings, &m.market, &session).number;
}

static uint64_t number_of_release(void) {
    struct opc_session session = some_session();
    return opc_answer_release(some_login(), &session);
}

static struct opc_pair_answer answer_to_pair(void) {
    struct made_order m = some_order();
    struct made_pair p = random_pair(&m);
    struct opc_pair pair = lend_pair(&p);
    return opc_answer_pair(&pair, &p.agency.settings, &p.agency.market);
}

static uint64_t number_of_agency(void) { return answer_to_pair().agency_number; }

static uint64_t number_of_contra(void) { return answer_to_pair().contra_number; }

static uint64_t number_of_quote(void) {
    struct made_quote q = random_quote();
    if (one_in(2)) {
        damage_quote(&q, quote_refusals[below(QUOTE_REFUSALS)]);
    }
    struct opc_quote quote = lend_quote(&q);
    return opc_answer_quote(&quote, &q.settings, &q.market).number;
}

static struct opc_crossing_answer answer_to_crossing(void) {
    struct made_crossing c = random_crossing();
    if (one_in(3)) {
        damage_crossing(&c);
    }
    if (one_in(3)) {
        damage_quote(&c.quote, quote_refusals[below(QUOTE_REFUSALS)]);
    }
    struct opc_crossing_quote crossing = lend_crossing(&c);
    return opc_answer_crossing_quote(&crossing, &c.quote.settings, &c.quote.market);
}

static uint64_t number_of_crossing(void) { return answer_to_crossing().number; }

static void test_numbers(void) {
    static const struct {
        const char *name;
        uint64_t (*number)(void);
    } entries[] = {
        {"opc_read_symbol", number_read},
        {"opc_write_symbol", number_written},
        {"opc_check_order", number_of_order},
        {"opc_check_order_tallied", number_tallied},
        {"opc_check_fix", number_of_fix},
        {"opc_check_fix_tallied", number_fix_tallied},
        {"opc_start_session", number_of_start},
        {"opc_check_order_session", number_in_session},
        {"opc_check_fix_session", number_fix_in_session},
        {"opc_release_login", number_of_release},
        {"opc_check_pair", number_of_agency},
        {"opc_check_pair", number_of_contra},
        {"opc_check_quote", number_of_quote},
        {"opc_check_crossing_quote", number_of_crossing},
    };
    uint64_t all = 0, rows = 0;
    for (size_t i = 0; i < COUNT(entries); i++) {
        tried = entries[i].name;
        uint64_t said = documented(tried), given = 0;
        for (size_t n = 0; n < RANDOM_CASES; n++) {
            uint64_t number = entries[i].number();
            expect((said & only(number)) != 0, "a number that docs/HOST.md does not say");
            given |= only(number);
        }
        expect(given == said, "a number that docs/HOST.md says, and no call was given");
        all |= given;
    }
    for (size_t i = 0; i < COUNT(number_rows); i++) {
        rows |= only(number_rows[i].number);
    }
    tried = "all of them";
    expect(all == rows, "a number of the header that no entry gives, or one that it does not have");
}

/* One order of each shape, and of each class. */
static void test_shapes_and_classes(void) {
    static const struct {
        size_t legs;
        struct {
            char option_type;
            uint64_t strike;
            int64_t count;
        } leg[4];
    } orders[] = {
        {2, {{'C', 20000, 1}, {'P', 30000, -1}}},
        {2, {{'C', 20000, 1}, {'C', 30000, -1}}},
        {2, {{'C', 20000, -1}, {'C', 30000, 1}}},
        {3, {{'C', 20000, 1}, {'C', 30000, -2}, {'C', 40000, 1}}},
        {3, {{'C', 20000, 1}, {'C', 30000, -2}, {'C', 45000, 1}}},
        {4, {{'C', 20000, 1}, {'C', 30000, -1}, {'P', 20000, -1}, {'P', 30000, 1}}},
    };
    uint64_t shapes = 0, classes = 0;
    tried = "opc_check_order";
    for (size_t i = 0; i < COUNT(orders); i++) {
        struct made_order m = no_legs();
        for (size_t leg = 0; leg < orders[i].legs; leg++) {
            add_leg(&m, 270115, orders[i].leg[leg].option_type, orders[i].leg[leg].strike,
                    orders[i].leg[leg].count);
        }
        struct opc_order order = lend(&m);
        struct opc_answer a = opc_answer_order(&order, &m.settings, &m.market);
        shapes |= only(a.shape);
        classes |= only(a.class_);
    }
    expect(shapes == numbers_in("0 to 4 |"), "a shape that no order was given");
    expect(classes == numbers_in("0 to 2 |"), "a class that no order was given");
}

static void test_cancel_flag(void) {
    uint64_t flags = 0;
    tried = "opc_check_quote";
    for (size_t i = 0; i < RANDOM_CASES; i++) {
        struct made_quote q = random_quote();
        struct opc_quote quote = lend_quote(&q);
        flags |= only(opc_answer_quote(&quote, &q.settings, &q.market).cancel);
    }
    expect(flags == numbers_in("0 to 1 |"), "a cancel flag that no quote was given");
}

/* Neither order passes, the agency order alone, or both: 0, 1 and 3. */
static void test_passes(void) {
    uint64_t ways = 0;
    tried = "opc_check_pair";
    for (size_t i = 0; i < RANDOM_CASES; i++) {
        struct opc_pair_answer a = answer_to_pair();
        expect(a.agency_passes <= 1 && a.contra_passes <= 1, "neither 0 nor 1 for an order");
        ways |= only(a.agency_passes + 2 * a.contra_passes);
    }
    expect(ways == numbers_in("0, 1, 3 |"), "a way to pass that no pair was given, or another");
}

/* Nothing; all is executed; or the rest is booked, or cancelled, after something or nothing. */
static void test_ends(void) {
    uint64_t ends = 0, flags = 0;
    tried = "opc_check_crossing_quote";
    for (size_t i = 0; i < RANDOM_CASES; i++) {
        struct opc_crossing_answer a = answer_to_crossing();
        ends |= only(end_of(&a));
        flags |= only(a.cancel);
    }
    expect(ends == numbers_in("0 to 5 |"), "an end that no crossing quote had, or another");
    expect(flags == numbers_in("0 to 1 |"), "a cancel flag that no crossing quote was given");
}

int main(void) {
    test_table();
    test_numbers();
    test_shapes_and_classes();
    test_cancel_flag();
    test_passes();
    test_ends();
    return all_hold();
}
