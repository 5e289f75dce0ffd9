/*
 * Holds both checks of messages to what document 02, S-1, has of fields: the number that each byte,
 * each tag, each length, sum and value gets, right and wrong ones. Exit status 1 and a message on
 * the first failure, one line with the number of checks otherwise.
 */
#define _DEFAULT_SOURCE /* for lent_bytes.h */
#include "expect.h"
#include "expect_messages.h"
#include "made_messages.h"
#include "option_price_check.h"

static const char *const test_name = "test_fields";

static void print_tried(void) { print_message(); }

/* A list is a text in which a / stands between two items; one may be empty. */
#define ITEM_ROOM 64

/* Takes the first item of a list, which is NULL after the last; false where there is none. */
static bool take_item(const char **list, char item[ITEM_ROOM]) {
    if (*list == NULL) {
        return false;
    }
    size_t len = strcspn(*list, "/");
    memcpy(item, *list, len);
    item[len] = '\0';
    *list = (*list)[len] == '/' ? *list + len + 1 : NULL;
    return true;
}

/* ---- one byte ---- */

/*
 * The fields of the short body, and what a message gets whose byte at that place is an x, or gone,
 * or there twice, with length and sum mended: F is 30, T is 31, V is 32, S is 4, A is accepted.
 * Field 10 follows upon the last.
 */
static const struct {
    const char *text, *changed, *dropped, *doubled;
} short_fields[] = {
    {"40=2|", "FFFVT", "FTFVT", "TTVVF"},
    {"44=1.5|", "FFFVVVT", "TTFVAVT", "TTVAVAF"},
    {"555=1|", "FFFFTT", "TTTFTT", "TTTTTF"},
    {"600=XYZ   270115C00020000|", "FFFFSSSSSSSSSSSSSSSSSSSSST", "FTTFVVVVVVVVVVVVVVVVVVVVVT",
     "TTTVVVVVVVVVVVVVVVVVVVVVVF"},
    {"623=1|", "FFFFVT", "TTTFVT", "TTTVAF"},
    {"624=1|", "FFFFVF", "TTTFVF", "TTTVVF"},
};

static uint64_t number_of(char letter) {
    switch (letter) {
    case 'F':
        return OPC_BAD_FRAME;
    case 'T':
        return OPC_BAD_TAG;
    case 'V':
        return OPC_BAD_VALUE;
    case 'S':
        return OPC_BAD_SYMBOL;
    default:
        return OPC_ACCEPTED;
    }
}

/* The byte at this place, length and sum being mended. */
static void expect_damaged(size_t at, char changed, char dropped, char doubled) {
    static struct made_message body;
    const struct made_order m = no_legs();
    start_with(&body, SHORT_BODY);
    const uint8_t byte = body.bytes[at];
    body.bytes[at] = 'x';
    expect_body(&body, &m, number_of(changed), "an x in place of a byte");
    body.bytes[at] = byte;
    insert_bytes(&body, at, &byte, 1);
    expect_body(&body, &m, number_of(doubled), "a byte that is there twice");
    remove_bytes(&body, at, 2);
    expect_body(&body, &m, number_of(dropped), "a byte that is gone");
}

static void test_bytes_of_body(void) {
    size_t at = 0;
    for (size_t i = 0; i < COUNT(short_fields); i++) {
        for (size_t k = 0; short_fields[i].text[k] != '\0'; k++, at++) {
            expect(SHORT_BODY[at] == short_fields[i].text[k], "not a field of the short body");
            expect_damaged(at, short_fields[i].changed[k], short_fields[i].dropped[k],
                           short_fields[i].doubled[k]);
        }
    }
    expect(SHORT_BODY[at] == '\0', "not all fields of the short body");
}

/* A byte that is any other, gone or there twice: 258 changes, of which 0 is none. */
#define CHANGES 258

static void change_byte(struct made_message *m, size_t at, size_t change) {
    const uint8_t byte = m->bytes[at];
    if (change < 256) {
        m->bytes[at] = (uint8_t)(byte + change);
    } else if (change == 256) {
        remove_bytes(m, at, 1);
    } else {
        insert_bytes(m, at, &byte, 1);
    }
}

/* Every byte in every way, with length and sum as they were. */
static void test_bytes_of_message(void) {
    static struct made_message body, whole, message;
    const struct made_order m = no_legs();
    start_with(&body, SHORT_BODY);
    frame(&whole, &body);
    for (size_t i = 0; i < whole.len * CHANGES; i++) {
        copy_message(&message, &whole);
        change_byte(&message, i / CHANGES, i % CHANGES);
        expect_number(&message, &m, i % CHANGES == 0 ? OPC_ACCEPTED : OPC_BAD_FRAME,
                      "another byte in a message");
    }
}

/* Every byte before the body in every way, with the sum mended. */
static void test_bytes_of_head(void) {
    static struct made_message body, head, message;
    const struct made_order m = no_legs();
    start_with(&body, SHORT_BODY);
    start_with(&head, "");
    add_head(&head, body.len);
    for (size_t i = 0; i < head.len * CHANGES; i++) {
        copy_message(&message, &head);
        change_byte(&message, i / CHANGES, i % CHANGES);
        add_bytes(&message, body.bytes, body.len);
        add_sum(&message);
        expect_number(&message, &m, i % CHANGES == 0 ? OPC_ACCEPTED : OPC_BAD_FRAME,
                      "another head of a message");
    }
}

/* Every byte of the body in every way, with both mended: each gets a number. */
static void test_other_bytes(void) {
    static struct made_message whole, body, message;
    const struct made_order m = no_legs();
    uint64_t seen = 0;
    start_with(&whole, SHORT_BODY);
    for (size_t i = 0; i < whole.len * CHANGES; i++) {
        copy_message(&body, &whole);
        change_byte(&body, i / CHANGES, i % CHANGES);
        frame(&message, &body);
        seen |= only(answer(&message, &m).number);
    }
    uint64_t all = only(OPC_ACCEPTED) | only(OPC_BAD_SYMBOL) | only(OPC_BAD_COUNT) |
                   only(OPC_BAD_PRICE) | only(OPC_BAD_FRAME) | only(OPC_BAD_TAG) |
                   only(OPC_BAD_VALUE);
    expect(seen == all, "a number that no other byte gives, or another one");
}

/* ---- the frame ---- */

/* A short message that says this of its length, and ends in this sum, or else in its own. */
static void expect_frame(const char *length, const char *sum, uint64_t number) {
    static struct made_message message;
    const struct made_order m = no_legs();
    start_with(&message, "8=FIX.4.4|");
    add_written(&message, "9=%s|", length);
    add_text(&message, "35=AB|" SHORT_BODY);
    if (sum == NULL) {
        add_sum(&message);
    } else {
        add_written(&message, "10=%s|", sum);
    }
    expect_number(&message, &m, number, sum == NULL ? length : sum);
}

static void expect_lengths_said(const char *list, uint64_t number) {
    char length[ITEM_ROOM];
    while (take_item(&list, length)) {
        expect_frame(length, NULL, number);
    }
}

/*
 * The right length is 62. Others are near it, leave out field 35, count field 10 or the whole
 * message, or are the same but for digits that a narrower number loses.
 */
static void test_lengths(void) {
    expect_lengths_said("62/062/000000000000062", OPC_ACCEPTED);
    expect_lengths_said("61/63/56/69/84/0/6/2//620/0000000000000062/318/65598/4294967358"
                        "/18446744073709551678/999999999999999/9999999999999999",
                        OPC_BAD_FRAME);
    expect_lengths_said("+62/-62/ 62/62 /62./62.0/6x/x62/62=", OPC_BAD_FRAME);
}

/* The right sum is 142: no other number of three digits, and not in two or four. */
static void test_sums(void) {
    const char *wrong = "/42/0142/142 /14 / 42/+42/14x/x42/1x2/1420";
    char sum[ITEM_ROOM];
    for (unsigned i = 0; i < 1000; i++) {
        snprintf(sum, sizeof sum, "%03u", i);
        expect_frame("62", sum, i == 142 ? OPC_ACCEPTED : OPC_BAD_FRAME);
    }
    while (take_item(&wrong, sum)) {
        expect_frame("62", sum, OPC_BAD_FRAME);
    }
}

/* A message that is cut off at any place, or begins at any other. */
static void test_parts(void) {
    static struct made_message body, whole, message;
    const struct made_order m = no_legs();
    start_with(&body, SHORT_BODY);
    frame(&whole, &body);
    for (size_t len = 0; len < whole.len; len++) {
        start_with(&message, "");
        add_bytes(&message, whole.bytes, len);
        expect_number(&message, &m, OPC_BAD_FRAME, "a message that is cut off");
        start_with(&message, "");
        add_bytes(&message, whole.bytes + whole.len - len, len);
        expect_number(&message, &m, OPC_BAD_FRAME, "a message without its beginning");
    }
}

/* Any byte before a message, after it or alone; and the message twice. */
static void test_surroundings(void) {
    static struct made_message body, whole, message;
    const struct made_order m = no_legs();
    start_with(&body, SHORT_BODY);
    frame(&whole, &body);
    for (unsigned i = 0; i < 256; i++) {
        const uint8_t byte = (uint8_t)i;
        copy_message(&message, &whole);
        add_bytes(&message, &byte, 1);
        expect_number(&message, &m, OPC_BAD_FRAME, "a byte after the message");
        copy_message(&message, &whole);
        insert_bytes(&message, 0, &byte, 1);
        expect_number(&message, &m, OPC_BAD_FRAME, "a byte before the message");
        start_with(&message, "");
        add_bytes(&message, &byte, 1);
        expect_number(&message, &m, OPC_BAD_FRAME, "a message of one byte");
    }
    copy_message(&message, &whole);
    add_bytes(&message, whole.bytes, whole.len);
    expect_number(&message, &m, OPC_BAD_FRAME, "the message twice");
}

/* ---- tags ---- */

/* A body, field by field: a vertical, with fields about it that are stepped over. */
static const struct {
    const char *text;
    bool is_needed;
} fields[] = {
    {"11=A|", false},
    {"40=2|", true},
    {"58=b=c|", false},
    {"44=1.5|", true},
    {"55=XYZ|", false},
    {"555=2|", true},
    {"600=XYZ   270115C00020000|", true},
    {"623=1|", true},
    {"624=1|", true},
    {"600=XYZ   270115C00025000|", true},
    {"623=1|", true},
    {"624=2|", true},
    {"100=d|", false},
};
#define FIELDS COUNT(fields)

/* From 555 to its last 624 no field may be missing, and none come between. */
#define FIRST_OF_RUN 5
#define LAST_OF_RUN 11

/* Fields in the sequence of a body, each named by its place above. */
struct sequence {
    size_t places[FIELDS + 1];
    size_t len;
};

static struct sequence all_fields(void) {
    struct sequence s = {.len = FIELDS};
    for (size_t i = 0; i < FIELDS; i++) {
        s.places[i] = i;
    }
    return s;
}

static void drop_field(struct sequence *s, size_t at) {
    s->len--;
    memmove(s->places + at, s->places + at + 1, (s->len - at) * sizeof s->places[0]);
}

static void insert_field(struct sequence *s, size_t at, size_t field) {
    memmove(s->places + at + 1, s->places + at, (s->len - at) * sizeof s->places[0]);
    s->places[at] = field;
    s->len++;
}

/* Each field that is needed is there once, and each of the run but the last is before its next. */
static bool is_right(const struct sequence *s) {
    size_t times[FIELDS] = {0};
    bool right = true;
    for (size_t i = 0; i < s->len; i++) {
        size_t field = s->places[i];
        bool goes_on = field >= FIRST_OF_RUN && field < LAST_OF_RUN;
        times[field]++;
        right = right && (!goes_on || (i + 1 < s->len && s->places[i + 1] == field + 1));
    }
    for (size_t i = 0; i < FIELDS; i++) {
        right = right && (!fields[i].is_needed || times[i] == 1);
    }
    return right;
}

static void expect_sequence(const struct sequence *s, const char *what) {
    static struct made_message body;
    const struct made_order m = no_legs();
    start_with(&body, "");
    for (size_t i = 0; i < s->len; i++) {
        add_text(&body, fields[s->places[i]].text);
    }
    expect_body(&body, &m, is_right(s) ? OPC_ACCEPTED : OPC_BAD_TAG, what);
}

/* Each field missing, at each place instead of its own, and at each place beside its own. */
static void test_sequences(void) {
    for (size_t i = 0; i < FIELDS * (FIELDS + 1); i++) {
        size_t field = i / (FIELDS + 1), at = i % (FIELDS + 1);
        struct sequence s = all_fields();
        insert_field(&s, at, field);
        expect_sequence(&s, "a field that is there twice");
        drop_field(&s, at <= field ? field + 1 : field);
        expect_sequence(&s, "a field at another place");
        s = all_fields();
        drop_field(&s, field);
        expect(is_right(&s) == !fields[field].is_needed, "a field that is needed");
        expect_sequence(&s, "a field that is missing");
    }
}

/* ---- forms ---- */

/* Each field of the list, before and after the short body, makes the message get the number. */
static void expect_beside(const char *list, uint64_t number) {
    static struct made_message body;
    const struct made_order m = no_legs();
    char field[ITEM_ROOM];
    while (take_item(&list, field)) {
        start_with(&body, SHORT_BODY);
        add_text(&body, field);
        expect_body(&body, &m, number, field);
        start_with(&body, field);
        add_text(&body, SHORT_BODY);
        expect_body(&body, &m, number, field);
    }
}

static void test_tags(void) {
    expect_beside("1=|/999999999=|/100000000=x|/58==|/58=40=2|/58=\t|/58=\x7f\xff|", OPC_ACCEPTED);
    expect_beside("1000000000=|/4294967336=2|/0=|/01=|/058=|/000000001=|/=|/=x|/|/58|/5x=|/x5=|"
                  "/-5=|/+5=|/ 5=|/5 =|/\t5=|",
                  OPC_BAD_FRAME);
    /* The tags of frame and body, in another place or once more. */
    expect_beside("8=FIX.4.4|/9=62|/35=AB|/10=142|/8=|", OPC_BAD_FRAME);
    expect_beside("40=2|/44=1.5|/555=0|/600=XYZ   270115C00025000|/623=1|/624=1|/40=|",
                  OPC_BAD_TAG);
    /* Tags beside them, and ones that begin as they do. */
    expect_beside("7=|/11=|/34=|/36=|/39=|/41=|/43=|/45=|/554=|/556=|/599=|/601=|/622=|/625=|",
                  OPC_ACCEPTED);
    expect_beside("80=|/90=|/100=|/350=|/400=|/440=|/5550=|/6000=|/6230=|/6240=|/4=|/5=|/6=|/3=|",
                  OPC_ACCEPTED);
    /* The same numbers and 256, or 65536, more: digits that a narrower number loses. */
    expect_beside("264=|/265=|/266=|/291=|/296=|/300=|/811=|/856=|/879=|/880=|", OPC_ACCEPTED);
    expect_beside("65544=|/65545=|/65546=|/65571=|/65576=|/65580=|/66091=|/66136=|/66159=|/66160=|",
                  OPC_ACCEPTED);
}

/* The short body's fields, by their place. */
enum { KIND, PRICE, LEGS, SYMBOL, SIZE, SIDE };

/* The short message with each value of the list in one of its fields gets the number. */
static void expect_values(size_t field, const char *list, uint64_t number) {
    static struct made_message body;
    const struct made_order m = no_legs();
    char value[ITEM_ROOM];
    while (take_item(&list, value)) {
        start_with(&body, "");
        for (size_t i = 0; i < COUNT(short_fields); i++) {
            const char *text = short_fields[i].text;
            if (i == field) {
                add_written(&body, "%.*s=%s|", (int)strcspn(text, "="), text, value);
            } else {
                add_text(&body, text);
            }
        }
        expect_body(&body, &m, number, value);
    }
}

static void test_choices(void) {
    static const char wrong[] = "0/3//12/11/22/01/1 / 2/B/-1/1.";
    expect_values(KIND, "1/2", OPC_ACCEPTED);
    expect_values(KIND, wrong, OPC_BAD_VALUE);
    expect_values(SIDE, "1", OPC_ACCEPTED);
    expect_values(SIDE, "2", OPC_BAD_PRICE); /* sold at a price above 0 */
    expect_values(SIDE, wrong, OPC_BAD_VALUE);
}

/* A price of the form may still be 0, below 0 or too large for the order check. */
static void test_prices(void) {
    expect_values(PRICE, "1/1.5/1.55/1.555/0.001/000000000000001/000000000000001.555/1000000000",
                  OPC_ACCEPTED);
    expect_values(PRICE, "0/-0/-0.000/-1/-000000000000001.555/1000000000.001/4294967297",
                  OPC_BAD_PRICE);
    expect_values(PRICE, "999999999999999/999999999999999.999/-999999999999999.999", OPC_BAD_PRICE);
    expect_values(PRICE, "1.5555/1.0000/1./.5/.//-/-./-.5/-1./1..5/1.5.5/1.-5", OPC_BAD_VALUE);
    expect_values(PRICE, "+1/--1/1-/- 1/1,5/1e3/ 1/1 /1.5 /1. 5/1=5/x/0x1", OPC_BAD_VALUE);
    expect_values(PRICE, "0000000000000001/-0000000000000001/0000000000000001.5", OPC_BAD_VALUE);
    expect_values(PRICE, "9999999999999999/18446744073709552/18446744073709551617", OPC_BAD_VALUE);
}

static void test_symbols(void) {
    expect_values(SYMBOL, "XYZ   270115C00020000/ABCDEF991231P99999999", OPC_ACCEPTED);
    expect_values(SYMBOL, "xyz   270115C00020000/=====================/600=XYZ   270115C0002",
                  OPC_BAD_SYMBOL);
    expect_values(SYMBOL, "XYZ   270115C0002000/XYZ   270115C000200000/X/", OPC_BAD_VALUE);
}

static void test_sizes(void) {
    expect_values(SIZE, "1/10000/000000000010000", OPC_ACCEPTED);
    expect_values(SIZE, "0/000000000000000/10001/4294967297/999999999999999", OPC_BAD_COUNT);
    expect_values(SIZE, "/-1/+1/1.0/1./1 / 1/x/0x1/0000000000000001/1000000000000000",
                  OPC_BAD_VALUE);
    expect_values(SIZE, "18446744073709551617", OPC_BAD_VALUE);
}

/* Each value of the list as a number of legs that no group follows upon. */
static void expect_no_groups(const char *list, uint64_t number) {
    static struct made_message body;
    const struct made_order m = no_legs();
    char value[ITEM_ROOM];
    while (take_item(&list, value)) {
        start_with(&body, "40=2|44=1.5|");
        add_written(&body, "555=%s|", value);
        expect_body(&body, &m, number, value);
        add_text(&body, "58=x|");
        expect_body(&body, &m, number, value);
    }
}

/* A value that is not of its form has no groups: a 600 after it is out of sequence. */
static void test_leg_counts(void) {
    static const char one[] = "1/01/000000000000001";
    static const char more[] = "2/17/4294967297/999999999999999";
    static const char none[] = "0/00/000000000000000";
    static const char wrong[] = "/-1/-0/+1/1./1.0/x/1 / 1/0000000000000001/0000000000000000"
                                "/1000000000000000/18446744073709551617";
    expect_values(LEGS, one, OPC_ACCEPTED);
    expect_values(LEGS, more, OPC_BAD_TAG);
    expect_values(LEGS, none, OPC_BAD_TAG);
    expect_values(LEGS, wrong, OPC_BAD_TAG);
    expect_no_groups(one, OPC_BAD_TAG);
    expect_no_groups(more, OPC_BAD_TAG);
    expect_no_groups(none, OPC_BAD_LEG_COUNT);
    expect_no_groups(wrong, OPC_BAD_VALUE);
}

int main(void) {
    test_bytes_of_body();
    test_bytes_of_message();
    test_bytes_of_head();
    test_other_bytes();
    test_lengths();
    test_sums();
    test_parts();
    test_surroundings();
    test_sequences();
    test_tags();
    test_choices();
    test_prices();
    test_symbols();
    test_sizes();
    test_leg_counts();
    return all_hold();
}
