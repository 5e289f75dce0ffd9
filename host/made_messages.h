/*
 * Messages made for tests and measurements: the orders of made_orders.h as messages, plain ones and
 * in many right ways, and ones that are damaged by chance.
 */
#ifndef MADE_MESSAGES_H
#define MADE_MESSAGES_H

#include "made_orders.h"

#include <stdarg.h>
#include <stdlib.h>

/* More than a megabyte of fields, and a frame around them. */
#define MESSAGE_ROOM 1100000

/* The most digits of a number in a message. */
#define MESSAGE_DIGITS 15

/* A message or the body of one. It is large, so each is static, and handed on by its address. */
struct made_message {
    uint8_t bytes[MESSAGE_ROOM];
    size_t len;
};

/* ---- writing ---- */

/* Puts bytes, which may be some from before that place, at a place of the message. */
static inline void insert_bytes(struct made_message *m, size_t at, const void *bytes, size_t len) {
    if (len > MESSAGE_ROOM - m->len) {
        fprintf(stderr, "made_messages: a message is longer than there is room for\n");
        exit(2);
    }
    memmove(m->bytes + at + len, m->bytes + at, m->len - at);
    memcpy(m->bytes + at, bytes, len);
    m->len += len;
}

static inline void remove_bytes(struct made_message *m, size_t at, size_t len) {
    m->len -= len;
    memmove(m->bytes + at, m->bytes + at + len, m->len - at);
}

static inline void add_bytes(struct made_message *m, const void *bytes, size_t len) {
    insert_bytes(m, m->len, bytes, len);
}

/* Text in which a '|' stands for byte 1. */
static inline void add_text(struct made_message *m, const char *text) {
    size_t at = m->len;
    add_bytes(m, text, strlen(text));
    for (; at < m->len; at++) {
        if (m->bytes[at] == '|') {
            m->bytes[at] = 1;
        }
    }
}

/* The same, of a short text that is written as by printf. */
__attribute__((format(printf, 2, 3))) static inline void add_written(struct made_message *m,
                                                                     const char *form, ...) {
    char text[128];
    va_list values;
    va_start(values, form);
    vsnprintf(text, sizeof text, form, values);
    va_end(values);
    add_text(m, text);
}

/* The text so often that it makes so many bytes or more. */
static inline void add_repeated(struct made_message *m, const char *text, size_t bytes) {
    for (size_t end = m->len + bytes; m->len < end;) {
        add_text(m, text);
    }
}

static inline void start_with(struct made_message *m, const char *text) {
    m->len = 0;
    add_text(m, text);
}

static inline void copy_message(struct made_message *to, const struct made_message *from) {
    to->len = 0;
    add_bytes(to, from->bytes, from->len);
}

/* The fields of the frame that stand before the body, of which there are so many bytes. */
static inline void add_head(struct made_message *m, size_t body_len) {
    add_written(m, "8=FIX.4.4|9=%zu|35=AB|", strlen("35=AB|") + body_len);
}

/* The field that ends the frame, with the sum of all that is there. */
static inline void add_sum(struct made_message *m) {
    unsigned sum = 0;
    for (size_t i = 0; i < m->len; i++) {
        sum += m->bytes[i];
    }
    add_written(m, "10=%03u|", sum % 256);
}

/* The message with this body: the frame around it, length and sum right. */
static inline void frame(struct made_message *message, const struct made_message *body) {
    message->len = 0;
    add_head(message, body->len);
    add_bytes(message, body->bytes, body->len);
    add_sum(message);
}

/* ---- the fields of a body ---- */

static inline size_t fields_of(const struct made_message *body) {
    size_t fields = 0;
    for (size_t i = 0; i < body->len; i++) {
        fields += body->bytes[i] == 1;
    }
    return fields;
}

/* A field's place, and its length with its byte 1. */
struct place {
    size_t at, len;
};

static inline struct place field_at(const struct made_message *body, size_t field) {
    struct place place = {0, 0};
    for (size_t left = field + 1; left > 0; left--) {
        place.at += place.len;
        const uint8_t *from = body->bytes + place.at;
        const uint8_t *end = memchr(from, 1, body->len - place.at);
        place.len = (size_t)(end - from) + 1;
    }
    return place;
}

/* ---- an order as a message ---- */

/* How an order is written: in one plain way, or in any that means the same. */
enum writing { PLAIN, IN_ANY_WAY };

/* How many digits a number is written with at least: leading zeros make them up. */
static inline int digits_in(enum writing writing) {
    return writing == PLAIN || one_in(2) ? 1 : (int)between(1, MESSAGE_DIGITS);
}

static inline void add_kind(struct made_message *body, const struct made_order *m) {
    add_written(body, "40=%c|", m->kind == OPC_KIND_LIMIT ? '2' : '1');
}

/* With three decimals, or with fewer where these are zeros. */
static inline void add_price(struct made_message *body, const struct made_order *m,
                             enum writing writing) {
    uint64_t dollars = size_of(m->price) / 1000, rest = size_of(m->price) % 1000;
    int decimals = 3;
    while (writing == IN_ANY_WAY && decimals > 0 && rest % 10 == 0 && one_in(2)) {
        decimals--;
        rest /= 10;
    }
    add_written(body, "44=%s%0*" PRIu64, m->price < 0 ? "-" : "", digits_in(writing), dollars);
    if (decimals > 0) {
        add_written(body, ".%0*" PRIu64, decimals, rest);
    }
    add_text(body, "|");
}

static inline void add_group(struct made_message *body, const struct made_order *m, size_t leg,
                             enum writing writing) {
    int64_t count = count_of(m, leg);
    add_text(body, "600=");
    add_bytes(body, m->symbols + leg * OPC_SYMBOL_LENGTH, OPC_SYMBOL_LENGTH);
    add_written(body, "|623=%0*" PRIu64 "|624=%c|", digits_in(writing), size_of(count),
                count < 0 ? '2' : '1');
}

static inline void add_legs(struct made_message *body, const struct made_order *m,
                            enum writing writing) {
    add_written(body, "555=%0*zu|", digits_in(writing), legs_of(m));
    for (size_t i = 0; i < legs_of(m); i++) {
        add_group(body, m, i, writing);
    }
}

/* The plain body of an order: kind, price, legs. Lengths that are no legs cannot be said in it. */
static inline void write_body(struct made_message *body, const struct made_order *m) {
    body->len = 0;
    add_kind(body, m);
    add_price(body, m, PLAIN);
    add_legs(body, m, PLAIN);
}

/* Fields that are stepped over, two at most: usual ones, and ones that look like those needed. */
static inline void add_further(struct made_message *body) {
    static const char *const further[] = {
        "11=ORDER-1|",   "49=FIRM|", "52=20270104-09:30:00|",
        "58=some text|", "58=|",     "58=40=2|",
        "4=1|",          "400=3|",   "45=1|",
        "440=x|",        "5=0|",     "55=XYZ|",
        "554=|",         "556=USD|", "60=20270104|",
        "62=1|",         "6=1|",     "6000=|",
        "622=1|",        "625=1|",   "1=|",
        "999999999=x|",  "100=1|",   "350=AB|",
    };
    for (uint64_t left = below(3); left > 0; left--) {
        add_text(body, further[below(COUNT(further))]);
    }
}

/* A right body of the order by chance: any sequence, further fields, leading zeros. */
static inline void random_body(struct made_message *body, const struct made_order *m) {
    unsigned left = 7;
    body->len = 0;
    while (left != 0) {
        unsigned part = 1u << below(3);
        if ((left & part) == 0) {
            continue;
        }
        left -= part;
        add_further(body);
        if (part == 1) {
            add_kind(body, m);
        } else if (part == 2) {
            add_price(body, m, IN_ANY_WAY);
        } else {
            add_legs(body, m, IN_ANY_WAY);
        }
    }
    add_further(body);
}

/* Whether the order's numbers have no more digits than those of a message may. */
static inline bool fits_message(const struct made_order *m) {
    const uint64_t above = 1000000000000000;
    bool fits = size_of(m->price) / 1000 < above;
    for (size_t i = 0; i < legs_of(m); i++) {
        fits = fits && size_of(count_of(m, i)) < above;
    }
    return fits;
}

/* The message with the order's flags, as the entries and the inline functions take it. */
static inline struct opc_fix lend_fix(const struct made_message *message,
                                      const struct made_order *m) {
    struct opc_fix fix = {
        .message = message->bytes,
        .message_len = message->len,
        .stop = m->stop,
        .manual = m->manual,
        .opening = m->opening,
    };
    return fix;
}

#define EACH_OF_FIX(f) (f)->message, (f)->message_len, (f)->stop, (f)->manual, (f)->opening

/* ---- damage ---- */

/* The numbers that refuse an order in a message: its symbols are 21 bytes, and it has no shares. */
static const uint64_t message_refusals[] = {OPC_BAD_LEG_COUNT, OPC_BAD_SYMBOL,   OPC_BAD_COUNT,
                                            OPC_SERIES_TWICE,  OPC_ROOTS_DIFFER, OPC_BAD_PRICE,
                                            OPC_BAD_SETTING,   OPC_BAD_MARKET};
#define MESSAGE_REFUSALS COUNT(message_refusals)

/* One byte or one field is gone, there twice or another: perhaps it is no damage. */
static inline void damage_message(struct made_message *m) {
    static const uint8_t bytes[] = {1, '=', '0', '1', '2', '9', '-', '.', '|', 0, 255};
    struct place field = field_at(m, below(fields_of(m)));
    size_t at = below(m->len);
    switch (below(5)) {
    case 0:
        remove_bytes(m, field.at, field.len);
        break;
    case 1:
        insert_bytes(m, field.at + field.len, m->bytes + field.at, field.len);
        break;
    case 2:
        remove_bytes(m, at, 1);
        break;
    case 3:
        insert_bytes(m, at, &bytes[below(COUNT(bytes))], 1);
        break;
    default:
        m->bytes[at] = bytes[below(COUNT(bytes))];
        break;
    }
}

#endif
