/*
 * Messages: the order that a call holds is written as one, mostly a right one, with fields about it
 * and numbers of many forms, then perhaps damaged. No rule is applied here: what a message gets is
 * for both implementations to say.
 */
#ifndef MESSAGES_H
#define MESSAGES_H

#include "call.h"

#include <inttypes.h>
#include <stdarg.h>
#include <stdio.h>

#define FIELD_END 1
/* More than the fields of any frame. */
#define FRAME_BYTES 64
#define MOST_BODY_BYTES (MOST_MESSAGE_BYTES - FRAME_BYTES)

/* Bytes that are written one after another; what finds no room is left out. */
struct text {
    uint8_t bytes[MOST_MESSAGE_BYTES];
    size_t len;
};

static inline void put_bytes(struct text *text, const void *bytes, size_t len) {
    if (text->len + len <= MOST_BODY_BYTES) {
        memcpy(text->bytes + text->len, bytes, len);
        text->len += len;
    }
}

/* As printf writes it; a '|' becomes the end of a field. */
__attribute__((format(printf, 2, 3))) static inline void put(struct text *text, const char *form,
                                                             ...) {
    char written[96];
    va_list values;
    va_start(values, form);
    int len = vsnprintf(written, sizeof written, form, values);
    va_end(values);
    for (int i = 0; i < len; i++) {
        written[i] = written[i] == '|' ? FIELD_END : written[i];
    }
    put_bytes(text, written, (size_t)len);
}

/* ---- the frame ---- */

/* How many digits length and sum have at least, and by how much they are wrong. */
struct frame_form {
    int length_digits;
    int64_t length_off;
    int sum_digits;
    unsigned sum_off;
};

static const struct frame_form right_frame = {.length_digits = 1, .sum_digits = 3};

/* The call's message with this body. */
static inline void frame(struct call *call, const struct text *body,
                         const struct frame_form *form) {
    char field[FRAME_BYTES];
    unsigned sum = 0;
    int len = snprintf(field, sizeof field, "8=FIX.4.4%c9=%0*" PRId64 "%c35=AB%c", FIELD_END,
                       form->length_digits, (int64_t)body->len + 6 + form->length_off, FIELD_END,
                       FIELD_END);
    memcpy(call->message, field, (size_t)len);
    memcpy(call->message + len, body->bytes, body->len);
    call->message_len = (size_t)len + body->len;
    for (size_t i = 0; i < call->message_len; i++) {
        sum += call->message[i];
    }
    len = snprintf(field, sizeof field, "10=%0*u%c", form->sum_digits, sum % 256 + form->sum_off,
                   FIELD_END);
    memcpy(call->message + call->message_len, field, (size_t)len);
    call->message_len += (size_t)len;
}

/* The place after the next end of a field, or the message's end. */
static inline size_t after_field(const struct call *call, size_t at) {
    while (at < call->message_len && call->message[at] != FIELD_END) {
        at++;
    }
    return at < call->message_len ? at + 1 : at;
}

/* The body of a message whose frame is right: after its third field and before its last. */
static inline struct text body_in(const struct call *call) {
    struct text body = {.len = 0};
    size_t start = after_field(call, after_field(call, after_field(call, 0)));
    put_bytes(&body, call->message + start, call->message_len - start - strlen("10=000|"));
    return body;
}

/* ---- an order as a message ---- */

/* A field beside those of the order: mostly one that is stepped over, at the head of the list. */
static inline void put_other(struct input *in, struct text *body) {
    static const char *const others[] = {
        "58=some text|", "1=|",      "999999999=x|",  "52=20270104-09:30:00|",
        "58=a=b|",       "4=0|",     "400=2|",        "55=XYZ|",
        "556=USD|",      "601=1|",   "100=x|",        "350=AB|",
        "296=1|",        "66136=1|", "1000000000=x|", "058=x|",
        "0=x|",          "=x|",      "58|",           "|",
        "8=FIX.4.4|",    "9=5|",     "35=AB|",        "10=000|",
        "600=x|",        "623=1|",   "624=1|",        "40=1|",
        "44=1|",         "555=0|",
    };
    uint8_t byte = take(in);
    if (byte >= 240) {
        put(body, "%s", PICK(in, others));
    } else if (byte >= 160) {
        put(body, "%s", others[byte % 14]);
    }
}

/* A number as it is, with zeros before it, or something else in its place. */
static inline void put_number(struct input *in, struct text *body, uint64_t number) {
    static const char *const others[] = {"", "-1", "+1", "x", " 1", "1 ", "1.0"};
    static const char *const largest[] = {"999999999999999", "1000000000000000",
                                          "18446744073709551617"};
    uint8_t byte = take(in);
    if (byte < 208) {
        put(body, "%" PRIu64, number);
    } else if (byte < 248) {
        put(body, "%0*" PRIu64, byte % 18, number);
    } else {
        put(body, "%s", byte < 252 ? PICK(in, others) : PICK(in, largest));
    }
}

static inline void put_kind(struct input *in, struct text *body, const struct order *order) {
    static const char *const others[] = {"", "0", "3", "12", "21", "1 ", "x"};
    uint8_t byte = take(in);
    if (byte < 248) {
        put(body, "40=%c|", order->kind == OPC_KIND_LIMIT ? '2' : '1');
    } else {
        put(body, "40=%s|", PICK(in, others));
    }
}

static inline void put_price(struct input *in, struct text *body, const struct order *order) {
    static const char *const others[] = {"",   "-",    ".",    "-.",   "+1",    "--1", "1.", ".5",
                                         "-0", "-0.0", "1..2", "1.2.", "1.234", "1,5", " 1", "1-"};
    static const char *const largest[] = {"999999999999999.999", "-999999999999999.999",
                                          "1000000000000000", "0000000000000001.5"};
    uint64_t size = order->price < 0 ? 0 - (uint64_t)order->price : (uint64_t)order->price;
    const char *sign = order->price < 0 ? "-" : "";
    uint8_t byte = take(in);
    if (byte < 160) {
        put(body, "44=%s%" PRIu64 ".%03" PRIu64 "|", sign, size / 1000, size % 1000);
    } else if (byte < 208) {
        put(body, "44=%s%0*" PRIu64 "|", sign, byte % 18, size / 1000);
    } else if (byte < 240) {
        put(body, "44=%s%" PRIu64 ".%0*" PRIu64 "|", sign, size / 1000, 1 + byte % 4, size % 10);
    } else {
        put(body, "44=%s|", byte < 252 ? PICK(in, others) : PICK(in, largest));
    }
}

static inline void put_group(struct input *in, struct text *body, const struct order *order,
                             size_t leg) {
    static const char *const sides[] = {"", "0", "3", "11", "2 ", "x"};
    int64_t count;
    memcpy(&count, order->counts + leg * OPC_COUNT_LENGTH, sizeof count); /* low byte first */
    uint8_t byte = take(in);
    put(body, "600=");
    /* Seldom of another length. */
    put_bytes(body, order->symbols + leg * OPC_SYMBOL_LENGTH,
              byte < 250 ? OPC_SYMBOL_LENGTH : byte - 230u);
    put(body, "|623=");
    put_number(in, body, count < 0 ? 0 - (uint64_t)count : (uint64_t)count);
    if (take(in) < 252) {
        put(body, "|624=%c|", count < 0 ? '2' : '1');
    } else {
        put(body, "|624=%s|", PICK(in, sides));
    }
}

static inline void put_groups(struct input *in, struct text *body, const struct order *order) {
    size_t legs = order->counts_len / OPC_COUNT_LENGTH;
    if (legs * OPC_SYMBOL_LENGTH > order->symbols_len) {
        legs = order->symbols_len / OPC_SYMBOL_LENGTH;
    }
    put(body, "555=");
    put_number(in, body, legs);
    put(body, "|");
    for (size_t i = 0; i < legs; i++) {
        put_group(in, body, order, i);
    }
}

/* Kind, price and legs in one of their six sequences, with other fields about them. */
static inline void put_order(struct input *in, struct text *body, const struct order *order) {
    static const uint8_t sequences[][3] = {{0, 1, 2}, {0, 2, 1}, {1, 0, 2},
                                           {1, 2, 0}, {2, 0, 1}, {2, 1, 0}};
    const uint8_t *sequence = PICK(in, sequences);
    for (size_t i = 0; i < 3; i++) {
        put_other(in, body);
        if (sequence[i] == 0) {
            put_kind(in, body, order);
        } else if (sequence[i] == 1) {
            put_price(in, body, order);
        } else {
            put_groups(in, body, order);
        }
    }
    put_other(in, body);
}

/* ---- damage ---- */

/* The place of a field's beginning, at or before any place. */
static inline size_t field_before(const struct text *text, size_t at) {
    while (at > 0 && text->bytes[at - 1] != FIELD_END) {
        at--;
    }
    return at;
}

/* Takes out so many bytes, and puts them in again at another place, or twice, or not at all. */
static inline void move_bytes(struct input *in, struct text *text, size_t at, size_t len) {
    uint8_t kept[MOST_MESSAGE_BYTES];
    uint8_t byte = take(in);
    memcpy(kept, text->bytes + at, len);
    if (byte % 4 != 0) {
        memmove(text->bytes + at, text->bytes + at + len, text->len - at - len);
        text->len -= len;
    }
    size_t to = field_before(text, take_number(in, 2) % (text->len + 1));
    if (byte % 4 != 1 && text->len + len <= MOST_BODY_BYTES) {
        memmove(text->bytes + to + len, text->bytes + to, text->len - to);
        memcpy(text->bytes + to, kept, len);
        text->len += len;
    }
}

/* One byte, or one field, is another, gone, twice or elsewhere. */
static inline void damage_text(struct input *in, struct text *text) {
    static const uint8_t bytes[] = {FIELD_END, '=', '0', '1', '2', '9', '-', '.', ' ', '|', 0, 255};
    if (text->len == 0) {
        return;
    }
    size_t at = take_number(in, 2) % text->len;
    uint8_t byte = take(in);
    if (byte < 96) {
        text->bytes[at] = PICK(in, bytes);
    } else if (byte < 128) {
        move_bytes(in, text, at, 1);
    } else {
        size_t start = field_before(text, at), end = at;
        while (end < text->len && text->bytes[end] != FIELD_END) {
            end++;
        }
        move_bytes(in, text, start, end - start + (end < text->len ? 1 : 0));
    }
}

/* A right frame, or a length or a sum in a form that it seldom has. */
static inline struct frame_form shaped_frame(struct input *in) {
    static const int64_t lengths[] = {1, -1, 6, -6, 7, 10, 1000, INT64_C(1) << 32};
    static const unsigned sums[] = {1, 2, 255, 256, 512, 768, 744, 1000};
    struct frame_form form = right_frame;
    uint8_t byte = take(in);
    if (byte >= 248) {
        form.sum_digits = 1 + byte % 4;
    } else if (byte >= 236) {
        form.sum_off = PICK(in, sums);
    } else if (byte >= 224) {
        form.length_off = PICK(in, lengths);
    } else if (byte >= 208) {
        form.length_digits = 1 + byte % 16;
    }
    return form;
}

/* The call's message, of the order that it holds. */
static inline void shaped_message(struct input *in, struct call *call) {
    struct text body = {.len = 0}, message;
    put_order(in, &body, &call->order);
    for (uint8_t times = take(in); times >= 192; times = (uint8_t)(times << 1)) {
        damage_text(in, &body);
    }
    struct frame_form form = shaped_frame(in);
    frame(call, &body, &form);
    if (take(in) >= 240) {
        message.len = call->message_len;
        memcpy(message.bytes, call->message, message.len);
        damage_text(in, &message);
        call->message_len = message.len;
        memcpy(call->message, message.bytes, message.len);
    }
}

#endif
