/*
 * Holds the symbol entries to exact answers, and each inline wrapper to its raw entry. Exit status
 * 1 and a message on the first failure, one line with the number of checks otherwise.
 */
#include "chance.h"
#include "count.h"
#include "expect.h"
#include "option_price_check.h"

#include <string.h>

#define RANDOM_CASES 100000
#define LARGEST_BUFFER 64
/* The library's own code is not instrumented, so bytes around a lent buffer show a stray write. */
#define GUARD 16
#define WHOLE_BUFFER (GUARD + LARGEST_BUFFER + GUARD)

static const char letters_and_digits[] = "ABCDEFGHIJKLMNOPQRSTUVWXYZ0123456789";
#define LETTERS 26
#define LETTERS_AND_DIGITS 36

static const char *const test_name = "test_symbols";

/* What is being tried, for the message of a failure. */
static struct {
    const uint8_t *symbol;
    size_t symbol_len;
    const struct opc_symbol_parts *parts;
    size_t out_len;
} now;

static void print_parts(const struct opc_symbol_parts *p) {
    fprintf(stderr,
            "  root 0x%" PRIx64 ", year %" PRIu64 ", month %" PRIu64 ", day %" PRIu64
            ", type %" PRIu64 ", strike %" PRIu64,
            p->root, p->year, p->month, p->day, p->option_type, p->strike);
}

static void print_tried(void) {
    if (now.parts != NULL) {
        print_parts(now.parts);
        fprintf(stderr, ", buffer of %zu bytes\n", now.out_len);
    } else {
        fprintf(stderr, "  symbol of %zu bytes:", now.symbol_len);
        for (size_t i = 0; i < now.symbol_len; i++) {
            fprintf(stderr, " %02x", now.symbol[i]);
        }
        fprintf(stderr, "\n");
    }
}

static bool same_parts(const struct opc_symbol_parts *a, const struct opc_symbol_parts *b) {
    return a->root == b->root && a->year == b->year && a->month == b->month && a->day == b->day &&
           a->option_type == b->option_type && a->strike == b->strike;
}

static void fill(struct opc_symbol_parts *p, uint64_t value) {
    p->root = p->year = p->month = p->day = p->option_type = p->strike = value;
}

/*
 * Reads by the entry and by the wrapper. Their lent numbers hold different garbage before, so a
 * number that one of them left unset differs after.
 */
static uint64_t read_both(const uint8_t *symbol, size_t symbol_len, struct opc_symbol_parts *p) {
    static const struct opc_symbol_parts zeros;
    uint64_t garbage = next_random();
    struct opc_symbol_parts wrapped;
    now.symbol = symbol;
    now.symbol_len = symbol_len;
    now.parts = NULL;
    fill(p, garbage);
    fill(&wrapped, ~garbage);
    uint64_t number = opc_read_symbol(symbol, symbol_len, &p->root, &p->year, &p->month, &p->day,
                                      &p->option_type, &p->strike);
    uint64_t wrapped_number = opc_read_symbol_parts(symbol, symbol_len, &wrapped);
    expect(number == wrapped_number, "the reader's wrapper gives another number");
    expect(same_parts(p, &wrapped), "the reader's wrapper gives other parts, or a part is not set");
    expect(number == OPC_ACCEPTED || same_parts(p, &zeros), "a refusal with a part that is not 0");
    return number;
}

/* The length and the number go together: 21 with 0, or 0 with a refusal. */
static bool consistent(uint64_t length, uint64_t number, size_t out_len) {
    if (out_len < OPC_SYMBOL_LENGTH) {
        return length == 0 && number == OPC_SHORT_BUFFER;
    }
    if (number == OPC_ACCEPTED) {
        return length == OPC_SYMBOL_LENGTH;
    }
    return length == 0 && number == OPC_BAD_SYMBOL;
}

/*
 * Writes by the entry and by the wrapper into equal buffers of random bytes, and sees that the
 * bytes which are not a part written are kept. The symbol, if any, goes to `symbol`.
 */
static uint64_t write_both(const struct opc_symbol_parts *p, size_t out_len,
                           uint8_t symbol[OPC_SYMBOL_LENGTH]) {
    uint8_t before[WHOLE_BUFFER], raw[WHOLE_BUFFER], wrapped[WHOLE_BUFFER];
    uint64_t number = next_random();
    uint64_t wrapped_number = ~number;
    now.parts = p;
    now.out_len = out_len;
    for (size_t i = 0; i < WHOLE_BUFFER; i++) {
        before[i] = raw[i] = wrapped[i] = (uint8_t)below(256);
    }
    uint64_t length = opc_write_symbol(p->root, p->year, p->month, p->day, p->option_type,
                                       p->strike, raw + GUARD, out_len, &number);
    uint64_t wrapped_length = opc_write_symbol_parts(p, wrapped + GUARD, out_len, &wrapped_number);
    expect(length == wrapped_length, "the writer's wrapper gives another length");
    expect(number == wrapped_number, "the writer's wrapper gives another number, or it is not set");
    expect(memcmp(raw, wrapped, WHOLE_BUFFER) == 0, "the writer's wrapper gives other bytes");
    expect(consistent(length, number, out_len), "length, number and buffer do not go together");
    expect(memcmp(raw, before, GUARD) == 0, "a byte before the buffer is not kept");
    size_t kept = GUARD + (size_t)length;
    expect(memcmp(raw + kept, before + kept, WHOLE_BUFFER - kept) == 0,
           "a byte after the part written is not kept");
    memcpy(symbol, raw + GUARD, (size_t)length);
    return number;
}

static void test_roots(void) {
    static const struct {
        const char *letters;
        uint64_t root;
    } cases[] = {
        {"", 0x202020202020},       {"A", 0x412020202020}, {"SPX", 0x535058202020},
        {"ABCDEF", 0x414243444546}, {"ABCDEFG", 0},        {"ABCDEFGHIJKLMNOP", 0},
        {"\xff", 0xff2020202020},
    };
    for (size_t i = 0; i < COUNT(cases); i++) {
        expect(opc_root(cases[i].letters) == cases[i].root, "another root of letters");
    }
}

static void test_accepted(void) {
    static const struct {
        const char *symbol;
        struct opc_symbol_parts parts;
    } cases[] = {
        {"SPX   141122P00019500", {0x535058202020, 2014, 11, 22, 'P', 19500}},
        {"LAMR  150117C00052500", {0x4c414d522020, 2015, 1, 17, 'C', 52500}},
        {"ABCDEF250331C00100000", {0x414243444546, 2025, 3, 31, 'C', 100000}},
        {"Z99999250630P00100000", {0x5a3939393939, 2025, 6, 30, 'P', 100000}},
        {"A     000101C00000001", {0x412020202020, 2000, 1, 1, 'C', 1}},
        {"Z     991231P99999999", {0x5a2020202020, 2099, 12, 31, 'P', 99999999}},
        {"A0B1  000229P10000000", {0x413042312020, 2000, 2, 29, 'P', 10000000}},
        {"BRKB7 240229C00000010", {0x42524b423720, 2024, 2, 29, 'C', 10}},
    };
    for (size_t i = 0; i < COUNT(cases); i++) {
        const uint8_t *symbol = (const uint8_t *)cases[i].symbol;
        struct opc_symbol_parts read;
        uint8_t written[OPC_SYMBOL_LENGTH];
        expect(read_both(symbol, OPC_SYMBOL_LENGTH, &read) == OPC_ACCEPTED, "not accepted");
        expect(same_parts(&read, &cases[i].parts), "other parts than expected");
        expect(write_both(&cases[i].parts, OPC_SYMBOL_LENGTH, written) == OPC_ACCEPTED,
               "not accepted");
        expect(memcmp(written, symbol, OPC_SYMBOL_LENGTH) == 0, "other bytes than expected");
    }
}

static void test_refused(void) {
    static const struct {
        const char *symbol;
        uint64_t number;
    } cases[] = {
        {"", OPC_NOT_21_BYTES},
        {"SPX   141122P0001950", OPC_NOT_21_BYTES},
        {"SPX   141122P000195000", OPC_NOT_21_BYTES},
        {"SPX   141122P00000000", OPC_BAD_SYMBOL},
        {"SPX   010229P00019500", OPC_BAD_SYMBOL},
        {"SPX   140431P00019500", OPC_BAD_SYMBOL},
        {"SPX   141322P00019500", OPC_BAD_SYMBOL},
        {"SPX   140022P00019500", OPC_BAD_SYMBOL},
        {"SPX   141100P00019500", OPC_BAD_SYMBOL},
        {"SP X  141122P00019500", OPC_BAD_SYMBOL},
        {"spx   141122P00019500", OPC_BAD_SYMBOL},
        {"1SPX  141122P00019500", OPC_BAD_SYMBOL},
        {"      141122P00019500", OPC_BAD_SYMBOL},
        {"SPX   141122X00019500", OPC_BAD_SYMBOL},
        {"SPX   141122c00019500", OPC_BAD_SYMBOL},
        {"SPX   141122p00019500", OPC_BAD_SYMBOL},
        {"SPX   141122P+0019500", OPC_BAD_SYMBOL},
        {"SPX   14 122P00019500", OPC_BAD_SYMBOL},
    };
    for (size_t i = 0; i < COUNT(cases); i++) {
        const uint8_t *symbol = (const uint8_t *)cases[i].symbol;
        struct opc_symbol_parts parts;
        uint64_t number = read_both(symbol, strlen(cases[i].symbol), &parts);
        expect(number == cases[i].number, "another number than expected");
    }
}

static void test_refused_parts(void) {
    const uint64_t spx = opc_root("SPX");
    const struct opc_symbol_parts cases[] = {
        {0, 2014, 11, 22, 'P', 19500},
        {spx + ((uint64_t)1 << 48), 2014, 11, 22, 'P', 19500},
        {opc_root("S PX"), 2014, 11, 22, 'P', 19500},
        {0x535058000000, 2014, 11, 22, 'P', 19500},
        {spx, 1999, 11, 22, 'P', 19500},
        {spx, 2100, 11, 22, 'P', 19500},
        {spx, 14, 11, 22, 'P', 19500},
        {spx, 2014, 0, 22, 'P', 19500},
        {spx, 2014, 13, 22, 'P', 19500},
        {spx, 2014, 11, 0, 'P', 19500},
        {spx, 2014, 11, 31, 'P', 19500},
        {spx, 2014, 2, 29, 'P', 19500},
        {spx, 2014, 11, 22, 'p', 19500},
        {spx, 2014, 11, 22, 'P' + 256, 19500},
        {spx, 2014, 11, 22, 'P', 0},
        {spx, 2014, 11, 22, 'P', 100000000},
        {spx, 2014, 11, 22, 'P', UINT64_MAX},
    };
    for (size_t i = 0; i < COUNT(cases); i++) {
        uint8_t written[OPC_SYMBOL_LENGTH];
        for (size_t out_len = 0; out_len <= LARGEST_BUFFER; out_len++) {
            uint64_t expected = out_len < OPC_SYMBOL_LENGTH ? OPC_SHORT_BUFFER : OPC_BAD_SYMBOL;
            expect(write_both(&cases[i], out_len, written) == expected, "not refused as expected");
        }
    }
}

static void test_buffer_lengths(void) {
    const struct opc_symbol_parts parts = {opc_root("LAMR"), 2015, 1, 17, 'C', 52500};
    for (size_t out_len = 0; out_len <= LARGEST_BUFFER; out_len++) {
        uint8_t written[OPC_SYMBOL_LENGTH];
        uint64_t number = write_both(&parts, out_len, written);
        expect(number == (out_len < OPC_SYMBOL_LENGTH ? OPC_SHORT_BUFFER : OPC_ACCEPTED),
               "another number than expected for this buffer");
        expect(number != OPC_ACCEPTED ||
                   memcmp(written, "LAMR  150117C00052500", OPC_SYMBOL_LENGTH) == 0,
               "other bytes than expected");
    }
}

static void test_null(void) {
    const struct opc_symbol_parts parts = {opc_root("LAMR"), 2015, 1, 17, 'C', 52500};
    struct opc_symbol_parts read;
    uint64_t number = next_random();
    expect(read_both(NULL, 0, &read) == OPC_NOT_21_BYTES, "reading NULL with length 0");
    now.parts = &parts;
    now.out_len = 0;
    expect(opc_write_symbol_parts(&parts, NULL, 0, &number) == 0, "writing to NULL with length 0");
    expect(number == OPC_SHORT_BUFFER, "the number of writing to NULL with length 0");
}

static struct opc_symbol_parts random_parts(void) {
    char root[OPC_ROOT_LENGTH + 1] = "";
    size_t length = 1 + below(6);
    root[0] = letters_and_digits[below(LETTERS)];
    for (size_t i = 1; i < length; i++) {
        root[i] = letters_and_digits[below(LETTERS_AND_DIGITS)];
    }
    /* One statement each: C leaves the sequence of calls within one initializer open. */
    struct opc_symbol_parts parts;
    parts.root = opc_root(root);
    parts.year = 2000 + below(100);
    parts.month = 1 + below(12);
    parts.day = 1 + below(28); /* a day that every month has, so that no calendar is needed here */
    parts.option_type = below(2) == 0 ? 'C' : 'P';
    parts.strike = 1 + below(99999999);
    return parts;
}

static void digits(uint8_t *out, size_t width, uint64_t value) {
    for (size_t i = width; i > 0; i--) {
        out[i - 1] = (uint8_t)('0' + value % 10);
        value /= 10;
    }
}

static void symbol_of(const struct opc_symbol_parts *parts, uint8_t symbol[OPC_SYMBOL_LENGTH]) {
    for (size_t i = 0; i < 6; i++) {
        symbol[i] = (uint8_t)(parts->root >> (40 - 8 * i));
    }
    digits(symbol + 6, 2, parts->year - 2000);
    digits(symbol + 8, 2, parts->month);
    digits(symbol + 10, 2, parts->day);
    symbol[12] = (uint8_t)parts->option_type;
    digits(symbol + 13, 8, parts->strike);
}

/* Valid values through both entries and wrappers: the parts give the bytes, the bytes the parts. */
static void test_random_valid(void) {
    for (size_t i = 0; i < RANDOM_CASES; i++) {
        struct opc_symbol_parts parts = random_parts();
        struct opc_symbol_parts read;
        uint8_t symbol[OPC_SYMBOL_LENGTH], written[OPC_SYMBOL_LENGTH];
        size_t out_len = OPC_SYMBOL_LENGTH + below(LARGEST_BUFFER - OPC_SYMBOL_LENGTH + 1);
        symbol_of(&parts, symbol);
        expect(read_both(symbol, OPC_SYMBOL_LENGTH, &read) == OPC_ACCEPTED, "not accepted");
        expect(same_parts(&read, &parts), "other parts than expected");
        expect(write_both(&parts, out_len, written) == OPC_ACCEPTED, "not accepted");
        expect(memcmp(written, symbol, OPC_SYMBOL_LENGTH) == 0, "other bytes than expected");
    }
}

static void test_random_damaged_symbols(void) {
    for (size_t i = 0; i < RANDOM_CASES; i++) {
        struct opc_symbol_parts parts = random_parts();
        struct opc_symbol_parts read;
        uint8_t symbol[LARGEST_BUFFER] = {0};
        symbol_of(&parts, symbol);
        symbol[below(OPC_SYMBOL_LENGTH)] = (uint8_t)below(256);
        size_t length = below(4) == 0 ? below(LARGEST_BUFFER + 1) : OPC_SYMBOL_LENGTH;
        uint64_t number = read_both(symbol, length, &read);
        expect((number == OPC_NOT_21_BYTES) == (length != OPC_SYMBOL_LENGTH),
               "number 1 does not go with the length");
        if (number == OPC_ACCEPTED) {
            uint8_t written[OPC_SYMBOL_LENGTH];
            expect(write_both(&read, OPC_SYMBOL_LENGTH, written) == OPC_ACCEPTED, "not accepted");
            expect(memcmp(written, symbol, OPC_SYMBOL_LENGTH) == 0,
                   "what was read is written as other bytes");
        }
    }
}

static void test_random_damaged_parts(void) {
    for (size_t i = 0; i < RANDOM_CASES; i++) {
        struct opc_symbol_parts parts = random_parts();
        uint64_t *fields[] = {&parts.root, &parts.year,        &parts.month,
                              &parts.day,  &parts.option_type, &parts.strike};
        uint64_t *field = fields[below(COUNT(fields))];
        uint8_t written[OPC_SYMBOL_LENGTH];
        struct opc_symbol_parts read;
        uint64_t shift = below(64);
        *field += next_random() >> shift; /* from near misses to any 64 bits */
        if (write_both(&parts, below(LARGEST_BUFFER + 1), written) == OPC_ACCEPTED) {
            expect(read_both(written, OPC_SYMBOL_LENGTH, &read) == OPC_ACCEPTED, "not accepted");
            expect(same_parts(&read, &parts), "what was written reads as other parts");
        }
    }
}

int main(void) {
    test_roots();
    test_accepted();
    test_refused();
    test_refused_parts();
    test_buffer_lengths();
    test_null();
    test_random_valid();
    test_random_damaged_symbols();
    test_random_damaged_parts();
    return all_hold();
}
