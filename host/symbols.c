/*
 * Reads and writes option symbols through the proved library, and prints what it answers: symbols
 * that it accepts, and one of each kind that it refuses.
 */
#include "answers.h"
#include "option_price_check.h"

#include <inttypes.h>
#include <stdio.h>
#include <string.h>

#define LARGEST_BUFFER 64

struct read_case {
    const char *about;
    const char *symbol;
};

struct write_case {
    const char *about;
    const char *root;
    uint64_t year, month, day, option_type, strike;
    size_t buffer;
};

static const struct read_case read_cases[] = {
    {"published example", "SPX   141122P00019500"},
    {"published example", "LAMR  150117C00052500"},
    {"six-character root", "ABCDEF240229C99999999"},
    {"root with digits", "AAPL7 250321C00150000"},
    {"20 bytes", "SPX   141122P0001950"},
    {"strike 0", "SPX   141122P00000000"},
    {"29 February 2001", "SPX   010229P00019500"},
    {"space inside the root", "SP X  141122P00019500"},
    {"lower-case root", "spx   141122P00019500"},
    {"type X", "SPX   141122X00019500"},
};

static const struct write_case write_cases[] = {
    {"published example", "SPX", 2014, 11, 22, 'P', 19500, OPC_SYMBOL_LENGTH},
    {"published example", "LAMR", 2015, 1, 17, 'C', 52500, LARGEST_BUFFER},
    {"smallest strike", "A", 2099, 12, 31, 'P', 1, OPC_SYMBOL_LENGTH},
    {"20-byte buffer", "SPX", 2014, 11, 22, 'P', 19500, OPC_SYMBOL_LENGTH - 1},
    {"strike 100000000", "SPX", 2014, 11, 22, 'P', 100000000, OPC_SYMBOL_LENGTH},
    {"seven-letter root", "ABCDEFG", 2014, 11, 22, 'P', 19500, OPC_SYMBOL_LENGTH},
};

static void print_root(uint64_t root) {
    for (int shift = 8 * (OPC_ROOT_LENGTH - 1); shift >= 0; shift -= 8) {
        putchar((int)(root >> shift & 0xff));
    }
}

/* All but the root. */
static void print_parts(const struct opc_symbol_parts *parts) {
    printf("  %04" PRIu64 "-%02" PRIu64 "-%02" PRIu64, parts->year, parts->month, parts->day);
    printf("  %-4s", parts->option_type == 'C' ? "call" : "put");
    printf("  %6" PRIu64 ".%03" PRIu64, parts->strike / 1000, parts->strike % 1000);
}

static void show_read(const struct read_case *c) {
    struct opc_symbol_parts parts;
    uint64_t number = opc_read_symbol_parts((const uint8_t *)c->symbol, strlen(c->symbol), &parts);
    printf("%-21s  %-21s  %" PRIu64 " %-14s  ", c->about, c->symbol, number, number_name(number));
    if (number == OPC_ACCEPTED) {
        print_root(parts.root);
        print_parts(&parts);
    } else {
        printf("-");
    }
    printf("\n");
}

static void show_write(const struct write_case *c) {
    struct opc_symbol_parts parts = {
        .root = opc_root(c->root),
        .year = c->year,
        .month = c->month,
        .day = c->day,
        .option_type = c->option_type,
        .strike = c->strike,
    };
    uint8_t out[LARGEST_BUFFER];
    uint64_t number;
    uint64_t length = opc_write_symbol_parts(&parts, out, c->buffer, &number);
    printf("%-21s  %-7s", c->about, c->root);
    print_parts(&parts);
    printf("  %6zu  %" PRIu64 " %-14s  ", c->buffer, number, number_name(number));
    if (length > 0) {
        printf("%.*s\n", (int)length, (const char *)out);
    } else {
        printf("-\n");
    }
}

int main(void) {
    printf("Reading\n");
    printf("%-21s  %-21s  %-16s  %-6s  %-10s  %-4s  %10s\n", "case", "symbol", "number", "root",
           "expiry", "type", "strike");
    for (size_t i = 0; i < COUNT(read_cases); i++) {
        show_read(&read_cases[i]);
    }
    printf("\nWriting\n");
    printf("%-21s  %-7s  %-10s  %-4s  %10s  %6s  %-16s  %s\n", "case", "root", "expiry", "type",
           "strike", "buffer", "number", "bytes out");
    for (size_t i = 0; i < COUNT(write_cases); i++) {
        show_write(&write_cases[i]);
    }
    return 0;
}
