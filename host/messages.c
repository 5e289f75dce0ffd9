/*
 * An example host: hands FIX messages to the proved library as they came, with the flags that it
 * knows itself, lets it count them in a tally, and prints what it answers.
 */
#include "columns.h"
#include "option_price_check.h"

#include <stdio.h>
#include <stdlib.h>
#include <string.h>

#define MOST_BYTES 256

struct example {
    const char *about;
    uint64_t opening;    /* the host's own: no field of a message says it */
    const char *message; /* with | for byte 1, so that it can be read */
};

#define VERTICAL                                                                                   \
    "8=FIX.4.4|9=100|35=AB|40=2|44=1.5|"                                                           \
    "555=2|600=XYZ   270115C00020000|623=1|624=1|600=XYZ   270115C00025000|623=1|624=2|10=007|"

#define MARKET_ORDER                                                                               \
    "8=FIX.4.4|9=61|35=AB|40=1|44=18|555=1|600=XYZ   270115P00018000|623=1|624=1|10=117|"

static const struct example session[] = {
    {"vertical, paid for", 0, VERTICAL},
    {"groups exchanged", 0,
     "8=FIX.4.4|9=121|35=AB|"
     "555=2|600=XYZ   270115C00025000|623=1|624=2|600=XYZ   270115C00020000|623=1|624=1|"
     "44=1.500|58=in any sequence|40=2|10=205|"},
    {"and received for", 0,
     "8=FIX.4.4|9=101|35=AB|40=2|44=-1.5|"
     "555=2|600=XYZ   270115C00020000|623=1|624=1|600=XYZ   270115C00025000|623=1|624=2|10=053|"},
    {"put at its strike", 0, MARKET_ORDER},
    {"and in the opening", 1, MARKET_ORDER},
    {"another sum", 0,
     "8=FIX.4.4|9=61|35=AB|40=1|44=18|555=1|600=XYZ   270115P00018000|623=1|624=1|10=000|"},
    {"no price", 0,
     "8=FIX.4.4|9=55|35=AB|40=2|555=1|600=XYZ   270115P00018000|623=1|624=1|10=106|"},
    {"four decimals", 0,
     "8=FIX.4.4|9=65|35=AB|40=2|44=1.5000|555=1|600=XYZ   270115P00018000|623=1|624=1|10=053|"},
    {"no leg", 0, "8=FIX.4.4|9=24|35=AB|40=2|44=1.5|555=0|10=066|"},
};

/* One more check can be counted, then none. */
static const struct opc_tally nearly_full = {999999, 199999, 600000, 200000};
static const struct example last_checks[] = {
    {"the last counted", 0, VERTICAL},
    {"the tally is full", 0, VERTICAL},
};

/* The message as it came; it points to the bytes. */
static struct opc_fix receive(const struct example *e, uint8_t bytes[MOST_BYTES]) {
    size_t len = strlen(e->message);
    if (len > MOST_BYTES) {
        fprintf(stderr, "messages: a message is too long\n");
        exit(EXIT_FAILURE);
    }
    for (size_t i = 0; i < len; i++) {
        bytes[i] = e->message[i] == '|' ? 1 : (uint8_t)e->message[i];
    }
    return (struct opc_fix){.message = bytes, .message_len = len, .opening = e->opening};
}

/* Each check is lent the tally that the one before left. */
static void check_all(const struct example *examples, size_t len, struct opc_tally tally) {
    const struct opc_settings settings = OPC_EXAMPLE_SETTINGS;
    const struct opc_market market = OPC_EMPTY_MARKET;
    for (size_t i = 0; i < len; i++) {
        uint8_t bytes[MOST_BYTES];
        struct opc_fix fix = receive(&examples[i], bytes);
        struct opc_answer answer = opc_answer_fix_tallied(&fix, &settings, &market, &tally);
        printf("%-20s", examples[i].about);
        print_answer(&answer);
        print_tally(&tally);
        printf("  %s\n", examples[i].message);
    }
}

int main(void) {
    const struct opc_tally fresh = OPC_FRESH_TALLY;
    printf("Messages, and the tally after each (in a message, | stands for byte 1)\n");
    printf("%-20s", "case");
    print_heading();
    printf("  message\n");
    check_all(session, COUNT(session), fresh);
    check_all(last_checks, COUNT(last_checks), nearly_full);
    return EXIT_SUCCESS;
}
