/*
 * Measures the deepest stack of each entry: it is called on a stack of its own, which is painted
 * before, over valid and damaged inputs of every size. Prints rows of a Markdown table. Exit status
 * 1 if an entry needs as much as the limit.
 *
 * What is counted: the frame of the function that calls, with the arguments in it, the return
 * address, and everything below that was written to.
 */
#define _XOPEN_SOURCE 700
#include "made_crossing.h"
#include "made_messages.h"
#include "made_orders.h"
#include "made_pairs.h"
#include "made_quotes.h"
#include "made_sessions.h"
#include "option_price_check.h"

#include <stdlib.h>
#include <ucontext.h>

#define STACK_BYTES 65536
#define STACK_WORDS (STACK_BYTES / sizeof(uint64_t))
#define LIMIT 16384
#define INPUTS_PER_KIND 10000
#define LONGEST_MESSAGE 1000000

static _Alignas(64) uint64_t stack[STACK_WORDS];
static uint64_t paint[STACK_WORDS];
static ucontext_t host, entry;

/* The inputs of the next call, and what it lends. */
static struct made_order made;
static struct opc_symbol_parts parts;
static uint8_t buffer[64];
static size_t buffer_len;
static uint64_t number;
static struct opc_answer answer;
static struct opc_tally tally;
static struct made_message body, message;
static struct opc_fix fix;
static uint64_t limits[OPC_LOGINS], login;
static struct opc_session session;
static size_t session_len;
static struct made_pair made_pair;
static struct opc_pair_answer pair_answer;
static struct made_quote made_quote;
static struct opc_quote_answer quote_answer;
static struct made_crossing made_crossing;
static uint64_t fills[MADE_RESTING];
static size_t fills_len;
static struct opc_crossing_answer crossing_answer;

/* Calls through a pointer that the compiler does not know: no entry is optimized away. */
static void do_nothing(void) {}
static void (*volatile nothing)(void) = do_nothing;

static void call_nothing(void) { nothing(); }

static void call_read(void) { number = opc_read_symbol_parts(buffer, buffer_len, &parts); }

static void call_write(void) { opc_write_symbol_parts(&parts, buffer, buffer_len, &number); }

static void call_check(void) {
    answer.number = opc_check_order(EACH_OF_ORDER(&made), SLICES_OF(&made), &answer.class_,
                                    &answer.shape, &answer.pairings);
}

static void call_check_tallied(void) {
    answer.number = opc_check_order_tallied(EACH_OF_ORDER(&made), SLICES_OF(&made), &answer.class_,
                                            &answer.shape, &answer.pairings, &tally.seen,
                                            &tally.refused, &tally.accepted, &tally.rejected);
}

static void call_check_fix(void) {
    answer.number = opc_check_fix(EACH_OF_FIX(&fix), SLICES_OF(&made), &answer.class_,
                                  &answer.shape, &answer.pairings);
}

static void call_check_fix_tallied(void) {
    answer.number = opc_check_fix_tallied(EACH_OF_FIX(&fix), SLICES_OF(&made), &answer.class_,
                                          &answer.shape, &answer.pairings, &tally.seen,
                                          &tally.refused, &tally.accepted, &tally.rejected);
}

/* The session's numbers, as the entries take them. */
#define SESSION (uint64_t *)&session, session_len

static void call_start(void) { number = opc_start_session(limits, OPC_LOGINS, SESSION); }

static void call_check_session(void) {
    answer.number = opc_check_order_session(login, EACH_OF_ORDER(&made), SLICES_OF(&made), SESSION,
                                            &answer.class_, &answer.shape, &answer.pairings);
}

static void call_check_fix_session(void) {
    answer.number = opc_check_fix_session(login, EACH_OF_FIX(&fix), SLICES_OF(&made), SESSION,
                                          &answer.class_, &answer.shape, &answer.pairings);
}

static void call_release(void) { number = opc_release_login(login, SESSION); }

static void call_check_pair(void) {
    pair_answer.agency_number = opc_check_pair(
        EACH_OF_PAIR(&made_pair), SLICES_OF(&made_pair.agency), &pair_answer.contra_number,
        &pair_answer.agency_passes, &pair_answer.contra_passes);
}

static void call_check_quote(void) {
    quote_answer.number =
        opc_check_quote(EACH_OF_QUOTE(&made_quote), SLICES_OF(&made_quote), &quote_answer.cancel);
}

static void call_check_crossing(void) {
    crossing_answer.number =
        opc_check_crossing_quote(EACH_OF_CROSSING(&made_crossing), SLICES_OF(&made_crossing.quote),
                                 fills, fills_len, LENT_OF_CROSSING(&crossing_answer));
}

static void on_painted_stack(void (*call)(void)) {
    if (getcontext(&entry) != 0) {
        perror("stack: getcontext");
        exit(2);
    }
    entry.uc_stack.ss_sp = stack;
    entry.uc_stack.ss_size = sizeof stack;
    entry.uc_link = &host;
    makecontext(&entry, call, 0);
    if (swapcontext(&host, &entry) != 0) {
        perror("stack: swapcontext");
        exit(2);
    }
}

/* Random paint: a value that a call writes is not the paint that was there. */
static void paint_stack(void) {
    for (size_t i = 0; i < STACK_WORDS; i++) {
        stack[i] = paint[i] = next_random();
    }
}

/* The bytes from the top of the stack to the lowest word that was written. */
static size_t deepest(void) {
    size_t unused = 0;
    while (unused < STACK_WORDS && stack[unused] == paint[unused]) {
        unused++;
    }
    return STACK_BYTES - unused * sizeof(uint64_t);
}

static size_t read_inputs(void) {
    size_t inputs = 0;
    for (; inputs < INPUTS_PER_KIND; inputs++) {
        struct made_order m = random_order(1);
        memcpy(buffer, m.symbols, OPC_SYMBOL_LENGTH);
        buffer_len = one_in(4) ? below(sizeof buffer) : OPC_SYMBOL_LENGTH;
        if (one_in(2)) {
            buffer[below(OPC_SYMBOL_LENGTH)] = (uint8_t)below(256);
        }
        on_painted_stack(call_read);
    }
    return inputs;
}

static size_t write_inputs(void) {
    size_t inputs = 0;
    for (; inputs < INPUTS_PER_KIND; inputs++) {
        struct made_order m = random_order(1);
        opc_read_symbol_parts(m.symbols, OPC_SYMBOL_LENGTH, &parts);
        uint64_t *fields[] = {&parts.root, &parts.year,        &parts.month,
                              &parts.day,  &parts.option_type, &parts.strike};
        buffer_len = one_in(4) ? below(sizeof buffer) : OPC_SYMBOL_LENGTH;
        if (one_in(2)) {
            *fields[below(COUNT(fields))] += next_random() >> below(64);
        }
        on_painted_stack(call_write);
    }
    return inputs;
}

/* Valid orders of each number of legs, with shares or without, then each kind of damage, alone and
 * upon another. */
static size_t order_inputs(void (*call)(void)) {
    size_t inputs = 0;
    for (size_t legs = 1; legs <= OPC_MOST_LEGS; legs++) {
        for (size_t i = 0; i < INPUTS_PER_KIND; i++, inputs++) {
            made = random_either(legs);
            call();
        }
    }
    for (size_t kind = 0; kind < REFUSALS; kind++) {
        for (size_t i = 0; i < INPUTS_PER_KIND; i++, inputs++) {
            made = random_either(between(3, OPC_MOST_LEGS));
            if (one_in(4)) {
                damage(&made, refusals[between(kind, REFUSALS - 1)]);
            }
            damage(&made, refusals[kind]);
            call();
        }
    }
    return inputs;
}

static void check_made(void) { on_painted_stack(call_check); }

static size_t check_inputs(void) { return order_inputs(check_made); }

/* A tally that counts, and now and then one that does not. */
static void make_tally(void) {
    tally.refused = below(333334);
    tally.accepted = below(333334);
    tally.rejected = below(333334);
    tally.seen = tally.refused + tally.accepted + tally.rejected;
    if (one_in(8)) {
        tally.seen = next_random() >> below(64);
    }
}

static void check_made_tallied(void) {
    make_tally();
    on_painted_stack(call_check_tallied);
}

static size_t tallied_inputs(void) { return order_inputs(check_made_tallied); }

/* The order's message; now and then a damaged one, its length and sum right or as they were. */
static void make_message(void) {
    random_body(&body, &made);
    if (one_in(4)) {
        damage_message(&body);
    }
    frame(&message, &body);
    if (one_in(8)) {
        damage_message(&message);
    }
    fix = lend_fix(&message, &made);
}

static void check_made_fix(void) {
    make_message();
    on_painted_stack(call_check_fix);
}

static void check_made_fix_tallied(void) {
    make_message();
    make_tally();
    on_painted_stack(call_check_fix_tallied);
}

/* The messages of orders, then long ones. */
static size_t message_inputs(void (*call_made)(void), void (*call)(void)) {
    size_t inputs = order_inputs(call_made);
    made = random_order(OPC_MOST_LEGS);
    tally = (struct opc_tally){.seen = 0};
    session = fresh_session(OPC_MOST_REJECTIONS);
    session_len = OPC_SESSION_COUNT;
    login = 0;
    for (size_t bytes = 1000; bytes <= LONGEST_MESSAGE; bytes *= 10, inputs++) {
        write_body(&body, &made);
        add_repeated(&body, "58=some text|", bytes);
        frame(&message, &body);
        fix = lend_fix(&message, &made);
        on_painted_stack(call);
    }
    return inputs;
}

static size_t fix_inputs(void) { return message_inputs(check_made_fix, call_check_fix); }

static size_t fix_tallied_inputs(void) {
    return message_inputs(check_made_fix_tallied, call_check_fix_tallied);
}

/* A session that counts, and now and then one that does not, or no such login. */
static void make_session(void) {
    session = random_session();
    session_len = one_in(16) ? below(OPC_SESSION_COUNT) : OPC_SESSION_COUNT;
    login = one_in(16) ? next_random() : below(OPC_LOGINS);
    if (one_in(8)) {
        ((uint64_t *)&session)[below(OPC_SESSION_COUNT)] = next_random() >> below(64);
    }
}

static void check_made_session(void) {
    make_session();
    on_painted_stack(call_check_session);
}

static size_t session_inputs(void) { return order_inputs(check_made_session); }

static void check_made_fix_session(void) {
    make_message();
    make_session();
    on_painted_stack(call_check_fix_session);
}

static size_t fix_session_inputs(void) {
    return message_inputs(check_made_fix_session, call_check_fix_session);
}

/* Limits that are right, and now and then one that is not. */
static size_t start_inputs(void) {
    size_t inputs = 0;
    for (; inputs < INPUTS_PER_KIND; inputs++) {
        make_session();
        for (size_t i = 0; i < OPC_LOGINS; i++) {
            limits[i] = one_in(64) ? next_random() : between(1, OPC_MOST_REJECTIONS);
        }
        on_painted_stack(call_start);
    }
    return inputs;
}

static size_t release_inputs(void) {
    size_t inputs = 0;
    for (; inputs < INPUTS_PER_KIND; inputs++) {
        make_session();
        on_painted_stack(call_release);
    }
    return inputs;
}

/* The order on one side, and on the other its other side or some other order. */
static void check_made_pair(void) {
    made_pair = random_pair(&made);
    on_painted_stack(call_check_pair);
}

static size_t pair_inputs(void) { return order_inputs(check_made_pair); }

/* Valid quotes, then each kind of damage, alone and upon another. */
static size_t quote_inputs(void) {
    size_t inputs = 0;
    for (; inputs < INPUTS_PER_KIND; inputs++) {
        made_quote = random_quote();
        on_painted_stack(call_check_quote);
    }
    for (size_t kind = 0; kind < QUOTE_REFUSALS; kind++) {
        for (size_t i = 0; i < INPUTS_PER_KIND; i++, inputs++) {
            made_quote = random_quote();
            if (one_in(4)) {
                damage_quote(&made_quote, quote_refusals[between(kind, QUOTE_REFUSALS - 1)]);
            }
            damage_quote(&made_quote, quote_refusals[kind]);
            on_painted_stack(call_check_quote);
        }
    }
    return inputs;
}

/* A crossing quote, right or not, with room for its fills or not. */
static void make_crossing(void) {
    made_crossing = random_crossing();
    fills_len = one_in(4) ? below(MADE_RESTING + 1) : OPC_MAX_RESTING;
    if (one_in(4)) {
        damage_crossing(&made_crossing);
    }
}

/* Then each kind of damage to the quote itself. */
static size_t crossing_inputs(void) {
    size_t inputs = 0;
    for (; inputs < 4 * INPUTS_PER_KIND; inputs++) {
        make_crossing();
        on_painted_stack(call_check_crossing);
    }
    for (size_t kind = 0; kind < QUOTE_REFUSALS; kind++) {
        for (size_t i = 0; i < INPUTS_PER_KIND; i++, inputs++) {
            make_crossing();
            damage_quote(&made_crossing.quote, quote_refusals[kind]);
            on_painted_stack(call_check_crossing);
        }
    }
    return inputs;
}

int main(void) {
    static const struct {
        const char *name;
        size_t (*run)(void);
    } entries[] = {
        {"opc_read_symbol", read_inputs},
        {"opc_write_symbol", write_inputs},
        {"opc_check_order", check_inputs},
        {"opc_check_order_tallied", tallied_inputs},
        {"opc_check_fix", fix_inputs},
        {"opc_check_fix_tallied", fix_tallied_inputs},
        {"opc_start_session", start_inputs},
        {"opc_check_order_session", session_inputs},
        {"opc_check_fix_session", fix_session_inputs},
        {"opc_release_login", release_inputs},
        {"opc_check_pair", pair_inputs},
        {"opc_check_quote", quote_inputs},
        {"opc_check_crossing_quote", crossing_inputs},
    };
    bool within = true;
    paint_stack();
    on_painted_stack(call_nothing);
    size_t baseline = deepest();
    printf("| entry | inputs | deepest stack in bytes | of a stack of |\n|---|---|---|---|\n");
    for (size_t i = 0; i < COUNT(entries); i++) {
        paint_stack();
        size_t inputs = entries[i].run();
        size_t bytes = deepest() - baseline;
        printf("| `%s` | %zu | %zu | %d |\n", entries[i].name, inputs, bytes, STACK_BYTES);
        within = within && bytes < LIMIT;
    }
    if (!within) {
        fprintf(stderr, "stack: an entry needs %d bytes or more\n", LIMIT);
    }
    return within ? EXIT_SUCCESS : EXIT_FAILURE;
}
