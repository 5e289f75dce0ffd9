/*
 * The cases of the files in cases/: each order, pair, message, quote and crossing quote, with the
 * settings and market that it is checked against, and the answer that its line has after "#=". Run
 * at the top of the repository.
 */
#ifndef CASES_H
#define CASES_H

#include "expect.h"
#include "made_orders.h"
#include "requests.h"

#include <glob.h>

/* The case tried last; without a file where none was. */
static struct {
    const char *file;
    uint64_t line;
} case_now;

static inline void print_case(void) {
    if (case_now.file != NULL) {
        fprintf(stderr, "  case: %s:%" PRIu64 "\n", case_now.file, case_now.line);
    }
}

/* An order of a case, or one of its pair, with bytes of its own. */
static inline struct made_order order_of(const struct opc_order *order, const struct terms *terms) {
    struct made_order m = no_legs();
    expect(order->counts_len <= sizeof m.counts, "a case of more legs than can be made");
    memcpy(m.symbols, order->symbols, order->symbols_len);
    memcpy(m.counts, order->counts, order->counts_len);
    m.symbols_len = order->symbols_len;
    m.counts_len = order->counts_len;
    m.price = order->price;
    m.kind = order->kind;
    m.stop = order->stop;
    m.manual = order->manual;
    m.opening = order->opening;
    m.shares = order->shares;
    m.settings = terms->settings;
    m.market = terms->market;
    return m;
}

/* Holds what a line of the kind asks for to the answer, in the line's words. */
typedef void hold_case(const struct request *request, const char *answer);

/* What stands after "#=" and a blank. */
static inline void answer_of(const struct line *line, char answer[LINE_LENGTH]) {
    static const char mark[] = "#= ";
    const size_t mark_len = strlen(mark);
    size_t at = 0;
    while (at + mark_len < line->len && memcmp(line->text + at, mark, mark_len) != 0) {
        at++;
    }
    at += mark_len;
    expect(at < line->len, "a case without its answer");
    memcpy(answer, line->text + at, line->len - at);
    answer[line->len - at] = '\0';
}

static inline void hold_file(const char *name, enum request_kind kind, hold_case *hold) {
    static struct line line;
    static struct request request;
    char answer[LINE_LENGTH];
    struct terms terms = first_terms;
    case_now.file = name;
    case_now.line = 0;
    FILE *file = fopen(name, "r");
    expect(file != NULL, "a file of cases cannot be opened");
    while (next_line(file, &line)) {
        case_now.line++;
        expect(read_request(&line, &terms, &request), "a case that cannot be read");
        terms = request.terms;
        if (request.kind == kind) {
            answer_of(&line, answer);
            hold(&request, answer);
        }
    }
    expect(!ferror(file), "a file of cases cannot be read");
    fclose(file);
    case_now.file = NULL;
}

/* Holds every line of the kind, of every file. */
static inline void hold_cases(enum request_kind kind, hold_case *hold) {
    glob_t files;
    expect(glob("cases/*.desk", 0, NULL, &files) == 0, "there are no cases");
    for (size_t i = 0; i < files.gl_pathc; i++) {
        hold_file(files.gl_pathv[i], kind, hold);
    }
    globfree(&files);
}

#endif
