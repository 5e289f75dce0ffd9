/*
 * Checks that a test counts. Who includes this defines test_name, and print_tried, which prints
 * what was tried last to standard error.
 */
#ifndef EXPECT_H
#define EXPECT_H

#include <inttypes.h>
#include <stdbool.h>
#include <stdio.h>
#include <stdlib.h>

static const char *const test_name;
static void print_tried(void);

static uint64_t checks;

/* Ends the test with status 1 and a message where `holds` is false. */
static inline void expect(bool holds, const char *what) {
    checks++;
    if (!holds) {
        fprintf(stderr, "%s: %s, at check %" PRIu64 "\n", test_name, what, checks);
        print_tried();
        exit(1);
    }
}

/* The end of a test in which no check failed; gives the exit status. */
static inline int all_hold(void) {
    printf("%s: %" PRIu64 " checks hold\n", test_name, checks);
    return 0;
}

#endif
