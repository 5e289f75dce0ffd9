/*
 * What is lent to an entry, under watch. The library's own code is not instrumented, so the
 * sanitizers do not see what it reads or writes: a lent slice lies against a page that may not be
 * touched, and everything around it is held to a copy afterwards.
 *
 * Who includes this defines _DEFAULT_SOURCE first, for mmap and its anonymous pages.
 */
#ifndef LENT_H
#define LENT_H

#include <stdbool.h>
#include <stdint.h>
#include <stdio.h>
#include <stdlib.h>
#include <string.h>
#include <sys/mman.h>
#include <unistd.h>

/* More than the longest slice but a session, and more than that; a page is longer. */
#define WATCHED 1280
#define MOST_WATCHED 3328
#define AROUND 0xa5

/* A page between two that may not be touched. */
struct lent {
    uint8_t *page;
    size_t size;
    uint8_t *watched; /* the end of the page that the slice lies at; NULL before the first */
    size_t watched_len;
    size_t before; /* the watched bytes before the slice */
    uint8_t copy[MOST_WATCHED];
};

static inline void make_page(struct lent *lent) {
    size_t page = (size_t)sysconf(_SC_PAGESIZE);
    uint8_t *pages = mmap(NULL, 3 * page, PROT_NONE, MAP_PRIVATE | MAP_ANONYMOUS, -1, 0);
    if (pages == MAP_FAILED || mprotect(pages + page, page, PROT_READ | PROT_WRITE) != 0) {
        perror("fuzz: a page to lend");
        exit(2);
    }
    lent->page = pages + page;
    lent->size = page;
}

/*
 * Lends so many bytes, or the bytes of numbers, at the first or the last place of the page; NULL
 * for none, where asked. Both ends of a page are aligned, so numbers are.
 */
static inline void *lend(struct lent *lent, const void *slice, size_t size, bool last, bool null) {
    if (lent->page == NULL) {
        make_page(lent);
    }
    lent->watched_len = size < WATCHED ? WATCHED : MOST_WATCHED;
    lent->before = last ? lent->watched_len - size : 0;
    memset(lent->copy, AROUND, lent->watched_len);
    memcpy(lent->copy + lent->before, slice, size);
    lent->watched = last ? lent->page + lent->size - lent->watched_len : lent->page;
    memcpy(lent->watched, lent->copy, lent->watched_len);
    return size == 0 && null ? NULL : lent->watched + lent->before;
}

/* What the entry should have made of a slice that it is lent to write in. */
static inline void expect_in(struct lent *lent, const void *slice, size_t size) {
    memcpy(lent->copy + lent->before, slice, size);
}

static inline bool is_kept(const struct lent *lent) {
    return lent->watched == NULL || memcmp(lent->watched, lent->copy, lent->watched_len) == 0;
}

/* Lent numbers, each between two that must keep their values. */
#define MOST_LENT_NUMBERS 7

struct lent_numbers {
    uint64_t unset; /* what every number holds before the call */
    uint64_t cells[2 * MOST_LENT_NUMBERS + 1];
};

static inline struct lent_numbers lend_numbers(uint64_t unset) {
    struct lent_numbers lent = {.unset = unset};
    for (size_t i = 0; i < 2 * MOST_LENT_NUMBERS + 1; i++) {
        lent.cells[i] = unset;
    }
    return lent;
}

static inline uint64_t *lent_number(struct lent_numbers *lent, size_t i) {
    return &lent->cells[2 * i + 1];
}

static inline bool are_guards_kept(const struct lent_numbers *lent) {
    for (size_t i = 0; i < 2 * MOST_LENT_NUMBERS + 1; i += 2) {
        if (lent->cells[i] != lent->unset) {
            return false;
        }
    }
    return true;
}

#endif
