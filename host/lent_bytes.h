/*
 * Bytes lent to an entry under watch. The library's own code is not instrumented, so lent bytes end
 * where a page begins that may not be touched: a read or a write past them ends the test. Bytes
 * before them show a stray write.
 *
 * Who includes this defines _DEFAULT_SOURCE first, for mmap and its anonymous pages.
 */
#ifndef LENT_BYTES_H
#define LENT_BYTES_H

#include "expect.h"
#include "made_orders.h"

#include <errno.h>
#include <stdlib.h>
#include <sys/mman.h>
#include <unistd.h>

#define GUARD 16

/* Bytes lent up to a page that may not be touched, with a copy of them and of the guard before. */
struct lent_bytes {
    uint8_t *end;
    size_t room;
    size_t len;
    uint8_t *before;
};

/* Room for so many bytes before a forbidden page, and for their copy. */
static inline void make_room(struct lent_bytes *lent, size_t room) {
    size_t page = (size_t)sysconf(_SC_PAGESIZE);
    int private_memory = MAP_PRIVATE | MAP_ANONYMOUS;
    room = (room + page - 1) / page * page;
    uint8_t *pages = mmap(NULL, room + page, PROT_READ | PROT_WRITE, private_memory, -1, 0);
    uint8_t *before = realloc(lent->before, room);
    if (pages == MAP_FAILED || before == NULL || mprotect(pages + room, page, PROT_NONE) != 0) {
        fprintf(stderr, "%s: no forbidden page: %s\n", test_name, strerror(errno));
        exit(2);
    }
    if (lent->end != NULL) {
        munmap(lent->end - lent->room, lent->room + page);
    }
    lent->end = pages + room;
    lent->room = room;
    lent->before = before;
}

static inline const uint8_t *lend_bytes(struct lent_bytes *lent, const uint8_t *bytes, size_t len) {
    if (lent->room < GUARD + len) {
        make_room(lent, GUARD + len);
    }
    lent->len = len;
    memset(lent->before, (int)below(256), GUARD);
    memcpy(lent->before + GUARD, bytes, len);
    memcpy(lent->end - len - GUARD, lent->before, GUARD + len);
    return lent->end - len;
}

static inline bool are_kept(const struct lent_bytes *lent) {
    return memcmp(lent->end - lent->len - GUARD, lent->before, GUARD + lent->len) == 0;
}

/* The same of bytes that an entry may change: of these only the guard before them must stay. */
static inline void *lend_changeable(struct lent_bytes *lent, const void *bytes, size_t len) {
    lend_bytes(lent, bytes, len);
    return lent->end - len;
}

static inline bool guard_is_kept(const struct lent_bytes *lent) {
    return memcmp(lent->end - lent->len - GUARD, lent->before, GUARD) == 0;
}

/* The first `len` numbers of a struct, and a 0 beyond them; NULL where there are none. */
static inline const uint64_t *lend_numbers(struct lent_bytes *lent, const void *from, size_t size,
                                           size_t len) {
    uint8_t bytes[sizeof(struct opc_settings) + sizeof(uint64_t)] = {0};
    memcpy(bytes, from, size);
    const void *at = lend_bytes(lent, bytes, len * sizeof(uint64_t));
    return len == 0 ? NULL : at;
}

/* Numbers of a list, as many as it has; NULL where there are none. */
static inline const uint64_t *lend_list(struct lent_bytes *lent, const uint64_t *numbers,
                                        size_t len) {
    const void *at = lend_bytes(lent, (const uint8_t *)numbers, len * sizeof(uint64_t));
    return len == 0 ? NULL : at;
}

/* Settings and market lent in this way. */
struct lent_terms {
    struct lent_bytes settings_bytes, market_bytes;
    const uint64_t *settings, *market;
    size_t settings_len, market_len;
};

#define EACH_OF_TERMS(t) (t)->settings, (t)->settings_len, (t)->market, (t)->market_len

static inline void lend_terms(struct lent_terms *t, const struct opc_settings *s,
                              size_t settings_len, const struct opc_market *m, size_t market_len) {
    t->settings = lend_numbers(&t->settings_bytes, s, sizeof *s, settings_len);
    t->market = lend_numbers(&t->market_bytes, m, sizeof *m, market_len);
    t->settings_len = settings_len;
    t->market_len = market_len;
}

static inline bool terms_are_kept(const struct lent_terms *t) {
    return are_kept(&t->settings_bytes) && are_kept(&t->market_bytes);
}

#endif
