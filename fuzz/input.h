/* The fuzzer's bytes, taken one after another; past their end come zeros. */
#ifndef INPUT_H
#define INPUT_H

#include <stddef.h>
#include <stdint.h>
#include <string.h>

struct input {
    const uint8_t *at;
    size_t left;
};

static inline void take_bytes(struct input *in, uint8_t *out, size_t len) {
    size_t there = len < in->left ? len : in->left;
    memset(out, 0, len);
    if (there > 0) {
        memcpy(out, in->at, there);
        in->at += there;
        in->left -= there;
    }
}

static inline uint8_t take(struct input *in) {
    uint8_t byte;
    take_bytes(in, &byte, 1);
    return byte;
}

/* Low byte first. */
static inline uint64_t take_number(struct input *in, size_t bytes) {
    uint64_t number = 0;
    for (size_t i = 0; i < bytes; i++) {
        number |= (uint64_t)take(in) << (8 * i);
    }
    return number;
}

#define PICK(in, list) ((list)[take(in) % (sizeof(list) / sizeof(list)[0])])

#endif
