// The block of words that a program is given and leaves its results in: the start of the panel's input block.
#ifndef BLOCK_H
#define BLOCK_H

#include <stdint.h>

enum { BLOCK_WORDS = 1024 };

// What the block holds at the start: the same words on the panel and natively.
static inline void fill_block(uint32_t *block) {
    uint32_t seed = 2463534242u;
    for (int i = 0; i < BLOCK_WORDS; i++) {
        seed ^= seed << 13;
        seed ^= seed >> 17;
        seed ^= seed << 5;
        block[i] = seed;
    }
}

#endif
