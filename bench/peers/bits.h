/* Words of 64 bits, and the runs of bits in them that are blocks. */
#ifndef BITS_H
#define BITS_H

#include <stdint.h>

enum { WORD_DIM = 6, WORD_BITS = 64 };

/* The bits at which an aligned block of each dimension can begin. */
static const uint64_t BLOCK_STARTS[] = {UINT64_MAX,         0x5555555555555555, 0x1111111111111111, 0x0101010101010101,
                                        0x0001000100010001, 0x0000000100000001, 1};

/* The bits of a block of dimension k from an offset on. */
static inline uint64_t mask_of(unsigned offset, unsigned k) {
    return (UINT64_MAX >> (WORD_BITS - (1u << k))) << offset;
}

/* The offsets at which a word has room for a block of dimension k. */
static inline uint64_t rooms_of(uint64_t word, unsigned k) {
    uint64_t free = ~word;
    for (unsigned half = 0; half < k; half++) {
        free &= free >> (1u << half);
    }
    return free & BLOCK_STARTS[k];
}

#endif
