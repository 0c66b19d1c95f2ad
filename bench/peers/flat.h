/* Flat words of bits, for blocks of at most 64 processors: the first fit from a word on, which is the first one but
 * while the machine is filled, by one exchange. A word in which exchanges are lost eight times is given up. */
#include <stdatomic.h>
#include <stdbool.h>
#include <stdint.h>

#include "bits.h"

enum { MAX_DIM = 20, MAX_BLOCK_DIM = WORD_DIM, TRIES = 8 };
static const enum begins BEGINS = AT_FRONT;
static const bool CAN_LEAVE_MARKS = false;

static _Alignas(4096) _Atomic uint64_t words[1 << (MAX_DIM - WORD_DIM)];
static unsigned word_count;

static void open_machine(unsigned n) {
    word_count = 1u << (n - WORD_DIM);
}

/* The offset of a block that it takes in a word, or -1. */
static int take_in(_Atomic uint64_t *word, unsigned k) {
    uint64_t found = atomic_load(word);
    for (unsigned tries = 0; tries < TRIES; tries++) {
        uint64_t rooms = rooms_of(found, k);
        if (rooms == 0) {
            return -1;
        }
        unsigned offset = (unsigned)__builtin_ctzll(rooms);
        if (atomic_compare_exchange_strong(word, &found, found | mask_of(offset, k))) {
            return (int)offset;
        }
    }
    return -1;
}

static int64_t take_block(unsigned k, unsigned lane, uint64_t start) {
    (void)lane;
    for (unsigned i = 0; i < word_count; i++) {
        unsigned word = ((unsigned)(start / WORD_BITS) + i) & (word_count - 1);
        int offset = take_in(&words[word], k);
        if (offset >= 0) {
            return (int64_t)word * WORD_BITS + offset;
        }
    }
    return -1;
}

static void release_block(unsigned lane, uint64_t base, unsigned k) {
    (void)lane;
    atomic_fetch_sub(&words[base / WORD_BITS], mask_of(base % WORD_BITS, k));
}
