/* Exact first fit over a byte for each processor. A take looks at the blocks of its dimension in order. */
#include <stdbool.h>
#include <stdint.h>
#include <stdlib.h>
#include <string.h>

enum { MAX_DIM = 20, MAX_BLOCK_DIM = MAX_DIM };
static const enum begins BEGINS = AT_FRONT;
static const bool CAN_LEAVE_MARKS = false;

static _Alignas(4096) bool bits[1 << MAX_DIM];
static unsigned machine_dim;

static void open_machine(unsigned n) {
    machine_dim = n;
    memset(bits, false, sizeof bits);
}

static bool are_all(uint64_t base, unsigned k, bool value) {
    for (uint64_t at = base; at < base + (UINT64_C(1) << k); at++) {
        if (bits[at] != value) {
            return false;
        }
    }
    return true;
}

/* Takes the first free block of dimension k from this base on. */
static int64_t take_from(uint64_t base, unsigned k) {
    for (; base < UINT64_C(1) << machine_dim; base += UINT64_C(1) << k) {
        if (are_all(base, k, false)) {
            memset(bits + base, true, (size_t)1 << k);
            return (int64_t)base;
        }
    }
    return -1;
}

static int64_t take_block(unsigned k, unsigned lane, uint64_t start) {
    (void)lane;
    (void)start;
    return k > machine_dim ? -1 : take_from(0, k);
}

/* Takes the block that take_block would take, as long as nothing was released: no block before the last one of a
 * dimension is free then. So a large machine is filled soon. */
#define FILL_BLOCK fill_block
static int64_t fill_block(unsigned k) {
    static uint64_t first[MAX_DIM + 1];
    int64_t base = k > machine_dim ? -1 : take_from(first[k], k);
    first[k] = base < 0 ? UINT64_C(1) << machine_dim : (uint64_t)base;
    return base;
}

static void release_block(unsigned lane, uint64_t base, unsigned k) {
    (void)lane;
    if (!are_all(base, k, true)) {
        abort();
    }
    memset(bits + base, false, (size_t)1 << k);
}
