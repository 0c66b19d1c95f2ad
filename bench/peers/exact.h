/* An exact allocator under a lock: it takes the first block of the dimension that is free, and refuses only if there
 * is none. It keeps a byte for each node of the tree of blocks. */
#include <stdbool.h>
#include <stdint.h>

#include "lock.h"
#include "nodes.h"

enum { MAX_DIM = 20, MAX_BLOCK_DIM = MAX_DIM };
static const enum begins BEGINS = AT_FRONT;
static const bool CAN_LEAVE_MARKS = false;

/* For each node the dimension of the largest free block in it, plus 1; 0 if there is none. */
static uint8_t largest[2 << MAX_DIM];
static unsigned machine_dim;

static void open_machine(unsigned n) {
    machine_dim = n;
    for (uint64_t node = 1; node < UINT64_C(2) << n; node++) {
        largest[node] = (uint8_t)(n - depth_of(node) + 1);
    }
}

/* Brings the bytes of the nodes above one up to date. */
static void update_above(uint64_t node, unsigned k) {
    while (node > 1) {
        node /= 2;
        k++;
        uint8_t lower = largest[2 * node], upper = largest[2 * node + 1];
        uint8_t now = lower > upper ? lower : upper;
        if (lower == k && upper == k) {
            now = (uint8_t)(k + 1);
        }
        if (largest[node] == now) {
            return;
        }
        largest[node] = now;
    }
}

static int64_t take_first(unsigned k) {
    if (largest[1] <= k) {
        return -1;
    }
    uint64_t node = 1;
    for (unsigned dim = machine_dim; dim > k; dim--) {
        node *= 2;
        if (largest[node] <= k) {
            node++;
        }
    }
    largest[node] = 0;
    update_above(node, k);
    return base_of(machine_dim, node, k);
}

static int64_t take_block(unsigned k, unsigned lane, uint64_t start) {
    (void)lane;
    (void)start;
    lock();
    int64_t base = take_first(k);
    unlock();
    return base;
}

static void release_block(unsigned lane, uint64_t base, unsigned k) {
    (void)lane;
    uint64_t node = node_of(machine_dim, base, k);
    lock();
    largest[node] = (uint8_t)(k + 1);
    update_above(node, k);
    unlock();
}
