/* Exact first fit by an array tree, for one thread. It keeps a byte for each node of the tree of blocks:
 *
 *   TAKEN  if the node was taken as one block;
 *   k + 1  if k is the dimension of the largest free block in the node, or 0 if no part of it is free.
 *
 * A take does not write below its node: there all is as if free. So a release writes only the way up, and whether a
 * block was taken as one is one look. The way up ends where a byte stays as it is. */
#include <stdbool.h>
#include <stdint.h>
#include <stdlib.h>

#include "nodes.h"

enum { MAX_DIM = 20, MAX_BLOCK_DIM = MAX_DIM, TAKEN = -1 };
static const enum begins BEGINS = AT_FRONT;
static const bool CAN_LEAVE_MARKS = false;

static _Alignas(4096) int8_t largest[2 << MAX_DIM];
static unsigned machine_dim;

static void open_machine(unsigned n) {
    machine_dim = n;
    for (uint64_t node = 1; node < UINT64_C(2) << n; node++) {
        largest[node] = (int8_t)(n - depth_of(node) + 1);
    }
}

/* Brings the bytes above a node of dimension k up to date. */
static void update_above(uint64_t node, unsigned k) {
    while (node > 1) {
        int8_t one = largest[node], other = largest[node ^ 1], now = one > other ? one : other;
        k++;
        if (one == (int8_t)k && other == (int8_t)k) {
            now = (int8_t)(k + 1);
        }
        if (now < 0) {
            now = 0;
        }
        node /= 2;
        if (largest[node] == now) {
            return;
        }
        largest[node] = now;
    }
}

static int64_t take_block(unsigned k, unsigned lane, uint64_t start) {
    (void)lane;
    (void)start;
    if (k > machine_dim || largest[1] <= (int8_t)k) {
        return -1;
    }
    uint64_t node = 1;
    for (unsigned dim = machine_dim; dim > k; dim--) {
        node = 2 * node + (largest[2 * node] <= (int8_t)k);
    }
    largest[node] = TAKEN;
    update_above(node, k);
    return base_of(machine_dim, node, k);
}

static void release_block(unsigned lane, uint64_t base, unsigned k) {
    (void)lane;
    uint64_t node = node_of(machine_dim, base, k);
    if (largest[node] != TAKEN) {
        abort();
    }
    largest[node] = (int8_t)(k + 1);
    update_above(node, k);
}
