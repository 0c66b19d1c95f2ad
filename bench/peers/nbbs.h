/* NBBS, the non-blocking buddy system of Marotta and others (CLUSTER 2018), with a status byte for each node of the
 * tree of blocks, as published.
 *
 * A take and two releases under one node that overlap can leave that node marked although nothing in it is held: the
 * first release clears the marks of the second below, and stops where the second has not come yet. The next take and
 * release under the node clear them. */
#include <stdatomic.h>
#include <stdbool.h>
#include <stdint.h>

#include "nodes.h"

enum { MAX_DIM = 20, MAX_BLOCK_DIM = MAX_DIM };
static const enum begins BEGINS = SPREAD;
static const bool CAN_LEAVE_MARKS = true;

/* The status bits of a node: blocks in its right or left half are held; releases in that half are on their way up;
 * the node itself is held. */
enum { RIGHT = 1, LEFT = 2, RIGHT_LEAVES = 4, LEFT_LEAVES = 8, HELD = 16, BUSY = HELD | LEFT | RIGHT };

static _Alignas(4096) _Atomic uint8_t status[2 << MAX_DIM];
static unsigned machine_dim;

static void open_machine(unsigned n) {
    machine_dim = n;
}

static uint8_t occupied_by(uint64_t child) {
    return child & 1 ? RIGHT : LEFT;
}

static uint8_t left_by(uint64_t child) {
    return child & 1 ? RIGHT_LEAVES : LEFT_LEAVES;
}

/* Clears the marks of a release above a node, as long as no block beside it is held. */
static void unmark_above(uint64_t node, uint64_t top) {
    uint64_t child;
    uint8_t found, now;
    do {
        child = node;
        node /= 2;
        found = atomic_load(&status[node]);
        do {
            if (!(found & left_by(child))) {
                return;
            }
            now = (uint8_t)(found & ~(occupied_by(child) | left_by(child)));
        } while (!atomic_compare_exchange_strong(&status[node], &found, now));
    } while (node > top && !(now & occupied_by(child ^ 1)));
}

/* Releases a node whose ancestors below `top` are marked. */
static void release_node(uint64_t node, uint64_t top) {
    for (uint64_t child = node; child > top; child /= 2) {
        uint8_t found = atomic_fetch_or(&status[child / 2], left_by(child));
        if ((found & occupied_by(child ^ 1)) && !(found & left_by(child ^ 1))) {
            break;
        }
    }
    atomic_store(&status[node], 0);
    if (node != top) {
        unmark_above(node, top);
    }
}

/* Tries to take a node. Returns 0 if it did, and else the node that was in the way. */
static uint64_t try_node(uint64_t node) {
    uint8_t found = 0;
    if (!atomic_compare_exchange_strong(&status[node], &found, BUSY)) {
        return node;
    }
    for (uint64_t child = node; child > 1; child /= 2) {
        uint64_t parent = child / 2;
        uint8_t now;
        found = atomic_load(&status[parent]);
        do {
            if (found & HELD) {
                release_node(node, child);
                return parent;
            }
            now = (uint8_t)((found & ~left_by(child)) | occupied_by(child));
        } while (!atomic_compare_exchange_strong(&status[parent], &found, now));
    }
    return 0;
}

/* Takes one of the nodes from `first` on and before `end`; 0 if there is none. */
static uint64_t take_between(uint64_t first, uint64_t end) {
    uint64_t node = first;
    while (node < end) {
        if (atomic_load_explicit(&status[node], memory_order_relaxed) & BUSY) {
            node++;
            continue;
        }
        uint64_t in_the_way = try_node(node);
        if (in_the_way == 0) {
            return node;
        }
        node = node_after(in_the_way, node);
    }
    return 0;
}

static int64_t take_block(unsigned k, unsigned lane, uint64_t start) {
    (void)lane;
    uint64_t first = node_of(machine_dim, 0, k), begin = node_of(machine_dim, start, k);
    uint64_t node = take_between(begin, 2 * first);
    if (node == 0) {
        node = take_between(first, begin);
    }
    return node == 0 ? -1 : base_of(machine_dim, node, k);
}

static void release_block(unsigned lane, uint64_t base, unsigned k) {
    (void)lane;
    release_node(node_of(machine_dim, base, k), 1);
}
