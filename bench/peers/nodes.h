/* A machine of dimension n as a binary tree of blocks. Node 1 is the machine. Nodes 2i and 2i + 1 are the halves of
 * node i, so the blocks of dimension k are the nodes from 2^(n-k) to 2^(n-k+1) - 1, in order. */
#ifndef NODES_H
#define NODES_H

#include <stdint.h>

static inline uint64_t node_of(unsigned n, uint64_t base, unsigned k) {
    return (base + (UINT64_C(1) << n)) >> k;
}

static inline int64_t base_of(unsigned n, uint64_t node, unsigned k) {
    return (int64_t)((node << k) - (UINT64_C(1) << n));
}

/* How many nodes are above a node. */
static inline unsigned depth_of(uint64_t node) {
    return 63 - (unsigned)__builtin_clzll(node);
}

/* The first node of the depth of `node` that lies after the descendants of `ancestor`. */
static inline uint64_t node_after(uint64_t ancestor, uint64_t node) {
    return (ancestor + 1) << (depth_of(node) - depth_of(ancestor));
}

#endif
