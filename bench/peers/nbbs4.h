/* NBBS with four levels of the tree of blocks in one word, which is its form for fewer atomic steps: our own
 * reconstruction from the paper. A bunch is a node with the three levels below it. Its word has a field of five status
 * bits for each node of its lowest level; what is known of the upper levels follows from these.
 * It can leave marks as nbbs.h says. */
#include <stdatomic.h>
#include <stdbool.h>
#include <stdint.h>

#include "nodes.h"

enum { MAX_DIM = 20, MAX_BLOCK_DIM = MAX_DIM };
static const enum begins BEGINS = SPREAD;
static const bool CAN_LEAVE_MARKS = true;

/* The status bits of a field: blocks in the right or left half of its node are held; releases in that half are on their
 * way up; the node itself is held. */
enum { RIGHT = 1, LEFT = 2, RIGHT_LEAVES = 4, LEFT_LEAVES = 8, HELD = 16, BUSY = HELD | LEFT | RIGHT, ALL = 31 };
enum { FIELD_BITS = 5, LEVELS = 4 };

/* The lowest bit of each of the eight fields of a word. */
static const uint64_t EACH_FIELD = 0x842108421;

/* The word of a bunch is at the number of its highest node. */
static _Alignas(4096) _Atomic uint64_t words[2 << MAX_DIM];
static unsigned machine_dim;

static void open_machine(unsigned n) {
    machine_dim = n;
}

/* Where a node is in its bunch: the highest node, and the lowest bit of each field that it covers. */
struct place {
    uint64_t highest, fields;
    unsigned shift;
};

static inline struct place place_of(uint64_t node) {
    unsigned depth = depth_of(node), bunches_below = (machine_dim - depth) / LEVELS;
    unsigned lowest = machine_dim - LEVELS * bunches_below;
    unsigned highest = lowest < LEVELS ? 0 : lowest - (LEVELS - 1);
    unsigned covered = 1u << (lowest - depth);
    struct place place;
    place.highest = node >> (depth - highest);
    uint64_t first_field = (node << (lowest - depth)) - (place.highest << (lowest - highest));
    place.shift = FIELD_BITS * (unsigned)first_field;
    place.fields = (EACH_FIELD & ((UINT64_C(1) << (FIELD_BITS * covered)) - 1)) << place.shift;
    return place;
}

/* The bits of the field of a bunch's parent that say that something in the bunch is held, and that it leaves. */
static inline uint64_t occupied_by(uint64_t highest, struct place parent) {
    return (uint64_t)(highest & 1 ? RIGHT : LEFT) << parent.shift;
}

static inline uint64_t left_by(uint64_t highest, struct place parent) {
    return (uint64_t)(highest & 1 ? RIGHT_LEAVES : LEFT_LEAVES) << parent.shift;
}

/* Whether a word has a half that is in use and does not leave, apart from these. */
static bool has_other_use(uint64_t word, uint64_t except) {
    uint64_t in_use = word & (EACH_FIELD * (LEFT | RIGHT)) & ~except;
    return (in_use & ~(word >> 2)) != 0;
}

/* Marks the words above a bunch: something in it leaves. */
static void mark_above(uint64_t highest, uint64_t top) {
    while (highest > top) {
        struct place parent = place_of(highest / 2);
        uint64_t found = atomic_fetch_or(&words[parent.highest], left_by(highest, parent));
        if (has_other_use(found, occupied_by(highest, parent))) {
            return;
        }
        highest = parent.highest;
    }
}

/* Clears the marks above a bunch of which nothing is in use, as `word` says, and so on up. */
static void unmark_above(uint64_t highest, uint64_t top, uint64_t word) {
    while (highest > top && !(word & (EACH_FIELD * (LEFT | RIGHT)))) {
        struct place parent = place_of(highest / 2);
        uint64_t leaves = left_by(highest, parent), found = atomic_load(&words[parent.highest]);
        do {
            if (!(found & leaves)) {
                return;
            }
            word = found & ~(leaves | occupied_by(highest, parent));
        } while (!atomic_compare_exchange_strong(&words[parent.highest], &found, word));
        highest = parent.highest;
    }
}

static void release_node(uint64_t node, uint64_t top) {
    struct place own = place_of(node);
    uint64_t found = atomic_fetch_or(&words[own.highest], own.fields * (LEFT_LEAVES | RIGHT_LEAVES));
    if (!has_other_use(found, own.fields * (LEFT | RIGHT))) {
        mark_above(own.highest, top);
    }
    found = atomic_fetch_and(&words[own.highest], ~(own.fields * ALL));
    unmark_above(own.highest, top, found & ~(own.fields * ALL));
}

/* Tries to take a node. Returns 0 if it did, and else the node that was in the way. */
static uint64_t try_node(uint64_t node) {
    struct place own = place_of(node);
    uint64_t found = atomic_load(&words[own.highest]);
    do {
        if (found & (own.fields * ALL)) {
            return node;
        }
    } while (!atomic_compare_exchange_strong(&words[own.highest], &found, found | own.fields * BUSY));
    for (uint64_t highest = own.highest; highest > 1;) {
        struct place parent = place_of(highest / 2);
        uint64_t now;
        found = atomic_load(&words[parent.highest]);
        do {
            if (found & ((uint64_t)HELD << parent.shift)) {
                release_node(node, highest);
                return highest / 2;
            }
            now = (found & ~left_by(highest, parent)) | occupied_by(highest, parent);
        } while (!atomic_compare_exchange_strong(&words[parent.highest], &found, now));
        highest = parent.highest;
    }
    return 0;
}

/* Takes one of the nodes from `first` on and before `end`; 0 if there is none. */
static uint64_t take_between(uint64_t first, uint64_t end) {
    uint64_t node = first;
    while (node < end) {
        struct place place = place_of(node);
        if (atomic_load_explicit(&words[place.highest], memory_order_relaxed) & (place.fields * ALL)) {
            node++;
            continue;
        }
        uint64_t in_the_way = try_node(node);
        if (in_the_way == 0) {
            return node;
        }
        node = node_after(in_the_way, node);
    }
    return 0;
}

static int64_t take_block(unsigned k, unsigned lane, uint64_t start) {
    (void)lane;
    uint64_t first = node_of(machine_dim, 0, k), begin = node_of(machine_dim, start, k);
    uint64_t node = take_between(begin, 2 * first);
    if (node == 0) {
        node = take_between(first, begin);
    }
    return node == 0 ? -1 : base_of(machine_dim, node, k);
}

static void release_block(unsigned lane, uint64_t base, unsigned k) {
    (void)lane;
    release_node(node_of(machine_dim, base, k), 1);
}
