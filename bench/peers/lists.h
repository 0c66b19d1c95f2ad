/* Free lists of buddies under a lock, as Linux has them in mm/page_alloc.c: a doubly linked list for each dimension.
 * A take splits the first block of the smallest dimension that fits. A release joins buddies as long as both are
 * free. */
#include <stdbool.h>
#include <stdint.h>

#include "lock.h"

enum { MAX_DIM = 20, MAX_BLOCK_DIM = MAX_DIM, NONE = -1 };
static const enum begins BEGINS = AT_FRONT;
static const bool CAN_LEAVE_MARKS = false;

/* The entry of the first processor of each free block; `dim` is NONE at all others. */
static struct entry {
    int32_t next, previous;
    int8_t dim;
} entries[1 << MAX_DIM];
static int32_t heads[MAX_DIM + 1];
static unsigned machine_dim;

static void push_free(int32_t base, unsigned dim) {
    entries[base] = (struct entry){heads[dim], NONE, (int8_t)dim};
    if (heads[dim] != NONE) {
        entries[heads[dim]].previous = base;
    }
    heads[dim] = base;
}

static void unlink_free(int32_t base, unsigned dim) {
    struct entry *entry = &entries[base];
    if (entry->previous != NONE) {
        entries[entry->previous].next = entry->next;
    } else {
        heads[dim] = entry->next;
    }
    if (entry->next != NONE) {
        entries[entry->next].previous = entry->previous;
    }
    entry->dim = NONE;
}

static void open_machine(unsigned n) {
    machine_dim = n;
    for (int32_t base = 0; base < 1 << n; base++) {
        entries[base].dim = NONE;
    }
    for (unsigned dim = 0; dim <= n; dim++) {
        heads[dim] = NONE;
    }
    push_free(0, n);
}

static int64_t take_listed(unsigned k) {
    unsigned dim = k;
    while (heads[dim] == NONE) {
        if (dim == machine_dim) {
            return -1;
        }
        dim++;
    }
    int32_t base = heads[dim];
    unlink_free(base, dim);
    while (dim > k) {
        dim--;
        push_free(base + (1 << dim), dim);
    }
    return base;
}

static void release_listed(int32_t base, unsigned dim) {
    while (dim < machine_dim) {
        int32_t buddy = base ^ (1 << dim);
        if (entries[buddy].dim != (int8_t)dim) {
            break;
        }
        unlink_free(buddy, dim);
        base &= buddy;
        dim++;
    }
    push_free(base, dim);
}

static int64_t take_block(unsigned k, unsigned lane, uint64_t start) {
    (void)lane;
    (void)start;
    lock();
    int64_t base = take_listed(k);
    unlock();
    return base;
}

static void release_block(unsigned lane, uint64_t base, unsigned k) {
    (void)lane;
    lock();
    release_listed((int32_t)base, k);
    unlock();
}
