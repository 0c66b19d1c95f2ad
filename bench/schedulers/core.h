/* A scheduler under the rules of docs/PLANNER.md, by hand in C, for one thread. No block goes out of service.
 *
 * Blocks are nodes of a binary tree: node 1 is the machine, nodes 2i and 2i + 1 are the halves of node i. Three arrays
 * have an entry for each node:
 *
 *   room    TAKEN if a job holds exactly this block, else 1 plus the dimension of the largest free block in it, or 0
 *   latest  the latest end of the jobs at or below the node, 0 if there is none
 *   held    how many processors jobs hold at or below the node
 *
 * Below a taken node all is as if free. The waiting jobs of a class and a dimension are in a queue of their own, an
 * array in order of arrival with a tree of least estimates over it. With HEAD_ONLY no job passes the first one, and with
 * NO_RESERVATION nothing is reserved. */
#ifndef CORE_H
#define CORE_H
#include "types.h"

enum { TAKEN = -1, FAN_BITS = 3, FAN = 1 << FAN_BITS, LEVELS = 9, FIRST_PLACES = 64 };
enum phase { IS_FREE, IS_WAITING, IS_RUNNING };

struct job {
    uint64_t payload, estimate, end, arrival, passed;
    uint32_t base, place, generation, processors;
    uint8_t dim, job_class, phase;
};

/* The waiting jobs of a class and dimension. `least[0]` has the estimate of each place, and `least[i + 1]` the least of
 * each FAN entries of `least[i]`. A place without a job has NOBODY as slot. Such a place, and a job without an
 * estimate, has NEVER as estimate. */
struct queue {
    uint32_t *slots;
    uint64_t *least[LEVELS];
    uint32_t places, levels, front, used, count;
};

struct scheduler {
    unsigned dim;
    int8_t *room;
    uint64_t *latest;
    uint32_t *held;
    struct job *jobs;
    uint32_t slots, free_slot;
    struct queue queues[CLASSES][DIMS];
    /* The arrival of the first job of each queue, and the dimensions of a class that have waiting jobs. */
    uint64_t first[CLASSES][DIMS];
    uint32_t filled[CLASSES];
    /* The slot of the job with the reservation, and its node. */
    uint32_t reserved;
    uint64_t node;
    uint64_t arrivals, limit;
    /* How many jobs wait, and how many run with a known end. */
    uint32_t waiting, known;
};

/* ---- blocks */

static inline uint64_t node_at(const struct scheduler *s, uint64_t base, unsigned k) {
    return (base + (UINT64_C(1) << s->dim)) >> k;
}

/* Brings the rooms above a node of dimension k up to date. */
static inline void mend_rooms(int8_t *room, uint64_t node, unsigned k) {
    while (node > 1) {
        int8_t one = room[node], other = room[node ^ 1], now = one > other ? one : other;
        k++;
        if (one == (int8_t)k && other == (int8_t)k) {
            now = (int8_t)(k + 1);
        }
        now = now < 0 ? 0 : now;
        node /= 2;
        if (room[node] == now) {
            return;
        }
        room[node] = now;
    }
}

/* Sets the end of a node, and adds to the processors that are held in it. */
static inline void note_end(struct scheduler *s, uint64_t node, uint64_t end, uint32_t more) {
    uint64_t *latest = s->latest;
    latest[node] = end;
    for (uint64_t at = node; at > 1; at /= 2) {
        uint64_t one = latest[at], other = latest[at ^ 1], now = one > other ? one : other;
        if (latest[at / 2] == now) {
            break;
        }
        latest[at / 2] = now;
    }
    for (uint64_t at = node; at > 0; at /= 2) {
        s->held[at] += more;
    }
}

/* Returns the first free block of dimension k in a node of dimension d that has room for it. */
static inline uint64_t first_below(const int8_t *room, uint64_t node, unsigned d, unsigned k) {
    for (; d > k; d--) {
        node = 2 * node + (room[2 * node] <= (int8_t)k);
    }
    return node;
}

/* Returns the largest taken node around a node, or itself. What is free apart from it lies beside the way to this. */
static inline uint64_t taken_around(const struct scheduler *s, uint64_t node) {
    uint64_t found = node;
    for (uint64_t at = node / 2; at > 0; at /= 2) {
        found = s->room[at] == TAKEN ? at : found;
    }
    return found;
}

/* Returns 1 plus the dimension of the largest free block apart from a node. */
static inline unsigned room_beside(const struct scheduler *s, uint64_t node) {
    int8_t most = 0;
    for (; node > 1; node /= 2) {
        most = s->room[node ^ 1] > most ? s->room[node ^ 1] : most;
    }
    return (unsigned)most;
}

/* Returns the first free node of dimension k apart from a node, where there is one. The nodes beside the way to it are,
 * from the first processor on, the lower ones from the top down and then the upper ones from the bottom up. */
static inline uint64_t first_beside(const struct scheduler *s, uint64_t node, unsigned k) {
    unsigned depth = 63u - (unsigned)__builtin_clzll(node), bottom = s->dim - depth;
    for (unsigned i = depth; i-- > 0;) {
        uint64_t side = node >> i;
        if (side % 2 == 1 && s->room[side - 1] > (int8_t)k) {
            return first_below(s->room, side - 1, bottom + i, k);
        }
    }
    for (unsigned i = 0; i < depth; i++) {
        uint64_t side = node >> i;
        if (side % 2 == 0 && s->room[side + 1] > (int8_t)k) {
            return first_below(s->room, side + 1, bottom + i, k);
        }
    }
    abort();
}

/* Returns the node to reserve for a block of dimension k. */
static inline uint64_t chosen_node(const struct scheduler *s, unsigned k, uint64_t *end) {
    uint64_t node = 1;
    unsigned d = s->dim;
    for (; d > k && s->room[node] != TAKEN; d--) {
        uint64_t low = 2 * node, high = low + 1;
        bool is_high = s->latest[high] < s->latest[low] ||
                       (s->latest[high] == s->latest[low] && s->held[high] < s->held[low]);
        node = low + is_high;
    }
    *end = s->latest[node];
    return node << (d - k);
}

/* ---- queues */

/* Writes an estimate, and mends the least ones above it. */
static inline void set_least(struct queue *q, uint32_t place, uint64_t estimate) {
    q->least[0][place] = estimate;
    for (uint32_t level = 1; level < q->levels; level++) {
        const uint64_t *row = q->least[level - 1] + (place & ~(uint32_t)(FAN - 1));
        uint64_t least = row[0];
        for (unsigned i = 1; i < FAN; i++) {
            least = row[i] < least ? row[i] : least;
        }
        place >>= FAN_BITS;
        if (q->least[level][place] == least) {
            return;
        }
        q->least[level][place] = least;
    }
}

/* Returns the first place with an estimate of at most `limit`. There is one. */
static inline uint32_t first_within(const struct queue *q, uint64_t limit) {
    uint32_t place = 0;
    for (uint32_t level = q->levels; level-- > 0;) {
        while (q->least[level][place] > limit) {
            place++;
        }
        place <<= level > 0 ? FAN_BITS : 0;
    }
    return place;
}

/* Gives a queue this many places, of which none has a job. */
static void clear_places(struct queue *q, uint32_t places) {
    q->places = places;
    q->slots = room_for(q->slots, places, sizeof *q->slots);
    q->levels = 0;
    for (uint32_t size = places, is_last = 0; !is_last; size = (size + FAN - 1) >> FAN_BITS) {
        uint32_t padded = (size + FAN - 1) & ~(uint32_t)(FAN - 1);
        is_last = size == 1;
        uint64_t *row = room_for(q->least[q->levels], padded, sizeof *row);
        memset(row, 0xff, padded * sizeof *row);
        q->least[q->levels++] = row;
    }
}

/* Moves the jobs of a queue to its first places, and doubles it if more than half of them are in use. */
static void make_places(struct scheduler *s, struct queue *q) {
    uint32_t *old = q->slots, used = q->used;
    q->slots = NULL;
    clear_places(q, q->places == 0 ? FIRST_PLACES : q->count * 2 > q->places ? 2 * q->places : q->places);
    q->front = q->used = 0;
    for (uint32_t i = 0; i < used; i++) {
        if (old[i] != NOBODY) {
            struct job *job = &s->jobs[old[i]];
            q->slots[q->used] = old[i];
            job->place = q->used++;
            set_least(q, job->place, job->estimate == 0 ? NEVER : job->estimate);
        }
    }
    free(old);
}

static inline void join_queue(struct scheduler *s, uint32_t slot) {
    struct job *job = &s->jobs[slot];
    struct queue *q = &s->queues[job->job_class][job->dim];
    if (q->used == q->places) {
        make_places(s, q);
    }
    job->place = q->used++;
    q->slots[job->place] = slot;
    set_least(q, job->place, job->estimate == 0 ? NEVER : job->estimate);
    if (q->count++ == 0) {
        s->filled[job->job_class] |= 1u << job->dim;
        s->first[job->job_class][job->dim] = job->arrival;
        q->front = job->place;
    }
    s->waiting++;
}

static inline void leave_queue(struct scheduler *s, uint32_t slot) {
    struct job *job = &s->jobs[slot];
    struct queue *q = &s->queues[job->job_class][job->dim];
    q->slots[job->place] = NOBODY;
    set_least(q, job->place, NEVER);
    s->waiting--;
    if (--q->count == 0) {
        s->filled[job->job_class] &= ~(1u << job->dim);
        s->first[job->job_class][job->dim] = NEVER;
        q->front = q->used = 0;
    } else if (q->front == job->place) {
        while (q->slots[q->front] == NOBODY) {
            q->front++;
        }
        s->first[job->job_class][job->dim] = s->jobs[q->slots[q->front]].arrival;
    }
}

/* Returns the slot of the first job of a class of a dimension below `any`, or below `most` with an estimate of at most
 * `limit`. */
static inline uint32_t first_of_class(const struct scheduler *s, unsigned c, unsigned any, unsigned most, uint64_t limit) {
    uint64_t best = NEVER;
    uint32_t found = NOBODY;
    for (uint32_t bits = s->filled[c]; bits != 0; bits &= bits - 1) {
        unsigned d = (unsigned)__builtin_ctz(bits);
        const struct queue *q = &s->queues[c][d];
        if ((d >= any && d >= most) || s->first[c][d] >= best) {
            continue;
        }
        if (d < any) {
            best = s->first[c][d];
            found = q->slots[q->front];
        } else if (q->least[q->levels - 1][0] <= limit) {
            uint32_t slot = q->slots[first_within(q, limit)];
            if (s->jobs[slot].arrival < best) {
                best = s->jobs[slot].arrival;
                found = slot;
            }
        }
    }
    return found;
}

static inline uint32_t first_waiting(const struct scheduler *s, unsigned any, unsigned most, uint64_t limit) {
    for (unsigned c = 0; c < CLASSES; c++) {
        uint32_t found = s->filled[c] != 0 ? first_of_class(s, c, any, most, limit) : NOBODY;
        if (found != NOBODY) {
            return found;
        }
    }
    return NOBODY;
}

/* ---- slots */

static void make_slots(struct scheduler *s) {
    uint32_t old = s->slots;
    s->slots = old == 0 ? FIRST_PLACES : 2 * old;
    s->jobs = room_for(s->jobs, s->slots, sizeof *s->jobs);
    for (uint32_t i = s->slots; i-- > old;) {
        s->jobs[i] = (struct job){.place = s->free_slot};
        s->free_slot = i;
    }
}

static inline struct job *job_of(struct scheduler *s, uint64_t ticket, enum phase phase) {
    uint32_t slot = (uint32_t)ticket;
    bool is_there = slot < s->slots && s->jobs[slot].generation == ticket >> 32 && s->jobs[slot].phase == phase;
    return is_there ? &s->jobs[slot] : NULL;
}

/* ---- calls */

static inline void open_scheduler(struct scheduler *s, unsigned dim, uint32_t jobs, uint32_t patience) {
    size_t nodes = (size_t)2 << dim;
    (void)jobs;
    *s = (struct scheduler){.dim = dim, .free_slot = NOBODY, .reserved = NOBODY};
    s->limit = (uint64_t)patience << dim;
    memset(s->first, 0xff, sizeof s->first);
    s->room = room_for(NULL, nodes, sizeof *s->room);
    s->latest = room_for(NULL, nodes, sizeof *s->latest);
    s->held = room_for(NULL, nodes, sizeof *s->held);
    memset(s->latest, 0, nodes * sizeof *s->latest);
    memset(s->held, 0, nodes * sizeof *s->held);
    for (unsigned depth = 0; depth <= dim; depth++) {
        memset(s->room + ((size_t)1 << depth), (int)(dim - depth + 1), (size_t)1 << depth);
    }
}

static inline void close_scheduler(struct scheduler *s) {
    for (unsigned i = 0; i < CLASSES * DIMS; i++) {
        struct queue *q = &s->queues[0][0] + i;
        for (unsigned level = 0; level < LEVELS; level++) {
            free(q->least[level]);
        }
        free(q->slots);
    }
    free(s->room);
    free(s->latest);
    free(s->held);
    free(s->jobs);
}

static inline uint64_t submit_job(struct scheduler *s, struct request request) {
    if (s->free_slot == NOBODY) {
        make_slots(s);
    }
    uint32_t slot = s->free_slot;
    struct job *job = &s->jobs[slot];
    s->free_slot = job->place;
    *job = (struct job){.payload = request.payload,
                        .estimate = request.estimate,
                        .arrival = s->arrivals++,
                        .generation = job->generation + 1,
                        .processors = request.processors,
                        .dim = (uint8_t)dim_of(request.processors),
                        .job_class = (uint8_t)request.job_class,
                        .phase = IS_WAITING};
    join_queue(s, slot);
    return (uint64_t)job->generation << 32 | slot;
}

static inline void finish_job(struct scheduler *s, uint64_t ticket) {
    struct job *job = job_of(s, ticket, IS_RUNNING);
    if (job == NULL) {
        abort();
    }
    uint64_t node = node_at(s, job->base, job->dim);
    note_end(s, node, 0, -(1u << job->dim));
    s->room[node] = (int8_t)(job->dim + 1);
    mend_rooms(s->room, node, job->dim);
    s->known -= job->end != NEVER;
    job->phase = IS_FREE;
    job->place = s->free_slot;
    s->free_slot = (uint32_t)ticket;
}

/* Starts a waiting job in a free node. */
static inline bool launch(struct scheduler *s, uint32_t slot, uint64_t node, uint64_t now, struct start *start) {
    struct job *job = &s->jobs[slot];
    leave_queue(s, slot);
    job->base = (uint32_t)((node << job->dim) - (UINT64_C(1) << s->dim));
    job->end = job->estimate == 0 || job->estimate >= NEVER - now ? NEVER : now + job->estimate;
    job->phase = IS_RUNNING;
    s->known += job->end != NEVER;
    s->room[node] = TAKEN;
    mend_rooms(s->room, node, job->dim);
    note_end(s, node, job->end, 1u << job->dim);
    s->reserved = s->reserved == slot ? NOBODY : s->reserved;
    *start = (struct start){(uint64_t)job->generation << 32 | slot, job->payload, job->base};
    return true;
}

/* Reserves a block for the head, if its promise is known or enough has passed the head. A descent has no known end if
 * no job has one. */
static inline void reserve(struct scheduler *s, uint32_t head) {
    bool is_due = s->jobs[head].passed >= s->limit;
    if (s->known == 0 && !is_due) {
        return;
    }
    uint64_t end, node = chosen_node(s, s->jobs[head].dim, &end);
    if (end != NEVER || is_due) {
        s->reserved = head;
        s->node = node;
    }
}

/* Starts the first job that may pass the head, of those that have a free block of a dimension below `all`. */
static inline bool pass(struct scheduler *s, uint32_t head, unsigned all, uint64_t now, struct start *start) {
    unsigned any = all, most = all;
    uint64_t limit = 0, around = 0;
    if (s->reserved != NOBODY) {
        around = taken_around(s, s->node);
        uint64_t promise = s->latest[around];
        any = room_beside(s, around);
        limit = promise != NEVER && promise > now ? promise - now : 0;
        most = limit > 0 ? all : any;
    }
    uint32_t slot = first_waiting(s, any, most, limit);
    if (slot == NOBODY) {
        return false;
    }
    unsigned k = s->jobs[slot].dim;
    bool is_beside = around > 0 && k < any;
    uint64_t node = is_beside ? first_beside(s, around, k) : first_below(s->room, 1, s->dim, k);
    s->jobs[head].passed += UINT64_C(1) << k;
    return launch(s, slot, node, now, start);
}

static inline bool start_next(struct scheduler *s, uint64_t now, struct start *start) {
    if (s->waiting == 0) {
        return false;
    }
    unsigned all = s->room[1] > 0 ? (unsigned)s->room[1] : 0;
    uint32_t head = s->reserved != NOBODY ? s->reserved : first_waiting(s, DIMS, 0, 0);
    unsigned k = s->jobs[head].dim;
    if (k < all) {
        return launch(s, head, first_below(s->room, 1, s->dim, k), now, start);
    }
#ifdef HEAD_ONLY
    return false;
#endif
#ifndef NO_RESERVATION
    if (s->reserved == NOBODY) {
        reserve(s, head);
    }
#endif
    return all > 0 && pass(s, head, all, now, start);
}

static inline bool promise_of(struct scheduler *s, uint64_t ticket, uint64_t *time) {
    *time = NEVER;
    if (job_of(s, ticket, IS_WAITING) == NULL || s->reserved != (uint32_t)ticket) {
        return false;
    }
    *time = s->latest[taken_around(s, s->node)];
    return true;
}
#endif
