/* Takes and releases blocks by one allocator so that it can be timed. Compile it with the header of the allocator:
 *
 *     gcc -O2 -std=gnu11 -pthread '-DALLOCATOR="lists.h"' -DSPIN regions.c
 *
 * regions SCENARIO N LOW HIGH LOAD THREADS [check] [times]
 *
 * It opens a machine of dimension N and fills it as the scenario says. Then it prints `ready`. Each line of standard
 * input is a number of turns: each thread makes these, and when all have ended, the number of refused takes of all is
 * printed. At the end of the input it prints how many words (blocks of 64 processors) have no held processor. Then it
 * releases all, takes the whole machine in the largest blocks that the allocator has, and fails if it cannot.
 *
 * In all scenarios a turn takes a block of a random dimension from LOW to HIGH. In all but `churn` it releases it.
 *   pairs      nothing else is held
 *   half       half of the machine is held
 *   holes      all processors were held one by one, and LOAD thousandths of them, at random, still are
 *   full       all processors are held one by one
 *   fragments  one processor of each word is held
 *   churn      LOAD thousandths of the machine are held by blocks of random dimensions; a thread releases random ones
 *              of its own until it has room for the next block
 *
 * With `check` it counts the owners of each processor, and fails where one has two. With `times` each turn is timed;
 * after the number of refused takes there are three more lines, the median, 99 % and 99.9 % in nanoseconds.
 *
 * `cube_bench regions` does the same with the proved bitmap tree, and library.h with its library for C. */
#define _GNU_SOURCE
#include <inttypes.h>
#include <pthread.h>
#include <stdatomic.h>
#include <stdbool.h>
#include <stdint.h>
#include <stdio.h>
#include <stdlib.h>
#include <string.h>
#include <time.h>

/* Where the searches of the threads begin: all at the first processor, each at a word of its own near it, or each in a
 * part of its own of the machine. */
enum begins { AT_FRONT, NEAR_FRONT, SPREAD };

enum { MAX_THREADS = 32, HOLDER = MAX_THREADS, LANES, THOUSAND = 1000, MISSES = 100, DIM_OF_WORD = 6 };

#include ALLOCATOR

/* A block, with its handle where the allocator has one (BLOCK_HANDLE). */
struct block {
    uint64_t base;
    unsigned k;
#ifdef BLOCK_HANDLE
    BLOCK_HANDLE handle;
#endif
};

/* What a thread works with. The last lane is that of the main thread, which fills the machine. */
static struct lane {
    _Alignas(128) unsigned number;
    uint64_t start, random, turns, refused;
    unsigned low, high;
    /* The blocks that it holds, how many processors they have, and how many they may have. */
    struct block *held;
    uint64_t count, in_use, budget;
    uint64_t *times;
} lanes[LANES];

static unsigned machine_dimension;
static void (*make_turns)(struct lane *lane);

/* Where owners are counted: how many each processor has, and how often it had another. */
static _Atomic uint8_t *owners;
static _Atomic uint64_t faults;

static void *room_for(uint64_t count, size_t size) {
    void *room = calloc(count + 1, size);
    if (room == NULL) {
        fputs("out of memory\n", stderr);
        exit(1);
    }
    return room;
}

/* The next number of a generator (xorshift, Marsaglia 2003). */
static uint64_t next_random(uint64_t *state) {
    *state ^= *state << 13;
    *state ^= *state >> 7;
    *state ^= *state << 17;
    return *state;
}

static uint64_t seed_of(unsigned lane) {
    uint64_t state = 88172645463325252 + 7919 * (uint64_t)lane;
    for (int i = 0; i < 20; i++) {
        next_random(&state);
    }
    return state;
}

static unsigned random_dim(struct lane *lane) {
    return lane->low + (unsigned)(next_random(&lane->random) % (lane->high - lane->low + 1));
}

static void add_owner(struct block block) {
    for (uint64_t i = 0; owners != NULL && i < UINT64_C(1) << block.k; i++) {
        if (atomic_fetch_add_explicit(&owners[block.base + i], 1, memory_order_relaxed) != 0) {
            faults++;
        }
    }
}

static void remove_owner(struct block block) {
    for (uint64_t i = 0; owners != NULL && i < UINT64_C(1) << block.k; i++) {
        atomic_fetch_sub_explicit(&owners[block.base + i], 1, memory_order_relaxed);
    }
}

static bool take(struct lane *lane, unsigned k, uint64_t start, struct block *block) {
#ifdef BLOCK_HANDLE
    (void)start;
    block->handle = (BLOCK_HANDLE){0};
    int64_t base = take_handle(&block->handle, k, lane->number);
#else
    int64_t base = take_block(k, lane->number, start);
#endif
    if (base < 0) {
        return false;
    }
    block->base = (uint64_t)base;
    block->k = k;
    add_owner(*block);
    return true;
}

static void release(struct lane *lane, struct block *block) {
    remove_owner(*block);
#ifdef BLOCK_HANDLE
    release_handle(&block->handle, lane->number);
#else
    release_block(lane->number, block->base, block->k);
#endif
}

static void hold(struct lane *lane, struct block block) {
    lane->held[lane->count++] = block;
    lane->in_use += UINT64_C(1) << block.k;
}

/* Removes a block from those that the lane holds. The last one takes its place. */
static struct block swap_remove(struct lane *lane, uint64_t index) {
    struct block block = lane->held[index];
    lane->held[index] = lane->held[--lane->count];
    lane->in_use -= UINT64_C(1) << block.k;
    return block;
}

static uint64_t random_index(struct lane *lane, uint64_t count) {
    return (next_random(&lane->random) >> 20) % count;
}

static void release_random(struct lane *lane) {
    struct block block = swap_remove(lane, random_index(lane, lane->count));
    release(lane, &block);
}

/* ---- the turns */

static void pair_turn(struct lane *lane) {
    struct block block;
    if (take(lane, random_dim(lane), lane->start, &block)) {
        release(lane, &block);
    } else {
        lane->refused++;
    }
}

static void churn_turn(struct lane *lane) {
    struct block block;
    unsigned k = random_dim(lane);
    while (lane->count > 0 && lane->in_use + (UINT64_C(1) << k) > lane->budget) {
        release_random(lane);
    }
    if (take(lane, k, lane->start, &block)) {
        hold(lane, block);
        return;
    }
    lane->refused++;
    if (lane->count > 0) {
        release_random(lane);
    }
}

static uint64_t nanoseconds(void) {
    struct timespec now;
    clock_gettime(CLOCK_MONOTONIC, &now);
    return (uint64_t)now.tv_sec * 1000000000 + (uint64_t)now.tv_nsec;
}

static void timed_turns(struct lane *lane) {
    for (uint64_t turn = 0; turn < lane->turns; turn++) {
        uint64_t before = nanoseconds();
        pair_turn(lane);
        lane->times[turn] = nanoseconds() - before;
    }
}

/* Each scenario has a loop of its own, so that the turn is a part of it. */
static void pair_turns(struct lane *lane) {
    for (uint64_t turn = 0; turn < lane->turns; turn++) {
        pair_turn(lane);
    }
}

static void churn_turns(struct lane *lane) {
    for (uint64_t turn = 0; turn < lane->turns; turn++) {
        churn_turn(lane);
    }
}

static void *work(void *lane) {
    make_turns(lane);
    return NULL;
}

static int by_size(const void *a, const void *b) {
    uint64_t left = *(const uint64_t *)a, right = *(const uint64_t *)b;
    return (left > right) - (left < right);
}

/* Prints the median, 99 % and 99.9 % of the times of all threads. */
static void print_times(unsigned threads, uint64_t turns) {
    uint64_t *all = room_for(threads * turns, sizeof *all);
    for (unsigned i = 0; i < threads; i++) {
        memcpy(all + i * turns, lanes[i].times, turns * sizeof *all);
        free(lanes[i].times);
    }
    qsort(all, threads * turns, sizeof *all, by_size);
    static const uint64_t shares[] = {500, 990, 999};
    for (unsigned i = 0; i < sizeof shares / sizeof *shares; i++) {
        printf("%" PRIu64 "\n", all[threads * turns / THOUSAND * shares[i]]);
    }
    free(all);
}

/* Makes this many turns of each thread. The main thread is the last one. */
static void run(unsigned threads, uint64_t turns, bool is_timed) {
    pthread_t ids[MAX_THREADS];
    for (unsigned i = 0; i < threads; i++) {
        lanes[i].turns = turns;
        lanes[i].refused = 0;
        lanes[i].times = is_timed ? room_for(turns, sizeof *lanes[i].times) : NULL;
    }
    for (unsigned i = 0; i + 1 < threads; i++) {
        if (pthread_create(&ids[i], NULL, work, &lanes[i]) != 0) {
            fputs("no thread\n", stderr);
            exit(1);
        }
    }
    work(&lanes[threads - 1]);
    uint64_t refused = lanes[threads - 1].refused;
    for (unsigned i = 0; i + 1 < threads; i++) {
        pthread_join(ids[i], NULL);
        refused += lanes[i].refused;
    }
    printf("%" PRIu64 "\n", refused);
    if (is_timed) {
        print_times(threads, turns);
    }
}

/* ---- how the machine is filled */

/* Takes all processors one by one. */
static void take_singles(struct lane *holder) {
    for (uint64_t start = 0; start < UINT64_C(1) << machine_dimension; start++) {
        struct block block;
        if (!take(holder, 0, start, &block)) {
            fputs("a processor is not taken\n", stderr);
            exit(1);
        }
        hold(holder, block);
    }
}

static bool stays_held(struct lane *holder, struct block block, bool is_fragmented, uint64_t load) {
    if (is_fragmented) {
        return block.base % 64 == block.base / 64 * 37 % 64;
    }
    return next_random(&holder->random) % THOUSAND < load;
}

/* Releases some of the blocks that the main thread holds, the last one first. */
static void release_some(struct lane *holder, bool is_fragmented, uint64_t load) {
    for (uint64_t i = holder->count; i-- > 0;) {
        if (!stays_held(holder, holder->held[i], is_fragmented, load)) {
            struct block block = swap_remove(holder, i);
            release(holder, &block);
        }
    }
}

/* Takes blocks of random dimensions up to a share of the machine. */
static void fill_by_chance(struct lane *holder, uint64_t load) {
    uint64_t limit = (load << machine_dimension) / THOUSAND;
    for (unsigned misses = 0; misses < MISSES;) {
        struct block block;
        unsigned k = random_dim(holder);
        uint64_t start = BEGINS == NEAR_FRONT ? 0 : holder->in_use;
        if (holder->in_use + (UINT64_C(1) << k) <= limit && take(holder, k, start, &block)) {
            hold(holder, block);
        } else {
            misses++;
        }
    }
}

/* Moves this many blocks of the main thread, at random, to a lane. */
static void deal(struct lane *holder, struct lane *lane, uint64_t count) {
    lane->held = room_for(UINT64_C(1) << machine_dimension, sizeof *lane->held);
    for (uint64_t i = 0; i < count; i++) {
        hold(lane, swap_remove(holder, random_index(lane, holder->count)));
    }
}

static uint64_t start_of(unsigned lane, unsigned threads) {
    uint64_t processors = UINT64_C(1) << machine_dimension;
    /* A cache line has 8 words of 64 processors. */
    uint64_t first = 512 * (uint64_t)(lane % 16);
    switch (BEGINS) {
    case NEAR_FRONT:
        return (first + 64 * (first / processors)) % processors;
    case SPREAD:
        return processors / threads * lane % processors;
    default:
        return 0;
    }
}

static void open_lanes(unsigned threads, unsigned low, unsigned high) {
    for (unsigned i = 0; i < LANES; i++) {
        lanes[i].number = i;
        lanes[i].start = start_of(i, threads);
        lanes[i].random = seed_of(i);
        lanes[i].low = low;
        lanes[i].high = high;
    }
}

/* The largest dimension of a block that fits into a budget, at least `low`. */
static unsigned fitting(unsigned low, unsigned high, uint64_t budget) {
    while (high > low && UINT64_C(1) << high > budget) {
        high--;
    }
    return high;
}

static void fill_churn(struct lane *holder, unsigned threads, uint64_t load) {
    fill_by_chance(holder, load);
    uint64_t count = holder->count / threads;
    for (unsigned i = 0; i < threads; i++) {
        struct lane *lane = &lanes[i];
        lane->budget = (load << machine_dimension) / THOUSAND / threads;
        lane->high = fitting(lane->low, lane->high, lane->budget);
        deal(holder, lane, count);
    }
    make_turns = churn_turns;
}

/* Fills the machine as the scenario says. Returns whether there is such a scenario. */
static bool fill(const char *scenario, unsigned threads, uint64_t load) {
    struct lane *holder = &lanes[HOLDER];
    struct block half;
    make_turns = pair_turns;
    holder->held = room_for(UINT64_C(1) << machine_dimension, sizeof *holder->held);
    if (strcmp(scenario, "pairs") == 0) {
        return true;
    }
    if (strcmp(scenario, "half") == 0) {
        bool is_taken = take(holder, machine_dimension - 1, 0, &half);
        if (is_taken) {
            hold(holder, half);
        }
        return is_taken;
    }
    if (strcmp(scenario, "churn") == 0) {
        fill_churn(holder, threads, load);
        return true;
    }
    take_singles(holder);
    if (strcmp(scenario, "holes") == 0 || strcmp(scenario, "fragments") == 0) {
        release_some(holder, strcmp(scenario, "fragments") == 0, load);
        return true;
    }
    return strcmp(scenario, "full") == 0;
}

/* ---- the end */

/* How many words have no held processor. */
static uint64_t free_words(void) {
    uint64_t words = UINT64_C(1) << (machine_dimension - DIM_OF_WORD), count = 0;
    bool *in_use = room_for(words, sizeof *in_use);
    for (unsigned i = 0; i < LANES; i++) {
        for (uint64_t j = 0; j < lanes[i].count; j++) {
            struct block block = lanes[i].held[j];
            for (uint64_t p = block.base; p < block.base + (UINT64_C(1) << block.k); p += 64) {
                in_use[p / 64] = true;
            }
        }
    }
    for (uint64_t word = 0; word < words; word++) {
        count += !in_use[word];
    }
    free(in_use);
    return count;
}

/* Takes the whole machine in blocks of dimension k, and releases them: whether it could. */
static bool can_take_all(unsigned k) {
    struct lane *holder = &lanes[HOLDER];
    bool is_taken = true;
    for (uint64_t base = 0; is_taken && base < UINT64_C(1) << machine_dimension; base += UINT64_C(1) << k) {
        struct block block;
        is_taken = take(holder, k, base, &block);
        if (is_taken) {
            hold(holder, block);
        }
    }
    while (holder->count > 0) {
        release(holder, &holder->held[--holder->count]);
    }
    return is_taken;
}

/* Releases all: whether the machine is whole then. An allocator that can leave marks may need to take and release all
 * processors one by one first. */
static bool is_whole_again(void) {
    for (unsigned i = 0; i < LANES; i++) {
        while (lanes[i].count > 0) {
            release(&lanes[i], &lanes[i].held[--lanes[i].count]);
        }
    }
    unsigned k = machine_dimension < MAX_BLOCK_DIM ? machine_dimension : MAX_BLOCK_DIM;
    return can_take_all(k) || (CAN_LEAVE_MARKS && can_take_all(0) && can_take_all(k));
}

/* Whether this is one of the arguments after the sixth. */
static bool has_word(int count, char **words, const char *word) {
    for (int i = 7; i < count; i++) {
        if (strcmp(words[i], word) == 0) {
            return true;
        }
    }
    return false;
}

static unsigned number_of(const char *word) {
    return (unsigned)strtoul(word, NULL, 10);
}

int main(int count, char **words) {
    if (count < 7) {
        return 2;
    }
    machine_dimension = number_of(words[2]);
    unsigned low = number_of(words[3]), high = number_of(words[4]), threads = number_of(words[6]);
    if (machine_dimension < DIM_OF_WORD || machine_dimension > MAX_DIM || low > high || high > MAX_BLOCK_DIM
        || high > machine_dimension || threads == 0 || threads > MAX_THREADS) {
        return 2;
    }
    if (has_word(count, words, "check")) {
        owners = room_for(UINT64_C(1) << machine_dimension, sizeof *owners);
    }
    open_machine(machine_dimension);
    open_lanes(threads, low, high);
    if (!fill(words[1], threads, number_of(words[5]))) {
        return 2;
    }
    bool is_timed = has_word(count, words, "times");
    if (is_timed) {
        make_turns = timed_turns;
    }
    setvbuf(stdout, NULL, _IOLBF, 0);
    puts("ready");
    uint64_t turns;
    while (scanf("%" SCNu64, &turns) == 1) {
        run(threads, turns, is_timed);
    }
    printf("%" PRIu64 "\n", free_words());
    bool is_whole = is_whole_again();
    if (!is_whole || faults != 0) {
        fprintf(stderr, "whole: %d, processors with two owners: %" PRIu64 "\n", is_whole, (uint64_t)faults);
        return 1;
    }
    return 0;
}
