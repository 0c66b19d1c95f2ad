/* The calls of cubejobs_regions.h for a program that is compiled with CUBEJOBS_CHECK. Compile this
 * file with it too, as C99 or later.
 *
 * Each open handle of a machine has a generation, a number that no other one ever has. So has each
 * block since its last take, split or join. A table has the generations of now. A copy of a handle
 * has an old one once the machine's handle was shut, or the block was released, split or joined.
 * Then its call is refused with STALE.
 *
 * One lock guards the table. A take is made outside of it: nobody else can enter its block before.
 * A release is made inside: the next owner enters the block only after this one has left the table.
 */
#ifndef CUBEJOBS_CHECK
#error "compile the whole program with CUBEJOBS_CHECK"
#endif
#define CUBEJOBS_CHECK_INSIDE 1
#include <pthread.h>
#include <search.h>
#include <stdio.h>
#include <stdlib.h>

#include "cubejobs_regions.h"

/* A record of the table: a held block, by its machine and base, or an open handle of a machine. A
 * handle has the machine 0, which no machine has, and its generation as its base. */
struct record {
    uint64_t machine;
    uint64_t base;
    uint64_t generation;
};

static pthread_mutex_t lock = PTHREAD_MUTEX_INITIALIZER;
static void *table;
static uint64_t last_generation;
/* The tag of each open handle, or 0 if none was opened. */
static uint64_t open_tag;

/* The number of machines that were opened. A file without CUBEJOBS_CHECK has another name for it. */
uint64_t cubejobs_regions_machines;
#undef cubejobs_regions_machines
extern uint64_t cubejobs_regions_machines __attribute__((weak));

__attribute__((constructor)) static void must_be_whole(void) {
    if (!&cubejobs_regions_machines) return;
    fputs("cubejobs: a part of this program was compiled without CUBEJOBS_CHECK\n", stderr);
    abort();
}

static int compare(const void *left, const void *right) {
    const struct record *one = (const struct record *)left, *other = (const struct record *)right;
    if (one->machine != other->machine) return one->machine < other->machine ? -1 : 1;
    return (one->base > other->base) - (one->base < other->base);
}

/* Returns the record of a block or of a handle, or null. */
static struct record *find(uint64_t machine, uint64_t base) {
    struct record key = {0, 0, 0};
    void *found;
    key.machine = machine;
    key.base = base;
    found = tfind(&key, &table, compare);
    return found ? *(struct record **)found : NULL;
}

/* Enters a block or a handle with a new generation. Returns that, or 0 if memory ran out. */
static uint64_t enter(uint64_t machine, uint64_t base) {
    struct record *record = (struct record *)malloc(sizeof *record);
    if (!record) return 0;
    record->machine = machine;
    record->generation = ++last_generation;
    record->base = machine ? base : record->generation;
    if (tsearch(record, &table, compare)) return record->generation;
    free(record);
    return 0;
}

static void leave(uint64_t machine, uint64_t base) {
    struct record *record = find(machine, base);
    if (!record) return;
    tdelete(record, &table, compare);
    free(record);
}

static int is_stale(const struct cubejobs_regions *thread) {
    return open_tag && thread->tag == open_tag && !find(0, thread->generation);
}

static int is_stale_block(const struct cubejobs_block *block) {
    struct cubejobs_regions_answer held = cubejobs_regions_block(block);
    const struct record *record = held.code == CUBEJOBS_REGIONS_DONE ? find(block->machine, held.base) : NULL;
    return held.code == CUBEJOBS_REGIONS_DONE && (!record || record->generation != block->generation);
}

static struct cubejobs_regions_answer refusal(enum cubejobs_regions_code code) {
    struct cubejobs_regions_answer answer = {0, 0, 0, 0};
    answer.code = (uint16_t)code;
    return answer;
}

/* Gives a block that has just been split or joined a new generation. */
static void renew(struct cubejobs_block *block) {
    struct record *record = find(block->machine, cubejobs_regions_block(block).base);
    block->generation = record->generation = ++last_generation;
}

/* Returns the code of an open or a share, after which the handle has this generation. */
static enum cubejobs_regions_code opened(struct cubejobs_regions *thread, uint64_t generation,
                                         enum cubejobs_regions_code code) {
    if (code != CUBEJOBS_REGIONS_DONE) {
        leave(0, generation);
        return code;
    }
    open_tag = thread->tag;
    thread->generation = generation;
    return code;
}

enum cubejobs_regions_code cubejobs_regions_open_version_checked(struct cubejobs_regions *thread, uint32_t version,
                                                                 uint32_t dim, uint64_t number) {
    enum cubejobs_regions_code code = CUBEJOBS_REGIONS_STALE;
    pthread_mutex_lock(&lock);
    if (!is_stale(thread)) {
        uint64_t generation = enter(0, 0);
        code = CUBEJOBS_REGIONS_OUT_OF_MEMORY;
        if (generation)
            code = opened(thread, generation, cubejobs_regions_open_version(thread, version, dim, number));
    }
    pthread_mutex_unlock(&lock);
    return code;
}

enum cubejobs_regions_code cubejobs_regions_share_checked(struct cubejobs_regions *thread, struct cubejobs_regions *other) {
    enum cubejobs_regions_code code = CUBEJOBS_REGIONS_STALE;
    pthread_mutex_lock(&lock);
    if (!is_stale(thread) && !is_stale(other)) {
        uint64_t generation = enter(0, 0);
        code = CUBEJOBS_REGIONS_OUT_OF_MEMORY;
        if (generation) code = opened(other, generation, cubejobs_regions_share(thread, other));
    }
    pthread_mutex_unlock(&lock);
    return code;
}

/* Returns whether a take with these handles would be one with an old copy. */
static int is_stale_take(const struct cubejobs_regions *thread, const struct cubejobs_block *block) {
    int stale;
    pthread_mutex_lock(&lock);
    stale = is_stale(thread) || is_stale_block(block);
    pthread_mutex_unlock(&lock);
    return stale;
}

/* Returns the answer of a take, whose block is entered. If memory runs out, the block goes back. */
static struct cubejobs_regions_answer taken(struct cubejobs_regions *thread, struct cubejobs_block *block,
                                            struct cubejobs_regions_answer answer) {
    if (answer.code != CUBEJOBS_REGIONS_DONE) return answer;
    pthread_mutex_lock(&lock);
    block->generation = enter(block->machine, answer.base);
    pthread_mutex_unlock(&lock);
    if (block->generation) return answer;
    cubejobs_regions_release(thread, block);
    return refusal(CUBEJOBS_REGIONS_OUT_OF_MEMORY);
}

struct cubejobs_regions_answer cubejobs_regions_take_checked(struct cubejobs_regions *thread,
                                                             struct cubejobs_block *block, uint32_t k) {
    if (is_stale_take(thread, block)) return refusal(CUBEJOBS_REGIONS_STALE);
    return taken(thread, block, cubejobs_regions_take(thread, block, k));
}

struct cubejobs_regions_answer cubejobs_regions_take_exact_checked(struct cubejobs_regions *thread,
                                                                   struct cubejobs_block *block, uint32_t k) {
    if (is_stale_take(thread, block)) return refusal(CUBEJOBS_REGIONS_STALE);
    return taken(thread, block, cubejobs_regions_take_exact(thread, block, k));
}

struct cubejobs_regions_answer cubejobs_regions_take_at_checked(struct cubejobs_regions *thread,
                                                                struct cubejobs_block *block, uint64_t base, uint32_t k) {
    if (is_stale_take(thread, block)) return refusal(CUBEJOBS_REGIONS_STALE);
    return taken(thread, block, cubejobs_regions_take_at(thread, block, base, k));
}

/* Splits a block. Its upper half is entered before, so that no memory is missing afterwards. */
static enum cubejobs_regions_code split(struct cubejobs_regions *thread, struct cubejobs_block *block,
                                        struct cubejobs_block *half) {
    struct cubejobs_regions_answer held = cubejobs_regions_block(block);
    uint64_t middle, generation;
    enum cubejobs_regions_code code;
    if (held.code != CUBEJOBS_REGIONS_DONE || held.dim == 0) return cubejobs_regions_split(thread, block, half);
    middle = held.base + ((uint64_t)1 << (held.dim - 1));
    generation = enter(block->machine, middle);
    if (!generation) return CUBEJOBS_REGIONS_OUT_OF_MEMORY;
    code = cubejobs_regions_split(thread, block, half);
    if (code != CUBEJOBS_REGIONS_DONE) {
        leave(block->machine, middle);
        return code;
    }
    renew(block);
    half->generation = generation;
    return code;
}

enum cubejobs_regions_code cubejobs_regions_split_checked(struct cubejobs_regions *thread, struct cubejobs_block *block,
                                                          struct cubejobs_block *half) {
    enum cubejobs_regions_code code = CUBEJOBS_REGIONS_STALE;
    pthread_mutex_lock(&lock);
    if (!is_stale(thread) && !is_stale_block(block) && !is_stale_block(half)) code = split(thread, block, half);
    pthread_mutex_unlock(&lock);
    return code;
}

enum cubejobs_regions_code cubejobs_regions_join_checked(struct cubejobs_regions *thread, struct cubejobs_block *block,
                                                         struct cubejobs_block *half) {
    enum cubejobs_regions_code code = CUBEJOBS_REGIONS_STALE;
    pthread_mutex_lock(&lock);
    if (!is_stale(thread) && !is_stale_block(block) && !is_stale_block(half)) {
        struct cubejobs_regions_answer upper = cubejobs_regions_block(half);
        code = cubejobs_regions_join(thread, block, half);
        if (code == CUBEJOBS_REGIONS_DONE) {
            leave(block->machine, upper.base);
            renew(block);
        }
    }
    pthread_mutex_unlock(&lock);
    return code;
}

enum cubejobs_regions_code cubejobs_regions_release_checked(struct cubejobs_regions *thread, struct cubejobs_block *block) {
    enum cubejobs_regions_code code = CUBEJOBS_REGIONS_STALE;
    pthread_mutex_lock(&lock);
    if (!is_stale(thread) && !is_stale_block(block)) {
        uint64_t machine = block->machine, base = cubejobs_regions_block(block).base;
        code = cubejobs_regions_release(thread, block);
        if (code == CUBEJOBS_REGIONS_DONE) leave(machine, base);
    }
    pthread_mutex_unlock(&lock);
    return code;
}

struct cubejobs_regions_answer cubejobs_regions_block_checked(const struct cubejobs_block *block) {
    int stale;
    pthread_mutex_lock(&lock);
    stale = is_stale_block(block);
    pthread_mutex_unlock(&lock);
    return stale ? refusal(CUBEJOBS_REGIONS_STALE) : cubejobs_regions_block(block);
}

struct cubejobs_regions_occupancy_answer cubejobs_regions_occupancy_checked(struct cubejobs_regions *thread) {
    struct cubejobs_regions_occupancy_answer answer = {CUBEJOBS_REGIONS_STALE, 0, 0, 0, {0}};
    int stale;
    pthread_mutex_lock(&lock);
    stale = is_stale(thread);
    pthread_mutex_unlock(&lock);
    return stale ? answer : cubejobs_regions_occupancy(thread);
}

enum cubejobs_regions_code cubejobs_regions_free_checked(struct cubejobs_regions *thread) {
    enum cubejobs_regions_code code = CUBEJOBS_REGIONS_STALE;
    pthread_mutex_lock(&lock);
    if (!is_stale(thread)) {
        uint64_t generation = thread->generation;
        code = cubejobs_regions_free(thread);
        if (code == CUBEJOBS_REGIONS_DONE) leave(0, generation);
    }
    pthread_mutex_unlock(&lock);
    return code;
}
