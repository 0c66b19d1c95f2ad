/* Allocates and frees buffers of 4 KB to 4 MB, so that allocators of memory can be compared. Compile it once for malloc,
 * which may be another library's, and once with -DREGIONS for the region library over one mapping of 2^PAGES_DIM pages:
 *
 *     gcc -O2 -pthread pages.c -o pages
 *     gcc -O2 -pthread -DREGIONS -I../include pages.c ../release/linux-x86_64/libcubejobs_regions.a -o pages-regions
 *
 * pages SCENARIO THREADS TURNS
 *
 *   churn      each thread holds up to HELD buffers; a turn frees one of them at random and allocates another
 *   pass       each even thread allocates buffers, and the odd one after it frees them, through a ring of HELD places
 *
 * The size of a buffer is 2^k pages of 4 KB, with k at random from 0 to MAX_DIM. The first byte of each is written. The
 * program prints the processor time of all turns in nanoseconds, the number of refused allocations, and the 99th and the
 * 99.9th percentile of the time of an allocation with a free before it or, in `pass`, alone. */
#define _GNU_SOURCE
#include <inttypes.h>
#include <pthread.h>
#include <sched.h>
#include <stdatomic.h>
#include <stdbool.h>
#include <stdint.h>
#include <stdio.h>
#include <stdlib.h>
#include <string.h>
#include <sys/mman.h>
#include <time.h>

enum { PAGE_BITS = 12, MAX_DIM = 10, PAGES_DIM = 20, MAX_THREADS = 32, HELD = 64, PERCENT = 100, THOUSAND = 1000 };

#ifdef REGIONS
#include "cubejobs_regions.h"

static char *pages;
static struct cubejobs_regions machines[MAX_THREADS];

struct buffer {
    struct cubejobs_block block;
    char *at;
};

static void open_all(unsigned threads) {
    pages = mmap(NULL, UINT64_C(1) << (PAGES_DIM + PAGE_BITS), PROT_READ | PROT_WRITE,
                 MAP_PRIVATE | MAP_ANONYMOUS | MAP_NORESERVE, -1, 0);
    if (pages == MAP_FAILED || cubejobs_regions_open(&machines[0], PAGES_DIM) != CUBEJOBS_REGIONS_DONE) {
        abort();
    }
    for (unsigned i = 1; i < threads; i++) {
        if (cubejobs_regions_share(&machines[0], &machines[i]) != CUBEJOBS_REGIONS_DONE) {
            abort();
        }
    }
}

static bool allocate(unsigned thread, unsigned k, struct buffer *buffer) {
    struct cubejobs_regions_answer answer = cubejobs_regions_take(&machines[thread], &buffer->block, k);
    buffer->at = answer.code == CUBEJOBS_REGIONS_DONE ? pages + (answer.base << PAGE_BITS) : NULL;
    return buffer->at != NULL;
}

static void release(unsigned thread, struct buffer *buffer) {
    if (buffer->at != NULL && cubejobs_regions_release(&machines[thread], &buffer->block) != CUBEJOBS_REGIONS_DONE) {
        abort();
    }
    buffer->at = NULL;
}
#else
struct buffer {
    char *at;
};

static void open_all(unsigned threads) { (void)threads; }

static bool allocate(unsigned thread, unsigned k, struct buffer *buffer) {
    (void)thread;
    buffer->at = malloc(UINT64_C(1) << (k + PAGE_BITS));
    return buffer->at != NULL;
}

static void release(unsigned thread, struct buffer *buffer) {
    (void)thread;
    free(buffer->at);
    buffer->at = NULL;
}
#endif

/* A thread, its buffers, and the ring between an even thread and the next one. */
static struct lane {
    _Alignas(128) unsigned number;
    uint64_t random, refused, turns;
    uint64_t *times;
    struct buffer held[HELD];
    _Alignas(128) _Atomic uint64_t passed;
    _Alignas(128) _Atomic uint64_t freed;
} lanes[MAX_THREADS];

static uint64_t nanoseconds(clockid_t clock) {
    struct timespec now;
    clock_gettime(clock, &now);
    return (uint64_t)now.tv_sec * 1000000000 + (uint64_t)now.tv_nsec;
}

/* The next number of a generator (xorshift, Marsaglia 2003). */
static uint64_t next_random(struct lane *lane) {
    lane->random ^= lane->random << 13;
    lane->random ^= lane->random >> 7;
    lane->random ^= lane->random << 17;
    return lane->random;
}

static void allocate_at(struct lane *lane, struct buffer *buffer) {
    if (allocate(lane->number, (unsigned)(next_random(lane) % (MAX_DIM + 1)), buffer)) {
        *buffer->at = 1;
    } else {
        lane->refused++;
    }
}

static void *churn(void *argument) {
    struct lane *lane = argument;
    for (uint64_t turn = 0; turn < lane->turns; turn++) {
        struct buffer *buffer = &lane->held[next_random(lane) >> 20 & (HELD - 1)];
        uint64_t before = nanoseconds(CLOCK_MONOTONIC);
        release(lane->number, buffer);
        allocate_at(lane, buffer);
        lane->times[turn] = nanoseconds(CLOCK_MONOTONIC) - before;
    }
    for (unsigned i = 0; i < HELD; i++) {
        release(lane->number, &lane->held[i]);
    }
    return NULL;
}

static void *produce(void *argument) {
    struct lane *lane = argument;
    for (uint64_t turn = 0; turn < lane->turns; turn++) {
        while (turn - lane->freed >= HELD) {
            sched_yield();
        }
        uint64_t before = nanoseconds(CLOCK_MONOTONIC);
        allocate_at(lane, &lane->held[turn % HELD]);
        lane->times[turn] = nanoseconds(CLOCK_MONOTONIC) - before;
        lane->passed = turn + 1;
    }
    return NULL;
}

static void *consume(void *argument) {
    struct lane *lane = argument, *from = lane - 1;
    for (uint64_t turn = 0; turn < from->turns; turn++) {
        while (from->passed <= turn) {
            sched_yield();
        }
        release(lane->number, &from->held[turn % HELD]);
        from->freed = turn + 1;
    }
    return NULL;
}

static int by_size(const void *a, const void *b) {
    uint64_t left = *(const uint64_t *)a, right = *(const uint64_t *)b;
    return (left > right) - (left < right);
}

int main(int count, char **words) {
    if (count != 4) {
        return 2;
    }
    bool passes = strcmp(words[1], "pass") == 0;
    unsigned threads = (unsigned)strtoul(words[2], NULL, 10);
    uint64_t turns = strtoull(words[3], NULL, 10), refused = 0, timed = 0;
    if (threads == 0 || threads > MAX_THREADS || (passes && threads % 2 != 0) || turns < THOUSAND) {
        return 2;
    }
    uint64_t *times = mmap(NULL, threads * turns * sizeof *times, PROT_READ | PROT_WRITE,
                           MAP_PRIVATE | MAP_ANONYMOUS | MAP_POPULATE, -1, 0);
    if (times == MAP_FAILED) {
        return 1;
    }
    open_all(threads);
    pthread_t ids[MAX_THREADS];
    uint64_t before = nanoseconds(CLOCK_PROCESS_CPUTIME_ID);
    for (unsigned i = 0; i < threads; i++) {
        bool frees = passes && i % 2 == 1;
        lanes[i].number = i;
        lanes[i].random = 88172645463325252 + 7919 * (uint64_t)i;
        lanes[i].turns = frees ? 0 : turns;
        lanes[i].times = times + timed;
        timed += lanes[i].turns;
        if (pthread_create(&ids[i], NULL, frees ? consume : passes ? produce : churn, &lanes[i]) != 0) {
            return 1;
        }
    }
    for (unsigned i = 0; i < threads; i++) {
        pthread_join(ids[i], NULL);
        refused += lanes[i].refused;
    }
    uint64_t spent = nanoseconds(CLOCK_PROCESS_CPUTIME_ID) - before;
    qsort(times, timed, sizeof *times, by_size);
    printf("%" PRIu64 " %" PRIu64 " %" PRIu64 " %" PRIu64 "\n", spent / timed, refused, times[timed / PERCENT * 99],
           times[timed / THOUSAND * 999]);
    return 0;
}
