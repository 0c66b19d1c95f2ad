/* Has threads wait for blocks, of which there are too few or just enough, beside threads that take without waiting. A
 * turn ends only if no wake is lost: after a minute in which no thread got a block, the program fails. `wait_calls TURNS`
 * has each thread make so many turns in each machine. */
#define _POSIX_C_SOURCE 200809L
#include "cubejobs_wait.h"

#include <time.h>

#include "calls.h"

#define WAITERS 6
#define THREADS 8
/* The binary logarithm of THREADS. */
#define THREADS_DIM 3
/* How long no thread may get a block, in seconds. */
#ifndef PATIENCE
#define PATIENCE 60
#endif

static struct cubejobs_event event;
static pthread_barrier_t barrier;
static unsigned long turns = 20000, got;
static unsigned owners[1 << 13], running;

struct worker {
    struct cubejobs_regions thread;
    uint64_t seed;
    unsigned number;
};

static void use(struct cubejobs_regions_answer a) {
    uint64_t p, end = a.base + (UINT64_C(1) << a.dim);
    for (p = a.base; p < end; p++) expect(__atomic_fetch_add(&owners[p], 1, __ATOMIC_RELAXED) == 0, "two owners");
    for (p = a.base; p < end; p++) __atomic_fetch_sub(&owners[p], 1, __ATOMIC_RELAXED);
    __atomic_fetch_add(&got, 1, __ATOMIC_RELAXED);
}

/* Takes as a caller does that does not wait, and raises the event after each take. */
static struct cubejobs_regions_answer try_once(struct worker *own, struct cubejobs_block *block, uint64_t x, uint32_t k) {
    struct cubejobs_regions_answer a;
    if (x >> 40 & 1) a = cubejobs_regions_take(&own->thread, block, k);
    else if (x >> 41 & 1) a = cubejobs_regions_take_exact(&own->thread, block, k);
    else a = cubejobs_regions_take_at(&own->thread, block, (x >> 42) % (1u << (dim - k)) << k, k);
    cubejobs_event_raise(&event);
    return a;
}

static void *work(void *argument) {
    struct worker *own = (struct worker *)argument;
    unsigned long turn;
    for (turn = 0; turn < turns; turn++) {
        struct cubejobs_block block = {0, 0};
        uint64_t x = next(&own->seed);
        uint32_t k = x >> 30 & 1 && dim ? dim - (uint32_t)(x % 2) : (uint32_t)(x % (dim + 1));
        struct cubejobs_regions_answer a = own->number < WAITERS ? cubejobs_regions_take_or_wait(&own->thread, &block, k, &event)
                                                      : try_once(own, &block, x, k);
        if (a.code) {
            expect(own->number >= WAITERS, "a waiter is refused");
            continue;
        }
        use(a);
        if (x >> 31 & 1) sched_yield();
        expect(!cubejobs_regions_release_and_raise(&own->thread, &block, &event), "a release is refused");
    }
    __atomic_fetch_sub(&running, 1, __ATOMIC_SEQ_CST);
    return 0;
}

/* Takes one of THREADS blocks that fill the machine, and releases it once each thread has one. Then one thread waits for
 * the whole machine, while the others try blocks of all dimensions. */
static void *work_together(void *argument) {
    struct worker *own = (struct worker *)argument;
    unsigned long turn;
    for (turn = 0; turn < turns / 16; turn++) {
        struct cubejobs_block block = {0, 0};
        uint64_t x = next(&own->seed);
        struct cubejobs_regions_answer a =
            cubejobs_regions_take_or_wait(&own->thread, &block, dim - THREADS_DIM, &event);
        expect(!a.code, "a waiter is refused");
        use(a);
        pthread_barrier_wait(&barrier);
        expect(!cubejobs_regions_release_and_raise(&own->thread, &block, &event), "a release is refused");
        a = own->number == turn % THREADS
                ? cubejobs_regions_take_or_wait(&own->thread, &block, dim, &event)
                : try_once(own, &block, x, (uint32_t)(x % (dim + 1)));
        if (!a.code) cubejobs_regions_release_and_raise(&own->thread, &block, &event);
        pthread_barrier_wait(&barrier);
    }
    __atomic_fetch_sub(&running, 1, __ATOMIC_SEQ_CST);
    return 0;
}

/* Waits until all have ended. Fails if no thread gets a block for a while. */
static void watch(void) {
    const struct timespec moment = {0, 1000000};
    unsigned long before = 0;
    unsigned idle = 0;
    while (__atomic_load_n(&running, __ATOMIC_SEQ_CST)) {
        unsigned long now = __atomic_load_n(&got, __ATOMIC_RELAXED);
        idle = now == before ? idle + 1 : 0;
        before = now;
        expect(idle < 1000 * PATIENCE, "a wake is lost");
        nanosleep(&moment, 0);
    }
}

static void crowd(void *(*act)(void *)) {
    static struct worker workers[THREADS];
    pthread_t ids[THREADS];
    unsigned i;
    running = THREADS;
    pthread_barrier_init(&barrier, 0, THREADS);
    for (i = 0; i < THREADS; i++) {
        workers[i].thread.tag = 0;
        expect(!(i ? cubejobs_regions_share(&workers[0].thread, &workers[i].thread)
                   : cubejobs_regions_open(&workers[0].thread, dim)), "open");
        workers[i].seed = seed + i * 7919 + dim;
        workers[i].number = i;
    }
    for (i = 0; i < THREADS; i++)
        if (pthread_create(&ids[i], 0, act, &workers[i])) exit(1);
    watch();
    for (i = 0; i < THREADS; i++) {
        if (pthread_join(ids[i], 0)) exit(1);
        expect(!cubejobs_regions_free(&workers[i].thread), "free");
    }
}

int main(int argc, char **argv) {
    static const unsigned dims[] = {0, 1, 3, 6, 7, 8, 9, 12, 13};
    static const struct cubejobs_event fresh = CUBEJOBS_EVENT_INIT;
    unsigned i;
    if (argc > 1) turns = strtoul(argv[1], 0, 10);
    event = fresh;
    for (i = 0; i < sizeof dims / sizeof *dims; i++) {
        dim = dims[i];
        crowd(work);
        if (dim >= THREADS_DIM) crowd(work_together);
    }
    printf("ffi: %lu blocks were given to threads that waited, and no wake was lost\n", got);
    return 0;
}
