/* Has threads wait for blocks until deadlines, stops their events, and cancels them while they sleep. A wait that does not
 * end is a lost wake: after a minute the program fails. `deadline_calls TURNS` has each of 16 threads make so many waits
 * with random deadlines. */
#define _POSIX_C_SOURCE 200809L
#include "cubejobs_wait.h"

#include <time.h>

#include "calls.h"

#define THREADS 16
#define DIM 3
#ifndef PATIENCE
#define PATIENCE 60
#endif

static struct cubejobs_event event;
static struct cubejobs_regions handles[THREADS + 1];
static unsigned long turns = 625, given, late, beats;
static unsigned owners[1 << DIM], ended, asleep;

static struct timespec in(long nanoseconds) {
    struct timespec time;
    clock_gettime(CLOCK_MONOTONIC, &time);
    time.tv_nsec += nanoseconds;
    time.tv_sec += time.tv_nsec / 1000000000;
    time.tv_nsec %= 1000000000;
    return time;
}

static void moment(void) {
    const struct timespec time = {0, 1000000};
    nanosleep(&time, 0);
}

/* Fails if nothing moves on for a while. */
static void *watch(void *unused) {
    unsigned long before = 0;
    unsigned idle = 0;
    for (;;) {
        unsigned long now = __atomic_load_n(&beats, __ATOMIC_RELAXED);
        idle = now == before ? idle + 1 : 0;
        before = now;
        expect(idle < 1000 * PATIENCE, "a wake is lost");
        moment();
    }
    return unused;
}

static struct cubejobs_block no_block(void) {
    static struct cubejobs_block none;
    return none;
}

static void beat(void) { __atomic_fetch_add(&beats, 1, __ATOMIC_RELAXED); }

/* Opens a machine with a handle for each thread, and a new event. */
static void begin(void) {
    static const struct cubejobs_event fresh = CUBEJOBS_EVENT_INIT;
    unsigned i;
    dim = DIM;
    event = fresh;
    memset(handles, 0, sizeof handles);
    expect(!cubejobs_regions_open(&handles[THREADS], DIM), "open");
    for (i = 0; i < THREADS; i++) expect(!cubejobs_regions_share(&handles[THREADS], &handles[i]), "share");
}

static void end(void) {
    unsigned i;
    for (i = 0; i <= THREADS; i++) expect(!cubejobs_regions_free(&handles[i]), "free");
}

/* Waits with a random deadline: none, one that has passed, or one in at most 2 ms. */
static void *wait_often(void *argument) {
    unsigned number = (unsigned)(uintptr_t)argument;
    uint64_t own = seed + number * 7919;
    unsigned long turn;
    for (turn = 0; turn < turns; turn++) {
        struct cubejobs_block block = no_block();
        uint64_t x = next(&own), p;
        struct timespec deadline = in(x % 4 ? (long)(x >> 8 & 0x1fffff) : 0);
        struct cubejobs_regions_answer got = cubejobs_regions_take_until(
            &handles[number], &block, (uint32_t)(x >> 40) % (DIM + 1), &event, x % 16 == 1 ? 0 : &deadline);
        beat();
        if (cubejobs_regions_code_of(got) == CUBEJOBS_REGIONS_TIMED_OUT) {
            struct timespec now = in(0);
            expect(x % 16 != 1, "a wait without a deadline is late");
            expect(now.tv_sec > deadline.tv_sec || (now.tv_sec == deadline.tv_sec && now.tv_nsec >= deadline.tv_nsec),
                   "a wait ends before its deadline");
            expect(cubejobs_regions_block(&block).code == CUBEJOBS_REGIONS_NOTHING_HELD, "a late wait holds a block");
            __atomic_fetch_add(&late, 1, __ATOMIC_RELAXED);
            continue;
        }
        expect(got.code == CUBEJOBS_REGIONS_DONE, "a wait is refused");
        for (p = got.base; p < got.base + (UINT64_C(1) << got.dim); p++)
            expect(__atomic_fetch_add(&owners[p], 1, __ATOMIC_RELAXED) == 0, "two owners");
        __atomic_fetch_add(&given, 1, __ATOMIC_RELAXED);
        if (x >> 31 & 1) sched_yield();
        if ((x >> 32) % 64 == 0) moment();
        for (p = got.base; p < got.base + (UINT64_C(1) << got.dim); p++)
            __atomic_fetch_sub(&owners[p], 1, __ATOMIC_RELAXED);
        expect(!cubejobs_regions_release_and_raise(&handles[number], &block, &event), "a release is refused");
    }
    return 0;
}

static void many_deadlines(void) {
    pthread_t ids[THREADS];
    uintptr_t i;
    begin();
    for (i = 0; i < THREADS; i++) expect(!pthread_create(&ids[i], 0, wait_often, (void *)i), "a thread");
    for (i = 0; i < THREADS; i++) pthread_join(ids[i], 0);
    expect(given && late, "there are both ends");
    end();
}

/* Waits for the whole machine, with a far deadline if its number is odd. Returns the code. */
static void *wait_once(void *argument) {
    uintptr_t number = (uintptr_t)argument, code;
    struct cubejobs_block block = no_block();
    struct timespec far = in(0);
    far.tv_sec += 1000000;
    __atomic_fetch_add(&asleep, 1, __ATOMIC_SEQ_CST);
    code = cubejobs_regions_take_until(&handles[number], &block, DIM, &event, number % 2 ? &far : 0).code;
    if (!code) cubejobs_regions_release_and_raise(&handles[number], &block, &event);
    __atomic_fetch_add(&ended, 1, __ATOMIC_SEQ_CST);
    beat();
    return (void *)code;
}

static void start_waits(pthread_t *ids) {
    uintptr_t i;
    asleep = ended = 0;
    for (i = 0; i < THREADS; i++) expect(!pthread_create(&ids[i], 0, wait_once, (void *)i), "a thread");
    while (__atomic_load_n(&asleep, __ATOMIC_SEQ_CST) < THREADS) moment();
}

/* A stop ends the waits that sleep, those that are about to, and all later ones. */
static void stops(unsigned round) {
    struct cubejobs_block held = no_block(), other = no_block();
    pthread_t ids[THREADS];
    unsigned i;
    begin();
    expect(!cubejobs_regions_take(&handles[THREADS], &held, 0).code, "take");
    start_waits(ids);
    /* In each other round the threads have gone to sleep. */
    for (i = 0; i < 20 && round % 2; i++) moment();
    expect(!ended, "a wait ends while the block is held");
    cubejobs_event_stop(&event);
    for (i = 0; i < THREADS; i++) {
        void *code;
        pthread_join(ids[i], &code);
        expect((uintptr_t)code == CUBEJOBS_REGIONS_STOPPED, "a stopped wait has another code");
    }
    cubejobs_event_stop(&event);
    expect(cubejobs_regions_take_or_wait(&handles[0], &other, 0, &event).code == CUBEJOBS_REGIONS_STOPPED &&
               cubejobs_regions_block(&other).code == CUBEJOBS_REGIONS_NOTHING_HELD, "a wait after a stop takes a block");
    expect(!cubejobs_regions_release_and_raise(&handles[THREADS], &held, &event), "a release after a stop is refused");
    end();
}

/* A thread that is cancelled in a wait goes on until it has its block. Others may use the event. */
static void cancels(void) {
    struct cubejobs_block held = no_block();
    pthread_t ids[THREADS];
    unsigned i;
    begin();
    expect(!cubejobs_regions_take(&handles[THREADS], &held, 0).code, "take");
    start_waits(ids);
    for (i = 0; i < 20; i++) moment();
    for (i = 0; i < THREADS; i++) pthread_cancel(ids[i]);
    for (i = 0; i < 20; i++) moment();
    expect(!ended, "a wait ends while the block is held");
    expect(!cubejobs_regions_release_and_raise(&handles[THREADS], &held, &event), "a release is refused");
    for (i = 0; i < THREADS; i++) pthread_join(ids[i], 0);
    expect(ended == THREADS, "a thread ends inside a wait");
    end();
}

int main(int argc, char **argv) {
    pthread_t watcher;
    unsigned round;
    if (argc > 1) turns = strtoul(argv[1], 0, 10);
    expect(!pthread_create(&watcher, 0, watch, 0), "a thread");
    many_deadlines();
    for (round = 0; round < 40; round++) stops(round);
    cancels();
    printf("ffi: %lu of %lu waits had a block by their deadline, and each stop ended all\n", given, given + late);
    return 0;
}
