/* Has workers sleep until they get jobs of lanes, by cubejobs_wait.h. Producers pause now and then, so that workers
 * fall asleep, and two of them share a lane under a lock. A table has how often each job came. A run ends only if no
 * wake is lost: after PATIENCE seconds without a job, the program fails. Then workers sleep for a while, and must take
 * almost no processor time. At last jobs come one by one, each once all workers sleep. `sleep_calls JOBS` has each
 * producer submit JOBS jobs. */
#define _POSIX_C_SOURCE 200809L
#include "cubejobs_wait.h"

#include <signal.h>
#include <time.h>
#include <unistd.h>

#include "calls.h"

#define PRODUCERS 4
#define WORKERS 4
/* How many jobs come after the others, one by one. */
#define LATER 100
/* How long no job may come, in seconds. */
#ifndef PATIENCE
#define PATIENCE 60
#endif
/* For how long idle workers sleep, and how much processor time they may take, in milliseconds. */
#define IDLE 500
#define SPENT 25

static unsigned long jobs = 20000, got;
static uint32_t words[WORKERS];
static struct cubejobs_parking parking = CUBEJOBS_PARKING_INIT(words, WORKERS);
static unsigned numbers[PRODUCERS] = {0, 1, 2, 3};
static unsigned char seen[PRODUCERS][1 << 20];
static struct cubejobs_lanes lanes;
static struct cubejobs_lane lane[PRODUCERS - 1];
static struct cubejobs_worker worker[WORKERS];
static pthread_mutex_t sharers = PTHREAD_MUTEX_INITIALIZER;

static void nap(long milliseconds) {
    struct timespec time;
    time.tv_sec = milliseconds / 1000, time.tv_nsec = milliseconds % 1000 * 1000000;
    nanosleep(&time, 0);
}

/* The producers 2 and 3 share a lane. */
static uint32_t submit(unsigned mine, uint64_t payload) {
    uint32_t code;
    if (mine < 2) return cubejobs_lanes_submit_and_wake(&lane[mine], payload, 0, &parking).code;
    pthread_mutex_lock(&sharers);
    code = cubejobs_lanes_submit_and_wake(&lane[2], payload, 0, &parking).code;
    pthread_mutex_unlock(&sharers);
    return code;
}

static void *produce(void *number) {
    unsigned mine = *(unsigned *)number;
    uint64_t i, state = seed + mine * 7919;
    for (i = 0; i < jobs; i++) {
        uint32_t code;
        while ((code = submit(mine, i * PRODUCERS + mine)) != 0) {
            expect(code == CUBEJOBS_LANES_FULL, "a submit is refused");
            sched_yield();
        }
        /* All workers fall asleep now and then. */
        if ((next(&state) >> 20) % 1024 == 0) nap(1);
    }
    return 0;
}

static void count(uint64_t payload) {
    unsigned char *one = &seen[payload % PRODUCERS][payload / PRODUCERS];
    expect(__atomic_fetch_add(one, 1, __ATOMIC_RELAXED) == 0, "a job came twice");
    __atomic_fetch_add(&got, 1, __ATOMIC_RELAXED);
}

static void *consume(void *number) {
    unsigned mine = *(unsigned *)number;
    for (;;) {
        struct cubejobs_find_answer job = cubejobs_lanes_wait(&worker[mine], mine % 3, &parking);
        if (job.code == CUBEJOBS_LANES_ENDED) return 0;
        expect(job.code == CUBEJOBS_LANES_DONE, "a wait is refused");
        count(job.payload);
    }
}

/* Ends the program, after PATIENCE seconds in which nothing happened. */
static void lose(int signal) {
    static const char said[] = "a wake is lost\n";
    (void)signal;
    _exit(write(2, said, sizeof said - 1) ? 1 : 2);
}

/* Waits until this number of jobs has come. */
static void watch(unsigned long wanted) {
    unsigned long before = wanted, now;
    while ((now = __atomic_load_n(&got, __ATOMIC_RELAXED)) != wanted) {
        if (now != before) alarm(PATIENCE);
        before = now;
        nap(1);
    }
}

/* The processor time of the process, in milliseconds. */
static long spent(void) {
    struct timespec time;
    expect(!clock_gettime(CLOCK_PROCESS_CPUTIME_ID, &time), "no clock");
    return (long)time.tv_sec * 1000 + time.tv_nsec / 1000000;
}

static void must_sleep(void) {
    long before = spent();
    nap(IDLE);
    expect(spent() - before < SPENT, "workers that have no job take processor time");
}

static void join(pthread_t id) {
    alarm(PATIENCE);
    expect(!pthread_join(id, 0), "no end of a thread");
}

static void start(pthread_t *ids, void *(*act)(void *), unsigned threads) {
    unsigned i;
    for (i = 0; i < threads; i++) expect(!pthread_create(&ids[i], 0, act, &numbers[i]), "no thread");
}

/* Lets workers and producers work, and sees that all jobs came once. Then the workers have no job. */
static void crowd(pthread_t *workers) {
    pthread_t producers[PRODUCERS];
    unsigned i;
    start(workers, consume, WORKERS);
    nap(2);
    start(producers, produce, PRODUCERS);
    watch(PRODUCERS * jobs);
    for (i = 0; i < PRODUCERS; i++) join(producers[i]);
    must_sleep();
}

/* Submits jobs one by one, each once the workers sleep after the one before. */
static void one_by_one(void) {
    unsigned long i;
    for (i = 1; i <= LATER; i++) {
        nap(1);
        expect(!submit(0, (jobs + i) * PRODUCERS), "a submit is refused");
        watch(PRODUCERS * jobs + i);
    }
}

static void of_lanes(void) {
    pthread_t workers[WORKERS];
    unsigned i;
    expect(!cubejobs_lanes_open(&lanes, 3, WORKERS, 16), "no lanes");
    for (i = 0; i < 3; i++) expect(!cubejobs_lanes_lane(&lanes, &lane[i]), "no lane");
    for (i = 0; i < WORKERS; i++) expect(!cubejobs_lanes_worker(&lanes, &worker[i]), "no worker");
    crowd(workers);
    one_by_one();
    expect(cubejobs_lanes_close_and_wake(&lanes, &parking).accepted == PRODUCERS * jobs + LATER,
           "another number was accepted");
    for (i = 0; i < WORKERS; i++) join(workers[i]);
    for (i = 0; i < WORKERS; i++) expect(!cubejobs_lanes_free_worker(&worker[i]), "a worker is out");
    for (i = 0; i < 3; i++) expect(!cubejobs_lanes_free_lane(&lane[i]), "a lane is out");
    expect(!cubejobs_lanes_finish(&lanes).code && !cubejobs_lanes_free(&lanes), "lanes do not end");
}

/* An unpark before a park is not lost, and a number that no worker has is ignored. */
static void early(void) {
    unsigned i;
    alarm(PATIENCE);
    cubejobs_unpark(&parking, UINT32_MAX), cubejobs_unpark(&parking, WORKERS);
    for (i = 0; i < WORKERS; i++) cubejobs_unpark(&parking, i), cubejobs_park(&parking, i);
    alarm(0);
}

int main(int argc, char **argv) {
    if (argc > 1) jobs = strtoul(argv[1], 0, 10);
    expect(jobs + LATER < 1 << 20 && signal(SIGALRM, lose) != SIG_ERR, "too many jobs, or no signal");
    early();
    of_lanes();
    printf("ffi: %lu jobs were given to workers that slept, and no wake was lost\n", PRODUCERS * jobs + LATER);
    return 0;
}
