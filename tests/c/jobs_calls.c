/* Has 16 producers pass jobs to eight workers. Each job has plain memory of its own, which its producer writes before
 * the submit, and its worker after the take. Each job must come out once, as it was submitted, in the order of its
 * lane.
 *
 * With `jobs_calls JOBS [SECONDS [ROUNDS]]` a round has at least JOBS jobs. There are ROUNDS rounds or, if SECONDS is
 * not 0, rounds for that time. With SLEEP workers sleep while they have no job, and each second producer while its lane
 * is full, by cubejobs_wait.h. Then a round ends only if no wake is lost. */
#ifdef SLEEP
#include "cubejobs_wait.h"
#else
#include "cubejobs_lanes.h"
#endif

#include <pthread.h>
#include <sched.h>
#include <time.h>

#include "calls.h"

#define LANES 16
#define WORKERS 8
#define CAPACITY 64

static unsigned long jobs = 100000, rounds = 1;
static time_t seconds;

static void want(int line, uint64_t got, uint64_t wanted) {
    if (got != wanted) fprintf(stderr, "%llu, and not %llu\n", (unsigned long long)got, (unsigned long long)wanted);
    expect_at("jobs_calls.c", line, got == wanted, "another answer");
}
#define WANT(got, wanted) want(__LINE__, (got), (wanted))
#define IS(got, code) want(__LINE__, (got), CUBEJOBS_LANES_##code)

/* The memory of a job: its lane and number, and 1 more than the worker that ran it. */
struct cargo {
    unsigned lane, owner;
    uint64_t seq;
};
static struct cargo *cargo[LANES];

static struct thread {
    unsigned number;
    /* How many jobs it had, and of each lane the number of the next one that it may have. */
    unsigned long count;
    uint64_t next[LANES];
} producers[LANES], workers[WORKERS];

static struct cubejobs_lanes owner;
static struct cubejobs_lane lanes[LANES];
static struct cubejobs_worker takers[WORKERS];

/* The calls of the threads. */
#ifdef SLEEP
static uint32_t words[WORKERS];
static struct cubejobs_parking parking = CUBEJOBS_PARKING_INIT(words, WORKERS);
typedef struct cubejobs_find_answer job_answer;
#define TAKE(worker, from) cubejobs_lanes_wait(worker, from, &parking)
#define CLOSE(owner) cubejobs_lanes_close_and_wake(owner, &parking)

static struct cubejobs_submit_answer submit(unsigned lane, uint64_t payload, uint32_t k) {
    if (lane % 2) return cubejobs_lanes_submit_until(&lanes[lane], payload, k, &parking, 0);
    return cubejobs_lanes_submit_and_wake(&lanes[lane], payload, k, &parking);
}
#else
typedef struct cubejobs_job_answer job_answer;
#define TAKE cubejobs_lanes_take_any
#define CLOSE cubejobs_lanes_close

static struct cubejobs_submit_answer submit(unsigned lane, uint64_t payload, uint32_t k) {
    return cubejobs_lanes_submit(&lanes[lane], payload, k);
}
#endif

static uint32_t dim_of(unsigned lane, uint64_t seq) { return (uint32_t)(seq + lane) * 2654435769u; }

/* Sees that a job is that of its memory, which no worker has had, and counts it. */
static void has_come(struct thread *me, uint64_t payload, unsigned lane, uint64_t seq, uint32_t dim) {
    struct cargo *one = (struct cargo *)(uintptr_t)payload;
    expect(lane < LANES && seq < jobs && one == &cargo[lane][seq], "another job");
    WANT(one->lane, lane), WANT(one->seq, seq), WANT(dim, dim_of(lane, seq)), WANT(one->owner, 0);
    expect(seq >= me->next[lane], "a job before an earlier one");
    one->owner = me->number + 1;
    me->next[lane] = seq + 1;
    me->count++;
}

static uint64_t payload_of(unsigned lane, uint64_t seq) {
    struct cargo *one = &cargo[lane][seq];
    one->lane = lane, one->owner = 0, one->seq = seq;
    return (uint64_t)(uintptr_t)one;
}

static void must_be_full(struct cubejobs_submit_answer got, uint64_t seq) {
    if (got.code) {
        IS(got.code, FULL);
        sched_yield();
    } else {
        WANT(got.seq, seq);
    }
}

static void *submit_to_lane(void *thread) {
    struct thread *me = (struct thread *)thread;
    uint64_t seq;
    for (seq = 0; seq < jobs; seq++) {
        uint64_t payload = payload_of(me->number, seq);
        struct cubejobs_submit_answer got;
        do {
            got = submit(me->number, payload, dim_of(me->number, seq));
            must_be_full(got, seq);
        } while (got.code);
    }
    return NULL;
}

static void *take_from_lanes(void *thread) {
    struct thread *me = (struct thread *)thread;
    for (;;) {
        job_answer got = TAKE(&takers[me->number], (uint32_t)(me->count % LANES));
        if (got.code == CUBEJOBS_LANES_ENDED) return NULL;
        if (got.code) {
            IS(got.code, EMPTY);
            sched_yield();
        } else {
            has_come(me, got.payload, got.lane, got.seq, got.dim);
        }
    }
}

/* Has all threads run, and closes when the producers are done. Each job must have come out then. */
static void run_threads(void) {
    pthread_t ids[LANES + WORKERS];
    unsigned long all = 0, i;
    unsigned l;
    for (l = 0; l < WORKERS; l++) {
        memset(&workers[l], 0, sizeof workers[l]);
        workers[l].number = l;
        expect(!pthread_create(&ids[LANES + l], NULL, take_from_lanes, &workers[l]), "no thread");
    }
    for (l = 0; l < LANES; l++) {
        producers[l].number = l;
        expect(!pthread_create(&ids[l], NULL, submit_to_lane, &producers[l]), "no thread");
    }
    for (l = 0; l < LANES; l++) pthread_join(ids[l], NULL);
    WANT(CLOSE(&owner).accepted, LANES * jobs);
    for (l = 0; l < WORKERS; l++) {
        pthread_join(ids[LANES + l], NULL);
        all += workers[l].count;
    }
    WANT(all, LANES * jobs);
    for (l = 0; l < LANES; l++)
        for (i = 0; i < jobs; i++)
            expect(cargo[l][i].owner > 0 && cargo[l][i].owner <= WORKERS, "a job without an owner");
}

static void crowd_of_lanes(void) {
    unsigned i;
    IS(cubejobs_lanes_open(&owner, LANES, WORKERS, CAPACITY), DONE);
    for (i = 0; i < LANES; i++) IS(cubejobs_lanes_lane(&owner, &lanes[i]), DONE);
    for (i = 0; i < WORKERS; i++) IS(cubejobs_lanes_worker(&owner, &takers[i]), DONE);
    run_threads();
    for (i = 0; i < LANES; i++) IS(cubejobs_lanes_free_lane(&lanes[i]), DONE);
    for (i = 0; i < WORKERS; i++) IS(cubejobs_lanes_free_worker(&takers[i]), DONE);
    IS(cubejobs_lanes_finish(&owner).code, DONE);
    IS(cubejobs_lanes_rest(&owner).code, EMPTY);
    IS(cubejobs_lanes_free(&owner), DONE);
}

int main(int count, char **words) {
    unsigned long done = 0, p;
    time_t start = time(NULL);
    if (count > 1) jobs = strtoul(words[1], NULL, 10);
    if (count > 2) seconds = (time_t)strtoul(words[2], NULL, 10);
    if (count > 3) rounds = strtoul(words[3], NULL, 10);
    jobs = (jobs + LANES - 1) / LANES;
    for (p = 0; p < LANES; p++) {
        cargo[p] = (struct cargo *)calloc(jobs, sizeof *cargo[p]);
        expect(cargo[p] != NULL, "no memory");
    }
    do {
        crowd_of_lanes();
        done++;
    } while (seconds ? time(NULL) - start < seconds : done < rounds);
    for (p = 0; p < LANES; p++) free(cargo[p]);
    printf("%lu jobs of %d producers, %lu times\n", LANES * jobs, LANES, done);
    return 0;
}
