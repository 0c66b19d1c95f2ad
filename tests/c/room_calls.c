/* Has submits sleep while their lanes are full, by cubejobs_wait.h. First each way in which such a submit ends. Then
 * random programs: submitters with random deadlines, workers that sleep or that try again, and a close at the end or
 * before. Each job must be refused, or come out once, by a worker or at the end. A program ends only if no wake is
 * lost: after PATIENCE seconds the run fails. `room_calls PROGRAMS` makes this number of programs. With OWNERS it does
 * the same by cubejobs.hpp, in which workers sleep from C++20 on. */
#ifndef _POSIX_C_SOURCE
#define _POSIX_C_SOURCE 200809L
#endif
#ifdef OWNERS
#include "cubejobs.hpp"
#include <thread>
#else
#include "cubejobs_wait.h"
#endif

#include <pthread.h>
#include <sched.h>
#include <signal.h>
#include <time.h>
#include <unistd.h>

#include "calls.h"

#ifndef PATIENCE
#define PATIENCE 60
#endif
#define MOST 4
#define MOST_CALLS 300
#define NEVER 0
#define MILLISECOND 1000000u
/* For how long a submit sleeps, and how much processor time it may take, in milliseconds. */
#define IDLE 300
#define SPENT 25

/* The sizes of a random program, and what it does. */
static struct program {
    uint32_t lanes, workers, capacity, calls, pause, is_closed_early;
} now_runs;
/* Of each job: how often it was refused, came to a worker, and was left. */
static struct fate {
    unsigned char refused, came, was_left;
} fates[MOST * MOST_CALLS];
static unsigned numbers[2 * MOST] = {0, 1, 2, 3, 4, 5, 6, 7}, submitting, late;

static void lose(int signal) {
    static const char said[] = "a wake is lost\n";
    (void)signal;
    _exit(write(2, said, sizeof said - 1) ? 1 : 2);
}

static uint64_t time_of(clockid_t clock) {
    struct timespec time;
    expect(!clock_gettime(clock, &time), "no clock");
    return (uint64_t)time.tv_sec * 1000000000 + (uint64_t)time.tv_nsec;
}

static uint64_t now(void) { return time_of(CLOCK_MONOTONIC); }

static void nap(uint64_t nanoseconds) {
    struct timespec time;
    time.tv_sec = (time_t)(nanoseconds / 1000000000), time.tv_nsec = (long)(nanoseconds % 1000000000);
    nanosleep(&time, 0);
}

/* ---- The calls, by the header for C or by the owners. A deadline is a time of now(), or NEVER. */

#ifdef OWNERS
using code_t = std::uint32_t;
static cubejobs::lanes *lanes;
static cubejobs::lane *lane[MOST];
static cubejobs::worker *worker[MOST];

static void open_lanes(void) {
    unsigned i;
    lanes = new cubejobs::lanes(now_runs.lanes, now_runs.workers, now_runs.capacity);
    for (i = 0; i < now_runs.lanes; i++) lane[i] = new cubejobs::lane(lanes->lane());
    for (i = 0; i < now_runs.workers; i++) worker[i] = new cubejobs::worker(lanes->worker());
}

static code_t submit(unsigned number, uint64_t payload, uint64_t deadline) {
    using point = cubejobs::event::clock::time_point;
    if (deadline == NEVER) return lane[number]->submit_or_wait(payload, number).code;
    if (payload % 2) {
        const std::int64_t left = static_cast<std::int64_t>(deadline - now());
        return lane[number]->submit_for(payload, number, std::chrono::nanoseconds(left)).code;
    }
    const std::chrono::nanoseconds time(deadline);
    return lane[number]->submit_until(payload, number, point(std::chrono::duration_cast<point::duration>(time))).code;
}

static code_t try_next(unsigned number, uint64_t *payload) {
    const cubejobs_job_answer job = worker[number]->try_next(number % now_runs.lanes);
    *payload = job.payload;
    return job.code;
}

static code_t next_job(unsigned number, uint64_t *payload) {
#ifdef CUBEJOBS_SLEEPS
    const cubejobs_find_answer job = worker[number]->next(number % now_runs.lanes);
    *payload = job.payload;
    return job.code;
#else
    return try_next(number, payload);
#endif
}

static void must_refuse(void) {
    cubejobs::lane one = std::move(*lane[0]);
    expect(submit(0, 1, 1) == CUBEJOBS_LANES_NOT_OPEN, "a moved lane");
    expect(submit(0, 1, NEVER) == CUBEJOBS_LANES_NOT_OPEN, "a moved lane");
    *lane[0] = std::move(one);
}

static uint64_t close_lanes(void) { return lanes->close().accepted; }

static void must_be_left(uint64_t payload);

static void end_lanes(void) {
    unsigned i;
    for (i = 0; i < now_runs.lanes; i++) delete lane[i];
    for (i = 0; i < now_runs.workers; i++) delete worker[i];
    for (const cubejobs_job_answer &job : lanes->finish()) must_be_left(job.payload);
    delete lanes;
}
#else
typedef uint32_t code_t;
static uint32_t words[MOST];
static struct cubejobs_parking parking;
static struct cubejobs_lanes lanes;
static struct cubejobs_lane lane[MOST];
static struct cubejobs_worker worker[MOST];

static void open_lanes(void) {
    const struct cubejobs_parking fresh = CUBEJOBS_PARKING_INIT(words, now_runs.workers);
    unsigned i;
    memset(words, 0, sizeof words);
    parking = fresh;
    expect(!cubejobs_lanes_open(&lanes, now_runs.lanes, now_runs.workers, now_runs.capacity), "no lanes");
    for (i = 0; i < now_runs.lanes; i++) expect(!cubejobs_lanes_lane(&lanes, &lane[i]), "no lane");
    for (i = 0; i < now_runs.workers; i++) expect(!cubejobs_lanes_worker(&lanes, &worker[i]), "no worker");
}

static code_t submit(unsigned number, uint64_t payload, uint64_t deadline) {
    struct timespec end;
    end.tv_sec = (time_t)(deadline / 1000000000), end.tv_nsec = (long)(deadline % 1000000000);
    return cubejobs_lanes_submit_until(&lane[number], payload, number, &parking, deadline == NEVER ? 0 : &end).code;
}

/* Takes a job by a call that raises, or by one after which the program raises. */
static code_t try_next(unsigned number, uint64_t *payload) {
    static __thread unsigned turns;
    struct cubejobs_job_answer job;
    const uint32_t from = number % now_runs.lanes;
    if (turns++ % 2) {
        job = cubejobs_lanes_take_any_and_raise(&worker[number], from, &parking);
    } else {
        job = cubejobs_lanes_take_any(&worker[number], from);
        cubejobs_event_raise(&parking.room);
    }
    *payload = job.payload;
    return job.code;
}

static code_t next_job(unsigned number, uint64_t *payload) {
    const struct cubejobs_find_answer job = cubejobs_lanes_wait(&worker[number], number % now_runs.lanes, &parking);
    *payload = job.payload;
    return job.code;
}

static void must_refuse(void) {
    struct cubejobs_lane none = {0, 0};
    expect(cubejobs_lanes_submit_until(&none, 1, 0, &parking, 0).code == CUBEJOBS_LANES_NOT_OPEN, "no lane");
    expect(cubejobs_lanes_submit_until((struct cubejobs_lane *)&worker[0], 1, 0, &parking, 0).code ==
               CUBEJOBS_LANES_OTHER_KIND, "a worker");
}

static uint64_t close_lanes(void) { return cubejobs_lanes_close_and_wake(&lanes, &parking).accepted; }

static void must_be_left(uint64_t payload);

static void end_lanes(void) {
    struct cubejobs_job_answer job;
    unsigned i;
    for (i = 0; i < now_runs.lanes; i++) expect(!cubejobs_lanes_free_lane(&lane[i]), "a lane is out");
    for (i = 0; i < now_runs.workers; i++) expect(!cubejobs_lanes_free_worker(&worker[i]), "a worker is out");
    expect(!cubejobs_lanes_finish(&lanes).code, "the lanes do not end");
    while ((job = cubejobs_lanes_rest(&lanes)).code == CUBEJOBS_LANES_DONE) must_be_left(job.payload);
    expect(!cubejobs_lanes_free(&lanes), "a job is left");
}
#endif

static void must_be_left(uint64_t payload) { fates[payload].was_left++; }

/* ---- Each way in which a submit ends. */

static unsigned ends;
static code_t last_code;

/* Submits the job 9 without a deadline to lane 0, and sets the code that it got. */
static void *sleep_for_room(void *unused) {
    last_code = submit(0, 9, NEVER);
    __atomic_fetch_add(&ends, 1, __ATOMIC_SEQ_CST);
    return unused;
}

/* Fills the lane, and starts a thread that sleeps for room there. */
static pthread_t begin_sleep(void) {
    pthread_t id;
    uint64_t before;
    alarm(PATIENCE);
    ends = 0;
    while (submit(0, 1, 1) == CUBEJOBS_LANES_DONE) {}
    expect(!pthread_create(&id, 0, sleep_for_room, 0), "no thread");
    nap(20 * MILLISECOND);
    before = time_of(CLOCK_PROCESS_CPUTIME_ID);
    nap(IDLE * MILLISECOND);
    expect(time_of(CLOCK_PROCESS_CPUTIME_ID) - before < SPENT * MILLISECOND, "a sleeping submit takes processor time");
    expect(!__atomic_load_n(&ends, __ATOMIC_SEQ_CST), "a submit to a full lane ends");
    return id;
}

static void end_sleep(pthread_t id, code_t code) {
    expect(!pthread_join(id, 0), "no end of a thread");
    expect(last_code == code, "another code of a submit that slept");
}

/* On a lane with two places: deadlines, places that become free, and a close. */
static void each_end(void) {
    const struct program small = {1, 1, 2, 0, 0, 0};
    uint64_t payload, deadline;
    pthread_t id;
    alarm(PATIENCE);
    now_runs = small;
    open_lanes();
    must_refuse();
    expect(submit(0, 1, 1) == CUBEJOBS_LANES_DONE, "a submit with room, after its deadline");
    expect(submit(0, 2, NEVER) == CUBEJOBS_LANES_DONE, "a submit with room, without a deadline");
    expect(submit(0, 3, 1) == CUBEJOBS_LANES_TIMED_OUT, "a submit without room, after its deadline");
    deadline = now() + 20 * MILLISECOND;
    expect(submit(0, 4, deadline) == CUBEJOBS_LANES_TIMED_OUT && now() >= deadline, "a wait ends before its deadline");
    deadline = now() + 20 * MILLISECOND;
    expect(submit(0, 5, deadline) == CUBEJOBS_LANES_TIMED_OUT && now() >= deadline, "a wait ends before its deadline");
    id = begin_sleep();
    expect(next_job(0, &payload) == CUBEJOBS_LANES_DONE && payload == 1, "a job of a full lane");
    end_sleep(id, CUBEJOBS_LANES_DONE);
    id = begin_sleep();
    expect(try_next(0, &payload) == CUBEJOBS_LANES_DONE && payload == 2, "a job of a full lane");
    end_sleep(id, CUBEJOBS_LANES_DONE);
    id = begin_sleep();
    expect(try_next(0, &payload) == CUBEJOBS_LANES_DONE && payload == 9, "a job of a submit that slept");
    end_sleep(id, CUBEJOBS_LANES_DONE);
    id = begin_sleep();
    expect(close_lanes() == 5, "another number was accepted");
    end_sleep(id, CUBEJOBS_LANES_CLOSED);
    expect(submit(0, 6, 1) == CUBEJOBS_LANES_CLOSED, "a submit to closed lanes");
    memset(fates, 0, sizeof fates);
    end_lanes();
    expect(fates[9].was_left == 2, "other jobs are left");
}

/* ---- Random programs. */

static uint32_t below(uint64_t *state, uint32_t bound) { return (uint32_t)((next(state) >> 16) % bound); }

/* Returns a deadline: none, one that has passed, one in at most 300 us, or one that does not come. */
static uint64_t some_deadline(uint64_t *state) {
    switch (below(state, 5)) {
    case 0: return NEVER;
    case 1: return now() + UINT64_C(3600) * 1000 * MILLISECOND;
    case 2: return 1;
    default: return now() + below(state, 300000);
    }
}

static void *submit_all(void *number) {
    const unsigned mine = *(unsigned *)number;
    uint64_t state = seed + mine * 7919;
    uint32_t i;
    for (i = 0; i < now_runs.calls; i++) {
        const uint64_t payload = mine * MOST_CALLS + i, deadline = some_deadline(&state);
        const code_t code = submit(mine, payload, deadline);
        if (code != CUBEJOBS_LANES_DONE) fates[payload].refused++;
        if (code == CUBEJOBS_LANES_TIMED_OUT) {
            expect(deadline != NEVER && now() >= deadline, "a wait ends before its deadline");
            __atomic_fetch_add(&late, 1, __ATOMIC_RELAXED);
        } else {
            expect(code == CUBEJOBS_LANES_DONE || code == CUBEJOBS_LANES_CLOSED, "a submit is refused");
        }
        if (below(&state, 16) == 0) nap(below(&state, now_runs.pause));
    }
    __atomic_fetch_sub(&submitting, 1, __ATOMIC_SEQ_CST);
    return 0;
}

/* Takes jobs until none will come. A worker gets the jobs of a lane in their order. */
static void *take_all(void *number) {
    const unsigned mine = *(unsigned *)number - MOST;
    uint64_t state = seed + (mine + MOST) * 7919, payload, after[MOST] = {0};
    for (;;) {
        const code_t code = below(&state, 2) ? next_job(mine, &payload) : try_next(mine, &payload);
        if (code == CUBEJOBS_LANES_ENDED) return 0;
        if (code == CUBEJOBS_LANES_DONE) {
            expect(payload < MOST * MOST_CALLS, "another job");
            expect(payload >= after[payload / MOST_CALLS], "a job before an earlier one");
            after[payload / MOST_CALLS] = payload + 1;
            fates[payload].came++;
        } else {
            expect(code == CUBEJOBS_LANES_EMPTY, "a take is refused");
            sched_yield();
        }
        if (below(&state, 16) == 0) nap(below(&state, now_runs.pause));
    }
}

static void one_program(uint64_t *state) {
    pthread_t ids[2 * MOST];
    uint64_t accepted, done = 0;
    uint32_t i;
    alarm(PATIENCE);
    now_runs.lanes = 1 + below(state, MOST), now_runs.workers = 1 + below(state, MOST);
    now_runs.capacity = 1 + below(state, below(state, 2) ? 2 : 16), now_runs.calls = 1 + below(state, MOST_CALLS);
    now_runs.pause = 1 + below(state, 200000), now_runs.is_closed_early = below(state, 3) == 0;
    memset(fates, 0, sizeof fates);
    submitting = now_runs.lanes;
    open_lanes();
    for (i = 0; i < now_runs.lanes; i++) expect(!pthread_create(&ids[i], 0, submit_all, &numbers[i]), "no thread");
    for (i = MOST; i < MOST + now_runs.workers; i++)
        expect(!pthread_create(&ids[i], 0, take_all, &numbers[i]), "no thread");
    if (now_runs.is_closed_early) nap(below(state, 2 * MILLISECOND));
    else
        while (__atomic_load_n(&submitting, __ATOMIC_SEQ_CST)) nap(20000);
    accepted = close_lanes();
    for (i = 0; i < now_runs.lanes; i++) expect(!pthread_join(ids[i], 0), "no end of a thread");
    for (i = MOST; i < MOST + now_runs.workers; i++) expect(!pthread_join(ids[i], 0), "no end of a thread");
    end_lanes();
    for (i = 0; i < MOST * MOST_CALLS; i++) {
        const int is_of_program = i / MOST_CALLS < now_runs.lanes && i % MOST_CALLS < now_runs.calls;
        expect(fates[i].refused + fates[i].came + fates[i].was_left == is_of_program, "a job twice, or no job");
        done += fates[i].came + fates[i].was_left;
    }
    expect(done == accepted, "another number was accepted");
}

int main(int argc, char **argv) {
    const unsigned long programs = argc > 1 ? strtoul(argv[1], 0, 10) : 100;
    uint64_t state = seed;
    unsigned long i;
    expect(signal(SIGALRM, lose) != SIG_ERR, "no signal");
    each_end();
    for (i = 0; i < programs; i++) {
        seed += 1000003;
        one_program(&state);
    }
    expect(late || programs < 20, "no submit was late");
    printf("ffi: %lu random programs of submits that sleep, of which %u were late\n", programs, late);
    return 0;
}
