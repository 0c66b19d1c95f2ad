/* What the programs share that call the scheduler for threads: random numbers, a limit of time, and a table of who has
 * which processor. A program prints its first fault and ends. */
#ifndef SCHED_KIT_H
#define SCHED_KIT_H

#include "cubejobs_sched.h"

#include <signal.h>
#include <stdio.h>
#include <stdlib.h>
#include <string.h>
#include <unistd.h>

/* How long no program may stand still, in seconds. */
#ifndef PATIENCE
#define PATIENCE 60
#endif
#define MOST_PROCESSORS 128
#define NEVER CUBEJOBS_SCHED_NEVER
#define MILLISECOND 1000000u

unsigned alarm(unsigned seconds);

/* Which part of a run is going on, for the messages. */
static unsigned long long part;

static inline void must_at(int is_so, const char *what, const char *file, int line) {
    if (is_so) return;
    fprintf(stderr, "%s:%d, part %llu: not %s\n", file, line, part, what);
    _exit(1);
}
#define must(is_so) must_at((is_so), #is_so, __FILE__, __LINE__)

static void lose(int number) {
    static const char said[] = "a wake is lost\n";
    (void)number;
    _exit(write(2, said, sizeof said - 1) ? 1 : 2);
}

/* Lets the program end if it does not call this again in time. */
static inline void limit(void) {
    must(signal(SIGALRM, lose) != SIG_ERR);
    alarm(PATIENCE);
}

static inline uint64_t next_random(uint64_t *state) {
    *state ^= *state << 13;
    *state ^= *state >> 7;
    *state ^= *state << 17;
    return *state;
}

/* Returns a number below the bound. */
static inline uint32_t below(uint64_t *state, uint32_t bound) { return (uint32_t)((next_random(state) >> 16) % bound); }

/* Returns the first state of a thread's random numbers. */
static inline uint64_t state_of(uint64_t seed, uint64_t thread) {
    uint64_t state = seed * 1000003u + thread * 7919u + 88172645463325252u, i;
    for (i = 0; i < 8; i++) next_random(&state);
    return state;
}

static inline struct cubejobs_sched_request request_of(uint64_t payload, uint32_t processors) {
    struct cubejobs_sched_request request = {0, 0, 0, 0};
    request.payload = payload;
    request.processors = processors;
    return request;
}

/* Spins for a time in nanoseconds. */
static inline void spin(uint64_t time) {
    const uint64_t end = cubejobs_sched_now() + time;
    while (cubejobs_sched_now() < end) {}
}

/* Sleeps for a time in nanoseconds. */
static inline void nap(uint64_t time) { cubejobs_sched_nap(time, NEVER); }

/* Who has each processor: a number from 1 on, or 0. */
static uint64_t owners[MOST_PROCESSORS];

/* Passes the processors of a block from one owner to another. */
static inline void pass(uint64_t base, uint64_t processors, uint64_t from, uint64_t to) {
    uint64_t at;
    must(base <= MOST_PROCESSORS && processors <= MOST_PROCESSORS - base);
    for (at = base; at < base + processors; at++)
        must(__atomic_exchange_n(&owners[at], to, __ATOMIC_SEQ_CST) == from && "a processor has one owner");
}

#endif
