/* Jobs from producers to workers, by one of several systems: `jobs HOW PRODUCERS WORKERS CAPACITY JOBS`.
 *
 * The system is a header, which -DSYSTEM names. It has lanes of CAPACITY jobs, one for each producer.
 *
 * Each producer submits JOBS jobs. Each worker takes its share of all. HOW is `threads`, or `alone`: then one thread
 * fills the one lane and takes all jobs, in turn. A thread that finds no room or no job yields. The program writes the
 * number of jobs to standard output. It writes the nanoseconds on the clock and those of processor time, from the first
 * submit to the last take, to standard error.
 *
 * Every job must come out once, as it was submitted, and at each worker the jobs of a producer must be in their order.
 * */
#define _GNU_SOURCE
#include <inttypes.h>
#include <pthread.h>
#include <sched.h>
#include <stdatomic.h>
#include <stdbool.h>
#include <stdint.h>
#include <stdio.h>
#include <stdlib.h>
#include <string.h>
#include <time.h>

enum { MAX_PRODUCERS = 64, MAX_TAKERS = 64, DIMS = 4, LINE_BYTES = 128 };

/* A job as a worker has it. */
struct job {
    uint64_t seq, payload;
    uint32_t lane, dim;
};

static void fail(const char *what) {
    fprintf(stderr, "%s\n", what);
    exit(1);
}

#include SYSTEM

static struct thread {
    _Alignas(LINE_BYTES) unsigned number;
    unsigned from;
    uint64_t count;
    struct job *taken;
} producers[MAX_PRODUCERS], takers[MAX_TAKERS];

static unsigned producer_count, taker_count;
static pthread_barrier_t start_line;

static uint32_t dim_of(uint64_t seq) {
    return (uint32_t)(seq % DIMS);
}

static uint64_t payload_of(uint64_t lane, uint64_t seq) {
    return lane << 32 | seq;
}

/* Takes a job of any lane. It looks first in that of its last job. */
static bool serve(struct thread *me, struct job *job) {
    if (!take_job(me->number, me->from, job)) {
        return false;
    }
    me->from = job->lane;
    return true;
}

static void *produce(void *thread) {
    struct thread *me = thread;
    pthread_barrier_wait(&start_line);
    for (uint64_t seq = 0; seq < me->count; seq++) {
        while (!submit_job(me->number, payload_of(me->number, seq), dim_of(seq))) {
            sched_yield();
        }
    }
    return NULL;
}

static void *consume(void *thread) {
    struct thread *me = thread;
    pthread_barrier_wait(&start_line);
    for (uint64_t i = 0; i < me->count; i++) {
        while (!serve(me, &me->taken[i])) {
            sched_yield();
        }
    }
    return NULL;
}

/* Fills the lane and takes all jobs of it, in turn. */
static void alone(uint64_t capacity) {
    struct thread *one = &producers[0], *other = &takers[0];
    for (uint64_t done = 0; done < one->count;) {
        uint64_t end = done + capacity < one->count ? done + capacity : one->count;
        for (uint64_t seq = done; seq < end; seq++) {
            if (!submit_job(0, payload_of(0, seq), dim_of(seq))) {
                fail("a job was refused");
            }
        }
        for (; done < end; done++) {
            if (!serve(other, &other->taken[done])) {
                fail("a job was not there");
            }
        }
    }
}

static uint64_t nanoseconds(clockid_t clock) {
    struct timespec now;
    clock_gettime(clock, &now);
    return (uint64_t)now.tv_sec * 1000000000 + (uint64_t)now.tv_nsec;
}

static void all_threads(void) {
    pthread_t threads[MAX_PRODUCERS + MAX_TAKERS];
    unsigned count = 0;
    for (unsigned i = 0; i < taker_count; i++) {
        if (pthread_create(&threads[count++], NULL, consume, &takers[i]) != 0) {
            fail("no thread");
        }
    }
    for (unsigned i = 0; i < producer_count; i++) {
        if (pthread_create(&threads[count++], NULL, produce, &producers[i]) != 0) {
            fail("no thread");
        }
    }
    pthread_barrier_wait(&start_line);
    while (count > 0) {
        pthread_join(threads[--count], NULL);
    }
}

/* Sees that each job came out once, as it was submitted, and in order. Returns the number of jobs. */
static uint64_t checked(uint64_t each) {
    bool *seen = calloc(producer_count * each + 1, sizeof *seen);
    uint64_t all = 0;
    for (unsigned t = 0; seen != NULL && t < taker_count; t++) {
        uint64_t next[MAX_PRODUCERS] = {0};
        for (uint64_t i = 0; i < takers[t].count; i++, all++) {
            const struct job *job = &takers[t].taken[i];
            bool is_right = job->lane < producer_count && job->seq < each && job->seq >= next[job->lane]
                && job->payload == payload_of(job->lane, job->seq) && job->dim == dim_of(job->seq);
            if (!is_right || seen[job->lane * each + job->seq]) {
                fail("a job is not what was submitted, or came twice");
            }
            next[job->lane] = job->seq + 1;
            seen[job->lane * each + job->seq] = true;
        }
    }
    free(seen);
    return all;
}

static unsigned number_of(const char *word, uint64_t most) {
    uint64_t number = strtoull(word, NULL, 10);
    if (number == 0 || number > most) {
        fail("a number is out of range");
    }
    return (unsigned)number;
}

int main(int count, char **words) {
    if (count < 6) {
        return 2;
    }
    producer_count = number_of(words[2], MAX_PRODUCERS), taker_count = number_of(words[3], MAX_TAKERS);
    uint64_t capacity = number_of(words[4], 1024), each = number_of(words[5], 1 << 24);
    open_system(producer_count, taker_count, capacity);
    for (unsigned i = 0; i < producer_count; i++) {
        producers[i].number = i;
        producers[i].count = each;
    }
    for (unsigned i = 0; i < taker_count; i++) {
        takers[i].number = i;
        takers[i].from = i * producer_count / taker_count;
        takers[i].count = producer_count * each * (i + 1) / taker_count - producer_count * each * i / taker_count;
        takers[i].taken = malloc((takers[i].count + 1) * sizeof(struct job));
        if (takers[i].taken == NULL) {
            fail("out of memory");
        }
        memset(takers[i].taken, 0, takers[i].count * sizeof(struct job));
    }
    bool is_alone = strcmp(words[1], "alone") == 0;
    pthread_barrier_init(&start_line, NULL, producer_count + taker_count + 1);
    uint64_t clock = nanoseconds(CLOCK_MONOTONIC), processor = nanoseconds(CLOCK_PROCESS_CPUTIME_ID);
    if (is_alone) {
        alone(capacity);
    } else {
        all_threads();
    }
    processor = nanoseconds(CLOCK_PROCESS_CPUTIME_ID) - processor;
    clock = nanoseconds(CLOCK_MONOTONIC) - clock;
    printf("%" PRIu64 "\n", checked(each));
    fprintf(stderr, "%" PRIu64 " %" PRIu64 "\n", clock, processor);
    return 0;
}
