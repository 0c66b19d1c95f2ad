/* The planner (cubejobs_plan.h) under a mutex. A worker that waits sleeps on a semaphore of its own. The thread that has
 * the mutex decides for all workers that wait, and wakes those that got a job. */
#ifndef PLANNER_H
#define PLANNER_H
#include <semaphore.h>

#include "cubejobs_plan.h"
#include "types.h"

struct seat {
    _Alignas(128) sem_t token;
    struct start start;
    uint64_t ticket;
    bool is_busy;
};

static pthread_mutex_t mutex = PTHREAD_MUTEX_INITIALIZER;
static pthread_cond_t some_room = PTHREAD_COND_INITIALIZER;
static struct cubejobs_plan plan;
static struct seat seats[MAX_WORKERS];
static unsigned idle[MAX_WORKERS], idle_count, waiting, running, capacity, sleepers;
static bool is_closed;

static void open_system(struct sizes sizes) {
    const struct cubejobs_plan_options options = {sizes.dim, sizes.capacity + sizes.workers, 16, 0};
    must_be_done("open", cubejobs_plan_open(&plan, options, NULL));
    capacity = sizes.capacity;
    for (unsigned i = 0; i < sizes.workers; i++) {
        sem_init(&seats[i].token, 0, 0);
    }
}

/* Gives jobs to workers that wait, while there are both. Puts these workers into a list, and returns how many. */
static unsigned decide(unsigned *woken) {
    unsigned count = 0;
    while (idle_count > 0 && waiting > 0) {
        const struct cubejobs_plan_job job = cubejobs_plan_next(&plan, now());
        if (job.code != CUBEJOBS_PLAN_DONE) {
            break;
        }
        unsigned worker = idle[--idle_count];
        uint32_t dim = job.processors < 2 ? 0 : 32u - (uint32_t)__builtin_clz(job.processors - 1);
        seats[worker].start = (struct start){job.payload, job.base, dim};
        seats[worker].ticket = job.ticket;
        seats[worker].is_busy = true;
        woken[count++] = worker;
        waiting--;
        running++;
        if (sleepers > 0) {
            pthread_cond_signal(&some_room);
        }
    }
    while (is_closed && waiting == 0 && running == 0 && idle_count > 0) {
        woken[count++] = idle[--idle_count];
    }
    return count;
}

/* Decides, leaves the mutex, and wakes the workers. */
static void leave(void) {
    unsigned woken[MAX_WORKERS], count = decide(woken);
    pthread_mutex_unlock(&mutex);
    while (count-- > 0) {
        sem_post(&seats[woken[count]].token);
    }
}

static void submit_job(unsigned thread, struct job job) {
    (void)thread;
    pthread_mutex_lock(&mutex);
    sleepers++;
    while (waiting >= capacity) {
        pthread_cond_wait(&some_room, &mutex);
    }
    sleepers--;
    const struct cubejobs_plan_request request = {job.payload, job.estimate, 1u << job.dim, 0};
    must_be_done("submit", cubejobs_plan_submit(&plan, request).code);
    waiting++;
    leave();
}

static void end_submits(unsigned thread) {
    (void)thread;
}

static void close_system(void) {
    pthread_mutex_lock(&mutex);
    is_closed = true;
    leave();
}

static bool next_job(unsigned worker, struct start *start) {
    struct seat *seat = &seats[worker];
    pthread_mutex_lock(&mutex);
    if (seat->is_busy) {
        must_be_done("finish", cubejobs_plan_finish(&plan, seat->ticket).code);
        seat->is_busy = false;
        running--;
    }
    idle[idle_count++] = worker;
    leave();
    while (sem_wait(&seat->token) != 0) {
    }
    *start = seat->start;
    return seat->is_busy;
}
#endif
