/* The scheduler for threads (cubejobs_sched.h). Its functions sleep, also a submit that finds no place. */
#ifndef SCHEDULER_H
#define SCHEDULER_H
#include "cubejobs_sched.h"
#include "types.h"

struct seat {
    _Alignas(128) struct cubejobs_sched_worker worker;
};

static struct cubejobs_sched scheduler;
static struct seat seats[MAX_WORKERS];

static void open_system(struct sizes sizes) {
    const struct cubejobs_sched_options options = {sizes.dim, sizes.capacity + sizes.workers, 16, sizes.workers};
    must_be_done("open", cubejobs_sched_open(&scheduler, options));
    for (unsigned i = 0; i < sizes.workers; i++) {
        must_be_done("worker", cubejobs_sched_worker(&scheduler, &seats[i].worker));
    }
}

static void submit_job(unsigned thread, struct job job) {
    const struct cubejobs_sched_request request = {job.payload, job.estimate, 1u << job.dim, 0};
    (void)thread;
    must_be_done("submit", cubejobs_sched_submit(&scheduler, request, CUBEJOBS_SCHED_NEVER).code);
}

static void end_submits(unsigned thread) {
    (void)thread;
}

static void close_system(void) {
    must_be_done("close", cubejobs_sched_close(&scheduler, 0));
}

static bool next_job(unsigned worker, struct start *start) {
    const struct cubejobs_sched_job job = cubejobs_sched_next(&seats[worker].worker, CUBEJOBS_SCHED_NEVER);
    if (job.code == CUBEJOBS_SCHED_CLOSED) {
        return false;
    }
    must_be_done("next", job.code);
    *start = (struct start){job.payload, job.base, job.processors < 2 ? 0 : 32u - (uint32_t)__builtin_clz(job.processors - 1)};
    return true;
}
#endif
