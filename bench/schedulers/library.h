/* The planner by its library for C (cubejobs_plan.h). */
#ifndef LIBRARY_H
#define LIBRARY_H
#include "cubejobs_plan.h"
#include "types.h"

struct scheduler {
    struct cubejobs_plan plan;
};

static void must_be_done(enum cubejobs_plan_code code) {
    if (code != CUBEJOBS_PLAN_DONE) {
        fprintf(stderr, "the library returns %d\n", (int)code);
        exit(1);
    }
}

static inline void open_scheduler(struct scheduler *s, unsigned dim, uint32_t jobs, uint32_t patience) {
    const struct cubejobs_plan_options options = {dim, jobs, patience, 0};
    *s = (struct scheduler){{0, NULL}};
    must_be_done(cubejobs_plan_open(&s->plan, options, NULL));
}

static inline void close_scheduler(struct scheduler *s) {
    must_be_done(cubejobs_plan_close(&s->plan));
}

static inline uint64_t submit_job(struct scheduler *s, struct request it) {
    const struct cubejobs_plan_request request = {it.payload, it.estimate, it.processors, it.job_class};
    const struct cubejobs_plan_job job = cubejobs_plan_submit(&s->plan, request);
    must_be_done(job.code);
    return job.ticket;
}

static inline void finish_job(struct scheduler *s, uint64_t ticket) {
    must_be_done(cubejobs_plan_finish(&s->plan, ticket).code);
}

static inline bool start_next(struct scheduler *s, uint64_t now, struct start *start) {
    const struct cubejobs_plan_job job = cubejobs_plan_next(&s->plan, now);
    *start = (struct start){job.ticket, job.payload, job.base};
    if (job.code != CUBEJOBS_PLAN_DONE && job.code != CUBEJOBS_PLAN_NO_JOB) {
        must_be_done(job.code);
    }
    return job.code == CUBEJOBS_PLAN_DONE;
}

static inline bool promise_of(struct scheduler *s, uint64_t ticket, uint64_t *time) {
    const struct cubejobs_plan_job job = cubejobs_plan_forecast(&s->plan, ticket);
    const bool is_reserved = job.code == CUBEJOBS_PLAN_DONE && job.state == CUBEJOBS_PLAN_RESERVED;
    *time = is_reserved ? job.time : NEVER;
    return is_reserved;
}
#endif
