// Plans four jobs on a machine of eight processors, by a clock of its own: the next event is the end of the job that
// ends first. The second job needs the whole machine. The third one is short enough to pass it, and the last one is not.
// The output is examples/plan.out.
#include <stdio.h>
#include <stdlib.h>

#include "cubejobs_plan.h"

enum { JOBS = 4 };

struct running {
    uint64_t ticket, end;
};

static void must(int holds, const char *what) {
    if (holds) return;
    fprintf(stderr, "%s\n", what);
    exit(1);
}

// Starts each job that may start now.
static unsigned start(struct cubejobs_plan *plan, uint64_t now, struct running *running, unsigned count) {
    for (;;) {
        const struct cubejobs_plan_job job = cubejobs_plan_next(plan, now);
        if (job.code != CUBEJOBS_PLAN_DONE) return count;
        printf("%2u: job %u starts on %u to %u, and ends by %u\n", (unsigned)now, (unsigned)job.payload,
               (unsigned)job.base, (unsigned)job.base + job.processors - 1, (unsigned)job.time);
        running[count].ticket = job.ticket;
        running[count++].end = job.time;
    }
}

// Says what is known of a job that waits.
static void tell(struct cubejobs_plan *plan, uint64_t ticket) {
    const struct cubejobs_plan_job job = cubejobs_plan_forecast(plan, ticket);
    if (job.code != CUBEJOBS_PLAN_DONE || job.state == CUBEJOBS_PLAN_RUNS) return;
    printf("    job %u waits, with %u before it", (unsigned)job.payload, (unsigned)job.before);
    if (job.state == CUBEJOBS_PLAN_RESERVED) printf("; it starts by %u", (unsigned)job.time);
    printf("\n");
}

int main(void) {
    const struct cubejobs_plan_request jobs[JOBS] = {{1, 10, 3, 0}, {2, 5, 8, 0}, {3, 9, 2, 0}, {4, 20, 1, 0}};
    const struct cubejobs_plan_options options = {3, JOBS, 16, 0};
    struct cubejobs_plan plan = {0, NULL};
    struct running running[JOBS];
    uint64_t tickets[JOBS], now = 0;
    unsigned count = 0;
    must(cubejobs_plan_open(&plan, options, NULL) == CUBEJOBS_PLAN_DONE, "no planner");
    for (unsigned i = 0; i < JOBS; i++) {
        const struct cubejobs_plan_job job = cubejobs_plan_submit(&plan, jobs[i]);
        must(job.code == CUBEJOBS_PLAN_DONE, "a job is refused");
        tickets[i] = job.ticket;
        count = start(&plan, now, running, count);
    }
    for (unsigned i = 0; i < JOBS; i++) tell(&plan, tickets[i]);
    while (count) {
        unsigned first = 0;
        for (unsigned i = 1; i < count; i++)
            if (running[i].end < running[first].end) first = i;
        now = running[first].end;
        must(cubejobs_plan_finish(&plan, running[first].ticket).code == CUBEJOBS_PLAN_DONE, "a job does not run");
        running[first] = running[--count];
        count = start(&plan, now, running, count);
    }
    must(cubejobs_plan_close(&plan) == CUBEJOBS_PLAN_DONE, "the planner is shut");
    return 0;
}
