// Two threads run four jobs on a machine of eight processors. The second job needs all of them. While a job runs, no
// other one has its processors, so what it does there needs no lock. The output is examples/sched.out.
#include <pthread.h>
#include <stdio.h>
#include <stdlib.h>

#include "cubejobs_sched.h"

enum { DIM = 3, JOBS = 4, WORKERS = 2, MILLISECOND = 1000000 };

static struct cubejobs_sched sched; // a scheduler starts as zeros
static unsigned used[1 << DIM];     // how many jobs each processor has had
static unsigned ran[JOBS + 1];      // on how many processors each job ran

static void must_be_done(enum cubejobs_sched_code code, const char *call) {
    if (code == CUBEJOBS_SCHED_DONE) return;
    fprintf(stderr, "%s: %s\n", call, cubejobs_code_text(code));
    exit(1);
}

static void run(const struct cubejobs_sched_job *job) {
    for (uint64_t at = job->base; at < job->base + job->processors; at++) used[at]++;
    ran[job->payload] = job->processors;
}

// Runs jobs until none will start any more. The call that returns a job ends the job before it.
static void *work(void *unused) {
    struct cubejobs_sched_worker worker;
    struct cubejobs_sched_job job;
    (void)unused;
    must_be_done(cubejobs_sched_worker(&sched, &worker), "worker");
    for (;;) {
        job = cubejobs_sched_next(&worker, CUBEJOBS_SCHED_NEVER);
        if (job.code == CUBEJOBS_SCHED_CLOSED) break;
        must_be_done(job.code, "next");
        run(&job);
    }
    must_be_done(cubejobs_sched_leave(&worker), "leave");
    return NULL;
}

int main(void) {
    // A job has a payload, an estimate in nanoseconds, processors and a class.
    const struct cubejobs_sched_request jobs[JOBS] = {
        {1, 10 * MILLISECOND, 3, 0}, {2, 5 * MILLISECOND, 8, 0}, {3, 9 * MILLISECOND, 2, 0}, {4, MILLISECOND, 4, 0}};
    const struct cubejobs_sched_options options = {DIM, JOBS, 16, WORKERS};
    pthread_t threads[WORKERS];
    unsigned all = 0;
    must_be_done(cubejobs_sched_open(&sched, options), "open");
    for (int i = 0; i < WORKERS; i++)
        if (pthread_create(&threads[i], NULL, work, NULL)) return 1;
    for (int i = 0; i < JOBS; i++)
        must_be_done(cubejobs_sched_submit(&sched, jobs[i], CUBEJOBS_SCHED_NEVER).code, "submit");
    must_be_done(cubejobs_sched_close(&sched, 0), "close"); // the workers run what waits, and then leave
    for (int i = 0; i < WORKERS; i++)
        if (pthread_join(threads[i], NULL)) return 1;
    must_be_done(cubejobs_sched_free(&sched), "free");
    for (int i = 1; i <= JOBS; i++) printf("job %d ran on %u processors\n", i, ran[i]);
    for (int i = 0; i < 1 << DIM; i++) all += used[i];
    printf("%u in all\n", all);
    return 0;
}
