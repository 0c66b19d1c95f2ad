// A batch scheduler. Each line of a file is a job with two numbers. It runs on as many of 16
// processors as the first says (1 to 16), for as many milliseconds as the second says. Here a job
// only sleeps. Two threads submit the jobs, and four run them. No two running jobs share a
// processor. The scheduler says which job runs next, and lets threads sleep while they wait.
//
// On Ctrl-C the jobs that run end, and no other begins. Those that are left are printed, as lines
// of a file. The status is 0, or 3 if jobs are left.
#define _POSIX_C_SOURCE 200809L
#include <inttypes.h>
#include <pthread.h>
#include <signal.h>
#include <stdatomic.h>
#include <stdbool.h>
#include <stdio.h>
#include <stdlib.h>
#include <time.h>
#include <unistd.h>

#include "cubejobs_sched.h"

enum { DIM = 4, PROCESSORS = 1 << DIM, SUBMITTERS = 2, WORKERS = 4, THREADS = SUBMITTERS + WORKERS };
enum { PLACES = 64, MAX_JOBS = 65536, MILLISECOND = 1000000 };

static struct job {
    unsigned processors, ms;
    bool ran; // its worker writes this, and the main thread reads it after the worker has ended
} jobs[MAX_JOBS];
static unsigned job_count;
static struct cubejobs_sched sched; // a scheduler starts as zeros
static atomic_uint ended;

// Ends the program if a call was refused.
static void check(const char *call, enum cubejobs_sched_code code) {
    if (code == CUBEJOBS_SCHED_DONE) return;
    fprintf(stderr, "batch: %s: %s\n", call, cubejobs_code_text(code));
    exit(1);
}

// Submits each second job. While there is no place for a job, the thread sleeps.
static void *submit(void *first) {
    for (unsigned i = *(unsigned *)first; i < job_count; i += SUBMITTERS) {
        const uint64_t estimate = (jobs[i].ms + 1) * (uint64_t)MILLISECOND;
        const struct cubejobs_sched_request request = {i, estimate, jobs[i].processors, 0};
        const enum cubejobs_sched_code code = cubejobs_sched_submit(&sched, request, CUBEJOBS_SCHED_NEVER).code;
        if (code == CUBEJOBS_SCHED_CLOSED) break;
        check("submit", code);
    }
    return NULL;
}

// Runs jobs until none will start any more. The call that returns a job ends the job before it.
static void *work(void *unused) {
    struct cubejobs_sched_worker worker;
    struct cubejobs_sched_job job;
    (void)unused;
    check("worker", cubejobs_sched_worker(&sched, &worker));
    while ((job = cubejobs_sched_next(&worker, CUBEJOBS_SCHED_NEVER)).code == CUBEJOBS_SCHED_DONE) {
        struct timespec left = {jobs[job.payload].ms / 1000, jobs[job.payload].ms % 1000 * (long)MILLISECOND};
        while (nanosleep(&left, &left)) {} // the job has the processors from job.base on
        jobs[job.payload].ran = true;
        atomic_fetch_add(&ended, 1);
    }
    if (job.code != CUBEJOBS_SCHED_CLOSED) check("next", job.code);
    check("leave", cubejobs_sched_leave(&worker));
    return NULL;
}

// Reads the jobs. Ends the program at a line that is not a job.
static void read_jobs(const char *name) {
    char *line = NULL, more;
    size_t size = 0;
    FILE *file = fopen(name, "r");
    for (; file && getline(&line, &size, file) > 0; job_count++) {
        struct job *job = &jobs[job_count % MAX_JOBS];
        bool is_job = sscanf(line, "%3u %9u %c", &job->processors, &job->ms, &more) == 2;
        bool is_small = job->processors - 1 < PROCESSORS && job->ms < 1000000000; // -1 is read as a large number
        if (is_job && is_small && job_count < MAX_JOBS) continue;
        fprintf(stderr, "%s:%u: not processors and milliseconds, or too many jobs\n", name, job_count + 1);
        exit(2);
    }
    if (!file || !feof(file) || fclose(file)) perror(name), exit(2);
    free(line);
}

// Shows a line of progress, if standard error is a terminal.
static void show(const char *end) {
    const struct cubejobs_sched_counts counts = cubejobs_sched_counts(&sched);
    check("counts", counts.code);
    if (isatty(2))
        fprintf(stderr, "\r%u of %u jobs ran, %2" PRIu64 " wait, %" PRIu64 " run on %2" PRIu64 " of %d processors%s",
                atomic_load(&ended), job_count, counts.waiting, counts.running, counts.asked, PROCESSORS, end);
}

// Frees the scheduler, and prints the jobs that are left.
static int finish(void) {
    const unsigned left = job_count - atomic_load(&ended);
    while (cubejobs_sched_rest(&sched).code == CUBEJOBS_SCHED_DONE) {} // these jobs did not run
    check("free", cubejobs_sched_free(&sched));
    printf("%u of %u jobs ran%s\n", atomic_load(&ended), job_count, left ? ", and these are left:" : "");
    for (unsigned i = 0; i < job_count; i++)
        if (!jobs[i].ran) printf("%u %u\n", jobs[i].processors, jobs[i].ms);
    return fflush(stdout) ? 1 : left ? 3 : 0;
}

int main(int argc, char **argv) {
    const struct cubejobs_sched_options options = {DIM, PLACES, 16, WORKERS};
    const struct timespec tick = {0, 20 * MILLISECOND};
    unsigned firsts[SUBMITTERS] = {0, 1};
    pthread_t threads[THREADS];
    sigset_t interrupt;
    if (argc != 2) return fprintf(stderr, "usage: batch FILE\n"), 2;
    read_jobs(argv[1]);
    sigemptyset(&interrupt), sigaddset(&interrupt, SIGINT);
    pthread_sigmask(SIG_BLOCK, &interrupt, NULL); // in all threads: only sigtimedwait takes it
    check("open", cubejobs_sched_open(&sched, options));
    for (int i = 0; i < THREADS; i++)
        if (pthread_create(&threads[i], NULL, i < SUBMITTERS ? submit : work, i < SUBMITTERS ? &firsts[i] : NULL))
            fprintf(stderr, "batch: no thread\n"), exit(1);
    while (atomic_load(&ended) < job_count && sigtimedwait(&interrupt, NULL, &tick) != SIGINT) show(" ");
    check("close", cubejobs_sched_close(&sched, 1)); // the jobs that wait do not run
    for (int i = 0; i < THREADS; i++) pthread_join(threads[i], NULL);
    show("\n");
    return finish();
}
