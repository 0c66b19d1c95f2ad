/* What all systems of this folder have in common: threads submit jobs, and workers run them in blocks. work.c includes
 * one of them by -DSYSTEM. Each has these functions:
 *
 *   open_system(sizes)        opens a machine without jobs
 *   submit_job(thread, job)   submits a job, and sleeps while there is no room for it
 *   end_submits(thread)       says that this thread submits no more jobs
 *   next_job(worker, &start)  ends the worker's last job and sleeps until it has another one; false if all jobs are over
 *   close_system()            says that no thread submits more jobs; those that wait will run
 *
 * Times are nanoseconds of the monotonic clock. An estimate of 0 is not known. */
#ifndef TYPES_H
#define TYPES_H
#include <pthread.h>
#include <stdatomic.h>
#include <stdbool.h>
#include <stdint.h>
#include <stdio.h>
#include <stdlib.h>
#include <time.h>

enum { MAX_SUBMITTERS = 16, MAX_WORKERS = 512 };

struct sizes {
    unsigned dim, submitters, workers, capacity;
};

struct job {
    uint64_t payload, estimate;
    uint32_t dim;
};

struct start {
    uint64_t payload;
    uint64_t base;
    uint32_t dim;
};

static inline uint64_t now(void) {
    struct timespec time;
    clock_gettime(CLOCK_MONOTONIC, &time);
    return (uint64_t)time.tv_sec * 1000000000 + (uint64_t)time.tv_nsec;
}

/* Ends the program unless the code is 0. */
static inline void must_be_done(const char *call, unsigned code) {
    if (code != 0) {
        fprintf(stderr, "%s returns %u\n", call, code);
        exit(1);
    }
}
#endif
