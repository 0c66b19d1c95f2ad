/* What all schedulers of this folder have in common. A program includes one of them by -DSCHEDULER, as
 * bench/peers/fit.c does. Each has these functions over its `struct scheduler`:
 *
 *   open_scheduler(s, dim, jobs, patience)  opens a machine without jobs, for at most this many at once
 *   submit_job(s, request)                  returns the ticket of a job that waits from now on
 *   start_next(s, now, &start)              starts one job, or returns false if none may start
 *   finish_job(s, ticket)                   ends a running job
 *   promise_of(s, ticket, &time)            whether a block is reserved for a waiting job, and by when it starts
 *   close_scheduler(s)                      frees all memory
 *
 * Times are those of docs/PLANNER.md: an estimate of 0 is not known, and NEVER is no known time. */
#ifndef TYPES_H
#define TYPES_H
#include <stdbool.h>
#include <stdint.h>
#include <stdio.h>
#include <stdlib.h>
#include <string.h>

#define NEVER UINT64_MAX
enum { CLASSES = 8, MAX_DIM = 20, DIMS = MAX_DIM + 1 };
static const uint32_t NOBODY = UINT32_MAX;

struct request {
    uint64_t payload, estimate;
    uint32_t processors, job_class;
};

struct start {
    uint64_t ticket, payload, base;
};

/* Allocates memory, or ends the program. */
static inline void *room_for(void *old, size_t count, size_t size) {
    void *memory = realloc(old, count * size);
    if (memory == NULL) {
        fputs("out of memory\n", stderr);
        exit(1);
    }
    return memory;
}

/* Returns the least dimension of a block with as many processors. */
static inline unsigned dim_of(uint32_t processors) {
    return processors < 2 ? 0 : 32u - (unsigned)__builtin_clz(processors - 1);
}
#endif
