/* A planner, for C and C++: which waiting job starts next, and in which block.
 *
 * A machine has the processors 0 to 2^dim - 1. You tell the planner what happens: a job is
 * submitted, is cancelled, or ends. Then you ask cubejobs_plan_next which job starts. Jobs start in
 * the order of their classes, and of their arrival in a class. A job may pass the first one if it
 * does not delay it: for that one a block is reserved. The planner starts no program, has no
 * thread, and reads no clock.
 *
 * Time. A time is a whole number in a unit of yours, and so is an estimate. Only
 * cubejobs_plan_next takes the time. It is never less than at the call before, but may be the same.
 * No job starts only because time passes, so you need no timer.
 *
 * The loop. Call cubejobs_plan_next after each submit, cancel, finish, occupy and vacate, with the
 * time at which it happened. Call it again until it returns NO_JOB. Then the promise of a reserved
 * job never grows. If each job ends by its estimate, a reserved job starts by its promise.
 *
 * Processors. A job that runs has the processors from `base` to `base + processors - 1`. Its block
 * has 2^dim of them, and begins at a multiple of 2^dim. If the job asked for fewer, no other job
 * gets the rest while it runs. Rely on no more about `base` than this: it is a multiple of
 * `processors` if that is a power of two.
 *
 * Tickets. A ticket names one job, and no other job ever gets it. It is never 0. Once the job is
 * over, its ticket is refused.
 *
 * Nothing checks the caller's duties:
 *
 *   1. Pass pointers to whole handles, never null.
 *   2. Set a handle to zero before its first use. Then leave it to these functions. You may move
 *      it, but never pass the copy that is left behind.
 *   3. Make one call at a time with a planner, and none from a signal handler.
 *
 * Everything else is checked. A refused call returns a code, and changes nothing that you can see.
 *
 * Link libcubejobs_plan.a. It needs only the C library.
 */
#ifndef CUBEJOBS_PLAN_H
#define CUBEJOBS_PLAN_H

#include <stdint.h>

#include "cubejobs_codes.h"

#ifdef __cplusplus
extern "C" {
#endif

/* The version of this header. A library of another version opens no planner. */
#define CUBEJOBS_PLAN_VERSION 1

/* The largest dimension of a machine, the number of classes, and the most jobs of a planner. */
#define CUBEJOBS_PLAN_MAX_DIM 20
#define CUBEJOBS_PLAN_CLASSES 8
#define CUBEJOBS_PLAN_MAX_JOBS 16777216

/* The time that is not known. All other times are less. */
#define CUBEJOBS_PLAN_NEVER UINT64_MAX

/* The codes that calls return. */
enum cubejobs_plan_code {
    CUBEJOBS_PLAN_DONE = 0,           /* The call succeeded. */
    CUBEJOBS_PLAN_OUT_OF_MEMORY = 11, /* Memory ran out. */
    CUBEJOBS_PLAN_NOT_OPEN = 12,      /* The handle is shut. */
    CUBEJOBS_PLAN_ALREADY_OPEN = 14,  /* The handle that is to be opened is open. */
    CUBEJOBS_PLAN_BAD_VERSION = 15,   /* The header is not of the library's version. */
    CUBEJOBS_PLAN_NO_JOB = 19,        /* There is no job. */
    CUBEJOBS_PLAN_OUT_OF_RANGE = 45,  /* A number or an address is out of range. */
    CUBEJOBS_PLAN_FULL = 46,          /* The planner has as many jobs as it may have. */
    CUBEJOBS_PLAN_WRONG_STATE = 47,   /* The job waits or runs, or the block is free or in use. */
    CUBEJOBS_PLAN_TIME_BACK = 48      /* The time is before that of the last call. */
};

/* The structs are those of the library only if an enum has 32 bits. */
typedef char cubejobs_plan_code_has_32_bits[sizeof(enum cubejobs_plan_code) == 4 ? 1 : -1];

/* Where a job is. */
enum cubejobs_plan_state {
    CUBEJOBS_PLAN_WAITS = 1,    /* It waits, and no block is reserved for it. */
    CUBEJOBS_PLAN_RESERVED = 2, /* It waits, and a block is reserved for it. */
    CUBEJOBS_PLAN_RUNS = 3      /* It was started, and has not ended. */
};

/* The handle of a planner. Only the library reads or writes it. */
struct cubejobs_plan {
    uint64_t tag;
    void *at;
};

/* What a planner is opened for.
 *   - dim: the machine has 2^dim processors;
 *   - jobs: how many may wait and run at once, from 1 to CUBEJOBS_PLAN_MAX_JOBS;
 *   - patience: a block is reserved for the first job if its promise is known. If it is not, one is
 *     reserved once `patience` times 2^dim processors have passed the job. 16 is a good start;
 *   - flags: 0. */
struct cubejobs_plan_options {
    uint32_t dim;
    uint32_t jobs;
    uint32_t patience;
    uint32_t flags;
};

/* A job as it is submitted.
 *   - payload: a number of yours;
 *   - estimate: how long it runs at most, or 0 if you do not know;
 *   - processors: how many it needs, from 1 on;
 *   - job_class: 0 to 7. Jobs of a lower class come first. */
struct cubejobs_plan_request {
    uint64_t payload;
    uint64_t estimate;
    uint32_t processors;
    uint32_t job_class;
};

/* The result of a call about a job. All is 0 unless the code is CUBEJOBS_PLAN_DONE.
 *   - state: where the job is, or where it was before it was cancelled or ended;
 *   - payload, processors, job_class: as the job was submitted;
 *   - base, dim, time: if it runs, its block and its estimated end, even if that has passed. If it
 *     is reserved, the reserved block and the promise: the latest end of the jobs in the block, or
 *     0 if none is there. If it waits, base is 0, dim is that of the block that it needs, and time
 *     is CUBEJOBS_PLAN_NEVER. An end or a promise that is not known is CUBEJOBS_PLAN_NEVER too;
 *   - before: how many waiting jobs come before it. It is 0 for a job that runs or is reserved;
 *   - arrival: how many jobs were submitted before it. */
struct cubejobs_plan_job {
    enum cubejobs_plan_code code;
    uint32_t state;
    uint64_t ticket;
    uint64_t payload;
    uint64_t base;
    uint64_t time;
    uint64_t before;
    uint64_t arrival;
    uint32_t processors;
    uint32_t dim;
    uint32_t job_class;
};

/* What a planner has. All is 0 unless the code is CUBEJOBS_PLAN_DONE. C++ needs the word `struct`
 * before its name, which is that of a function too.
 *   - waiting, running: how many jobs wait, also with a reservation, and how many run;
 *   - held: how many processors no other job can have since a job runs;
 *   - asked: how many processors the running jobs asked for;
 *   - occupied: how many processors are out of service;
 *   - largest: the most processors that one job could get now, if no other waited. */
struct cubejobs_plan_counts {
    enum cubejobs_plan_code code;
    uint32_t waiting;
    uint32_t running;
    uint32_t held;
    uint32_t asked;
    uint32_t occupied;
    uint32_t largest;
};

/* Below, each comment lists the codes of its call without CUBEJOBS_PLAN_, in the order in which the
 * call checks them. */

/* Returns how many bytes a planner needs at most, or 0 if an option is out of range. */
uint64_t cubejobs_plan_bytes(struct cubejobs_plan_options options);

/* Memory of yours, as words of 8 bytes. There are none unless it begins at a multiple of 8. */
struct cubejobs_plan_memory {
    void *at;
    uint64_t words;
};

/* Does what cubejobs_plan_open does, which passes the version of this header. `address` is that of
 * `memory`, or 0. OUT_OF_MEMORY also means that there are too few words. */
CUBEJOBS_NODISCARD enum cubejobs_plan_code cubejobs_plan_open_version(struct cubejobs_plan *plan, uint32_t version,
                                                                      struct cubejobs_plan_options options,
                                                                      struct cubejobs_plan_memory memory,
                                                                      uintptr_t address);

/* Opens a planner without jobs, at time 0. It takes all its memory now.
 *
 * `memory` is null, or the start of at least cubejobs_plan_bytes(options) bytes of yours. With null
 * the planner takes memory by malloc. Else it takes none, and the bytes are its own until you close
 * it. Their content does not matter. You may move the handle, but not these bytes.
 *
 * Codes: BAD_VERSION, ALREADY_OPEN, OUT_OF_RANGE (an option, or `memory` is no multiple of 8),
 * OUT_OF_MEMORY (only if `memory` is null), DONE. */
CUBEJOBS_NODISCARD CUBEJOBS_INLINE enum cubejobs_plan_code cubejobs_plan_open(struct cubejobs_plan *plan,
                                                                              struct cubejobs_plan_options options,
                                                                              void *memory) {
    struct cubejobs_plan_memory lent = {0, 0};
    const uintptr_t address = CUBEJOBS_CAST(uintptr_t, memory);
    lent.at = memory;
    if (memory && address % 8 == 0) lent.words = cubejobs_plan_bytes(options) / 8;
    return cubejobs_plan_open_version(plan, CUBEJOBS_PLAN_VERSION, options, lent, address);
}

/* Submits a job, which waits from now on. Codes: NOT_OPEN, OUT_OF_RANGE (its processors or its
 * class), FULL, DONE. */
CUBEJOBS_NODISCARD struct cubejobs_plan_job cubejobs_plan_submit(struct cubejobs_plan *plan,
                                                                 struct cubejobs_plan_request request);

/* Takes a waiting job back. Codes: NOT_OPEN, NO_JOB (it is over), WRONG_STATE (it runs), DONE. */
struct cubejobs_plan_job cubejobs_plan_cancel(struct cubejobs_plan *plan, uint64_t ticket);

/* Says that a running job has ended, well or not. Codes: NOT_OPEN, NO_JOB (it is over), WRONG_STATE
 * (it waits), DONE. */
struct cubejobs_plan_job cubejobs_plan_finish(struct cubejobs_plan *plan, uint64_t ticket);

/* Takes the block of dimension `dim` that begins at the processor `base` out of service. Finish the
 * jobs in it first. Occupy it before you ask for the next job. A reservation of a part of it ends.
 * Codes: NOT_OPEN, OUT_OF_RANGE (there is no such block), WRONG_STATE (a part is held or
 * occupied), DONE. */
enum cubejobs_plan_code cubejobs_plan_occupy(struct cubejobs_plan *plan, uint64_t base, uint32_t dim);

/* Puts exactly a block that was occupied back into service. Codes: NOT_OPEN, OUT_OF_RANGE (there is
 * no such block), WRONG_STATE (no call has occupied this block), DONE. */
enum cubejobs_plan_code cubejobs_plan_vacate(struct cubejobs_plan *plan, uint64_t base, uint32_t dim);

/* Starts one job at this time, or says that none may start. Codes: NOT_OPEN, OUT_OF_RANGE (the time
 * is NEVER), TIME_BACK, NO_JOB, DONE. */
CUBEJOBS_NODISCARD struct cubejobs_plan_job cubejobs_plan_next(struct cubejobs_plan *plan, uint64_t now);

/* Says where a job is. Codes: NOT_OPEN, NO_JOB (it is over), DONE. */
struct cubejobs_plan_job cubejobs_plan_forecast(struct cubejobs_plan *plan, uint64_t ticket);

/* Returns one job after another, in no order. Begin with the ticket 0, and go on with the ticket of
 * the last answer, even if its job is over. So you meet each job once that is there all the time.
 * It does not count the jobs before one: before is 0. Codes: NOT_OPEN, NO_JOB (there is no more),
 * DONE. */
struct cubejobs_plan_job cubejobs_plan_after(struct cubejobs_plan *plan, uint64_t ticket);

#if defined(__cplusplus) && defined(__GNUC__)
#pragma GCC diagnostic push
#pragma GCC diagnostic ignored "-Wshadow"
#endif
/* Counts what the planner has. Codes: NOT_OPEN, DONE. */
struct cubejobs_plan_counts cubejobs_plan_counts(struct cubejobs_plan *plan);
#if defined(__cplusplus) && defined(__GNUC__)
#pragma GCC diagnostic pop
#endif

/* Shuts the handle, and frees the planner with all its jobs. Memory of yours is yours again. Codes:
 * NOT_OPEN, DONE. */
enum cubejobs_plan_code cubejobs_plan_close(struct cubejobs_plan *plan);

#ifdef __cplusplus
}
#endif

#endif
