/* A scheduler for threads, for C and C++: which waiting job runs next, and on which processors.
 *
 * A machine has the processors 0 to 2^dim - 1. Any thread submits jobs. A thread that is a worker
 * asks for its next job, and sleeps until it gets one. The rules are those of cubejobs_plan.h. Jobs
 * start in the order of their classes, and of their arrival in a class. A job may pass the first
 * one if it does not delay it: for that one a block is reserved. A job that runs has the processors
 * from `base` to `base + processors - 1`, and no other job has one of them. The scheduler starts no
 * thread, and binds none to a CPU.
 *
 * A worker is a loop:
 *
 *     struct cubejobs_sched_worker worker;
 *     struct cubejobs_sched_job job;
 *     if (cubejobs_sched_worker(&sched, &worker) != CUBEJOBS_SCHED_DONE) return;
 *     for (;;) {
 *         job = cubejobs_sched_next(&worker, CUBEJOBS_SCHED_NEVER);
 *         if (job.code != CUBEJOBS_SCHED_DONE) break;
 *         run(job.payload, job.base, job.processors);
 *     }
 *     cubejobs_sched_leave(&worker);
 *
 * Workers. A job starts only while a worker waits for one, so what is said of starts holds only
 * then. Open as many workers as jobs may run at once, and let their threads call
 * cubejobs_sched_next.
 *
 * Times. A time is nanoseconds of CLOCK_MONOTONIC (cubejobs_sched_now), and an estimate is
 * nanoseconds. A deadline is a time. With the deadline 0 a call waits for no job and no place, and
 * with CUBEJOBS_SCHED_NEVER it waits without end. Each call may wait for its turn, also after its
 * deadline.
 *
 * Turns. One call at a time reads or changes the scheduler: it has the turn. The others spin for a
 * moment, and then sleep for short times. If the system stops the thread that has the turn, all
 * other calls wait until it goes on.
 *
 * Jobs that submit. A submit sleeps while there is no place for its job. If each worker runs a job
 * that submits, all of them may sleep for ever. So let such a job submit with a deadline.
 *
 * No call is a cancellation point: a thread that is cancelled goes on until its call returns.
 * After a fork only the parent uses the scheduler.
 *
 * WHY NO WAKE IS LOST. A worker has a word. It sets the word to AWAKE, and then makes its turn. If
 * it gets no job, it exchanges AWAKE for ASLEEP and sleeps while the word is ASLEEP. Suppose that a
 * later turn gives it a job. The call that made this turn then sets the word to WOKEN. The turns
 * are one after another, so WOKEN comes after AWAKE. Either the exchange fails, and the worker does
 * not sleep. Or the call finds ASLEEP, and wakes the thread.
 *
 * After the turn that ended all, each worker's own turn says CLOSED. Suppose that a worker made its
 * turn before. It counts itself in `asleep` and sets ASLEEP, and then it reads `overs`. The call
 * that ended all adds to `overs`, then it reads `asleep` and the words. So the worker finds another
 * number than before its turn and does not sleep, or the call finds it asleep.
 *
 * A submit that finds no place counts itself in `full`, reads `room`, and tries again. It sleeps
 * while `room` is the same. A call that makes a place free finds the count, adds to `room` and
 * wakes one submit. A submit that wakes tries again, also if its deadline has passed. So it uses a
 * place, or other submits have used all. Suppose that a submit sleeps, a place is free, and no call
 * is in progress. Look at the calls that made a place free since the last moment without one. Each
 * woke another submit, which used a place. So no place is free, against the supposition.
 *
 * Naps. If there is room for 200 jobs, a submit that finds no place naps once before it counts
 * itself. A worker that got four jobs in a row naps once before it exchanges AWAKE for ASLEEP. No
 * call wakes a thread that naps. It goes on by itself, as if it had come later.
 *
 * Nothing checks the caller's duties:
 *
 *   1. Pass pointers to whole structs, never null.
 *   2. Set a scheduler to zero before its first use, then leave it to these functions. Do not move
 *      it while it is open.
 *   3. Open it before other threads use it. Make no call with it after the free that succeeds.
 *   4. A worker is one thread's at a time.
 *   5. Make no call from a signal handler.
 *
 * Everything else is checked. A refused call returns a code, and changes nothing that you can see.
 *
 * Link libcubejobs_sched.a. Its functions are proved. The inline functions are tested, and no
 * theorem is about them.
 */
#ifndef CUBEJOBS_SCHED_H
#define CUBEJOBS_SCHED_H

#include <stdint.h>
#include <stdlib.h>

#include "cubejobs_sleep.h"

#ifdef __cplusplus
extern "C" {
#endif

/* The version of this header. A library of another version opens no scheduler. */
#define CUBEJOBS_SCHED_VERSION 1

/* The largest dimension of a machine, the number of classes, and the most jobs and workers. */
#define CUBEJOBS_SCHED_MAX_DIM 20
#define CUBEJOBS_SCHED_CLASSES 8
#define CUBEJOBS_SCHED_MAX_JOBS 16777216
#define CUBEJOBS_SCHED_MAX_WORKERS 65536

/* The deadline that never passes, and the time that is not known. All other times are less. */
#define CUBEJOBS_SCHED_NEVER UINT64_MAX

/* The codes that calls return. */
enum cubejobs_sched_code {
    CUBEJOBS_SCHED_DONE = 0,           /* The call succeeded. */
    CUBEJOBS_SCHED_NOT_NOW = 2,        /* Another thread has the turn. Only calls with try_. */
    CUBEJOBS_SCHED_OUT_OF_MEMORY = 11, /* Memory ran out. */
    CUBEJOBS_SCHED_NOT_OPEN = 12,      /* The scheduler is shut, or the worker is no thread's. */
    CUBEJOBS_SCHED_ALREADY_OPEN = 14,  /* The scheduler that is to be opened is open. */
    CUBEJOBS_SCHED_BAD_VERSION = 15,   /* The header is not of the library's version. */
    CUBEJOBS_SCHED_CLOSED = 17,        /* No job may come any more, or none will start. */
    CUBEJOBS_SCHED_NO_JOB = 19,        /* There is no job. */
    CUBEJOBS_SCHED_OUT_OF_RANGE = 45,  /* A number is out of range. */
    CUBEJOBS_SCHED_FULL = 46,          /* There is no place for the job, or each worker is out. */
    CUBEJOBS_SCHED_WRONG_STATE = 47,   /* What the call is about is in another state. */
    CUBEJOBS_SCHED_IN_USE = 49,        /* A worker is out, or a job or a call has not ended. */
    CUBEJOBS_SCHED_TIMED_OUT = 61      /* The deadline passed. */
};

/* The structs are those of the library only if an enum has 32 bits. */
typedef char cubejobs_sched_code_has_32_bits[sizeof(enum cubejobs_sched_code) == 4 ? 1 : -1];

/* Where a job is. */
enum cubejobs_sched_state {
    CUBEJOBS_SCHED_WAITS = 1,    /* It waits, and no block is reserved for it. */
    CUBEJOBS_SCHED_RESERVED = 2, /* It waits, and a block is reserved for it. */
    CUBEJOBS_SCHED_RUNS = 3      /* It was given to a worker, and has not ended. */
};

/* What a scheduler is opened for.
 *   - dim: the machine has 2^dim processors;
 *   - jobs: how many may wait and run at once, from 1 to CUBEJOBS_SCHED_MAX_JOBS;
 *   - patience: a block is reserved for the first job if its promise is known. If it is not, one is
 *     reserved once `patience` times 2^dim processors have passed the job. 16 is a good start;
 *   - workers: how many threads may be workers at once, from 1 to CUBEJOBS_SCHED_MAX_WORKERS. */
struct cubejobs_sched_options {
    uint32_t dim;
    uint32_t jobs;
    uint32_t patience;
    uint32_t workers;
};

/* A job as it is submitted.
 *   - payload: a number of yours;
 *   - estimate: how long it runs at most, in nanoseconds, or 0 if you do not know;
 *   - processors: how many it needs, from 1 on;
 *   - job_class: 0 to 7. Jobs of a lower class come first. */
struct cubejobs_sched_request {
    uint64_t payload;
    uint64_t estimate;
    uint32_t processors;
    uint32_t job_class;
};

/* The result of a call about a job. All is 0 unless the code is CUBEJOBS_SCHED_DONE. A field of
 * which the comment of the call says nothing is 0.
 *   - ticket: it names the job. No other job ever gets it, and it is never 0;
 *   - payload: as the job was submitted;
 *   - base, processors: the job has the processors from `base` to `base + processors - 1`. */
struct cubejobs_sched_job {
    enum cubejobs_sched_code code;
    uint32_t processors;
    uint64_t ticket;
    uint64_t payload;
    uint64_t base;
};

/* Where a job is. All is 0 unless the code is CUBEJOBS_SCHED_DONE. C++ needs the word `struct`
 * before its name, which is that of a function too.
 *   - state: one of enum cubejobs_sched_state;
 *   - base, dim, time: if it runs, its block and its estimated end, even if that has passed. If it
 *     is reserved, the reserved block and the promise: the latest end of the jobs in the block, or
 *     0 if none is there. Else they are 0. A time that is not known is CUBEJOBS_SCHED_NEVER. */
struct cubejobs_sched_forecast {
    enum cubejobs_sched_code code;
    uint32_t state;
    uint64_t base;
    uint64_t time;
    uint32_t dim;
    uint32_t unused;
};

/* What a scheduler has. All is 0 unless the code is CUBEJOBS_SCHED_DONE. C++ needs the word
 * `struct` before its name, which is that of a function too.
 *   - held: how many processors no other job can have since a job runs;
 *   - occupied: how many processors are out of service;
 *   - waiting, running: how many jobs wait, also with a reservation, and how many run;
 *   - asked: how many processors the running jobs asked for. */
struct cubejobs_sched_counts {
    enum cubejobs_sched_code code;
    uint32_t held;
    uint32_t occupied;
    uint32_t unused;
    uint64_t waiting;
    uint64_t running;
    uint64_t asked;
};

/* ---- The calls of the library, which never sleep. The calls below them are made of these, and are
 * what programs use.
 *
 * NOT_NOW: another thread has the turn, and the call did nothing. A handle is for one call at a
 * time, and cubejobs_sched_share makes another one. */

/* A handle of a scheduler. It is zero before its first use. Only the library reads or writes it. */
struct cubejobs_sched_handle {
    uint64_t tag;
    void *at;
};

/* The result of a call of the library.
 *   - woken: the workers that got a job, the first `count` of them. Each is to call
 *     cubejobs_sched_try_next again;
 *   - more: 1 if more workers may get a job. Then call cubejobs_sched_try_settle;
 *   - over: 1 if no job will start any more;
 *   - worker: the number of a worker, or of the slot of a job that was given back. */
struct cubejobs_sched_answer {
    enum cubejobs_sched_code code;
    uint32_t count;
    uint32_t woken[4];
    uint32_t more;
    uint32_t over;
    uint64_t ticket;
    uint64_t payload;
    uint64_t base;
    uint32_t processors;
    uint32_t worker;
};

CUBEJOBS_NODISCARD enum cubejobs_sched_code cubejobs_sched_open_version(struct cubejobs_sched_handle *handle,
                                                                        uint32_t version,
                                                                        struct cubejobs_sched_options options);
CUBEJOBS_NODISCARD enum cubejobs_sched_code cubejobs_sched_share(struct cubejobs_sched_handle *handle,
                                                                 struct cubejobs_sched_handle *other);
enum cubejobs_sched_code cubejobs_sched_try_free(struct cubejobs_sched_handle *handle);
CUBEJOBS_NODISCARD struct cubejobs_sched_answer cubejobs_sched_try_submit(struct cubejobs_sched_handle *handle,
                                                                          struct cubejobs_sched_request request,
                                                                          uint64_t now);
struct cubejobs_sched_answer cubejobs_sched_try_cancel(struct cubejobs_sched_handle *handle, uint64_t ticket,
                                                       uint64_t now);
CUBEJOBS_NODISCARD struct cubejobs_sched_answer cubejobs_sched_try_worker(struct cubejobs_sched_handle *handle);
CUBEJOBS_NODISCARD struct cubejobs_sched_answer cubejobs_sched_try_next(struct cubejobs_sched_handle *handle,
                                                                        uint32_t worker, uint64_t now);
CUBEJOBS_NODISCARD struct cubejobs_sched_answer cubejobs_sched_try_give_up(struct cubejobs_sched_handle *handle,
                                                                           uint32_t worker, uint64_t now);
struct cubejobs_sched_answer cubejobs_sched_try_done(struct cubejobs_sched_handle *handle, uint32_t worker,
                                                     uint64_t now);
struct cubejobs_sched_answer cubejobs_sched_try_leave(struct cubejobs_sched_handle *handle, uint32_t worker,
                                                      uint64_t now);
struct cubejobs_sched_answer cubejobs_sched_try_lost(struct cubejobs_sched_handle *handle, uint32_t worker,
                                                     uint64_t now);
struct cubejobs_sched_answer cubejobs_sched_try_occupy(struct cubejobs_sched_handle *handle, uint64_t base,
                                                       uint32_t dim, uint64_t now);
struct cubejobs_sched_answer cubejobs_sched_try_vacate(struct cubejobs_sched_handle *handle, uint64_t base,
                                                       uint32_t dim, uint64_t now);
struct cubejobs_sched_answer cubejobs_sched_try_close(struct cubejobs_sched_handle *handle, uint32_t mode,
                                                      uint64_t now);
CUBEJOBS_NODISCARD struct cubejobs_sched_answer cubejobs_sched_try_rest(struct cubejobs_sched_handle *handle,
                                                                        uint32_t after);
struct cubejobs_sched_answer cubejobs_sched_try_settle(struct cubejobs_sched_handle *handle, uint64_t now);
struct cubejobs_sched_forecast cubejobs_sched_try_forecast(struct cubejobs_sched_handle *handle, uint64_t ticket);
struct cubejobs_sched_counts cubejobs_sched_try_counts(struct cubejobs_sched_handle *handle);

/* The library is not compiled for a sanitizer, so this part informs two of them. ThreadSanitizer
 * does not see the turns: here each call acquires what the calls before it released.
 * MemorySanitizer does not see what the library writes: here each result is initialised. */
#if defined(__SANITIZE_THREAD__)
#define CUBEJOBS_SCHED_TSAN 1
#elif defined(__has_feature)
#if __has_feature(thread_sanitizer)
#define CUBEJOBS_SCHED_TSAN 1
#endif
#if __has_feature(memory_sanitizer)
#define CUBEJOBS_SCHED_WRITES 1
#endif
#endif
#if defined(CUBEJOBS_SCHED_TSAN)
void __tsan_acquire(void *address);
void __tsan_release(void *address);
#define CUBEJOBS_SCHED_BEFORE(sched) __tsan_release(sched)
#define CUBEJOBS_SCHED_AFTER(sched, answer) __tsan_acquire(sched)
#elif defined(CUBEJOBS_SCHED_WRITES)
void __msan_unpoison(const volatile void *address, __SIZE_TYPE__ size);
#define CUBEJOBS_SCHED_BEFORE(sched) ((void)(sched))
#define CUBEJOBS_SCHED_AFTER(sched, answer) __msan_unpoison(answer, sizeof *(answer))
#else
#define CUBEJOBS_SCHED_BEFORE(sched) ((void)(sched))
#define CUBEJOBS_SCHED_AFTER(sched, answer) ((void)(answer))
#endif

/* ---- What threads share. Only the functions below read or write it. */

/* A handle for one call at a time: a call takes a free door, and lets it go when it has ended. Each
 * door has 64 bytes, so no two flags are in one cache line. */
#define CUBEJOBS_SCHED_DOORS 16
struct cubejobs_sched_door {
    struct cubejobs_sched_handle handle;
    uint32_t is_taken;
    uint32_t unused[11];
};

/* A word on which threads sleep. */
struct cubejobs_sched_word {
    uint32_t value;
#ifndef CUBEJOBS_EVENT_FUTEX
    pthread_mutex_t lock;
    pthread_cond_t changed;
#endif
};

/* The word of a worker, with the rest of its cache lines. */
#ifdef CUBEJOBS_EVENT_FUTEX
#define CUBEJOBS_SCHED_BED 64
#else
#define CUBEJOBS_SCHED_BED 192
#endif
union cubejobs_sched_bed {
    struct cubejobs_sched_word word;
    unsigned char lines[CUBEJOBS_SCHED_BED];
};

/* A scheduler, in memory of yours.
 *   - beds, workers: the words of the workers. They begin at a cache line in `memory`;
 *   - open_doors: how many doors have an open handle. It is 0 if the scheduler is shut;
 *   - outside: how many calls are in progress, have no door, and are to have one;
 *   - full: how many submits wait for a place;
 *   - overs: how often a call has found that no job will start any more;
 *   - rest_from: no job waits in a slot before this one, once the scheduler is closed;
 *   - nap: how long a submit that finds no place naps, in nanoseconds, or 0;
 *   - asleep: how many threads of workers may sleep;
 *   - room: it counts the places that were made free while submits waited. */
struct cubejobs_sched {
    struct cubejobs_sched_door doors[CUBEJOBS_SCHED_DOORS];
    union cubejobs_sched_bed *beds;
    void *memory;
    uint32_t workers;
    uint32_t open_doors;
    uint32_t outside;
    uint32_t full;
    uint32_t overs;
    uint32_t rest_from;
    uint32_t nap;
    uint32_t unused[15];
    uint32_t asleep;
    struct cubejobs_sched_word room;
};

/* A worker, which is one thread's at a time. No other thread has its number. `streak` is how many
 * jobs it got since it last waited for one. */
struct cubejobs_sched_worker {
    struct cubejobs_sched *sched;
    uint32_t number;
    uint32_t has_job;
    uint32_t streak;
};

/* What the word of a worker says. */
enum cubejobs_sched_wake { CUBEJOBS_SCHED_AWAKE = 0, CUBEJOBS_SCHED_WOKEN = 1, CUBEJOBS_SCHED_ASLEEP = 2 };

/* A call of the library, with its arguments.
 *   - number: a worker, a dimension, a mode, or a slot;
 *   - which: a ticket, or the base of a block;
 *   - deadline: if it is not 0, a submit that finds no place is counted, since it waits for one;
 *   - ends: whether it ends a job if it succeeds;
 *   - naps: whether a submit that finds no place naps, and is not woken. */
enum cubejobs_sched_kind {
    CUBEJOBS_SCHED_SUBMITS,
    CUBEJOBS_SCHED_CANCELS,
    CUBEJOBS_SCHED_SITS,
    CUBEJOBS_SCHED_ASKS,
    CUBEJOBS_SCHED_GIVES_UP,
    CUBEJOBS_SCHED_ENDS,
    CUBEJOBS_SCHED_LEAVES,
    CUBEJOBS_SCHED_LOSES,
    CUBEJOBS_SCHED_OCCUPIES,
    CUBEJOBS_SCHED_VACATES,
    CUBEJOBS_SCHED_CLOSES,
    CUBEJOBS_SCHED_RESTS,
    CUBEJOBS_SCHED_SETTLES
};
struct cubejobs_sched_order {
    enum cubejobs_sched_kind kind;
    uint32_t number;
    uint64_t which;
    uint64_t deadline;
    int ends;
    int naps;
    struct cubejobs_sched_request request;
};

/* Returns the time of CLOCK_MONOTONIC in nanoseconds. */
CUBEJOBS_INLINE uint64_t cubejobs_sched_now(void) {
    struct timespec now;
    clock_gettime(CUBEJOBS_CLOCK, &now);
    return CUBEJOBS_AS(uint64_t, now.tv_sec) * 1000000000 + CUBEJOBS_AS(uint64_t, now.tv_nsec);
}

/* Returns a time as the system wants it. */
CUBEJOBS_INLINE struct timespec cubejobs_sched_timespec(uint64_t nanoseconds) {
    struct timespec at;
    uint64_t seconds = nanoseconds / 1000000000;
    if (sizeof at.tv_sec == 4 && seconds > INT32_MAX) seconds = INT32_MAX;
    at.tv_sec = CUBEJOBS_AS(time_t, seconds);
    at.tv_nsec = CUBEJOBS_AS(long, nanoseconds % 1000000000);
    return at;
}

/* Sleeps while the word has this value, until a deadline. Returns whether that passed before. */
CUBEJOBS_INLINE int cubejobs_sched_sleep(struct cubejobs_sched_word *word, uint32_t value, uint64_t deadline) {
    const struct timespec end = cubejobs_sched_timespec(deadline);
    const struct timespec *until = deadline == CUBEJOBS_SCHED_NEVER ? 0 : &end;
    int is_late = 0;
#ifdef CUBEJOBS_EVENT_FUTEX
    while (!is_late && __atomic_load_n(&word->value, __ATOMIC_SEQ_CST) == value) {
        is_late = until && cubejobs_has_passed(until);
        if (!is_late) cubejobs_futex_sleep(&word->value, value, until);
    }
#else
    int before;
    pthread_setcancelstate(PTHREAD_CANCEL_DISABLE, &before);
    pthread_mutex_lock(&word->lock);
    while (!is_late && __atomic_load_n(&word->value, __ATOMIC_SEQ_CST) == value) {
        is_late = until && cubejobs_has_passed(until);
        if (!is_late) cubejobs_condition_sleep(&word->changed, &word->lock, until);
    }
    pthread_mutex_unlock(&word->lock);
    pthread_setcancelstate(before, &before);
#endif
    return is_late;
}

/* Wakes one thread that sleeps on a word, or all. The word was changed before. */
CUBEJOBS_INLINE void cubejobs_sched_rouse(struct cubejobs_sched_word *word, int all) {
#ifdef CUBEJOBS_EVENT_FUTEX
    cubejobs_futex_wake(&word->value, all ? INT_MAX : 1);
#else
    pthread_mutex_lock(&word->lock);
    if (all) pthread_cond_broadcast(&word->changed);
    else pthread_cond_signal(&word->changed);
    pthread_mutex_unlock(&word->lock);
#endif
}

/* Makes a word on which no thread sleeps. */
CUBEJOBS_INLINE void cubejobs_sched_begin_word(struct cubejobs_sched_word *word) {
    __atomic_store_n(&word->value, 0, __ATOMIC_RELAXED);
#ifndef CUBEJOBS_EVENT_FUTEX
    pthread_mutex_init(&word->lock, 0);
    pthread_cond_init(&word->changed, 0);
#endif
}

/* Ends a word on which no thread sleeps. */
CUBEJOBS_INLINE void cubejobs_sched_end_word(struct cubejobs_sched_word *word) {
#ifdef CUBEJOBS_EVENT_FUTEX
    (void)word;
#else
    pthread_cond_destroy(&word->changed);
    pthread_mutex_destroy(&word->lock);
#endif
}

/* Sleeps for a time in nanoseconds, but no longer than until a deadline. */
CUBEJOBS_INLINE void cubejobs_sched_nap(uint64_t time, uint64_t deadline) {
    const uint64_t end = cubejobs_sched_now() + time;
    struct cubejobs_sched_word word;
    cubejobs_sched_begin_word(&word);
    cubejobs_sched_sleep(&word, 0, end < deadline ? end : deadline);
    cubejobs_sched_end_word(&word);
}

/* After how many tries a thread spins. A submit spins for longer. */
enum cubejobs_sched_tries { CUBEJOBS_SCHED_SPINS = 8, CUBEJOBS_SCHED_SUBMIT_SPINS = 10 };

/* Waits for a moment, after this number of tries to have the turn or a door. While it spins, the
 * thread waits twice as long each time, for up to 128 pauses. Later it sleeps for 50 us. */
CUBEJOBS_INLINE void cubejobs_sched_linger(uint32_t tries, uint32_t spins) {
    uint32_t pauses = 1u << (tries < 7 ? tries : 7);
    if (tries >= spins) {
        cubejobs_sched_nap(50000, CUBEJOBS_SCHED_NEVER);
        return;
    }
    for (; pauses; pauses--) {
#if defined(__x86_64__) || defined(__i386__)
        __asm__ __volatile__("pause");
#elif defined(__aarch64__)
        __asm__ __volatile__("yield");
#endif
    }
}

/* Lets a door go. */
CUBEJOBS_INLINE void cubejobs_sched_leave_door(struct cubejobs_sched_door *door) {
    __atomic_store_n(&door->is_taken, 0, __ATOMIC_SEQ_CST);
}

/* Takes this door. Returns whether it was free. */
CUBEJOBS_INLINE int cubejobs_sched_take_door(struct cubejobs_sched_door *door) {
    if (__atomic_load_n(&door->is_taken, __ATOMIC_RELAXED)) return 0;
    return !__atomic_exchange_n(&door->is_taken, 1, __ATOMIC_SEQ_CST);
}

/* Returns how many doors are open. */
CUBEJOBS_INLINE uint32_t cubejobs_sched_open_doors(struct cubejobs_sched *sched) {
    return __atomic_load_n(&sched->open_doors, __ATOMIC_SEQ_CST);
}

/* Takes a free door, or returns null if none is free or open. It begins at one that depends on the
 * thread, by the page of its stack. */
CUBEJOBS_INLINE struct cubejobs_sched_door *cubejobs_sched_free_door(struct cubejobs_sched *sched) {
    const uint32_t open = cubejobs_sched_open_doors(sched);
    const uint32_t page = CUBEJOBS_AS(uint32_t, CUBEJOBS_CAST(uintptr_t, &open) >> 12);
    const uint32_t first = (page * 2654435769u) >> 16;
    uint32_t i;
    for (i = 0; i < open; i++) {
        const uint32_t number = (first + i) % open;
        if (!cubejobs_sched_take_door(&sched->doors[number])) continue;
        /* A free that failed may have left fewer doors open. */
        if (number < cubejobs_sched_open_doors(sched)) return &sched->doors[number];
        cubejobs_sched_leave_door(&sched->doors[number]);
    }
    return 0;
}

/* Takes a door, and waits while all are taken. Returns null if the scheduler is not open. */
CUBEJOBS_INLINE struct cubejobs_sched_door *cubejobs_sched_enter(struct cubejobs_sched *sched) {
    struct cubejobs_sched_door *door = cubejobs_sched_free_door(sched);
    uint32_t tries = 0;
    if (!door && cubejobs_sched_open_doors(sched)) {
        __atomic_fetch_add(&sched->outside, 1, __ATOMIC_SEQ_CST);
        while (!door && cubejobs_sched_open_doors(sched)) {
            cubejobs_sched_linger(tries++, CUBEJOBS_SCHED_SPINS);
            door = cubejobs_sched_free_door(sched);
        }
        __atomic_fetch_sub(&sched->outside, 1, __ATOMIC_SEQ_CST);
    }
    CUBEJOBS_SCHED_BEFORE(sched);
    return door;
}

/* Waits for a moment after another thread had the turn. Returns the door by which to try again. The
 * thread keeps its door only while it spins. */
CUBEJOBS_INLINE struct cubejobs_sched_door *cubejobs_sched_again(struct cubejobs_sched *sched,
                                                                 struct cubejobs_sched_door *door, uint32_t *tries,
                                                                 uint32_t spins) {
    const uint32_t made = (*tries)++;
    if (made < spins) {
        cubejobs_sched_linger(made, spins);
        return door;
    }
    __atomic_fetch_add(&sched->outside, 1, __ATOMIC_SEQ_CST);
    cubejobs_sched_leave_door(door);
    cubejobs_sched_linger(made, spins);
    door = cubejobs_sched_enter(sched);
    __atomic_fetch_sub(&sched->outside, 1, __ATOMIC_SEQ_CST);
    return door;
}

/* Makes a call of the library, which does nothing if another thread has the turn. */
CUBEJOBS_INLINE struct cubejobs_sched_answer cubejobs_sched_attempt(struct cubejobs_sched_handle *handle,
                                                                const struct cubejobs_sched_order *order) {
    const uint64_t now = cubejobs_sched_now();
    switch (order->kind) {
    case CUBEJOBS_SCHED_SUBMITS: return cubejobs_sched_try_submit(handle, order->request, now);
    case CUBEJOBS_SCHED_CANCELS: return cubejobs_sched_try_cancel(handle, order->which, now);
    case CUBEJOBS_SCHED_SITS: return cubejobs_sched_try_worker(handle);
    case CUBEJOBS_SCHED_ASKS: return cubejobs_sched_try_next(handle, order->number, now);
    case CUBEJOBS_SCHED_GIVES_UP: return cubejobs_sched_try_give_up(handle, order->number, now);
    case CUBEJOBS_SCHED_ENDS: return cubejobs_sched_try_done(handle, order->number, now);
    case CUBEJOBS_SCHED_LEAVES: return cubejobs_sched_try_leave(handle, order->number, now);
    case CUBEJOBS_SCHED_LOSES: return cubejobs_sched_try_lost(handle, order->number, now);
    case CUBEJOBS_SCHED_OCCUPIES: return cubejobs_sched_try_occupy(handle, order->which, order->number, now);
    case CUBEJOBS_SCHED_VACATES: return cubejobs_sched_try_vacate(handle, order->which, order->number, now);
    case CUBEJOBS_SCHED_CLOSES: return cubejobs_sched_try_close(handle, order->number, now);
    case CUBEJOBS_SCHED_RESTS: return cubejobs_sched_try_rest(handle, order->number);
    case CUBEJOBS_SCHED_SETTLES: break;
    }
    return cubejobs_sched_try_settle(handle, now);
}

/* Makes a call of the library as soon as no other thread has the turn. */
CUBEJOBS_INLINE struct cubejobs_sched_answer cubejobs_sched_turn(struct cubejobs_sched *sched,
                                                                 struct cubejobs_sched_door **door,
                                                                 const struct cubejobs_sched_order *order) {
    struct cubejobs_sched_answer answer = cubejobs_sched_attempt(&(*door)->handle, order);
    const uint32_t spins =
        order->kind == CUBEJOBS_SCHED_SUBMITS ? CUBEJOBS_SCHED_SUBMIT_SPINS : CUBEJOBS_SCHED_SPINS;
    uint32_t tries = 0;
    CUBEJOBS_SCHED_AFTER(sched, &answer);
    while (answer.code == CUBEJOBS_SCHED_NOT_NOW) {
        *door = cubejobs_sched_again(sched, *door, &tries, spins);
        answer = cubejobs_sched_attempt(&(*door)->handle, order);
        CUBEJOBS_SCHED_AFTER(sched, &answer);
    }
    return answer;
}

/* Wakes a worker's thread if it sleeps, or does not let it sleep before its next try. */
CUBEJOBS_INLINE void cubejobs_sched_wake(struct cubejobs_sched_word *word) {
    if (__atomic_exchange_n(&word->value, CUBEJOBS_SCHED_WOKEN, __ATOMIC_SEQ_CST) == CUBEJOBS_SCHED_ASLEEP)
        cubejobs_sched_rouse(word, 0);
}

/* Wakes the workers that got a job. */
CUBEJOBS_INLINE void cubejobs_sched_wake_named(struct cubejobs_sched *sched,
                                               const struct cubejobs_sched_answer *answer) {
    uint32_t i;
    for (i = 0; i < answer->count; i++) cubejobs_sched_wake(&sched->beds[answer->woken[i]].word);
}

/* Wakes all workers that sleep, since no job will start any more. */
CUBEJOBS_INLINE void cubejobs_sched_wake_all(struct cubejobs_sched *sched) {
    uint32_t i;
    __atomic_fetch_add(&sched->overs, 1, __ATOMIC_SEQ_CST);
    if (!__atomic_load_n(&sched->asleep, __ATOMIC_SEQ_CST)) return;
    for (i = 0; i < sched->workers; i++) {
        struct cubejobs_sched_word *word = &sched->beds[i].word;
        if (__atomic_load_n(&word->value, __ATOMIC_SEQ_CST) == CUBEJOBS_SCHED_ASLEEP) cubejobs_sched_wake(word);
    }
}

/* Wakes one submit that waits for a place, or all. */
CUBEJOBS_INLINE void cubejobs_sched_wake_submits(struct cubejobs_sched *sched, int all) {
    if (!__atomic_load_n(&sched->full, __ATOMIC_SEQ_CST)) return;
    __atomic_fetch_add(&sched->room.value, 1, __ATOMIC_SEQ_CST);
    cubejobs_sched_rouse(&sched->room, all);
}

/* Returns an order that ends no job. */
CUBEJOBS_INLINE struct cubejobs_sched_order cubejobs_sched_order_of(enum cubejobs_sched_kind kind, uint32_t number,
                                                                    uint64_t which) {
    struct cubejobs_sched_order order = {CUBEJOBS_SCHED_SETTLES, 0, 0, 0, 0, 0, {0, 0, 0, 0}};
    order.kind = kind;
    order.number = number;
    order.which = which;
    return order;
}

/* Returns whether an order that ends a job has ended one. */
CUBEJOBS_INLINE int cubejobs_sched_has_ended(const struct cubejobs_sched_order *order, enum cubejobs_sched_code code) {
    if (!order->ends) return 0;
    return code == CUBEJOBS_SCHED_DONE ||
           (order->kind == CUBEJOBS_SCHED_ASKS && code != CUBEJOBS_SCHED_WRONG_STATE);
}

/* Makes a call, and wakes the threads that it concerns. Only the end of a job or a close can be
 * what ended all. The thread has a door until the end, so a free does not succeed before. */
CUBEJOBS_INLINE struct cubejobs_sched_answer cubejobs_sched_make(struct cubejobs_sched *sched,
                                                                 const struct cubejobs_sched_order *order) {
    const struct cubejobs_sched_order settles = cubejobs_sched_order_of(CUBEJOBS_SCHED_SETTLES, 0, 0);
    struct cubejobs_sched_answer answer = {CUBEJOBS_SCHED_NOT_OPEN, 0, {0, 0, 0, 0}, 0, 0, 0, 0, 0, 0, 0}, effect;
    struct cubejobs_sched_door *door = cubejobs_sched_enter(sched);
    int is_close = order->kind == CUBEJOBS_SCHED_CLOSES, has_ended;
    if (!door) return answer;
    answer = cubejobs_sched_turn(sched, &door, order);
    has_ended = cubejobs_sched_has_ended(order, answer.code);
    is_close = is_close && answer.code == CUBEJOBS_SCHED_DONE;
    cubejobs_sched_wake_named(sched, &answer);
    effect = answer;
    while (effect.more) {
        effect = cubejobs_sched_turn(sched, &door, &settles);
        cubejobs_sched_wake_named(sched, &effect);
    }
    if (answer.over && (has_ended || is_close)) cubejobs_sched_wake_all(sched);
    if (has_ended || is_close) cubejobs_sched_wake_submits(sched, is_close);
    if (answer.code == CUBEJOBS_SCHED_FULL && order->deadline)
        __atomic_fetch_add(order->naps && sched->nap ? &sched->outside : &sched->full, 1, __ATOMIC_SEQ_CST);
    cubejobs_sched_leave_door(door);
    return answer;
}

/* Returns the job of an answer. */
CUBEJOBS_INLINE struct cubejobs_sched_job cubejobs_sched_job_of(const struct cubejobs_sched_answer *answer) {
    struct cubejobs_sched_job job = {CUBEJOBS_SCHED_DONE, 0, 0, 0, 0};
    job.code = answer->code;
    job.processors = answer->processors;
    job.ticket = answer->ticket;
    job.payload = answer->payload;
    job.base = answer->base;
    return job;
}

/* ---- The calls that programs use. Below, each comment lists the codes of its call without
 * CUBEJOBS_SCHED_, in the order in which the call checks them. Of a worker, NOT_OPEN means too that
 * it is no thread's. */

/* Makes the words of the workers. Returns whether there was memory for them. */
CUBEJOBS_INLINE int cubejobs_sched_make_beds(struct cubejobs_sched *sched, uint32_t workers) {
    unsigned char *memory = CUBEJOBS_AS(unsigned char *, malloc((workers + 1) * sizeof(union cubejobs_sched_bed)));
    uint32_t i;
    if (!memory) return 0;
    sched->memory = memory;
    memory += (64 - CUBEJOBS_CAST(uintptr_t, memory) % 64) % 64;
    sched->beds = CUBEJOBS_CAST(union cubejobs_sched_bed *, memory);
    for (i = 0; i < workers; i++) cubejobs_sched_begin_word(&sched->beds[i].word);
    sched->workers = workers;
    return 1;
}

/* Frees the words of the workers. */
CUBEJOBS_INLINE void cubejobs_sched_free_beds(struct cubejobs_sched *sched) {
    uint32_t i;
    for (i = 0; i < sched->workers; i++) cubejobs_sched_end_word(&sched->beds[i].word);
    free(sched->memory);
    sched->memory = 0;
    sched->beds = 0;
    sched->workers = 0;
}

/* Shares the handle of the first door with the others, as far as memory goes. Returns how many
 * doors have an open handle. */
CUBEJOBS_INLINE uint32_t cubejobs_sched_share_doors(struct cubejobs_sched *sched) {
    uint32_t open = 1;
    while (open < CUBEJOBS_SCHED_DOORS &&
           cubejobs_sched_share(&sched->doors[0].handle, &sched->doors[open].handle) == CUBEJOBS_SCHED_DONE)
        open++;
    return open;
}

/* Returns how long a submit naps that finds this number of jobs and no place, or 0 if it does not
 * nap. Even if all jobs are empty, no more than a fifth of them end meanwhile. */
CUBEJOBS_INLINE uint32_t cubejobs_sched_nap_of(uint32_t jobs) {
    if (jobs < 200) return 0;
    return jobs < 4000 ? jobs * 50 : 200000;
}

/* Opens a scheduler without jobs. It takes all its memory now, by malloc. Codes: BAD_VERSION,
 * ALREADY_OPEN, OUT_OF_RANGE (an option), OUT_OF_MEMORY, DONE. */
CUBEJOBS_NODISCARD CUBEJOBS_INLINE enum cubejobs_sched_code cubejobs_sched_open(
    struct cubejobs_sched *sched, struct cubejobs_sched_options options) {
    enum cubejobs_sched_code code = CUBEJOBS_SCHED_ALREADY_OPEN;
    uint32_t open = 1;
    if (cubejobs_sched_open_doors(sched)) return code;
    code = cubejobs_sched_open_version(&sched->doors[0].handle, CUBEJOBS_SCHED_VERSION, options);
    if (code != CUBEJOBS_SCHED_DONE) return code;
    if (cubejobs_sched_make_beds(sched, options.workers)) open = cubejobs_sched_share_doors(sched);
    if (open < CUBEJOBS_SCHED_DOORS) {
        while (open) cubejobs_sched_try_free(&sched->doors[--open].handle);
        if (sched->beds) cubejobs_sched_free_beds(sched);
        return CUBEJOBS_SCHED_OUT_OF_MEMORY;
    }
    cubejobs_sched_begin_word(&sched->room);
    sched->rest_from = 0;
    sched->nap = cubejobs_sched_nap_of(options.jobs);
    __atomic_store_n(&sched->open_doors, open, __ATOMIC_SEQ_CST);
    return CUBEJOBS_SCHED_DONE;
}

/* Tries again to submit a job that found no place, after a nap. If jobs are short, there is a place
 * then, and no end of a job need wake the thread. */
CUBEJOBS_INLINE struct cubejobs_sched_answer cubejobs_sched_submit_soon(struct cubejobs_sched *sched,
                                                                        struct cubejobs_sched_order *order,
                                                                        uint64_t deadline) {
    struct cubejobs_sched_answer answer;
    cubejobs_sched_nap(sched->nap, deadline);
    order->naps = 0;
    answer = cubejobs_sched_make(sched, order);
    __atomic_fetch_sub(&sched->outside, 1, __ATOMIC_SEQ_CST);
    return answer;
}

/* Tries again to submit a job, each time that it is woken, until there is a place for it or its
 * deadline has passed. */
CUBEJOBS_INLINE struct cubejobs_sched_answer cubejobs_sched_submit_later(struct cubejobs_sched *sched,
                                                                         struct cubejobs_sched_order *order,
                                                                         uint64_t deadline) {
    struct cubejobs_sched_answer answer;
    int is_late = 0;
    order->deadline = 0;
    for (;;) {
        const uint32_t key = __atomic_load_n(&sched->room.value, __ATOMIC_SEQ_CST);
        answer = cubejobs_sched_make(sched, order);
        if (answer.code != CUBEJOBS_SCHED_FULL) break;
        answer.code = CUBEJOBS_SCHED_TIMED_OUT;
        if (is_late) break;
        is_late = cubejobs_sched_sleep(&sched->room, key, deadline);
    }
    __atomic_fetch_sub(&sched->full, 1, __ATOMIC_SEQ_CST);
    return answer;
}

/* Submits a job, and sleeps while there is no place for it. Once the deadline has passed it tries
 * once more. The result has the ticket. If the code is not DONE, the payload is still yours. Codes:
 * NOT_OPEN, OUT_OF_RANGE (its processors or its class), CLOSED, FULL (only with the deadline 0) or
 * TIMED_OUT (only with another one), DONE. */
CUBEJOBS_NODISCARD CUBEJOBS_INLINE struct cubejobs_sched_job cubejobs_sched_submit(
    struct cubejobs_sched *sched, struct cubejobs_sched_request request, uint64_t deadline) {
    struct cubejobs_sched_order order = cubejobs_sched_order_of(CUBEJOBS_SCHED_SUBMITS, 0, 0);
    struct cubejobs_sched_answer answer;
    order.request = request;
    order.deadline = deadline;
    order.naps = 1;
    answer = cubejobs_sched_make(sched, &order);
    if (answer.code == CUBEJOBS_SCHED_FULL && deadline && sched->nap)
        answer = cubejobs_sched_submit_soon(sched, &order, deadline);
    if (answer.code == CUBEJOBS_SCHED_FULL && deadline) answer = cubejobs_sched_submit_later(sched, &order, deadline);
    return cubejobs_sched_job_of(&answer);
}

/* Takes a waiting job back. The result has its ticket and its payload. Codes: NOT_OPEN, NO_JOB (it
 * is over), WRONG_STATE (it runs), DONE. */
CUBEJOBS_INLINE struct cubejobs_sched_job cubejobs_sched_cancel(struct cubejobs_sched *sched, uint64_t ticket) {
    struct cubejobs_sched_order order = cubejobs_sched_order_of(CUBEJOBS_SCHED_CANCELS, 0, ticket);
    struct cubejobs_sched_answer answer;
    order.ends = 1;
    answer = cubejobs_sched_make(sched, &order);
    return cubejobs_sched_job_of(&answer);
}

#if defined(__cplusplus) && defined(__GNUC__)
#pragma GCC diagnostic push
#pragma GCC diagnostic ignored "-Wshadow"
#endif
/* Says where a job is. Codes: NOT_OPEN, NO_JOB (it is over), DONE. */
CUBEJOBS_INLINE struct cubejobs_sched_forecast cubejobs_sched_forecast(struct cubejobs_sched *sched, uint64_t ticket) {
    struct cubejobs_sched_forecast forecast = {CUBEJOBS_SCHED_NOT_OPEN, 0, 0, 0, 0, 0};
    struct cubejobs_sched_door *door = cubejobs_sched_enter(sched);
    uint32_t tries = 0;
    if (!door) return forecast;
    for (;;) {
        forecast = cubejobs_sched_try_forecast(&door->handle, ticket);
        CUBEJOBS_SCHED_AFTER(sched, &forecast);
        if (forecast.code != CUBEJOBS_SCHED_NOT_NOW) break;
        door = cubejobs_sched_again(sched, door, &tries, CUBEJOBS_SCHED_SPINS);
    }
    cubejobs_sched_leave_door(door);
    return forecast;
}

/* Counts what the scheduler has. Codes: NOT_OPEN, DONE. */
CUBEJOBS_INLINE struct cubejobs_sched_counts cubejobs_sched_counts(struct cubejobs_sched *sched) {
    struct cubejobs_sched_counts counts = {CUBEJOBS_SCHED_NOT_OPEN, 0, 0, 0, 0, 0, 0};
    struct cubejobs_sched_door *door = cubejobs_sched_enter(sched);
    uint32_t tries = 0;
    if (!door) return counts;
    for (;;) {
        counts = cubejobs_sched_try_counts(&door->handle);
        CUBEJOBS_SCHED_AFTER(sched, &counts);
        if (counts.code != CUBEJOBS_SCHED_NOT_NOW) break;
        door = cubejobs_sched_again(sched, door, &tries, CUBEJOBS_SCHED_SPINS);
    }
    cubejobs_sched_leave_door(door);
    return counts;
}

/* Makes the thread a worker. What `worker` had before does not matter. Codes: NOT_OPEN, FULL (each
 * worker is out), DONE. */
CUBEJOBS_NODISCARD CUBEJOBS_INLINE enum cubejobs_sched_code cubejobs_sched_worker(
    struct cubejobs_sched *sched, struct cubejobs_sched_worker *worker) {
    const struct cubejobs_sched_order order = cubejobs_sched_order_of(CUBEJOBS_SCHED_SITS, 0, 0);
    const struct cubejobs_sched_answer answer = cubejobs_sched_make(sched, &order);
    worker->sched = answer.code == CUBEJOBS_SCHED_DONE ? sched : 0;
    worker->number = answer.worker;
    worker->has_job = worker->streak = 0;
    return answer.code;
}
#if defined(__cplusplus) && defined(__GNUC__)
#pragma GCC diagnostic pop
#endif

/* Returns whether a worker is one of an open scheduler. */
CUBEJOBS_INLINE int cubejobs_sched_is_worker(const struct cubejobs_sched_worker *worker) {
    return worker->sched && worker->number < worker->sched->workers;
}

/* How many jobs in a row make a worker nap for 10 us before it sleeps. */
#define CUBEJOBS_SCHED_STREAK 4

/* Sleeps until the worker's word is WOKEN, or all is over, or the deadline has passed. Returns
 * whether that was first. A worker that got many jobs in a row naps before: if it gets one
 * meanwhile, it need not be woken. */
CUBEJOBS_INLINE int cubejobs_sched_doze(struct cubejobs_sched_worker *worker, uint32_t overs, uint64_t deadline) {
    struct cubejobs_sched *const sched = worker->sched;
    struct cubejobs_sched_word *const word = &sched->beds[worker->number].word;
    uint32_t awake = CUBEJOBS_SCHED_AWAKE;
    int is_late = 0;
    if (worker->streak >= CUBEJOBS_SCHED_STREAK) cubejobs_sched_nap(10000, deadline);
    worker->streak = 0;
    __atomic_fetch_add(&sched->asleep, 1, __ATOMIC_SEQ_CST);
    if (__atomic_compare_exchange_n(&word->value, &awake, CUBEJOBS_SCHED_ASLEEP, 0, __ATOMIC_SEQ_CST,
                                    __ATOMIC_SEQ_CST) &&
        __atomic_load_n(&sched->overs, __ATOMIC_SEQ_CST) == overs)
        is_late = cubejobs_sched_sleep(word, CUBEJOBS_SCHED_ASLEEP, deadline);
    __atomic_fetch_sub(&sched->asleep, 1, __ATOMIC_SEQ_CST);
    return is_late;
}

/* Lets a worker wait for its next job, until a deadline. With NO_JOB it waits still. */
CUBEJOBS_INLINE struct cubejobs_sched_answer cubejobs_sched_await(struct cubejobs_sched_worker *worker,
                                                                  uint64_t deadline) {
    struct cubejobs_sched *const sched = worker->sched;
    struct cubejobs_sched_word *const word = &sched->beds[worker->number].word;
    struct cubejobs_sched_order order = cubejobs_sched_order_of(CUBEJOBS_SCHED_ASKS, worker->number, 0);
    struct cubejobs_sched_answer answer;
    uint32_t overs;
    order.ends = worker->has_job != 0;
    do {
        __atomic_store_n(&word->value, CUBEJOBS_SCHED_AWAKE, __ATOMIC_SEQ_CST);
        overs = __atomic_load_n(&sched->overs, __ATOMIC_SEQ_CST);
        answer = cubejobs_sched_make(sched, &order);
        order.ends = 0;
    } while (answer.code == CUBEJOBS_SCHED_NO_JOB && deadline && !cubejobs_sched_doze(worker, overs, deadline));
    return answer;
}

/* Ends the worker's last job, if it has one, and returns the next one. It sleeps until there is one
 * or the deadline has passed. A job that was given to the worker until then is returned. If the
 * code is not DONE, the worker has no job, and gets none until the next call. The result has the
 * ticket, the payload and the processors.
 *
 * CLOSED says that no job will start any more. If jobs wait for a block that is out of service, one
 * may still start once the block is back.
 *
 * Codes: NOT_OPEN, WRONG_STATE (the worker was lost), CLOSED, NO_JOB (only with the deadline 0) or
 * TIMED_OUT (only with another one), DONE. */
CUBEJOBS_NODISCARD CUBEJOBS_INLINE struct cubejobs_sched_job cubejobs_sched_next(struct cubejobs_sched_worker *worker,
                                                                                 uint64_t deadline) {
    struct cubejobs_sched_answer answer = {CUBEJOBS_SCHED_NOT_OPEN, 0, {0, 0, 0, 0}, 0, 0, 0, 0, 0, 0, 0};
    if (!cubejobs_sched_is_worker(worker)) return cubejobs_sched_job_of(&answer);
    answer = cubejobs_sched_await(worker, deadline);
    if (answer.code == CUBEJOBS_SCHED_NO_JOB || answer.code == CUBEJOBS_SCHED_CLOSED) {
        const struct cubejobs_sched_order order =
            cubejobs_sched_order_of(CUBEJOBS_SCHED_GIVES_UP, worker->number, 0);
        enum cubejobs_sched_code code = answer.code;
        if (code == CUBEJOBS_SCHED_NO_JOB && deadline) code = CUBEJOBS_SCHED_TIMED_OUT;
        answer = cubejobs_sched_make(worker->sched, &order);
        if (answer.code == CUBEJOBS_SCHED_NO_JOB) answer.code = code;
    }
    worker->has_job = answer.code == CUBEJOBS_SCHED_DONE;
    worker->streak += worker->has_job;
    return cubejobs_sched_job_of(&answer);
}

/* Ends the worker's job, and takes no other. Codes: NOT_OPEN, WRONG_STATE (the worker has no job,
 * or was lost), DONE. */
CUBEJOBS_INLINE enum cubejobs_sched_code cubejobs_sched_done(struct cubejobs_sched_worker *worker) {
    struct cubejobs_sched_order order = cubejobs_sched_order_of(CUBEJOBS_SCHED_ENDS, worker->number, 0);
    enum cubejobs_sched_code code;
    if (!cubejobs_sched_is_worker(worker)) return CUBEJOBS_SCHED_NOT_OPEN;
    order.ends = 1;
    code = cubejobs_sched_make(worker->sched, &order).code;
    if (code == CUBEJOBS_SCHED_DONE) worker->has_job = 0;
    return code;
}

/* Ends the worker's job, if it has one. Then the thread is no worker. Codes: NOT_OPEN, WRONG_STATE
 * (the worker was lost), DONE.
 *
 * WRONG_STATE also comes if you have called cubejobs_sched_try_next yourself, and the worker got a
 * job that it has not seen. Then cubejobs_sched_next returns that job. */
CUBEJOBS_INLINE enum cubejobs_sched_code cubejobs_sched_leave(struct cubejobs_sched_worker *worker) {
    struct cubejobs_sched_order order = cubejobs_sched_order_of(CUBEJOBS_SCHED_LEAVES, worker->number, 0);
    enum cubejobs_sched_code code;
    if (!cubejobs_sched_is_worker(worker)) return CUBEJOBS_SCHED_NOT_OPEN;
    order.ends = worker->has_job != 0;
    code = cubejobs_sched_make(worker->sched, &order).code;
    if (code == CUBEJOBS_SCHED_DONE) worker->sched = 0;
    return code;
}

/* Gives a worker back whose thread is gone. Its job ends, if it has one. Its thread makes no call
 * with it any more. Codes: NOT_OPEN, WRONG_STATE (no worker with this number is out), DONE. */
CUBEJOBS_INLINE enum cubejobs_sched_code cubejobs_sched_lost(struct cubejobs_sched *sched, uint32_t number) {
    struct cubejobs_sched_order order = cubejobs_sched_order_of(CUBEJOBS_SCHED_LOSES, number, 0);
    order.ends = 1;
    return cubejobs_sched_make(sched, &order).code;
}

/* Takes the block of dimension `dim` that begins at the processor `base` out of service. A
 * reservation of a part of it ends. Codes: NOT_OPEN, OUT_OF_RANGE (there is no such block),
 * WRONG_STATE (a part is held or occupied), DONE. */
CUBEJOBS_INLINE enum cubejobs_sched_code cubejobs_sched_occupy(struct cubejobs_sched *sched, uint64_t base,
                                                               uint32_t dim) {
    const struct cubejobs_sched_order order = cubejobs_sched_order_of(CUBEJOBS_SCHED_OCCUPIES, dim, base);
    return cubejobs_sched_make(sched, &order).code;
}

/* Puts exactly a block that was occupied back into service. Codes: NOT_OPEN, OUT_OF_RANGE (there is
 * no such block), WRONG_STATE (no call has occupied this block), DONE. */
CUBEJOBS_INLINE enum cubejobs_sched_code cubejobs_sched_vacate(struct cubejobs_sched *sched, uint64_t base,
                                                               uint32_t dim) {
    const struct cubejobs_sched_order order = cubejobs_sched_order_of(CUBEJOBS_SCHED_VACATES, dim, base);
    return cubejobs_sched_make(sched, &order).code;
}

/* Closes the scheduler: no job is submitted any more, and each submit that sleeps returns CLOSED.
 * In mode 0 the jobs that wait still run. In mode 1 they do not, and cubejobs_sched_rest gives them
 * back. Jobs that run go on. Codes: NOT_OPEN, OUT_OF_RANGE (there is no such mode), CLOSED (it was
 * closed before), DONE. */
CUBEJOBS_INLINE enum cubejobs_sched_code cubejobs_sched_close(struct cubejobs_sched *sched, uint32_t mode) {
    const struct cubejobs_sched_order order = cubejobs_sched_order_of(CUBEJOBS_SCHED_CLOSES, mode, 0);
    return cubejobs_sched_make(sched, &order).code;
}

/* Gives one waiting job of a closed scheduler back. The result has its ticket and its payload.
 * Codes: NOT_OPEN, WRONG_STATE (the scheduler was not closed), NO_JOB (none waits), DONE. */
CUBEJOBS_NODISCARD CUBEJOBS_INLINE struct cubejobs_sched_job cubejobs_sched_rest(struct cubejobs_sched *sched) {
    const uint32_t from = __atomic_load_n(&sched->rest_from, __ATOMIC_SEQ_CST);
    const struct cubejobs_sched_order order = cubejobs_sched_order_of(CUBEJOBS_SCHED_RESTS, from, 0);
    const struct cubejobs_sched_answer answer = cubejobs_sched_make(sched, &order);
    /* In a closed scheduler no job begins to wait, so the slots before this one stay without. */
    if (answer.code == CUBEJOBS_SCHED_DONE) __atomic_store_n(&sched->rest_from, answer.worker + 1, __ATOMIC_SEQ_CST);
    return cubejobs_sched_job_of(&answer);
}

/* Ends a scheduler of which the caller has all doors, unless it is in use. */
CUBEJOBS_INLINE enum cubejobs_sched_code cubejobs_sched_end(struct cubejobs_sched *sched) {
    uint32_t open = cubejobs_sched_open_doors(sched);
    enum cubejobs_sched_code code;
    while (open > 1) cubejobs_sched_try_free(&sched->doors[--open].handle);
    code = cubejobs_sched_try_free(&sched->doors[0].handle);
    if (code == CUBEJOBS_SCHED_DONE) {
        cubejobs_sched_free_beds(sched);
        cubejobs_sched_end_word(&sched->room);
        open = 0;
    } else if (code == CUBEJOBS_SCHED_IN_USE) {
        open = cubejobs_sched_share_doors(sched);
    }
    __atomic_store_n(&sched->open_doors, open, __ATOMIC_SEQ_CST);
    return code;
}

/* Frees the scheduler, which is shut then. With IN_USE it stays open, as it was. Codes: NOT_OPEN,
 * IN_USE (a worker is out, a job waits or runs, or another call is in progress), DONE. */
CUBEJOBS_INLINE enum cubejobs_sched_code cubejobs_sched_free(struct cubejobs_sched *sched) {
    enum cubejobs_sched_code code = CUBEJOBS_SCHED_IN_USE;
    uint32_t taken = 0;
    if (!cubejobs_sched_open_doors(sched)) return CUBEJOBS_SCHED_NOT_OPEN;
    while (taken < CUBEJOBS_SCHED_DOORS && cubejobs_sched_take_door(&sched->doors[taken])) taken++;
    if (taken == CUBEJOBS_SCHED_DOORS && !__atomic_load_n(&sched->outside, __ATOMIC_SEQ_CST) &&
        !__atomic_load_n(&sched->full, __ATOMIC_SEQ_CST))
        code = cubejobs_sched_end(sched);
    while (taken) cubejobs_sched_leave_door(&sched->doors[--taken]);
    return code;
}

#ifdef __cplusplus
}
#endif

#endif
