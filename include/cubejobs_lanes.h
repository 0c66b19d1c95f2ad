/* Bounded queues of jobs (lanes) from threads to threads, for C and C++. No call waits.
 *
 * A job is two numbers of yours. The payload has 64 bits: it may be a pointer. `dim` has 32 bits:
 * it may be the dimension of the block that the job wants. Each producer has a lane, which holds at
 * most `capacity` jobs. Each worker takes from any lane. A submit or a take makes at most five
 * atomic steps, and takes no lock. Each accepted job is taken once or is left at the end, in the
 * order of its lane. This is proved for every interleaving of the calls.
 *
 * Handles. The owner of lanes has one handle (struct cubejobs_lanes), each producer one (struct
 * cubejobs_lane) and each worker one (struct cubejobs_worker). The owner hands them out. Each comes
 * back by a call of the thread that has it, without the owner. All must be back before the owner
 * ends the lanes.
 *
 * Shared lanes. Several producers can use one lane under a lock of their own. Lock it before each
 * call with the lane, and unlock it afterwards.
 *
 * Sleep. Threads that sleep until there is a job, or until a lane has room, use cubejobs_wait.h.
 *
 * Memory. A handle is 16 bytes in your memory. Only the calls that open lanes or give out a handle
 * take memory, by malloc. An open takes 64 bytes for each job that the lanes can hold and 960 for
 * each lane. It takes 200 for each worker, 8 for each lane of each worker, and 600 more. A handle
 * takes at most 300. All of it is freed when the handles and the lanes are.
 *
 * Linking. Link libcubejobs_lanes.a. It needs only the C library, and runs on any x86-64.
 *
 * Proof. The functions are proved to do what this header says. Some of it is only tested: when
 * memory is taken and freed, that OUT_OF_MEMORY means so, and that the owner finds all that came
 * back. So is when STILL_SHARED comes, and that only a finish returns it. It is proved that the
 * worker which a find or a wake names has its token. No theorem is about the inline functions, or
 * says that submit and take order the plain memory that a payload points to.
 *
 * Nothing checks the caller's duties:
 *
 *   1. Pass pointers to whole handles, never null, and different ones in one call.
 *   2. Zero a handle before its first use, then leave it to these functions; you may move it, and
 *      never pass the copy left behind.
 *   3. Make one call at a time with a handle; pass it to another thread by a lock, a start or join,
 *      or a SeqCst atomic.
 *   4. Make no call from a signal handler, or in the child of a fork of a process with threads.
 *   5. Let malloc and free belong to one allocator.
 *
 * Everything else is checked. A refused call returns a code and changes nothing that you can see.
 *
 * Speed. Each call writes to its handle, so keep those of two threads in different cache lines.
 */
#ifndef CUBEJOBS_LANES_H
#define CUBEJOBS_LANES_H

#include <stdint.h>

#include "cubejobs_codes.h"

#ifdef __cplusplus
extern "C" {
#endif

/* The version of this header, as a text and as a number: 1.2.3 is 10203. The library returns its
 * own by cubejobs_lanes_version_number. */
#define CUBEJOBS_VERSION "0.3.0-dev"
#define CUBEJOBS_VERSION_NUMBER 300

/* The most lanes, the most workers, and the most jobs that a lane holds. */
#define CUBEJOBS_LANES_MAX_LANES 4096
#define CUBEJOBS_LANES_MAX_WORKERS 4096
#define CUBEJOBS_LANES_MAX_CAPACITY 1024

/* The version of this header. A library of another version refuses to open lanes. */
#define CUBEJOBS_LANES_VERSION 4

/* The codes that calls return. If several apply, it is the first of those that the comment of the
 * call lists. */
enum cubejobs_lanes_code {
    CUBEJOBS_LANES_DONE = 0,           /* The call succeeded. */
    CUBEJOBS_LANES_OUT_OF_MEMORY = 11, /* Memory ran out. */
    CUBEJOBS_LANES_NOT_OPEN = 12,      /* The handle is shut. */
    CUBEJOBS_LANES_OTHER_KIND = 13,    /* The handle is of another kind. */
    CUBEJOBS_LANES_ALREADY_OPEN = 14,  /* The handle that is to be opened is open. */
    CUBEJOBS_LANES_BAD_VERSION = 15,   /* This header is not of the library's version. */
    CUBEJOBS_LANES_FULL = 16,          /* The lane has as many jobs as its capacity. */
    CUBEJOBS_LANES_CLOSED = 17,        /* The lanes are closed. */
    CUBEJOBS_LANES_SPENT = 18,         /* The lane has accepted 2^62 jobs. */
    CUBEJOBS_LANES_EMPTY = 19,         /* There is no job. */
    CUBEJOBS_LANES_LOST = 20,          /* Another worker took the job. */
    CUBEJOBS_LANES_ENDED = 21,         /* There is no job, and none will come. */
    CUBEJOBS_LANES_BAD_LANE = 22,      /* There is no lane with this number. */
    CUBEJOBS_LANES_BAD_SIZES = 23,     /* A size of the lanes is out of range. */
    CUBEJOBS_LANES_FINISHED = 24,      /* The lanes have ended. */
    CUBEJOBS_LANES_NOT_FINISHED = 25,  /* The lanes have not ended. */
    CUBEJOBS_LANES_NOT_CLOSED = 26,    /* The lanes are open. */
    CUBEJOBS_LANES_LANE_OUT = 27,      /* A lane is not back. */
    CUBEJOBS_LANES_WORKER_OUT = 28,    /* A worker is not back. */
    CUBEJOBS_LANES_NONE_LEFT = 29,     /* All lanes, or all workers, are out. */
    CUBEJOBS_LANES_JOB_LEFT = 31,      /* A job is left. */
    CUBEJOBS_LANES_STILL_SHARED = 32,  /* Another call has not ended. */
    CUBEJOBS_LANES_NOBODY = 41,        /* No thread is to be woken. */
    CUBEJOBS_LANES_AGAIN = 42,         /* There is more to do: call again. */
    CUBEJOBS_LANES_PARK = 43,          /* There is no job: park the thread. */
    CUBEJOBS_LANES_ASLEEP = 44,        /* The worker lies down. */
    CUBEJOBS_LANES_TIMED_OUT = 61      /* The deadline passed. Only calls of cubejobs_wait.h. */
};

/* The number that names no worker. */
#define CUBEJOBS_LANES_NO_WORKER 4294967295u

/* The structs are those of the library only if an enum has 32 bits. */
typedef char cubejobs_lanes_code_has_32_bits[sizeof(enum cubejobs_lanes_code) == 4 ? 1 : -1];

/* The handles. Only the library reads or writes them. */
struct cubejobs_lanes {
    uint64_t tag;
    void *at;
};
struct cubejobs_lane {
    uint64_t tag;
    void *at;
};
struct cubejobs_worker {
    uint64_t tag;
    void *at;
};

/* The number of lanes and of workers, and the number of jobs that a lane holds. */
struct cubejobs_lane_sizes {
    uint32_t lanes;
    uint32_t workers;
    uint64_t capacity;
};

/* The result of a submit: if the code is CUBEJOBS_LANES_DONE, the number of the job in its lane,
 * from 0 on. */
struct cubejobs_submit_answer {
    enum cubejobs_lanes_code code;
    uint64_t seq;
};

/* The result of a call about a job. All is 0 unless the code is CUBEJOBS_LANES_DONE.
 *   - lane, seq: the lane of the job, and its number there;
 *   - payload, dim: as the job was submitted;
 *   - left: the number of jobs after it in its lane that the worker knows of. In a rest it is the
 *     number of jobs that are left in all lanes. */
struct cubejobs_job_answer {
    enum cubejobs_lanes_code code;
    uint32_t lane;
    uint32_t dim;
    uint64_t seq;
    uint64_t payload;
    uint64_t left;
};

/* The result of a look: the number of jobs in the lane that the worker knows of. */
struct cubejobs_look_answer {
    enum cubejobs_lanes_code code;
    uint64_t jobs;
};

/* The result of a close: the number of jobs that all lanes have accepted, or 2^64 - 1 if there are
 * more. */
struct cubejobs_close_answer {
    enum cubejobs_lanes_code code;
    uint64_t accepted;
};

/* The result of a finish: with CUBEJOBS_LANES_LANE_OUT and CUBEJOBS_LANES_WORKER_OUT the first lane
 * or worker that is not back, else 0. */
struct cubejobs_finish_answer {
    enum cubejobs_lanes_code code;
    uint32_t number;
};

/* Below, each comment lists the codes of its call without CUBEJOBS_LANES_, in the order in which
 * the call checks them. A worker that lies down returns ASLEEP, after OTHER_KIND, from each call
 * but find, awake and worker_number. */

/* Does what cubejobs_lanes_open does, which calls it with the version of this header. */
CUBEJOBS_NODISCARD enum cubejobs_lanes_code cubejobs_lanes_open_version(struct cubejobs_lanes *owner, uint32_t version,
                                                                        struct cubejobs_lane_sizes sizes);

/* Opens lanes with no job, of which no handle is out. There are 1 to 4,096 lanes and as many
 * workers, and each lane holds 1 to 1,024 jobs. Codes: BAD_VERSION, ALREADY_OPEN, BAD_SIZES,
 * OUT_OF_MEMORY, DONE. */
CUBEJOBS_NODISCARD CUBEJOBS_INLINE enum cubejobs_lanes_code cubejobs_lanes_open(struct cubejobs_lanes *owner,
                                                                                uint32_t lanes, uint32_t workers,
                                                                                uint64_t capacity);

/* Gives a producer a handle: that of the first lane which is not out. Codes: ALREADY_OPEN (the
 * lane), NOT_OPEN, OTHER_KIND, FINISHED, NONE_LEFT, OUT_OF_MEMORY, DONE. */
CUBEJOBS_NODISCARD enum cubejobs_lanes_code cubejobs_lanes_lane(struct cubejobs_lanes *owner,
                                                                struct cubejobs_lane *lane);

/* Gives a worker a handle: that of the first worker which is not out. Codes: ALREADY_OPEN (the
 * worker), NOT_OPEN, OTHER_KIND, FINISHED, NONE_LEFT, OUT_OF_MEMORY, DONE. */
CUBEJOBS_NODISCARD enum cubejobs_lanes_code cubejobs_lanes_worker(struct cubejobs_lanes *owner,
                                                                  struct cubejobs_worker *worker);

/* Submits a job, with any two numbers. With FULL the lane had `capacity` jobs that were not taken.
 * Codes: NOT_OPEN, OTHER_KIND, CLOSED, SPENT, FULL, DONE. A close that comes during the call may
 * give CLOSED too. */
CUBEJOBS_NODISCARD struct cubejobs_submit_answer cubejobs_lanes_submit(struct cubejobs_lane *lane, uint64_t payload,
                                                                       uint32_t dim);

/* Takes the first job of a lane. With EMPTY and ENDED the lane had none at a moment of the call.
 * Codes: NOT_OPEN, OTHER_KIND, BAD_LANE, EMPTY, ENDED, LOST (another worker took it), DONE. */
CUBEJOBS_NODISCARD struct cubejobs_job_answer cubejobs_lanes_take(struct cubejobs_worker *worker, uint32_t lane);

/* Goes round all lanes, from lane `from` on, and takes the first job that it can. Codes: NOT_OPEN,
 * OTHER_KIND, BAD_LANE, EMPTY (none, or other workers took it), ENDED (none in any lane), DONE. */
CUBEJOBS_NODISCARD struct cubejobs_job_answer cubejobs_lanes_take_any(struct cubejobs_worker *worker, uint32_t from);

/* Looks for a job in a lane, without taking it. Codes: NOT_OPEN, OTHER_KIND, BAD_LANE, EMPTY,
 * ENDED, DONE. */
struct cubejobs_look_answer cubejobs_lanes_look(struct cubejobs_worker *worker, uint32_t lane);

/* The result of a call that finds a job or lets the worker lie down. All is 0 unless the code is
 * CUBEJOBS_LANES_DONE, but `woken`.
 *   - woken: with each code the number of a worker that was given its token, and whose thread you
 *     wake, or CUBEJOBS_LANES_NO_WORKER. */
struct cubejobs_find_answer {
    enum cubejobs_lanes_code code;
    uint32_t lane;
    uint32_t dim;
    uint32_t woken;
    uint64_t seq;
    uint64_t payload;
    uint64_t left;
};

/* The result of a wake: if the code is CUBEJOBS_LANES_DONE, the number of the worker that was given
 * its token, and whose thread you wake. */
struct cubejobs_wake_answer {
    enum cubejobs_lanes_code code;
    uint32_t worker;
};

/* The number of a worker, from 0 on. */
struct cubejobs_number_answer {
    enum cubejobs_lanes_code code;
    uint32_t number;
};

/* Takes a job as cubejobs_lanes_take_any does, or lets the worker lie down if there is none. With
 * PARK, park its thread until cubejobs_lanes_awake returns DONE, then call again. With AGAIN, call
 * again. After both the worker lies down: its other calls, but those below, return ASLEEP. After
 * DONE and ENDED it is awake. Codes: NOT_OPEN, OTHER_KIND, BAD_LANE, AGAIN, PARK, ENDED, DONE. */
CUBEJOBS_NODISCARD struct cubejobs_find_answer cubejobs_lanes_find(struct cubejobs_worker *worker, uint32_t from);

/* Takes the token of a worker. With PARK it has none, and its thread parks on. With DONE it is to
 * call cubejobs_lanes_find. Codes: NOT_OPEN, OTHER_KIND, PARK, DONE. */
enum cubejobs_lanes_code cubejobs_lanes_awake(struct cubejobs_worker *worker);

/* Returns the number of a worker, by which others name it. Workers are numbered from 0 on in the
 * order in which they are given out first. Codes: NOT_OPEN, OTHER_KIND, DONE. */
struct cubejobs_number_answer cubejobs_lanes_worker_number(struct cubejobs_worker *worker);

/* Gives a worker that sleeps its token, if one is to be woken for the lane's last job. Call it
 * after each submit with DONE, and call it again while the code is AGAIN. Codes: NOT_OPEN,
 * OTHER_KIND, NOBODY (no thread is to be woken), AGAIN, DONE. */
struct cubejobs_wake_answer cubejobs_lanes_wake(struct cubejobs_lane *lane);

/* Closes all lanes, one after another. A lane accepts no job after its close. Each worker that
 * sleeps is given its token: afterwards wake the threads of all workers. Codes: NOT_OPEN,
 * OTHER_KIND, FINISHED, CLOSED (already), DONE. */
struct cubejobs_close_answer cubejobs_lanes_close(struct cubejobs_lanes *owner);

/* Gives a producer's lane back, and shuts the handle. It is a call of the producer, and needs no
 * owner. Codes: NOT_OPEN, OTHER_KIND, DONE. */
enum cubejobs_lanes_code cubejobs_lanes_free_lane(struct cubejobs_lane *lane);

/* Gives a worker back, and shuts the handle. The same codes. */
enum cubejobs_lanes_code cubejobs_lanes_free_worker(struct cubejobs_worker *worker);

/* Ends closed lanes, once all lanes and all workers are back. Then the handle has the jobs that no
 * worker took. Codes: NOT_OPEN, OTHER_KIND, FINISHED, NOT_CLOSED, LANE_OUT, WORKER_OUT,
 * STILL_SHARED (a call that gives a handle back has not ended: call again), DONE. */
struct cubejobs_finish_answer cubejobs_lanes_finish(struct cubejobs_lanes *owner);

/* Returns the first job that is left, and removes it. They are in the order of the lanes, and in
 * that of each lane. Codes: NOT_OPEN, OTHER_KIND, NOT_FINISHED, EMPTY, DONE. */
struct cubejobs_job_answer cubejobs_lanes_rest(struct cubejobs_lanes *owner);

/* Frees ended lanes of which no job is left, and shuts the handle. Codes: NOT_OPEN, OTHER_KIND,
 * NOT_FINISHED, JOB_LEFT, DONE. */
enum cubejobs_lanes_code cubejobs_lanes_free(struct cubejobs_lanes *owner);

/* Returns the version of the library: CUBEJOBS_VERSION_NUMBER of the header that it came with. */
uint32_t cubejobs_lanes_version_number(void);

/* The library is not compiled for a sanitizer, so this part informs three of them. ThreadSanitizer
 * and, if CUBEJOBS_HELGRIND is defined, Helgrind do not see the library's atomics. Here a take
 * acquires what the submit of its payload released. ThreadSanitizer also sees each call of lanes
 * write to its handles, so it reports two threads that use one. Helgrind still reports a handle
 * that comes back during a finish, since that passes inside the library. MemorySanitizer does not
 * see what the library writes. Here each result is initialised. Without these three this part is
 * empty. */
#if defined(__SANITIZE_THREAD__)
#define CUBEJOBS_LANES_TSAN 1
#elif defined(__has_feature)
#if __has_feature(thread_sanitizer)
#define CUBEJOBS_LANES_TSAN 1
#endif
#if __has_feature(memory_sanitizer)
#define CUBEJOBS_LANES_WRITES 1
#endif
#endif
#if defined(CUBEJOBS_LANES_TSAN)
void __tsan_acquire(void *address);
void __tsan_release(void *address);
void __tsan_write_range(void *address, long size);
#define CUBEJOBS_LANES_ACQUIRE(address) __tsan_acquire(address)
#define CUBEJOBS_LANES_RELEASE(address) __tsan_release(address)
#define CUBEJOBS_LANES_USE(handle) __tsan_write_range(handle, CUBEJOBS_AS(long, sizeof *(handle)))
#elif defined(CUBEJOBS_HELGRIND)
#include <valgrind/helgrind.h>
#define CUBEJOBS_LANES_ACQUIRE(address) ANNOTATE_HAPPENS_AFTER(address)
#define CUBEJOBS_LANES_RELEASE(address) ANNOTATE_HAPPENS_BEFORE(address)
#elif defined(CUBEJOBS_LANES_WRITES)
void __msan_unpoison(const volatile void *address, __SIZE_TYPE__ size);
#endif
#if defined(CUBEJOBS_LANES_ACQUIRE)
/* A byte for the payloads of each remainder, the same in all files of a program. */
extern char cubejobs_lanes_order[4093];
__attribute__((weak)) char cubejobs_lanes_order[4093];
#define CUBEJOBS_LANES_ORDER(payload) (&cubejobs_lanes_order[(payload) % sizeof cubejobs_lanes_order])
#define CUBEJOBS_LANES_BEFORE(payload) CUBEJOBS_LANES_RELEASE(CUBEJOBS_LANES_ORDER(payload))
#define CUBEJOBS_LANES_AFTER(answer)                                                                              \
    do {                                                                                                          \
        if ((answer).code == CUBEJOBS_LANES_DONE) CUBEJOBS_LANES_ACQUIRE(CUBEJOBS_LANES_ORDER((answer).payload)); \
    } while (0)
#elif defined(CUBEJOBS_LANES_WRITES)
#define CUBEJOBS_LANES_BEFORE(payload) ((void)(payload))
#define CUBEJOBS_LANES_AFTER(answer) __msan_unpoison(&(answer), sizeof(answer))
#endif
#ifndef CUBEJOBS_LANES_USE
#define CUBEJOBS_LANES_USE(handle) ((void)(handle))
#endif
#ifdef CUBEJOBS_LANES_AFTER
CUBEJOBS_INLINE struct cubejobs_submit_answer cubejobs_lanes_submit_seen(struct cubejobs_lane *lane, uint64_t payload,
                                                                         uint32_t dim) {
    CUBEJOBS_LANES_USE(lane);
    CUBEJOBS_LANES_BEFORE(payload);
    return cubejobs_lanes_submit(lane, payload, dim);
}

CUBEJOBS_INLINE struct cubejobs_job_answer cubejobs_lanes_take_seen(struct cubejobs_worker *worker, uint32_t lane) {
    struct cubejobs_job_answer answer;
    CUBEJOBS_LANES_USE(worker);
    answer = cubejobs_lanes_take(worker, lane);
    CUBEJOBS_LANES_AFTER(answer);
    return answer;
}

CUBEJOBS_INLINE struct cubejobs_job_answer cubejobs_lanes_take_any_seen(struct cubejobs_worker *worker, uint32_t from) {
    struct cubejobs_job_answer answer;
    CUBEJOBS_LANES_USE(worker);
    answer = cubejobs_lanes_take_any(worker, from);
    CUBEJOBS_LANES_AFTER(answer);
    return answer;
}

CUBEJOBS_INLINE struct cubejobs_job_answer cubejobs_lanes_rest_seen(struct cubejobs_lanes *owner) {
    struct cubejobs_job_answer answer;
    CUBEJOBS_LANES_USE(owner);
    answer = cubejobs_lanes_rest(owner);
    CUBEJOBS_LANES_AFTER(answer);
    return answer;
}

CUBEJOBS_INLINE struct cubejobs_find_answer cubejobs_lanes_find_seen(struct cubejobs_worker *worker, uint32_t from) {
    struct cubejobs_find_answer answer;
    CUBEJOBS_LANES_USE(worker);
    answer = cubejobs_lanes_find(worker, from);
    CUBEJOBS_LANES_AFTER(answer);
    return answer;
}

/* A call with one handle, and one with two. */
#define CUBEJOBS_LANES_ONE(type, call, handle)                        \
    CUBEJOBS_INLINE type call##_seen(struct cubejobs_##handle *one) { \
        CUBEJOBS_LANES_USE(one);                                      \
        return call(one);                                             \
    }
#define CUBEJOBS_LANES_TWO(type, call, handle, other)                                               \
    CUBEJOBS_INLINE type call##_seen(struct cubejobs_##handle *one, struct cubejobs_##other *two) { \
        CUBEJOBS_LANES_USE(one);                                                                    \
        CUBEJOBS_LANES_USE(two);                                                                    \
        return call(one, two);                                                                      \
    }
CUBEJOBS_LANES_TWO(enum cubejobs_lanes_code, cubejobs_lanes_lane, lanes, lane)
CUBEJOBS_LANES_TWO(enum cubejobs_lanes_code, cubejobs_lanes_worker, lanes, worker)
CUBEJOBS_LANES_ONE(enum cubejobs_lanes_code, cubejobs_lanes_awake, worker)
CUBEJOBS_LANES_ONE(struct cubejobs_number_answer, cubejobs_lanes_worker_number, worker)
CUBEJOBS_LANES_ONE(struct cubejobs_wake_answer, cubejobs_lanes_wake, lane)
CUBEJOBS_LANES_ONE(struct cubejobs_close_answer, cubejobs_lanes_close, lanes)
CUBEJOBS_LANES_ONE(enum cubejobs_lanes_code, cubejobs_lanes_free_lane, lane)
CUBEJOBS_LANES_ONE(enum cubejobs_lanes_code, cubejobs_lanes_free_worker, worker)
CUBEJOBS_LANES_ONE(struct cubejobs_finish_answer, cubejobs_lanes_finish, lanes)
CUBEJOBS_LANES_ONE(enum cubejobs_lanes_code, cubejobs_lanes_free, lanes)

CUBEJOBS_INLINE enum cubejobs_lanes_code cubejobs_lanes_open_version_seen(struct cubejobs_lanes *owner,
                                                                          uint32_t version,
                                                                          struct cubejobs_lane_sizes sizes) {
    CUBEJOBS_LANES_USE(owner);
    return cubejobs_lanes_open_version(owner, version, sizes);
}

CUBEJOBS_INLINE struct cubejobs_look_answer cubejobs_lanes_look_seen(struct cubejobs_worker *worker, uint32_t lane) {
    CUBEJOBS_LANES_USE(worker);
    return cubejobs_lanes_look(worker, lane);
}

#define cubejobs_lanes_open_version cubejobs_lanes_open_version_seen
#define cubejobs_lanes_lane cubejobs_lanes_lane_seen
#define cubejobs_lanes_worker cubejobs_lanes_worker_seen
#define cubejobs_lanes_look cubejobs_lanes_look_seen
#define cubejobs_lanes_awake cubejobs_lanes_awake_seen
#define cubejobs_lanes_worker_number cubejobs_lanes_worker_number_seen
#define cubejobs_lanes_wake cubejobs_lanes_wake_seen
#define cubejobs_lanes_close cubejobs_lanes_close_seen
#define cubejobs_lanes_free_lane cubejobs_lanes_free_lane_seen
#define cubejobs_lanes_free_worker cubejobs_lanes_free_worker_seen
#define cubejobs_lanes_finish cubejobs_lanes_finish_seen
#define cubejobs_lanes_free cubejobs_lanes_free_seen
#define cubejobs_lanes_find cubejobs_lanes_find_seen
#define cubejobs_lanes_submit cubejobs_lanes_submit_seen
#define cubejobs_lanes_take cubejobs_lanes_take_seen
#define cubejobs_lanes_take_any cubejobs_lanes_take_any_seen
#define cubejobs_lanes_rest cubejobs_lanes_rest_seen
#endif

CUBEJOBS_INLINE enum cubejobs_lanes_code cubejobs_lanes_open(struct cubejobs_lanes *owner, uint32_t lanes,
                                                             uint32_t workers, uint64_t capacity) {
    struct cubejobs_lane_sizes sizes;
    sizes.lanes = lanes;
    sizes.workers = workers;
    sizes.capacity = capacity;
    return cubejobs_lanes_open_version(owner, CUBEJOBS_LANES_VERSION, sizes);
}

#ifdef __cplusplus
}
#endif

#endif
