/* Threads that sleep until they get what they wait for: C11 and C++11.
 *
 *   - a block of a machine of cubejobs_regions.h: cubejobs_regions_take_or_wait, and
 *     cubejobs_regions_take_until with a deadline;
 *   - a job of lanes of cubejobs_lanes.h: cubejobs_lanes_wait;
 *   - room in a full lane: cubejobs_lanes_submit_until.
 *
 * A thread that sleeps takes no processor time. On Linux it sleeps by futex, elsewhere by a mutex
 * and a condition variable (also if CUBEJOBS_EVENT_CONDITION is defined). All functions are inline:
 * they are tested, and no theorem is about them. Link the library of what you use.
 *
 * No call here is a cancellation point: a thread that is cancelled goes on until its call returns.
 * To end the waits for blocks, stop the event (cubejobs_event_stop). A close ends those of lanes.
 *
 * BLOCKS. An event count (struct cubejobs_event) belongs to one machine. A waiter reads its key,
 * then tries a take, then sleeps until the event was raised after the key. Use these calls alone,
 * and no waiter misses a block that is free:
 *
 *   - cubejobs_regions_take_or_wait takes a block, or sleeps until it can;
 *   - cubejobs_regions_take_until does so until a deadline;
 *   - cubejobs_regions_release_and_raise releases one.
 *
 * Raise the event also after each take of your own has returned: a quick one, an exact one and a
 * take_at, granted or refused. For any of them can hide room from a waiter for a moment:
 *
 *   - A refused take shuts empty words. While it shuts one it has the unit over it, and another
 *     take finds this unit in use. So a refused take can be the cause of a second refusal.
 *   - A granted take may have a whole unit before it opens the word below. Then the rest of the
 *     unit is free.
 *
 * A split, a join and a read of what is free hide nothing.
 *
 * What a waiter does. The quick take's refusal says nothing, so before it sleeps it makes an exact
 * take. It reads the key before this take. Waiters make their exact takes one at a time (`turn`),
 * so these hide nothing from each other, and need no raise. With NOT_NOW other calls won exchanges,
 * so it takes again. With NO_ROOM it sleeps. Suppose that nothing wakes it, and no call is in
 * progress. Then no other call made a step during its take. So the refusal was right, and no block
 * of this dimension is free.
 *
 * Nothing guarantees fairness: a waiter for a large block may wait as long as others take small
 * ones. A waiter that is stopped in its exact take stops the other waiters, but no other call.
 *
 * JOBS. A parking (struct cubejobs_parking) belongs to lanes, and has a word in your memory for
 * each worker. The library says which worker is to wake. These functions wake its thread. Use all
 * of them instead of the calls in their names: cubejobs_lanes_submit_and_wake or _submit_until,
 * cubejobs_lanes_wait and cubejobs_lanes_close_and_wake.
 *
 * Why no worker's wake-up is lost. The library gives a worker its token, and then names the worker.
 * Then the waker sets the worker's word. A worker sleeps only while its word is 0. Then it clears
 * the word, and then it looks for its token. So if no call is in progress, no worker that sleeps
 * has a token. It is proved of the library that then no job waits, or a worker looks for it
 * (docs/LANES.md).
 *
 * ROOM. A submit whose lane is full sleeps on the event `room` of the parking. It reads the key,
 * tries again, and sleeps until `room` was raised after the key. These calls raise `room`:
 *
 *   - cubejobs_lanes_wait, after a take with DONE;
 *   - cubejobs_lanes_take_any_and_raise, which never sleeps, after a take with DONE;
 *   - cubejobs_lanes_close_and_wake, after the close.
 *
 * After a take or a close of your own, raise it yourself: cubejobs_event_raise(&parking->room).
 * Where no submit sleeps, a raise is one load.
 *
 * Why no submit's wake-up is lost. Suppose that a submit sleeps, and no call is in progress. It
 * read its key, and then its last try found the lane full. A take or a close that came after this
 * try would have raised `room` after the key. So none came: the lane is open, and still full.
 *
 * Other takes wake a submit too, since all lanes have one `room`. Nothing guarantees fairness. A
 * submit to a lane that producers share sleeps while it has their lock, so the others wait for the
 * lock, also after their deadlines. If each worker submits to a full lane and sleeps, none of them
 * takes. So let workers submit with a deadline.
 */
#ifndef CUBEJOBS_WAIT_H
#define CUBEJOBS_WAIT_H

#include "cubejobs_lanes.h"
#include "cubejobs_regions.h"
#include "cubejobs_sleep.h"

#ifdef __cplusplus
extern "C" {
#endif

/* An event count. Initialise it by CUBEJOBS_EVENT_INIT. Only the functions below read or write it.
 * Bit 0 of the state is set while a thread may sleep, and the other bits count the raises. */
struct cubejobs_event {
    uint32_t state;
    uint32_t is_stopped;
    pthread_mutex_t turn;
#ifndef CUBEJOBS_EVENT_FUTEX
    pthread_mutex_t lock;
    pthread_cond_t changed;
#endif
};

#ifdef CUBEJOBS_EVENT_FUTEX
#define CUBEJOBS_EVENT_INIT {0, 0, PTHREAD_MUTEX_INITIALIZER}
#else
#define CUBEJOBS_EVENT_INIT {0, 0, PTHREAD_MUTEX_INITIALIZER, PTHREAD_MUTEX_INITIALIZER, PTHREAD_COND_INITIALIZER}
#endif

/* Returns the key of now. Read it before the take that is to be made. */
static inline uint32_t cubejobs_event_key(struct cubejobs_event *event) {
    return __atomic_fetch_or(&event->state, 1, __ATOMIC_SEQ_CST) | 1;
}

/* Wakes each thread whose key was read before now. It only reads if no key was read since the last
 * raise, so it costs little where nobody waits. */
static inline void cubejobs_event_raise(struct cubejobs_event *event) {
    uint32_t state = __atomic_load_n(&event->state, __ATOMIC_SEQ_CST);
    if (state % 2 == 0) return;
    /* A lost exchange was lost to another raise, which wakes the same threads. */
    if (!__atomic_compare_exchange_n(&event->state, &state, state + 1, 0, __ATOMIC_SEQ_CST, __ATOMIC_SEQ_CST)) return;
#ifdef CUBEJOBS_EVENT_FUTEX
    cubejobs_futex_wake(&event->state, INT_MAX);
#else
    pthread_mutex_lock(&event->lock);
    pthread_cond_broadcast(&event->changed);
    pthread_mutex_unlock(&event->lock);
#endif
}

/* Ends all waits of the event, those of now and of later. Each call that waits for this event then
 * returns STOPPED, and takes nothing. A call that has its block already returns it. An event is
 * stopped for ever, and may be stopped again. Any thread may do so. */
static inline void cubejobs_event_stop(struct cubejobs_event *event) {
    __atomic_store_n(&event->is_stopped, 1, __ATOMIC_SEQ_CST);
    cubejobs_event_raise(event);
}

/* Returns whether the event was stopped. */
static inline int cubejobs_event_is_stopped(struct cubejobs_event *event) {
    return __atomic_load_n(&event->is_stopped, __ATOMIC_SEQ_CST) != 0;
}

/* Sleeps once until a change, or until a deadline if there is one. It may return without cause. The
 * deadline is of CLOCK_MONOTONIC, and has not passed. */
#ifdef CUBEJOBS_EVENT_FUTEX
static inline void cubejobs_event_sleep(struct cubejobs_event *event, uint32_t key, const struct timespec *deadline) {
    cubejobs_futex_sleep(&event->state, key, deadline);
}
#else
static inline void cubejobs_event_sleep(struct cubejobs_event *event, const struct timespec *deadline) {
    cubejobs_condition_sleep(&event->changed, &event->lock, deadline);
}
#endif

/* Sleeps until the event is raised, or until a deadline of CLOCK_MONOTONIC if it is not null.
 * Returns at once if it was raised after this key was read. Returns whether the deadline passed
 * before. */
static inline int cubejobs_event_wait_until(struct cubejobs_event *event, uint32_t key,
                                            const struct timespec *deadline) {
    int is_late = 0;
#ifdef CUBEJOBS_EVENT_FUTEX
    while (!is_late && __atomic_load_n(&event->state, __ATOMIC_SEQ_CST) == key) {
        is_late = deadline && cubejobs_has_passed(deadline);
        if (!is_late) cubejobs_event_sleep(event, key, deadline);
    }
#else
    int before;
    pthread_setcancelstate(PTHREAD_CANCEL_DISABLE, &before);
    pthread_mutex_lock(&event->lock);
    while (!is_late && __atomic_load_n(&event->state, __ATOMIC_SEQ_CST) == key) {
        is_late = deadline && cubejobs_has_passed(deadline);
        if (!is_late) cubejobs_event_sleep(event, deadline);
    }
    pthread_mutex_unlock(&event->lock);
    pthread_setcancelstate(before, &before);
#endif
    return is_late;
}

/* Does what cubejobs_event_wait_until does without a deadline. */
static inline void cubejobs_event_wait(struct cubejobs_event *event, uint32_t key) {
    cubejobs_event_wait_until(event, key, 0);
}

/* Returns the answer of a take that took nothing, with this code. */
static inline struct cubejobs_regions_answer cubejobs_regions_refusal(enum cubejobs_regions_code code) {
    struct cubejobs_regions_answer answer = {0, 0, 0, 0};
    answer.code = CUBEJOBS_AS(uint16_t, code);
    return answer;
}

/* Makes an exact take as the only waiter that does, unless the event was stopped. Sets the key from
 * before. A stop raises the event after it is noted, so a waiter with this key misses none. */
static inline struct cubejobs_regions_answer cubejobs_regions_take_in_turn(struct cubejobs_regions *thread,
                                                                           struct cubejobs_block *block, uint32_t k,
                                                                           struct cubejobs_event *event,
                                                                           uint32_t *key) {
    struct cubejobs_regions_answer answer = cubejobs_regions_refusal(CUBEJOBS_REGIONS_STOPPED);
    pthread_mutex_lock(&event->turn);
    *key = cubejobs_event_key(event);
    if (!cubejobs_event_is_stopped(event)) answer = cubejobs_regions_take_exact(thread, block, k);
    pthread_mutex_unlock(&event->turn);
    return answer;
}

/* Takes a block of dimension `k`, and sleeps until it can, or until `deadline`, a time of
 * CLOCK_MONOTONIC, has passed. It makes an exact take even if that has passed before. Null is no
 * deadline. A tv_nsec is 0 to 999,999,999. The code is TIMED_OUT, STOPPED (cubejobs_event_stop), or
 * that of cubejobs_regions_take_exact, but neither NO_ROOM nor NOT_NOW. */
CUBEJOBS_NODISCARD static inline struct cubejobs_regions_answer cubejobs_regions_take_until(
    struct cubejobs_regions *thread, struct cubejobs_block *block, uint32_t k, struct cubejobs_event *event,
    const struct timespec *deadline) {
    struct cubejobs_regions_answer answer;
    uint32_t key;
    int is_late = 0;
    if (cubejobs_event_is_stopped(event)) return cubejobs_regions_refusal(CUBEJOBS_REGIONS_STOPPED);
    answer = cubejobs_regions_take(thread, block, k);
    cubejobs_event_raise(event);
    while (!is_late && (answer.code == CUBEJOBS_REGIONS_NOT_NOW || answer.code == CUBEJOBS_REGIONS_NO_ROOM)) {
        answer = cubejobs_regions_take_in_turn(thread, block, k, event, &key);
        if (answer.code == CUBEJOBS_REGIONS_NO_ROOM) {
            is_late = cubejobs_event_wait_until(event, key, deadline);
        } else if (answer.code == CUBEJOBS_REGIONS_NOT_NOW) {
            is_late = deadline && cubejobs_has_passed(deadline);
            sched_yield();
        }
    }
    return is_late ? cubejobs_regions_refusal(CUBEJOBS_REGIONS_TIMED_OUT) : answer;
}

/* Takes a block as cubejobs_regions_take_until does, without a deadline. */
CUBEJOBS_NODISCARD static inline struct cubejobs_regions_answer cubejobs_regions_take_or_wait(
    struct cubejobs_regions *thread, struct cubejobs_block *block, uint32_t k, struct cubejobs_event *event) {
    return cubejobs_regions_take_until(thread, block, k, event, 0);
}

/* Releases a block as cubejobs_regions_release does, and raises the event. */
static inline enum cubejobs_regions_code cubejobs_regions_release_and_raise(struct cubejobs_regions *thread,
                                                                            struct cubejobs_block *block,
                                                                            struct cubejobs_event *event) {
    enum cubejobs_regions_code code = cubejobs_regions_release(thread, block);
    cubejobs_event_raise(event);
    return code;
}

/* Where the threads of lanes sleep: workers on their words, and submits on `room`. Initialise it by
 * CUBEJOBS_PARKING_INIT, with an array of zeros that has a word for each worker of the lanes. Keep
 * both until the last of these calls has returned. Only the functions below read or write them. */
struct cubejobs_parking {
    uint32_t *words;
    uint32_t workers;
    struct cubejobs_event room;
};

#define CUBEJOBS_PARKING_INIT(words, workers) {words, workers, CUBEJOBS_EVENT_INIT}

/* Wakes the thread of a worker, or lets its next park return at once. It ignores a number that no
 * worker has. */
static inline void cubejobs_unpark(struct cubejobs_parking *parking, uint32_t worker) {
    if (worker >= parking->workers) return;
    __atomic_store_n(&parking->words[worker], 1, __ATOMIC_SEQ_CST);
#ifdef CUBEJOBS_EVENT_FUTEX
    cubejobs_futex_wake(&parking->words[worker], INT_MAX);
#else
    pthread_mutex_lock(&parking->room.lock);
    pthread_cond_broadcast(&parking->room.changed);
    pthread_mutex_unlock(&parking->room.lock);
#endif
}

/* Sleeps until the worker is unparked. It may return without cause, so look for the token again. */
static inline void cubejobs_park(struct cubejobs_parking *parking, uint32_t worker) {
    uint32_t *word = &parking->words[worker];
#ifdef CUBEJOBS_EVENT_FUTEX
    while (__atomic_load_n(word, __ATOMIC_SEQ_CST) == 0) syscall(SYS_futex, word, FUTEX_WAIT_PRIVATE, 0, 0, 0, 0);
#else
    int before;
    pthread_setcancelstate(PTHREAD_CANCEL_DISABLE, &before);
    pthread_mutex_lock(&parking->room.lock);
    while (__atomic_load_n(word, __ATOMIC_SEQ_CST) == 0) pthread_cond_wait(&parking->room.changed, &parking->room.lock);
    pthread_mutex_unlock(&parking->room.lock);
    pthread_setcancelstate(before, &before);
#endif
    __atomic_store_n(word, 0, __ATOMIC_SEQ_CST);
}

static inline void cubejobs_unpark_all(struct cubejobs_parking *parking) {
    uint32_t worker;
    for (worker = 0; worker < parking->workers; worker++) cubejobs_unpark(parking, worker);
}

/* Submits a job as cubejobs_lanes_submit does, and wakes a worker for it if one is to wake. */
CUBEJOBS_NODISCARD static inline struct cubejobs_submit_answer cubejobs_lanes_submit_and_wake(
    struct cubejobs_lane *lane, uint64_t payload, uint32_t dim, struct cubejobs_parking *parking) {
    struct cubejobs_submit_answer answer = cubejobs_lanes_submit(lane, payload, dim);
    struct cubejobs_wake_answer wake = {CUBEJOBS_LANES_AGAIN, 0};
    if (answer.code != CUBEJOBS_LANES_DONE) return answer;
    while (wake.code == CUBEJOBS_LANES_AGAIN) wake = cubejobs_lanes_wake(lane);
    if (wake.code == CUBEJOBS_LANES_DONE) cubejobs_unpark(parking, wake.worker);
    return answer;
}

/* Submits a job as cubejobs_lanes_submit_and_wake does, and sleeps while the lane is full, or until
 * `deadline`, a time of CLOCK_MONOTONIC, has passed. Then it tries once more. Null is no deadline.
 * A tv_nsec is 0 to 999,999,999. The code is TIMED_OUT, or that of cubejobs_lanes_submit, but not
 * FULL. */
CUBEJOBS_NODISCARD static inline struct cubejobs_submit_answer cubejobs_lanes_submit_until(
    struct cubejobs_lane *lane, uint64_t payload, uint32_t dim, struct cubejobs_parking *parking,
    const struct timespec *deadline) {
    struct cubejobs_submit_answer answer = cubejobs_lanes_submit_and_wake(lane, payload, dim, parking);
    int is_late = 0;
    while (answer.code == CUBEJOBS_LANES_FULL) {
        uint32_t key = cubejobs_event_key(&parking->room);
        answer = cubejobs_lanes_submit_and_wake(lane, payload, dim, parking);
        if (answer.code != CUBEJOBS_LANES_FULL) break;
        if (is_late) answer.code = CUBEJOBS_LANES_TIMED_OUT;
        else is_late = cubejobs_event_wait_until(&parking->room, key, deadline);
    }
    return answer;
}

/* Takes a job as cubejobs_lanes_take_any does, and raises `room` if it has one. */
CUBEJOBS_NODISCARD static inline struct cubejobs_job_answer cubejobs_lanes_take_any_and_raise(
    struct cubejobs_worker *worker, uint32_t from, struct cubejobs_parking *parking) {
    struct cubejobs_job_answer answer = cubejobs_lanes_take_any(worker, from);
    if (answer.code == CUBEJOBS_LANES_DONE) cubejobs_event_raise(&parking->room);
    return answer;
}

/* Takes a job, from lane `from` on, and sleeps until it can. The code is DONE, ENDED if no job will
 * come, or NOT_OPEN, OTHER_KIND or BAD_LANE. */
CUBEJOBS_NODISCARD static inline struct cubejobs_find_answer cubejobs_lanes_wait(struct cubejobs_worker *worker,
                                                                                 uint32_t from,
                                                                                 struct cubejobs_parking *parking) {
    uint32_t number = cubejobs_lanes_worker_number(worker).number;
    for (;;) {
        struct cubejobs_find_answer answer = cubejobs_lanes_find(worker, from);
        cubejobs_unpark(parking, answer.woken);
        if (answer.code == CUBEJOBS_LANES_PARK) {
            while (cubejobs_lanes_awake(worker) == CUBEJOBS_LANES_PARK) cubejobs_park(parking, number);
        } else if (answer.code == CUBEJOBS_LANES_AGAIN) {
            sched_yield();
        } else {
            if (answer.code == CUBEJOBS_LANES_DONE) cubejobs_event_raise(&parking->room);
            return answer;
        }
    }
}

/* Closes all lanes as cubejobs_lanes_close does, and wakes all workers and all submits. */
static inline struct cubejobs_close_answer cubejobs_lanes_close_and_wake(struct cubejobs_lanes *owner,
                                                                         struct cubejobs_parking *parking) {
    struct cubejobs_close_answer answer = cubejobs_lanes_close(owner);
    cubejobs_unpark_all(parking);
    cubejobs_event_raise(&parking->room);
    return answer;
}

#ifdef __cplusplus
}
#endif

#endif
