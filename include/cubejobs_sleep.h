/* How a thread sleeps on a word, for C and C++. The headers whose threads sleep include this one.
 *
 * On Linux a thread sleeps by futex, elsewhere by a mutex and a condition variable (also if
 * CUBEJOBS_EVENT_CONDITION is defined). Deadlines are times of CLOCK_MONOTONIC.
 */
#ifndef CUBEJOBS_SLEEP_H
#define CUBEJOBS_SLEEP_H

#include <pthread.h>
#include <sched.h>
#include <stdint.h>
#include <time.h>

#include "cubejobs_codes.h"

#if defined(__linux__) && !defined(CUBEJOBS_EVENT_CONDITION)
#include <limits.h>
#include <linux/futex.h>
#include <sys/syscall.h>
#include <unistd.h>
#define CUBEJOBS_EVENT_FUTEX 1
#endif

#ifdef __cplusplus
extern "C" {
#endif

#ifdef CUBEJOBS_EVENT_FUTEX
#ifndef __cplusplus
long syscall(long number, ...); /* unistd.h has it, but not in strict C11 */
#endif
#elif defined(__GLIBC__) && (__GLIBC__ > 2 || __GLIBC_MINOR__ >= 30)
#define CUBEJOBS_EVENT_CLOCKWAIT 1
/* pthread.h has it, but not in strict C11. */
int pthread_cond_clockwait(pthread_cond_t *changed, pthread_mutex_t *lock, int clock, const struct timespec *end);
#endif

#ifdef CLOCK_MONOTONIC
#define CUBEJOBS_CLOCK CLOCK_MONOTONIC
#else
/* Strict C11 hides the clock of Linux. This is its function if a long has all of a time. */
#define CUBEJOBS_CLOCK 1
typedef char cubejobs_clock_needs_posix[sizeof(time_t) == sizeof(long) ? 1 : -1];
int clock_gettime(int clock, struct timespec *now);
#endif

/* Returns whether a time of CLOCK_MONOTONIC has passed. */
CUBEJOBS_INLINE int cubejobs_has_passed(const struct timespec *deadline) {
    struct timespec now;
    clock_gettime(CUBEJOBS_CLOCK, &now);
    return now.tv_sec > deadline->tv_sec || (now.tv_sec == deadline->tv_sec && now.tv_nsec >= deadline->tv_nsec);
}

#ifdef CUBEJOBS_EVENT_FUTEX
/* Sleeps once while the word has this value, or until a deadline if it is not null. It may return
 * without cause. It is no cancellation point. */
CUBEJOBS_INLINE void cubejobs_futex_sleep(uint32_t *word, uint32_t value, const struct timespec *deadline) {
#ifdef SYS_futex_time64
    long number = sizeof deadline->tv_sec > sizeof(long) ? SYS_futex_time64 : SYS_futex;
#else
    long number = SYS_futex;
#endif
    syscall(number, word, FUTEX_WAIT_BITSET_PRIVATE, value, deadline, 0, FUTEX_BITSET_MATCH_ANY);
}

/* Wakes at most this number of threads that sleep on the word. */
CUBEJOBS_INLINE void cubejobs_futex_wake(uint32_t *word, int threads) {
    syscall(SYS_futex, word, FUTEX_WAKE_PRIVATE, threads, 0, 0, 0);
}
#else
/* Sleeps once until a change, or until a deadline if it is not null. It may return without cause.
 * The thread has the lock, and is not cancelled here only if the caller has seen to that. */
CUBEJOBS_INLINE void cubejobs_condition_sleep(pthread_cond_t *changed, pthread_mutex_t *lock,
                                              const struct timespec *deadline) {
    if (!deadline) {
        pthread_cond_wait(changed, lock);
        return;
    }
#ifdef CUBEJOBS_EVENT_CLOCKWAIT
    pthread_cond_clockwait(changed, lock, CUBEJOBS_CLOCK, deadline);
#else
    {
        /* Without a wait by this clock, it looks at it each 10 ms. */
        struct timespec end;
        clock_gettime(CLOCK_REALTIME, &end);
        end.tv_nsec += 10000000;
        end.tv_sec += end.tv_nsec / 1000000000;
        end.tv_nsec %= 1000000000;
        pthread_cond_timedwait(changed, lock, &end);
    }
#endif
}
#endif

#ifdef __cplusplus
}
#endif

#endif
