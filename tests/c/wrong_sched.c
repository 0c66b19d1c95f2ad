/* A wrong library of the scheduler for threads: it is linked in front of the right one, with --wrap for each call with
 * try_, and for syscall. WRONG says what is wrong:
 *   1  a start is given to two workers
 *   2  a cancel loses the job
 *   3  a deadline is ignored
 *   4  a submit names no worker
 *   5  a job that starts at a deadline is lost
 *   6  a call never says that more workers may get a job
 *   7  a call never says that all is over
 *   8  each fifth wake by the system is lost
 *   9  a rest loses a job
 *   10 a block that is occupied is in service
 * With 0 nothing is wrong: another thread often has the turn, for longer than a call spins. */
#include "cubejobs_sched.h"

#include <stdarg.h>

typedef struct cubejobs_sched_answer answer;
typedef struct cubejobs_sched_forecast forecast_answer;
typedef struct cubejobs_sched_counts counts_answer;
typedef struct cubejobs_sched_request request;
#define HANDLE struct cubejobs_sched_handle *handle
#define DECLARED(type, name, words)                 \
    type __real_cubejobs_sched_try_##name words;    \
    type __wrap_cubejobs_sched_try_##name words;
DECLARED(answer, submit, (HANDLE, request asked, uint64_t now))
DECLARED(answer, cancel, (HANDLE, uint64_t ticket, uint64_t now))
DECLARED(answer, worker, (HANDLE))
DECLARED(answer, next, (HANDLE, uint32_t worker, uint64_t now))
DECLARED(answer, give_up, (HANDLE, uint32_t worker, uint64_t now))
DECLARED(answer, done, (HANDLE, uint32_t worker, uint64_t now))
DECLARED(answer, leave, (HANDLE, uint32_t worker, uint64_t now))
DECLARED(answer, lost, (HANDLE, uint32_t worker, uint64_t now))
DECLARED(answer, occupy, (HANDLE, uint64_t base, uint32_t dim, uint64_t now))
DECLARED(answer, vacate, (HANDLE, uint64_t base, uint32_t dim, uint64_t now))
DECLARED(answer, close, (HANDLE, uint32_t mode, uint64_t now))
DECLARED(answer, rest, (HANDLE, uint32_t after))
DECLARED(answer, settle, (HANDLE, uint64_t now))
DECLARED(forecast_answer, forecast, (HANDLE, uint64_t ticket))
DECLARED(counts_answer, counts, (HANDLE))
long __real_syscall(long number, ...);
long __wrap_syscall(long number, ...);

/* Returns whether another thread has the turn, as it is said to have for up to 110 tries. */
static int is_late(void) {
    static __thread uint32_t state = 1, left;
    if (WRONG != 0) return 0;
    if (left) return --left != 0;
    state = state * 1664525u + 1013904223u;
    if (state >> 28) return 0;
    left = 1 + (state >> 16) % 110;
    return 1;
}

static int is_each(uint32_t *calls, uint32_t number) {
    return __atomic_add_fetch(calls, 1, __ATOMIC_RELAXED) % number == 0;
}

/* Returns the answer with what all answers of this library are wrong about. */
static answer marred(answer it) {
    if (WRONG == 6) it.more = 0;
    if (WRONG == 7) it.over = 0;
    return it;
}

static const answer not_now = {CUBEJOBS_SCHED_NOT_NOW, 0, {0, 0, 0, 0}, 0, 0, 0, 0, 0, 0, 0};
#define CALL(name, words) (is_late() ? not_now : marred(__real_cubejobs_sched_try_##name words))

answer __wrap_cubejobs_sched_try_submit(HANDLE, request asked, uint64_t now) {
    static uint32_t calls;
    answer it = CALL(submit, (handle, asked, now));
    if (WRONG == 4 && it.count && is_each(&calls, 3)) it.count = 0;
    return it;
}

answer __wrap_cubejobs_sched_try_cancel(HANDLE, uint64_t ticket, uint64_t now) {
    answer it = CALL(cancel, (handle, ticket, now));
    if (WRONG == 2 && it.code == CUBEJOBS_SCHED_DONE)
        it.code = CUBEJOBS_SCHED_WRONG_STATE, it.ticket = it.payload = 0;
    return it;
}

answer __wrap_cubejobs_sched_try_worker(HANDLE) { return CALL(worker, (handle)); }

/* A start that is given again, if there is one. */
static answer again;
static uint32_t is_kept;

answer __wrap_cubejobs_sched_try_next(HANDLE, uint32_t worker, uint64_t now) {
    static uint32_t calls;
    const answer it = CALL(next, (handle, worker, now));
    if (WRONG == 1 && it.code == CUBEJOBS_SCHED_DONE && is_each(&calls, 20)) {
        again = it;
        again.count = again.more = 0;
        __atomic_store_n(&is_kept, 1, __ATOMIC_SEQ_CST);
    } else if (WRONG == 1 && it.code == CUBEJOBS_SCHED_NO_JOB && __atomic_exchange_n(&is_kept, 0, __ATOMIC_SEQ_CST)) {
        return again;
    }
    return it;
}

answer __wrap_cubejobs_sched_try_give_up(HANDLE, uint32_t worker, uint64_t now) {
    answer it = CALL(give_up, (handle, worker, now));
    if (WRONG == 5 && it.code == CUBEJOBS_SCHED_DONE) {
        __real_cubejobs_sched_try_done(handle, worker, now);
        it = not_now;
        it.code = CUBEJOBS_SCHED_NO_JOB;
    }
    return it;
}

answer __wrap_cubejobs_sched_try_done(HANDLE, uint32_t worker, uint64_t now) {
    return CALL(done, (handle, worker, now));
}

answer __wrap_cubejobs_sched_try_leave(HANDLE, uint32_t worker, uint64_t now) {
    return CALL(leave, (handle, worker, now));
}

answer __wrap_cubejobs_sched_try_lost(HANDLE, uint32_t worker, uint64_t now) {
    return CALL(lost, (handle, worker, now));
}

answer __wrap_cubejobs_sched_try_occupy(HANDLE, uint64_t base, uint32_t dim, uint64_t now) {
    answer it = CALL(occupy, (handle, base, dim, now));
    if (WRONG == 10 && it.code == CUBEJOBS_SCHED_DONE) it = __real_cubejobs_sched_try_vacate(handle, base, dim, now);
    return it;
}

answer __wrap_cubejobs_sched_try_vacate(HANDLE, uint64_t base, uint32_t dim, uint64_t now) {
    return CALL(vacate, (handle, base, dim, now));
}

answer __wrap_cubejobs_sched_try_close(HANDLE, uint32_t mode, uint64_t now) {
    return CALL(close, (handle, mode, now));
}

answer __wrap_cubejobs_sched_try_rest(HANDLE, uint32_t after) {
    static uint32_t calls;
    answer it = CALL(rest, (handle, after));
    if (WRONG == 9 && it.code == CUBEJOBS_SCHED_DONE && is_each(&calls, 3))
        it = __real_cubejobs_sched_try_rest(handle, after);
    return it;
}

answer __wrap_cubejobs_sched_try_settle(HANDLE, uint64_t now) { return CALL(settle, (handle, now)); }

forecast_answer __wrap_cubejobs_sched_try_forecast(HANDLE, uint64_t ticket) {
    static const forecast_answer late = {CUBEJOBS_SCHED_NOT_NOW, 0, 0, 0, 0, 0};
    return is_late() ? late : __real_cubejobs_sched_try_forecast(handle, ticket);
}

counts_answer __wrap_cubejobs_sched_try_counts(HANDLE) {
    static const counts_answer late = {CUBEJOBS_SCHED_NOT_NOW, 0, 0, 0, 0, 0, 0};
    return is_late() ? late : __real_cubejobs_sched_try_counts(handle);
}

/* Passes a call of the system on. */
long __wrap_syscall(long number, ...) {
    static uint32_t calls;
    long words[6];
    va_list list;
    int i;
    va_start(list, number);
    for (i = 0; i < 6; i++) words[i] = va_arg(list, long);
    va_end(list);
#ifdef CUBEJOBS_EVENT_FUTEX
    if (WRONG == 3 && number == SYS_futex && (int)words[1] == FUTEX_WAIT_BITSET_PRIVATE) words[3] = 0;
    if (WRONG == 8 && number == SYS_futex && (int)words[1] == FUTEX_WAKE_PRIVATE && is_each(&calls, 5)) return 0;
#endif
    return __real_syscall(number, words[0], words[1], words[2], words[3], words[4], words[5]);
}
