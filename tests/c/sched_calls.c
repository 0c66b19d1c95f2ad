/* Calls the scheduler for threads from C. `sched_calls one` makes calls whose answers are worked out by hand, by one
 * thread or by few. `sched_calls crowd SEED SUBMITTERS WORKERS JOBS` lets threads submit and cancel jobs. Workers run
 * them, give up, get lost and come back. Each job must have one outcome, and no processor two jobs. */
#define _POSIX_C_SOURCE 200809L
#include "sched_kit.h"

#define MOST_JOBS (1 << 24)
#define MOST_THREADS 128
#define DIM 6

static struct cubejobs_sched sched;

/* ---- the calls of the library, by one thread */

static void shut_handles(void) {
    struct cubejobs_sched_handle shut = {0, 0}, other = {0, 0};
    const struct cubejobs_sched_request request = request_of(1, 1);
    must(cubejobs_sched_try_submit(&shut, request, 0).code == CUBEJOBS_SCHED_NOT_OPEN);
    must(cubejobs_sched_try_cancel(&shut, 1, 0).code == CUBEJOBS_SCHED_NOT_OPEN);
    must(cubejobs_sched_try_worker(&shut).code == CUBEJOBS_SCHED_NOT_OPEN);
    must(cubejobs_sched_try_next(&shut, 0, 0).code == CUBEJOBS_SCHED_NOT_OPEN);
    must(cubejobs_sched_try_give_up(&shut, 0, 0).code == CUBEJOBS_SCHED_NOT_OPEN);
    must(cubejobs_sched_try_done(&shut, 0, 0).code == CUBEJOBS_SCHED_NOT_OPEN);
    must(cubejobs_sched_try_leave(&shut, 0, 0).code == CUBEJOBS_SCHED_NOT_OPEN);
    must(cubejobs_sched_try_lost(&shut, 0, 0).code == CUBEJOBS_SCHED_NOT_OPEN);
    must(cubejobs_sched_try_occupy(&shut, 0, 0, 0).code == CUBEJOBS_SCHED_NOT_OPEN);
    must(cubejobs_sched_try_vacate(&shut, 0, 0, 0).code == CUBEJOBS_SCHED_NOT_OPEN);
    must(cubejobs_sched_try_close(&shut, 0, 0).code == CUBEJOBS_SCHED_NOT_OPEN);
    must(cubejobs_sched_try_rest(&shut, 0).code == CUBEJOBS_SCHED_NOT_OPEN);
    must(cubejobs_sched_try_settle(&shut, 0).code == CUBEJOBS_SCHED_NOT_OPEN);
    must(cubejobs_sched_try_forecast(&shut, 1).code == CUBEJOBS_SCHED_NOT_OPEN);
    must(cubejobs_sched_try_counts(&shut).code == CUBEJOBS_SCHED_NOT_OPEN);
    must(cubejobs_sched_share(&shut, &other) == CUBEJOBS_SCHED_NOT_OPEN);
    must(cubejobs_sched_try_free(&shut) == CUBEJOBS_SCHED_NOT_OPEN);
}

/* A time that is not known is out of range, whatever else is wrong. */
static void times_out_of_range(struct cubejobs_sched_handle *handle) {
    must(cubejobs_sched_try_submit(handle, request_of(1, 1), NEVER).code == CUBEJOBS_SCHED_OUT_OF_RANGE);
    must(cubejobs_sched_try_cancel(handle, 1, NEVER).code == CUBEJOBS_SCHED_OUT_OF_RANGE);
    must(cubejobs_sched_try_next(handle, 7, NEVER).code == CUBEJOBS_SCHED_OUT_OF_RANGE);
    must(cubejobs_sched_try_give_up(handle, 7, NEVER).code == CUBEJOBS_SCHED_OUT_OF_RANGE);
    must(cubejobs_sched_try_done(handle, 7, NEVER).code == CUBEJOBS_SCHED_OUT_OF_RANGE);
    must(cubejobs_sched_try_leave(handle, 7, NEVER).code == CUBEJOBS_SCHED_OUT_OF_RANGE);
    must(cubejobs_sched_try_lost(handle, 7, NEVER).code == CUBEJOBS_SCHED_OUT_OF_RANGE);
    must(cubejobs_sched_try_occupy(handle, 0, 0, NEVER).code == CUBEJOBS_SCHED_OUT_OF_RANGE);
    must(cubejobs_sched_try_vacate(handle, 0, 0, NEVER).code == CUBEJOBS_SCHED_OUT_OF_RANGE);
    must(cubejobs_sched_try_close(handle, 0, NEVER).code == CUBEJOBS_SCHED_OUT_OF_RANGE);
    must(cubejobs_sched_try_settle(handle, NEVER).code == CUBEJOBS_SCHED_OUT_OF_RANGE);
}

/* Both workers of a machine of eight processors wait. A job of all starts on worker 0, and the next one on worker 1,
 * which gives up and gets it. */
static void starts_by_the_library(struct cubejobs_sched_handle *handle) {
    struct cubejobs_sched_answer first, second, start;
    must(cubejobs_sched_try_next(handle, 0, 0).code == CUBEJOBS_SCHED_WRONG_STATE);
    must(cubejobs_sched_try_next(handle, 7, 0).code == CUBEJOBS_SCHED_WRONG_STATE);
    start = cubejobs_sched_try_worker(handle);
    must(start.code == CUBEJOBS_SCHED_DONE && start.worker == 0);
    start = cubejobs_sched_try_worker(handle);
    must(start.code == CUBEJOBS_SCHED_DONE && start.worker == 1);
    must(cubejobs_sched_try_worker(handle).code == CUBEJOBS_SCHED_FULL);
    must(cubejobs_sched_try_next(handle, 0, 1).code == CUBEJOBS_SCHED_NO_JOB);
    must(cubejobs_sched_try_next(handle, 1, 1).code == CUBEJOBS_SCHED_NO_JOB);
    first = cubejobs_sched_try_submit(handle, request_of(10, 8), 2);
    must(first.code == CUBEJOBS_SCHED_DONE && first.count == 1 && first.woken[0] == 0 && !first.more && !first.over);
    second = cubejobs_sched_try_submit(handle, request_of(20, 2), 3);
    must(second.code == CUBEJOBS_SCHED_DONE && second.count == 0 && second.ticket && second.ticket != first.ticket);
    must(cubejobs_sched_try_cancel(handle, first.ticket, 3).code == CUBEJOBS_SCHED_WRONG_STATE);
    must(cubejobs_sched_try_cancel(handle, 0, 3).code == CUBEJOBS_SCHED_NO_JOB);
    must(cubejobs_sched_try_done(handle, 0, 3).code == CUBEJOBS_SCHED_WRONG_STATE);
    must(cubejobs_sched_try_leave(handle, 0, 3).code == CUBEJOBS_SCHED_WRONG_STATE);
    start = cubejobs_sched_try_next(handle, 0, 3);
    must(start.code == CUBEJOBS_SCHED_DONE && start.ticket == first.ticket && start.payload == 10 && start.count == 0);
    must(start.base == 0 && start.processors == 8);
    start = cubejobs_sched_try_done(handle, 0, 4);
    must(start.code == CUBEJOBS_SCHED_DONE && start.count == 1 && start.woken[0] == 1);
    start = cubejobs_sched_try_give_up(handle, 1, 5);
    must(start.code == CUBEJOBS_SCHED_DONE && start.ticket == second.ticket && start.payload == 20);
    must(start.processors == 2);
    must(cubejobs_sched_try_give_up(handle, 1, 5).code == CUBEJOBS_SCHED_WRONG_STATE);
    must(cubejobs_sched_try_next(handle, 0, 5).code == CUBEJOBS_SCHED_NO_JOB);
    must(cubejobs_sched_try_give_up(handle, 0, 5).code == CUBEJOBS_SCHED_NO_JOB);
    must(cubejobs_sched_try_give_up(handle, 0, 5).code == CUBEJOBS_SCHED_WRONG_STATE);
}

/* Four places: one job runs, three wait, and the next finds none. Then the scheduler ends. */
static void ends_by_the_library(struct cubejobs_sched_handle *handle, struct cubejobs_sched_handle *other) {
    struct cubejobs_sched_answer rest;
    uint32_t from = 0, number;
    for (number = 30; number < 33; number++)
        must(cubejobs_sched_try_submit(handle, request_of(number, 8), 6).code == CUBEJOBS_SCHED_DONE);
    must(cubejobs_sched_try_submit(handle, request_of(40, 1), 6).code == CUBEJOBS_SCHED_FULL);
    must(cubejobs_sched_try_rest(handle, 0).code == CUBEJOBS_SCHED_WRONG_STATE);
    must(cubejobs_sched_try_close(other, 1, 6).code == CUBEJOBS_SCHED_DONE);
    for (number = 0; number < 3; number++) {
        rest = cubejobs_sched_try_rest(handle, from);
        must(rest.code == CUBEJOBS_SCHED_DONE && rest.payload >= 30 && rest.payload < 33 && rest.worker >= from);
        from = rest.worker + 1;
    }
    must(cubejobs_sched_try_rest(handle, 0).code == CUBEJOBS_SCHED_NO_JOB);
    must(cubejobs_sched_try_next(handle, 0, 7).code == CUBEJOBS_SCHED_CLOSED);
    must(cubejobs_sched_try_lost(handle, 1, 7).code == CUBEJOBS_SCHED_DONE);
    must(cubejobs_sched_try_lost(handle, 1, 7).code == CUBEJOBS_SCHED_WRONG_STATE);
    must(cubejobs_sched_try_free(other) == CUBEJOBS_SCHED_DONE);
    must(cubejobs_sched_try_free(other) == CUBEJOBS_SCHED_NOT_OPEN);
    must(cubejobs_sched_try_free(handle) == CUBEJOBS_SCHED_IN_USE);
    must(cubejobs_sched_try_leave(handle, 0, 7).code == CUBEJOBS_SCHED_DONE);
    must(cubejobs_sched_try_free(handle) == CUBEJOBS_SCHED_DONE);
    must(cubejobs_sched_try_free(handle) == CUBEJOBS_SCHED_NOT_OPEN);
}

/* One turn names four workers at most. */
static void more_than_four(void) {
    const struct cubejobs_sched_options options = {3, 6, 4, 6};
    struct cubejobs_sched_handle handle = {0, 0};
    struct cubejobs_sched_answer answer;
    uint32_t i;
    must(cubejobs_sched_open_version(&handle, 1, options) == CUBEJOBS_SCHED_DONE);
    must(cubejobs_sched_try_occupy(&handle, 0, 3, 1).code == CUBEJOBS_SCHED_DONE);
    for (i = 0; i < 6; i++) {
        must(cubejobs_sched_try_worker(&handle).worker == i);
        must(cubejobs_sched_try_next(&handle, i, 1).code == CUBEJOBS_SCHED_NO_JOB);
        must(cubejobs_sched_try_submit(&handle, request_of(i, 1), 1).code == CUBEJOBS_SCHED_DONE);
    }
    answer = cubejobs_sched_try_vacate(&handle, 0, 3, 1);
    must(answer.code == CUBEJOBS_SCHED_DONE && answer.count == 4 && answer.more == 1 && answer.over == 0);
    for (i = 0; i < 4; i++) must(answer.woken[i] == i);
    answer = cubejobs_sched_try_settle(&handle, 1);
    must(answer.code == CUBEJOBS_SCHED_DONE && answer.count == 2 && answer.more == 0 && answer.over == 0);
    must(answer.woken[0] == 4 && answer.woken[1] == 5);
    must(cubejobs_sched_try_close(&handle, 0, 1).over == 0);
    for (i = 0; i < 6; i++) {
        answer = cubejobs_sched_try_lost(&handle, i, 1);
        must(answer.code == CUBEJOBS_SCHED_DONE && answer.over == (i == 5));
    }
    must(cubejobs_sched_try_free(&handle) == CUBEJOBS_SCHED_DONE);
}

static void calls_of_the_library(void) {
    const struct cubejobs_sched_options good = {3, 4, 4, 2}, wide = {21, 4, 4, 2};
    struct cubejobs_sched_handle handle = {0, 0}, other = {0, 0};
    must(cubejobs_sched_open_version(&handle, 2, wide) == CUBEJOBS_SCHED_BAD_VERSION);
    must(cubejobs_sched_open_version(&handle, 1, wide) == CUBEJOBS_SCHED_OUT_OF_RANGE);
    must(cubejobs_sched_open_version(&handle, 1, good) == CUBEJOBS_SCHED_DONE);
    must(cubejobs_sched_open_version(&handle, 2, wide) == CUBEJOBS_SCHED_BAD_VERSION);
    must(cubejobs_sched_open_version(&handle, 1, wide) == CUBEJOBS_SCHED_ALREADY_OPEN);
    must(cubejobs_sched_share(&handle, &other) == CUBEJOBS_SCHED_DONE);
    must(cubejobs_sched_share(&handle, &other) == CUBEJOBS_SCHED_ALREADY_OPEN);
    times_out_of_range(&handle);
    starts_by_the_library(&handle);
    ends_by_the_library(&handle, &other);
}

/* ---- the calls of the header, by one thread */

static void opens(uint32_t dim, uint32_t jobs, uint32_t workers) {
    const struct cubejobs_sched_options options = {dim, jobs, 4, workers};
    must(cubejobs_sched_open(&sched, options) == CUBEJOBS_SCHED_DONE);
}

static uint64_t submits(uint64_t payload, uint32_t processors) {
    const struct cubejobs_sched_job job = cubejobs_sched_submit(&sched, request_of(payload, processors), 0);
    must(job.code == CUBEJOBS_SCHED_DONE && job.ticket && !job.payload && !job.base && !job.processors);
    return job.ticket;
}

static struct cubejobs_sched_worker a_worker(uint32_t number) {
    struct cubejobs_sched_worker worker;
    must(cubejobs_sched_worker(&sched, &worker) == CUBEJOBS_SCHED_DONE && worker.number == number);
    return worker;
}

static void must_be(struct cubejobs_sched_job job, enum cubejobs_sched_code code) {
    must(job.code == code && !job.ticket && !job.payload && !job.base && !job.processors);
}

static void must_start(struct cubejobs_sched_worker *worker, uint64_t ticket, uint64_t payload, uint64_t base,
                       uint32_t processors) {
    const struct cubejobs_sched_job job = cubejobs_sched_next(worker, 0);
    must(job.code == CUBEJOBS_SCHED_DONE && job.ticket == ticket && job.payload == payload);
    must(job.base == base && job.processors == processors);
}

static void must_have(uint64_t waiting, uint64_t running, uint64_t asked, uint32_t held, uint32_t occupied) {
    const struct cubejobs_sched_counts counts = cubejobs_sched_counts(&sched);
    must(counts.code == CUBEJOBS_SCHED_DONE && counts.waiting == waiting && counts.running == running);
    must(counts.asked == asked && counts.held == held && counts.occupied == occupied && counts.unused == 0);
}

static void a_shut_scheduler(void) {
    struct cubejobs_sched_worker worker = {0, 0, 0, 0};
    must_be(cubejobs_sched_submit(&sched, request_of(1, 0), 0), CUBEJOBS_SCHED_NOT_OPEN);
    must_be(cubejobs_sched_submit(&sched, request_of(1, 1), NEVER), CUBEJOBS_SCHED_NOT_OPEN);
    must_be(cubejobs_sched_cancel(&sched, 1), CUBEJOBS_SCHED_NOT_OPEN);
    must(cubejobs_sched_forecast(&sched, 1).code == CUBEJOBS_SCHED_NOT_OPEN);
    must(cubejobs_sched_counts(&sched).code == CUBEJOBS_SCHED_NOT_OPEN);
    must(cubejobs_sched_occupy(&sched, 0, 0) == CUBEJOBS_SCHED_NOT_OPEN);
    must(cubejobs_sched_vacate(&sched, 0, 0) == CUBEJOBS_SCHED_NOT_OPEN);
    must(cubejobs_sched_worker(&sched, &worker) == CUBEJOBS_SCHED_NOT_OPEN);
    must_be(cubejobs_sched_next(&worker, NEVER), CUBEJOBS_SCHED_NOT_OPEN);
    must(cubejobs_sched_done(&worker) == CUBEJOBS_SCHED_NOT_OPEN);
    must(cubejobs_sched_leave(&worker) == CUBEJOBS_SCHED_NOT_OPEN);
    must(cubejobs_sched_lost(&sched, 0) == CUBEJOBS_SCHED_NOT_OPEN);
    must(cubejobs_sched_close(&sched, 2) == CUBEJOBS_SCHED_NOT_OPEN);
    must_be(cubejobs_sched_rest(&sched), CUBEJOBS_SCHED_NOT_OPEN);
    must(cubejobs_sched_free(&sched) == CUBEJOBS_SCHED_NOT_OPEN);
}

static void options_out_of_range(void) {
    const struct cubejobs_sched_options wrong[] = {{21, 4, 4, 2}, {3, 0, 4, 2}, {3, CUBEJOBS_SCHED_MAX_JOBS + 1, 4, 2},
                                                   {3, 4, 4, 0}, {3, 4, 4, CUBEJOBS_SCHED_MAX_WORKERS + 1}};
    unsigned i;
    for (i = 0; i < sizeof wrong / sizeof *wrong; i++)
        must(cubejobs_sched_open(&sched, wrong[i]) == CUBEJOBS_SCHED_OUT_OF_RANGE);
    opens(20, 1, CUBEJOBS_SCHED_MAX_WORKERS);
    must(cubejobs_sched_open(&sched, wrong[0]) == CUBEJOBS_SCHED_ALREADY_OPEN);
    must(cubejobs_sched_free(&sched) == CUBEJOBS_SCHED_DONE);
    opens(0, 1, 1);
    must(cubejobs_sched_free(&sched) == CUBEJOBS_SCHED_DONE);
}

/* Eight processors, three places, and two workers. The job of five has a block of eight, so the one of two waits. */
static void jobs_by_hand(void) {
    struct cubejobs_sched_worker one, two, none;
    struct cubejobs_sched_forecast forecast;
    struct cubejobs_sched_job job;
    uint64_t wide, small;
    opens(3, 3, 2);
    one = a_worker(0), two = a_worker(1);
    must(cubejobs_sched_worker(&sched, &none) == CUBEJOBS_SCHED_FULL);
    must_be(cubejobs_sched_next(&none, 0), CUBEJOBS_SCHED_NOT_OPEN);
    must_be(cubejobs_sched_next(&one, 0), CUBEJOBS_SCHED_NO_JOB);
    must(cubejobs_sched_done(&one) == CUBEJOBS_SCHED_WRONG_STATE);
    must_be(cubejobs_sched_submit(&sched, request_of(1, 9), 0), CUBEJOBS_SCHED_OUT_OF_RANGE);
    must_be(cubejobs_sched_submit(&sched, request_of(1, 0), NEVER), CUBEJOBS_SCHED_OUT_OF_RANGE);
    wide = submits(10, 5), small = submits(20, 2);
    must_have(2, 0, 0, 0, 0);
    must(cubejobs_sched_forecast(&sched, wide).state == CUBEJOBS_SCHED_WAITS);
    must_start(&one, wide, 10, 0, 5);
    must_have(1, 1, 5, 8, 0);
    forecast = cubejobs_sched_forecast(&sched, wide);
    must(forecast.code == CUBEJOBS_SCHED_DONE && forecast.state == CUBEJOBS_SCHED_RUNS && forecast.base == 0);
    must(forecast.dim == 3 && forecast.time == NEVER && forecast.unused == 0);
    must_be(cubejobs_sched_next(&two, 0), CUBEJOBS_SCHED_NO_JOB);
    must_be(cubejobs_sched_cancel(&sched, wide), CUBEJOBS_SCHED_WRONG_STATE);
    must_be(cubejobs_sched_cancel(&sched, 0), CUBEJOBS_SCHED_NO_JOB);
    must(cubejobs_sched_done(&one) == CUBEJOBS_SCHED_DONE);
    must(cubejobs_sched_done(&one) == CUBEJOBS_SCHED_WRONG_STATE);
    must(cubejobs_sched_forecast(&sched, wide).code == CUBEJOBS_SCHED_NO_JOB);
    must_be(cubejobs_sched_cancel(&sched, wide), CUBEJOBS_SCHED_NO_JOB);
    must_start(&two, small, 20, 0, 2);
    small = submits(30, 1);
    job = cubejobs_sched_cancel(&sched, small);
    must(job.code == CUBEJOBS_SCHED_DONE && job.ticket == small && job.payload == 30 && !job.base && !job.processors);
    must_be(cubejobs_sched_next(&two, 0), CUBEJOBS_SCHED_NO_JOB);
    must_have(0, 0, 0, 0, 0);
    must(cubejobs_sched_leave(&one) == CUBEJOBS_SCHED_DONE && cubejobs_sched_leave(&two) == CUBEJOBS_SCHED_DONE);
    must(cubejobs_sched_leave(&one) == CUBEJOBS_SCHED_NOT_OPEN);
    must(cubejobs_sched_free(&sched) == CUBEJOBS_SCHED_DONE);
}

/* The job of eight is the first that cannot start, and is promised the end of the job that runs. A job that ends before
 * passes it. */
static void a_reservation(void) {
    struct cubejobs_sched_request request = request_of(1, 4);
    struct cubejobs_sched_worker one, two;
    struct cubejobs_sched_forecast forecast;
    struct cubejobs_sched_job wide;
    uint64_t first, before = cubejobs_sched_now(), after, hour = UINT64_C(3600000000000);
    opens(3, 4, 2);
    one = a_worker(0), two = a_worker(1);
    request.estimate = hour;
    first = cubejobs_sched_submit(&sched, request, 0).ticket;
    must_start(&one, first, 1, 0, 4);
    after = cubejobs_sched_now();
    request = request_of(2, 8);
    wide = cubejobs_sched_submit(&sched, request, 0);
    must_be(cubejobs_sched_next(&two, 0), CUBEJOBS_SCHED_NO_JOB);
    forecast = cubejobs_sched_forecast(&sched, wide.ticket);
    must(forecast.code == CUBEJOBS_SCHED_DONE && forecast.state == CUBEJOBS_SCHED_RESERVED);
    must(forecast.base == 0 && forecast.dim == 3 && forecast.time >= before + hour && forecast.time <= after + hour);
    request = request_of(3, 4);
    request.estimate = 2 * hour;
    must(cubejobs_sched_submit(&sched, request, 0).code == CUBEJOBS_SCHED_DONE);
    must_be(cubejobs_sched_next(&two, 0), CUBEJOBS_SCHED_NO_JOB);
    request = request_of(4, 2);
    request.estimate = hour / 2;
    must_start(&two, cubejobs_sched_submit(&sched, request, 0).ticket, 4, 4, 2);
    must(cubejobs_sched_leave(&two) == CUBEJOBS_SCHED_DONE);
    must_start(&one, wide.ticket, 2, 0, 8);
    must(cubejobs_sched_lost(&sched, 0) == CUBEJOBS_SCHED_DONE);
    must(cubejobs_sched_lost(&sched, 0) == CUBEJOBS_SCHED_WRONG_STATE);
    must(cubejobs_sched_lost(&sched, 9) == CUBEJOBS_SCHED_WRONG_STATE);
    must_be(cubejobs_sched_next(&one, NEVER), CUBEJOBS_SCHED_WRONG_STATE);
    must(cubejobs_sched_done(&one) == CUBEJOBS_SCHED_WRONG_STATE);
    must(cubejobs_sched_leave(&one) == CUBEJOBS_SCHED_WRONG_STATE);
    must_have(1, 0, 0, 0, 0);
    must(cubejobs_sched_free(&sched) == CUBEJOBS_SCHED_IN_USE);
    must(cubejobs_sched_close(&sched, 1) == CUBEJOBS_SCHED_DONE && cubejobs_sched_rest(&sched).payload == 3);
    must(cubejobs_sched_free(&sched) == CUBEJOBS_SCHED_DONE);
}

/* Deadlines of calls that get nothing. A deadline that has passed is one. */
static void deadlines(void) {
    struct cubejobs_sched_worker one;
    uint64_t end;
    opens(3, 1, 1);
    one = a_worker(0);
    must_be(cubejobs_sched_next(&one, 0), CUBEJOBS_SCHED_NO_JOB);
    must_be(cubejobs_sched_next(&one, 1), CUBEJOBS_SCHED_TIMED_OUT);
    end = cubejobs_sched_now() + 5 * MILLISECOND;
    must_be(cubejobs_sched_next(&one, end), CUBEJOBS_SCHED_TIMED_OUT);
    must(cubejobs_sched_now() >= end);
    submits(1, 1);
    must_be(cubejobs_sched_submit(&sched, request_of(2, 0), 0), CUBEJOBS_SCHED_OUT_OF_RANGE);
    must_be(cubejobs_sched_submit(&sched, request_of(2, 1), 0), CUBEJOBS_SCHED_FULL);
    must_be(cubejobs_sched_submit(&sched, request_of(2, 1), 1), CUBEJOBS_SCHED_TIMED_OUT);
    end = cubejobs_sched_now() + 5 * MILLISECOND;
    must_be(cubejobs_sched_submit(&sched, request_of(2, 1), end), CUBEJOBS_SCHED_TIMED_OUT);
    must(cubejobs_sched_now() >= end);
    must(cubejobs_sched_next(&one, 1).payload == 1);
    must(cubejobs_sched_leave(&one) == CUBEJOBS_SCHED_DONE);
    must_have(0, 0, 0, 0, 0);
    must(cubejobs_sched_free(&sched) == CUBEJOBS_SCHED_DONE);
}

/* Blocks of four processors. */
static void blocks(void) {
    struct cubejobs_sched_worker one;
    uint64_t ticket;
    opens(2, 4, 1);
    one = a_worker(0);
    must(cubejobs_sched_occupy(&sched, 1, 1) == CUBEJOBS_SCHED_OUT_OF_RANGE);
    must(cubejobs_sched_occupy(&sched, 4, 0) == CUBEJOBS_SCHED_OUT_OF_RANGE);
    must(cubejobs_sched_occupy(&sched, 0, 3) == CUBEJOBS_SCHED_OUT_OF_RANGE);
    must(cubejobs_sched_vacate(&sched, 1, 1) == CUBEJOBS_SCHED_OUT_OF_RANGE);
    must(cubejobs_sched_vacate(&sched, 0, 1) == CUBEJOBS_SCHED_WRONG_STATE);
    must(cubejobs_sched_occupy(&sched, 0, 1) == CUBEJOBS_SCHED_DONE);
    must(cubejobs_sched_occupy(&sched, 0, 0) == CUBEJOBS_SCHED_WRONG_STATE);
    must(cubejobs_sched_occupy(&sched, 0, 2) == CUBEJOBS_SCHED_WRONG_STATE);
    must(cubejobs_sched_vacate(&sched, 0, 0) == CUBEJOBS_SCHED_WRONG_STATE);
    must_have(0, 0, 0, 0, 2);
    ticket = submits(1, 1);
    must_start(&one, ticket, 1, 2, 1);
    must(cubejobs_sched_occupy(&sched, 2, 0) == CUBEJOBS_SCHED_WRONG_STATE);
    must(cubejobs_sched_occupy(&sched, 3, 0) == CUBEJOBS_SCHED_DONE);
    must(cubejobs_sched_vacate(&sched, 0, 1) == CUBEJOBS_SCHED_DONE);
    must(cubejobs_sched_vacate(&sched, 3, 0) == CUBEJOBS_SCHED_DONE);
    must(cubejobs_sched_leave(&one) == CUBEJOBS_SCHED_DONE);
    must(cubejobs_sched_free(&sched) == CUBEJOBS_SCHED_DONE);
}

/* Mode 1 gives the jobs that wait back, and the job that runs goes on. */
static void a_close_that_stops(void) {
    struct cubejobs_sched_worker one;
    unsigned seen = 0, i;
    opens(3, 4, 1);
    one = a_worker(0);
    must_start(&one, submits(0, 8), 0, 0, 8);
    for (i = 1; i < 4; i++) submits(i, 1);
    must_be(cubejobs_sched_rest(&sched), CUBEJOBS_SCHED_WRONG_STATE);
    must(cubejobs_sched_close(&sched, 2) == CUBEJOBS_SCHED_OUT_OF_RANGE);
    must(cubejobs_sched_close(&sched, 1) == CUBEJOBS_SCHED_DONE);
    must(cubejobs_sched_close(&sched, 2) == CUBEJOBS_SCHED_OUT_OF_RANGE);
    must(cubejobs_sched_close(&sched, 0) == CUBEJOBS_SCHED_CLOSED);
    must_be(cubejobs_sched_submit(&sched, request_of(9, 9), NEVER), CUBEJOBS_SCHED_OUT_OF_RANGE);
    must_be(cubejobs_sched_submit(&sched, request_of(9, 1), NEVER), CUBEJOBS_SCHED_CLOSED);
    must_have(3, 1, 8, 8, 0);
    must_be(cubejobs_sched_next(&one, NEVER), CUBEJOBS_SCHED_CLOSED);
    must_have(3, 0, 0, 0, 0);
    must(cubejobs_sched_done(&one) == CUBEJOBS_SCHED_WRONG_STATE);
    must_be(cubejobs_sched_next(&one, 0), CUBEJOBS_SCHED_CLOSED);
    must(cubejobs_sched_leave(&one) == CUBEJOBS_SCHED_DONE);
    must(cubejobs_sched_free(&sched) == CUBEJOBS_SCHED_IN_USE);
    for (i = 1; i < 4; i++) {
        const struct cubejobs_sched_job rest = cubejobs_sched_rest(&sched);
        must(rest.code == CUBEJOBS_SCHED_DONE && rest.ticket && rest.payload < 4 && !rest.base && !rest.processors);
        seen |= 1u << rest.payload;
    }
    must(seen == 14);
    must_be(cubejobs_sched_rest(&sched), CUBEJOBS_SCHED_NO_JOB);
    must(cubejobs_sched_free(&sched) == CUBEJOBS_SCHED_DONE);
}

/* Mode 0 runs the jobs that wait. One has no block in service: it starts only once the block is back, and a worker that
 * was sent away does not get it meanwhile. */
static void a_close_that_runs(void) {
    struct cubejobs_sched_worker one;
    uint64_t wide, small;
    opens(1, 4, 1);
    one = a_worker(0);
    wide = submits(1, 2), small = submits(2, 1);
    must(cubejobs_sched_occupy(&sched, 1, 0) == CUBEJOBS_SCHED_DONE);
    must(cubejobs_sched_close(&sched, 0) == CUBEJOBS_SCHED_DONE);
    must_start(&one, small, 2, 0, 1);
    must_be(cubejobs_sched_next(&one, NEVER), CUBEJOBS_SCHED_CLOSED);
    must(cubejobs_sched_vacate(&sched, 1, 0) == CUBEJOBS_SCHED_DONE);
    must_have(1, 0, 0, 0, 0);
    must_start(&one, wide, 1, 0, 2);
    must_be(cubejobs_sched_next(&one, NEVER), CUBEJOBS_SCHED_CLOSED);
    must(cubejobs_sched_leave(&one) == CUBEJOBS_SCHED_DONE);
    must_be(cubejobs_sched_rest(&sched), CUBEJOBS_SCHED_NO_JOB);
    must(cubejobs_sched_free(&sched) == CUBEJOBS_SCHED_DONE);
}

/* A free that is refused leaves each door open. */
static void refused_frees(void) {
    struct cubejobs_sched_worker one;
    unsigned i;
    opens(2, 2, 1);
    submits(1, 1);
    must(cubejobs_sched_free(&sched) == CUBEJOBS_SCHED_IN_USE && sched.open_doors == CUBEJOBS_SCHED_DOORS);
    one = a_worker(0);
    must(cubejobs_sched_next(&one, 0).payload == 1);
    must(cubejobs_sched_free(&sched) == CUBEJOBS_SCHED_IN_USE);
    must_be(cubejobs_sched_next(&one, 0), CUBEJOBS_SCHED_NO_JOB);
    must(cubejobs_sched_free(&sched) == CUBEJOBS_SCHED_IN_USE);
    must(cubejobs_sched_leave(&one) == CUBEJOBS_SCHED_DONE);
    for (i = 0; i < CUBEJOBS_SCHED_DOORS; i++) {
        must(cubejobs_sched_take_door(&sched.doors[i]));
        must(cubejobs_sched_free(&sched) == CUBEJOBS_SCHED_IN_USE);
        cubejobs_sched_leave_door(&sched.doors[i]);
    }
    must(cubejobs_sched_free(&sched) == CUBEJOBS_SCHED_DONE);
    must(cubejobs_sched_free(&sched) == CUBEJOBS_SCHED_NOT_OPEN);
}

/* ---- threads that sleep */

/* What a thread does, and what it got. */
struct sleeper {
    pthread_t id;
    struct cubejobs_sched_worker worker;
    struct cubejobs_sched_job job;
    uint64_t deadline;
    int has_ended;
};

static void *asks(void *it) {
    struct sleeper *const mine = (struct sleeper *)it;
    mine->job = cubejobs_sched_next(&mine->worker, mine->deadline);
    __atomic_store_n(&mine->has_ended, 1, __ATOMIC_SEQ_CST);
    return 0;
}

static void *submits_later(void *it) {
    struct sleeper *const mine = (struct sleeper *)it;
    mine->job = cubejobs_sched_submit(&sched, request_of(99, 1), mine->deadline);
    __atomic_store_n(&mine->has_ended, 1, __ATOMIC_SEQ_CST);
    return 0;
}

static void starts(struct sleeper *mine, void *(*act)(void *), uint64_t deadline) {
    mine->deadline = deadline;
    mine->has_ended = 0;
    must(!pthread_create(&mine->id, 0, act, mine));
}

static int has_ended(struct sleeper *mine) { return __atomic_load_n(&mine->has_ended, __ATOMIC_SEQ_CST); }

static enum cubejobs_sched_code joined(struct sleeper *mine) {
    limit();
    must(!pthread_join(mine->id, 0));
    return mine->job.code;
}

/* Waits until this number of workers' threads, and of submits, are asleep. */
static void until_asleep(uint32_t workers, uint32_t full) {
    limit();
    while (__atomic_load_n(&sched.asleep, __ATOMIC_SEQ_CST) != workers) nap(MILLISECOND / 10);
    while (__atomic_load_n(&sched.full, __ATOMIC_SEQ_CST) != full) nap(MILLISECOND / 10);
    nap(MILLISECOND);
}

/* Six workers sleep, and no processor is in service. One vacate starts six jobs, more than one turn names. */
static void many_wakes(void) {
    struct sleeper sleepers[6];
    unsigned i, seen = 0;
    opens(3, 6, 6);
    must(cubejobs_sched_occupy(&sched, 0, 3) == CUBEJOBS_SCHED_DONE);
    for (i = 0; i < 6; i++) submits(i, 1);
    for (i = 0; i < 6; i++) sleepers[i].worker = a_worker(i), starts(&sleepers[i], asks, NEVER);
    until_asleep(6, 0);
    must_have(6, 0, 0, 0, 8);
    must(cubejobs_sched_vacate(&sched, 0, 3) == CUBEJOBS_SCHED_DONE);
    must_have(0, 6, 6, 6, 0);
    for (i = 0; i < 6; i++) {
        must(joined(&sleepers[i]) == CUBEJOBS_SCHED_DONE);
        seen |= 1u << sleepers[i].job.payload;
        must(cubejobs_sched_leave(&sleepers[i].worker) == CUBEJOBS_SCHED_DONE);
    }
    must(seen == 63);
    must(cubejobs_sched_free(&sched) == CUBEJOBS_SCHED_DONE);
}

/* A close wakes workers and submits. The last job's end wakes the workers, once the jobs that wait may run. */
static void ends_that_wake(void) {
    struct sleeper workers[2], submit;
    uint32_t mode;
    for (mode = 0; mode < 2; mode++) {
        struct cubejobs_sched_worker busy;
        opens(0, 2, 3);
        busy = a_worker(0);
        must_start(&busy, submits(1, 1), 1, 0, 1);
        submits(2, 1);
        workers[0].worker = a_worker(1), workers[1].worker = a_worker(2);
        starts(&workers[0], asks, NEVER), starts(&workers[1], asks, NEVER), starts(&submit, submits_later, NEVER);
        until_asleep(2, 1);
        must(cubejobs_sched_free(&sched) == CUBEJOBS_SCHED_IN_USE);
        must(cubejobs_sched_close(&sched, mode) == CUBEJOBS_SCHED_DONE);
        must(joined(&submit) == CUBEJOBS_SCHED_CLOSED);
        if (mode == 0) until_asleep(2, 0), must(cubejobs_sched_next(&busy, 0).payload == 2);
        must(cubejobs_sched_leave(&busy) == CUBEJOBS_SCHED_DONE);
        must(joined(&workers[0]) == CUBEJOBS_SCHED_CLOSED && joined(&workers[1]) == CUBEJOBS_SCHED_CLOSED);
        must(cubejobs_sched_leave(&workers[0].worker) == CUBEJOBS_SCHED_DONE);
        must(cubejobs_sched_leave(&workers[1].worker) == CUBEJOBS_SCHED_DONE);
        if (mode == 1) must(cubejobs_sched_rest(&sched).payload == 2);
        must(cubejobs_sched_free(&sched) == CUBEJOBS_SCHED_DONE);
    }
}

/* Makes the only place free, in one of five ways. With way 1 the worker gets the job of the submit that it wakes. */
static void frees_a_place(unsigned way, struct cubejobs_sched_worker *worker, uint64_t last) {
    if (way != 2 && way != 4) must_start(worker, last, way ? 99 : 0, 0, 1);
    if (way == 0) must(cubejobs_sched_done(worker) == CUBEJOBS_SCHED_DONE);
    if (way == 1) must(cubejobs_sched_next(worker, NEVER).payload == 99);
    if (way == 2) must(cubejobs_sched_leave(worker) == CUBEJOBS_SCHED_DONE), *worker = a_worker(0);
    if (way == 3) must(cubejobs_sched_lost(&sched, 0) == CUBEJOBS_SCHED_DONE), *worker = a_worker(0);
    if (way == 4) must(cubejobs_sched_cancel(&sched, last).code == CUBEJOBS_SCHED_DONE);
}

/* Each call that makes a place free wakes one submit of two. */
static void places_that_wake(void) {
    struct sleeper submit[2];
    struct cubejobs_sched_worker worker;
    struct cubejobs_sched_job job;
    uint64_t last;
    unsigned way, i;
    opens(0, 1, 1);
    worker = a_worker(0);
    last = submits(0, 1);
    for (i = 0; i < 2; i++) starts(&submit[i], submits_later, NEVER);
    for (way = 0; way < 5; way++) {
        until_asleep(0, 2);
        frees_a_place(way, &worker, last);
        until_asleep(0, 1);
        i = has_ended(&submit[1]) ? 1 : 0;
        must(joined(&submit[i]) == CUBEJOBS_SCHED_DONE);
        last = submit[i].job.ticket;
        starts(&submit[i], submits_later, NEVER);
    }
    until_asleep(0, 2);
    must(cubejobs_sched_close(&sched, 1) == CUBEJOBS_SCHED_DONE);
    for (i = 0; i < 2; i++) must(joined(&submit[i]) == CUBEJOBS_SCHED_CLOSED);
    job = cubejobs_sched_rest(&sched);
    must(job.code == CUBEJOBS_SCHED_DONE && job.ticket == last);
    must(cubejobs_sched_leave(&worker) == CUBEJOBS_SCHED_DONE);
    must(cubejobs_sched_free(&sched) == CUBEJOBS_SCHED_DONE);
}

/* Submits a job by a call of the library, and wakes nobody. Returns whether a worker got it. */
static int starts_silently(uint64_t payload) {
    struct cubejobs_sched_door *const door = cubejobs_sched_enter(&sched);
    const struct cubejobs_sched_answer answer = cubejobs_sched_try_submit(&door->handle, request_of(payload, 1), 0);
    cubejobs_sched_leave_door(door);
    must(answer.code == CUBEJOBS_SCHED_DONE);
    if (answer.count == 0) must(cubejobs_sched_cancel(&sched, answer.ticket).payload == payload);
    return answer.count == 1;
}

/* A job is given to a worker that sleeps, and nothing wakes it. At its deadline it has the job. */
static void a_start_beats_a_deadline(void) {
    struct sleeper worker;
    uint64_t time = 10 * MILLISECOND;
    int has_job = 0;
    opens(0, 1, 1);
    worker.worker = a_worker(0);
    for (; !has_job; time *= 2) {
        starts(&worker, asks, cubejobs_sched_now() + time);
        while (!__atomic_load_n(&sched.asleep, __ATOMIC_SEQ_CST) && !has_ended(&worker)) nap(MILLISECOND / 10);
        has_job = starts_silently(5);
        must(joined(&worker) == (has_job ? CUBEJOBS_SCHED_DONE : CUBEJOBS_SCHED_TIMED_OUT));
    }
    must(worker.job.payload == 5);
    must(cubejobs_sched_done(&worker.worker) == CUBEJOBS_SCHED_DONE);
    starts(&worker, asks, cubejobs_sched_now() + 5 * MILLISECOND);
    must(joined(&worker) == CUBEJOBS_SCHED_TIMED_OUT);
    submits(6, 1);
    must(cubejobs_sched_next(&worker.worker, 0).payload == 6);
    must(cubejobs_sched_leave(&worker.worker) == CUBEJOBS_SCHED_DONE);
    must(cubejobs_sched_free(&sched) == CUBEJOBS_SCHED_DONE);
}

/* A place is made free while a submit sleeps, and nothing wakes it. At its deadline it has the place. */
static void a_place_beats_a_deadline(void) {
    struct sleeper submit;
    uint64_t time = 10 * MILLISECOND, ticket;
    int has_place = 0;
    opens(0, 1, 1);
    for (; !has_place; time *= 2) {
        struct cubejobs_sched_door *door;
        ticket = submits(1, 1);
        starts(&submit, submits_later, cubejobs_sched_now() + time);
        while (!__atomic_load_n(&sched.full, __ATOMIC_SEQ_CST) && !has_ended(&submit)) nap(MILLISECOND / 10);
        nap(time / 4);
        door = cubejobs_sched_enter(&sched);
        must(cubejobs_sched_try_cancel(&door->handle, ticket, 0).code == CUBEJOBS_SCHED_DONE);
        cubejobs_sched_leave_door(door);
        has_place = joined(&submit) == CUBEJOBS_SCHED_DONE;
        if (!has_place) must(submit.job.code == CUBEJOBS_SCHED_TIMED_OUT && time < 1000 * MILLISECOND);
    }
    must(cubejobs_sched_cancel(&sched, submit.job.ticket).payload == 99);
    must(cubejobs_sched_free(&sched) == CUBEJOBS_SCHED_DONE);
}

/* Threads that are cancelled while they sleep go on until their calls return. */
static void cancelled_threads(void) {
    struct sleeper worker, submit;
    struct cubejobs_sched_worker other;
    opens(0, 1, 2);
    worker.worker = a_worker(0), other = a_worker(1);
    starts(&worker, asks, NEVER);
    until_asleep(1, 0);
    must(!pthread_cancel(worker.id));
    nap(5 * MILLISECOND);
    must(!has_ended(&worker));
    submits(1, 1);
    must(joined(&worker) == CUBEJOBS_SCHED_DONE && worker.has_ended && worker.job.payload == 1);
    starts(&submit, submits_later, NEVER);
    until_asleep(0, 1);
    must(!pthread_cancel(submit.id));
    nap(5 * MILLISECOND);
    must(!has_ended(&submit));
    must(cubejobs_sched_leave(&worker.worker) == CUBEJOBS_SCHED_DONE);
    must(joined(&submit) == CUBEJOBS_SCHED_DONE && submit.has_ended);
    must(cubejobs_sched_next(&other, NEVER).payload == 99);
    must(cubejobs_sched_leave(&other) == CUBEJOBS_SCHED_DONE);
    must(cubejobs_sched_free(&sched) == CUBEJOBS_SCHED_DONE);
}

/* Returns the processor time of the process, in milliseconds. */
static long spent(void) {
    struct timespec now;
    must(!clock_gettime(CLOCK_PROCESS_CPUTIME_ID, &now));
    return (long)now.tv_sec * 1000 + now.tv_nsec / 1000000;
}

/* A worker that was woken before, and a submit, sleep and take no processor time. No processor is in service. */
static void idle_threads(void) {
    struct sleeper worker, submit;
    long before;
    opens(1, 1, 1);
    worker.worker = a_worker(0);
    starts(&worker, asks, NEVER);
    until_asleep(1, 0);
    submits(1, 1);
    must(joined(&worker) == CUBEJOBS_SCHED_DONE && cubejobs_sched_done(&worker.worker) == CUBEJOBS_SCHED_DONE);
    must(cubejobs_sched_occupy(&sched, 0, 1) == CUBEJOBS_SCHED_DONE);
    submits(2, 1);
    starts(&worker, asks, NEVER), starts(&submit, submits_later, NEVER);
    until_asleep(1, 1);
    before = spent();
    nap(200 * MILLISECOND);
    must(spent() - before < 20);
    must(cubejobs_sched_vacate(&sched, 0, 1) == CUBEJOBS_SCHED_DONE);
    must(joined(&worker) == CUBEJOBS_SCHED_DONE && worker.job.payload == 2);
    must(cubejobs_sched_next(&worker.worker, NEVER).payload == 99);
    must(joined(&submit) == CUBEJOBS_SCHED_DONE);
    must(cubejobs_sched_leave(&worker.worker) == CUBEJOBS_SCHED_DONE);
    must(cubejobs_sched_free(&sched) == CUBEJOBS_SCHED_DONE);
}

static void one(void) {
    limit();
    shut_handles();
    calls_of_the_library();
    more_than_four();
    a_shut_scheduler();
    options_out_of_range();
    a_shut_scheduler();
    jobs_by_hand();
    a_reservation();
    deadlines();
    blocks();
    a_close_that_stops();
    a_close_that_runs();
    refused_frees();
    many_wakes();
    ends_that_wake();
    places_that_wake();
    a_start_beats_a_deadline();
    a_place_beats_a_deadline();
    cancelled_threads();
    idle_threads();
}

/* ---- a crowd */

static uint32_t ran[MOST_JOBS], cancelled[MOST_JOBS], refused[MOST_JOBS];
static uint32_t submitters_left, next_number;
static unsigned submitters, workers, jobs;
static uint64_t seed;
static unsigned numbers[MOST_THREADS];

static void count(uint32_t *of) { __atomic_fetch_add(of, 1, __ATOMIC_RELAXED); }

/* Returns no deadline, or one that is soon. */
static uint64_t some_deadline(uint64_t *state) {
    return below(state, 2) ? NEVER : cubejobs_sched_now() + below(state, 200000);
}

static void submit_one(uint32_t number, uint64_t *state) {
    struct cubejobs_sched_request request = request_of(number, 1 + below(state, below(state, 8) ? 8 : 64));
    struct cubejobs_sched_job job;
    request.estimate = below(state, 3) * 10000;
    request.job_class = below(state, 8);
    job = cubejobs_sched_submit(&sched, request, some_deadline(state));
    if (job.code == CUBEJOBS_SCHED_TIMED_OUT) {
        count(&refused[number]);
        return;
    }
    must(job.code == CUBEJOBS_SCHED_DONE);
    if (below(state, 4)) return;
    job = cubejobs_sched_cancel(&sched, job.ticket);
    if (job.code == CUBEJOBS_SCHED_NO_JOB || job.code == CUBEJOBS_SCHED_WRONG_STATE) return;
    must(job.code == CUBEJOBS_SCHED_DONE);
    must(job.payload == number);
    count(&cancelled[number]);
}

static void *submitter(void *number) {
    uint64_t state = state_of(seed, *(unsigned *)number);
    uint32_t job;
    while ((job = __atomic_fetch_add(&next_number, 1, __ATOMIC_RELAXED)) < jobs) {
        if (job % 4096 == 0) limit();
        submit_one(job, &state);
    }
    if (__atomic_fetch_sub(&submitters_left, 1, __ATOMIC_SEQ_CST) == 1)
        must(cubejobs_sched_close(&sched, 0) == CUBEJOBS_SCHED_DONE);
    return 0;
}

static void run(struct cubejobs_sched_job job, uint64_t *state) {
    pass(job.base, job.processors, 0, job.payload + 1);
    if (below(state, 4) == 0) sched_yield();
    pass(job.base, job.processors, job.payload + 1, 0);
    count(&ran[job.payload]);
}

/* Ends the job of a worker otherwise than by its next one. */
static void end_otherwise(struct cubejobs_sched_worker *worker, uint64_t *state) {
    const uint32_t way = below(state, 16);
    if (way == 0) must(cubejobs_sched_done(worker) == CUBEJOBS_SCHED_DONE);
    if (way == 1) must(cubejobs_sched_lost(&sched, worker->number) == CUBEJOBS_SCHED_DONE);
    if (way == 2) must(cubejobs_sched_leave(worker) == CUBEJOBS_SCHED_DONE);
    if (way == 1 || way == 2) must(cubejobs_sched_worker(&sched, worker) == CUBEJOBS_SCHED_DONE);
}

static void *work(void *number) {
    uint64_t state = state_of(seed, *(unsigned *)number);
    struct cubejobs_sched_worker worker;
    struct cubejobs_sched_job job;
    must(cubejobs_sched_worker(&sched, &worker) == CUBEJOBS_SCHED_DONE);
    while ((job = cubejobs_sched_next(&worker, some_deadline(&state))).code != CUBEJOBS_SCHED_CLOSED) {
        must(job.code == CUBEJOBS_SCHED_DONE || job.code == CUBEJOBS_SCHED_TIMED_OUT);
        if (job.code != CUBEJOBS_SCHED_DONE) continue;
        run(job, &state);
        end_otherwise(&worker, &state);
    }
    must(cubejobs_sched_leave(&worker) == CUBEJOBS_SCHED_DONE);
    return 0;
}

static void crowd(void) {
    pthread_t threads[MOST_THREADS];
    unsigned i;
    limit();
    submitters_left = submitters;
    opens(DIM, 40, workers);
    for (i = 0; i < submitters + workers; i++) {
        numbers[i] = i;
        must(!pthread_create(&threads[i], 0, i < submitters ? submitter : work, &numbers[i]));
    }
    for (i = 0; i < submitters + workers; i++) must(!pthread_join(threads[i], 0)), limit();
    for (i = 0; i < jobs; i++) must(ran[i] + cancelled[i] + refused[i] == 1);
    must_have(0, 0, 0, 0, 0);
    must(cubejobs_sched_free(&sched) == CUBEJOBS_SCHED_DONE);
}

int main(int argc, char **argv) {
    if (argc == 2 && strcmp(argv[1], "one") == 0) {
        one();
        return 0;
    }
    if (argc != 6 || strcmp(argv[1], "crowd") != 0) return 2;
    seed = strtoull(argv[2], 0, 10);
    submitters = (unsigned)strtoul(argv[3], 0, 10);
    workers = (unsigned)strtoul(argv[4], 0, 10);
    jobs = (unsigned)strtoul(argv[5], 0, 10);
    must(submitters > 0 && workers > 0 && submitters + workers <= MOST_THREADS && jobs <= MOST_JOBS);
    crowd();
    return 0;
}
