/* Makes random programs of the scheduler for threads. `sched_random SEED PROGRAMS`: 1 to 8 threads submit and cancel
 * jobs and look at them, 1 to 16 threads are workers, one takes blocks out of service, and one closes the scheduler. At
 * the end each job ran once, on processors that nobody else had, or it was cancelled, given back or refused. A program
 * that takes longer than PATIENCE seconds fails. `sched_random races ROUNDS`: jobs start while their worker's deadline
 * passes, places become free while a submit naps or falls asleep, and schedulers close while a worker does.
 * `sched_random for SECONDS`: random programs for that long. */
#define _POSIX_C_SOURCE 200809L
#include "sched_kit.h"

#ifdef __linux__
#include <sys/prctl.h>
#endif

#define MOST_SUBMITTERS 8
#define MOST_WORKERS 16
#define MOST_JOBS 20000
/* The owner of processors that are out of service. */
#define OPERATOR UINT64_MAX

/* What became of a job. */
struct fate {
    uint32_t ran, cancelled, given_back, refused;
};

/* A program: its sizes, and when it is closed. */
struct program {
    struct cubejobs_sched_options options;
    uint32_t submitters, workers, calls, mode, closes_early, pause;
};

static struct cubejobs_sched sched;
static struct program now_runs;
static struct fate fates[MOST_JOBS];
static uint64_t seed, tickets[MOST_JOBS];
static uint32_t next_job, submitters_left, is_over;
static unsigned numbers[MOST_SUBMITTERS + MOST_WORKERS + 2];

static void count(uint32_t *of) { __atomic_fetch_add(of, 1, __ATOMIC_SEQ_CST); }

/* Returns a deadline: none, one of each other kind, or with `may_sleep` no end. */
static uint64_t some_deadline(uint64_t *state, int may_sleep) {
    switch (below(state, may_sleep ? 6 : 3)) {
    case 0: return 0;
    case 1: return 1;
    case 2: return cubejobs_sched_now() + below(state, 300000);
    default: return NEVER;
    }
}

/* ---- what threads do that submit */

/* Submits a job. A job that submits one must not sleep without end. */
static void submit_one(uint64_t *state, int may_sleep) {
    const uint32_t number = __atomic_fetch_add(&next_job, 1, __ATOMIC_SEQ_CST);
    struct cubejobs_sched_request request;
    struct cubejobs_sched_job job;
    uint64_t deadline = some_deadline(state, may_sleep);
    if (number >= MOST_JOBS) return;
    request = request_of(number, 1 + below(state, 1u << below(state, now_runs.options.dim + 1)));
    request.estimate = below(state, 3) * below(state, 200000);
    request.job_class = below(state, CUBEJOBS_SCHED_CLASSES);
    job = cubejobs_sched_submit(&sched, request, deadline);
    if (job.code == CUBEJOBS_SCHED_DONE) {
        must(job.ticket != 0);
        __atomic_store_n(&tickets[number], job.ticket, __ATOMIC_SEQ_CST);
        return;
    }
    count(&fates[number].refused);
    must(job.ticket == 0);
    if (job.code == CUBEJOBS_SCHED_FULL) must(deadline == 0);
    else if (job.code == CUBEJOBS_SCHED_TIMED_OUT) must(deadline != 0 && deadline != NEVER);
    else must(job.code == CUBEJOBS_SCHED_CLOSED);
}

/* Returns the ticket of some job, or 0. */
static uint64_t some_ticket(uint64_t *state, uint32_t *number) {
    const uint32_t submitted = __atomic_load_n(&next_job, __ATOMIC_SEQ_CST);
    *number = submitted ? submitted - 1 - below(state, submitted < 20 ? submitted : 20) : 0;
    return *number < MOST_JOBS ? __atomic_load_n(&tickets[*number], __ATOMIC_SEQ_CST) : 0;
}

static void cancel_one(uint64_t *state) {
    uint32_t number;
    const uint64_t ticket = some_ticket(state, &number);
    const struct cubejobs_sched_job job = cubejobs_sched_cancel(&sched, ticket);
    if (job.code == CUBEJOBS_SCHED_DONE) {
        must(ticket && job.payload == number);
        count(&fates[number].cancelled);
    } else {
        must(job.code == CUBEJOBS_SCHED_NO_JOB || (ticket && job.code == CUBEJOBS_SCHED_WRONG_STATE));
    }
}

static void look(uint64_t *state) {
    const struct cubejobs_sched_counts counts = cubejobs_sched_counts(&sched);
    uint32_t number, all = 1u << now_runs.options.dim;
    const uint64_t ticket = some_ticket(state, &number);
    const struct cubejobs_sched_forecast forecast = cubejobs_sched_forecast(&sched, ticket);
    must(counts.code == CUBEJOBS_SCHED_DONE && counts.waiting + counts.running <= now_runs.options.jobs);
    must(counts.held + counts.occupied <= all && counts.asked <= counts.held && counts.running <= now_runs.workers);
    if (forecast.code == CUBEJOBS_SCHED_DONE) must(ticket && forecast.state >= 1 && forecast.state <= 3);
    else must(forecast.code == CUBEJOBS_SCHED_NO_JOB);
    if (forecast.state > 1) must(forecast.dim <= now_runs.options.dim && forecast.base + (1u << forecast.dim) <= all);
}

static void *submitter(void *number) {
    uint64_t state = state_of(seed, *(unsigned *)number);
    uint32_t call;
    for (call = 0; call < now_runs.calls; call++) {
        const uint32_t kind = below(&state, 8);
        if (kind < 5) submit_one(&state, 1);
        else if (kind < 7) cancel_one(&state);
        else look(&state);
        if (below(&state, 16) == 0) nap(below(&state, now_runs.pause));
    }
    __atomic_fetch_sub(&submitters_left, 1, __ATOMIC_SEQ_CST);
    return 0;
}

/* ---- what workers do */

/* Runs a job, on processors that nobody else has. */
static void run(const struct cubejobs_sched_job *job, uint64_t *state) {
    const uint32_t kind = below(state, 16);
    struct cubejobs_sched_forecast forecast;
    must(job->payload < MOST_JOBS && job->ticket && job->processors);
    pass(job->base, job->processors, 0, job->payload + 1);
    if (kind == 0) {
        forecast = cubejobs_sched_forecast(&sched, job->ticket);
        must(forecast.code == CUBEJOBS_SCHED_DONE && forecast.state == CUBEJOBS_SCHED_RUNS);
        must(forecast.base == job->base && job->processors <= 1u << forecast.dim);
    }
    if (kind == 1) must(cubejobs_sched_cancel(&sched, job->ticket).code == CUBEJOBS_SCHED_WRONG_STATE);
    if (kind == 2) submit_one(state, 0);
    if (kind < 6) spin(below(state, 20000));
    if (kind == 6) nap(below(state, now_runs.pause));
    if (kind == 7) must(cubejobs_sched_free(&sched) == CUBEJOBS_SCHED_IN_USE);
    pass(job->base, job->processors, job->payload + 1, 0);
    count(&fates[job->payload].ran);
}

/* Ends the job of a worker, if it has one, or leaves that to its next call. */
static void end(struct cubejobs_sched_worker *worker, int has_job, uint64_t *state) {
    const uint32_t kind = below(state, 12);
    if (kind == 0) must(cubejobs_sched_done(worker) == (has_job ? CUBEJOBS_SCHED_DONE : CUBEJOBS_SCHED_WRONG_STATE));
    if (kind == 1 || kind == 2) {
        const uint32_t number = worker->number;
        if (kind == 1) must(cubejobs_sched_leave(worker) == CUBEJOBS_SCHED_DONE);
        if (kind == 2) must(cubejobs_sched_lost(&sched, number) == CUBEJOBS_SCHED_DONE);
        must(cubejobs_sched_worker(&sched, worker) == CUBEJOBS_SCHED_DONE);
    }
}

/* Gives jobs of a closed scheduler back. */
static void give_back(void) {
    struct cubejobs_sched_job job;
    while ((job = cubejobs_sched_rest(&sched)).code == CUBEJOBS_SCHED_DONE) {
        must(job.payload < MOST_JOBS && job.ticket && !job.processors);
        count(&fates[job.payload].given_back);
    }
    must(job.code == CUBEJOBS_SCHED_NO_JOB);
}

static void *work(void *number) {
    uint64_t state = state_of(seed, *(unsigned *)number);
    struct cubejobs_sched_worker worker;
    struct cubejobs_sched_job job = {CUBEJOBS_SCHED_NO_JOB, 0, 0, 0, 0};
    must(cubejobs_sched_worker(&sched, &worker) == CUBEJOBS_SCHED_DONE);
    while (job.code != CUBEJOBS_SCHED_CLOSED) {
        const uint64_t deadline = some_deadline(&state, 1);
        job = cubejobs_sched_next(&worker, deadline);
        if (job.code == CUBEJOBS_SCHED_DONE) run(&job, &state);
        else if (job.code == CUBEJOBS_SCHED_NO_JOB) must(deadline == 0);
        else if (job.code == CUBEJOBS_SCHED_TIMED_OUT) must(deadline != 0 && deadline != NEVER);
        else must(job.code == CUBEJOBS_SCHED_CLOSED);
        end(&worker, job.code == CUBEJOBS_SCHED_DONE, &state);
        if (deadline < 2 && job.code != CUBEJOBS_SCHED_DONE) sched_yield();
    }
    must(cubejobs_sched_leave(&worker) == CUBEJOBS_SCHED_DONE);
    return 0;
}

/* ---- what the others do */

/* Takes one block after another out of service, and puts it back. */
static void *operate(void *number) {
    uint64_t state = state_of(seed, *(unsigned *)number);
    while (!__atomic_load_n(&is_over, __ATOMIC_SEQ_CST)) {
        const uint32_t dim = below(&state, now_runs.options.dim + 1);
        const uint64_t base = (uint64_t)below(&state, 1u << (now_runs.options.dim - dim)) << dim;
        const enum cubejobs_sched_code code = cubejobs_sched_occupy(&sched, base, dim);
        if (code == CUBEJOBS_SCHED_DONE) {
            pass(base, 1u << dim, 0, OPERATOR);
            must(cubejobs_sched_occupy(&sched, base, dim) == CUBEJOBS_SCHED_WRONG_STATE);
            spin(below(&state, 30000));
            pass(base, 1u << dim, OPERATOR, 0);
            must(cubejobs_sched_vacate(&sched, base, dim) == CUBEJOBS_SCHED_DONE);
        } else {
            must(code == CUBEJOBS_SCHED_WRONG_STATE);
        }
        nap(below(&state, now_runs.pause));
    }
    return 0;
}

/* Closes the scheduler, at once or once all is submitted. */
static void *closer(void *number) {
    uint64_t state = state_of(seed, *(unsigned *)number);
    if (now_runs.closes_early) nap(below(&state, 2000000));
    else
        while (__atomic_load_n(&submitters_left, __ATOMIC_SEQ_CST)) nap(20000);
    if (!now_runs.closes_early) must(cubejobs_sched_rest(&sched).code == CUBEJOBS_SCHED_WRONG_STATE);
    must(cubejobs_sched_close(&sched, now_runs.mode) == CUBEJOBS_SCHED_DONE);
    must(cubejobs_sched_close(&sched, 0) == CUBEJOBS_SCHED_CLOSED);
    if (below(&state, 2)) give_back();
    return 0;
}

/* ---- programs */

static void choose(uint64_t program) {
    uint64_t state = state_of(seed, program + 1000);
    now_runs.options.dim = below(&state, 7);
    /* With 200 places or more, a submit that finds none naps before it sleeps. */
    now_runs.options.jobs = 1 + below(&state, below(&state, 2) ? 4 : below(&state, 2) ? 64 : 400);
    now_runs.options.patience = below(&state, 5);
    now_runs.workers = 1 + below(&state, MOST_WORKERS);
    now_runs.options.workers = now_runs.workers;
    now_runs.submitters = 1 + below(&state, MOST_SUBMITTERS);
    now_runs.calls = 1 + below(&state, 400);
    now_runs.mode = below(&state, 2);
    now_runs.closes_early = below(&state, 3) == 0;
    now_runs.pause = 1 + below(&state, 100000);
}

static void one_program(uint64_t program) {
    const unsigned threads = now_runs.submitters + now_runs.workers;
    pthread_t ids[MOST_SUBMITTERS + MOST_WORKERS + 2];
    uint32_t i;
    limit();
    part = program;
    memset(fates, 0, sizeof fates), memset(tickets, 0, sizeof tickets);
    next_job = is_over = 0, submitters_left = now_runs.submitters;
    must(cubejobs_sched_open(&sched, now_runs.options) == CUBEJOBS_SCHED_DONE);
    for (i = 0; i < threads + 2; i++) {
        void *(*act)(void *) = i == threads ? closer : operate;
        if (i < threads) act = i < now_runs.submitters ? submitter : work;
        numbers[i] = i;
        must(!pthread_create(&ids[i], 0, act, &numbers[i]));
    }
    for (i = 0; i < threads + 2; i++) {
        if (i == threads + 1) __atomic_store_n(&is_over, 1, __ATOMIC_SEQ_CST);
        must(!pthread_join(ids[i], 0));
    }
    give_back();
    must(cubejobs_sched_counts(&sched).running == 0 && cubejobs_sched_counts(&sched).occupied == 0);
    must(cubejobs_sched_free(&sched) == CUBEJOBS_SCHED_DONE);
    for (i = 0; i < next_job && i < MOST_JOBS; i++)
        must(fates[i].ran + fates[i].cancelled + fates[i].given_back + fates[i].refused == 1);
}

/* ---- races */

static uint32_t is_ready, runs;

/* Runs jobs, few of them for long, and waits without a deadline until the scheduler is closed. */
static void *run_all(void *number) {
    uint64_t state = state_of(seed, *(unsigned *)number);
    struct cubejobs_sched_worker worker;
    enum cubejobs_sched_code code;
    must(cubejobs_sched_worker(&sched, &worker) == CUBEJOBS_SCHED_DONE);
    __atomic_store_n(&is_ready, 1, __ATOMIC_SEQ_CST);
    while ((code = cubejobs_sched_next(&worker, NEVER).code) == CUBEJOBS_SCHED_DONE) {
        spin(below(&state, 64) ? below(&state, 1000) : 200000);
        count(&runs);
    }
    must(code == CUBEJOBS_SCHED_CLOSED);
    must(cubejobs_sched_leave(&worker) == CUBEJOBS_SCHED_DONE);
    return 0;
}

/* Opens a scheduler with this number of places and one worker, whose thread is there. */
static pthread_t begin_race(void *(*act)(void *), uint32_t places) {
    const struct cubejobs_sched_options options = {0, places, 1, 1};
    pthread_t worker;
    limit();
    is_ready = runs = 0;
    must(cubejobs_sched_open(&sched, options) == CUBEJOBS_SCHED_DONE);
    must(!pthread_create(&worker, 0, act, &numbers[0]));
    while (!__atomic_load_n(&is_ready, __ATOMIC_SEQ_CST)) {}
    return worker;
}

static void end_race(pthread_t worker, uint32_t mode) {
    must(cubejobs_sched_close(&sched, mode) == CUBEJOBS_SCHED_DONE);
    must(!pthread_join(worker, 0));
    must(cubejobs_sched_free(&sched) == CUBEJOBS_SCHED_DONE);
}

/* Submits jobs that sleep until the one before has ended. */
static void races_of_places(uint32_t jobs) {
    const pthread_t worker = begin_race(run_all, 1);
    for (part = 0; part < jobs; part++) {
        if (part % 1000 == 0) limit();
        must(cubejobs_sched_submit(&sched, request_of(part, 1), NEVER).code == CUBEJOBS_SCHED_DONE);
    }
    end_race(worker, 0);
}

/* Submits jobs to a scheduler with so much room that a submit which finds no place naps first. Each job that was
 * accepted runs. */
static void races_of_naps(uint32_t jobs) {
    uint64_t state = state_of(seed, 1);
    uint32_t accepted = 0;
    const pthread_t worker = begin_race(run_all, 200);
    for (part = 0; part < jobs; part++) {
        const uint64_t deadline = some_deadline(&state, 1);
        const enum cubejobs_sched_code code = cubejobs_sched_submit(&sched, request_of(part, 1), deadline).code;
        if (part % 1000 == 0) limit();
        accepted += code == CUBEJOBS_SCHED_DONE;
        if (code == CUBEJOBS_SCHED_TIMED_OUT) must(deadline != 0 && deadline != NEVER);
        else must(code == CUBEJOBS_SCHED_DONE || (code == CUBEJOBS_SCHED_FULL && deadline == 0));
    }
    end_race(worker, 0);
    must(runs == accepted);
}

/* Closes schedulers while their worker begins to wait. */
static void races_of_ends(uint32_t rounds) {
    uint64_t state = state_of(seed, 1);
    for (part = 0; part < rounds; part++) {
        const pthread_t worker = begin_race(run_all, 1);
        spin(below(&state, 2000));
        end_race(worker, below(&state, 2));
    }
}

static uint32_t started;
static uint64_t aimed_at;

/* Waits for jobs with deadlines that are soon, in a scheduler with one place. Jobs of one class start in order. */
static void *race(void *number) {
    uint64_t state = state_of(seed, *(unsigned *)number);
    struct cubejobs_sched_worker worker;
    struct cubejobs_sched_job job;
    must(cubejobs_sched_worker(&sched, &worker) == CUBEJOBS_SCHED_DONE);
    __atomic_store_n(&is_ready, 1, __ATOMIC_SEQ_CST);
#ifdef __linux__
    prctl(PR_SET_TIMERSLACK, 1);
#endif
    do {
        const uint64_t end = cubejobs_sched_now() + below(&state, 20000);
        __atomic_store_n(&aimed_at, end, __ATOMIC_SEQ_CST);
        job = cubejobs_sched_next(&worker, end);
        if (job.code == CUBEJOBS_SCHED_DONE) must(job.payload == started++ && job.base == 0 && job.processors == 1);
        else must(job.code == CUBEJOBS_SCHED_TIMED_OUT || job.code == CUBEJOBS_SCHED_CLOSED);
    } while (job.code != CUBEJOBS_SCHED_CLOSED);
    must(cubejobs_sched_leave(&worker) == CUBEJOBS_SCHED_DONE);
    return 0;
}

/* Waits until a little before the worker's deadline, or a little after it. */
static void aim(uint64_t *state) {
    const uint64_t at = __atomic_load_n(&aimed_at, __ATOMIC_SEQ_CST) + below(state, 8000);
    while (cubejobs_sched_now() + 2000 < at) {}
}

/* Submits jobs about when their worker's deadline passes. */
static void races_of_deadlines(uint32_t jobs) {
    uint64_t state = state_of(seed, 1);
    const pthread_t worker = begin_race(race, 1);
    for (part = 0; part < jobs; part++) {
        if (part % 1000 == 0) limit();
        aim(&state);
        must(cubejobs_sched_submit(&sched, request_of(part, 1), NEVER).code == CUBEJOBS_SCHED_DONE);
    }
    end_race(worker, 0);
    must(started == jobs);
}

static void random_programs(uint64_t programs) {
    uint64_t program;
    for (program = 0; program < programs; program++) {
        choose(program);
        one_program(program);
    }
}

int main(int argc, char **argv) {
    if (argc != 3) return 2;
    if (strcmp(argv[1], "races") == 0) {
        const uint32_t rounds = (uint32_t)strtoul(argv[2], 0, 10);
        races_of_deadlines(rounds);
        races_of_places(rounds);
        races_of_naps(20 * rounds);
        races_of_ends(rounds);
        return 0;
    }
    if (strcmp(argv[1], "for") == 0) {
        const uint64_t end = cubejobs_sched_now() + strtoull(argv[2], 0, 10) * 1000 * MILLISECOND;
        for (seed = 1; cubejobs_sched_now() < end; seed++) random_programs(20);
        printf("%llu random programs\n", (unsigned long long)(seed - 1) * 20);
        return 0;
    }
    seed = strtoull(argv[1], 0, 10);
    random_programs(strtoull(argv[2], 0, 10));
    return 0;
}
