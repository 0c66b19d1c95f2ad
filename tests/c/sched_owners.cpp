/* Uses the owners of cubejobs_sched.hpp: each call, what moves, what ends in each order, old allocations, deadlines, and
 * a crowd of threads that cancel, give up, leave and throw. `sched_owners JOBS` has a crowd with this number of jobs. It
 * compiles with exceptions and without. */
#include "cubejobs_sched.hpp"
#include "sched_kit.h"

#include <cstdio>
#include <cstdlib>
#include <cstring>
#include <limits>
#include <optional>
#include <stdexcept>
#include <thread>
#include <type_traits>

using cubejobs::allocation;
using cubejobs::sched_worker;
using cubejobs::scheduler;
using cubejobs::waiting;
using clock_of_test = std::chrono::steady_clock;
using std::chrono::microseconds;
using std::chrono::milliseconds;

template <class T> constexpr bool only_moves() {
    return std::is_nothrow_move_constructible<T>::value && std::is_nothrow_move_assignable<T>::value &&
           !std::is_copy_constructible<T>::value && !std::is_copy_assignable<T>::value;
}
static_assert(only_moves<scheduler>() && only_moves<sched_worker>() && only_moves<allocation>(), "an owner is copied");

/* Returns the code with which an owner is refused. */
template <class Make> static std::uint32_t refusal(Make make) {
#ifdef CUBEJOBS_THROWS
    try {
        const auto made = make();
        must(made.code() == CUBEJOBS_SCHED_DONE);
    } catch (const cubejobs::error &wrong) {
        must(std::strlen(wrong.what()) > 9);
        return wrong.code;
    }
    return CUBEJOBS_SCHED_DONE;
#else
    return make().code();
#endif
}

/* Submits a job for which there is a place. Returns its ticket. */
static std::uint64_t submitted(const scheduler &to, std::uint64_t payload, std::uint32_t processors) {
    const cubejobs_sched_job job = to.try_submit(request_of(payload, processors));
    must(job.code == CUBEJOBS_SCHED_DONE && job.ticket);
    return job.ticket;
}

static void must_have(const allocation &job, std::uint64_t payload, std::uint64_t base, std::uint32_t processors) {
    must(job && job.code() == CUBEJOBS_SCHED_DONE);
    must(job.payload() == payload && job.base() == base && job.processors() == processors && job.ticket());
}

static void must_count(const scheduler &of, std::uint64_t running, std::uint64_t waits) {
    const struct cubejobs_sched_counts counts = of.counts();
    must(counts.code == CUBEJOBS_SCHED_DONE && counts.running == running && counts.waiting == waits);
}

/* ---- each call, by one thread */

/* Eight processors and four places. A job of all of them runs, and three jobs wait. */
static void jobs_that_wait(const scheduler &mine, sched_worker &one, sched_worker &two) {
    const clock_of_test::time_point end = clock_of_test::now() + milliseconds(5);
    const cubejobs_sched_job first = mine.submit(request_of(10, 8));
    must(first.code == CUBEJOBS_SCHED_DONE && mine.forecast(first.ticket).state != CUBEJOBS_SCHED_RUNS);
    must(mine.submit(request_of(10, 9)).code == CUBEJOBS_SCHED_OUT_OF_RANGE);
    allocation job = one.try_next();
    must_have(job, 10, 0, 8);
    const struct cubejobs_sched_forecast runs = mine.forecast(job.ticket());
    must(runs.code == CUBEJOBS_SCHED_DONE && runs.state == CUBEJOBS_SCHED_RUNS && runs.base == 0 && runs.dim == 3);
    must(mine.forecast(0).code == CUBEJOBS_SCHED_NO_JOB && runs.time == CUBEJOBS_SCHED_NEVER);
    must(two.try_next().code() == CUBEJOBS_SCHED_NO_JOB && two.next_for(milliseconds(1)).code() == CUBEJOBS_SCHED_TIMED_OUT);
    must(two.next_until(end).code() == CUBEJOBS_SCHED_TIMED_OUT && clock_of_test::now() >= end);
    const std::uint64_t second = submitted(mine, 20, 2);
    submitted(mine, 30, 8);
    must(mine.submit_for(request_of(40, 8), microseconds(1)).code == CUBEJOBS_SCHED_DONE);
    must(mine.try_submit(request_of(50, 1)).code == CUBEJOBS_SCHED_FULL);
    must(mine.submit_for(request_of(50, 1), milliseconds(1)).code == CUBEJOBS_SCHED_TIMED_OUT);
    must(mine.submit_for(request_of(50, 1), milliseconds(-1)).code == CUBEJOBS_SCHED_TIMED_OUT);
    must(mine.submit_until(request_of(50, 1), end).code == CUBEJOBS_SCHED_TIMED_OUT);
    must(mine.cancel(job.ticket()).code == CUBEJOBS_SCHED_WRONG_STATE && mine.cancel(second).payload == 20);
    must(mine.cancel(second).code == CUBEJOBS_SCHED_NO_JOB && mine.counts().held == 8 && mine.counts().asked == 8);
    must(mine.occupy(4, 2) == CUBEJOBS_SCHED_WRONG_STATE);
    must(job.done() == CUBEJOBS_SCHED_DONE && job.done() == CUBEJOBS_SCHED_WRONG_STATE && !job);
    must(job.code() == CUBEJOBS_SCHED_NO_JOB && job.payload() == 10);
    must_count(mine, 0, 2);
}

/* The first worker of two is lost, and another one gets its number. The end of the first does nothing then. */
static void lost_workers(const scheduler &mine) {
    sched_worker stays = mine.worker();
    std::optional<sched_worker> one = mine.worker();
    submitted(mine, 1, 4);
    allocation job = one->next();
    must_have(job, 1, 0, 4);
    const std::uint32_t number = one->number();
    must(mine.lost(number) == CUBEJOBS_SCHED_DONE && mine.lost(number) == CUBEJOBS_SCHED_WRONG_STATE);
    must(mine.lost(99) == CUBEJOBS_SCHED_WRONG_STATE && !job && job.code() == CUBEJOBS_SCHED_NO_JOB);
    sched_worker other = mine.worker();
    submitted(mine, 2, 4);
    const allocation next = other.next();
    must(other.number() == number && one->next().code() == CUBEJOBS_SCHED_WRONG_STATE);
    must(job.done() == CUBEJOBS_SCHED_WRONG_STATE);
    one.reset();
    must_have(next, 2, 0, 4);
    must_count(mine, 1, 0);
    must(refusal([&] { return mine.worker(); }) == CUBEJOBS_SCHED_FULL && stays.number() != number);
}

static void each_call() {
    must(refusal([] { return scheduler({21, 4, 16, 2}); }) == CUBEJOBS_SCHED_OUT_OF_RANGE);
    must(refusal([] { return scheduler({3, 4, 16, UINT32_MAX}); }) == CUBEJOBS_SCHED_OUT_OF_RANGE);
    scheduler mine({3, 4, 16, 2});
    must(mine.code() == CUBEJOBS_SCHED_DONE);
    lost_workers(mine);
    sched_worker one = mine.worker(), two = mine.worker();
    must(one && two && one.number() + two.number() == 1 && one.code() == CUBEJOBS_SCHED_DONE);
    jobs_that_wait(mine, one, two);
    must(mine.occupy(4, 2) == CUBEJOBS_SCHED_DONE && mine.counts().occupied == 4);
    must(mine.occupy(3, 1) == CUBEJOBS_SCHED_OUT_OF_RANGE && mine.vacate(0, 2) == CUBEJOBS_SCHED_WRONG_STATE);
    must(one.try_next().code() == CUBEJOBS_SCHED_NO_JOB && mine.vacate(4, 2) == CUBEJOBS_SCHED_DONE);
    must(mine.rest().code == CUBEJOBS_SCHED_WRONG_STATE);
    must(mine.close(static_cast<waiting>(2)) == CUBEJOBS_SCHED_OUT_OF_RANGE);
    must(mine.close(waiting::comes_back) == CUBEJOBS_SCHED_DONE && mine.close(waiting::runs) == CUBEJOBS_SCHED_CLOSED);
    must(mine.submit(request_of(1, 1)).code == CUBEJOBS_SCHED_CLOSED && one.next().code() == CUBEJOBS_SCHED_CLOSED);
    must(mine.rest().payload + mine.rest().payload == 70 && mine.rest().code == CUBEJOBS_SCHED_NO_JOB);
}

/* ---- what was moved from */

static void must_be_empty(const scheduler &none) {
    const cubejobs_sched_request request = request_of(1, 1);
    must(none.code() == CUBEJOBS_SCHED_NOT_OPEN && none.submit(request).code == CUBEJOBS_SCHED_NOT_OPEN);
    must(none.try_submit(request).code == CUBEJOBS_SCHED_NOT_OPEN);
    must(none.submit_for(request, milliseconds(1)).code == CUBEJOBS_SCHED_NOT_OPEN);
    must(none.submit_until(request, clock_of_test::now()).code == CUBEJOBS_SCHED_NOT_OPEN);
    must(none.cancel(1).code == CUBEJOBS_SCHED_NOT_OPEN && none.forecast(1).code == CUBEJOBS_SCHED_NOT_OPEN);
    must(none.counts().code == CUBEJOBS_SCHED_NOT_OPEN && none.rest().code == CUBEJOBS_SCHED_NOT_OPEN);
    must(none.occupy(0, 0) == CUBEJOBS_SCHED_NOT_OPEN && none.vacate(0, 0) == CUBEJOBS_SCHED_NOT_OPEN);
    must(none.lost(0) == CUBEJOBS_SCHED_NOT_OPEN && none.close(waiting::runs) == CUBEJOBS_SCHED_NOT_OPEN);
    must(refusal([&] { return none.worker(); }) == CUBEJOBS_SCHED_NOT_OPEN);
}

static void must_be_empty(sched_worker &none) {
    must(!none && none.code() == CUBEJOBS_SCHED_NOT_OPEN && none.number() == UINT32_MAX);
    must(none.next().code() == CUBEJOBS_SCHED_NOT_OPEN && none.try_next().code() == CUBEJOBS_SCHED_NOT_OPEN);
    must(none.next_for(milliseconds(1)).code() == CUBEJOBS_SCHED_NOT_OPEN);
    must(none.next_until(clock_of_test::now()).code() == CUBEJOBS_SCHED_NOT_OPEN);
}

static void must_be_empty(allocation &none) {
    must(!none && none.code() == CUBEJOBS_SCHED_NOT_OPEN && none.done() == CUBEJOBS_SCHED_NOT_OPEN);
    must(none.base() == 0 && none.processors() == 0 && none.payload() == 0 && none.ticket() == 0);
}

static void moved() {
    scheduler first({3, 4, 16, 2}), mine = std::move(first);
    sched_worker one = mine.worker(), same = std::move(one);
    submitted(mine, 7, 8);
    allocation job = same.next(), kept = std::move(job), none;
    must_be_empty(first);
    must_be_empty(one);
    must_be_empty(job);
    must_be_empty(none);
    must_have(kept, 7, 0, 8);
    allocation &itself = kept;
    kept = std::move(itself);
    sched_worker &this_one = same;
    same = std::move(this_one);
    scheduler &this_too = mine;
    mine = std::move(this_too);
    must_have(kept, 7, 0, 8);
    must_count(mine, 1, 0);
    scheduler other({1, 1, 16, 1});
    same = other.worker();
    must_count(mine, 1, 0);
    kept = allocation();
    must_count(mine, 0, 0);
    one = mine.worker();
    mine = std::move(other);
    must(one.next().code() == CUBEJOBS_SCHED_CLOSED && same.try_next().code() == CUBEJOBS_SCHED_NO_JOB);
    must(mine.counts().waiting == 0 && mine.submit(request_of(1, 3)).code == CUBEJOBS_SCHED_OUT_OF_RANGE);
}

/* ---- what ends, and when */

/* Ends the owner, the worker and the job in one of the six orders, while a job waits. */
static void ends_in_order(int order) {
    static const char orders[6][4] = {"owj", "ojw", "woj", "wjo", "jow", "jwo"};
    std::optional<scheduler> owner(std::in_place, scheduler::options{3, 4, 16, 1});
    std::optional<sched_worker> worker = owner->worker();
    submitted(*owner, 1, 8);
    std::optional<allocation> job = worker->next();
    submitted(*owner, 2, 8);
    part = static_cast<unsigned long long>(order);
    for (const char *which = orders[order]; *which; which++) {
        if (*which == 'o') owner.reset();
        if (*which == 'w') worker.reset();
        if (*which == 'j') job.reset();
        if (job) must_have(*job, 1, 0, 8);
        if (!owner) continue;
        must_count(*owner, job ? 1 : 0, 1);
        must(refusal([&] { return owner->worker(); }) == (job || worker ? CUBEJOBS_SCHED_FULL : CUBEJOBS_SCHED_DONE));
    }
}

/* The owner ends first: the worker still runs what waits, and then all is over. */
static void owner_ends_first() {
    std::optional<scheduler> owner(std::in_place, scheduler::options{3, 4, 16, 2});
    sched_worker worker = owner->worker();
    std::optional<sched_worker> gone = owner->worker();
    submitted(*owner, 1, 4);
    submitted(*owner, 2, 8);
    allocation job = gone->next();
    std::thread sleeps([&worker] {
        must_have(worker.next(), 2, 0, 8);
        must(worker.next().code() == CUBEJOBS_SCHED_CLOSED);
    });
    owner.reset();
    gone.reset();
    nap(5 * MILLISECOND);
    must_have(job, 1, 0, 4);
    must(job.done() == CUBEJOBS_SCHED_DONE);
    sleeps.join();
}

/* An allocation that is kept ends its own job, and no newer one, in whichever thread. */
static void old_allocations() {
    scheduler mine({3, 4, 16, 1});
    sched_worker worker = mine.worker();
    for (std::uint64_t i = 1; i <= 4; i++) submitted(mine, i, 8);
    std::optional<allocation> first = worker.next(), second = worker.next();
    must(!*first && first->code() == CUBEJOBS_SCHED_NO_JOB && first->done() == CUBEJOBS_SCHED_WRONG_STATE);
    allocation job = worker.next();
    first.reset();
    std::thread([&second] { second.reset(); }).join();
    must_have(job, 3, 0, 8);
    must_count(mine, 1, 1);
    job = worker.next();
    must_have(job, 4, 0, 8);
    must_count(mine, 1, 0);
    std::thread([&job] { must(job.done() == CUBEJOBS_SCHED_DONE); }).join();
    must_count(mine, 0, 0);
    submitted(mine, 5, 8);
    job = worker.next();
    std::thread sleeps([&worker] { must_have(worker.next(), 6, 0, 8); });
    while (mine.counts().running) std::this_thread::yield();
    must(!job && job.done() == CUBEJOBS_SCHED_WRONG_STATE);
    submitted(mine, 6, 8);
    sleeps.join();
    submitted(mine, 7, 8);
    job = worker.next();
    must(worker.next_for(milliseconds(1)).code() == CUBEJOBS_SCHED_TIMED_OUT && !job);
    must_count(mine, 0, 0);
    worker = sched_worker(std::move(worker));
    must(refusal([&] { return mine.worker(); }) == CUBEJOBS_SCHED_FULL);
    { const sched_worker ends = std::move(worker); }
    must(refusal([&] { return mine.worker(); }) == CUBEJOBS_SCHED_DONE && job.code() == CUBEJOBS_SCHED_NO_JOB);
}

/* ---- deadlines */

static void times() {
    using cubejobs::of_sched::nanoseconds_of;
    using std::chrono::duration;
    using std::chrono::hours;
    const double endless = std::numeric_limits<double>::infinity();
    must(nanoseconds_of(hours(1)) == 3600000000000 && nanoseconds_of(duration<int, std::ratio<3600>>(2)) == 7200000000000);
    must(nanoseconds_of(std::chrono::nanoseconds(1234567890123456789)) == 1234567890123456789);
    must(nanoseconds_of(duration<std::int64_t, std::pico>(1)) == 1 && nanoseconds_of(duration<double>(0.25)) == 250000000);
    must(nanoseconds_of(duration<std::int64_t, std::ratio<1001, 30000>>(30000)) == 1001000000000);
    must(nanoseconds_of(duration<unsigned, std::milli>(7)) == 7000000 && nanoseconds_of(hours(0)) == 0);
    must(nanoseconds_of(hours(-1)) == 0 && nanoseconds_of(hours::min()) == 0 && nanoseconds_of(duration<double>(-endless)) == 0);
    must(nanoseconds_of(duration<double>(std::numeric_limits<double>::quiet_NaN())) == 0);
    must(nanoseconds_of(hours::max()) == NEVER && nanoseconds_of(duration<double>(endless)) == NEVER);
    must(nanoseconds_of(std::chrono::nanoseconds::max()) == NEVER && nanoseconds_of(hours(24 * 365 * 101)) != NEVER);
    must(cubejobs::of_sched::deadline_at(clock_of_test::time_point::max()) == NEVER);
    must(cubejobs::of_sched::deadline_at(clock_of_test::time_point::min()) == 1);
    must(cubejobs::of_sched::deadline_after(hours::max()) == NEVER && cubejobs::of_sched::deadline_after(hours(-1)) > 1);
    const std::uint64_t before = cubejobs_sched_now();
    const std::uint64_t steady = cubejobs::of_sched::deadline_at(clock_of_test::now());
    must(before <= steady && steady <= cubejobs_sched_now());
}

/* Threads sleep until another one makes a place, and until it submits. Their deadlines are far away or none. */
static void sleepers() {
    const auto far = std::chrono::time_point<clock_of_test, std::chrono::hours>(std::chrono::hours::max());
    scheduler mine({0, 1, 16, 1});
    sched_worker worker = mine.worker();
    submitted(mine, 1, 1);
    std::thread submits([&mine, far] {
        must(mine.submit_until(request_of(2, 1), far).code == CUBEJOBS_SCHED_DONE);
        must(mine.submit_for(request_of(3, 1), std::chrono::hours::max()).code == CUBEJOBS_SCHED_DONE);
        must(mine.submit(request_of(4, 1)).code == CUBEJOBS_SCHED_DONE);
        must(mine.submit_for(request_of(5, 1), std::chrono::minutes(10)).code == CUBEJOBS_SCHED_CLOSED);
    });
    nap(5 * MILLISECOND);
    must_have(worker.next(), 1, 0, 1);
    must_have(worker.next_until(far), 2, 0, 1);
    must_have(worker.next_for(std::chrono::hours::max()), 3, 0, 1);
    while (mine.counts().waiting == 0) std::this_thread::yield();
    nap(5 * MILLISECOND);
    must(mine.close(waiting::runs) == CUBEJOBS_SCHED_DONE);
    submits.join();
    must_have(worker.next_for(milliseconds(1)), 4, 0, 1);
    must(worker.next().code() == CUBEJOBS_SCHED_CLOSED);
}

/* ---- a crowd */

constexpr unsigned submitters = 4, workers = 8, seats = 12, dim = 6;

/* What has happened to a job: how often it ran, and how often it was taken back, refused or given back. */
struct fate {
    std::atomic<unsigned> ran{0}, back{0};
};

struct crowd {
    scheduler sched{scheduler::options{dim, 48, 4, seats}};
    std::vector<fate> fates;
    std::uint64_t seed;
    std::mutex lock{};
    std::vector<allocation> left{}; /* guarded by `lock` */
    std::atomic<bool> is_over{false};
    std::atomic<unsigned> thrown{0}, cancelled{0}, late{0}, passed_on{0};
    crowd(unsigned jobs, std::uint64_t first) : fates(jobs), seed(first) {}
};

/* The use of a job's processors. No other job has one of them until this ends. */
struct use {
    explicit use(const allocation &job) : base(job.base()), processors(job.processors()), payload(job.payload()) {
        pass(base, processors, 0, payload);
    }
    use(const use &) = delete;
    use &operator=(const use &) = delete;
    ~use() { pass(base, processors, payload, 0); }
    std::uint64_t base, processors, payload;
};

/* Runs a job, which may throw. */
static void run(crowd &all, const allocation &job, std::uint64_t *state) {
    const use mine(job);
    all.fates[job.payload() - 1].ran++;
    if (below(state, 4) == 0) spin(below(state, 20000));
#ifdef CUBEJOBS_THROWS
    if (below(state, 8) == 0) throw std::runtime_error("a job");
#endif
}

/* Leaves a job to the thread that sweeps. */
static void pass_on(crowd &all, allocation job) {
    std::lock_guard<std::mutex> locked(all.lock);
    all.left.push_back(std::move(job));
    all.passed_on++;
}

/* Ends the jobs that are left to it, until the workers have ended. */
static void sweep(crowd &all) {
    for (bool was_over = false; !was_over; nap(20000)) {
        was_over = all.is_over;
        std::lock_guard<std::mutex> locked(all.lock);
        all.left.clear();
    }
}

/* Returns a worker. While jobs of workers that have ended run, there may be none. */
static sched_worker seated(crowd &all) {
    for (;;) {
#ifdef CUBEJOBS_THROWS
        try {
            return all.sched.worker();
        } catch (const cubejobs::error &full) {
            must(full.code == CUBEJOBS_SCHED_FULL);
        }
#else
        sched_worker made = all.sched.worker();
        if (made) return made;
        must(made.code() == CUBEJOBS_SCHED_FULL);
#endif
        std::this_thread::yield();
    }
}

/* Takes a job in one of the ways in which a worker can. */
static allocation taken(sched_worker &worker, std::uint64_t *state) {
    switch (below(state, 4)) {
    case 0: return worker.try_next();
    case 1: return worker.next_for(microseconds(below(state, 300)));
    case 2: return worker.next_until(clock_of_test::now() + microseconds(below(state, 300)));
    default: return worker.next();
    }
}

/* Runs jobs until all is over. A worker keeps the allocation of its last job, ends it, or leaves it to another thread. It
 * ends itself too, also while its job runs. If it goes on, it and the other thread may both end the job. */
static void work(crowd &all, std::uint64_t number) {
    std::uint64_t state = state_of(all.seed, number);
    sched_worker worker = seated(all);
    allocation kept;
    for (;;) {
        allocation job = taken(worker, &state);
        must(!kept);
        if (job.code() == CUBEJOBS_SCHED_CLOSED) return;
        all.late += job.code() == CUBEJOBS_SCHED_TIMED_OUT;
        if (!job) continue;
#ifdef CUBEJOBS_THROWS
        try {
            run(all, job, &state);
        } catch (const std::runtime_error &) {
            all.thrown++;
            continue;
        }
#else
        run(all, job, &state);
#endif
        const std::uint32_t then = below(&state, 16);
        if (then < 4) kept = std::move(job);
        if (then == 4 || then == 5) must(job.done() == CUBEJOBS_SCHED_DONE);
        if (then == 6 || then == 7) pass_on(all, std::move(job));
        if (then == 5 || then == 6) worker = seated(all);
    }
}

/* Submits each fourth job in one of the ways in which a thread can, and cancels some. */
static void submit(crowd &all, std::uint64_t number) {
    std::uint64_t state = state_of(all.seed, workers + number);
    for (std::uint64_t i = number; i < all.fates.size(); i += submitters) {
        const cubejobs_sched_request request = request_of(i + 1, 1 + below(&state, below(&state, 16) ? 8 : 1 << dim));
        const auto time = microseconds(below(&state, 300));
        cubejobs_sched_job job = {CUBEJOBS_SCHED_FULL, 0, 0, 0, 0};
        switch (below(&state, 4)) {
        case 0: job = all.sched.try_submit(request); break;
        case 1: job = all.sched.submit_for(request, time); break;
        case 2: job = all.sched.submit_until(request, clock_of_test::now() + time); break;
        default: job = all.sched.submit(request); break;
        }
        if (job.code != CUBEJOBS_SCHED_DONE) {
            must(job.code == CUBEJOBS_SCHED_FULL || job.code == CUBEJOBS_SCHED_TIMED_OUT || job.code == CUBEJOBS_SCHED_CLOSED);
            all.fates[i].back++;
        } else if (below(&state, 4) == 0 && all.sched.cancel(job.ticket).code == CUBEJOBS_SCHED_DONE) {
            all.fates[i].back++;
            all.cancelled++;
        }
    }
}

/* Lets a crowd run. It is closed at its end, or in the middle, and then some jobs come back. */
static void crowds(unsigned jobs, std::uint64_t seed, bool is_early) {
    crowd all(jobs, seed);
    std::vector<std::thread> submit_threads, work_threads;
    std::thread sweeper([&all] { sweep(all); });
    part = seed;
    limit();
    for (unsigned i = 0; i < workers; i++) work_threads.emplace_back([&all, i] { work(all, i); });
    for (unsigned i = 0; i < submitters; i++) submit_threads.emplace_back([&all, i] { submit(all, i); });
    if (is_early) nap(2 * MILLISECOND);
    if (is_early) must(all.sched.close(waiting::comes_back) == CUBEJOBS_SCHED_DONE);
    for (std::thread &thread : submit_threads) thread.join();
    if (!is_early) must(all.sched.close(waiting::runs) == CUBEJOBS_SCHED_DONE);
    for (std::thread &thread : work_threads) thread.join();
    all.is_over = true;
    sweeper.join();
    for (;;) {
        const cubejobs_sched_job back = all.sched.rest();
        if (back.code != CUBEJOBS_SCHED_DONE) break;
        all.fates[back.payload - 1].back++;
    }
    for (const fate &it : all.fates) must(it.ran + it.back == 1);
    must_count(all.sched, 0, 0);
    must(all.sched.counts().held == 0 && all.sched.counts().asked == 0);
    if (is_early || jobs < 2000) return;
    must(all.cancelled && all.late && all.passed_on);
#ifdef CUBEJOBS_THROWS
    must(all.thrown);
#endif
}

int main(int argc, char **argv) {
    const unsigned jobs = argc > 1 ? static_cast<unsigned>(std::atoi(argv[1])) : 2000;
    limit();
    each_call();
    moved();
    for (int order = 0; order < 6; order++) ends_in_order(order);
    owner_ends_first();
    old_allocations();
    times();
    sleepers();
    for (std::uint64_t seed = 1; seed <= 4; seed++) crowds(jobs, seed, seed % 2 == 0);
    std::puts("ffi: owners of C++ end each job of a scheduler, and each worker, once");
}
