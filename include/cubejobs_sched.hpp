/* Owners of the scheduler for threads, for C++17 and later.
 *
 * cubejobs::scheduler owns a scheduler of cubejobs_sched.h. cubejobs::sched_worker is a worker of
 * it, and cubejobs::allocation is a job that runs on its processors. A worker is a loop:
 *
 *     cubejobs::sched_worker worker = sched.worker();
 *     while (cubejobs::allocation job = worker.next())
 *         run(job.payload(), job.base(), job.processors());
 *
 * A job ends with its allocation, also if it throws. It ends too when its worker asks for the next
 * one. An allocation that is kept does not end another job. With this loop one call ends a job and
 * gets the next one:
 *
 *     cubejobs::allocation job;
 *     while ((job = worker.next())) run(job.payload(), job.base(), job.processors());
 *
 * Threads. Any thread makes any call of a scheduler, by a reference to its owner. Only a thread
 * that moves or ends the owner needs it alone. A worker is one thread's at a time, and so is an
 * allocation. An allocation may go to another thread than its worker.
 *
 * Ends. A worker leaves at its end, or with its job if that ends later. The end of the owner closes
 * the scheduler: no job comes any more, and workers still run the jobs that wait. The scheduler
 * itself lasts as long as its owner, a worker or an allocation. Then it is freed, and jobs that
 * still wait are dropped with their payloads. If you need these numbers, call rest() before.
 *
 * All owners move, and none is copied. One that was moved from is empty: its calls answer NOT_OPEN.
 * A scheduler or a worker that cannot be opened throws a cubejobs::error. Without exceptions
 * (-fno-exceptions) it is empty, and code() has the reason. Where memory of C++ runs out, the
 * program ends then.
 *
 * Deadlines. With try_ a call waits for no job and no place, and answers FULL or NO_JOB. With _for
 * or _until it waits until the deadline, and then answers TIMED_OUT. If that has passed before, it only tries.
 * A deadline after more than 100 years is none. A time of the steady clock is taken for one of
 * CLOCK_MONOTONIC: in libstdc++ and libc++ on Linux it is.
 *
 * The duties and the codes are those of cubejobs_sched.h. Link libcubejobs_sched.a. The owners are
 * tested, and no theorem is about them.
 */
#ifndef CUBEJOBS_SCHED_HPP
#define CUBEJOBS_SCHED_HPP

#include <atomic>
#include <chrono>
#include <cstdint>
#include <memory>
#include <mutex>
#include <utility>
#include <vector>

#include "cubejobs_error.hpp"
#include "cubejobs_sched.h"

namespace cubejobs {

/* What happens to the jobs that wait when a scheduler is closed. */
enum class waiting : std::uint32_t { runs = 0, comes_back = 1 };

/* What the owners share. Programs do not use it. */
namespace of_sched {

/* Returns a time in nanoseconds: 0 if it is not above zero, and NEVER if it is too long. */
template <class Rep, class Period> std::uint64_t nanoseconds_of(const std::chrono::duration<Rep, Period> &time) {
    using std::chrono::nanoseconds;
    const double all = std::chrono::duration<double>(time).count();
    if (!(all > 0)) return 0;
    if (all > 3.2e9) return CUBEJOBS_SCHED_NEVER;
    const auto whole = std::chrono::duration_cast<std::chrono::seconds>(time);
    const auto part = std::chrono::ceil<nanoseconds>(time - whole);
    return static_cast<std::uint64_t>(whole.count()) * 1000000000 + static_cast<std::uint64_t>(part.count());
}

/* Returns the deadline after a time. Also one that has passed is not 0: the code is TIMED_OUT. */
template <class Rep, class Period> std::uint64_t deadline_after(const std::chrono::duration<Rep, Period> &time) {
    const std::uint64_t all = nanoseconds_of(time);
    return all == CUBEJOBS_SCHED_NEVER ? all : cubejobs_sched_now() + all;
}

/* Returns the deadline at a time of the steady clock. */
template <class Duration>
std::uint64_t deadline_at(const std::chrono::time_point<std::chrono::steady_clock, Duration> &time) {
    const std::uint64_t all = nanoseconds_of(time.time_since_epoch());
    return all ? all : 1;
}

/* A scheduler. The last of those that share it frees it. */
class shared {
  public:
    shared() = default;
    shared(const shared &) = delete;
    shared &operator=(const shared &) = delete;
    ~shared() {
        cubejobs_sched_close(&at, static_cast<std::uint32_t>(waiting::comes_back));
        while (cubejobs_sched_rest(&at).code == CUBEJOBS_SCHED_DONE) {}
        cubejobs_sched_free(&at);
    }
    cubejobs_sched_code open(const cubejobs_sched_options &wanted) {
        const cubejobs_sched_code code = cubejobs_sched_open(&at, wanted);
        if (code == CUBEJOBS_SCHED_DONE) std::vector<std::atomic<std::uint32_t>>(wanted.workers).swap(losses);
        return code;
    }
    cubejobs_sched_code lose(std::uint32_t number) {
        std::lock_guard<std::mutex> locked(turn);
        const cubejobs_sched_code code = cubejobs_sched_lost(&at, number);
        if (code == CUBEJOBS_SCHED_DONE) losses[number]++;
        return code;
    }
    cubejobs_sched at = {};
    /* How many workers with a number were lost. A thread that loses a worker, or gives one out,
     * has `turn`. */
    std::vector<std::atomic<std::uint32_t>> losses{};
    std::mutex turn{};
};

/* A worker's place, which the worker shares with its jobs. `running` is the ticket of its job, or
 * 0. A thread that ends this job has `turn`. So the job ends once, and no other one does instead. */
class seat {
  public:
    explicit seat(std::shared_ptr<shared> common) : all(std::move(common)) {}
    seat(const seat &) = delete;
    seat &operator=(const seat &) = delete;
    cubejobs_sched_code sit() {
        std::lock_guard<std::mutex> locked(all->turn);
        const cubejobs_sched_code code = cubejobs_sched_worker(&all->at, &at);
        if (code == CUBEJOBS_SCHED_DONE) losses = all->losses[at.number];
        return code;
    }
    bool is_lost() const { return all->losses[at.number] != losses; }
    bool runs(std::uint64_t ticket) const { return running == ticket && !is_lost(); }
    cubejobs_sched_job next(std::uint64_t deadline) {
        {
            std::lock_guard<std::mutex> locked(turn);
            running = 0;
        }
        if (is_lost()) return {CUBEJOBS_SCHED_WRONG_STATE, 0, 0, 0, 0};
        const cubejobs_sched_job job = cubejobs_sched_next(&at, deadline);
        running = job.ticket;
        return job;
    }
    cubejobs_sched_code end(std::uint64_t ticket) {
        std::lock_guard<std::mutex> locked(turn);
        if (!runs(ticket)) return CUBEJOBS_SCHED_WRONG_STATE;
        running = 0;
        return is_left ? cubejobs_sched_leave(&at) : cubejobs_sched_done(&at);
    }
    void leave() {
        std::lock_guard<std::mutex> locked(turn);
        is_left = true;
        if (!running && !is_lost()) cubejobs_sched_leave(&at);
    }
    std::shared_ptr<shared> all;
    struct cubejobs_sched_worker at = {nullptr, 0, 0, 0};
    std::uint32_t losses = 0;
    bool is_left = false;
    std::atomic<std::uint64_t> running{0};
    std::mutex turn{};
};
}

/* A job that runs on its processors, or the code of the call that gave none. */
class allocation {
  public:
    allocation() = default;
    allocation(allocation &&other) noexcept { swap(other); }
    allocation &operator=(allocation &&other) noexcept {
        allocation(std::move(other)).swap(*this);
        return *this;
    }
    ~allocation() { done(); }
    /* Returns whether the job runs: not if it was ended, also by its worker's next call. */
    explicit operator bool() const { return its && its->runs(taken.ticket); }
    /* Returns why no job runs: DONE if one does, NO_JOB if it was ended. */
    cubejobs_sched_code code() const {
        return taken.code == CUBEJOBS_SCHED_DONE && !*this ? CUBEJOBS_SCHED_NO_JOB : taken.code;
    }
    /* Return what the job has. This stays after its end. Without a job it is 0. */
    std::uint64_t base() const { return taken.base; }
    std::uint32_t processors() const { return taken.processors; }
    std::uint64_t payload() const { return taken.payload; }
    std::uint64_t ticket() const { return taken.ticket; }
    /* Ends the job now. Codes: NOT_OPEN (there was none), WRONG_STATE (it was ended, or its worker
     * was lost), DONE. */
    cubejobs_sched_code done() {
        if (taken.code != CUBEJOBS_SCHED_DONE) return CUBEJOBS_SCHED_NOT_OPEN;
        const cubejobs_sched_code code = its ? its->end(taken.ticket) : CUBEJOBS_SCHED_WRONG_STATE;
        its.reset();
        return code;
    }

  private:
    friend class sched_worker;
    void swap(allocation &other) noexcept {
        std::swap(its, other.its);
        std::swap(taken, other.taken);
    }
    std::shared_ptr<of_sched::seat> its = {};
    cubejobs_sched_job taken = {CUBEJOBS_SCHED_NOT_OPEN, 0, 0, 0, 0};
};

/* A worker of a scheduler. */
class sched_worker {
  public:
    sched_worker(sched_worker &&) = default;
    sched_worker &operator=(sched_worker &&other) noexcept {
        sched_worker old(std::move(other));
        std::swap(mine, old.mine);
        std::swap(reason, old.reason);
        return *this;
    }
    ~sched_worker() {
        if (mine) mine->leave();
    }
    explicit operator bool() const { return mine != nullptr; }
    /* Returns why this is no worker: DONE if it is one, NOT_OPEN if it was moved from. */
    cubejobs_sched_code code() const { return mine ? CUBEJOBS_SCHED_DONE : reason; }
    /* Returns its number, for scheduler::lost, or UINT32_MAX if this is no worker. */
    std::uint32_t number() const { return mine ? mine->at.number : UINT32_MAX; }
    /* Ends the last job, and sleeps until there is a next one. Codes without one: NOT_OPEN,
     * WRONG_STATE (the worker was lost), CLOSED. */
    [[nodiscard]] allocation next() { return next_by(CUBEJOBS_SCHED_NEVER); }
    /* The same without sleep. The code is NO_JOB if there is no job now. */
    [[nodiscard]] allocation try_next() { return next_by(0); }
    /* The same for at most this time. Then the code is TIMED_OUT. */
    template <class Rep, class Period>
    [[nodiscard]] allocation next_for(const std::chrono::duration<Rep, Period> &time) {
        return next_by(of_sched::deadline_after(time));
    }
    /* The same until a time. Then the code is TIMED_OUT. */
    template <class Duration>
    [[nodiscard]] allocation next_until(const std::chrono::time_point<std::chrono::steady_clock, Duration> &time) {
        return next_by(of_sched::deadline_at(time));
    }

  private:
    friend class scheduler;
    explicit sched_worker(const std::shared_ptr<of_sched::shared> &all) {
        auto made = all ? std::make_shared<of_sched::seat>(all) : nullptr;
        const cubejobs_sched_code code = made ? made->sit() : CUBEJOBS_SCHED_NOT_OPEN;
        if (code == CUBEJOBS_SCHED_DONE) mine = std::move(made);
        else reason = code;
        check(code);
    }
    allocation next_by(std::uint64_t deadline) {
        allocation made;
        if (!mine) return made;
        made.taken = mine->next(deadline);
        if (made.taken.code == CUBEJOBS_SCHED_DONE) made.its = mine;
        return made;
    }
    std::shared_ptr<of_sched::seat> mine = {};
    cubejobs_sched_code reason = CUBEJOBS_SCHED_NOT_OPEN;
};

/* A scheduler. Its calls are those of cubejobs_sched.h, with the same answers. */
class scheduler {
  public:
    /* What a scheduler is opened for, as struct cubejobs_sched_options says. */
    struct options {
        std::uint32_t dim = 0;
        std::uint32_t jobs = 0;
        std::uint32_t patience = 16;
        std::uint32_t workers = 0;
    };
    explicit scheduler(const options &wanted) : all(std::make_shared<of_sched::shared>()) {
        const cubejobs_sched_code code = all->open({wanted.dim, wanted.jobs, wanted.patience, wanted.workers});
        if (code != CUBEJOBS_SCHED_DONE) {
            all.reset();
            reason = code;
        }
        check(code);
    }
    scheduler(scheduler &&) = default;
    scheduler &operator=(scheduler &&other) noexcept {
        scheduler old(std::move(other));
        std::swap(all, old.all);
        std::swap(reason, old.reason);
        return *this;
    }
    ~scheduler() { close(waiting::runs); }
    /* Returns why the scheduler is not open: DONE if it is, NOT_OPEN if it was moved from. */
    cubejobs_sched_code code() const { return all ? CUBEJOBS_SCHED_DONE : reason; }
    /* Returns a worker, for one thread. */
    sched_worker worker() const { return sched_worker(all); }
    /* Submits a job, and sleeps while there is no place for it. The result has the ticket. */
    [[nodiscard]] cubejobs_sched_job submit(const cubejobs_sched_request &job) const {
        return submit_by(job, CUBEJOBS_SCHED_NEVER);
    }
    /* The same without sleep. The code is FULL if there is no place now. */
    [[nodiscard]] cubejobs_sched_job try_submit(const cubejobs_sched_request &job) const { return submit_by(job, 0); }
    /* The same for at most this time. Then the code is TIMED_OUT. */
    template <class Rep, class Period>
    [[nodiscard]] cubejobs_sched_job submit_for(const cubejobs_sched_request &job,
                                                const std::chrono::duration<Rep, Period> &time) const {
        return submit_by(job, of_sched::deadline_after(time));
    }
    /* The same until a time. Then the code is TIMED_OUT. */
    template <class Duration>
    [[nodiscard]] cubejobs_sched_job submit_until(
        const cubejobs_sched_request &job,
        const std::chrono::time_point<std::chrono::steady_clock, Duration> &time) const {
        return submit_by(job, of_sched::deadline_at(time));
    }
    cubejobs_sched_job cancel(std::uint64_t ticket) const {
        return all ? cubejobs_sched_cancel(&all->at, ticket) : none();
    }
    struct cubejobs_sched_forecast forecast(std::uint64_t ticket) const {
        if (!all) return {CUBEJOBS_SCHED_NOT_OPEN, 0, 0, 0, 0, 0};
        return cubejobs_sched_forecast(&all->at, ticket);
    }
    struct cubejobs_sched_counts counts() const {
        if (!all) return {CUBEJOBS_SCHED_NOT_OPEN, 0, 0, 0, 0, 0, 0};
        return cubejobs_sched_counts(&all->at);
    }
    cubejobs_sched_code occupy(std::uint64_t base, std::uint32_t dim) const {
        return all ? cubejobs_sched_occupy(&all->at, base, dim) : CUBEJOBS_SCHED_NOT_OPEN;
    }
    cubejobs_sched_code vacate(std::uint64_t base, std::uint32_t dim) const {
        return all ? cubejobs_sched_vacate(&all->at, base, dim) : CUBEJOBS_SCHED_NOT_OPEN;
    }
    /* Gives back a worker whose thread is gone. Its owner may still end, and that does nothing. */
    cubejobs_sched_code lost(std::uint32_t number) const { return all ? all->lose(number) : CUBEJOBS_SCHED_NOT_OPEN; }
    /* Closes the scheduler. The jobs that wait still run, or rest() gives them back. */
    cubejobs_sched_code close(waiting what) const {
        return all ? cubejobs_sched_close(&all->at, static_cast<std::uint32_t>(what)) : CUBEJOBS_SCHED_NOT_OPEN;
    }
    /* Gives one waiting job of a closed scheduler back. */
    [[nodiscard]] cubejobs_sched_job rest() const { return all ? cubejobs_sched_rest(&all->at) : none(); }

  private:
    static cubejobs_sched_job none() { return {CUBEJOBS_SCHED_NOT_OPEN, 0, 0, 0, 0}; }
    cubejobs_sched_job submit_by(const cubejobs_sched_request &job, std::uint64_t deadline) const {
        return all ? cubejobs_sched_submit(&all->at, job, deadline) : none();
    }
    std::shared_ptr<of_sched::shared> all;
    cubejobs_sched_code reason = CUBEJOBS_SCHED_NOT_OPEN;
};
}

#endif
