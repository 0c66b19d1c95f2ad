/* Owners for C++11 and later. When its owner ends, a block is released, and a handle comes back.
 *
 * cubejobs::machine is a handle of a machine of cubejobs_regions.h, for one thread.
 * cubejobs::first_fit is a machine of cubejobs_fit.h, for one thread at a time, in memory of its own
 * or of yours.
 * cubejobs::planner is a planner of cubejobs_plan.h, for one thread at a time.
 * cubejobs::lanes owns lanes of cubejobs_lanes.h. It gives out a lane for each producer and a worker
 * for each consumer.
 *
 * All owners move, and none is copied. One that was moved from is empty: its calls answer NOT_OPEN,
 * and BAD_SIZE that of a first_fit. A machine lasts as long as a handle of it or a block. Lanes
 * last as long as their owner, a lane or a worker. A planner ends with its owner. The duties are
 * those of the C headers. These types keep all that is about handles, except that one thread at a
 * time uses a machine's handle, a planner, a lane or a worker. Blocks use the handle with which they
 * were taken, until machine::adopt gives a block another.
 *
 * An owner that cannot be opened throws a cubejobs::error. Without exceptions (-fno-exceptions) it
 * is empty, and code() has the reason. Where memory of C++ runs out, the program ends then.
 *
 * The waits of a machine and of a lane are those of cubejobs_wait.h, which says why no wake-up is
 * lost: take_or_wait, take_for, take_until and stop_waits, and submit_or_wait, submit_for and
 * submit_until. They sleep by a mutex and a condition variable, in each standard.
 *
 * In C++20 a worker can sleep: next() waits for a job. Before C++20 there is try_next() alone. Files
 * of a program may use the same lanes only if all or none of them are compiled as C++20.
 */
#ifndef CUBEJOBS_HPP
#define CUBEJOBS_HPP

#include <atomic>
#include <chrono>
#include <condition_variable>
#include <cstddef>
#include <cstdint>
#include <memory>
#include <mutex>
#include <thread>
#include <utility>
#include <vector>

#include "cubejobs_error.hpp"
#include "cubejobs_fit.h"
#include "cubejobs_lanes.h"
#include "cubejobs_plan.h"
#include "cubejobs_regions.h"

namespace cubejobs {

/* A block of a machine of type M, or the code of the call that was refused. */
template <class M> class owned {
  public:
    owned() = default;
    owned(owned &&other) noexcept { swap(other); }
    owned &operator=(owned &&other) noexcept {
        owned(std::move(other)).swap(*this);
        return *this;
    }
    ~owned() { release(); }
    explicit operator bool() const { return handle != nullptr; }
    std::uint32_t code() const { return taken.code; }
    std::uint64_t base() const { return taken.base; }
    std::uint32_t dim() const { return taken.dim; }
    /* Releases the block now. Then this owns nothing. */
    void release() {
        if (handle) M::release(*handle, held, taken);
        handle.reset();
        taken = M::nothing();
    }

  protected:
    friend M;
    void swap(owned &other) {
        std::swap(handle, other.handle);
        std::swap(held, other.held);
        std::swap(taken, other.taken);
    }
    std::shared_ptr<typename M::shared> handle = {};
    typename M::place held = {};
    typename M::answer taken = M::nothing();
};

/* An event count, as that of cubejobs_wait.h. */
class event {
  public:
    using clock = std::chrono::steady_clock;
    /* Passes a call the deadline after a time, or null if the clock does not reach it. */
    template <class Rep, class Period, class Call>
    static auto until(const std::chrono::duration<Rep, Period> &time, Call call)
        -> decltype(call(static_cast<const clock::time_point *>(nullptr))) {
        using seconds = std::chrono::duration<double>;
        const clock::time_point now = clock::now();
        if (seconds(time) >= seconds(clock::time_point::max() - now)) return call(nullptr);
        const clock::time_point deadline = now + std::chrono::duration_cast<clock::duration>(time);
        return call(&deadline);
    }
    /* Returns the key of now. Read it before the call that may be refused. */
    std::uint32_t key() { return state.fetch_or(1) | 1; }
    void raise() {
        std::uint32_t now = state;
        if (now % 2 == 0 || !state.compare_exchange_strong(now, now + 1)) return;
        { std::lock_guard<std::mutex> locked(sleep); }
        changed.notify_all();
    }
    void stop() {
        is_stopped = true;
        raise();
    }
    /* Sleeps until it is raised, or until a deadline. Returns whether the deadline passed before. */
    bool wait(std::uint32_t key, const clock::time_point *deadline) {
        std::unique_lock<std::mutex> locked(sleep);
        const auto is_raised = [this, key] { return state != key; };
        if (deadline) return !changed.wait_until(locked, *deadline, is_raised);
        changed.wait(locked, is_raised);
        return false;
    }
    std::atomic<std::uint32_t> state{0};
    std::atomic<bool> is_stopped{false};
    std::mutex turn{};

  private:
    std::mutex sleep{};
    std::condition_variable changed{};
};

/* A handle of a machine of regions. */
class machine {
  public:
    using block = owned<machine>;
    explicit machine(std::uint32_t dim) : handle(std::make_shared<shared>(std::make_shared<event>())) {
        opened(cubejobs_regions_open(&handle->at, dim));
    }
    machine(machine &&) = default;
    machine &operator=(machine &&) = default;
    /* Returns why the handle is not open: DONE if it is, NOT_OPEN if it was moved from. */
    std::uint32_t code() const { return handle ? std::uint32_t{CUBEJOBS_REGIONS_DONE} : reason; }
    /* Returns a handle for another thread. */
    machine share() {
        machine other;
        if (handle) other.handle = std::make_shared<shared>(handle->waits);
        other.opened(handle ? cubejobs_regions_share(&handle->at, &other.handle->at) : CUBEJOBS_REGIONS_NOT_OPEN);
        return other;
    }
    block take(std::uint32_t k) { return raised(filled(cubejobs_regions_take, k)); }
    block take_exact(std::uint32_t k) { return raised(filled(cubejobs_regions_take_exact, k)); }
    block take_at(std::uint64_t base, std::uint32_t k) { return raised(filled(cubejobs_regions_take_at, base, k)); }
    /* Takes a block, and sleeps until it can. The code is neither NO_ROOM nor NOT_NOW. */
    block take_or_wait(std::uint32_t k) { return waited(k, nullptr); }
    /* Takes a block, and sleeps until it can or the time has come. Then the code is TIMED_OUT. */
    block take_until(std::uint32_t k, event::clock::time_point deadline) { return waited(k, &deadline); }
    /* The same for at most this time. A time that the clock does not reach is no deadline. */
    template <class Rep, class Period> block take_for(std::uint32_t k, const std::chrono::duration<Rep, Period> &time) {
        return event::until(time, [this, k](const event::clock::time_point *deadline) { return waited(k, deadline); });
    }
    /* Ends all waits of the machine with STOPPED: those of now and of later, of all its handles. */
    void stop_waits() {
        if (handle) handle->waits->stop();
    }
    /* Has a block use this handle from now on: call it in the thread that has the block. */
    void adopt(block &of_this_machine) {
        if (of_this_machine && handle) of_this_machine.handle = handle;
    }
    /* Leaves the block its lower half, and returns the upper one. One processor has no halves. */
    block split(block &lower) {
        block upper;
        upper.taken.code = CUBEJOBS_REGIONS_NOT_OPEN;
        if (!handle) return upper;
        upper.taken.code = static_cast<std::uint16_t>(cubejobs_regions_split(&handle->at, &lower.held, &upper.held));
        if (upper.taken.code) return upper;
        upper.handle = handle;
        look(lower);
        look(upper);
        return upper;
    }
    /* Joins a lower half with the upper one, which then owns nothing. Returns whether it did. */
    bool join(block &lower, block &upper) {
        if (&lower == &upper || !handle) return false;
        if (cubejobs_regions_join(&handle->at, &lower.held, &upper.held)) return false;
        upper.handle.reset();
        look(lower);
        look(upper);
        return true;
    }
    cubejobs_regions_occupancy_answer occupancy() {
        cubejobs_regions_occupancy_answer none = {CUBEJOBS_REGIONS_NOT_OPEN, 0, false, 0, {0}};
        return handle ? cubejobs_regions_occupancy(&handle->at) : none;
    }

  private:
    friend block;
    struct shared {
        explicit shared(std::shared_ptr<event> of_machine) : waits(std::move(of_machine)) {}
        shared(const shared &) = delete;
        shared &operator=(const shared &) = delete;
        ~shared() { cubejobs_regions_free(&at); }
        cubejobs_regions at = {};
        std::shared_ptr<event> waits;
    };
    using place = cubejobs_block;
    using answer = cubejobs_regions_answer;
    static answer nothing() { return {CUBEJOBS_REGIONS_NOTHING_HELD, 0, 0, 0}; }
    static void release(shared &thread, place &held, answer) {
        cubejobs_regions_release(&thread.at, &held);
        thread.waits->raise();
    }
    static void look(block &it) { it.taken = cubejobs_regions_block(&it.held); }
    machine() = default;
    void opened(std::uint32_t code) {
        if (code) handle.reset();
        reason = code ? code : std::uint32_t{CUBEJOBS_REGIONS_NOT_OPEN};
        check(code);
    }
    template <class... Numbers>
    block filled(answer (*call)(cubejobs_regions *, place *, Numbers...), Numbers... numbers) {
        block made;
        made.taken.code = CUBEJOBS_REGIONS_NOT_OPEN;
        if (handle) made.taken = call(&handle->at, &made.held, numbers...);
        if (!made.taken.code) made.handle = handle;
        return made;
    }
    block raised(block made) {
        if (handle) handle->waits->raise();
        return made;
    }
    static block refused(cubejobs_regions_code code) {
        block none;
        none.taken.code = static_cast<std::uint16_t>(code);
        return none;
    }
    /* Makes an exact take as the only waiter that does, unless the waits were stopped. */
    block in_turn(std::uint32_t k, std::uint32_t &key) {
        std::lock_guard<std::mutex> locked(handle->waits->turn);
        key = handle->waits->key();
        return handle->waits->is_stopped ? refused(CUBEJOBS_REGIONS_STOPPED) : filled(cubejobs_regions_take_exact, k);
    }
    /* As cubejobs_regions_take_until does, which says why no wake-up is lost. */
    block waited(std::uint32_t k, const event::clock::time_point *deadline) {
        if (handle && handle->waits->is_stopped) return refused(CUBEJOBS_REGIONS_STOPPED);
        block made = take(k);
        bool is_late = false;
        while (!is_late && (made.code() == CUBEJOBS_REGIONS_NOT_NOW || made.code() == CUBEJOBS_REGIONS_NO_ROOM)) {
            std::uint32_t key = 0;
            made = in_turn(k, key);
            if (made.code() == CUBEJOBS_REGIONS_NO_ROOM) {
                is_late = handle->waits->wait(key, deadline);
            } else if (made.code() == CUBEJOBS_REGIONS_NOT_NOW) {
                is_late = deadline && event::clock::now() >= *deadline;
                std::this_thread::yield();
            }
        }
        return is_late ? refused(CUBEJOBS_REGIONS_TIMED_OUT) : std::move(made);
    }
    std::shared_ptr<shared> handle = {};
    std::uint32_t reason = CUBEJOBS_REGIONS_NOT_OPEN;
};
using block = machine::block;

/* A machine with exact first fit, in memory of its own or of the caller. */
class first_fit {
  public:
    using block = owned<first_fit>;
    /* Opens a machine in memory of its own. */
    explicit first_fit(std::uint32_t dim) : first_fit(std::make_shared<shared>(dim)) {}
    /* Opens a machine in memory of the caller, which must stay as long as an owner uses it. */
    static first_fit open(void *memory, std::size_t size, std::uint32_t dim) {
        return first_fit(std::make_shared<shared>(cubejobs_fit_open, memory, size, dim));
    }
    /* Uses a machine that is in memory of the caller. Its blocks have no owner. */
    static first_fit attach(void *memory, std::size_t size, std::uint32_t dim) {
        return first_fit(std::make_shared<shared>(cubejobs_fit_attach, memory, size, dim));
    }
    /* Does the same, after a process died inside a call. */
    static first_fit repair(void *memory, std::size_t size, std::uint32_t dim) {
        return first_fit(std::make_shared<shared>(cubejobs_fit_repair, memory, size, dim));
    }
    first_fit(first_fit &&) = default;
    first_fit &operator=(first_fit &&) = default;
    /* Returns why there is no machine: DONE if there is one, BAD_SIZE if it was moved from. */
    std::uint32_t code() const { return handle ? std::uint32_t{CUBEJOBS_FIT_DONE} : reason; }
    block take(std::uint32_t k) { return filled(handle ? cubejobs_fit_take(&handle->fit, k) : empty()); }
    block take_at(std::uint64_t base, std::uint32_t k) {
        return filled(handle ? cubejobs_fit_take_at(&handle->fit, base, k) : empty());
    }
    /* Returns an owner of the held block that has a processor. No other owner may have it: it is a
     * block that the machine had before an attach or a repair, or one that was left. */
    block own(std::uint64_t processor) { return filled(block_with(processor)); }
    /* Leaves a block held. Then no owner has it. */
    void leave(block &it) {
        it.handle.reset();
        it.taken = nothing();
    }
    /* Leaves the block its lower half, and returns the upper one. One processor has no halves. */
    block split(block &lower) {
        if (!handle) return filled(empty());
        block upper;
        if (lower.handle != handle) return upper;
        upper.taken.code = cubejobs_fit_split(&handle->fit, lower.base(), lower.dim());
        if (upper.taken.code) return upper;
        lower.taken.dim--;
        return filled({CUBEJOBS_FIT_DONE, lower.dim(), lower.base() + (std::uint64_t{1} << lower.dim())});
    }
    /* Joins a lower half with the upper one, which then owns nothing. Returns whether it did. */
    bool join(block &lower, block &upper) {
        if (!handle || lower.handle != handle || upper.handle != handle || lower.dim() != upper.dim()) return false;
        if (lower.base() + (std::uint64_t{1} << lower.dim()) != upper.base()) return false;
        if (cubejobs_fit_join(&handle->fit, lower.base(), lower.dim() + 1)) return false;
        lower.taken.dim++;
        leave(upper);
        return true;
    }
    cubejobs_fit_answer first(std::uint32_t k) const { return handle ? cubejobs_fit_first(&handle->fit, k) : empty(); }
    cubejobs_fit_answer first_apart(std::uint32_t k, std::uint64_t base, std::uint32_t avoid) const {
        return handle ? cubejobs_fit_first_apart(&handle->fit, k, base, avoid) : empty();
    }
    cubejobs_fit_answer block_with(std::uint64_t processor) const {
        return handle ? cubejobs_fit_block_with(&handle->fit, processor) : empty();
    }
    bool is_free(std::uint64_t base, std::uint32_t k) const {
        return handle && cubejobs_fit_is_free(&handle->fit, base, k);
    }
    cubejobs_fit_answer largest() const { return handle ? cubejobs_fit_largest(&handle->fit) : empty(); }
    std::uint64_t free_blocks(std::uint32_t k) const { return handle ? cubejobs_fit_free_blocks(&handle->fit, k) : 0; }
    cubejobs_fit_occupancy_answer occupancy() const {
        cubejobs_fit_occupancy_answer none = {CUBEJOBS_FIT_BAD_SIZE, 0, false, 0, {0}};
        return handle ? cubejobs_fit_occupancy(&handle->fit) : none;
    }

  private:
    friend block;
    struct shared {
        using opening = cubejobs_fit_code(cubejobs_fit *, void *, std::size_t, std::uint32_t);
        shared(opening *call, void *memory, std::size_t size, std::uint32_t dim)
            : opened(call(&fit, memory, size, dim)) {}
        explicit shared(std::uint32_t dim)
            : own(new std::uint64_t[static_cast<std::size_t>(cubejobs_fit_bytes(dim)) / 8 + 1]),
              opened(cubejobs_fit_open(&fit, own.get(), static_cast<std::size_t>(cubejobs_fit_bytes(dim)), dim)) {}
        std::unique_ptr<std::uint64_t[]> own = {};
        cubejobs_fit fit = {nullptr, 0};
        cubejobs_fit_code opened;
    };
    struct place {};
    using answer = cubejobs_fit_answer;
    static answer nothing() { return {CUBEJOBS_FIT_NOTHING_HELD, 0, 0}; }
    static answer empty() { return {CUBEJOBS_FIT_BAD_SIZE, 0, 0}; }
    static void release(shared &machine, place, answer taken) {
        cubejobs_fit_release(&machine.fit, taken.base, taken.dim);
    }
    explicit first_fit(std::shared_ptr<shared> made) : handle(std::move(made)) {
        const std::uint32_t opened = handle->opened;
        if (opened) {
            handle.reset();
            reason = opened;
        }
        check(opened);
    }
    block filled(answer taken) {
        block made;
        made.taken = taken;
        if (!taken.code) made.handle = handle;
        return made;
    }
    std::shared_ptr<shared> handle;
    std::uint32_t reason = CUBEJOBS_FIT_BAD_SIZE;
};

/* Files that let workers sleep, and files that do not, have types of their own. */
#ifdef __cpp_lib_atomic_wait
#define CUBEJOBS_SLEEPS 1
inline namespace sleeping {
/* Where threads sleep: workers each on a word, and producers on `room` while their lane is full. */
class parking {
  public:
    explicit parking(std::uint32_t workers) : words(workers) {}
    void unpark(std::uint32_t worker) {
        if (worker >= words.size()) return;
        words[worker] = 1;
        words[worker].notify_all();
    }
    void unpark_all() {
        for (std::uint32_t worker = 0; worker < words.size(); worker++) unpark(worker);
    }
    void park(std::uint32_t worker) {
        words[worker].wait(0);
        words[worker] = 0;
    }
    /* Wakes a worker for the last job of a lane, if one is to wake. */
    void wake(cubejobs_lane *lane) {
        cubejobs_wake_answer wake = cubejobs_lanes_wake(lane);
        while (wake.code == CUBEJOBS_LANES_AGAIN) wake = cubejobs_lanes_wake(lane);
        if (wake.code == CUBEJOBS_LANES_DONE) unpark(wake.worker);
    }
    event room{};

  private:
    std::vector<std::atomic<std::uint32_t>> words;
};
#else
inline namespace polling {
/* Where producers sleep while their lane is full. Workers do not sleep. */
class parking {
  public:
    explicit parking(std::uint32_t) {}
    void unpark_all() {}
    void wake(cubejobs_lane *) {}
    event room{};
};
#endif

/* What an owner of lanes, its lanes and its workers share. The last of them ends it. */
class common : public parking {
  public:
    explicit common(std::uint32_t workers) : parking(workers) {}
    common(const common &) = delete;
    common &operator=(const common &) = delete;
    ~common() {
        cubejobs_lanes_finish(&owner);
        while (cubejobs_lanes_rest(&owner).code == CUBEJOBS_LANES_DONE) {}
        cubejobs_lanes_free(&owner);
    }
    cubejobs_lanes owner = {0, nullptr};
};

/* A handle of a lane or a worker, in cache lines of its own. It comes back when this ends. */
template <class Handle> class handle_of {
  public:
    explicit handle_of(std::shared_ptr<common> lanes) : all(std::move(lanes)) {}
    handle_of(const handle_of &) = delete;
    handle_of &operator=(const handle_of &) = delete;
    ~handle_of() { give(&at); }
    /* Returns the handle that `get` fills, or null. */
    static std::unique_ptr<handle_of> got(const std::shared_ptr<common> &lanes,
                                          cubejobs_lanes_code (*get)(cubejobs_lanes *, Handle *)) {
        std::unique_ptr<handle_of> made(lanes ? new handle_of(lanes) : nullptr);
        const std::uint32_t code = made ? get(&lanes->owner, &made->at) : CUBEJOBS_LANES_NOT_OPEN;
        if (code) made.reset();
        check(code);
        return made;
    }
    Handle at = {0, nullptr};
    unsigned char apart[112] = {};
    std::shared_ptr<common> all;

  private:
    static void give(cubejobs_lane *it) { cubejobs_lanes_free_lane(it); }
    static void give(cubejobs_worker *it) { cubejobs_lanes_free_worker(it); }
};

/* A lane of a producer. Its calls answer as those for C do, and wake a worker for the job. */
class lane {
  public:
    /* Returns whether it has a handle: not if it was moved from, or could not be given out. */
    explicit operator bool() const { return mine != nullptr; }
    cubejobs_submit_answer submit(std::uint64_t payload, std::uint32_t dim) {
        if (!mine) return {CUBEJOBS_LANES_NOT_OPEN, 0};
        const cubejobs_submit_answer answer = cubejobs_lanes_submit(&mine->at, payload, dim);
        if (answer.code == CUBEJOBS_LANES_DONE) mine->all->wake(&mine->at);
        return answer;
    }
    /* Submits a job, and sleeps while the lane is full. The code is not FULL. */
    cubejobs_submit_answer submit_or_wait(std::uint64_t payload, std::uint32_t dim) {
        return waited(payload, dim, nullptr);
    }
    /* The same until the time has come. Then it tries once more, and the code is TIMED_OUT. */
    cubejobs_submit_answer submit_until(std::uint64_t payload, std::uint32_t dim, event::clock::time_point deadline) {
        return waited(payload, dim, &deadline);
    }
    /* The same for at most this time. A time that the clock does not reach is no deadline. */
    template <class Rep, class Period>
    cubejobs_submit_answer submit_for(std::uint64_t payload, std::uint32_t dim,
                                      const std::chrono::duration<Rep, Period> &time) {
        return event::until(time, [this, payload, dim](const event::clock::time_point *deadline) {
            return waited(payload, dim, deadline);
        });
    }

  private:
    friend class lanes;
    using place = handle_of<cubejobs_lane>;
    explicit lane(std::unique_ptr<place> handle) : mine(std::move(handle)) {}
    /* As cubejobs_lanes_submit_until does. */
    cubejobs_submit_answer waited(std::uint64_t payload, std::uint32_t dim, const event::clock::time_point *deadline) {
        cubejobs_submit_answer answer = submit(payload, dim);
        bool is_late = false;
        while (answer.code == CUBEJOBS_LANES_FULL) {
            const std::uint32_t key = mine->all->room.key();
            answer = submit(payload, dim);
            if (answer.code != CUBEJOBS_LANES_FULL) break;
            if (is_late) answer.code = CUBEJOBS_LANES_TIMED_OUT;
            else is_late = mine->all->room.wait(key, deadline);
        }
        return answer;
    }
    std::unique_ptr<place> mine;
};

/* A worker of lanes. Its calls answer as those for C do, and wake producers whose lanes were full. */
class worker {
  public:
    /* Returns whether it has a handle: not if it was moved from, or could not be given out. */
    explicit operator bool() const { return mine != nullptr; }
    /* Takes a job from lane `from` on, if there is one. */
    cubejobs_job_answer try_next(std::uint32_t from = 0) {
        if (!mine) return {CUBEJOBS_LANES_NOT_OPEN, 0, 0, 0, 0, 0};
        const cubejobs_job_answer answer = cubejobs_lanes_take_any(&mine->at, from);
        if (answer.code == CUBEJOBS_LANES_DONE) mine->all->room.raise();
        return answer;
    }
#ifdef CUBEJOBS_SLEEPS
    /* Takes a job, and sleeps until it can. The code is DONE, ENDED or BAD_LANE. */
    cubejobs_find_answer next(std::uint32_t from = 0) {
        if (!mine) return {CUBEJOBS_LANES_NOT_OPEN, 0, 0, CUBEJOBS_LANES_NO_WORKER, 0, 0, 0};
        for (;;) {
            const cubejobs_find_answer answer = cubejobs_lanes_find(&mine->at, from);
            mine->all->unpark(answer.woken);
            if (answer.code == CUBEJOBS_LANES_DONE) mine->all->room.raise();
            if (!looks_again(answer.code)) return answer;
        }
    }
#endif

  private:
    friend class lanes;
    using place = handle_of<cubejobs_worker>;
    explicit worker(std::unique_ptr<place> handle) : mine(std::move(handle)) {}
#ifdef CUBEJOBS_SLEEPS
    /* Sleeps until the worker has its token, if it lies down. Returns whether to look again. */
    bool looks_again(std::uint32_t code) {
        if (code == CUBEJOBS_LANES_PARK)
            while (cubejobs_lanes_awake(&mine->at) == CUBEJOBS_LANES_PARK)
                mine->all->park(cubejobs_lanes_worker_number(&mine->at).number);
        if (code == CUBEJOBS_LANES_AGAIN) std::this_thread::yield();
        return code == CUBEJOBS_LANES_PARK || code == CUBEJOBS_LANES_AGAIN;
    }
#endif
    std::unique_ptr<place> mine;
};

/* An owner of lanes with their handles. One thread at a time uses it. When it ends, the lanes are
 * closed. */
class lanes {
  public:
    lanes(std::uint32_t lane_count, std::uint32_t workers, std::uint64_t capacity)
        : all(std::make_shared<common>(workers)) {
        const std::uint32_t code = cubejobs_lanes_open(&all->owner, lane_count, workers, capacity);
        if (code) {
            all.reset();
            reason = code;
        }
        check(code);
    }
    lanes(lanes &&) = default;
    lanes &operator=(lanes &&other) noexcept {
        lanes old(std::move(other));
        std::swap(all, old.all);
        std::swap(reason, old.reason);
        return *this;
    }
    ~lanes() { close(); }
    /* Returns why the lanes are not open: DONE if they are, NOT_OPEN if they were moved from. */
    std::uint32_t code() const { return all ? std::uint32_t{CUBEJOBS_LANES_DONE} : reason; }
    /* Return a handle, for one thread. */
    cubejobs::lane lane() { return cubejobs::lane(handle_of<cubejobs_lane>::got(all, cubejobs_lanes_lane)); }
    cubejobs::worker worker() { return cubejobs::worker(handle_of<cubejobs_worker>::got(all, cubejobs_lanes_worker)); }
    /* Closes all lanes, and wakes all that sleep. Workers get the jobs that are left. */
    cubejobs_close_answer close() {
        if (!all) return {CUBEJOBS_LANES_NOT_OPEN, 0};
        const cubejobs_close_answer answer = cubejobs_lanes_close(&all->owner);
        all->unpark_all();
        all->room.raise();
        return answer;
    }
    /* Ends closed lanes of which all handles are back, and sets the jobs that are left. If it is not
     * called, they are dropped with the last handle. Returns the code of cubejobs_lanes_finish. */
    std::uint32_t finish(std::vector<cubejobs_job_answer> &left) {
        const std::uint32_t code = all ? cubejobs_lanes_finish(&all->owner).code : CUBEJOBS_LANES_NOT_OPEN;
        left.clear();
        if (code) return code;
        for (;;) {
            left.push_back(cubejobs_lanes_rest(&all->owner));
            if (left.back().code == CUBEJOBS_LANES_DONE) continue;
            left.pop_back();
            return code;
        }
    }
#ifdef CUBEJOBS_THROWS
    /* Does the same, and returns the jobs. */
    std::vector<cubejobs_job_answer> finish() {
        std::vector<cubejobs_job_answer> left;
        check(finish(left));
        return left;
    }
#endif

  private:
    std::shared_ptr<common> all;
    std::uint32_t reason = CUBEJOBS_LANES_NOT_OPEN;
};
}

/* A planner. Its calls are those of cubejobs_plan.h, with the same answers. */
class planner {
  public:
    /* Opens a planner of a machine of 2^dim processors, for as many jobs at once. */
    planner(std::uint32_t dim, std::uint32_t jobs, std::uint32_t patience = 16)
        : reason(cubejobs_plan_open(&at, {dim, jobs, patience, 0}, nullptr)) {
        check(reason);
    }
    planner(planner &&other) noexcept { swap(other); }
    planner &operator=(planner &&other) noexcept {
        planner(std::move(other)).swap(*this);
        return *this;
    }
    ~planner() { cubejobs_plan_close(&at); }
    /* Returns why the planner is not open: DONE if it is, NOT_OPEN if it was moved from. */
    std::uint32_t code() const { return reason; }
    CUBEJOBS_NODISCARD cubejobs_plan_job submit(const cubejobs_plan_request &job) {
        return cubejobs_plan_submit(&at, job);
    }
    cubejobs_plan_job cancel(std::uint64_t ticket) { return cubejobs_plan_cancel(&at, ticket); }
    cubejobs_plan_job finish(std::uint64_t ticket) { return cubejobs_plan_finish(&at, ticket); }
    std::uint32_t occupy(std::uint64_t base, std::uint32_t dim) { return cubejobs_plan_occupy(&at, base, dim); }
    std::uint32_t vacate(std::uint64_t base, std::uint32_t dim) { return cubejobs_plan_vacate(&at, base, dim); }
    CUBEJOBS_NODISCARD cubejobs_plan_job next(std::uint64_t now) { return cubejobs_plan_next(&at, now); }
    cubejobs_plan_job forecast(std::uint64_t ticket) { return cubejobs_plan_forecast(&at, ticket); }
    cubejobs_plan_job after(std::uint64_t ticket) { return cubejobs_plan_after(&at, ticket); }
    struct cubejobs_plan_counts counts() { return cubejobs_plan_counts(&at); }
    /* Starts each job that may start at this time, and passes it to `run`. Returns the code that
     * ended this: NO_JOB, if all went well. `run` may make calls with the planner. */
    template <class Run> std::uint32_t start_all(std::uint64_t now, Run run) {
        for (;;) {
            const cubejobs_plan_job job = next(now);
            if (job.code) return job.code;
            run(job);
        }
    }
    /* Passes each job to `look`, in no order, as cubejobs_plan_after does. */
    template <class Look> void each(Look look) {
        for (cubejobs_plan_job job = after(0); job.code == CUBEJOBS_PLAN_DONE; job = after(job.ticket)) look(job);
    }

  private:
    void swap(planner &other) noexcept {
        std::swap(at, other.at);
        std::swap(reason, other.reason);
    }
    cubejobs_plan at = {0, nullptr};
    std::uint32_t reason = CUBEJOBS_PLAN_NOT_OPEN;
};

}

#endif
