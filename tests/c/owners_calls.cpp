/* Uses the owners of cubejobs.hpp: what moves, what is released and when, halves, errors, and the machines that end
 * before their blocks. Of lanes: which handles come back and when, jobs that are left, and in C++20 workers that sleep. */
#include "cubejobs.hpp"

#include <atomic>
#include <chrono>
#include <cstdio>
#include <cstdlib>
#include <string>
#include <thread>
#include <type_traits>
#include <vector>
#include <unistd.h>

using cubejobs::block;
using cubejobs::first_fit;
using cubejobs::machine;

template <class T> constexpr bool only_moves() {
    return std::is_nothrow_move_constructible<T>::value && std::is_move_assignable<T>::value &&
           !std::is_copy_constructible<T>::value && !std::is_copy_assignable<T>::value;
}
static_assert(only_moves<block>() && only_moves<machine>(), "an owner of regions is copied");
static_assert(only_moves<first_fit>() && only_moves<first_fit::block>(), "an owner of first fit is copied");
static_assert(only_moves<cubejobs::planner>(), "a planner is copied");
static_assert(only_moves<cubejobs::lane>() && only_moves<cubejobs::worker>(), "a handle of lanes is copied");
static_assert(only_moves<cubejobs::lanes>(), "an owner of lanes is copied");

static void expect(bool holds, const char *what) {
    if (!holds) std::fprintf(stderr, "owners_calls.cpp: %s\n", what), std::exit(1);
}

static void blocks() {
    machine mine(4);
    expect(mine.take(5).code() == CUBEJOBS_REGIONS_BAD_DIMENSION, "a dimension");
    block one = mine.take_at(8, 2), other;
    expect(one && one.base() == 8 && one.dim() == 2 && !other, "a take");
    expect(mine.take_at(9, 0).code() == CUBEJOBS_REGIONS_TAKEN, "a block in use");
    other = std::move(one);
    expect(!one && other && mine.occupancy().held == 4, "a move");
    block &same = other;
    other = std::move(same);
    expect(other && mine.occupancy().held == 4, "a move to itself");
    other = mine.take_exact(3);
    expect(other.dim() == 3 && mine.occupancy().held == 8, "an assignment releases");
    block upper = mine.split(other);
    expect(other.dim() == 2 && upper.dim() == 2 && upper.base() == other.base() + 4, "a split");
    expect(!mine.join(upper, other) && upper && other, "a join in the wrong order");
    expect(!mine.join(other, other) && other, "a join with itself");
    expect(mine.join(other, upper) && !upper && other.dim() == 3, "a join");
    other.release();
    other.release();
    expect(!other && !mine.split(other) && mine.occupancy().held == 0, "a release");
    block single = mine.take(0);
    expect(!mine.split(single) && single && mine.occupancy().held == 1, "one processor has no halves");
}

// Eight processors: the first job has half of them for 10, the second one wants all, and the third one, which is brief,
// passes it.
static void plans() {
    cubejobs::planner first(3, 4, 0);
    const std::uint64_t half = first.submit({1, 10, 4, 0}).ticket, whole = first.submit({2, 5, 8, 0}).ticket;
    std::vector<std::uint64_t> started;
    const auto note = [&started](const cubejobs_plan_job &job) { started.push_back(job.payload); };
    expect(first.start_all(7, note) == CUBEJOBS_PLAN_NO_JOB && started == std::vector<std::uint64_t>{1}, "a start");
    cubejobs::planner mine(std::move(first));
    expect(first.code() == CUBEJOBS_PLAN_NOT_OPEN && first.next(8).code == CUBEJOBS_PLAN_NOT_OPEN, "a planner that moved");
    expect(first.start_all(8, note) == CUBEJOBS_PLAN_NOT_OPEN && mine.code() == CUBEJOBS_PLAN_DONE, "a move");
    const cubejobs_plan_job waits = mine.forecast(whole);
    expect(waits.state == CUBEJOBS_PLAN_RESERVED && waits.time == 17 && waits.base == 0, "a promise");
    expect(mine.submit({3, 10, 4, 0}).code == CUBEJOBS_PLAN_DONE && mine.next(7).payload == 3, "a job that passes");
    expect(mine.next(6).code == CUBEJOBS_PLAN_TIME_BACK, "a time that goes back");
    unsigned seen = 0;
    mine.each([&seen](const cubejobs_plan_job &job) { seen += 1u << job.payload; });
    expect(seen == 14 && mine.counts().running == 2 && mine.counts().waiting == 1, "all jobs");
    expect(mine.cancel(half).code == CUBEJOBS_PLAN_WRONG_STATE && mine.finish(half).payload == 1, "an end");
    expect(mine.cancel(whole).payload == 2 && mine.cancel(whole).code == CUBEJOBS_PLAN_NO_JOB, "a cancel");
    expect(mine.occupy(0, 2) == CUBEJOBS_PLAN_DONE && mine.vacate(4, 2) == CUBEJOBS_PLAN_WRONG_STATE, "out of service");
    expect(mine.vacate(0, 2) == CUBEJOBS_PLAN_DONE && mine.counts().occupied == 0, "in service");
    mine = cubejobs::planner(1, 1);
    expect(mine.counts().running == 0 && mine.counts().largest == 2, "an assignment closes");
}

static void lifetimes() {
    std::vector<block> kept;
    {
        machine mine(6);
        machine theirs = mine.share();
        kept.push_back(mine.take(5));
        machine strange(6);
        block foreign = strange.take(1);
        expect(mine.split(foreign).code() == CUBEJOBS_REGIONS_OTHER_MACHINE && foreign.dim() == 1, "another machine");
        std::thread([&] {
            block sent = std::move(kept.back());
            kept.pop_back();
            theirs.adopt(sent);
            kept.push_back(theirs.take(4));
        }).join();
        expect(mine.occupancy().held == 16, "another thread releases");
    }
    expect(kept.back().dim() == 4, "a block outlives its handle");
    kept.clear();
    try {
        machine too_large(21);
        expect(false, "a machine that is too large");
    } catch (const cubejobs::error &wrong) {
        expect(wrong.code == CUBEJOBS_REGIONS_BAD_DIMENSION && std::string(wrong.what()).size() > 9, "an error");
    }
}

static void expect_answer(cubejobs_fit_answer got, std::uint32_t code, std::uint32_t dim, std::uint64_t base,
                          const char *what) {
    expect(got.code == code && got.dim == dim && got.base == base, what);
}

/* A machine of first fit in memory of its own: blocks that are taken, split, joined and looked for. */
static void exact() {
    first_fit::block kept, pair;
    {
        first_fit mine(4);
        kept = mine.take(3);
        pair = mine.take(1);
        expect(kept.base() == 0 && pair.base() == 8 && mine.take(3).code() == CUBEJOBS_FIT_NO_ROOM, "first fit");
        expect(mine.take_at(9, 0).code() == CUBEJOBS_FIT_TAKEN && mine.take_at(12, 2).base() == 12, "given blocks");
        expect_answer(mine.first(1), CUBEJOBS_FIT_DONE, 1, 10, "the first pair");
        expect_answer(mine.first_apart(1, 8, 2), CUBEJOBS_FIT_DONE, 1, 12, "the first pair apart from four");
        expect_answer(mine.block_with(7), CUBEJOBS_FIT_DONE, 3, 0, "the block with a processor");
        expect_answer(mine.largest(), CUBEJOBS_FIT_DONE, 2, 12, "the largest free block");
        expect(mine.is_free(10, 1) && !mine.is_free(8, 1) && mine.free_blocks(1) == 3, "free blocks");
        expect(mine.occupancy().held == 10 && mine.occupancy().largest == 2, "an occupancy");
        first_fit::block upper = mine.split(kept), quarter = mine.split(upper);
        expect(kept.dim() == 2 && upper.base() == 4 && upper.dim() == 1 && quarter.base() == 6, "halves");
        expect(!mine.join(kept, upper) && !mine.join(quarter, upper) && !mine.join(upper, upper), "no halves");
        expect(mine.join(upper, quarter) && !quarter && mine.join(kept, upper) && kept.dim() == 3, "halves are joined");
        first_fit::block one = mine.take_at(15, 0), none = mine.split(one);
        expect(none.code() == CUBEJOBS_FIT_BAD_DIMENSION && one.base() == 15, "one processor has no halves");
        expect(mine.split(none).code() == CUBEJOBS_FIT_NOTHING_HELD, "nothing has no halves");
        kept = first_fit::block();
        expect(mine.take(3).base() == 0, "first fit after a release");
    }
    expect(pair.dim() == 1 && !kept, "a block outlives its machine");
    first_fit other(4);
    first_fit::block theirs = other.take(1);
    expect(other.split(pair).code() == CUBEJOBS_FIT_NOTHING_HELD && !other.join(theirs, pair), "a block of another");
    try {
        first_fit too_large(21);
        expect(false, "a machine of first fit that is too large");
    } catch (const cubejobs::error &wrong) {
        expect(wrong.code == CUBEJOBS_FIT_BAD_DIMENSION, "an error of first fit");
    }
}

/* A machine of first fit in memory of the caller: blocks that are left stay held, and find other owners. */
static void exact_in_memory() {
    std::uint64_t memory[16] = {};
    const auto refusal = [&](first_fit (*call)(void *, std::size_t, std::uint32_t), std::size_t size, std::uint32_t dim) {
        try {
            call(memory, size, dim);
        } catch (const cubejobs::error &wrong) {
            return wrong.code;
        }
        return std::uint32_t{0};
    };
    expect(refusal(first_fit::attach, 128, 3) == CUBEJOBS_FIT_BAD_IMAGE, "an attach of no image");
    expect(refusal(first_fit::open, 111, 3) == CUBEJOBS_FIT_BAD_SIZE, "an open of small memory");
    expect(refusal(first_fit::repair, 128, 21) == CUBEJOBS_FIT_BAD_DIMENSION, "a repair of no dimension");
    {
        first_fit mine = first_fit::open(memory, sizeof memory, 3);
        first_fit::block four = mine.take(2), pair = mine.take(1);
        expect(four.base() == 0 && pair.base() == 4, "blocks in memory");
        mine.leave(four);
        expect(!four && mine.own(8).code() == CUBEJOBS_FIT_BAD_BASE, "a block is left");
    }
    first_fit again = first_fit::attach(memory, sizeof memory, 3);
    expect(again.occupancy().held == 4 && again.own(4).code() == CUBEJOBS_FIT_NOTHING_HELD, "it is still held");
    {
        const first_fit::block four = again.own(2);
        expect(four.base() == 0 && four.dim() == 2 && again.take(3).code() == CUBEJOBS_FIT_NO_ROOM, "and has an owner");
    }
    first_fit repaired = first_fit::repair(memory, sizeof memory, 3);
    expect(repaired.take(3).base() == 0, "and it is released");
    expect(refusal(first_fit::attach, 128, 3) == 0, "an attach");
}

/* Expects that a call throws an error with this code. */
template <class Call> static void expect_error(std::uint32_t code, Call call, const char *what) {
    try {
        call();
        expect(false, what);
    } catch (const cubejobs::error &wrong) {
        expect(wrong.code == code && std::string(wrong.what()).size() > 9, what);
    }
}

/* What was moved from is empty, and safe to use. */
static void moved() {
    machine mine(4), theirs = std::move(mine);
    block held = theirs.take(1), upper;
    expect(mine.code() == CUBEJOBS_REGIONS_NOT_OPEN && theirs.code() == CUBEJOBS_REGIONS_DONE, "codes of machines");
    expect(mine.take(0).code() == CUBEJOBS_REGIONS_NOT_OPEN && mine.take_exact(0).code() == CUBEJOBS_REGIONS_NOT_OPEN &&
               mine.take_at(0, 0).code() == CUBEJOBS_REGIONS_NOT_OPEN, "a take of a moved machine");
    expect(mine.take_or_wait(0).code() == CUBEJOBS_REGIONS_NOT_OPEN &&
               mine.take_for(0, std::chrono::seconds(1)).code() == CUBEJOBS_REGIONS_NOT_OPEN, "a wait of a moved machine");
    expect(mine.split(held).code() == CUBEJOBS_REGIONS_NOT_OPEN && !mine.join(held, upper) && held, "halves");
    expect(mine.occupancy().code == CUBEJOBS_REGIONS_NOT_OPEN, "an occupancy of a moved machine");
    mine.adopt(held);
    mine.stop_waits();
    expect_error(CUBEJOBS_REGIONS_NOT_OPEN, [&] { mine.share(); }, "a share of a moved machine");
    held.release();
    expect(theirs.occupancy().held == 0, "a block goes back to its machine");
    mine = machine(2);
    expect(mine.take(2).code() == CUBEJOBS_REGIONS_DONE, "a machine after a move");
    first_fit one(3), other = std::move(one);
    first_fit::block its = other.take(0);
    expect(one.take(0).code() == CUBEJOBS_FIT_BAD_SIZE && one.code() == CUBEJOBS_FIT_BAD_SIZE && !other.code(), "first fit");
    expect(one.take_at(0, 0).code() == CUBEJOBS_FIT_BAD_SIZE && one.own(0).code() == CUBEJOBS_FIT_BAD_SIZE, "takes of none");
    expect(one.split(its).code() == CUBEJOBS_FIT_BAD_SIZE && !one.join(its, its) && its, "halves of none");
    expect(one.first(0).code == CUBEJOBS_FIT_BAD_SIZE && one.largest().code == CUBEJOBS_FIT_BAD_SIZE &&
               one.first_apart(0, 0, 0).code == CUBEJOBS_FIT_BAD_SIZE && one.occupancy().code == CUBEJOBS_FIT_BAD_SIZE &&
               one.block_with(0).code == CUBEJOBS_FIT_BAD_SIZE && !one.is_free(0, 0) && !one.free_blocks(0), "questions");
    cubejobs::lanes lanes(2, 1, 4), kept = std::move(lanes);
    expect(lanes.close().code == CUBEJOBS_LANES_NOT_OPEN && lanes.code() == CUBEJOBS_LANES_NOT_OPEN, "lanes");
    expect_error(CUBEJOBS_LANES_NOT_OPEN, [&] { lanes.lane(); }, "a lane of moved lanes");
    expect_error(CUBEJOBS_LANES_NOT_OPEN, [&] { lanes.finish(); }, "a finish of moved lanes");
    cubejobs::lane lane = kept.lane(), sent = std::move(lane);
    cubejobs::worker worker = kept.worker(), same = std::move(worker);
    expect(!lane && sent && !worker && same, "handles that were moved");
    expect(lane.submit(1, 0).code == CUBEJOBS_LANES_NOT_OPEN, "a submit to a moved lane");
    expect(lane.submit_or_wait(1, 0).code == CUBEJOBS_LANES_NOT_OPEN, "a wait for room of a moved lane");
    expect(worker.try_next().code == CUBEJOBS_LANES_NOT_OPEN, "a take by a moved worker");
#ifdef CUBEJOBS_SLEEPS
    expect(worker.next().code == CUBEJOBS_LANES_NOT_OPEN, "a wait by a moved worker");
#endif
    lanes = std::move(kept);
    cubejobs::lanes &itself = lanes;
    lanes = std::move(itself);
    expect(kept.code() == CUBEJOBS_LANES_NOT_OPEN && !sent.submit(1, 0).code, "lanes that moved are open");
}

/* Waits 10,000 times by 16 threads, each until a random deadline of at most 2 ms, one that has passed, or none. */
static void many_deadlines() {
    using clock = std::chrono::steady_clock;
    machine mine(3);
    std::vector<std::thread> threads;
    std::vector<std::atomic<unsigned>> owners(8);
    std::atomic<unsigned> given{0}, late{0};
    for (unsigned number = 0; number < 16; number++) {
        threads.emplace_back([&owners, &given, &late](machine own, std::uint64_t seed) {
            for (unsigned turn = 0; turn < 625; turn++) {
                seed = seed * 6364136223846793005u + 1442695040888963407u;
                const std::uint64_t x = seed >> 20;
                const clock::time_point end = clock::now() + std::chrono::nanoseconds(x % 4 ? x >> 8 & 0x1fffff : 0);
                const std::uint32_t k = static_cast<std::uint32_t>(x >> 30) % 4;
                block one = x % 16 == 1 ? own.take_or_wait(k) : own.take_until(k, end);
                if (one.code() == CUBEJOBS_REGIONS_TIMED_OUT) {
                    expect(clock::now() >= end && x % 16 != 1 && !one, "a wait ends before its deadline");
                    late++;
                    continue;
                }
                expect(one.code() == CUBEJOBS_REGIONS_DONE, "a wait is refused");
                for (std::uint64_t p = one.base(); p < one.base() + (1u << k); p++)
                    expect(owners[p]++ == 0, "two owners");
                if (x >> 34 & 1) std::this_thread::sleep_for(std::chrono::microseconds(50));
                for (std::uint64_t p = one.base(); p < one.base() + (1u << k); p++) owners[p]--;
                given++;
            }
        }, mine.share(), number + 1);
    }
    for (std::thread &thread : threads) thread.join();
    expect(given + late == 10000 && given && late && mine.occupancy().held == 0, "waits with deadlines");
}

/* Waits until a deadline, without one, and until a stop. The threads share the machine. */
static void waits() {
    using clock = std::chrono::steady_clock;
    machine mine(3);
    block all = mine.take(3);
    const clock::time_point end = clock::now() + std::chrono::milliseconds(20);
    expect(mine.take_until(0, end).code() == CUBEJOBS_REGIONS_TIMED_OUT && clock::now() >= end, "a deadline");
    expect(mine.take_for(1, std::chrono::nanoseconds(-1)).code() == CUBEJOBS_REGIONS_TIMED_OUT, "a time that has passed");
    expect(mine.take_for(4, std::chrono::hours(1)).code() == CUBEJOBS_REGIONS_BAD_DIMENSION, "a dimension");
    std::vector<std::thread> threads;
    std::atomic<unsigned> given{0}, stopped{0};
    for (unsigned number = 0; number < 4; number++) {
        threads.emplace_back([&given, &stopped, number](machine own) {
            for (;;) {
                block one = number % 2 ? own.take_or_wait(3) : own.take_for(2, std::chrono::hours::max());
                if (one.code() == CUBEJOBS_REGIONS_STOPPED) break;
                expect(one.code() == CUBEJOBS_REGIONS_DONE, "a wait is refused");
                given++;
            }
            stopped++;
        }, mine.share());
    }
    all.release();
    while (given < 1000) std::this_thread::yield();
    mine.stop_waits();
    for (std::thread &thread : threads) thread.join();
    expect(stopped == 4 && mine.take_or_wait(0).code() == CUBEJOBS_REGIONS_STOPPED, "a stop");
    expect(mine.occupancy().held == 0 && mine.take(3).code() == CUBEJOBS_REGIONS_DONE, "a take after a stop");
}

static void lanes_of_jobs() {
    expect_error(CUBEJOBS_LANES_BAD_SIZES, [] { cubejobs::lanes none(0, 1, 1); }, "no lanes");
    cubejobs::lanes mine(2, 1, 2);
    cubejobs::lane one = mine.lane();
    cubejobs::worker worker = mine.worker();
    expect_error(CUBEJOBS_LANES_NONE_LEFT, [&] { mine.worker(); }, "a second worker");
    expect(worker.try_next().code == CUBEJOBS_LANES_EMPTY && worker.try_next(2).code == CUBEJOBS_LANES_BAD_LANE, "no job");
    expect(one.submit(7, 1).code == 0 && one.submit(8, 2).seq == 1, "a submit");
    expect(one.submit(9, 3).code == CUBEJOBS_LANES_FULL, "a full lane");
    expect(worker.try_next().payload == 7 && worker.try_next(1).dim == 2, "a take");
    const auto brief = std::chrono::milliseconds(2);
    expect(one.submit_for(9, 3, -brief).seq == 2 && one.submit_for(10, 3, brief).seq == 3, "submits with room");
    expect(one.submit_for(11, 3, brief).code == CUBEJOBS_LANES_TIMED_OUT, "a submit without room");
    const auto come = cubejobs::event::clock::now();
    expect(one.submit_until(11, 3, come).code == CUBEJOBS_LANES_TIMED_OUT, "a time that has come");
    expect(worker.try_next().payload == 9 && worker.try_next().payload == 10, "the jobs that were accepted");
    {
        cubejobs::lane old = std::move(one), other = mine.lane();
        expect(other.submit(1, 0).seq == 0 && other.submit_or_wait(2, 0).seq == 1, "another lane");
        expect_error(CUBEJOBS_LANES_NONE_LEFT, [&] { mine.lane(); }, "a third lane");
        old = std::move(other);
        expect(old.submit(3, 0).code == CUBEJOBS_LANES_FULL && !other, "a lane that moved");
    }
    one = mine.lane();
    expect(one.submit(12, 4).seq == 4, "a lane comes back at its owner's end");
    expect(mine.close().accepted == 7 && mine.close().code == CUBEJOBS_LANES_CLOSED, "a close");
    expect(one.submit(13, 0).code == CUBEJOBS_LANES_CLOSED, "a closed lane");
    expect(one.submit_or_wait(13, 0).code == CUBEJOBS_LANES_CLOSED, "a wait for room in a closed lane");
    expect_error(CUBEJOBS_LANES_LANE_OUT, [&] { mine.finish(); }, "an end with a lane out");
    cubejobs::lane(std::move(one));
    expect_error(CUBEJOBS_LANES_WORKER_OUT, [&] { mine.finish(); }, "an end with a worker out");
    expect(worker.try_next().payload == 12, "a job after the close");
    cubejobs::worker(std::move(worker));
    std::vector<cubejobs_job_answer> left = mine.finish();
    expect(left.size() == 2 && left[0].payload == 1 && left[1].payload == 2 && left[1].lane == 1, "the jobs that are left");
    mine = cubejobs::lanes(1, 1, 1);
    expect(mine.lane().submit(1, 0).code == 0, "lanes that moved");
}

/* Submits the numbers from 0 on, and sleeps while the lane is full, until the lanes are closed. */
static void submit_all(cubejobs::lane lane, std::atomic<unsigned> &accepted) {
    for (;;) {
        const std::uint32_t code = accepted % 2 ? lane.submit_or_wait(accepted, 0).code
                                                : lane.submit_for(accepted, 0, std::chrono::hours::max()).code;
        if (code == CUBEJOBS_LANES_CLOSED) return;
        expect(code == CUBEJOBS_LANES_DONE, "a submit that sleeps");
        accepted++;
    }
}

/* On a lane of one place a submit sleeps until a job is taken, and until the owner ends. */
static void rooms() {
    std::vector<cubejobs::worker> kept;
    std::vector<std::thread> threads;
    std::atomic<unsigned> accepted{0};
    {
        cubejobs::lanes mine(1, 1, 1);
        kept.push_back(mine.worker());
        threads.emplace_back(submit_all, mine.lane(), std::ref(accepted));
        for (std::uint64_t i = 0; i < 2; i++) {
            cubejobs_job_answer job = {};
            while ((job = kept[0].try_next()).code == CUBEJOBS_LANES_EMPTY) std::this_thread::yield();
            expect(job.code == CUBEJOBS_LANES_DONE && job.payload == i, "a job of a submit that sleeps");
        }
        while (accepted < 3) std::this_thread::yield();
        std::this_thread::sleep_for(std::chrono::milliseconds(20));
    }
    threads[0].join();
    expect(accepted == 3 && kept[0].try_next().payload == 2, "the owner ends while a submit sleeps");
    expect(kept[0].try_next().code == CUBEJOBS_LANES_ENDED, "a job of closed lanes");
}

#ifdef CUBEJOBS_SLEEPS
/* A worker sleeps until a job is submitted, and until the owner ends. */
static void sleepers() {
    std::atomic<unsigned> step{0};
    std::vector<std::thread> threads;
    const auto moment = std::chrono::milliseconds(20);
    {
        cubejobs::lanes mine(1, 1, 1);
        cubejobs::lane lane = mine.lane();
        threads.emplace_back([&step, worker = mine.worker()]() mutable {
            expect(worker.next().payload == 5 && worker.next(1).code == CUBEJOBS_LANES_BAD_LANE, "a job of a sleeper");
            step = 1;
            expect(worker.next().code == CUBEJOBS_LANES_ENDED, "an end of a sleeper");
        });
        std::this_thread::sleep_for(moment);
        expect(step == 0 && lane.submit(5, 0).code == 0, "a sleeper");
        while (step == 0) std::this_thread::yield();
        std::this_thread::sleep_for(moment);
    }
    for (std::thread &thread : threads) thread.join();
}
#else
static void sleepers() {}
#endif

int main() {
    alarm(60); /* a wake that is lost ends the program */
    blocks();
    plans();
    lifetimes();
    exact();
    exact_in_memory();
    moved();
    waits();
    many_deadlines();
    lanes_of_jobs();
    rooms();
    sleepers();
    std::puts("ffi: owners of C++ release each block, and give each handle back, once");
}
