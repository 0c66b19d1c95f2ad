/* Uses the owners of cubejobs.hpp without exceptions: each refusal is a code, and the owner is empty. */
#include "cubejobs.hpp"

#include <cstdio>
#include <cstdlib>

static void expect(bool holds, const char *what) {
    if (holds) return;
    std::fprintf(stderr, "owners_codes.cpp: %s\n", what);
    std::exit(1);
}

int main() {
    cubejobs::machine none(21), mine(3);
    expect(none.code() == CUBEJOBS_REGIONS_BAD_DIMENSION && mine.code() == CUBEJOBS_REGIONS_DONE, "machines");
    expect(none.take(0).code() == CUBEJOBS_REGIONS_NOT_OPEN, "a take of no machine");
    expect(none.share().code() == CUBEJOBS_REGIONS_NOT_OPEN && mine.share().code() == CUBEJOBS_REGIONS_DONE, "shares");
    cubejobs::block held = mine.take(3);
    expect(held && !mine.take_exact(0), "takes");
    cubejobs::first_fit flat(21), small(2);
    expect(flat.code() == CUBEJOBS_FIT_BAD_DIMENSION && !flat.take(0) && small.take(1), "first fit");
    std::uint64_t memory[14] = {};
    cubejobs::first_fit bare = cubejobs::first_fit::attach(memory, sizeof memory, 3);
    expect(bare.code() == CUBEJOBS_FIT_BAD_IMAGE && !bare.take(0), "no image");
    cubejobs::planner vast(21, 1), plan(3, 1);
    expect(vast.code() == CUBEJOBS_PLAN_OUT_OF_RANGE && plan.code() == CUBEJOBS_PLAN_DONE, "planners");
    expect(vast.next(0).code == CUBEJOBS_PLAN_NOT_OPEN && vast.counts().code == CUBEJOBS_PLAN_NOT_OPEN, "no planner");
    cubejobs::lanes empty(0, 1, 1), lanes(1, 1, 2);
    expect(empty.code() == CUBEJOBS_LANES_BAD_SIZES && !empty.lane() && !empty.worker(), "lanes of no size");
    cubejobs::lane lane = lanes.lane();
    expect(lane && !lanes.lane(), "one lane is out, and there is no other");
    expect(lane.submit(7, 1).code == CUBEJOBS_LANES_DONE, "a submit");
    cubejobs::lane moved = std::move(lane);
    expect(moved && !lane && moved.submit_or_wait(8, 1).code == CUBEJOBS_LANES_DONE, "a lane that moved");
    expect(moved.submit_for(9, 1, std::chrono::seconds(0)).code == CUBEJOBS_LANES_TIMED_OUT, "a full lane");
    std::vector<cubejobs_job_answer> left(3);
    expect(lanes.finish(left) == CUBEJOBS_LANES_NOT_CLOSED && left.empty(), "a finish of open lanes");
    expect(lanes.close().accepted == 2 && lanes.finish(left) == CUBEJOBS_LANES_LANE_OUT, "a finish of lanes that are out");
    {
        const cubejobs::lane one(std::move(moved));
        expect(bool(one), "a handle that ends");
    }
    expect(lanes.finish(left) == CUBEJOBS_LANES_DONE && left.size() == 2 && left[1].payload == 8, "a finish");
    std::puts("ffi: owners of C++ without exceptions say why they are empty");
}
