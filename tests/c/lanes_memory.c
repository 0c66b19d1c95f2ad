/* Refuses each request of the lanes for memory in turn: the call answers OUT_OF_MEMORY and changes nothing, and nothing is
 * left over once lanes are freed. No other call than an open, a lane and a worker makes a request, and these take no more
 * than the header says. It is linked with --wrap=malloc and --wrap=free. */
#include "cubejobs_lanes.h"

#include "calls.h"

/* How many more requests are granted, how many there were, how many blocks are there, and how many bytes were asked for
 * since the last look. */
static long left, asked, live, bytes;

void *__real_malloc(size_t size);
void __real_free(void *block);
void *__wrap_malloc(size_t size);
void __wrap_free(void *block);

void *__wrap_malloc(size_t size) {
    void *block = left > 0 ? __real_malloc(size) : 0;
    asked++;
    bytes += (long)size;
    if (block) left--, live++;
    return block;
}

void __wrap_free(void *block) {
    if (block) live--;
    __real_free(block);
}

static struct cubejobs_lanes owner;
static struct cubejobs_lane lane;
static struct cubejobs_worker worker;

/* Makes each call that needs no memory, with none granted, and frees the lanes. */
static void use(void) {
    asked = left = 0;
    expect(!cubejobs_lanes_submit(&lane, 1, 1).code, "submit");
    expect(!cubejobs_lanes_submit(&lane, 2, 2).code, "submit");
    expect(!cubejobs_lanes_submit(&lane, 3, 3).code, "submit");
    expect(cubejobs_lanes_submit(&lane, 4, 4).code == CUBEJOBS_LANES_FULL, "a full lane");
    expect(cubejobs_lanes_wake(&lane).code == CUBEJOBS_LANES_NOBODY, "wake");
    expect(!cubejobs_lanes_worker_number(&worker).code && !cubejobs_lanes_awake(&worker), "worker_number and awake");
    expect(!cubejobs_lanes_look(&worker, 0).code, "look");
    expect(!cubejobs_lanes_take(&worker, 0).code, "take");
    expect(cubejobs_lanes_take_any(&worker, 1).payload == 2, "take_any");
    expect(!cubejobs_lanes_close(&owner).code, "close");
    expect(cubejobs_lanes_finish(&owner).code == CUBEJOBS_LANES_LANE_OUT, "a lane is out");
    expect(!cubejobs_lanes_free_lane(&lane), "free_lane");
    expect(!cubejobs_lanes_free_worker(&worker), "free_worker");
    expect(!cubejobs_lanes_finish(&owner).code, "finish");
    expect(cubejobs_lanes_rest(&owner).payload == 3, "rest");
    expect(!cubejobs_lanes_free(&owner), "free");
    expect(asked == 0, "a call that takes no memory makes a request");
}

/* Opens, uses and frees lanes, with this number of requests granted until one is refused. Returns whether one was. */
static bool run(long allowed) {
    const long before = live;
    long after;
    bool is_refused = false;
    left = allowed;
    while (cubejobs_lanes_open(&owner, 2, 3, 3) == CUBEJOBS_LANES_OUT_OF_MEMORY) {
        expect(live == before, "a refused open leaves blocks over");
        expect(cubejobs_lanes_free(&owner) == CUBEJOBS_LANES_NOT_OPEN, "a refused open opens the handle");
        is_refused = true, left = 1000;
    }
    after = live;
    while (cubejobs_lanes_lane(&owner, &lane) == CUBEJOBS_LANES_OUT_OF_MEMORY) {
        expect(live == after, "a refused lane leaves blocks over");
        expect(cubejobs_lanes_submit(&lane, 0, 0).code == CUBEJOBS_LANES_NOT_OPEN, "a refused lane opens the handle");
        is_refused = true, left = 1000;
    }
    after = live;
    while (cubejobs_lanes_worker(&owner, &worker) == CUBEJOBS_LANES_OUT_OF_MEMORY) {
        expect(live == after, "a refused worker leaves blocks over");
        expect(cubejobs_lanes_take(&worker, 0).code == CUBEJOBS_LANES_NOT_OPEN, "a refused worker opens the handle");
        is_refused = true, left = 1000;
    }
    use();
    expect(live == before, "blocks are left over");
    return is_refused;
}

/* Sees that lanes take no more memory than the header says. */
static void expect_sizes(void) {
    const uint32_t lanes[] = {1, 5, 4096}, workers[] = {1, 64, 3};
    const uint64_t capacity[] = {1, 1024, 16};
    unsigned i;
    for (i = 0; i < 3; i++) {
        long most = lanes[i] * (960 + 64 * (long)capacity[i]) + workers[i] * (200 + 8 * (long)lanes[i]) + 600;
        left = 100000, bytes = 0;
        expect(!cubejobs_lanes_open(&owner, lanes[i], workers[i], capacity[i]), "open");
        expect(bytes <= most, "lanes take more memory than the header says");
        bytes = 0;
        expect(!cubejobs_lanes_lane(&owner, &lane) && bytes <= 300, "a lane takes more memory than the header says");
        bytes = 0;
        expect(!cubejobs_lanes_worker(&owner, &worker) && bytes <= 300, "a worker takes more memory than the header says");
        expect(!cubejobs_lanes_free_lane(&lane) && !cubejobs_lanes_free_worker(&worker), "free");
        expect(!cubejobs_lanes_close(&owner).code && !cubejobs_lanes_finish(&owner).code, "finish");
        expect(!cubejobs_lanes_free(&owner), "free");
    }
}

int main(void) {
    long allowed;
    for (allowed = 0; run(allowed);) allowed++;
    expect(allowed > 4, "few requests are made");
    expect_sizes();
    printf("ffi: each of %ld requests of the lanes for memory was refused in turn\n", allowed);
    return 0;
}
