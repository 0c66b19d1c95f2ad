/* The lanes by the library for C: the proved one, with its handles. */
#include "cubejobs_lanes.h"

/* Each handle is in cache lines of its own. */
static struct maker {
    _Alignas(LINE_BYTES) struct cubejobs_lane lane;
} makers[MAX_PRODUCERS];

static struct taker {
    _Alignas(LINE_BYTES) struct cubejobs_worker worker;
} seats[MAX_TAKERS];

static struct cubejobs_lanes owner;

static void must_be_done(uint32_t code) {
    if (code != CUBEJOBS_LANES_DONE) {
        fail(cubejobs_code_text(code));
    }
}

static void open_system(unsigned lanes, unsigned workers, uint64_t capacity) {
    must_be_done(cubejobs_lanes_open(&owner, lanes, workers, capacity));
    for (unsigned i = 0; i < lanes; i++) {
        must_be_done(cubejobs_lanes_lane(&owner, &makers[i].lane));
    }
    for (unsigned i = 0; i < workers; i++) {
        must_be_done(cubejobs_lanes_worker(&owner, &seats[i].worker));
    }
}

static bool submit_job(unsigned lane, uint64_t payload, uint32_t dim) {
    return cubejobs_lanes_submit(&makers[lane].lane, payload, dim).code == CUBEJOBS_LANES_DONE;
}

static bool take_job(unsigned worker, unsigned from, struct job *job) {
    struct cubejobs_job_answer got = cubejobs_lanes_take_any(&seats[worker].worker, from);
    *job = (struct job){got.seq, got.payload, got.lane, got.dim};
    return got.code == CUBEJOBS_LANES_DONE;
}
