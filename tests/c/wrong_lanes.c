/* A wrong library of lanes: it is linked in front of the right one, with --wrap for the calls that it changes. WRONG says
 * what is wrong:
 *   1  each thousandth job comes twice
 *   2  a job comes with the dimension of none
 *   3  a close counts one job too few
 *   4  the rest of the jobs is forgotten
 *   5  a submit submits its job twice
 *   6  a submit submits another job first */
#include "cubejobs_lanes.h"

typedef struct cubejobs_job_answer answer;
answer __real_cubejobs_lanes_take(struct cubejobs_worker *worker, uint32_t lane);
answer __wrap_cubejobs_lanes_take(struct cubejobs_worker *worker, uint32_t lane);
answer __real_cubejobs_lanes_take_any(struct cubejobs_worker *worker, uint32_t from);
answer __wrap_cubejobs_lanes_take_any(struct cubejobs_worker *worker, uint32_t from);
struct cubejobs_close_answer __real_cubejobs_lanes_close(struct cubejobs_lanes *owner);
struct cubejobs_close_answer __wrap_cubejobs_lanes_close(struct cubejobs_lanes *owner);
answer __real_cubejobs_lanes_rest(struct cubejobs_lanes *owner);
answer __wrap_cubejobs_lanes_rest(struct cubejobs_lanes *owner);
struct cubejobs_submit_answer __real_cubejobs_lanes_submit(struct cubejobs_lane *lane, uint64_t payload, uint32_t dim);
struct cubejobs_submit_answer __wrap_cubejobs_lanes_submit(struct cubejobs_lane *lane, uint64_t payload, uint32_t dim);

answer __wrap_cubejobs_lanes_take(struct cubejobs_worker *worker, uint32_t lane) {
    answer given = __real_cubejobs_lanes_take(worker, lane);
    if (WRONG == 2) given.dim = 0;
    return given;
}

answer __wrap_cubejobs_lanes_take_any(struct cubejobs_worker *worker, uint32_t from) {
    static __thread answer last;
    static __thread unsigned turns;
    if (WRONG == 1 && ++turns % 1000 == 0 && last.code == CUBEJOBS_LANES_DONE && last.payload) return last;
    last = __real_cubejobs_lanes_take_any(worker, from);
    return last;
}

struct cubejobs_close_answer __wrap_cubejobs_lanes_close(struct cubejobs_lanes *owner) {
    struct cubejobs_close_answer given = __real_cubejobs_lanes_close(owner);
    if (WRONG == 3 && given.accepted) given.accepted--;
    return given;
}

struct cubejobs_submit_answer __wrap_cubejobs_lanes_submit(struct cubejobs_lane *lane, uint64_t payload, uint32_t dim) {
    if (WRONG >= 5) (void)!__real_cubejobs_lanes_submit(lane, WRONG == 5 ? payload : 0, dim).code;
    return __real_cubejobs_lanes_submit(lane, payload, dim);
}

answer __wrap_cubejobs_lanes_rest(struct cubejobs_lanes *owner) {
    answer given = __real_cubejobs_lanes_rest(owner);
    while (WRONG == 4 && given.code == CUBEJOBS_LANES_DONE) given = __real_cubejobs_lanes_rest(owner);
    return given;
}
