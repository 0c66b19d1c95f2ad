/* A wrong library for workers that sleep: it is linked in front of the right one, with --wrap for the calls that it
 * changes. WRONG says what is wrong:
 *   1  a wake names nobody
 *   2  a find names nobody
 *   3  each tenth job of a worker is lost
 *   4  a worker that parks has its token at once
 * With 5 nothing is wrong: each third wake and find is to be called again. */
#include "cubejobs_lanes.h"

typedef struct cubejobs_wake_answer wake_answer;
typedef struct cubejobs_find_answer find_answer;
wake_answer __real_cubejobs_lanes_wake(struct cubejobs_lane *lane);
wake_answer __wrap_cubejobs_lanes_wake(struct cubejobs_lane *lane);
find_answer __real_cubejobs_lanes_find(struct cubejobs_worker *worker, uint32_t from);
find_answer __wrap_cubejobs_lanes_find(struct cubejobs_worker *worker, uint32_t from);
uint32_t __real_cubejobs_lanes_awake(struct cubejobs_worker *worker);
uint32_t __wrap_cubejobs_lanes_awake(struct cubejobs_worker *worker);

static int is_again(void) {
    static __thread unsigned calls;
    return WRONG == 5 && ++calls % 3 == 0;
}

wake_answer __wrap_cubejobs_lanes_wake(struct cubejobs_lane *lane) {
    wake_answer given = {CUBEJOBS_LANES_AGAIN, 0};
    if (is_again()) return given;
    given = __real_cubejobs_lanes_wake(lane);
    if (WRONG == 1 && given.code == CUBEJOBS_LANES_DONE) given.code = CUBEJOBS_LANES_NOBODY;
    return given;
}

find_answer __wrap_cubejobs_lanes_find(struct cubejobs_worker *worker, uint32_t from) {
    static __thread unsigned turns;
    find_answer given = {CUBEJOBS_LANES_AGAIN, 0, 0, CUBEJOBS_LANES_NO_WORKER, 0, 0, 0};
    if (is_again()) return given;
    given = __real_cubejobs_lanes_find(worker, from);
    if (WRONG == 2) given.woken = CUBEJOBS_LANES_NO_WORKER;
    if (WRONG == 3 && given.code == CUBEJOBS_LANES_DONE && ++turns % 10 == 0) given.code = CUBEJOBS_LANES_AGAIN;
    return given;
}

uint32_t __wrap_cubejobs_lanes_awake(struct cubejobs_worker *worker) {
    uint32_t given = __real_cubejobs_lanes_awake(worker);
    return WRONG == 4 ? CUBEJOBS_LANES_DONE : given;
}
