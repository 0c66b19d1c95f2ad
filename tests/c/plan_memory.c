// Refuses each request for memory of cubejobs_plan_open in turn: it says so, and gives back what it got. Then it counts
// the bytes of planners of all dimensions: they are at most what cubejobs_plan_bytes says, and no other call takes any.
// In memory of the caller no call takes any, and fewer words than a planner needs are refused.
#include <stdio.h>
#include <stdlib.h>
#include <string.h>

#include "cubejobs_plan.h"

enum { ROOM = 64, JOBS = 200 };

void *__real_malloc(size_t size);
void __real_free(void *memory);
void *__wrap_malloc(size_t size);
void __wrap_free(void *memory);

static struct {
    void *at;
    size_t size;
} blocks[ROOM];
static unsigned requests, refused;
static size_t bytes;

static void must(int holds, const char *what) {
    if (holds) return;
    fprintf(stderr, "plan_memory.c: %s\n", what);
    exit(1);
}

void *__wrap_malloc(size_t size) {
    unsigned i = 0;
    if (++requests == refused) return NULL;
    while (i < ROOM && blocks[i].at) i++;
    must(i < ROOM, "too many blocks");
    blocks[i].at = __real_malloc(size);
    blocks[i].size = size;
    bytes += size;
    return blocks[i].at;
}

void __wrap_free(void *memory) {
    for (unsigned i = 0; memory && i < ROOM; i++)
        if (blocks[i].at == memory) {
            bytes -= blocks[i].size;
            blocks[i].at = NULL;
        }
    __real_free(memory);
}

static uint32_t opened(struct cubejobs_plan *plan, uint32_t dim, uint32_t jobs, unsigned refuse) {
    const struct cubejobs_plan_options options = {dim, jobs, 16, 0};
    requests = 0;
    refused = refuse;
    return cubejobs_plan_open(plan, options, NULL);
}

static void refuse_each(void) {
    for (unsigned refuse = 1; refuse < 100; refuse++) {
        struct cubejobs_plan plan = {0, NULL};
        const uint32_t code = opened(&plan, 4, 10, refuse);
        if (code == CUBEJOBS_PLAN_DONE) {
            must(refuse > 3 && requests == refuse - 1, "a request was refused, and it opens");
            must(cubejobs_plan_close(&plan) == CUBEJOBS_PLAN_DONE && bytes == 0, "a close keeps memory");
            return;
        }
        must(code == CUBEJOBS_PLAN_OUT_OF_MEMORY && requests == refuse, "another answer");
        must(plan.tag == 0 && !plan.at && bytes == 0, "a refused open keeps memory");
    }
    must(0, "it never opens");
}

// Makes calls of an open planner, and closes it. None takes memory.
static void use(struct cubejobs_plan *plan) {
    const struct cubejobs_plan_request request = {1, 2, 1, 3};
    requests = 0;
    for (unsigned i = 0; i < JOBS; i++) {
        struct cubejobs_plan_job job = cubejobs_plan_submit(plan, request);
        must(job.code == CUBEJOBS_PLAN_DONE || job.code == CUBEJOBS_PLAN_FULL, "another answer");
        job = cubejobs_plan_next(plan, i);
        if (job.code == CUBEJOBS_PLAN_DONE && i % 2) job = cubejobs_plan_finish(plan, job.ticket);
        cubejobs_plan_occupy(plan, i, 0);
        cubejobs_plan_counts(plan);
    }
    must(requests == 0, "a call takes memory");
    must(cubejobs_plan_close(plan) == CUBEJOBS_PLAN_DONE && bytes == 0, "a close keeps memory");
}

static void count_bytes(uint32_t dim, uint32_t jobs) {
    const struct cubejobs_plan_options options = {dim, jobs, 16, 0};
    struct cubejobs_plan plan = {0, NULL};
    must(opened(&plan, dim, jobs, 0) == CUBEJOBS_PLAN_DONE, "no planner");
    must(bytes <= cubejobs_plan_bytes(options), "it has more bytes than it says");
    use(&plan);
}

// Opens a planner in memory of ours. With fewer words it is refused, whether there are a few less or none.
static void lend(uint32_t dim, uint32_t jobs) {
    const struct cubejobs_plan_options options = {dim, jobs, 16, 0};
    const uint64_t words = cubejobs_plan_bytes(options) / 8;
    struct cubejobs_plan_memory memory = {__real_malloc((size_t)words * 8), 0};
    struct cubejobs_plan plan = {0, NULL};
    requests = refused = 0;
    for (uint64_t few = 0; few < 2; few++) {
        memory.words = few ? words - 300 : 0;
        must(cubejobs_plan_open_version(&plan, CUBEJOBS_PLAN_VERSION, options, memory, (uintptr_t)memory.at) ==
                 CUBEJOBS_PLAN_OUT_OF_MEMORY, "it opens in fewer words");
        must(plan.tag == 0 && !plan.at, "a refused open changes the handle");
    }
    must(cubejobs_plan_open(&plan, options, memory.at) == CUBEJOBS_PLAN_DONE, "no planner in memory of ours");
    must(requests == 0, "a planner in memory of ours takes other memory");
    use(&plan);
    __real_free(memory.at);
}

int main(void) {
    refuse_each();
    for (uint32_t dim = 0; dim <= CUBEJOBS_PLAN_MAX_DIM; dim++) {
        count_bytes(dim, 1);
        count_bytes(dim, 1000);
        lend(dim, 1);
        lend(dim, 1000);
    }
    count_bytes(3, CUBEJOBS_PLAN_MAX_JOBS);
    lend(3, CUBEJOBS_PLAN_MAX_JOBS);
    return 0;
}
