/* Refuses each request of a scheduler for memory in turn. An open answers OUT_OF_MEMORY and changes nothing. Nothing is
 * left over once the scheduler is freed. Of the other calls only a free that is refused makes requests. If some are
 * not granted, the scheduler has fewer doors and works as before. Link it with --wrap=malloc and --wrap=free. */
#include "sched_kit.h"

/* How many more requests are granted, how many there were, and how many blocks are there. */
static long left, asked, live;

void *__real_malloc(size_t size);
void __real_free(void *block);
void *__wrap_malloc(size_t size);
void __wrap_free(void *block);

void *__wrap_malloc(size_t size) {
    void *block = left > 0 ? __real_malloc(size) : 0;
    asked++;
    if (block) left--, live++;
    return block;
}

void __wrap_free(void *block) {
    if (block) live--;
    __real_free(block);
}

static struct cubejobs_sched sched;

/* Makes each call that needs no memory, with none granted. */
static void use(void) {
    struct cubejobs_sched_worker worker;
    uint64_t ticket;
    asked = left = 0;
    must(cubejobs_sched_worker(&sched, &worker) == CUBEJOBS_SCHED_DONE);
    ticket = cubejobs_sched_submit(&sched, request_of(7, 2), 1).ticket;
    must(cubejobs_sched_submit(&sched, request_of(8, 2), 1).code == CUBEJOBS_SCHED_DONE);
    must(cubejobs_sched_submit(&sched, request_of(9, 2), 1).code == CUBEJOBS_SCHED_TIMED_OUT);
    must(cubejobs_sched_forecast(&sched, ticket).state == CUBEJOBS_SCHED_WAITS);
    must(cubejobs_sched_next(&worker, 1).payload == 7);
    must(cubejobs_sched_occupy(&sched, 2, 1) == CUBEJOBS_SCHED_DONE);
    must(cubejobs_sched_vacate(&sched, 2, 1) == CUBEJOBS_SCHED_DONE);
    must(cubejobs_sched_counts(&sched).running == 1);
    must(cubejobs_sched_next(&worker, 0).payload == 8);
    must(cubejobs_sched_done(&worker) == CUBEJOBS_SCHED_DONE);
    must(cubejobs_sched_next(&worker, 1).code == CUBEJOBS_SCHED_TIMED_OUT);
    must(cubejobs_sched_leave(&worker) == CUBEJOBS_SCHED_DONE);
    must(asked == 0);
}

/* Refuses a free, with this many requests granted. Returns how many doors are open after it. */
static uint32_t refuse_a_free(long allowed) {
    struct cubejobs_sched_worker worker;
    uint32_t open;
    must(cubejobs_sched_worker(&sched, &worker) == CUBEJOBS_SCHED_DONE);
    left = allowed;
    must(cubejobs_sched_free(&sched) == CUBEJOBS_SCHED_IN_USE);
    open = sched.open_doors;
    must(open >= 1 && open <= CUBEJOBS_SCHED_DOORS);
    must(cubejobs_sched_leave(&worker) == CUBEJOBS_SCHED_DONE);
    return open;
}

static void opens(long allowed) {
    const struct cubejobs_sched_options options = {2, 2, 4, 3};
    left = allowed;
    must(cubejobs_sched_open(&sched, options) == CUBEJOBS_SCHED_DONE);
}

int main(void) {
    const struct cubejobs_sched_options options = {2, 2, 4, 3};
    long allowed, before, needed;
    uint32_t open = 0;
    limit();
    opens(1000), needed = 1000 - left;
    use();
    must(cubejobs_sched_free(&sched) == CUBEJOBS_SCHED_DONE);
    before = live;
    for (allowed = 0; allowed < needed; allowed++) {
        left = allowed;
        must(cubejobs_sched_open(&sched, options) == CUBEJOBS_SCHED_OUT_OF_MEMORY);
        must(live == before && cubejobs_sched_counts(&sched).code == CUBEJOBS_SCHED_NOT_OPEN);
    }
    for (allowed = 0; open < CUBEJOBS_SCHED_DOORS; allowed++) {
        opens(needed);
        open = refuse_a_free(allowed);
        must(open <= 1 + (uint32_t)allowed);
        use();
        must(refuse_a_free(1000) == CUBEJOBS_SCHED_DOORS);
        must(cubejobs_sched_free(&sched) == CUBEJOBS_SCHED_DONE && live == before);
    }
    printf("ffi: an open makes %ld requests, and each was refused\n", needed);
    return 0;
}
