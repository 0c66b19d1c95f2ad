// Eight threads share a machine that has room for a few of them: each sleeps until it gets a block.
// The output is examples/wait.out.
#include <pthread.h>
#include <stdio.h>

#include "cubejobs_wait.h"

enum { DIM = 4, THREADS = 8, TURNS = 5000 };

static struct cubejobs_regions handles[THREADS]; // a handle starts as zeros
static struct cubejobs_event event = CUBEJOBS_EVENT_INIT;
static long seats[1 << DIM]; // plain memory: that of a block is its holder's

static void *work(void *thread) {
    struct cubejobs_block block = {0, 0};
    for (uint32_t turn = 0; turn < TURNS; turn++) {
        struct cubejobs_regions_answer taken = cubejobs_regions_take_or_wait(thread, &block, turn % (DIM + 1), &event);
        if (taken.code) return NULL;
        for (uint64_t p = taken.base; p < taken.base + (UINT64_C(1) << taken.dim); p++) seats[p]++;
        cubejobs_regions_release_and_raise(thread, &block, &event);
    }
    return thread;
}

int main(void) {
    pthread_t threads[THREADS];
    void *is_done;
    long all = 0;
    if (cubejobs_regions_open(&handles[0], DIM)) return 1;
    for (int i = 1; i < THREADS; i++)
        if (cubejobs_regions_share(&handles[0], &handles[i])) return 1;
    for (int i = 0; i < THREADS; i++)
        if (pthread_create(&threads[i], NULL, work, &handles[i])) return 1;
    for (int i = 0; i < THREADS; i++)
        if (pthread_join(threads[i], &is_done) || !is_done) return 1;
    for (int i = 0; i < THREADS; i++)
        if (cubejobs_regions_free(&handles[i])) return 1;
    for (int p = 0; p < 1 << DIM; p++) all += seats[p];
    printf("%d threads had %d blocks each, with %ld processors in all\n", THREADS, TURNS, all);
    return 0;
}
