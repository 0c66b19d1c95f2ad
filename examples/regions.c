// Threads take blocks of a machine, and each releases those of its neighbour: any thread may release
// any block. The output is examples/regions.out.
#include <pthread.h>
#include <stdio.h>

#include "cubejobs_regions.h"

enum { THREADS = 4, BLOCKS = 1000 };

static struct cubejobs_regions handles[THREADS]; // a handle starts as zeros
static struct cubejobs_block blocks[THREADS][BLOCKS];
static unsigned numbers[THREADS] = {0, 1, 2, 3};

static void *take_all(void *number) {
    unsigned thread = *(unsigned *)number;
    for (int i = 0; i < BLOCKS; i++)
        if (cubejobs_regions_take(&handles[thread], &blocks[thread][i], i % 4).code) return "refused";
    return NULL;
}

static void *release_all(void *number) {
    unsigned thread = *(unsigned *)number;
    for (int i = 0; i < BLOCKS; i++)
        if (cubejobs_regions_release(&handles[thread], &blocks[(thread + 1) % THREADS][i])) return "refused";
    return NULL;
}

static int run(void *work(void *)) {
    pthread_t threads[THREADS];
    void *refused;
    int faults = 0;
    for (int i = 0; i < THREADS; i++)
        if (pthread_create(&threads[i], NULL, work, &numbers[i])) return 1;
    for (int i = 0; i < THREADS; i++) pthread_join(threads[i], &refused), faults |= refused != NULL;
    return faults;
}

int main(void) {
    if (cubejobs_regions_open(&handles[0], 16)) return 1;
    for (int i = 1; i < THREADS; i++)
        if (cubejobs_regions_share(&handles[0], &handles[i])) return 1;
    if (run(take_all)) return 1;
    printf("%d blocks are held, of %llu processors\n", THREADS * BLOCKS,
           (unsigned long long)cubejobs_regions_occupancy(&handles[0]).held);
    if (run(release_all)) return 1;
    for (int i = 0; i < THREADS; i++)
        if (cubejobs_regions_free(&handles[i])) return 1; // the last one frees the machine: nothing is held
    return 0;
}
