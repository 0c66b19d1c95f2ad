#include <pthread.h>
#include <sched.h>
#include <stdio.h>

#include "cubejobs_lanes.h"

enum { THREADS = 4, JOBS = 100000 };

static struct cubejobs_lanes lanes; // a handle starts as zeros
static struct cubejobs_lane lane[THREADS];
static struct cubejobs_worker worker[THREADS];
static unsigned long sums[THREADS];
static unsigned numbers[THREADS] = {0, 1, 2, 3};

static void *produce(void *number) {
    unsigned mine = *(unsigned *)number;
    for (uint64_t i = 1; i <= JOBS; i++)
        while (cubejobs_lanes_submit(&lane[mine], i, 0).code == CUBEJOBS_LANES_FULL) sched_yield();
    cubejobs_lanes_free_lane(&lane[mine]);
    return NULL;
}

static void *consume(void *number) {
    unsigned mine = *(unsigned *)number;
    for (;;) {
        struct cubejobs_job_answer job = cubejobs_lanes_take_any(&worker[mine], mine);
        if (job.code == CUBEJOBS_LANES_ENDED) return NULL;
        if (job.code == CUBEJOBS_LANES_DONE)
            sums[mine] += job.payload;
        else
            sched_yield();
    }
}

int main(void) {
    pthread_t producers[THREADS], workers[THREADS];
    unsigned long sum = 0, jobs;
    if (cubejobs_lanes_open(&lanes, THREADS, THREADS, 64)) return 1;
    for (int i = 0; i < THREADS; i++)
        if (cubejobs_lanes_lane(&lanes, &lane[i]) || cubejobs_lanes_worker(&lanes, &worker[i])) return 1;
    for (int i = 0; i < THREADS; i++) {
        if (pthread_create(&producers[i], NULL, produce, &numbers[i])) return 1;
        if (pthread_create(&workers[i], NULL, consume, &numbers[i])) return 1;
    }
    for (int i = 0; i < THREADS; i++) pthread_join(producers[i], NULL);
    jobs = cubejobs_lanes_close(&lanes).accepted; // the workers take what is left, and then end
    for (int i = 0; i < THREADS; i++) {
        pthread_join(workers[i], NULL);
        sum += sums[i];
        if (cubejobs_lanes_free_worker(&worker[i])) return 1;
    }
    printf("%lu jobs, with a sum of %lu\n", jobs, sum);
    return cubejobs_lanes_finish(&lanes).code || cubejobs_lanes_free(&lanes);
}
