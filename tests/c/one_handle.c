/* Two threads call with one handle at a time that nothing orders: ThreadSanitizer must see it. ONE_WORKER is of lanes. */
#include <pthread.h>

#ifdef ONE_WORKER
#include "cubejobs_lanes.h"
static struct cubejobs_lanes lanes;
static struct cubejobs_worker worker;
static int open_all(void) { return cubejobs_lanes_open(&lanes, 1, 1, 4) || cubejobs_lanes_worker(&lanes, &worker); }
static void call(void) { (void)!cubejobs_lanes_look(&worker, 0).code; }
#else
#include "cubejobs_regions.h"
static struct cubejobs_regions machine;
static int open_all(void) { return cubejobs_regions_open(&machine, 3); }
static void call(void) { (void)!cubejobs_regions_occupancy(&machine).code; }
#endif

static void *act(void *unused) {
    call();
    return unused;
}

int main(void) {
    pthread_t other;
    if (open_all() || pthread_create(&other, 0, act, 0)) return 2;
    act(0);
    return pthread_join(other, 0);
}
