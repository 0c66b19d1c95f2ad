/* Calls the workers of the library for jobs that sleep, from C or C++: each code where it must come, then two threads that
 * sleep and are woken. Each worker's thread parks on its own condition. With `asleep_calls JOBS` the producer submits JOBS
 * jobs. */
#include "cubejobs_lanes.h"

#include <pthread.h>
#include <sched.h>

#include "calls.h"

#define WORKERS 2

static unsigned long jobs = 20000;

static void want(int line, uint64_t got, uint64_t wanted) {
    if (got != wanted) fprintf(stderr, "%llu, and not %llu\n", (unsigned long long)got, (unsigned long long)wanted);
    expect_at("asleep_calls.c", line, got == wanted, "another answer");
}
#define WANT(got, wanted) want(__LINE__, (got), (wanted))
#define IS(got, code) want(__LINE__, (got), CUBEJOBS_LANES_##code)
#define NONE CUBEJOBS_LANES_NO_WORKER

static void want_found(int line, struct cubejobs_find_answer got, uint32_t code, uint32_t lane, uint32_t k, uint32_t woken,
                       uint64_t seq, uint64_t payload, uint64_t left) {
    const uint64_t found[] = {got.code, got.lane, got.dim, got.woken, got.seq, got.payload, got.left};
    const uint64_t wanted[] = {code, lane, k, woken, seq, payload, left};
    unsigned i;
    for (i = 0; i < 7; i++) want(line, found[i], wanted[i]);
}
#define FINDS(got, lane, k, woken, seq, payload, left) \
    want_found(__LINE__, (got), CUBEJOBS_LANES_DONE, lane, k, woken, seq, payload, left)
#define FINDS_NONE(got, code) want_found(__LINE__, (got), CUBEJOBS_LANES_##code, 0, 0, NONE, 0, 0, 0)

static void wakes(int line, struct cubejobs_wake_answer got, uint32_t code, uint32_t worker) {
    want(line, got.code, code), want(line, got.worker, worker);
}
#define WAKES(got, worker) wakes(__LINE__, (got), CUBEJOBS_LANES_DONE, worker)
#define WAKES_NONE(got, code) wakes(__LINE__, (got), CUBEJOBS_LANES_##code, 0)

static void numbered(int line, struct cubejobs_number_answer got, uint32_t code, uint32_t number) {
    want(line, got.code, code), want(line, got.number, number);
}
#define NUMBER(got, code, number) numbered(__LINE__, (got), CUBEJOBS_LANES_##code, number)

/* A handle that is of no worker and no producer: nothing is done, and nothing changes. */
static void no_handle(void *bytes, uint32_t code) {
    struct cubejobs_lanes before = *(struct cubejobs_lanes *)bytes;
    struct cubejobs_worker *worker = (struct cubejobs_worker *)bytes;
    want_found(__LINE__, cubejobs_lanes_find(worker, 0), code, 0, 0, NONE, 0, 0, 0);
    WANT(cubejobs_lanes_awake(worker), code);
    numbered(__LINE__, cubejobs_lanes_worker_number(worker), code, 0);
    wakes(__LINE__, cubejobs_lanes_wake((struct cubejobs_lane *)bytes), code, 0);
    WANT(memcmp(&before, bytes, sizeof before), 0);
}

/* One thread, with a lane of four jobs and two workers: each code of lanes. */
static void codes_of_lanes(void) {
    static struct cubejobs_lanes made;
    static struct cubejobs_lane lane;
    static struct cubejobs_worker one, two;
    struct cubejobs_lanes shut = {0, 0};
    no_handle(&shut, CUBEJOBS_LANES_NOT_OPEN);
    IS(cubejobs_lanes_open(&made, 1, 2, 4), DONE);
    IS(cubejobs_lanes_lane(&made, &lane), DONE);
    IS(cubejobs_lanes_worker(&made, &one), DONE);
    IS(cubejobs_lanes_worker(&made, &two), DONE);
    no_handle(&made, CUBEJOBS_LANES_OTHER_KIND);
    FINDS_NONE(cubejobs_lanes_find((struct cubejobs_worker *)&lane, 0), OTHER_KIND);
    WAKES_NONE(cubejobs_lanes_wake((struct cubejobs_lane *)&one), OTHER_KIND);
    NUMBER(cubejobs_lanes_worker_number(&one), DONE, 0);
    NUMBER(cubejobs_lanes_worker_number(&two), DONE, 1);
    IS(cubejobs_lanes_awake(&one), DONE);
    FINDS_NONE(cubejobs_lanes_find(&one, 1), BAD_LANE);
    /* A worker that is awake takes a job. Nobody sleeps. */
    IS(cubejobs_lanes_submit(&lane, 70, 3).code, DONE);
    WAKES_NONE(cubejobs_lanes_wake(&lane), NOBODY);
    FINDS(cubejobs_lanes_find(&one, 0), 0, 3, NONE, 0, 70, 0);
    /* It lies down: only find, awake and its number are left. */
    FINDS_NONE(cubejobs_lanes_find(&one, 0), PARK);
    FINDS_NONE(cubejobs_lanes_find(&one, 0), PARK);
    FINDS_NONE(cubejobs_lanes_find(&one, 1), BAD_LANE);
    IS(cubejobs_lanes_awake(&one), PARK);
    NUMBER(cubejobs_lanes_worker_number(&one), DONE, 0);
    IS(cubejobs_lanes_take(&one, 0).code, ASLEEP);
    IS(cubejobs_lanes_take_any(&one, 0).code, ASLEEP);
    IS(cubejobs_lanes_look(&one, 0).code, ASLEEP);
    IS(cubejobs_lanes_free_worker(&one), ASLEEP);
    FINDS_NONE(cubejobs_lanes_find(&two, 0), PARK);
    /* Two jobs: the first wakes one worker, which wakes the other. */
    IS(cubejobs_lanes_submit(&lane, 71, 0).code, DONE);
    WAKES(cubejobs_lanes_wake(&lane), 0);
    WAKES_NONE(cubejobs_lanes_wake(&lane), NOBODY);
    IS(cubejobs_lanes_submit(&lane, 72, 1).code, DONE);
    WAKES_NONE(cubejobs_lanes_wake(&lane), NOBODY);
    IS(cubejobs_lanes_awake(&two), PARK);
    IS(cubejobs_lanes_awake(&one), DONE);
    IS(cubejobs_lanes_awake(&one), DONE);
    FINDS(cubejobs_lanes_find(&one, 0), 0, 0, 1, 1, 71, 1);
    IS(cubejobs_lanes_awake(&two), DONE);
    FINDS(cubejobs_lanes_find(&two, 0), 0, 1, NONE, 2, 72, 0);
    IS(cubejobs_lanes_take(&two, 0).code, EMPTY);
    /* A close wakes both. */
    FINDS_NONE(cubejobs_lanes_find(&one, 0), PARK);
    FINDS_NONE(cubejobs_lanes_find(&two, 0), PARK);
    WANT(cubejobs_lanes_close(&made).accepted, 3);
    IS(cubejobs_lanes_awake(&one), DONE);
    IS(cubejobs_lanes_awake(&two), DONE);
    FINDS_NONE(cubejobs_lanes_find(&one, 0), ENDED);
    FINDS_NONE(cubejobs_lanes_find(&two, 0), ENDED);
    IS(cubejobs_lanes_free_worker(&one), DONE);
    IS(cubejobs_lanes_free_worker(&two), DONE);
    IS(cubejobs_lanes_free_lane(&lane), DONE);
    IS(cubejobs_lanes_finish(&made).code, DONE);
    IS(cubejobs_lanes_free(&made), DONE);
}

#define CROWD 80

/* One thread, with three lanes and a crowd of workers, of which two sleep: which worker each call names, and in which lane a
 * worker begins. Worker 0 is awake. */
static void names_of_workers(uint32_t near, uint32_t far) {
    static struct cubejobs_lanes made;
    static struct cubejobs_lane lane[3];
    static struct cubejobs_worker crowd[CROWD];
    uint32_t i;
    IS(cubejobs_lanes_open(&made, 3, CROWD, 4), DONE);
    for (i = 0; i < 3; i++) IS(cubejobs_lanes_lane(&made, &lane[i]), DONE);
    for (i = 0; i < CROWD; i++) IS(cubejobs_lanes_worker(&made, &crowd[i]), DONE);
    FINDS_NONE(cubejobs_lanes_find(&crowd[near], 0), PARK);
    FINDS_NONE(cubejobs_lanes_find(&crowd[far], 0), PARK);
    IS(cubejobs_lanes_submit(&lane[0], 70, 1).code, DONE);
    WAKES(cubejobs_lanes_wake(&lane[0]), near);
    IS(cubejobs_lanes_submit(&lane[2], 72, 2).code, DONE);
    WAKES_NONE(cubejobs_lanes_wake(&lane[2]), NOBODY);
    IS(cubejobs_lanes_awake(&crowd[far]), PARK);
    IS(cubejobs_lanes_awake(&crowd[near]), DONE);
    FINDS(cubejobs_lanes_find(&crowd[near], 2), 2, 2, far, 0, 72, 0);
    IS(cubejobs_lanes_awake(&crowd[far]), DONE);
    FINDS(cubejobs_lanes_find(&crowd[far], 2), 0, 1, NONE, 0, 70, 0);
    /* An awake worker begins with its lane too. */
    IS(cubejobs_lanes_submit(&lane[0], 73, 3).code, DONE);
    IS(cubejobs_lanes_submit(&lane[1], 74, 4).code, DONE);
    FINDS(cubejobs_lanes_find(&crowd[0], 1), 1, 4, NONE, 0, 74, 0);
    FINDS(cubejobs_lanes_find(&crowd[0], 1), 0, 3, NONE, 1, 73, 0);
    for (i = 0; i < CROWD; i++) IS(cubejobs_lanes_free_worker(&crowd[i]), DONE);
    for (i = 0; i < 3; i++) IS(cubejobs_lanes_free_lane(&lane[i]), DONE);
    WANT(cubejobs_lanes_close(&made).accepted, 4);
    IS(cubejobs_lanes_finish(&made).code, DONE);
    IS(cubejobs_lanes_free(&made), DONE);
}

/* Where the threads of two workers park. A thread is woken at least once after each call of `wake`. */
struct place {
    pthread_mutex_t lock;
    pthread_cond_t changed;
    int woken;
};
static struct place places[WORKERS];
static unsigned long parked[WORKERS], taken[WORKERS];
static unsigned numbers[WORKERS] = {0, 1};

static void wake(uint32_t worker) {
    if (worker == NONE) return;
    pthread_mutex_lock(&places[worker].lock);
    places[worker].woken = 1;
    pthread_cond_signal(&places[worker].changed);
    pthread_mutex_unlock(&places[worker].lock);
}

static void park(uint32_t worker) {
    parked[worker]++;
    pthread_mutex_lock(&places[worker].lock);
    while (!places[worker].woken) pthread_cond_wait(&places[worker].changed, &places[worker].lock);
    places[worker].woken = 0;
    pthread_mutex_unlock(&places[worker].lock);
}

static struct cubejobs_lanes lanes;
static struct cubejobs_lane producer;
static struct cubejobs_worker workers[WORKERS];

static void *take_jobs(void *number) {
    unsigned w = *(unsigned *)number;
    for (;;) {
        struct cubejobs_find_answer got = cubejobs_lanes_find(&workers[w], 0);
        wake(got.woken);
        if (got.code == CUBEJOBS_LANES_ENDED) return NULL;
        if (got.code == CUBEJOBS_LANES_DONE) {
            WANT(*(unsigned long *)(uintptr_t)got.payload, got.seq);
            taken[w]++;
        } else if (got.code == CUBEJOBS_LANES_PARK) {
            while (cubejobs_lanes_awake(&workers[w]) == CUBEJOBS_LANES_PARK) park(w);
        } else {
            IS(got.code, AGAIN);
        }
    }
}

/* Submits the jobs, with pauses in which the workers lie down. */
static void submit_all(unsigned long *cargo) {
    unsigned long i;
    for (i = 0; i < jobs; i++) {
        struct cubejobs_wake_answer woken;
        struct cubejobs_submit_answer got;
        cargo[i] = i;
        while ((got = cubejobs_lanes_submit(&producer, (uint64_t)(uintptr_t)&cargo[i], 0)).code) {
            IS(got.code, FULL);
            sched_yield();
        }
        do {
            woken = cubejobs_lanes_wake(&producer);
        } while (woken.code == CUBEJOBS_LANES_AGAIN);
        if (woken.code == CUBEJOBS_LANES_DONE) wake(woken.worker);
        if (i % 8 == 0) sched_yield();
    }
}

/* Returns how often a thread parked. */
static unsigned long threads(void) {
    pthread_t thread[WORKERS];
    unsigned long *cargo = (unsigned long *)calloc(jobs, sizeof *cargo);
    unsigned w;
    expect(cargo != NULL, "no memory");
    IS(cubejobs_lanes_open(&lanes, 1, WORKERS, 16), DONE), IS(cubejobs_lanes_lane(&lanes, &producer), DONE);
    for (w = 0; w < WORKERS; w++) {
        places[w].woken = 0, taken[w] = 0, parked[w] = 0;
        pthread_mutex_init(&places[w].lock, NULL), pthread_cond_init(&places[w].changed, NULL);
        IS(cubejobs_lanes_worker(&lanes, &workers[w]), DONE);
        expect(!pthread_create(&thread[w], NULL, take_jobs, &numbers[w]), "no thread");
    }
    submit_all(cargo);
    WANT(cubejobs_lanes_close(&lanes).accepted, jobs);
    for (w = 0; w < WORKERS; w++) wake(w);
    for (w = 0; w < WORKERS; w++) {
        pthread_join(thread[w], NULL);
        IS(cubejobs_lanes_free_worker(&workers[w]), DONE);
    }
    WANT(taken[0] + taken[1], jobs);
    IS(cubejobs_lanes_free_lane(&producer), DONE);
    IS(cubejobs_lanes_finish(&lanes).code, DONE), IS(cubejobs_lanes_free(&lanes), DONE);
    free(cargo);
    return parked[0] + parked[1];
}

/* Makes such crowds until a thread has parked: on a busy machine a worker may always find a job. */
static void threads_park(void) {
    unsigned crowds = 100;
    while (crowds > 0 && threads() == 0) crowds--;
    expect(crowds > 0, "no thread parked");
}

int main(int count, char **words) {
    uint32_t code;
    if (count > 1) jobs = strtoul(words[1], NULL, 10);
    for (code = CUBEJOBS_LANES_NOBODY; code <= CUBEJOBS_LANES_ASLEEP; code++)
        expect(strcmp(cubejobs_code_text(code), cubejobs_code_text(1000)), "a code without a text");
    codes_of_lanes();
    names_of_workers(1, 2);
    names_of_workers(62, 63);
    names_of_workers(40, 70);
    threads_park();
    printf("%lu jobs by workers that sleep, each once\n", jobs);
    return 0;
}
