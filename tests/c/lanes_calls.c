/* Calls the lanes of the library for jobs from C or C++: each code where it must come, handles that are shut, foreign or
 * of the wrong kind, random calls beside a plain model, and then four producers and four workers, which hand over plain
 * memory. With `lanes_calls JOBS` each producer submits JOBS jobs. With UNGUARDED a producer writes to the memory of a
 * job that it has submitted, which a sanitizer must see. */
#include "cubejobs_lanes.h"

/* Helgrind does not see the words that pass a handle that comes back to another thread. */
#ifdef CUBEJOBS_HELGRIND
#define UNDER_HELGRIND 1
#else
#define UNDER_HELGRIND 0
#endif

#include <pthread.h>

#include "calls.h"

#define LANES 4
#define WORKERS 4
#define MODEL_JOBS 5

static unsigned long jobs = 20000;

static void want(int line, uint64_t got, uint64_t wanted) {
    if (got != wanted) fprintf(stderr, "%llu, and not %llu\n", (unsigned long long)got, (unsigned long long)wanted);
    expect_at("lanes_calls.c", line, got == wanted, "another answer");
}
#define WANT(got, wanted) want(__LINE__, (got), (wanted))
#define IS(got, code) want(__LINE__, (got), CUBEJOBS_LANES_##code)

static void want_job(int line, struct cubejobs_job_answer got, uint32_t code, uint32_t lane, uint32_t k, uint64_t seq,
                     uint64_t payload, uint64_t left) {
    const uint64_t found[] = {got.code, got.lane, got.dim, got.seq, got.payload, got.left};
    const uint64_t wanted[] = {code, lane, k, seq, payload, left};
    unsigned i;
    for (i = 0; i < 6; i++) want(line, found[i], wanted[i]);
}
#define GIVES(got, lane, k, seq, payload, left) want_job(__LINE__, (got), CUBEJOBS_LANES_DONE, lane, k, seq, payload, left)
#define REFUSES(got, code) want_job(__LINE__, (got), CUBEJOBS_LANES_##code, 0, 0, 0, 0, 0)
#define ACCEPTS(got, number) \
    do { \
        struct cubejobs_submit_answer given = (got); \
        IS(given.code, DONE), WANT(given.seq, number); \
    } while (0)

/* A handle that is of none of the three kinds: nothing is done, and nothing changes. */
static void no_handle(void *bytes, uint32_t code) {
    struct cubejobs_lanes before, *owner = (struct cubejobs_lanes *)bytes;
    struct cubejobs_lane *lane = (struct cubejobs_lane *)bytes, one = {0, 0};
    struct cubejobs_worker *worker = (struct cubejobs_worker *)bytes, two = {0, 0};
    before = *owner;
    WANT(cubejobs_lanes_lane(owner, &one), code);
    WANT(cubejobs_lanes_worker(owner, &two), code);
    WANT(cubejobs_lanes_submit(lane, 1, 1).code, code);
    want_job(__LINE__, cubejobs_lanes_take(worker, 0), code, 0, 0, 0, 0, 0);
    want_job(__LINE__, cubejobs_lanes_take_any(worker, 0), code, 0, 0, 0, 0, 0);
    WANT(cubejobs_lanes_look(worker, 0).code, code);
    WANT(cubejobs_lanes_close(owner).code, code);
    WANT(cubejobs_lanes_free_lane(lane), code);
    WANT(cubejobs_lanes_free_worker(worker), code);
    WANT(cubejobs_lanes_finish(owner).code, code);
    want_job(__LINE__, cubejobs_lanes_rest(owner), code, 0, 0, 0, 0, 0);
    WANT(cubejobs_lanes_free(owner), code);
    WANT(one.tag | two.tag, 0);
    WANT(memcmp(&before, owner, sizeof before), 0);
}

static void sizes(void) {
    static struct cubejobs_lanes made;
    struct cubejobs_lane_sizes one = {1, 1, 1};
    IS(cubejobs_lanes_open_version(&made, CUBEJOBS_LANES_VERSION + 1, one), BAD_VERSION);
    IS(cubejobs_lanes_open_version(&made, CUBEJOBS_LANES_VERSION - 1, one), BAD_VERSION);
    IS(cubejobs_lanes_open(&made, 0, 1, 1), BAD_SIZES);
    IS(cubejobs_lanes_open(&made, 1, 0, 1), BAD_SIZES);
    IS(cubejobs_lanes_open(&made, 1, 1, 0), BAD_SIZES);
    IS(cubejobs_lanes_open(&made, CUBEJOBS_LANES_MAX_LANES + 1, 1, 1), BAD_SIZES);
    IS(cubejobs_lanes_open(&made, 1, CUBEJOBS_LANES_MAX_WORKERS + 1, 1), BAD_SIZES);
    IS(cubejobs_lanes_open(&made, 1, 1, CUBEJOBS_LANES_MAX_CAPACITY + 1), BAD_SIZES);
    no_handle(&made, CUBEJOBS_LANES_NOT_OPEN);
}

/* Ends lanes of which all handles are back. */
static void end(struct cubejobs_lanes *owner) {
    while (cubejobs_lanes_rest(owner).code == CUBEJOBS_LANES_DONE) IS(cubejobs_lanes_free(owner), JOB_LEFT);
    IS(cubejobs_lanes_free(owner), DONE);
    no_handle(owner, CUBEJOBS_LANES_NOT_OPEN);
}

/* One thread, with two lanes of two jobs and two workers: each code. */
static void codes(void) {
    static struct cubejobs_lanes made, second;
    static struct cubejobs_lane lanes[3], foreign;
    static struct cubejobs_worker workers[3];
    struct cubejobs_lanes bytes;
    struct cubejobs_finish_answer finish;
    unsigned i;
    for (i = 0; i < 1000; i++) {
        bytes.tag = next(&seed) >> 16;
        bytes.at = (void *)(uintptr_t)next(&seed);
        no_handle(&bytes, CUBEJOBS_LANES_NOT_OPEN);
    }
    IS(cubejobs_lanes_open(&made, 2, 2, 2), DONE);
    IS(cubejobs_lanes_open(&made, 2, 2, 2), ALREADY_OPEN);
    IS(cubejobs_lanes_open(&second, 1, 1, 1), DONE);
    for (i = 0; i < 2; i++) {
        IS(cubejobs_lanes_lane(&made, &lanes[i]), DONE);
        IS(cubejobs_lanes_worker(&made, &workers[i]), DONE);
    }
    IS(cubejobs_lanes_lane(&made, &lanes[1]), ALREADY_OPEN);
    IS(cubejobs_lanes_worker(&made, &workers[1]), ALREADY_OPEN);
    IS(cubejobs_lanes_lane(&made, &lanes[2]), NONE_LEFT);
    IS(cubejobs_lanes_worker(&made, &workers[2]), NONE_LEFT);
    /* Handles of another kind. */
    IS(cubejobs_lanes_lane((struct cubejobs_lanes *)&lanes[0], &lanes[2]), OTHER_KIND);
    IS(cubejobs_lanes_worker((struct cubejobs_lanes *)&workers[0], &workers[2]), OTHER_KIND);
    IS(cubejobs_lanes_submit((struct cubejobs_lane *)&workers[0], 1, 1).code, OTHER_KIND);
    REFUSES(cubejobs_lanes_take((struct cubejobs_worker *)&lanes[0], 0), OTHER_KIND);
    REFUSES(cubejobs_lanes_take_any((struct cubejobs_worker *)&made, 0), OTHER_KIND);
    IS(cubejobs_lanes_look((struct cubejobs_worker *)&lanes[0], 0).code, OTHER_KIND);
    IS(cubejobs_lanes_close((struct cubejobs_lanes *)&lanes[0]).code, OTHER_KIND);
    IS(cubejobs_lanes_free_lane((struct cubejobs_lane *)&workers[0]), OTHER_KIND);
    IS(cubejobs_lanes_free_worker((struct cubejobs_worker *)&lanes[0]), OTHER_KIND);
    IS(cubejobs_lanes_free_lane((struct cubejobs_lane *)&made), OTHER_KIND);
    IS(cubejobs_lanes_free_worker((struct cubejobs_worker *)&made), OTHER_KIND);
    REFUSES(cubejobs_lanes_rest((struct cubejobs_lanes *)&lanes[0]), OTHER_KIND);
    IS(cubejobs_lanes_free((struct cubejobs_lanes *)&workers[0]), OTHER_KIND);
    IS(cubejobs_lanes_finish((struct cubejobs_lanes *)&workers[0]).code, OTHER_KIND);
    /* Jobs. */
    REFUSES(cubejobs_lanes_take(&workers[0], 0), EMPTY);
    REFUSES(cubejobs_lanes_take(&workers[0], 2), BAD_LANE);
    REFUSES(cubejobs_lanes_take_any(&workers[0], 2), BAD_LANE);
    IS(cubejobs_lanes_look(&workers[0], 2).code, BAD_LANE);
    IS(cubejobs_lanes_look(&workers[0], 0).code, EMPTY);
    ACCEPTS(cubejobs_lanes_submit(&lanes[0], 70, 3), 0);
    ACCEPTS(cubejobs_lanes_submit(&lanes[0], UINT64_MAX, 0), 1);
    IS(cubejobs_lanes_submit(&lanes[0], 72, 3).code, FULL);
    ACCEPTS(cubejobs_lanes_submit(&lanes[1], 80, UINT32_MAX), 0);
    WANT(cubejobs_lanes_look(&workers[0], 0).jobs, 2);
    WANT(cubejobs_lanes_look(&workers[1], 1).jobs, 1);
    GIVES(cubejobs_lanes_take(&workers[0], 0), 0, 3, 0, 70, 1);
    ACCEPTS(cubejobs_lanes_submit(&lanes[0], 72, 4), 2);
    GIVES(cubejobs_lanes_take_any(&workers[0], 1), 1, UINT32_MAX, 0, 80, 0);
    GIVES(cubejobs_lanes_take_any(&workers[0], 1), 0, 0, 1, UINT64_MAX, 0);
    ACCEPTS(cubejobs_lanes_submit(&lanes[1], 81, 5), 1);
    /* The end. */
    IS(cubejobs_lanes_finish(&made).code, NOT_CLOSED);
    REFUSES(cubejobs_lanes_rest(&made), NOT_FINISHED);
    IS(cubejobs_lanes_free(&made), NOT_FINISHED);
    WANT(cubejobs_lanes_close(&made).accepted, 5);
    IS(cubejobs_lanes_close(&made).code, CLOSED);
    IS(cubejobs_lanes_submit(&lanes[0], 1, 1).code, CLOSED);
    IS(cubejobs_lanes_lane(&second, &foreign), DONE);
    IS(cubejobs_lanes_free_lane(&lanes[0]), DONE);
    no_handle(&lanes[0], CUBEJOBS_LANES_NOT_OPEN);
    IS(cubejobs_lanes_free_lane(&lanes[0]), NOT_OPEN);
    finish = cubejobs_lanes_finish(&made);
    IS(finish.code, LANE_OUT), WANT(finish.number, 1);
    IS(cubejobs_lanes_free_lane(&lanes[1]), DONE);
    IS(cubejobs_lanes_free_worker(&workers[0]), DONE);
    finish = cubejobs_lanes_finish(&made);
    IS(finish.code, WORKER_OUT), WANT(finish.number, 1);
    GIVES(cubejobs_lanes_take(&workers[1], 0), 0, 4, 2, 72, 0);
    REFUSES(cubejobs_lanes_take(&workers[1], 0), ENDED);
    IS(cubejobs_lanes_look(&workers[1], 0).code, ENDED);
    /* A lane that came back can go out again. */
    IS(cubejobs_lanes_lane(&made, &lanes[2]), DONE);
    IS(cubejobs_lanes_submit(&lanes[2], 1, 1).code, CLOSED);
    IS(cubejobs_lanes_free_lane(&lanes[2]), DONE);
    IS(cubejobs_lanes_free_worker(&workers[1]), DONE);
    IS(cubejobs_lanes_finish(&made).code, DONE);
    IS(cubejobs_lanes_finish(&made).code, FINISHED);
    IS(cubejobs_lanes_close(&made).code, FINISHED);
    IS(cubejobs_lanes_lane(&made, &lanes[2]), FINISHED);
    IS(cubejobs_lanes_worker(&made, &workers[2]), FINISHED);
    IS(cubejobs_lanes_free(&made), JOB_LEFT);
    GIVES(cubejobs_lanes_rest(&made), 1, 5, 1, 81, 0);
    REFUSES(cubejobs_lanes_rest(&made), EMPTY);
    end(&made);
    IS(cubejobs_lanes_free_lane(&foreign), DONE);
    WANT(cubejobs_lanes_close(&second).accepted, 0);
    IS(cubejobs_lanes_finish(&second).code, DONE);
    end(&second);
}

/* Random calls of one thread, beside lists. */
static void model(unsigned long turns) {
    static struct cubejobs_lanes owner;
    static struct cubejobs_lane lane[LANES];
    static struct cubejobs_worker worker[WORKERS];
    uint64_t queue[LANES][MODEL_JOBS], first[LANES] = {0}, last[LANES] = {0}, total = 0, l;
    unsigned long turn;
    IS(cubejobs_lanes_open(&owner, LANES, WORKERS, MODEL_JOBS), DONE);
    for (l = 0; l < LANES; l++) IS(cubejobs_lanes_lane(&owner, &lane[l]), DONE), IS(cubejobs_lanes_worker(&owner, &worker[l]), DONE);
    for (turn = 0; turn < turns; turn++) {
        unsigned w = random_below(WORKERS);
        l = random_below(LANES);
        if (random_below(2)) {
            uint64_t payload = next(&seed);
            struct cubejobs_submit_answer got = cubejobs_lanes_submit(&lane[l], payload, (uint32_t)(payload >> 7));
            if (last[l] - first[l] == MODEL_JOBS) {
                IS(got.code, FULL);
            } else {
                IS(got.code, DONE), WANT(got.seq, last[l]);
                queue[l][last[l]++ % MODEL_JOBS] = payload, total++;
            }
        } else {
            struct cubejobs_job_answer got = cubejobs_lanes_take(&worker[w], (uint32_t)l);
            if (last[l] == first[l]) {
                IS(got.code, EMPTY);
            } else {
                uint64_t payload = queue[l][first[l] % MODEL_JOBS];
                IS(got.code, DONE), WANT(got.payload, payload), WANT(got.dim, (uint32_t)(payload >> 7));
                WANT(got.seq, first[l]++);
            }
        }
    }
    WANT(cubejobs_lanes_close(&owner).accepted, total);
    for (l = 0; l < LANES; l++) IS(cubejobs_lanes_free_lane(&lane[l]), DONE), IS(cubejobs_lanes_free_worker(&worker[l]), DONE);
    IS(cubejobs_lanes_finish(&owner).code, DONE);
    for (l = 0; l < LANES; l++) {
        while (first[l] < last[l]) {
            struct cubejobs_job_answer got = cubejobs_lanes_rest(&owner);
            IS(got.code, DONE), WANT(got.lane, l), WANT(got.seq, first[l]), WANT(got.payload, queue[l][first[l] % MODEL_JOBS]);
            first[l]++;
        }
    }
    end(&owner);
}

struct cargo {
    unsigned lane;
    unsigned long number;
    unsigned seen;
};
static struct cubejobs_lanes crowd;
static struct cubejobs_lane crowd_lanes[LANES];
static struct cubejobs_worker crowd_workers[WORKERS];
static struct cargo *cargo[LANES];
static unsigned long taken[WORKERS];
static unsigned numbers[LANES] = {0, 1, 2, 3};

static void *produce(void *number) {
    unsigned l = *(unsigned *)number;
    unsigned long i;
    for (i = 0; i < jobs; i++) {
        struct cargo *one = &cargo[l][i];
        one->lane = l, one->number = i;
        for (;;) {
            struct cubejobs_submit_answer got = cubejobs_lanes_submit(&crowd_lanes[l], (uint64_t)(uintptr_t)one, l);
            if (got.code == CUBEJOBS_LANES_DONE) {
                WANT(got.seq, i);
                break;
            }
            IS(got.code, FULL);
            sched_yield();
        }
#ifdef UNGUARDED
        one->seen = 7;
#endif
    }
    IS(cubejobs_lanes_free_lane(&crowd_lanes[l]), DONE);
    return NULL;
}

static void *consume(void *number) {
    unsigned w = *(unsigned *)number;
    unsigned long last[LANES] = {0};
    for (;;) {
        struct cubejobs_job_answer got = cubejobs_lanes_take_any(&crowd_workers[w], w);
        if (got.code == CUBEJOBS_LANES_ENDED) {
            IS(cubejobs_lanes_free_worker(&crowd_workers[w]), DONE);
            return NULL;
        }
        if (got.code == CUBEJOBS_LANES_DONE) {
            struct cargo *one = (struct cargo *)(uintptr_t)got.payload;
            WANT(one->lane, got.lane), WANT(one->number, got.seq), WANT(got.dim, got.lane), WANT(one->seen, 0);
            expect(got.seq >= last[got.lane], "a job before an earlier one");
            last[got.lane] = got.seq + 1;
            one->seen = 1;
            taken[w]++;
        } else {
            IS(got.code, EMPTY);
            sched_yield();
        }
    }
}

static void threads(void) {
    pthread_t producers[LANES], workers[WORKERS];
    unsigned long all = 0, i;
    unsigned l;
    IS(cubejobs_lanes_open(&crowd, LANES, WORKERS, 16), DONE);
    for (l = 0; l < LANES; l++) {
        cargo[l] = (struct cargo *)calloc(jobs, sizeof *cargo[l]);
        expect(cargo[l] != NULL, "no memory");
        IS(cubejobs_lanes_lane(&crowd, &crowd_lanes[l]), DONE), IS(cubejobs_lanes_worker(&crowd, &crowd_workers[l]), DONE);
    }
    for (l = 0; l < LANES; l++) {
        expect(!pthread_create(&producers[l], NULL, produce, &numbers[l]), "no thread");
        expect(!pthread_create(&workers[l], NULL, consume, &numbers[l]), "no thread");
    }
    for (l = 0; l < LANES; l++) pthread_join(producers[l], NULL);
    WANT(cubejobs_lanes_close(&crowd).accepted, LANES * jobs);
    for (l = 0; l < LANES; l++) pthread_join(workers[l], NULL);
    for (l = 0; l < LANES; l++) {
        all += taken[l];
        for (i = 0; i < jobs; i++) WANT(cargo[l][i].seen, 1);
        free(cargo[l]);
    }
    WANT(all, LANES * jobs);
    IS(cubejobs_lanes_finish(&crowd).code, DONE);
    end(&crowd);
}

/* A lane with three jobs that are left, and another lane: which is out, and how many jobs are left after each. */
static void rests(void) {
    static struct cubejobs_lanes made;
    static struct cubejobs_lane lane, other;
    static struct cubejobs_worker worker;
    struct cubejobs_finish_answer finish;
    IS(cubejobs_lanes_open(&made, 2, 1, 3), DONE);
    IS(cubejobs_lanes_lane(&made, &lane), DONE), IS(cubejobs_lanes_lane(&made, &other), DONE);
    IS(cubejobs_lanes_worker(&made, &worker), DONE);
    ACCEPTS(cubejobs_lanes_submit(&lane, 10, 1), 0);
    ACCEPTS(cubejobs_lanes_submit(&lane, 11, 2), 1);
    ACCEPTS(cubejobs_lanes_submit(&lane, 12, 3), 2);
    IS(cubejobs_lanes_submit(&lane, 13, 4).code, FULL);
    GIVES(cubejobs_lanes_take(&worker, 0), 0, 1, 0, 10, 2);
    ACCEPTS(cubejobs_lanes_submit(&lane, 13, 4), 3);
    WANT(cubejobs_lanes_close(&made).accepted, 4);
    finish = cubejobs_lanes_finish(&made);
    IS(finish.code, LANE_OUT), WANT(finish.number, 0);
    IS(cubejobs_lanes_free_lane(&lane), DONE);
    finish = cubejobs_lanes_finish(&made);
    IS(finish.code, LANE_OUT), WANT(finish.number, 1);
    IS(cubejobs_lanes_free_lane(&other), DONE), IS(cubejobs_lanes_free_worker(&worker), DONE);
    IS(cubejobs_lanes_finish(&made).code, DONE);
    GIVES(cubejobs_lanes_rest(&made), 0, 2, 1, 11, 2);
    GIVES(cubejobs_lanes_rest(&made), 0, 3, 2, 12, 1);
    GIVES(cubejobs_lanes_rest(&made), 0, 4, 3, 13, 0);
    end(&made);
}

static pthread_mutex_t sharers = PTHREAD_MUTEX_INITIALIZER;

static void *share_out(void *number) {
    unsigned l = *(unsigned *)number;
    uint64_t i;
    for (i = 0; i < jobs / 8; i++) {
        struct cubejobs_submit_answer got;
        do {
            pthread_mutex_lock(&sharers);
            got = cubejobs_lanes_submit(&crowd_lanes[0], i, l);
            pthread_mutex_unlock(&sharers);
            if (got.code) IS(got.code, FULL), sched_yield();
        } while (got.code);
    }
    return NULL;
}

/* Four producers share a lane under a lock, and one worker takes their jobs: each once, in the order of its producer. */
static void crowd_of_sharers(void) {
    pthread_t threads[LANES];
    struct cubejobs_job_answer got;
    uint64_t last[LANES] = {0}, seq = 0;
    unsigned l;
    IS(cubejobs_lanes_open(&crowd, 1, 1, 8), DONE);
    IS(cubejobs_lanes_lane(&crowd, &crowd_lanes[0]), DONE), IS(cubejobs_lanes_worker(&crowd, &crowd_workers[0]), DONE);
    for (l = 0; l < LANES; l++) expect(!pthread_create(&threads[l], NULL, share_out, &numbers[l]), "no thread");
    while (seq < LANES * (jobs / 8)) {
        got = cubejobs_lanes_take(&crowd_workers[0], 0);
        if (got.code) {
            IS(got.code, EMPTY);
            sched_yield();
            continue;
        }
        WANT(got.seq, seq++), WANT(got.payload, last[got.dim]++);
    }
    for (l = 0; l < LANES; l++) pthread_join(threads[l], NULL);
    IS(cubejobs_lanes_free_lane(&crowd_lanes[0]), DONE), IS(cubejobs_lanes_free_worker(&crowd_workers[0]), DONE);
    WANT(cubejobs_lanes_close(&crowd).accepted, LANES * (jobs / 8));
    IS(cubejobs_lanes_finish(&crowd).code, DONE);
    end(&crowd);
}

static void *come_back(void *number) {
    unsigned l = *(unsigned *)number;
    IS(cubejobs_lanes_free_lane(&crowd_lanes[l]), DONE);
    IS(cubejobs_lanes_free_worker(&crowd_workers[l]), DONE);
    return NULL;
}

/* Handles come back while the owner tries to end the lanes, and one that has come back goes out again. */
static void returns(void) {
    pthread_t threads[LANES];
    struct cubejobs_finish_answer got;
    unsigned l, turn;
    for (turn = 0; turn < 100; turn++) {
        IS(cubejobs_lanes_open(&crowd, LANES, WORKERS, 2), DONE);
        for (l = 0; l < LANES; l++)
            IS(cubejobs_lanes_lane(&crowd, &crowd_lanes[l]), DONE), IS(cubejobs_lanes_worker(&crowd, &crowd_workers[l]), DONE);
        IS(cubejobs_lanes_free_lane(&crowd_lanes[2]), DONE);
        IS(cubejobs_lanes_lane(&crowd, &crowd_lanes[2]), DONE);
        ACCEPTS(cubejobs_lanes_submit(&crowd_lanes[2], 5, 6), 0);
        WANT(cubejobs_lanes_close(&crowd).accepted, 1);
        for (l = 0; l < LANES; l++) expect(!pthread_create(&threads[l], NULL, come_back, &numbers[l]), "no thread");
        while ((got = cubejobs_lanes_finish(&crowd)).code) {
            expect(got.code == CUBEJOBS_LANES_LANE_OUT || got.code == CUBEJOBS_LANES_WORKER_OUT ||
                   got.code == CUBEJOBS_LANES_STILL_SHARED, "another code");
            sched_yield();
        }
        for (l = 0; l < LANES; l++) pthread_join(threads[l], NULL);
        GIVES(cubejobs_lanes_rest(&crowd), 2, 6, 0, 5, 0);
        end(&crowd);
    }
}

static bool has_text(uint32_t code) { return strcmp(cubejobs_code_text(code), cubejobs_code_text(1000)) != 0; }

/* Each code has a text, and no other number has. */
static void texts(void) {
    uint32_t code;
    for (code = 0; code <= CUBEJOBS_LANES_ASLEEP; code++)
        expect(has_text(code) == (code != 30 && (code < 33 || code > 40)), "another text of a code");
    expect(has_text(CUBEJOBS_LANES_TIMED_OUT), "a code without a text");
}

int main(int count, char **words) {
    if (count > 1) jobs = strtoul(words[1], NULL, 10);
    texts();
    sizes();
    codes();
    model(10 * jobs);
    threads();
    rests();
    crowd_of_sharers();
    if (!UNDER_HELGRIND) returns();
    printf("%lu jobs of %d producers, each once\n", LANES * jobs, LANES);
    return 0;
}
