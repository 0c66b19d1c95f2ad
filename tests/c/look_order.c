/* Holds rules of cubejobs_wait.h for lanes by scripted orders of threads, as wait_order.c does for blocks. A thread is
 * stopped before each of its atomic instructions in turn, while others go on: a worker that lies down, one that is
 * woken by a submit, and a submit whose lane is full. Without a lost wake each script ends. With OWNERS it holds the
 * same of cubejobs.hpp in C++20. */
#include "steps.h"

#include "calls.h"
#ifdef OWNERS
#include "cubejobs.hpp"
#endif

#define WORKERS 4
#define CAPACITY 3

#ifdef OWNERS
static cubejobs::lanes *lanes;
static cubejobs::lane *lane;
#else
static uint32_t words[WORKERS];
static struct cubejobs_parking parking = CUBEJOBS_PARKING_INIT(words, WORKERS);
static struct cubejobs_lanes lanes;
static struct cubejobs_lane lane;
#endif

/* A thread of a script: what it does, and the worker with which it may. */
struct actor {
#ifdef OWNERS
    cubejobs::worker *worker;
#else
    struct cubejobs_worker worker;
#endif
    void (*act)(struct actor *own);
    int is_stepped, tid, has_ended;
    pthread_t id;
};
static struct actor actors[WORKERS];

#ifdef OWNERS
static void submit(void) { expect(!lane->submit(0, 0).code, "a submit is refused"); }

static void submit_later(struct actor *own) {
    (void)own;
    expect(!lane->submit_or_wait(0, 0).code, "a submit is refused");
}

static void submit_to_closed(struct actor *own) {
    (void)own;
    expect(lane->submit_or_wait(0, 0).code == CUBEJOBS_LANES_CLOSED, "another answer of a submit to closed lanes");
}

static void take(struct actor *own) { expect(!own->worker->next().code, "a wait is refused"); }

static void take_none(struct actor *own) {
    expect(own->worker->next().code == CUBEJOBS_LANES_ENDED, "another answer of a wait for no job");
}

static void poll(struct actor *own) { expect(!own->worker->try_next().code, "a take is refused"); }

static void close_lanes(struct actor *own) {
    (void)own;
    expect(!lanes->close().code, "a close");
}

static void open_lanes(void) {
    lanes = new cubejobs::lanes(1, WORKERS, CAPACITY);
    lane = new cubejobs::lane(lanes->lane());
    for (actor &one : actors) one.worker = new cubejobs::worker(lanes->worker());
}

static void end_lanes(void) {
    for (actor &one : actors) delete one.worker;
    delete lane;
    lanes->finish();
    delete lanes;
}
#else
static void submit(void) {
    expect(!cubejobs_lanes_submit_and_wake(&lane, 0, 0, &parking).code, "a submit is refused");
}

static void submit_later(struct actor *own) {
    (void)own;
    expect(!cubejobs_lanes_submit_until(&lane, 0, 0, &parking, 0).code, "a submit is refused");
}

static void submit_to_closed(struct actor *own) {
    (void)own;
    expect(cubejobs_lanes_submit_until(&lane, 0, 0, &parking, 0).code == CUBEJOBS_LANES_CLOSED,
           "another answer of a submit to closed lanes");
}

static void take(struct actor *own) {
    expect(!cubejobs_lanes_wait(&own->worker, 0, &parking).code, "a wait is refused");
}

static void take_none(struct actor *own) {
    expect(cubejobs_lanes_wait(&own->worker, 0, &parking).code == CUBEJOBS_LANES_ENDED,
           "another answer of a wait for no job");
}

static void poll(struct actor *own) {
    expect(!cubejobs_lanes_take_any_and_raise(&own->worker, 0, &parking).code, "a take is refused");
}

static void close_lanes(struct actor *own) {
    (void)own;
    expect(!cubejobs_lanes_close_and_wake(&lanes, &parking).code, "a close");
}

static void open_lanes(void) {
    int i;
    expect(!cubejobs_lanes_open(&lanes, 1, WORKERS, CAPACITY) && !cubejobs_lanes_lane(&lanes, &lane), "no lanes");
    for (i = 0; i < WORKERS; i++) expect(!cubejobs_lanes_worker(&lanes, &actors[i].worker), "no worker");
}

static void end_lanes(void) {
    int i;
    for (i = 0; i < WORKERS; i++) expect(!cubejobs_lanes_free_worker(&actors[i].worker), "a worker is out");
    expect(!cubejobs_lanes_free_lane(&lane) && !cubejobs_lanes_finish(&lanes).code, "the lanes do not end");
    while (cubejobs_lanes_rest(&lanes).code == CUBEJOBS_LANES_DONE) {}
    expect(!cubejobs_lanes_free(&lanes), "a job is left");
}
#endif

static void submits(struct actor *own) {
    (void)own;
    submit();
}

static void *play(void *argument) {
    struct actor *own = (struct actor *)argument;
    set(&own->tid, (int)syscall(SYS_gettid));
    if (own->is_stepped) step();
    own->act(own);
    set(&own->has_ended, 1);
    is_stepped = 0;
    return 0;
}

static struct actor *start(unsigned number, int is_stepped_thread, void (*act)(struct actor *)) {
    struct actor *one = &actors[number];
    one->is_stepped = is_stepped_thread, one->tid = 0, one->has_ended = 0, one->act = act;
    expect(!pthread_create(&one->id, 0, play, one), "no thread");
    return one;
}

/* Waits until a thread sleeps, has done what it does, or was stopped. */
static void settle(struct actor *one) {
    const struct timespec moment = {0, 200000};
    int times = 0;
    while (times < 5 && !get(&one->has_ended) && !(one->is_stepped && get(&is_stopped))) {
        times = sleeps(get(&one->tid)) ? times + 1 : 0;
        nanosleep(&moment, 0);
    }
}

static void end(struct actor *one) {
    alarm(PATIENCE);
    expect(!pthread_join(one->id, 0), "no end of a thread");
    alarm(0);
}

/* A worker lies down. A job wakes it, and it is stopped after some steps, while another job and another worker come. */
static int woken(int steps) {
    struct actor *sleeper, *waiter, *producer;
    int was_stopped;
    arm(0);
    sleeper = start(1, 1, take);
    settle(sleeper);
    arm(steps);
    submit();
    while (!get(&is_stopped) && !get(&sleeper->has_ended)) sched_yield();
    was_stopped = get(&is_stopped);
    waiter = start(2, 0, take);
    settle(waiter);
    producer = start(3, 0, submits);
    settle(producer);
    set(&may_go, 1);
    end(producer), end(sleeper), end(waiter);
    return was_stopped;
}

/* A worker looks for a job, finds none, and lies down. It is stopped after some steps, and a job is submitted. */
static int lies_down(int steps) {
    struct actor *sleeper, *producer;
    int was_stopped;
    arm(steps);
    sleeper = start(1, 1, take);
    settle(sleeper);
    was_stopped = get(&is_stopped);
    producer = start(3, 0, submits);
    settle(producer);
    set(&may_go, 1);
    end(producer), end(sleeper);
    return was_stopped;
}

static void begin_again(void) {
    end_lanes();
    open_lanes();
}

/* The same, and the lanes are closed. */
static int is_ended(int steps) {
    struct actor *sleeper, *closer;
    int was_stopped;
    arm(steps);
    sleeper = start(1, 1, take_none);
    settle(sleeper);
    was_stopped = get(&is_stopped);
    closer = start(3, 0, close_lanes);
    settle(closer);
    set(&may_go, 1);
    end(closer), end(sleeper);
    begin_again();
    return was_stopped;
}

/* A submit finds its lane full, and is stopped after some steps. Meanwhile another thread makes room, or closes. */
static int is_full(int steps, void (*fills)(struct actor *), void (*frees)(struct actor *)) {
    struct actor *producer, *other;
    int was_stopped, i;
    for (i = 0; i < CAPACITY; i++) submit();
    arm(steps);
    producer = start(1, 1, fills);
    settle(producer);
    was_stopped = get(&is_stopped);
    other = start(2, 0, frees);
    settle(other);
    set(&may_go, 1);
    end(producer), end(other);
    return was_stopped;
}

static int gets_room(int steps, void (*frees)(struct actor *)) {
    int was_stopped = is_full(steps, submit_later, frees), i;
    for (i = 0; i < CAPACITY; i++) poll(&actors[0]);
    return was_stopped;
}

static int room_of_a_wait(int steps) { return gets_room(steps, take); }

static int room_of_a_take(int steps) { return gets_room(steps, poll); }

static int is_closed(int steps) {
    int was_stopped = is_full(steps, submit_to_closed, close_lanes);
    begin_again();
    return was_stopped;
}

int main(void) {
    static int (*const scripts[])(int) = {woken,          lies_down,      is_ended,
                                          room_of_a_wait, room_of_a_take, is_closed};
    int all = 0;
    unsigned i;
    expect(traps(), "no signals");
    open_lanes();
    for (i = 0; i < sizeof scripts / sizeof *scripts; i++) {
        int orders = in_all_orders(scripts[i]);
        expect(orders > 0, "no thread was stopped");
        all += orders;
    }
    close_lanes(0);
    end_lanes();
    printf("ffi: %d scripted orders of threads with lanes, and no wake was lost\n", all);
    return 0;
}
