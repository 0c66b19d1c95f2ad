/* Holds two rules of cubejobs_wait.h by scripted orders of threads: a take, granted or refused, raises the event after it
 * has returned, since it may hide room, and waiters make their exact takes one at a time. One thread is stopped before each of
 * its atomic instructions in turn, and meanwhile another looks for a block. The first goes on, and then the other must
 * get its block. The processor traps after each instruction of the first thread (x86-64). */
#include "steps.h"

#include "calls.h"

static struct cubejobs_event event;
static struct cubejobs_regions handles[3];
struct waiter {
    struct cubejobs_regions *thread;
    struct cubejobs_block block;
    uint32_t k;
    int steps, tid, has_block;
    pthread_t id;
};

static void *work(void *argument) {
    struct waiter *own = (struct waiter *)argument;
    struct cubejobs_regions_answer taken;
    set(&own->tid, (int)syscall(SYS_gettid));
    if (own->steps) step();
    taken = cubejobs_regions_take_or_wait(own->thread, &own->block, own->k, &event);
    is_stepped = 0;
    expect(!taken.code && taken.dim == own->k, "a waiter is refused");
    set(&own->has_block, 1);
    return 0;
}

static void start(struct waiter *one, struct cubejobs_regions *thread, uint32_t k, int steps) {
    memset(one, 0, sizeof *one);
    one->thread = thread, one->k = k, one->steps = steps;
    expect(!pthread_create(&one->id, 0, work, one), "no thread");
}

/* Waits until a thread sleeps, has its block, or was stopped. One that was woken must read a key before it sleeps. */
static void settle(struct waiter *one, int was_woken) {
    const struct timespec moment = {0, 200000};
    int times = 0;
    while (times < 3 && !get(&one->has_block) && !(one->steps && get(&is_stopped))) {
        int has_key = !was_woken || __atomic_load_n(&event.state, __ATOMIC_SEQ_CST) % 2;
        times = has_key && sleeps(get(&one->tid)) ? times + 1 : 0;
        nanosleep(&moment, 0);
    }
}

static void end(struct waiter *one) {
    alarm(PATIENCE);
    expect(!pthread_join(one->id, 0), "no end of a thread");
    alarm(0);
    expect(!cubejobs_regions_release_and_raise(one->thread, &one->block, &event), "a release is refused");
}

/* One half of the machine is held, and the other is a free unit. A thread that takes one processor of the other is stopped after some steps, while a
 * waiter looks for a quarter. Answers whether it was stopped. */
static int granted(int steps) {
    struct cubejobs_block half = {0, 0};
    struct waiter taker, waiter;
    int was_stopped;
    /* A take of the whole machine shuts what a trial before has left open. */
    expect(!cubejobs_regions_take_at(&handles[0], &half, 0, 7).code, "no machine");
    expect(!cubejobs_regions_release(&handles[0], &half), "a release is refused");
    expect(!cubejobs_regions_take_at(&handles[0], &half, 64, 6).code, "no half");
    arm(steps);
    start(&taker, &handles[1], 0, 1);
    settle(&taker, 0);
    was_stopped = get(&is_stopped);
    start(&waiter, &handles[2], 5, 0);
    settle(&waiter, 0);
    set(&may_go, 1);
    end(&waiter);
    end(&taker);
    expect(!cubejobs_regions_release_and_raise(&handles[0], &half, &event), "a release is refused");
    return was_stopped;
}

/* One half of the machine is held, and a processor of the other. A thread wants the whole machine. The processor is
 * released, and the thread is stopped in its next take after some steps, while a waiter looks for a small block. The
 * take is its quick one, or the exact one of a thread that slept. */
static int refused(int steps, int has_slept) {
    struct cubejobs_block half = {0, 0}, one = {0, 0};
    struct waiter large, waiter;
    int was_stopped;
    expect(!cubejobs_regions_take_at(&handles[0], &half, 64, 6).code, "no half");
    expect(!cubejobs_regions_take_at(&handles[0], &one, 0, 0).code, "no processor");
    arm(0);
    if (has_slept) start(&large, &handles[1], 7, 1), settle(&large, 0);
    arm(steps);
    expect(!cubejobs_regions_release_and_raise(&handles[0], &one, &event), "a release is refused");
    if (!has_slept) start(&large, &handles[1], 7, 1);
    settle(&large, has_slept);
    was_stopped = get(&is_stopped);
    start(&waiter, &handles[2], 3, 0);
    settle(&waiter, 0);
    set(&may_go, 1);
    end(&waiter);
    expect(!cubejobs_regions_release_and_raise(&handles[0], &half, &event), "a release is refused");
    end(&large);
    return was_stopped;
}

static int refused_at_first(int steps) { return refused(steps, 0); }
static int refused_again(int steps) { return refused(steps, 1); }

int main(void) {
    static const struct cubejobs_event fresh = CUBEJOBS_EVENT_INIT;
    int i, orders[3];
    event = fresh;
    dim = 7;
    expect(traps(), "no signals");
    expect(!cubejobs_regions_open(&handles[0], dim), "no machine");
    for (i = 1; i < 3; i++) expect(!cubejobs_regions_share(&handles[0], &handles[i]), "no handle");
    orders[0] = in_all_orders(granted), orders[1] = in_all_orders(refused_at_first);
    orders[2] = in_all_orders(refused_again);
    for (i = 0; i < 3; i++) expect(!cubejobs_regions_free(&handles[i]), "a block is held");
    for (i = 0; i < 3; i++) expect(orders[i] > 1, "no thread was stopped");
    printf("ffi: %d, %d and %d scripted orders, and no wake was lost\n", orders[0], orders[1], orders[2]);
    return 0;
}
