// Kills a process that calls first fit on shared memory, at random times, and repairs the image: the call that was in
// progress happened or it did not, and all before it did. The process writes each call to a log in shared memory,
// before and after it. The calls are also made one instruction at a time (ptrace): after each that writes to the image,
// a repair of a copy must give the image before the call or the one after it. `fit_kills KILLS CALLS` kills KILLS
// processes and steps through CALLS calls. It exits with 0, or says on standard error what was wrong.
#define _GNU_SOURCE 1
#include <sched.h>
#include <signal.h>
#include <sys/mman.h>
#include <sys/prctl.h>
#include <sys/ptrace.h>
#include <sys/wait.h>
#include <time.h>
#include <unistd.h>

#include "cubejobs_fit.h"

#include "calls.h"
#include "fit_model.h"

enum { LOG = 1 << 17, MOST_CALLS = 1024, MOST_NANOSECONDS = 2000, MOST_DIM = 12, TURNS_OF_MACHINE = 8 };
enum { OPEN = CALLS, REPAIR };

// What the process shares with its parent: the calls, and how many have begun and ended.
struct log {
    unsigned begun, ended;
    struct {
        struct act act;
        struct cubejobs_fit_answer answer;
    } calls[LOG];
};

static struct log *calls;
static unsigned char *image, *scratch;
static unsigned char before[HEAD + (2 << MOST_DIM)], after[sizeof before];
static struct cubejobs_fit fit;
static unsigned long inside, damaged, happened, writes, changed[CHANGES];
static bool has_many;

static size_t bytes(void) { return HEAD + ((size_t)2 << dim); }

static unsigned char *shared(size_t size) {
    void *memory = mmap(NULL, size, PROT_READ | PROT_WRITE, MAP_SHARED | MAP_ANONYMOUS, -1, 0);
    expect(memory != MAP_FAILED, "mmap");
    return (unsigned char *)memory;
}

// Returns a random call that changes the image, if it is not refused. The library itself says which blocks are held, so
// that the process spends its time in calls. In one of the two choices few blocks are held, so a call often changes the
// tree up to its root. In the other one there are many splits and joins. Some releases are of a part of a block.
static struct act random_change(void) {
    static const unsigned char choice[2][8] = {{TAKE, TAKE_AT, RELEASE, RELEASE, RELEASE, RELEASE, SPLIT, JOIN},
                                               {TAKE, TAKE, TAKE_AT, RELEASE, SPLIT, JOIN, JOIN, JOIN}};
    const uint64_t random = next(&seed);
    struct act act = {choice[has_many][random >> 8 & 7], (unsigned)(random >> 16) % 4, 0, 0};
    const unsigned rare = random >> 53;
    if (act.k > dim) act.k = dim;
    act.base = random >> 32 & ((1u << dim) - 1) & (random % 8 ? 15 : UINT32_MAX);
    act.base = act.base >> act.k << act.k;
    if (act.call >= RELEASE && random % 64 > 8) {
        const struct cubejobs_fit_answer found = cubejobs_fit_block_with(&fit, act.base);
        if (!found.code) {
            act.k = found.dim + (act.call == JOIN);
            act.base = found.base >> act.k << act.k;
        }
    }
    if (rare < 8) act.call = rare ? OPEN : REPAIR;
    return act;
}

static struct cubejobs_fit_answer call_it(struct act act) {
    if (act.call == OPEN) return answer(cubejobs_fit_open(&fit, image, bytes(), dim), 0, 0);
    if (act.call == REPAIR) return answer(cubejobs_fit_repair(&fit, image, bytes(), dim), 0, 0);
    return library_call(&fit, act);
}

static struct cubejobs_fit_answer model_it(struct act act) {
    if (act.call == OPEN) model_clear();
    return act.call < CALLS ? model_call(act) : answer(CUBEJOBS_FIT_DONE, 0, 0);
}

// Calls until it is killed.
static void call_for_ever(void) {
    prctl(PR_SET_PDEATHSIG, SIGKILL);
    for (unsigned i = 0; i < LOG; i++) {
        calls->calls[i].act = random_change();
        __atomic_store_n(&calls->begun, i + 1, __ATOMIC_RELEASE);
        calls->calls[i].answer = call_it(calls->calls[i].act);
        __atomic_store_n(&calls->ended, i + 1, __ATOMIC_RELEASE);
    }
    for (;;) pause();
}

static pid_t start(void (*act)(void)) {
    pid_t child;
    calls->begun = calls->ended = 0;
    next(&seed);
    child = fork();
    expect(child >= 0, "fork");
    if (child == 0) act();
    return child;
}

// Makes the calls of the log that have ended, on the model.
static void replay(unsigned from, unsigned to) {
    for (unsigned i = from; i < to; i++) {
        const struct cubejobs_fit_answer right = model_it(calls->calls[i].act), got = calls->calls[i].answer;
        expect(right.code == got.code && right.dim == got.dim && right.base == got.base, "an answer of the process");
    }
}

// Sets the images before and after the call in progress. Without one, both are those of now.
static void look_at_progress(void) {
    model_image();
    memcpy(before, wanted, bytes());
    if (calls->begun > calls->ended) (void)model_it(calls->calls[calls->ended].act);
    model_image();
    memcpy(after, wanted, bytes());
}

static bool is_opening(void) { return calls->begun > calls->ended && calls->calls[calls->ended].act.call == OPEN; }

// Repairs what a killed process has left.
static void repair(void) {
    struct cubejobs_fit view = {NULL, 0};
    bool is_before, is_after;
    damaged += cubejobs_fit_attach(&view, image, bytes(), dim) != CUBEJOBS_FIT_DONE;
    if (calls->begun == calls->ended) expect(memcmp(image, before, bytes()) == 0, "the image between two calls");
    if (cubejobs_fit_repair(&view, image, bytes(), dim) == CUBEJOBS_FIT_BAD_IMAGE) {
        expect(is_opening(), "a repair is refused");
        expect(cubejobs_fit_open(&view, image, bytes(), dim) == CUBEJOBS_FIT_DONE, "open");
    }
    is_before = memcmp(image, before, bytes()) == 0;
    is_after = memcmp(image, after, bytes()) == 0;
    expect(is_before || is_after, "a call happened in part, or another one with it");
    expect(cubejobs_fit_attach(&fit, image, bytes(), dim) == CUBEJOBS_FIT_DONE, "attach after a repair");
    happened += is_after && !is_before;
    model_of(image);
}

static void open_machine(unsigned k) {
    dim = k;
    model_clear();
    expect(cubejobs_fit_open(&fit, image, bytes(), dim) == CUBEJOBS_FIT_DONE, "open");
}

// Kills a process at a random time after a random number of calls.
static void kill_one(void) {
    const unsigned least = 1 + random_below(MOST_CALLS);
    const pid_t child = start(call_for_ever);
    struct timespec now, end;
    int status;
    while (__atomic_load_n(&calls->begun, __ATOMIC_ACQUIRE) < least) sched_yield();
    clock_gettime(CLOCK_MONOTONIC, &end);
    end.tv_nsec += random_below(MOST_NANOSECONDS);
    do clock_gettime(CLOCK_MONOTONIC, &now);
    while ((now.tv_sec - end.tv_sec) * 1000000000 + now.tv_nsec < end.tv_nsec);
    expect(kill(child, SIGKILL) == 0 && waitpid(child, &status, 0) == child && WIFSIGNALED(status), "the kill");
    replay(0, calls->ended);
    inside += calls->begun > calls->ended;
    look_at_progress();
    repair();
}

static void kill_many(long kills) {
    for (long i = 0; i < kills; i++) {
        if (i % TURNS_OF_MACHINE == 0) open_machine(i % 3 ? random_below(MOST_DIM + 1) : 12);
        kill_one();
    }
}

// ---- one instruction at a time

static void call_in_steps(void) {
    if (ptrace(PTRACE_TRACEME, 0, NULL, NULL)) _exit(77);
    raise(SIGSTOP);
    call_for_ever();
}

// Sees that a copy of the image can be repaired at this moment. Returns whether the call has happened.
static bool has_happened(void) {
    struct cubejobs_fit view;
    memcpy(scratch, image, bytes());
    if (cubejobs_fit_repair(&view, scratch, bytes(), dim) == CUBEJOBS_FIT_BAD_IMAGE) {
        expect(is_opening(), "a repair between two instructions is refused");
        return true;
    }
    if (memcmp(scratch, after, bytes()) == 0) return true;
    expect(memcmp(scratch, before, bytes()) == 0, "between two instructions a call has happened in part");
    return false;
}

// Steps through the calls of a process. Returns whether this system lets it.
static bool step_through(unsigned count) {
    static unsigned char last[sizeof before];
    const pid_t child = start(call_in_steps);
    unsigned begun = 0;
    int status;
    bool happens = false;
    expect(waitpid(child, &status, 0) == child, "waitpid");
    if (WIFEXITED(status) && WEXITSTATUS(status) == 77) return false;
    memcpy(last, image, bytes());
    while (calls->ended < count) {
        expect(WIFSTOPPED(status) && !ptrace(PTRACE_SINGLESTEP, child, NULL, NULL), "a step");
        expect(waitpid(child, &status, 0) == child, "waitpid");
        if (calls->begun > begun) {
            look_at_progress();
            begun = calls->begun;
            happens = memcmp(before, after, bytes()) == 0;
            if (!happens && calls->calls[begun - 1].act.call < CHANGES) changed[calls->calls[begun - 1].act.call]++;
        }
        if (memcmp(last, image, bytes()) == 0) continue;
        memcpy(last, image, bytes());
        writes++;
        expect(calls->begun > calls->ended, "a write between two calls");
        expect(!happens || has_happened(), "a call that has happened is undone");
        happens = happens || has_happened();
    }
    expect(memcmp(image, after, bytes()) == 0, "the image at the end");
    expect(kill(child, SIGKILL) == 0 && waitpid(child, &status, 0) == child, "the end of the process");
    return true;
}

// The machines are small, so that halves meet, and that a repair is short.
static bool step_many(long count) {
    for (long left = count; left > 0; left -= 100) {
        has_many = random_below(2);
        open_machine(1 + random_below(4));
        if (!step_through(left < 100 ? (unsigned)left : 100)) return false;
    }
    for (unsigned call = 0; call < CHANGES; call++) expect(changed[call] >= (unsigned long)count / 100, names[call]);
    return true;
}

int main(int argc, char **argv) {
    const long kills = argc > 1 ? strtol(argv[1], NULL, 10) : 60, count = argc > 2 ? strtol(argv[2], NULL, 10) : 600;
    calls = (struct log *)(void *)shared(sizeof *calls);
    image = shared(sizeof before);
    scratch = shared(sizeof before);
    kill_many(kills);
    printf("fit: %ld kills, %lu inside a call, of which %lu left damage and %lu came after it had happened\n", kills,
           inside, damaged, happened);
    expect(inside >= (unsigned long)kills / 30, "too few kills inside a call");
    if (!step_many(count))
        puts("fit: this system does not let a process step through another one");
    else
        printf("fit: %ld calls in steps, with %lu writes to the image\n", count, writes);
    return 0;
}
