// Calls the planner at random, and prints each call with its answer: a line for each. plan_calls.py makes the same
// calls of a plain model, and compares. `plan_calls SEED PLANNERS CALLS` opens PLANNERS planners, on machines of
// dimension 0 to 8, and makes CALLS calls of each: all classes, estimates that are wrong, unknown or huge, blocks out
// of service, bad arguments, and tickets that no job has. Half of the planners are in memory of ours, between marks.
// It is C and C++ alike.
#include <inttypes.h>
#include <stdio.h>
#include <stdlib.h>
#include <string.h>

#include "cubejobs_plan.h"

enum { MOST_DIM = 8, MOST_TICKETS = 4096, MOST_BLOCKS = 64 };

static uint64_t state;
static struct cubejobs_plan plan;
static struct cubejobs_plan_options options;
static uint64_t tickets[MOST_TICKETS], now;
static unsigned known;
// Blocks that were taken out of service. Some may be back.
static struct block { uint64_t base; uint32_t dim; } blocks[MOST_BLOCKS];
static unsigned out;

static uint64_t any(void) {
    state ^= state << 13;
    state ^= state >> 7;
    state ^= state << 17;
    return state;
}
static unsigned below(unsigned bound) { return (unsigned)((any() >> 20) % bound); }

static void print_job(struct cubejobs_plan_job job) {
    printf(" = %u %u %" PRIu64 " %" PRIu64 " %" PRIu64 " %" PRIu64 " %" PRIu64 " %" PRIu64 " %u %u %u\n", job.code,
           job.state, job.ticket, job.payload, job.base, job.time, job.before, job.arrival, job.processors, job.dim,
           job.job_class);
}

// ---- arguments

static uint64_t some_ticket(void) {
    const uint64_t ticket = known ? tickets[known - 1 - below(known < 24 || !below(4) ? known : 24)] : 0;
    switch (below(32)) {
    case 0: return 0;
    case 1: return any();
    case 2: return ticket + 1;
    case 3: return ticket + CUBEJOBS_PLAN_MAX_JOBS;
    case 4: return ticket - CUBEJOBS_PLAN_MAX_JOBS;
    case 5: return UINT64_MAX - below(3);
    case 6: return ticket % CUBEJOBS_PLAN_MAX_JOBS;
    default: return ticket;
    }
}

static uint32_t some_processors(void) {
    const uint32_t all = 1u << options.dim;
    switch (below(16)) {
    case 0: return 0;
    case 1: return all + below(3);
    case 2: return UINT32_MAX - below(3);
    case 3: case 4: return 1 + below(all);
    case 5: case 6: case 7: return 1u << below(options.dim + 1);
    default: return 1 + below(all < 4 ? all : all / 4);
    }
}

static uint64_t some_estimate(void) {
    switch (below(12)) {
    case 0: case 1: return 0;
    case 2: return UINT64_MAX - below(4);
    case 3: return CUBEJOBS_PLAN_NEVER - now - below(3);
    case 4: case 5: return 1 + below(300);
    default: return 1 + below(30);
    }
}

static uint32_t some_dim(void) {
    switch (below(16)) {
    case 0: return options.dim + 1 + below(3);
    case 1: return 20 + below(50);
    case 2: return UINT32_MAX - below(3);
    default: return below(options.dim + 1);
    }
}

static uint64_t some_base(uint32_t dim) {
    const uint64_t all = (uint64_t)1 << options.dim;
    const uint64_t base = below((unsigned)all);
    switch (below(16)) {
    case 0: return any();
    case 1: return base;
    case 2: return all;
    case 3: return base + ((uint64_t)1 << 32);
    default: return dim < 32 ? base >> dim << dim : base;
    }
}

// ---- calls

static void submit(void) {
    const struct cubejobs_plan_request request = {any(), some_estimate(), some_processors(),
                                                  below(24) ? below(below(2) ? 2 : 8) : 8 + below(3)};
    const struct cubejobs_plan_job job = cubejobs_plan_submit(&plan, request);
    printf("s %" PRIu64 " %" PRIu64 " %u %u", request.payload, request.estimate, request.processors,
           request.job_class);
    print_job(job);
    if (job.code == CUBEJOBS_PLAN_DONE && known < MOST_TICKETS) tickets[known++] = job.ticket;
}

static void about_ticket(char name, struct cubejobs_plan_job (*call)(struct cubejobs_plan *, uint64_t),
                         uint64_t ticket) {
    printf("%c %" PRIu64, name, ticket);
    print_job(call(&plan, ticket));
}

static void occupy(void) {
    const uint32_t dim = some_dim();
    const uint64_t base = some_base(dim);
    const uint32_t code = cubejobs_plan_occupy(&plan, base, dim);
    printf("b %" PRIu64 " %u = %u\n", base, dim, code);
    if (code == CUBEJOBS_PLAN_DONE && out < MOST_BLOCKS) {
        blocks[out].base = base;
        blocks[out++].dim = dim;
    }
}

static void vacate(void) {
    struct block it = {0, 0};
    if (out && below(4)) {
        it = blocks[below(out)];
    } else {
        it.dim = some_dim();
        it.base = some_base(it.dim);
    }
    const uint32_t code = cubejobs_plan_vacate(&plan, it.base, it.dim);
    printf("v %" PRIu64 " %u = %u\n", it.base, it.dim, code);
    for (unsigned i = 0; code == CUBEJOBS_PLAN_DONE && i < out; i++)
        if (blocks[i].base == it.base && blocks[i].dim == it.dim) blocks[i] = blocks[--out];
}

static uint32_t start(uint64_t time) {
    const struct cubejobs_plan_job job = cubejobs_plan_next(&plan, time);
    printf("n %" PRIu64, time);
    print_job(job);
    return job.code;
}

static void go_on(void) {
    static const unsigned steps[] = {0, 0, 0, 1, 3, 10, 40};
    if (now < CUBEJOBS_PLAN_NEVER - 1000) now += steps[below(sizeof steps / sizeof *steps)];
    switch (below(64)) {
    case 0: start(CUBEJOBS_PLAN_NEVER); break;
    case 1: start(now ? now - 1 : 0); break;
    case 2: start(now / 2); break;
    default: break;
    }
}

static void count(void) {
#ifndef WITHOUT_COUNTS
    const struct cubejobs_plan_counts counts = cubejobs_plan_counts(&plan);
    printf("t = %u %u %u %u %u %u %u\n", counts.code, counts.waiting, counts.running, counts.held, counts.asked,
           counts.occupied, counts.largest);
#endif
}

// Walks over all jobs. Sometimes calls change them meanwhile.
static void walk(void) {
    struct cubejobs_plan_job job = cubejobs_plan_after(&plan, 0);
    printf("a 0");
    print_job(job);
    while (job.code == CUBEJOBS_PLAN_DONE) {
        const uint64_t ticket = job.ticket;
        if (!below(32)) about_ticket('f', cubejobs_plan_finish, ticket);
        if (!below(32)) about_ticket('c', cubejobs_plan_cancel, ticket);
        if (!below(32)) submit();
        printf("a %" PRIu64, ticket);
        job = cubejobs_plan_after(&plan, ticket);
        print_job(job);
    }
}

static void call(unsigned kind) {
    switch (kind) {
    default: submit(); break;
    case 0: case 1: case 2: case 3: case 4: case 5: about_ticket('f', cubejobs_plan_finish, some_ticket()); break;
    case 6: about_ticket('c', cubejobs_plan_cancel, some_ticket()); break;
    case 7: occupy(); break;
    case 8: vacate(); break;
    case 9: about_ticket('q', cubejobs_plan_forecast, some_ticket()); break;
    case 10: below(8) ? about_ticket('a', cubejobs_plan_after, some_ticket()) : walk(); break;
    case 11: count(); break;
    }
}

// Makes each call of a handle that is shut.
static void call_shut(void) {
    for (unsigned kind = 0; kind < 13; kind++) call(kind);
    start(now);
    printf("x = %u\n", cubejobs_plan_close(&plan));
}

// Prints 0 for no memory of ours, 1 for an address that is a multiple of 8, and 2 for another.
static void open(struct cubejobs_plan_options with, uint32_t version, void *memory) {
    const struct cubejobs_plan_memory none = {NULL, 0};
    const uint32_t code = version == CUBEJOBS_PLAN_VERSION ? cubejobs_plan_open(&plan, with, memory)
                                                           : cubejobs_plan_open_version(&plan, version, with, none, 0);
    const int kind = !memory ? 0 : (uintptr_t)memory % 8 ? 2 : 1;
    printf("o %u %u %u %u %u %d = %u\n", version, with.dim, with.jobs, with.patience, with.flags, kind, code);
    printf("y %u %u %u %u = %" PRIu64 "\n", with.dim, with.jobs, with.patience, with.flags, cubejobs_plan_bytes(with));
}

// ---- memory of ours: the bytes of a planner between two rows of marks

enum { MARKS = 64, MARK = 0xA5 };

static unsigned char *lent;
static size_t lent_bytes;

static void *lend(void) {
    lent_bytes = (size_t)cubejobs_plan_bytes(options);
    lent = (unsigned char *)malloc(MARKS + lent_bytes + MARKS);
    memset(lent, MARK, MARKS + lent_bytes + MARKS);
    return lent + MARKS;
}

static void must_be_marked(const unsigned char *from, size_t count) {
    for (size_t i = 0; i < count; i++)
        if (from[i] != MARK) {
            fprintf(stderr, "plan_calls.c: a byte is written that is not the planner's\n");
            exit(1);
        }
}

// No byte beside those of the planner was written, and once it is closed its bytes are ours.
static void close_lent(void) {
    if (lent) must_be_marked(lent, MARKS);
    if (lent) must_be_marked(lent + MARKS + lent_bytes, MARKS);
    printf("x = %u\n", cubejobs_plan_close(&plan));
    if (lent) memset(lent, MARK, MARKS + lent_bytes);
}

static void take_back(void) {
    if (lent) must_be_marked(lent, MARKS + lent_bytes + MARKS);
    free(lent);
    lent = NULL;
}

// Opens the planner, after openings that are refused.
static void open_next(unsigned most) {
    static const unsigned patiences[] = {0, 0, 1, 2, 4, 16, UINT32_MAX};
    static uint64_t memory[8];
    struct cubejobs_plan_options bad;
    const unsigned skew = 1 + below(7);
    options.dim = below(MOST_DIM + 1);
    options.jobs = most;
    options.patience = patiences[below(sizeof patiences / sizeof *patiences)];
    options.flags = 0;
    bad = options;
    switch (below(4)) {
    case 0: bad.dim = CUBEJOBS_PLAN_MAX_DIM + 1 + below(60); break;
    case 1: bad.jobs = below(2) ? 0 : CUBEJOBS_PLAN_MAX_JOBS + 1 + below(3); break;
    case 2: bad.flags = 1 + below(8); break;
    default: break;
    }
    open(bad, CUBEJOBS_PLAN_VERSION, bad.dim == options.dim && bad.jobs == most && !bad.flags ? (char *)memory + skew : NULL);
    open(bad, below(2) ? 0 : CUBEJOBS_PLAN_VERSION + 1 + below(3), NULL);
    open(options, CUBEJOBS_PLAN_VERSION, below(2) ? lend() : NULL);
    open(bad, CUBEJOBS_PLAN_VERSION, below(2) ? memory : NULL);
}

int main(int count_of, char **words) {
    const uint64_t seed = count_of > 1 ? strtoull(words[1], NULL, 10) : 1;
    const unsigned long planners = count_of > 2 ? strtoul(words[2], NULL, 10) : 1000;
    const unsigned long calls = count_of > 3 ? strtoul(words[3], NULL, 10) : 100;
    for (unsigned long i = 0; i < planners; i++) {
        static const unsigned jobs[] = {1, 2, 3, 5, 8, 13, 40, 40, 100, 1000};
        state = (seed * 1000003 + i) * 0x9E3779B97F4A7C15u | 1;
        for (unsigned j = 0; j < 8; j++) any();
        known = out = 0;
        now = below(16) ? below(100) : CUBEJOBS_PLAN_NEVER - 1 - below(3000);
        call_shut();
        open_next(jobs[below(sizeof jobs / sizeof *jobs)]);
        const unsigned is_eager = below(4), kinds = 14 + below(12);
        for (unsigned long j = 0; j < calls; j++) {
            call(below(kinds));
            go_on();
            if (is_eager || !below(4)) while (start(now) == CUBEJOBS_PLAN_DONE) continue;
        }
        walk();
        count();
        close_lent();
        call_shut();
        take_back();
    }
    return 0;
}
