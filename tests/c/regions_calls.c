/* Calls the library of regions from C or C++: each code where it must come, handles that are shut, foreign or of the
 * wrong kind, random calls beside a plain model, where searches begin, and then eight threads with a table of counters
 * by processor, and plain memory that blocks guard. With `regions_calls PAIRS [SECONDS [LARGEST]]` each thread makes
 * PAIRS takes or, if SECONDS is not 0, takes for that time. It takes blocks up to dimension LARGEST, and releases its own
 * and those of others. With UNGUARDED a thread writes to the memory of a processor that it has given back, which a
 * sanitizer must see. */
#include "cubejobs_regions.h"

#include <pthread.h>
#include <time.h>

#include "calls.h"

#define THREADS 8
#define MAX_DIM CUBEJOBS_REGIONS_MAX_DIM
/* The dimension of the machine that the threads share, and that of the largest block that the model has. */
#define CROWD_DIM 13
#define MODEL_DIM 14
#define PROCESSORS (1u << CROWD_DIM)
#define BLOCKS 64

static unsigned counters[PROCESSORS];
static unsigned long plain[PROCESSORS];
static unsigned long pairs = 20000;
static unsigned seconds, largest = CROWD_DIM;

static void want(int line, uint64_t got, uint64_t wanted) {
    if (got != wanted) fprintf(stderr, "%llu, and not %llu\n", (unsigned long long)got, (unsigned long long)wanted);
    expect_at("regions_calls.c", line, got == wanted, "another answer");
}
#define WANT(got, wanted) want(__LINE__, (got), (wanted))
#define IS(got, code) want(__LINE__, (got), CUBEJOBS_REGIONS_##code)

/* An answer about a block, with all that stands in it. One thread alone loses no exchange. */
static void want_answer(int line, struct cubejobs_regions_answer got, uint32_t code, uint32_t k, uint64_t base) {
    const uint64_t found[] = {got.code, got.dim, got.base, got.contended}, wanted[] = {code, k, base, 0};
    unsigned i;
    for (i = 0; i < 4; i++) want(line, found[i], wanted[i]);
}
#define GIVES(got, k, base) want_answer(__LINE__, (got), CUBEJOBS_REGIONS_DONE, (k), (base))
#define REFUSES(got, code) want_answer(__LINE__, (got), CUBEJOBS_REGIONS_##code, 0, 0)

static struct cubejobs_block none(void) {
    struct cubejobs_block block = {0, 0};
    return block;
}

/* A handle that is no open machine: nothing is done, and nothing changes. */
static void no_machine(struct cubejobs_regions *handle, uint32_t code) {
    struct cubejobs_regions before = *handle, other = {0, 0};
    struct cubejobs_block one = none(), half = none();
    struct cubejobs_regions_occupancy_answer o = cubejobs_regions_occupancy(handle);
    unsigned i;
    WANT(o.code, code);
    WANT(o.largest | o.has_free | o.held, 0);
    for (i = 0; i <= MAX_DIM; i++) WANT(o.free[i], 0);
    WANT(cubejobs_regions_share(handle, &other), code);
    want_answer(__LINE__, cubejobs_regions_take(handle, &one, 0), code, 0, 0);
    want_answer(__LINE__, cubejobs_regions_take_exact(handle, &one, 0), code, 0, 0);
    want_answer(__LINE__, cubejobs_regions_take_at(handle, &one, 0, 0), code, 0, 0);
    WANT(cubejobs_regions_split(handle, &one, &half), code);
    WANT(cubejobs_regions_join(handle, &one, &half), code);
    WANT(cubejobs_regions_release(handle, &one), code);
    WANT(cubejobs_regions_free(handle), code);
    WANT(other.tag | one.tag | half.tag, 0);
    WANT(memcmp(&before, handle, sizeof before), 0);
}

static void handles(void) {
    static struct cubejobs_regions made, second;
    static struct cubejobs_block block, *as_block;
    struct cubejobs_regions bytes;
    unsigned i;
    WANT(MAX_DIM, 20);
    IS(cubejobs_regions_open_version(&made, CUBEJOBS_REGIONS_VERSION + 1, 2, 77), BAD_VERSION);
    IS(cubejobs_regions_open_version(&made, CUBEJOBS_REGIONS_VERSION - 1, 2, 77), BAD_VERSION);
    IS(cubejobs_regions_open(&made, MAX_DIM + 1), BAD_DIMENSION);
    no_machine(&made, CUBEJOBS_REGIONS_NOT_OPEN);
    for (i = 0; i < 1000; i++) {
        bytes.tag = next(&seed) >> 16;
        bytes.at = (void *)(uintptr_t)next(&seed);
        no_machine(&bytes, CUBEJOBS_REGIONS_NOT_OPEN);
    }
    IS(cubejobs_regions_open(&made, 2), DONE);
    IS(cubejobs_regions_open(&made, MAX_DIM + 1), ALREADY_OPEN);
    IS(cubejobs_regions_share(&made, &second), DONE);
    IS(cubejobs_regions_share(&made, &second), ALREADY_OPEN);
    GIVES(cubejobs_regions_take_at(&made, &block, 2, 1), 1, 2);
    /* Any handle of the machine will do. That which is not the last is shut although a block is held. */
    GIVES(cubejobs_regions_block(&block), 1, 2);
    /* A handle of the other kind. */
    as_block = (struct cubejobs_block *)&second;
    REFUSES(cubejobs_regions_take(&made, as_block, 9), OTHER_KIND);
    REFUSES(cubejobs_regions_take_exact(&made, as_block, 9), OTHER_KIND);
    REFUSES(cubejobs_regions_take_at(&made, as_block, 9, 9), OTHER_KIND);
    REFUSES(cubejobs_regions_block(as_block), NOTHING_HELD);
    IS(cubejobs_regions_split(&made, &block, as_block), OTHER_KIND);
    IS(cubejobs_regions_join(&made, &block, as_block), NOTHING_HELD);
    IS(cubejobs_regions_release(&made, as_block), NOTHING_HELD);
    no_machine((struct cubejobs_regions *)&block, CUBEJOBS_REGIONS_NOT_OPEN);
    IS(cubejobs_regions_open((struct cubejobs_regions *)&block, MAX_DIM + 1), OTHER_KIND);
    IS(cubejobs_regions_share(&made, (struct cubejobs_regions *)&block), OTHER_KIND);
    IS(cubejobs_regions_free(&made), DONE);
    no_machine(&made, CUBEJOBS_REGIONS_NOT_OPEN);
    IS(cubejobs_regions_free(&second), STILL_HELD);
    WANT(cubejobs_regions_occupancy(&second).held, 2);
    IS(cubejobs_regions_release(&second, &block), DONE);
    IS(cubejobs_regions_free(&second), DONE);
    no_machine(&second, CUBEJOBS_REGIONS_NOT_OPEN);
    IS(cubejobs_regions_open(&made, 0), DONE);
    IS(cubejobs_regions_free(&made), DONE);
}

/* One thread on a machine of dimension 3: each code of a call about blocks. */
static void blocks(void) {
    static struct cubejobs_regions made, other;
    struct cubejobs_block one = none(), two = none(), all = none();
    struct cubejobs_regions_occupancy_answer o;
    IS(cubejobs_regions_open(&made, 3), DONE);
    IS(cubejobs_regions_open(&other, 3), DONE);
    REFUSES(cubejobs_regions_take(&made, &one, 4), BAD_DIMENSION);
    REFUSES(cubejobs_regions_take_exact(&made, &one, 4), BAD_DIMENSION);
    REFUSES(cubejobs_regions_take_at(&made, &one, 0, 4), BAD_DIMENSION);
    REFUSES(cubejobs_regions_take_at(&made, &one, 2, 2), BAD_BASE);
    REFUSES(cubejobs_regions_take_at(&made, &one, 8, 2), BAD_BASE);
    REFUSES(cubejobs_regions_block(&one), NOTHING_HELD);
    IS(cubejobs_regions_release(&made, &one), NOTHING_HELD);
    IS(cubejobs_regions_split(&made, &one, &two), NOTHING_HELD);
    IS(cubejobs_regions_join(&made, &one, &two), NOTHING_HELD);
    GIVES(cubejobs_regions_take_at(&made, &one, 4, 2), 2, 4);
    REFUSES(cubejobs_regions_take(&made, &one, 9), HOLDS_ALREADY);
    REFUSES(cubejobs_regions_take_exact(&made, &one, 9), HOLDS_ALREADY);
    REFUSES(cubejobs_regions_take_at(&made, &one, 1, 9), HOLDS_ALREADY);
    REFUSES(cubejobs_regions_take_at(&made, &two, 5, 0), TAKEN);
    REFUSES(cubejobs_regions_take_at(&made, &two, 0, 3), TAKEN);
    REFUSES(cubejobs_regions_take_exact(&made, &all, 3), NO_ROOM);
    REFUSES(cubejobs_regions_take(&made, &all, 3), NOT_NOW);
    /* A handle of another machine. */
    IS(cubejobs_regions_release(&other, &one), OTHER_MACHINE);
    IS(cubejobs_regions_split(&other, &one, &two), OTHER_MACHINE);
    GIVES(cubejobs_regions_take_at(&other, &two, 0, 2), 2, 0);
    IS(cubejobs_regions_join(&made, &one, &two), OTHER_MACHINE);
    IS(cubejobs_regions_join(&made, &two, &one), OTHER_MACHINE);
    IS(cubejobs_regions_split(&made, &one, &two), HOLDS_ALREADY);
    IS(cubejobs_regions_release(&other, &two), DONE);
    /* Halves, down to one processor and back. */
    IS(cubejobs_regions_split(&made, &one, &two), DONE);
    GIVES(cubejobs_regions_block(&one), 1, 4);
    GIVES(cubejobs_regions_block(&two), 1, 6);
    IS(cubejobs_regions_split(&made, &two, &all), DONE);
    GIVES(cubejobs_regions_block(&all), 0, 7);
    IS(cubejobs_regions_join(&made, &one, &two), NOT_HALVES);
    IS(cubejobs_regions_join(&made, &all, &two), NOT_HALVES);
    IS(cubejobs_regions_release(&made, &two), DONE);
    o = cubejobs_regions_occupancy(&made);
    IS(o.code, DONE);
    WANT(o.held, 3);
    WANT(o.free[0], 5);
    WANT(o.free[1], 2);
    WANT(o.free[2], 1);
    WANT(o.free[3], 0);
    WANT(o.has_free, 1);
    WANT(o.largest, 2);
    IS(cubejobs_regions_split(&made, &all, &two), BAD_DIMENSION);
    GIVES(cubejobs_regions_take_at(&made, &two, 6, 0), 0, 6);
    IS(cubejobs_regions_join(&made, &two, &all), DONE);
    REFUSES(cubejobs_regions_block(&all), NOTHING_HELD);
    IS(cubejobs_regions_join(&made, &one, &two), DONE);
    GIVES(cubejobs_regions_block(&one), 2, 4);
    IS(cubejobs_regions_free(&made), STILL_HELD);
    IS(cubejobs_regions_release(&made, &one), DONE);
    GIVES(cubejobs_regions_take_exact(&made, &all, 3), 3, 0);
    o = cubejobs_regions_occupancy(&made);
    WANT(o.held, 8);
    WANT(o.has_free | o.largest | o.free[0], 0);
    IS(cubejobs_regions_release(&made, &all), DONE);
    IS(cubejobs_regions_free(&made), DONE);
    IS(cubejobs_regions_free(&other), DONE);
}

/* The handles of a machine begin their searches in 16 cache lines near its front, where a word is open. A take and a
 * release write to none of them. */
static void starts(void) {
    static struct cubejobs_regions made[18], before[18];
    static struct cubejobs_block first[16], next[18];
    unsigned i;
    IS(cubejobs_regions_open(&made[0], MAX_DIM), DONE);
    for (i = 1; i < 18; i++) IS(cubejobs_regions_share(&made[0], &made[i]), DONE);
    memcpy(before, made, sizeof made);
    for (i = 0; i < 16; i++) GIVES(cubejobs_regions_take_at(&made[0], &first[i], 512 * i, 0), 0, 512 * i);
    for (i = 0; i < 18; i++) GIVES(cubejobs_regions_take(&made[i], &next[i], 0), 0, 512 * (i % 16) + 1 + i / 16);
    for (i = 0; i < 16; i++) IS(cubejobs_regions_release(&made[i + 1], &first[i]), DONE);
    for (i = 0; i < 18; i++) IS(cubejobs_regions_release(&made[17 - i], &next[i]), DONE);
    WANT(memcmp(before, made, sizeof made), 0);
    for (i = 0; i < 18; i++) IS(cubejobs_regions_free(&made[i]), DONE);
}

/* Of each processor 0 if it is free, and else the number of its block, plus 1. */
static unsigned char owner[1 << MODEL_DIM];

static unsigned free_blocks(unsigned k) {
    unsigned count = 0, base, p;
    for (base = 0; base < 1u << dim; base += 1u << k) {
        for (p = base; p < base + (1u << k) && !owner[p]; p++) continue;
        count += p == base + (1u << k);
    }
    return count;
}

static void own(struct cubejobs_regions_answer got, unsigned k, unsigned number) {
    uint64_t p;
    expect(!got.code && got.dim == k && got.base % (1u << k) == 0 && got.base + (1u << k) <= 1u << dim, "a wrong block");
    for (p = got.base; p < got.base + (1u << k); p++) {
        expect(!owner[p] || !number, "a processor has two owners");
        owner[p] = (unsigned char)number;
    }
}

/* Takes a block of the model: by an exact take, which refuses only if none is free, or by its base. */
static void model_take(struct cubejobs_regions *made, struct cubejobs_block *block, unsigned number) {
    unsigned k = random_below(dim + 1), way = random_below(3);
    uint64_t base = (uint64_t)random_below(1u << (dim - k)) << k, p;
    struct cubejobs_regions_answer got;
    if (way < 2) {
        got = way ? cubejobs_regions_take(made, block, k) : cubejobs_regions_take_exact(made, block, k);
        if (got.code) {
            want_answer(__LINE__, got, way ? CUBEJOBS_REGIONS_NOT_NOW : CUBEJOBS_REGIONS_NO_ROOM, 0, 0);
            expect(way || !free_blocks(k), "an exact take refuses although a block is free");
            return;
        }
    } else {
        got = cubejobs_regions_take_at(made, block, base, k);
        for (p = base; p < base + (1u << k) && !owner[p]; p++) continue;
        expect(got.code == (p < base + (1u << k) ? CUBEJOBS_REGIONS_TAKEN : CUBEJOBS_REGIONS_DONE), "take_at");
        if (got.code) return;
        expect(got.base == base, "another block");
    }
    own(got, k, number + 1);
}

/* Releases a block, or splits it, or joins it with the next one. */
static void model_end(struct cubejobs_regions *made, struct cubejobs_block *all, unsigned number) {
    struct cubejobs_block *block = &all[number], *half = &all[(number + 1) % BLOCKS];
    struct cubejobs_regions_answer held = cubejobs_regions_block(block), other, got;
    unsigned way = random_below(3), of_half = (unsigned)(half - all) + 1;
    other = cubejobs_regions_block(half);
    if (way == 0 && other.code == CUBEJOBS_REGIONS_NOTHING_HELD && held.dim > 0) {
        IS(cubejobs_regions_split(made, block, half), DONE);
        got = cubejobs_regions_block(half);
        own(held, held.dim, 0);
        own(cubejobs_regions_block(block), held.dim - 1, number + 1);
        own(got, held.dim - 1, of_half);
        WANT(got.base, held.base + (1u << (held.dim - 1)));
    } else if (way == 1 && !other.code && other.dim == held.dim && other.base == held.base + (1u << held.dim) &&
               held.base % (2u << held.dim) == 0) {
        IS(cubejobs_regions_join(made, block, half), DONE);
        own(other, other.dim, 0);
        own(held, held.dim, 0);
        own(cubejobs_regions_block(block), held.dim + 1, number + 1);
        REFUSES(cubejobs_regions_block(half), NOTHING_HELD);
    } else {
        IS(cubejobs_regions_release(made, block), DONE);
        own(held, held.dim, 0);
    }
}

static void model_occupancy(struct cubejobs_regions *made) {
    struct cubejobs_regions_occupancy_answer o = cubejobs_regions_occupancy(made);
    unsigned k, p, held = 0, largest = 0;
    for (p = 0; p < 1u << dim; p++) held += owner[p] != 0;
    for (k = 0; k <= MAX_DIM; k++) {
        unsigned count = k > dim ? 0 : free_blocks(k);
        WANT(o.free[k], count);
        if (count) largest = k;
    }
    WANT(o.held, held);
    WANT(o.largest, largest);
    WANT(o.has_free, held < 1u << dim);
}

static void model(unsigned long turns) {
    static struct cubejobs_regions made, second;
    static struct cubejobs_block all[BLOCKS];
    for (dim = 0; dim <= MODEL_DIM; dim++) {
        unsigned long turn;
        unsigned i;
        IS(cubejobs_regions_open(&made, dim), DONE);
        IS(cubejobs_regions_share(&made, &second), DONE);
        for (turn = 0; turn < turns; turn++) {
            struct cubejobs_regions *thread = turn % 2 ? &made : &second;
            i = random_below(BLOCKS);
            if (cubejobs_regions_block(&all[i]).code) model_take(thread, &all[i], i);
            else model_end(thread, all, i);
            if (turn % 64 == 0) model_occupancy(thread);
        }
        for (i = 0; i < BLOCKS; i++) {
            struct cubejobs_regions_answer held = cubejobs_regions_block(&all[i]);
            if (!held.code) own(held, held.dim, 0);
            WANT(cubejobs_regions_release(&made, &all[i]), held.code);
        }
        WANT(cubejobs_regions_occupancy(&made).held, 0);
        IS(cubejobs_regions_free(&second), DONE);
        IS(cubejobs_regions_free(&made), DONE);
    }
    dim = CROWD_DIM;
}

/* Both handles of a machine count its known blocks, whichever of them took one: 5, 64 to 127, and 192 to 199. */
static void counts(void) {
    static const uint64_t wanted[MAX_DIM + 1] = {183, 91, 45, 22, 10, 4, 1};
    static struct cubejobs_regions made, second;
    struct cubejobs_block one = none(), many = none(), some = none();
    unsigned i, k;
    IS(cubejobs_regions_open(&made, 8), DONE);
    IS(cubejobs_regions_share(&made, &second), DONE);
    GIVES(cubejobs_regions_take_at(&second, &one, 5, 0), 0, 5);
    GIVES(cubejobs_regions_take_at(&made, &many, 64, 6), 6, 64);
    GIVES(cubejobs_regions_take_at(&second, &some, 192, 3), 3, 192);
    for (i = 0; i < 2; i++) {
        struct cubejobs_regions_occupancy_answer o = cubejobs_regions_occupancy(i ? &made : &second);
        IS(o.code, DONE);
        WANT(o.held, 73);
        WANT(o.has_free, 1);
        WANT(o.largest, 6);
        for (k = 0; k <= MAX_DIM; k++) WANT(o.free[k], wanted[k]);
    }
    IS(cubejobs_regions_release(&made, &one), DONE);
    IS(cubejobs_regions_release(&second, &many), DONE);
    IS(cubejobs_regions_release(&made, &some), DONE);
    IS(cubejobs_regions_free(&second), DONE);
    IS(cubejobs_regions_free(&made), DONE);
}

/* A place in which a thread leaves a block for the next thread that comes by. */
static struct place {
    pthread_mutex_t lock;
    struct cubejobs_block block;
} places[THREADS];

struct worker {
    struct cubejobs_regions thread;
    uint64_t seed;
    unsigned long expected, done;
    unsigned overlaps, wrong;
};

/* Counts each processor of a block up and down, and adds to the plain memory of each. */
static void use(struct worker *own, struct cubejobs_regions_answer a) {
    uint64_t p, size = UINT64_C(1) << a.dim;
    for (p = a.base; p < a.base + size; p++) {
        if (__atomic_fetch_add(&counters[p], 1, __ATOMIC_RELAXED)) own->overlaps++;
        plain[p]++;
    }
    for (p = a.base; p < a.base + size; p++) __atomic_fetch_sub(&counters[p], 1, __ATOMIC_RELAXED);
    own->expected += size;
}

/* Leaves a block in a place, and takes what was there, which another thread may have taken. */
static void change(struct place *place, struct cubejobs_block *block) {
    struct cubejobs_block other;
    pthread_mutex_lock(&place->lock);
    other = place->block;
    place->block = *block;
    pthread_mutex_unlock(&place->lock);
    *block = other;
}

static struct cubejobs_regions_answer take(struct worker *own, struct cubejobs_block *block, uint64_t x, uint32_t k) {
    uint64_t base = (x >> 30) % (UINT64_C(1) << (CROWD_DIM - k)) << k;
    if (x >> 20 & 1) return cubejobs_regions_take(&own->thread, block, k);
    if (x >> 21 & 1) return cubejobs_regions_take_exact(&own->thread, block, k);
    return cubejobs_regions_take_at(&own->thread, block, base, k);
}

static void end(struct worker *own, struct cubejobs_block *block, uint64_t x) {
    struct cubejobs_block half = none();
    struct cubejobs_regions_answer held = cubejobs_regions_block(block);
    if (held.code) {
        if (held.code != CUBEJOBS_REGIONS_NOTHING_HELD) own->wrong++;
        return;
    }
    if (held.dim > 0 && x >> 22 & 1) {
        if (cubejobs_regions_split(&own->thread, block, &half)) own->wrong++;
        if (x >> 23 & 1 && cubejobs_regions_join(&own->thread, block, &half)) own->wrong++;
        if (!cubejobs_regions_block(&half).code && cubejobs_regions_release(&own->thread, &half))
            own->wrong++;
    }
    if (cubejobs_regions_release(&own->thread, block)) own->wrong++;
    if (cubejobs_regions_release(&own->thread, block) != CUBEJOBS_REGIONS_NOTHING_HELD) own->wrong++;
}

/* Returns whether a thread has made enough takes. It reads the clock once in 1,024 of them. */
static bool is_over(unsigned long done, time_t end) {
    if (!seconds) return done >= pairs;
    return done % 1024 == 0 && time(0) >= end;
}

static void *work(void *argument) {
    struct worker *own = (struct worker *)argument;
    time_t end_of_time = time(0) + (time_t)seconds;
    unsigned long done;
    for (done = 0; !is_over(done, end_of_time);) {
        struct cubejobs_block block = none();
        uint64_t x = next(&own->seed);
        uint32_t k = (uint32_t)(x % (largest + 1));
        struct cubejobs_regions_answer a = take(own, &block, x, k);
        if (a.code) {
            unsigned is_refusal = a.code == CUBEJOBS_REGIONS_NO_ROOM || a.code == CUBEJOBS_REGIONS_NOT_NOW ||
                                  a.code == CUBEJOBS_REGIONS_TAKEN;
            if (!is_refusal || a.base || a.dim) own->wrong++;
            done += x >> 24 & 1;
            continue;
        }
        if (a.dim != k || a.base % (UINT64_C(1) << k) || a.base + (UINT64_C(1) << k) > PROCESSORS) own->wrong++;
        use(own, a);
        if (k < 10 && x >> 25 & 1) change(&places[(x >> 26) % THREADS], &block);
        end(own, &block, x);
#ifdef UNGUARDED
        plain[a.base]++;
#endif
        done++;
    }
    if (cubejobs_regions_free(&own->thread)) own->wrong++;
    own->done = done;
    return 0;
}

/* Returns the number of takes that the threads made, granted or not. */
static unsigned long threads(void) {
    static struct cubejobs_regions mine;
    static struct worker workers[THREADS];
    pthread_t ids[THREADS];
    unsigned long sum = 0, expected = 0, takes = 0;
    unsigned i, p;
    IS(cubejobs_regions_open(&mine, CROWD_DIM), DONE);
    for (i = 0; i < THREADS; i++) {
        IS(cubejobs_regions_share(&mine, &workers[i].thread), DONE);
        workers[i].seed = seed + i * 7919;
        pthread_mutex_init(&places[i].lock, 0);
    }
    for (i = 0; i < THREADS; i++)
        if (pthread_create(&ids[i], 0, work, &workers[i])) exit(1);
    for (i = 0; i < THREADS; i++) {
        if (pthread_join(ids[i], 0)) exit(1);
        WANT(workers[i].wrong, 0);
        WANT(workers[i].overlaps, 0);
        expected += workers[i].expected;
        takes += workers[i].done;
    }
    for (p = 0; p < PROCESSORS; p++) sum += plain[p];
    WANT(sum, expected);
    for (i = 0; i < THREADS; i++)
        if (!cubejobs_regions_block(&places[i].block).code)
            IS(cubejobs_regions_release(&mine, &places[i].block), DONE);
    WANT(cubejobs_regions_occupancy(&mine).held, 0);
    IS(cubejobs_regions_free(&mine), DONE);
    return takes;
}

static void texts(void) {
    uint32_t code, other;
    for (code = 0; code <= CUBEJOBS_REGIONS_BAD_VERSION + 1; code++)
        for (other = 0; other < code; other++)
            expect(strcmp(cubejobs_code_text(code), cubejobs_code_text(other)), "two codes have one text");
}

int main(int argc, char **argv) {
    unsigned long takes;
    if (argc > 1) pairs = strtoul(argv[1], 0, 10);
    if (argc > 2) seconds = (unsigned)strtoul(argv[2], 0, 10);
    if (argc > 3) largest = (unsigned)strtoul(argv[3], 0, 10);
    expect(largest <= CROWD_DIM, "LARGEST is at most the dimension of the machine");
    texts();
    handles();
    blocks();
    counts();
    model(pairs < 4000 ? pairs : 4000);
    starts();
    takes = threads();
    printf("ffi: the regions from %s, %u threads, %lu takes with their releases: no overlap, no update lost\n",
#ifdef __cplusplus
           "C++",
#else
           "C",
#endif
           THREADS, takes);
    return 0;
}
