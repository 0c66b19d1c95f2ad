/* Calls the regions of a program that is compiled with CUBEJOBS_CHECK. One thread makes random calls with copies of
 * handles, beside a model that knows which copies are old. Then memory is refused, and then threads release copies of
 * blocks that others have taken meanwhile. `check_calls CALLS` makes so many random calls. */
#define _GNU_SOURCE
#include <pthread.h>

#include "cubejobs_regions.h"

#include "calls.h"

enum { MACHINES = 3, THREADS = 4, BLOCKS = 24, DIM = 4, SIZE = 1 << DIM, ROUNDS = 20000, CROWD = 8 };

/* What a handle is in the model: 0 if it is empty or shut, else a number. A number is alive until a call uses it up. */
struct live {
    unsigned machine, dim;
    uint64_t base;
    int is_alive;
};

static struct cubejobs_regions handles[THREADS];
static struct cubejobs_block blocks[BLOCKS];
static unsigned handle_ids[THREADS], block_ids[BLOCKS], last_id;
static struct live *lives;
/* Of each machine how many handles are open, and which of its processors are held. */
static unsigned open_handles[1 << 20], last_machine;
static unsigned char (*held)[SIZE];

static unsigned born(unsigned machine, uint64_t base, unsigned k) {
    struct live it = {machine, k, base, 1};
    lives[++last_id] = it;
    return last_id;
}

static int is_old(unsigned id) { return id && !lives[id].is_alive; }

static void mark(unsigned machine, uint64_t base, unsigned k, unsigned char value) {
    memset(&held[machine][base], value, (size_t)1 << k);
}

static int is_free_in(unsigned machine, uint64_t base, unsigned k) {
    uint64_t p;
    for (p = base; p < base + (1u << k); p++)
        if (held[machine][p]) return 0;
    return 1;
}

static unsigned copies(const unsigned *ids, unsigned count, unsigned id) {
    unsigned i, found = 0;
    for (i = 0; i < count; i++) found += ids[i] == id;
    return found;
}

/* Copies a handle over another one, unless that is the only one of something that is alive. */
static void copy_one(uint64_t x) {
    unsigned i = (unsigned)(x >> 8) % BLOCKS, j = (unsigned)(x >> 16) % BLOCKS;
    unsigned m = (unsigned)(x >> 8) % THREADS, n = (unsigned)(x >> 16) % THREADS;
    if (x >> 24 & 3) {
        if (lives[block_ids[j]].is_alive && copies(block_ids, BLOCKS, block_ids[j]) < 2) return;
        blocks[j] = blocks[i];
        block_ids[j] = block_ids[i];
        return;
    }
    if (lives[handle_ids[n]].is_alive && copies(handle_ids, THREADS, handle_ids[n]) < 2) return;
    handles[n] = handles[m];
    handle_ids[n] = handle_ids[m];
}

static void open_one(unsigned t) {
    enum cubejobs_regions_code got = cubejobs_regions_open(&handles[t], DIM);
    if (is_old(handle_ids[t])) {
        expect(got == CUBEJOBS_REGIONS_STALE, "an open with an old copy");
    } else if (handle_ids[t]) {
        expect(got == CUBEJOBS_REGIONS_ALREADY_OPEN, "an open of an open handle");
    } else {
        expect(got == CUBEJOBS_REGIONS_DONE, "an open");
        open_handles[++last_machine] = 1;
        memset(held[last_machine], 0, SIZE);
        handle_ids[t] = born(last_machine, 0, 0);
    }
}

static void share_one(unsigned t, unsigned u) {
    enum cubejobs_regions_code got;
    if (t == u) return;
    got = cubejobs_regions_share(&handles[t], &handles[u]);
    if (is_old(handle_ids[t]) || is_old(handle_ids[u])) {
        expect(got == CUBEJOBS_REGIONS_STALE, "a share with an old copy");
    } else if (handle_ids[u]) {
        expect(got == CUBEJOBS_REGIONS_ALREADY_OPEN, "a share to an open handle");
    } else if (!handle_ids[t]) {
        expect(got == CUBEJOBS_REGIONS_NOT_OPEN, "a share of a shut handle");
    } else {
        expect(got == CUBEJOBS_REGIONS_DONE, "a share");
        open_handles[lives[handle_ids[t]].machine]++;
        handle_ids[u] = born(lives[handle_ids[t]].machine, 0, 0);
    }
}

static void free_one(unsigned t) {
    enum cubejobs_regions_code got = cubejobs_regions_free(&handles[t]);
    unsigned id = handle_ids[t], machine = lives[id].machine;
    if (is_old(id)) {
        expect(got == CUBEJOBS_REGIONS_STALE, "a free of an old copy");
    } else if (!id) {
        expect(got == CUBEJOBS_REGIONS_NOT_OPEN, "a free of a shut handle");
    } else if (open_handles[machine] == 1 && !is_free_in(machine, 0, DIM)) {
        expect(got == CUBEJOBS_REGIONS_STILL_HELD, "a free while a block is held");
    } else {
        expect(got == CUBEJOBS_REGIONS_DONE, "a free");
        open_handles[machine]--;
        lives[id].is_alive = 0;
        handle_ids[t] = 0;
    }
}

/* Makes an exact take, or one of a given block. */
static void take_one(unsigned t, unsigned b, unsigned k, uint64_t base, int is_exact) {
    struct cubejobs_regions_answer got = is_exact ? cubejobs_regions_take_exact(&handles[t], &blocks[b], k)
                                                  : cubejobs_regions_take_at(&handles[t], &blocks[b], base, k);
    unsigned id = handle_ids[t], machine = lives[id].machine;
    int has_room = 0;
    uint64_t p;
    if (is_old(id) || is_old(block_ids[b])) {
        expect(got.code == CUBEJOBS_REGIONS_STALE && !got.base && !got.dim, "a take with an old copy");
        return;
    }
    if (!id || block_ids[b]) {
        expect(got.code == (id ? CUBEJOBS_REGIONS_HOLDS_ALREADY : CUBEJOBS_REGIONS_NOT_OPEN), "a take with such handles");
        return;
    }
    for (p = 0; p < SIZE; p += UINT64_C(1) << k) has_room |= is_free_in(machine, p, k);
    if (is_exact ? !has_room : !is_free_in(machine, base, k)) {
        expect(got.code == (is_exact ? CUBEJOBS_REGIONS_NO_ROOM : CUBEJOBS_REGIONS_TAKEN), "a take of what is held");
        return;
    }
    expect(got.code == CUBEJOBS_REGIONS_DONE && got.dim == k && got.base % (1u << k) == 0 && got.base < SIZE, "a take");
    expect((is_exact || got.base == base) && is_free_in(machine, got.base, k), "a take gets a held block");
    mark(machine, got.base, k, 1);
    block_ids[b] = born(machine, got.base, k);
}

static void release_one(unsigned t, unsigned b) {
    enum cubejobs_regions_code got = cubejobs_regions_release(&handles[t], &blocks[b]);
    unsigned id = handle_ids[t], block = block_ids[b];
    if (is_old(id) || is_old(block)) expect(got == CUBEJOBS_REGIONS_STALE, "a release of an old copy");
    else if (!id) expect(got == CUBEJOBS_REGIONS_NOT_OPEN, "a release by a shut handle");
    else if (!block) expect(got == CUBEJOBS_REGIONS_NOTHING_HELD, "a release of nothing");
    else if (lives[id].machine != lives[block].machine) expect(got == CUBEJOBS_REGIONS_OTHER_MACHINE, "a foreign block");
    else {
        expect(got == CUBEJOBS_REGIONS_DONE, "a release");
        mark(lives[block].machine, lives[block].base, lives[block].dim, 0);
        lives[block].is_alive = 0;
        block_ids[b] = 0;
    }
}

static void split_one(unsigned t, unsigned b, unsigned c) {
    unsigned id = handle_ids[t], block = block_ids[b], half = block_ids[c];
    struct live whole = lives[block];
    enum cubejobs_regions_code got;
    if (b == c) return;
    got = cubejobs_regions_split(&handles[t], &blocks[b], &blocks[c]);
    if (is_old(id) || is_old(block) || is_old(half)) expect(got == CUBEJOBS_REGIONS_STALE, "a split of an old copy");
    else if (!id) expect(got == CUBEJOBS_REGIONS_NOT_OPEN, "a split by a shut handle");
    else if (half) expect(got == CUBEJOBS_REGIONS_HOLDS_ALREADY, "a split to a full handle");
    else if (!block) expect(got == CUBEJOBS_REGIONS_NOTHING_HELD, "a split of nothing");
    else if (lives[id].machine != whole.machine) expect(got == CUBEJOBS_REGIONS_OTHER_MACHINE, "a foreign split");
    else if (!whole.dim) expect(got == CUBEJOBS_REGIONS_BAD_DIMENSION, "a split of one processor");
    else {
        expect(got == CUBEJOBS_REGIONS_DONE, "a split");
        lives[block].is_alive = 0;
        block_ids[b] = born(whole.machine, whole.base, whole.dim - 1);
        block_ids[c] = born(whole.machine, whole.base + (UINT64_C(1) << (whole.dim - 1)), whole.dim - 1);
    }
}

static int are_halves(struct live lower, struct live upper) {
    return lower.machine == upper.machine && lower.dim == upper.dim && lower.base % (2u << lower.dim) == 0 &&
           upper.base == lower.base + (1u << lower.dim);
}

static void join_one(unsigned t, unsigned b, unsigned c) {
    unsigned id = handle_ids[t], one = block_ids[b], other = block_ids[c];
    struct live lower = lives[one], upper = lives[other];
    enum cubejobs_regions_code got;
    if (b == c) return;
    got = cubejobs_regions_join(&handles[t], &blocks[b], &blocks[c]);
    if (is_old(id) || is_old(one) || is_old(other)) expect(got == CUBEJOBS_REGIONS_STALE, "a join of an old copy");
    else if (!id) expect(got == CUBEJOBS_REGIONS_NOT_OPEN, "a join by a shut handle");
    else if (!one) expect(got == CUBEJOBS_REGIONS_NOTHING_HELD, "a join of nothing");
    else if (lives[id].machine != lower.machine) expect(got == CUBEJOBS_REGIONS_OTHER_MACHINE, "a foreign join");
    else if (!other) expect(got == CUBEJOBS_REGIONS_NOTHING_HELD, "a join with nothing");
    else if (lives[id].machine != upper.machine) expect(got == CUBEJOBS_REGIONS_OTHER_MACHINE, "a join with another");
    else if (!are_halves(lower, upper)) expect(got == CUBEJOBS_REGIONS_NOT_HALVES, "a join of others");
    else {
        expect(got == CUBEJOBS_REGIONS_DONE, "a join");
        lives[one].is_alive = lives[other].is_alive = 0;
        block_ids[b] = born(lower.machine, lower.base, lower.dim + 1);
        block_ids[c] = 0;
    }
}

static void look_at(unsigned t, unsigned b) {
    struct cubejobs_regions_answer got = cubejobs_regions_block(&blocks[b]);
    struct cubejobs_regions_occupancy_answer all = cubejobs_regions_occupancy(&handles[t]);
    unsigned id = block_ids[b], thread = handle_ids[t];
    uint64_t p, count = 0;
    if (is_old(id)) expect(got.code == CUBEJOBS_REGIONS_STALE, "a look at an old copy");
    else if (!id) expect(got.code == CUBEJOBS_REGIONS_NOTHING_HELD, "a look at nothing");
    else expect(!got.code && got.base == lives[id].base && got.dim == lives[id].dim, "a look");
    for (p = 0; p < SIZE; p++) count += held[lives[thread].machine][p];
    if (is_old(thread)) expect(all.code == CUBEJOBS_REGIONS_STALE, "an occupancy by an old copy");
    else if (!thread) expect(all.code == CUBEJOBS_REGIONS_NOT_OPEN, "an occupancy by a shut handle");
    else expect(!all.code && all.held == count, "an occupancy");
}

static void act(uint64_t x) {
    unsigned t = (unsigned)(x >> 32) % THREADS, b = (unsigned)(x >> 40) % BLOCKS, c = (unsigned)(x >> 48) % BLOCKS;
    unsigned k = (unsigned)(x >> 56) % (DIM + 1);
    switch (x % 16) {
    case 0: open_one(t); break;
    case 1: share_one(t, c % THREADS); break;
    case 2: free_one(t); break;
    case 3: case 4: case 5: take_one(t, b, k, 0, 1); break;
    case 6: take_one(t, b, k, (c % SIZE) >> k << k, 0); break;
    case 7: case 8: case 9: release_one(t, b); break;
    case 10: split_one(t, b, c); break;
    case 11: join_one(t, b, c); break;
    case 12: look_at(t, b); break;
    default: copy_one(x >> 8); break;
    }
}

/* Empties the handles that are old copies, so that all can be opened and filled again. */
static void sweep(void) {
    unsigned i;
    for (i = 0; i < BLOCKS; i++)
        if (is_old(block_ids[i])) memset(&blocks[i], 0, sizeof blocks[i]), block_ids[i] = 0;
    for (i = 0; i < THREADS; i++)
        if (is_old(handle_ids[i])) memset(&handles[i], 0, sizeof handles[i]), handle_ids[i] = 0;
}

/* The number of a request for memory that fails, counted from now, or 0. */
static unsigned refused;
void *__libc_malloc(size_t size);
void *malloc(size_t size) { return refused && --refused == 0 ? 0 : __libc_malloc(size); }

/* Refuses each request for memory of some calls in turn. Such a call changes nothing. */
static void refuse_memory(void) {
    static struct cubejobs_regions thread, other;
    static struct cubejobs_block block, half;
    unsigned number, calls[4] = {0}, i;
    for (number = 1; number < 40; number++) {
        enum cubejobs_regions_code code[4];
        refused = number, code[0] = cubejobs_regions_open(&thread, DIM), refused = 0;
        if (code[0]) expect(!cubejobs_regions_open(&thread, DIM), "an open after one without memory");
        refused = number, code[1] = cubejobs_regions_share(&thread, &other), refused = 0;
        if (code[1]) expect(!cubejobs_regions_share(&thread, &other), "a share after one without memory");
        refused = number, code[2] = cubejobs_regions_code_of(cubejobs_regions_take(&thread, &block, 2)), refused = 0;
        if (code[2]) expect(!cubejobs_regions_occupancy(&other).held, "a take without memory holds a block");
        if (code[2]) expect(!cubejobs_regions_take(&thread, &block, 2).code, "a take after one without memory");
        refused = number, code[3] = cubejobs_regions_split(&thread, &block, &half), refused = 0;
        if (code[3]) expect(!cubejobs_regions_split(&thread, &block, &half), "a split after one without memory");
        for (i = 0; i < 4; i++) {
            expect(!code[i] || code[i] == CUBEJOBS_REGIONS_OUT_OF_MEMORY, "a call without memory has another code");
            calls[i] += code[i] != CUBEJOBS_REGIONS_DONE;
        }
        expect(!cubejobs_regions_release(&other, &block) && !cubejobs_regions_release(&other, &half), "a release");
        expect(!cubejobs_regions_free(&other) && !cubejobs_regions_free(&thread), "a free");
    }
    for (i = 0; i < 4; i++) expect(calls[i] >= 2, "no request of a call was refused");
}

static struct cubejobs_regions crowd[CROWD];
static unsigned owners[SIZE];

/* Releases a block, and then a copy of its handle, while others take the block. */
static void *release_twice(void *argument) {
    struct cubejobs_regions *own = (struct cubejobs_regions *)argument;
    unsigned round;
    for (round = 0; round < ROUNDS; round++) {
        struct cubejobs_block block = {0}, copy;
        struct cubejobs_regions_answer got = cubejobs_regions_take(own, &block, round % 2);
        uint64_t p;
        if (got.code) continue;
        for (p = got.base; p < got.base + (UINT64_C(1) << got.dim); p++)
            expect(!__atomic_fetch_add(&owners[p], 1, __ATOMIC_SEQ_CST), "two owners");
        copy = block;
        for (p = got.base; p < got.base + (UINT64_C(1) << got.dim); p++) __atomic_fetch_sub(&owners[p], 1, __ATOMIC_SEQ_CST);
        expect(!cubejobs_regions_release(own, &block), "a release");
        expect(cubejobs_regions_release(own, &copy) == CUBEJOBS_REGIONS_STALE, "a copy is released");
    }
    return 0;
}

static void crowds(void) {
    pthread_t ids[CROWD];
    unsigned i;
    for (i = 0; i < CROWD; i++)
        expect(!(i ? cubejobs_regions_share(&crowd[0], &crowd[i]) : cubejobs_regions_open(&crowd[0], DIM)), "open");
    for (i = 0; i < CROWD; i++) expect(!pthread_create(&ids[i], 0, release_twice, &crowd[i]), "a thread");
    for (i = 0; i < CROWD; i++) pthread_join(ids[i], 0);
    for (i = 0; i < CROWD; i++) expect(!cubejobs_regions_free(&crowd[i]), "free");
}

int main(int argc, char **argv) {
    unsigned long calls = argc > 1 ? strtoul(argv[1], 0, 10) : 100000, call;
    dim = DIM;
    lives = (struct live *)calloc(2 * calls + 2, sizeof *lives);
    held = (unsigned char (*)[SIZE])calloc(calls + 2, SIZE);
    expect(lives && held && calls < sizeof open_handles / sizeof *open_handles, "memory");
    for (call = 0; call < calls; call++) {
        act(next(&seed));
        if (call % 256 == 0) sweep();
    }
    refuse_memory();
    crowds();
    printf("ffi: %lu calls with copies of handles, each with the code of the model\n", calls);
    return 0;
}
