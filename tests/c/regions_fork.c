/* Has processes share a machine of regions. It is linked with --wrap=malloc and --wrap=free: while a machine and its
 * handles are opened, malloc gives out memory of one mapping, which the children of a fork share. Each child has a handle
 * of its own, and releases blocks of others, over a table of owners. Without that memory a child has a copy of the machine,
 * and its parent sees nothing of what it takes. With SEPARATE malloc gives out no such memory: two processes then take one
 * processor, and it must be seen. */
#define _DEFAULT_SOURCE
#include "cubejobs_regions.h"

#include <pthread.h>
#include <sys/mman.h>
#include <sys/wait.h>
#include <unistd.h>

#include "calls.h"

#define CHILDREN 4
#define DIM 8
#define PROCESSORS (1u << DIM)

/* What the processes have in common: handles, the memory that malloc gives out, and who has each processor. Of the blocks
 * in `left` one process at a time has each: `turns` says which. */
static struct common {
    struct cubejobs_regions mine, theirs[CHILDREN];
    struct cubejobs_block left[CHILDREN];
    pthread_mutex_t turns[CHILDREN];
    unsigned owners[PROCESSORS];
    size_t given;
    _Alignas(64) unsigned char bytes[1 << 20];
} *common;
static bool is_sharing;

void *__real_malloc(size_t size);
void __real_free(void *block);
void *__wrap_malloc(size_t size);
void __wrap_free(void *block);

void *__wrap_malloc(size_t size) {
    unsigned char *block;
    if (!is_sharing) return __real_malloc(size);
    expect(common->given + size + 64 <= sizeof common->bytes, "memory of the mapping");
    block = common->bytes + common->given;
    common->given += (size + 63) / 64 * 64;
    return block;
}

void __wrap_free(void *block) {
    unsigned char *at = block;
    if (!common || at < common->bytes || at >= common->bytes + sizeof common->bytes) __real_free(block);
}

/* Takes and releases blocks, and leaves every second one for another process. */
static void work(unsigned number, unsigned turns) {
    struct cubejobs_regions *mine = &common->theirs[number];
    uint64_t state = seed + number * 7919;
    unsigned turn;
    uint64_t p;
    for (turn = 0; turn < turns; turn++) {
        uint64_t x = next(&state);
        unsigned place = (unsigned)(x >> 20) % CHILDREN;
        struct cubejobs_block block = {0, 0}, other;
        struct cubejobs_regions_answer a = cubejobs_regions_take(mine, &block, (uint32_t)(x % 5));
        if (a.code) continue;
        for (p = a.base; p < a.base + (UINT64_C(1) << a.dim); p++)
            expect(__atomic_fetch_add(&common->owners[p], 1, __ATOMIC_RELAXED) == 0, "a processor has two owners");
        for (p = a.base; p < a.base + (UINT64_C(1) << a.dim); p++)
            __atomic_fetch_sub(&common->owners[p], 1, __ATOMIC_RELAXED);
        if (x >> 30 & 1) {
            pthread_mutex_lock(&common->turns[place]);
            other = common->left[place], common->left[place] = block, block = other;
            pthread_mutex_unlock(&common->turns[place]);
        }
        if (!cubejobs_regions_block(&block).code) expect(!cubejobs_regions_release(mine, &block), "a release");
    }
}

/* Runs a child, or waits for one. */
static void start(unsigned number, unsigned turns) {
    pid_t child = fork();
    expect(child >= 0, "fork");
    if (child) return;
    work(number, turns);
    _exit(0);
}

static void await(void) {
    int status;
    expect(wait(&status) >= 0 && WIFEXITED(status) && WEXITSTATUS(status) == 0, "a child ends well");
}

static void shared(unsigned turns) {
    pthread_mutexattr_t attribute;
    unsigned i;
#ifndef SEPARATE
    is_sharing = true;
#endif
    expect(!cubejobs_regions_open(&common->mine, DIM), "open");
    for (i = 0; i < CHILDREN; i++) expect(!cubejobs_regions_share(&common->mine, &common->theirs[i]), "share");
    is_sharing = false;
    pthread_mutexattr_init(&attribute);
    pthread_mutexattr_setpshared(&attribute, PTHREAD_PROCESS_SHARED);
    for (i = 0; i < CHILDREN; i++) pthread_mutex_init(&common->turns[i], &attribute);
    for (i = 0; i < CHILDREN; i++) start(i, turns);
    for (i = 0; i < CHILDREN; i++) await();
    for (i = 0; i < CHILDREN; i++)
        if (!cubejobs_regions_block(&common->left[i]).code)
            expect(!cubejobs_regions_release(&common->mine, &common->left[i]), "a release of the parent");
    expect(cubejobs_regions_occupancy(&common->mine).held == 0, "a block is held after all");
    for (i = 0; i < CHILDREN; i++) expect(!cubejobs_regions_free(&common->theirs[i]), "free");
    expect(!cubejobs_regions_free(&common->mine), "the last free");
}

static void copied(void) {
    static struct cubejobs_regions mine;
    static struct cubejobs_block block;
    pid_t child;
    expect(!cubejobs_regions_open(&mine, DIM), "open");
    child = fork();
    expect(child >= 0, "fork");
    if (!child) {
        expect(!cubejobs_regions_take(&mine, &block, DIM).code, "a take in a child");
        expect(!cubejobs_regions_release(&mine, &block) && !cubejobs_regions_free(&mine), "a release in a child");
        _exit(0);
    }
    expect(!cubejobs_regions_take(&mine, &block, DIM).code, "a take beside a child");
    await();
    expect(!cubejobs_regions_release(&mine, &block) && !cubejobs_regions_free(&mine), "a release beside a child");
}

int main(int argc, char **argv) {
    unsigned turns = argc > 1 ? (unsigned)strtoul(argv[1], 0, 10) : 100000;
    dim = DIM;
    copied();
    common = mmap(0, sizeof *common, PROT_READ | PROT_WRITE, MAP_SHARED | MAP_ANONYMOUS, -1, 0);
    expect(common != MAP_FAILED, "mmap");
    shared(turns);
    printf("ffi: %d processes share a machine in one mapping\n", CHILDREN);
    return 0;
}
