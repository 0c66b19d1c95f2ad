// Processes share a range of pages, by exact first fit. The machine is in memory that each process
// maps, at an address of its own. A robust mutex lets them in one at a time. It says when the
// process that had it has died: then the machine is repaired, and the blocks of that process are
// released. The output is examples/fit.out.
#define _GNU_SOURCE 1
#include <errno.h>
#include <pthread.h>
#include <stdbool.h>
#include <stdio.h>
#include <stdlib.h>
#include <sys/mman.h>
#include <sys/wait.h>
#include <unistd.h>

#include "cubejobs_fit.h"

enum { DIM = 10, PAGES = 1 << DIM, IMAGE_BYTES = 96 + 2 * PAGES };

struct shared {
    pthread_mutex_t mutex;
    pid_t owners[PAGES]; // of the block that begins at a page; 0 if no process has it
    uint64_t image[IMAGE_BYTES / 8];
};

static struct shared *shared;
static struct cubejobs_fit fit; // the view of this process

static void must(bool holds, const char *what) {
    if (holds) return;
    fprintf(stderr, "fit: %s failed\n", what);
    exit(1);
}

static struct shared *map(int file) {
    void *memory = mmap(NULL, sizeof(struct shared), PROT_READ | PROT_WRITE, MAP_SHARED, file, 0);
    must(memory != MAP_FAILED, "mmap");
    return (struct shared *)memory;
}

static struct cubejobs_fit_answer take_block(uint32_t k) {
    struct cubejobs_fit_answer block = cubejobs_fit_take(&fit, k);
    if (block.code == CUBEJOBS_FIT_DONE) shared->owners[block.base] = getpid();
    return block;
}

// Releases a block. Returns false, and changes nothing, if no such block is held.
static bool release_block(struct cubejobs_fit_answer block) {
    if (cubejobs_fit_release(&fit, block.base, block.dim) != CUBEJOBS_FIT_DONE) return false;
    shared->owners[block.base] = 0;
    return true;
}

// Releases the blocks of a process that has died, and those that no process has.
static void sweep(pid_t dead) {
    for (uint64_t page = 0; page < PAGES; page++) {
        struct cubejobs_fit_answer block = cubejobs_fit_block_with(&fit, page);
        if (block.code != CUBEJOBS_FIT_DONE) continue;
        pid_t owner = shared->owners[block.base];
        page = block.base + (1u << block.dim) - 1;
        if (owner != 0 && owner != dead) continue;
        printf("pages %d to %d come back\n", (int)block.base, (int)page);
        release_block(block);
    }
}

// Waits for its turn. `dead` is the process that may have died.
static void lock(pid_t dead) {
    if (pthread_mutex_lock(&shared->mutex) != EOWNERDEAD) return;
    must(!cubejobs_fit_repair(&fit, shared->image, IMAGE_BYTES, DIM), "the repair");
    must(!pthread_mutex_consistent(&shared->mutex), "the repair of the mutex");
    sweep(dead);
}

static void unlock(void) { pthread_mutex_unlock(&shared->mutex); }

// What the other process does: it maps the memory again, takes a block, and dies with the mutex.
static void work(int file) {
    shared = map(file);
    lock(0);
    must(!cubejobs_fit_attach(&fit, shared->image, IMAGE_BYTES, DIM), "the attach");
    struct cubejobs_fit_answer block = take_block(4);
    printf("the other process has pages %d to %d, and dies\n", (int)block.base, (int)block.base + 15);
    fflush(stdout);
    _exit(0);
}

int main(void) {
    int file = memfd_create("fit", 0); // or a file, which keeps the machine
    must(file >= 0 && ftruncate(file, sizeof(struct shared)) == 0, "the memory");
    shared = map(file);
    pthread_mutexattr_t robust;
    pthread_mutexattr_init(&robust);
    pthread_mutexattr_setpshared(&robust, PTHREAD_PROCESS_SHARED);
    pthread_mutexattr_setrobust(&robust, PTHREAD_MUTEX_ROBUST);
    must(!pthread_mutex_init(&shared->mutex, &robust), "the mutex");
    must(!cubejobs_fit_open(&fit, shared->image, IMAGE_BYTES, DIM), "the open");

    lock(0);
    struct cubejobs_fit_answer block = take_block(5);
    must(!block.code && !cubejobs_fit_split(&fit, block.base, 5), "the split"); // two blocks of 16
    must(!cubejobs_fit_release(&fit, block.base + 16, 4), "the release of a half");
    must(cubejobs_fit_release(&fit, block.base, 5) == CUBEJOBS_FIT_NOTHING_HELD, "the refusal");
    unlock();

    pid_t other = fork();
    must(other >= 0, "fork");
    if (other == 0) work(file);
    must(waitpid(other, NULL, 0) == other, "waitpid");

    lock(other);
    must(!cubejobs_fit_take_at(&fit, block.base + 16, 4).code, "the take of a given block");
    must(!cubejobs_fit_join(&fit, block.base, 5) && release_block(block), "the join");
    printf("free blocks of 512 pages: %d\n", (int)cubejobs_fit_free_blocks(&fit, 9));
    unlock();
    return 0;
}
