// malloc and free for a whole program, over blocks of one arena: a shared object for LD_PRELOAD.
//
//     cc -shared -fPIC -Iinclude examples/preload.c libcubejobs_regions.a -o preload.so
//     LD_PRELOAD=./preload.so ls -lR
//
// The arena has 2^20 units of 1 KB. A request gets an aligned block: its size rounded up to units
// and to a power of two. So this is fast and simple, and small requests waste memory. A pointer
// that no held block begins with, or that is freed twice, ends the program.
//
// Any thread may make any call. Each call borrows one of 16 handles of the machine, so no thread
// needs one of its own. The library asks for memory as the arena is opened, and at no other time. A
// static buffer serves these requests.
//
// A forked child. A fork first borrows all handles, so no call is in progress as the memory is
// copied. So the child has a whole copy of the arena, even if the process has other threads. It may
// free what was allocated before, and allocate more. The blocks of the other threads stay held in
// the child. The library itself allows no call in the child of a process with threads. For such a
// child may get a machine in the middle of a call. Here it never does. No theorem says so.
#define _GNU_SOURCE
#include <errno.h>
#include <malloc.h>
#include <pthread.h>
#include <sched.h>
#include <stdlib.h>
#include <string.h>
#include <sys/mman.h>
#include <unistd.h>

#include "cubejobs_regions.h"

enum { DIM = 20, UNITS = 1 << DIM, UNIT = 1024, HANDLES = 16, BUFFER = 1 << 22, LINE = 64 };
enum state { SHUT, OPENING, OPEN };

// A handle of the machine, and whether a call has borrowed it.
struct handle {
    _Alignas(LINE) struct cubejobs_regions thread;
    int is_borrowed;
};

static unsigned char *units;
static struct cubejobs_block blocks[UNITS]; // of each block, at its first unit
static struct handle handles[HANDLES];
static enum state state;
static unsigned threads;
static __thread unsigned own __attribute__((tls_model("initial-exec")));

static unsigned char buffer[BUFFER] __attribute__((aligned(LINE)));
static size_t used;

static void stop(const char *reason) {
    if (write(2, reason, strlen(reason)) < 0) _exit(3);
    abort();
}

// Serves a request of the library. It makes them from one thread, and frees none of them.
static void *from_buffer(size_t size) {
    size_t first = used;
    if (size > BUFFER - used) return NULL;
    used += (size + LINE - 1) / LINE * LINE;
    return buffer + first;
}

// Borrows a handle: the thread's usual one, or the next that no other call has.
static struct handle *borrow(void) {
    if (!own) own = __atomic_add_fetch(&threads, 1, __ATOMIC_RELAXED);
    for (unsigned i = own;; i++) {
        struct handle *handle = &handles[i % HANDLES];
        if (!__atomic_exchange_n(&handle->is_borrowed, 1, __ATOMIC_SEQ_CST)) return handle;
        if (i - own >= HANDLES) sched_yield();
    }
}

static void give_back(struct handle *handle) {
    __atomic_store_n(&handle->is_borrowed, 0, __ATOMIC_SEQ_CST);
}

static void borrow_all(void) {
    for (int i = 0; i < HANDLES; i++)
        while (__atomic_exchange_n(&handles[i].is_borrowed, 1, __ATOMIC_SEQ_CST)) sched_yield();
}

static void give_all_back(void) {
    for (int i = 0; i < HANDLES; i++) give_back(&handles[i]);
}

// Maps the units, aligned to their size in all, so that each block is aligned to its own.
static unsigned char *map_units(void) {
    const size_t all = (size_t)UNITS * UNIT;
    void *mapped = mmap(NULL, 2 * all, PROT_READ | PROT_WRITE, MAP_PRIVATE | MAP_ANONYMOUS | MAP_NORESERVE, -1, 0);
    if (mapped == MAP_FAILED) stop("preload: no room for the arena\n");
    unsigned char *first = mapped, *aligned = (unsigned char *)(((uintptr_t)mapped + all - 1) / all * all);
    if (aligned > first) munmap(first, (size_t)(aligned - first));
    if (aligned < first + all) munmap(aligned + all, (size_t)(first + all - aligned));
    return aligned;
}

// Opens the arena at the program's first request, when it has one thread.
static void open_arena(void) {
    state = OPENING;
    units = map_units();
    if (cubejobs_regions_open(&handles[0].thread, DIM)) stop("preload: the arena was not opened\n");
    for (int i = 1; i < HANDLES; i++)
        if (cubejobs_regions_share(&handles[0].thread, &handles[i].thread)) stop("preload: the buffer is too small\n");
    state = OPEN;
    pthread_atfork(borrow_all, give_all_back, give_all_back);
}

// Takes a block of at least this many bytes, aligned to at least this power of two.
static void *take(size_t size, size_t alignment) {
    struct cubejobs_block block = {0, 0};
    uint32_t k = 0;
    if (state == OPENING) return from_buffer(size);
    if (state == SHUT) open_arena();
    if (size < alignment) size = alignment;
    while (k <= DIM && ((size_t)UNIT << k) < size) k++;
    struct handle *handle = borrow();
    struct cubejobs_regions_answer taken = cubejobs_regions_take(&handle->thread, &block, k);
    if (taken.code == CUBEJOBS_REGIONS_NOT_NOW) taken = cubejobs_regions_take_exact(&handle->thread, &block, k);
    if (taken.code == CUBEJOBS_REGIONS_DONE) blocks[taken.base] = block;
    give_back(handle);
    if (taken.code == CUBEJOBS_REGIONS_DONE) return units + taken.base * UNIT;
    errno = ENOMEM;
    return NULL;
}

// Returns the handle of the block that begins at an address. The program ends if none does.
static struct cubejobs_block *block_at(void *address) {
    size_t offset = (size_t)((unsigned char *)address - units);
    if (!units || offset % UNIT || offset / UNIT >= UNITS) stop("preload: this is no block\n");
    return &blocks[offset / UNIT];
}

// Halves a block as long as one half is enough, and releases the upper halves.
static void shrink(struct cubejobs_block *block, size_t size) {
    struct handle *handle = borrow();
    for (uint32_t k = cubejobs_regions_block(block).dim; k > 0 && ((size_t)UNIT << (k - 1)) >= size; k--) {
        struct cubejobs_block half = {0, 0};
        if (cubejobs_regions_split(&handle->thread, block, &half)) stop("preload: a block was not split\n");
        cubejobs_regions_release(&handle->thread, &half);
    }
    give_back(handle);
}

void *malloc(size_t size) {
    return take(size, 1);
}

void free(void *address) {
    unsigned char *byte = address;
    int error = errno;
    if (!address || (byte >= buffer && byte < buffer + BUFFER)) return;
    // The handle moves out of its place: after the release another thread may write there.
    struct cubejobs_block *place = block_at(address), block = *place;
    memset(place, 0, sizeof *place);
    struct handle *handle = borrow();
    uint32_t code = cubejobs_regions_release(&handle->thread, &block);
    give_back(handle);
    if (code) stop("preload: a block was freed twice, or never allocated\n");
    errno = error;
}

size_t malloc_usable_size(void *address) {
    if (!address) return 0;
    struct cubejobs_regions_answer held = cubejobs_regions_block(block_at(address));
    if (held.code) stop("preload: no held block begins here\n");
    return (size_t)UNIT << held.dim;
}

void *calloc(size_t count, size_t size) {
    size_t all;
    if (__builtin_mul_overflow(count, size, &all)) {
        errno = ENOMEM;
        return NULL;
    }
    void *address = take(all, 1);
    return address ? memset(address, 0, all) : NULL;
}

void *realloc(void *address, size_t size) {
    if (!address) return take(size, 1);
    if (!size) {
        free(address);
        return NULL;
    }
    size_t before = malloc_usable_size(address);
    if (size <= before) {
        shrink(block_at(address), size);
        return address;
    }
    void *larger = take(size, 1);
    if (!larger) return NULL;
    memcpy(larger, address, before);
    free(address);
    return larger;
}

static int is_power(size_t alignment) {
    return alignment && !(alignment & (alignment - 1));
}

void *aligned_alloc(size_t alignment, size_t size) {
    if (is_power(alignment)) return take(size, alignment);
    errno = EINVAL;
    return NULL;
}

void *memalign(size_t alignment, size_t size) {
    return aligned_alloc(alignment, size);
}

int posix_memalign(void **place, size_t alignment, size_t size) {
    int error = errno;
    if (!is_power(alignment) || alignment % sizeof(void *)) return EINVAL;
    void *address = take(size, alignment);
    errno = error;
    if (!address) return ENOMEM;
    *place = address;
    return 0;
}
