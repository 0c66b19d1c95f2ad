// A page allocator for threads, without locks: an arena of 2^DIM pages, in aligned blocks.
//
// arena_alloc takes a block of enough pages, and arena_free releases it, from any thread. Each
// thread has a handle of the machine. The handle of a block is kept at the number of its first
// page. Blocks that are held at the same time never overlap. The output is examples/arena.out.
#include <pthread.h>
#include <stdio.h>
#include <stdlib.h>
#include <string.h>

#include "cubejobs_regions.h"

enum { PAGE = 4096, DIM = 8, PAGES = 1 << DIM, THREADS = 8, PLACES = 16, TURNS = 8000 };

// The pages, and a machine with a processor for each page.
struct arena {
    unsigned char *pages;
    struct cubejobs_regions first;
    struct cubejobs_block blocks[PAGES];
};

static int arena_open(struct arena *arena) {
    memset(arena, 0, sizeof *arena);
    // The whole is aligned to its size, so each block is aligned to its own.
    arena->pages = aligned_alloc((size_t)PAGES * PAGE, (size_t)PAGES * PAGE);
    return arena->pages && !cubejobs_regions_open(&arena->first, DIM);
}

// Returns a block of at least `size` bytes: `size` rounded up to pages and to a power of two. It is
// aligned to its own size. Returns null if none was found, or if the arena is smaller.
static void *arena_alloc(struct arena *arena, struct cubejobs_regions *thread, size_t size) {
    struct cubejobs_block block = {0, 0};
    uint32_t k = 0;
    if (size > (size_t)PAGES * PAGE) return NULL;
    while (((size_t)PAGE << k) < size) k++;
    struct cubejobs_regions_answer taken = cubejobs_regions_take(thread, &block, k);
    if (taken.code == CUBEJOBS_REGIONS_NOT_NOW) taken = cubejobs_regions_take_exact(thread, &block, k);
    if (taken.code) return NULL;
    arena->blocks[taken.base] = block;
    return arena->pages + taken.base * PAGE;
}

// Releases a block, whichever thread has taken it. Returns 0 if no held block begins there. The
// handle moves out of its place first: once the block is released, another thread may write there.
static int arena_free(struct arena *arena, struct cubejobs_regions *thread, void *block) {
    size_t offset = (size_t)((unsigned char *)block - arena->pages);
    if (offset % PAGE || offset / PAGE >= PAGES) return 0;
    struct cubejobs_block *place = &arena->blocks[offset / PAGE], moved = *place;
    memset(place, 0, sizeof *place);
    return !cubejobs_regions_release(thread, &moved);
}

// Closes the arena after each thread has freed its handle. Returns 0 if a block is held.
static int arena_close(struct arena *arena) {
    if (cubejobs_regions_free(&arena->first)) return 0;
    free(arena->pages);
    return 1;
}

// A block that one thread has filled and left for another.
static struct place {
    pthread_mutex_t lock;
    unsigned char *block, own;
    size_t size;
} places[PLACES];

static struct arena arena;

// What a thread works with: its handle, and the byte that it writes.
static struct user {
    struct cubejobs_regions thread;
    unsigned own;
} users[THREADS];

// Checks the contents of the block in a place, and frees it.
static void empty(struct place *place, struct cubejobs_regions *thread) {
    for (size_t b = 0; place->block && b < place->size; b += 512)
        if (place->block[b] != place->own) abort();
    if (place->block && !arena_free(&arena, thread, place->block)) abort();
    place->block = NULL;
}

// Fills blocks with a byte of its own, and leaves each in a place. Frees what was there.
static void *work(void *argument) {
    struct user *user = argument;
    unsigned seed = user->own;
    for (int turn = 0; turn < TURNS; turn++) {
        seed = seed * 1103515245u + 12345u;
        struct place *place = &places[(seed >> 8) % PLACES];
        size_t size = 1 + (seed >> 12) % (32 * PAGE);
        unsigned char *block = arena_alloc(&arena, &user->thread, size);
        if (!block) continue;
        memset(block, (int)user->own, size);
        pthread_mutex_lock(&place->lock);
        empty(place, &user->thread);
        place->block = block;
        place->own = (unsigned char)user->own;
        place->size = size;
        pthread_mutex_unlock(&place->lock);
    }
    cubejobs_regions_free(&user->thread);
    return NULL;
}

int main(void) {
    pthread_t threads[THREADS];
    if (!arena_open(&arena)) return 1;
    for (int i = 0; i < PLACES; i++) pthread_mutex_init(&places[i].lock, NULL);
    for (int i = 0; i < THREADS; i++) {
        users[i].own = (unsigned)i + 1;
        if (cubejobs_regions_share(&arena.first, &users[i].thread)) return 1;
    }
    for (int i = 0; i < THREADS; i++)
        if (pthread_create(&threads[i], NULL, work, &users[i])) return 1;
    for (int i = 0; i < THREADS; i++) pthread_join(threads[i], NULL);
    for (int i = 0; i < PLACES; i++) empty(&places[i], &arena.first);
    if (!arena_close(&arena)) return 1;
    printf("%d blocks were asked for, and those that were given never overlapped\n", THREADS * TURNS);
    return 0;
}
