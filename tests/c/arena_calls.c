/* Calls the allocator of examples/arena.c: each block is aligned to its size, rounded up to pages and a power of two,
 * and a size that the arena has not is refused. A block is freed once. */
#define main example_main
#include "../../examples/arena.c"
#undef main

static int wrong;

/* Asks for a block of this size, which must be aligned to `rounded`, or refused where that is 0. */
static void want(size_t size, size_t rounded) {
    unsigned char *block = arena_alloc(&arena, &arena.first, size);
    if (!block != !rounded || (rounded && (uintptr_t)block % rounded)) {
        printf("arena_calls.c: a block of %zu bytes at %p\n", size, (void *)block);
        wrong = 1;
    }
    if (block) {
        memset(block, 1, size);
        wrong |= !arena_free(&arena, &arena.first, block) || arena_free(&arena, &arena.first, block);
        wrong |= arena_free(&arena, &arena.first, block + 1) || arena_free(&arena, &arena.first, block + PAGES * PAGE);
    }
}

int main(void) {
    const size_t all = (size_t)PAGES * PAGE;
    if (!arena_open(&arena)) return 1;
    want(0, PAGE);
    want(1, PAGE);
    for (size_t rounded = PAGE; rounded <= all; rounded *= 2) {
        want(rounded, rounded);
        want(rounded - 1, rounded);
        want(rounded + 1, rounded < all ? 2 * rounded : 0);
    }
    want(2 * all, 0);
    want(SIZE_MAX / 2 + 1, 0);
    want(SIZE_MAX / 2 + 2, 0);
    want(SIZE_MAX - PAGE, 0);
    want(SIZE_MAX, 0);
    wrong |= !arena_close(&arena);
    if (!wrong) printf("ffi: the blocks of the arena are aligned, and what it has not is refused\n");
    return wrong;
}
