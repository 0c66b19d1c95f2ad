/* A wrong library of regions: it is linked in front of the right one, with --wrap for the calls that it changes. WRONG
 * says what is wrong:
 *   1  each taker gets the block from processor 0 on
 *   2  a release by another thread than that which took the block does nothing
 *   3  the last handle is shut although a block is held
 *   4  a split forgets the upper half */
#include "cubejobs_regions.h"

typedef struct cubejobs_regions_answer answer;
answer __real_cubejobs_regions_take(struct cubejobs_regions *thread, struct cubejobs_block *block, uint32_t k);
answer __wrap_cubejobs_regions_take(struct cubejobs_regions *thread, struct cubejobs_block *block, uint32_t k);
uint32_t __real_cubejobs_regions_release(struct cubejobs_regions *thread, struct cubejobs_block *block);
uint32_t __wrap_cubejobs_regions_release(struct cubejobs_regions *thread, struct cubejobs_block *block);
uint32_t __real_cubejobs_regions_free(struct cubejobs_regions *thread);
uint32_t __wrap_cubejobs_regions_free(struct cubejobs_regions *thread);
uint32_t __real_cubejobs_regions_split(struct cubejobs_regions *thread, struct cubejobs_block *block,
                                       struct cubejobs_block *half);
uint32_t __wrap_cubejobs_regions_split(struct cubejobs_regions *thread, struct cubejobs_block *block,
                                       struct cubejobs_block *half);

/* The handle by which the block was taken that begins at a processor. */
static void *takers[1 << CUBEJOBS_REGIONS_MAX_DIM];

answer __wrap_cubejobs_regions_take(struct cubejobs_regions *thread, struct cubejobs_block *block, uint32_t k) {
    answer taken = __real_cubejobs_regions_take(thread, block, k);
    if (taken.code == CUBEJOBS_REGIONS_DONE) takers[taken.base] = thread->at;
    if (WRONG == 1) taken.base = 0;
    return taken;
}

uint32_t __wrap_cubejobs_regions_release(struct cubejobs_regions *thread, struct cubejobs_block *block) {
    answer held = cubejobs_regions_block(block);
    void **taker = &takers[held.base], *own = *taker;
    if (held.code != CUBEJOBS_REGIONS_DONE) return __real_cubejobs_regions_release(thread, block);
    *taker = 0;
    if (WRONG != 2 || !own || own == thread->at) return __real_cubejobs_regions_release(thread, block);
    block->tag = 0;
    return CUBEJOBS_REGIONS_DONE;
}

uint32_t __wrap_cubejobs_regions_free(struct cubejobs_regions *thread) {
    uint32_t code = __real_cubejobs_regions_free(thread);
    return WRONG == 3 && code == CUBEJOBS_REGIONS_STILL_HELD ? CUBEJOBS_REGIONS_DONE : code;
}

uint32_t __wrap_cubejobs_regions_split(struct cubejobs_regions *thread, struct cubejobs_block *block,
                                       struct cubejobs_block *half) {
    uint32_t code = __real_cubejobs_regions_split(thread, block, half);
    if (WRONG == 4 && code == CUBEJOBS_REGIONS_DONE) half->tag = 0;
    return code;
}
