/* A wrong library of first fit: it is linked in front of the right one, with --wrap for the calls that it changes.
 * WRONG says what is wrong:
 *   1  a take gives the second fit, if there is one
 *   2  a release of a part of a block succeeds
 *   3  a split loses the upper half
 *   4, 5  a repair does nothing
 *   6  an attach accepts each image
 *   7  a take does not count a block that it leaves
 *   8  a split writes the block before its halves
 *   9  a join writes the halves before the block */
#include "cubejobs_fit.h"

#define HEAD struct cubejobs_fit_head *head
#define IMAGE HEAD, uint8_t *rooms, size_t count, uint32_t dim
#define SOUND const HEAD, const uint8_t *rooms, size_t count, uint32_t dim
typedef struct cubejobs_fit_answer answer;
typedef enum cubejobs_fit_code code;
answer __real_cubejobs_image_take(IMAGE, uint32_t k);
answer __wrap_cubejobs_image_take(IMAGE, uint32_t k);
code __real_cubejobs_image_release(IMAGE, uint64_t base, uint32_t k);
code __wrap_cubejobs_image_release(IMAGE, uint64_t base, uint32_t k);
code __real_cubejobs_image_split(IMAGE, uint64_t base, uint32_t k);
code __wrap_cubejobs_image_split(IMAGE, uint64_t base, uint32_t k);
code __real_cubejobs_image_join(IMAGE, uint64_t base, uint32_t k);
code __wrap_cubejobs_image_join(IMAGE, uint64_t base, uint32_t k);
code __real_cubejobs_image_repair(IMAGE);
code __wrap_cubejobs_image_repair(IMAGE);
code __real_cubejobs_image_check(SOUND);
code __wrap_cubejobs_image_check(SOUND);

static const volatile int wrong = WRONG;

answer __wrap_cubejobs_image_take(IMAGE, uint32_t k) {
    const answer first = cubejobs_image_first(head, rooms, count, dim, k);
    if (wrong == 1 && first.code == CUBEJOBS_FIT_DONE) {
        const answer second = cubejobs_image_first_apart(head, rooms, count, dim, k, first.base, k);
        if (second.code == CUBEJOBS_FIT_DONE) return cubejobs_image_take_at(head, rooms, count, dim, second.base, k);
    }
    if (wrong == 7 && first.code == CUBEJOBS_FIT_DONE) head->words[2 + k]--;
    return __real_cubejobs_image_take(head, rooms, count, dim, k);
}

code __wrap_cubejobs_image_release(IMAGE, uint64_t base, uint32_t k) {
    const code done = __real_cubejobs_image_release(head, rooms, count, dim, base, k);
    if (wrong != 2 || done != CUBEJOBS_FIT_NOTHING_HELD) return done;
    return cubejobs_image_block_with(head, rooms, count, dim, base).dim > k ? CUBEJOBS_FIT_DONE : done;
}

/* Where a block is in the tree. */
static uint8_t *room(uint8_t *rooms, uint32_t dim, uint64_t base, uint32_t k) {
    return rooms + ((base + (UINT64_C(1) << dim)) >> k);
}

/* Writes a split or a join in a wrong order. */
static void write_both(uint8_t *rooms, uint32_t dim, uint64_t base, uint32_t k, uint8_t first, uint8_t second) {
    volatile uint8_t *const whole = room(rooms, dim, base, k), *const half = room(rooms, dim, base, k - 1);
    if (wrong == 8) *whole = first;
    half[0] = second;
    half[1] = second;
    if (wrong == 9) *whole = first;
}

code __wrap_cubejobs_image_split(IMAGE, uint64_t base, uint32_t k) {
    const answer held = cubejobs_image_block_with(head, rooms, count, dim, base);
    code done;
    if (wrong == 8 && held.code == CUBEJOBS_FIT_DONE && held.dim == k && held.base == base && k) {
        write_both(rooms, dim, base, k, 1, 0);
        return CUBEJOBS_FIT_DONE;
    }
    done = __real_cubejobs_image_split(head, rooms, count, dim, base, k);
    if (wrong == 3 && done == CUBEJOBS_FIT_DONE)
        return __real_cubejobs_image_release(head, rooms, count, dim, base + (UINT64_C(1) << (k - 1)), k - 1);
    return done;
}

code __wrap_cubejobs_image_join(IMAGE, uint64_t base, uint32_t k) {
    if (wrong == 9 && k && k <= dim && !(base >> dim) && !(base & ((1u << k) - 1)) &&
        !room(rooms, dim, base, k - 1)[0] && !room(rooms, dim, base, k - 1)[1]) {
        write_both(rooms, dim, base, k, 0, (uint8_t)(k + 1));
        return CUBEJOBS_FIT_DONE;
    }
    return __real_cubejobs_image_join(head, rooms, count, dim, base, k);
}

code __wrap_cubejobs_image_repair(IMAGE) {
    if ((wrong == 4 || wrong == 5) && head->words[0] == CUBEJOBS_FIT_MARK && head->words[1] == dim)
        return CUBEJOBS_FIT_DONE;
    return __real_cubejobs_image_repair(head, rooms, count, dim);
}

code __wrap_cubejobs_image_check(SOUND) {
    return wrong == 6 ? CUBEJOBS_FIT_DONE : __real_cubejobs_image_check(head, rooms, count, dim);
}
