/* Exact first-fit allocator of aligned blocks in memory of your own, for C and C++.
 *
 * A machine has the processors 0 to 2^dim - 1. A processor is only a number: a CPU, a page, a rank.
 * A block of dimension k is 2^k processors in a row, from a multiple of 2^k on. A take gets the
 * first fit: the free block with the least base. It is refused only if no block of its dimension is
 * free. A release takes back exactly a block that was taken as one. Each call takes a number of
 * steps in proportion to dim; only open, attach and repair look at each processor.
 *
 * Memory. A machine is an image of cubejobs_fit_bytes(dim) bytes, which you give, at a multiple of
 * 8. It has no pointers. So you can copy it, keep it in a file, and map it at different addresses.
 * A struct cubejobs_fit is the view of one process. You may copy it. The library allocates nothing,
 * and there is nothing to close.
 *
 * Nothing checks the caller's duties:
 *
 *   1. Pass non-null pointers to a struct cubejobs_fit. It is all zeros, or open, attach or repair
 *      has set it. (A view of zeros has no memory.)
 *   2. From then on leave the image to these functions, and keep it mapped while calls run.
 *   3. Make one call at a time on one image, from any thread or process: you need a lock.
 *
 * Everything else is checked. A refused call returns a code and changes nothing. Any bytes are
 * safe: a call neither reads nor writes memory outside the image, whatever its bytes are. Its
 * answer is right if the image is sound.
 *
 * Mistakes. A release, a split and a join name their block by its base and dimension. They are
 * refused unless such a block was taken as one. So these mistakes are found: a second release, and
 * a release of a part or of several blocks. One is not found: the image does not say which caller
 * holds a block, so you can release another caller's. A second release is not found either, once
 * the same block was taken again.
 *
 * Processes that end. A process that ends leaves its blocks held. Keep a list of your own in the
 * shared memory, so that another process can release them. cubejobs_fit_block_with returns the
 * block that has a processor. A process that dies inside a call may leave a damaged image, which
 * attach refuses and repair mends. Then the call happened, or it did not. This is not so for a file
 * of which the system has written only some pages.
 *
 * Sort by size, largest first, and nothing fragments. If no take is larger than the one before it,
 * a take is refused only if every processor is held.
 *
 * The format of an image. First there are 24 numbers, in the byte order of the processor (struct
 * cubejobs_fit_head). Number 0 is CUBEJOBS_FIT_MARK, and number 1 the dimension. Numbers 2 to 22
 * count the maximal free blocks of the dimensions 0 to 20. Number 23 is 0. A free block is maximal
 * if the block of the next dimension around it is not free. Then a binary tree has a byte for each
 * node. Node 1 is the machine, and nodes 2v and 2v + 1 are the halves of node v. A byte is 0 if the
 * node was taken as one block, and 1 if no part of it is free. It is k + 2 if the largest free
 * block in the node has dimension k. Below a taken node, bytes are as if all were free. Byte 0 is
 * of no node, and is 0.
 *
 * Link libcubejobs_fit.a of release/linux-x86_64. It needs only the C library. docs/C.md is the
 * guide to the libraries.
 */
#ifndef CUBEJOBS_FIT_H
#define CUBEJOBS_FIT_H

#include <stddef.h>
#include <stdint.h>

#include "cubejobs_codes.h"

/* A byte that is 0 or 1: the language's own type. C89 has no name for it. */
#if defined(__cplusplus)
typedef bool cubejobs_fit_bool;
#elif defined(__STDC_VERSION__) && __STDC_VERSION__ >= 199901L
#include <stdbool.h>
typedef bool cubejobs_fit_bool;
#else
__extension__ typedef _Bool cubejobs_fit_bool;
#endif

#ifdef __cplusplus
extern "C" {
#endif

/* The version of this header, as a text and as a number: 1.2.3 is 10203. The library returns its
 * own by cubejobs_fit_version_number. */
#define CUBEJOBS_VERSION "0.3.0-dev"
#define CUBEJOBS_VERSION_NUMBER 300

/* The largest dimension of a machine. */
#define CUBEJOBS_FIT_MAX_DIM 20

/* The first number of an image: "cjf1" as four bytes, of which the last is the version of the
 * format. */
#define CUBEJOBS_FIT_MARK 0x31666A63u

/* The codes that calls return. If several apply, it is the first of those that the comment of the
 * call lists. */
enum cubejobs_fit_code {
    CUBEJOBS_FIT_DONE = 0,          /* The call succeeded. */
    CUBEJOBS_FIT_NO_ROOM = 1,       /* A part of each block of this dimension is in use. */
    CUBEJOBS_FIT_BAD_DIMENSION = 3, /* The dimension is too large, or the block has no halves. */
    CUBEJOBS_FIT_BAD_BASE = 4,      /* No block of this dimension begins at this processor. */
    CUBEJOBS_FIT_TAKEN = 5,         /* A part of the block is in use. */
    CUBEJOBS_FIT_NOTHING_HELD = 6,  /* No such block is held. */
    CUBEJOBS_FIT_NOT_HALVES = 9,    /* The two halves are not both held as one block each. */
    CUBEJOBS_FIT_BAD_SIZE = 50,     /* The memory is too small, null, or not at a multiple of 8. */
    CUBEJOBS_FIT_BAD_IMAGE = 51     /* The bytes are not a sound image of this dimension. */
};

/* The structs are those of the library only if an enum has 32 bits. */
typedef char cubejobs_fit_code_has_32_bits[sizeof(enum cubejobs_fit_code) == 4 ? 1 : -1];

/* The numbers with which an image begins. Only the library reads or writes them. */
struct cubejobs_fit_head {
    uint32_t words[24];
};

/* A view of an image. Only the functions below write to it. */
struct cubejobs_fit {
    void *memory;
    uint32_t dim;
};

/* The result of a call about a block. If the code is CUBEJOBS_FIT_DONE, the block is the 2^dim
 * processors from base on. Otherwise base and dim are 0. */
struct cubejobs_fit_answer {
    enum cubejobs_fit_code code;
    uint32_t dim;
    uint64_t base;
};

/* What is free in a machine. All is 0 unless the code is CUBEJOBS_FIT_DONE.
 *   - largest: the largest dimension of a free block, if has_free;
 *   - held: the number of processors in held blocks;
 *   - free: the number of free blocks of each dimension, at the dimension. */
struct cubejobs_fit_occupancy_answer {
    enum cubejobs_fit_code code;
    uint32_t largest;
    cubejobs_fit_bool has_free;
    uint64_t held;
    uint64_t free[CUBEJOBS_FIT_MAX_DIM + 1];
};

/* Returns how many bytes the image of a machine has: 96 + 2^(dim + 1), or 0 if `dim` is above
 * CUBEJOBS_FIT_MAX_DIM. */
uint64_t cubejobs_fit_bytes(uint32_t dim);

/* Returns the version of the library: CUBEJOBS_VERSION_NUMBER of the header that it came with. */
uint32_t cubejobs_fit_version_number(void);

/* The inline calls below pass the image to these functions: its head, the `count` bytes from its
 * tree on, and the dimension. These are proved, and the inline calls are tested. Each returns what
 * its inline call returns. But first it returns CUBEJOBS_FIT_BAD_DIMENSION if `dim` is above
 * CUBEJOBS_FIT_MAX_DIM, and then CUBEJOBS_FIT_BAD_SIZE if `count` is not 2^(dim + 1). A question
 * that has no code returns 0 instead. Never pass null. */
CUBEJOBS_NODISCARD enum cubejobs_fit_code cubejobs_image_open(struct cubejobs_fit_head *head, uint8_t *rooms,
                                                              size_t count, uint32_t dim);
CUBEJOBS_NODISCARD enum cubejobs_fit_code cubejobs_image_check(const struct cubejobs_fit_head *head,
                                                               const uint8_t *rooms, size_t count, uint32_t dim);
CUBEJOBS_NODISCARD enum cubejobs_fit_code cubejobs_image_repair(struct cubejobs_fit_head *head, uint8_t *rooms,
                                                                size_t count, uint32_t dim);
CUBEJOBS_NODISCARD struct cubejobs_fit_answer cubejobs_image_take(struct cubejobs_fit_head *head, uint8_t *rooms,
                                                                  size_t count, uint32_t dim, uint32_t k);
CUBEJOBS_NODISCARD struct cubejobs_fit_answer cubejobs_image_take_at(struct cubejobs_fit_head *head, uint8_t *rooms,
                                                                     size_t count, uint32_t dim, uint64_t base,
                                                                     uint32_t k);
enum cubejobs_fit_code cubejobs_image_release(struct cubejobs_fit_head *head, uint8_t *rooms, size_t count,
                                              uint32_t dim, uint64_t base, uint32_t k);
CUBEJOBS_NODISCARD enum cubejobs_fit_code cubejobs_image_split(struct cubejobs_fit_head *head, uint8_t *rooms,
                                                               size_t count, uint32_t dim, uint64_t base, uint32_t k);
CUBEJOBS_NODISCARD enum cubejobs_fit_code cubejobs_image_join(struct cubejobs_fit_head *head, uint8_t *rooms,
                                                              size_t count, uint32_t dim, uint64_t base, uint32_t k);
struct cubejobs_fit_answer cubejobs_image_first(const struct cubejobs_fit_head *head, const uint8_t *rooms,
                                                size_t count, uint32_t dim, uint32_t k);
struct cubejobs_fit_answer cubejobs_image_first_apart(const struct cubejobs_fit_head *head, const uint8_t *rooms,
                                                      size_t count, uint32_t dim, uint32_t k, uint64_t base,
                                                      uint32_t avoid);
struct cubejobs_fit_answer cubejobs_image_block_with(const struct cubejobs_fit_head *head, const uint8_t *rooms,
                                                     size_t count, uint32_t dim, uint64_t processor);
cubejobs_fit_bool cubejobs_image_is_free(const struct cubejobs_fit_head *head, const uint8_t *rooms, size_t count,
                                         uint32_t dim, uint64_t base, uint32_t k);
struct cubejobs_fit_answer cubejobs_image_largest(const struct cubejobs_fit_head *head, const uint8_t *rooms,
                                                  size_t count, uint32_t dim);
uint64_t cubejobs_image_free_blocks(const struct cubejobs_fit_head *head, const uint8_t *rooms, size_t count,
                                    uint32_t dim, uint32_t k);
struct cubejobs_fit_occupancy_answer cubejobs_image_occupancy(const struct cubejobs_fit_head *head,
                                                              const uint8_t *rooms, size_t count, uint32_t dim);

/* Returns the head of an image. The two functions after it return its tree, and how many bytes the
 * tree has: 0 if no machine has this dimension. */
CUBEJOBS_INLINE struct cubejobs_fit_head *cubejobs_fit_head_of(void *memory) {
    return CUBEJOBS_AS(struct cubejobs_fit_head *, memory);
}
CUBEJOBS_INLINE uint8_t *cubejobs_fit_rooms_of(void *memory) {
    return CUBEJOBS_AS(uint8_t *, memory) + sizeof(struct cubejobs_fit_head);
}
CUBEJOBS_INLINE size_t cubejobs_fit_count_of(uint32_t dim) {
    return dim > CUBEJOBS_FIT_MAX_DIM ? 0 : CUBEJOBS_AS(size_t, 2) << dim;
}

/* Returns why memory has no place for an image, or CUBEJOBS_FIT_DONE. */
CUBEJOBS_INLINE enum cubejobs_fit_code cubejobs_fit_place(const void *memory, size_t size, uint32_t dim) {
    if (dim > CUBEJOBS_FIT_MAX_DIM) return CUBEJOBS_FIT_BAD_DIMENSION;
    if (!memory || CUBEJOBS_CAST(uintptr_t, memory) % 8) return CUBEJOBS_FIT_BAD_SIZE;
    return size < cubejobs_fit_bytes(dim) ? CUBEJOBS_FIT_BAD_SIZE : CUBEJOBS_FIT_DONE;
}

/* Sets a view, if a call over its memory succeeded. Returns the code of the call. */
CUBEJOBS_INLINE enum cubejobs_fit_code cubejobs_fit_set(struct cubejobs_fit *fit, void *memory, uint32_t dim,
                                                        enum cubejobs_fit_code code) {
    if (code == CUBEJOBS_FIT_DONE) {
        fit->memory = memory;
        fit->dim = dim;
    }
    return code;
}

/* Returns the answer of a view that has no memory. */
CUBEJOBS_INLINE struct cubejobs_fit_answer cubejobs_fit_no_memory(void) {
    struct cubejobs_fit_answer none = {CUBEJOBS_FIT_BAD_SIZE, 0, 0};
    return none;
}

/* Below, each comment lists the codes of its call without CUBEJOBS_FIT_, in the order in which the
 * call checks them. BAD_SIZE means that the view has no memory. BAD_DIMENSION means that a
 * dimension is above that of the machine. */

/* Makes the `size` bytes at `memory` a machine of dimension `dim` in which nothing is held,
 * whatever they were before. Writes to no byte after the image. Codes: BAD_DIMENSION (above
 * CUBEJOBS_FIT_MAX_DIM), BAD_SIZE (below cubejobs_fit_bytes(dim), null, or not at a multiple of 8),
 * DONE. */
CUBEJOBS_NODISCARD CUBEJOBS_INLINE enum cubejobs_fit_code cubejobs_fit_open(struct cubejobs_fit *fit, void *memory,
                                                                            size_t size, uint32_t dim) {
    enum cubejobs_fit_code code = cubejobs_fit_place(memory, size, dim);
    if (code == CUBEJOBS_FIT_DONE)
        code = cubejobs_image_open(cubejobs_fit_head_of(memory), cubejobs_fit_rooms_of(memory),
                                   cubejobs_fit_count_of(dim), dim);
    return cubejobs_fit_set(fit, memory, dim, code);
}

/* Uses the `size` bytes at `memory` as a machine of dimension `dim` that was opened before, in
 * another process or in a file. Changes none of them, and refuses each image that is not sound.
 * Codes: those of cubejobs_fit_open, and before DONE BAD_IMAGE. */
CUBEJOBS_NODISCARD CUBEJOBS_INLINE enum cubejobs_fit_code cubejobs_fit_attach(struct cubejobs_fit *fit, void *memory,
                                                                              size_t size, uint32_t dim) {
    enum cubejobs_fit_code code = cubejobs_fit_place(memory, size, dim);
    if (code == CUBEJOBS_FIT_DONE)
        code = cubejobs_image_check(cubejobs_fit_head_of(memory), cubejobs_fit_rooms_of(memory),
                                    cubejobs_fit_count_of(dim), dim);
    return cubejobs_fit_set(fit, memory, dim, code);
}

/* Uses the `size` bytes at `memory` as cubejobs_fit_attach does, after a process died inside a
 * call. First it makes them the sound image of the blocks that are taken. The call happened, or it
 * did not. A sound image stays as it is. Let no other call run meanwhile. If a repair is
 * interrupted, make another one. Codes: those of cubejobs_fit_open, and before DONE BAD_IMAGE (the
 * mark or the dimension is another one, or a cubejobs_fit_open has not ended). */
CUBEJOBS_NODISCARD CUBEJOBS_INLINE enum cubejobs_fit_code cubejobs_fit_repair(struct cubejobs_fit *fit, void *memory,
                                                                              size_t size, uint32_t dim) {
    enum cubejobs_fit_code code = cubejobs_fit_place(memory, size, dim);
    if (code == CUBEJOBS_FIT_DONE)
        code = cubejobs_image_repair(cubejobs_fit_head_of(memory), cubejobs_fit_rooms_of(memory),
                                     cubejobs_fit_count_of(dim), dim);
    return cubejobs_fit_set(fit, memory, dim, code);
}

/* Takes the first fit of dimension `k` and returns it: the free block with the least base. Codes:
 * BAD_SIZE, BAD_DIMENSION, NO_ROOM, DONE. */
CUBEJOBS_NODISCARD CUBEJOBS_INLINE struct cubejobs_fit_answer cubejobs_fit_take(struct cubejobs_fit *fit, uint32_t k) {
    if (!fit->memory) return cubejobs_fit_no_memory();
    return cubejobs_image_take(cubejobs_fit_head_of(fit->memory), cubejobs_fit_rooms_of(fit->memory),
                               cubejobs_fit_count_of(fit->dim), fit->dim, k);
}

/* Takes the block of dimension `k` that begins at the processor `base`. Codes: BAD_SIZE,
 * BAD_DIMENSION, BAD_BASE, TAKEN, DONE. */
CUBEJOBS_NODISCARD CUBEJOBS_INLINE struct cubejobs_fit_answer cubejobs_fit_take_at(struct cubejobs_fit *fit,
                                                                                   uint64_t base, uint32_t k) {
    if (!fit->memory) return cubejobs_fit_no_memory();
    return cubejobs_image_take_at(cubejobs_fit_head_of(fit->memory), cubejobs_fit_rooms_of(fit->memory),
                                  cubejobs_fit_count_of(fit->dim), fit->dim, base, k);
}

/* Releases the block of dimension `k` that begins at the processor `base`. Codes: BAD_SIZE,
 * BAD_DIMENSION, BAD_BASE, NOTHING_HELD, DONE. */
CUBEJOBS_INLINE enum cubejobs_fit_code cubejobs_fit_release(struct cubejobs_fit *fit, uint64_t base, uint32_t k) {
    if (!fit->memory) return CUBEJOBS_FIT_BAD_SIZE;
    return cubejobs_image_release(cubejobs_fit_head_of(fit->memory), cubejobs_fit_rooms_of(fit->memory),
                                  cubejobs_fit_count_of(fit->dim), fit->dim, base, k);
}

/* Splits the held block of dimension `k` that begins at the processor `base`. Then its halves are
 * held as one block each. Codes: BAD_SIZE, BAD_DIMENSION (also if `k` is 0), BAD_BASE,
 * NOTHING_HELD, DONE. */
CUBEJOBS_NODISCARD CUBEJOBS_INLINE enum cubejobs_fit_code cubejobs_fit_split(struct cubejobs_fit *fit, uint64_t base,
                                                                             uint32_t k) {
    if (!fit->memory) return CUBEJOBS_FIT_BAD_SIZE;
    return cubejobs_image_split(cubejobs_fit_head_of(fit->memory), cubejobs_fit_rooms_of(fit->memory),
                                cubejobs_fit_count_of(fit->dim), fit->dim, base, k);
}

/* Joins the two halves of the block of dimension `k` that begins at the processor `base`. Then the
 * whole is held as one block. Codes: BAD_SIZE, BAD_DIMENSION (also if `k` is 0), BAD_BASE,
 * NOT_HALVES, DONE. */
CUBEJOBS_NODISCARD CUBEJOBS_INLINE enum cubejobs_fit_code cubejobs_fit_join(struct cubejobs_fit *fit, uint64_t base,
                                                                            uint32_t k) {
    if (!fit->memory) return CUBEJOBS_FIT_BAD_SIZE;
    return cubejobs_image_join(cubejobs_fit_head_of(fit->memory), cubejobs_fit_rooms_of(fit->memory),
                               cubejobs_fit_count_of(fit->dim), fit->dim, base, k);
}

/* Returns the block that a take of dimension `k` would get. Takes nothing. Codes: BAD_SIZE,
 * BAD_DIMENSION, NO_ROOM, DONE. */
CUBEJOBS_INLINE struct cubejobs_fit_answer cubejobs_fit_first(const struct cubejobs_fit *fit, uint32_t k) {
    if (!fit->memory) return cubejobs_fit_no_memory();
    return cubejobs_image_first(cubejobs_fit_head_of(fit->memory), cubejobs_fit_rooms_of(fit->memory),
                                cubejobs_fit_count_of(fit->dim), fit->dim, k);
}

/* Returns the free block of dimension `k` with the least base among those without a processor of
 * another block. That one has dimension `avoid` and begins at the processor `base`; it may be free
 * or held. Takes nothing: a scheduler that keeps the block for a large job can take this one for a
 * small job. Codes: BAD_SIZE, BAD_DIMENSION (`k` or `avoid`), BAD_BASE, NO_ROOM, DONE. */
CUBEJOBS_INLINE struct cubejobs_fit_answer cubejobs_fit_first_apart(const struct cubejobs_fit *fit, uint32_t k,
                                                                    uint64_t base, uint32_t avoid) {
    if (!fit->memory) return cubejobs_fit_no_memory();
    return cubejobs_image_first_apart(cubejobs_fit_head_of(fit->memory), cubejobs_fit_rooms_of(fit->memory),
                                      cubejobs_fit_count_of(fit->dim), fit->dim, k, base, avoid);
}

/* Returns the held block that has a processor. Codes: BAD_SIZE, BAD_BASE (no such processor),
 * NOTHING_HELD (it is free), DONE. */
CUBEJOBS_INLINE struct cubejobs_fit_answer cubejobs_fit_block_with(const struct cubejobs_fit *fit,
                                                                   uint64_t processor) {
    if (!fit->memory) return cubejobs_fit_no_memory();
    return cubejobs_image_block_with(cubejobs_fit_head_of(fit->memory), cubejobs_fit_rooms_of(fit->memory),
                                     cubejobs_fit_count_of(fit->dim), fit->dim, processor);
}

/* Returns whether a block of dimension `k` begins at the processor `base`, and all of it is
 * free. */
CUBEJOBS_INLINE cubejobs_fit_bool cubejobs_fit_is_free(const struct cubejobs_fit *fit, uint64_t base, uint32_t k) {
    if (!fit->memory) return 0;
    return cubejobs_image_is_free(cubejobs_fit_head_of(fit->memory), cubejobs_fit_rooms_of(fit->memory),
                                  cubejobs_fit_count_of(fit->dim), fit->dim, base, k);
}

/* Returns the free block of the largest dimension that has one, and of these the one with the least
 * base. Takes nothing. Codes: BAD_SIZE, NO_ROOM (each processor is held), DONE. */
CUBEJOBS_INLINE struct cubejobs_fit_answer cubejobs_fit_largest(const struct cubejobs_fit *fit) {
    if (!fit->memory) return cubejobs_fit_no_memory();
    return cubejobs_image_largest(cubejobs_fit_head_of(fit->memory), cubejobs_fit_rooms_of(fit->memory),
                                  cubejobs_fit_count_of(fit->dim), fit->dim);
}

/* Returns how many blocks of dimension `k` are free: 0 if `k` is above the machine's dimension. */
CUBEJOBS_INLINE uint64_t cubejobs_fit_free_blocks(const struct cubejobs_fit *fit, uint32_t k) {
    if (!fit->memory) return 0;
    return cubejobs_image_free_blocks(cubejobs_fit_head_of(fit->memory), cubejobs_fit_rooms_of(fit->memory),
                                      cubejobs_fit_count_of(fit->dim), fit->dim, k);
}

/* Counts what is free and what is held. Codes: BAD_SIZE, DONE. */
CUBEJOBS_INLINE struct cubejobs_fit_occupancy_answer cubejobs_fit_occupancy(const struct cubejobs_fit *fit) {
    struct cubejobs_fit_occupancy_answer none = {CUBEJOBS_FIT_BAD_SIZE, 0, 0, 0, {0}};
    if (!fit->memory) return none;
    return cubejobs_image_occupancy(cubejobs_fit_head_of(fit->memory), cubejobs_fit_rooms_of(fit->memory),
                                    cubejobs_fit_count_of(fit->dim), fit->dim);
}

#ifdef __cplusplus
}
#endif

#endif
