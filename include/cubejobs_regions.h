/* Lock-free allocator of aligned blocks (regions), for C and C++ programs with threads.
 *
 * A machine has the processors 0 to 2^dim - 1. A processor is only a number: a CPU, a page, a rank.
 * A block of dimension k is 2^k processors in a row, from a multiple of 2^k on. Any number of
 * blocks may be held at once. Blocks that are held at the same time never overlap. This is proved
 * for every interleaving of the calls.
 *
 * Each thread has a handle of the machine (struct cubejobs_regions), and each block one of its own
 * (struct cubejobs_block). Any thread releases any block, through its own handle of the machine.
 * Take and release use no lock and wait for no other thread.
 *
 * Memory. A handle is 16 bytes in your memory. Only cubejobs_regions_open and
 * cubejobs_regions_share take memory, by malloc. A machine takes at most 3/4 byte for each
 * processor and 2 KB more. Each further handle takes at most 512 bytes. A free gives it back.
 *
 * When to try again. cubejobs_wait.h has a take that sleeps until it succeeds. It says which calls
 * are an event for such a take.
 *
 * Linking. Link libcubejobs_regions.a of release/linux-x86_64. It needs only the C library, and
 * runs on any x86-64. docs/C.md is the guide to the libraries.
 *
 * Proof. The functions are proved to do what this header says. Some of it is only tested: when
 * memory is taken and freed, and that OUT_OF_MEMORY means so. So is it that the last of several
 * frees sees each held block. No theorem is about the inline functions, or says that take and
 * release order plain memory that a block guards. docs/STATUS.md has the list.
 *
 * Nothing checks the caller's duties:
 *
 *   1. Pass pointers to whole handles, never null, and different ones in one call.
 *   2. Zero a handle before its first use, then leave it to these functions; you may move it, and
 *      never pass the copy left behind.
 *   3. Make one call at a time with a handle; pass it to another thread by a lock, a start or join,
 *      or a SeqCst atomic.
 *   4. Make no call from a signal handler, or in the child of a fork of a process with threads.
 *   5. Let malloc and free belong to one allocator.
 *
 * Everything else is checked. A refused call returns a code and changes nothing that you can see.
 *
 * OTHER_MACHINE compares numbers of machines. A shared object may have a counter of its own
 * (cubejobs_regions_machines), so its address is a part of each number.
 *
 * Checks. Compile the whole program with CUBEJOBS_CHECK, and cubejobs_check.c with it. Then calls
 * find two more mistakes, and return STALE. The first is a copy of a block's handle, once the block
 * was released, split or joined. The second is a copy of a machine's handle, once that was shut. It
 * costs a lock in each call, 24 bytes for a handle, and some 100 bytes for a held block. A call may
 * return OUT_OF_MEMORY too. A program does not link, or stops at its start, if only parts of it
 * have CUBEJOBS_CHECK.
 */
#ifndef CUBEJOBS_REGIONS_H
#define CUBEJOBS_REGIONS_H

#include <stdint.h>

#include "cubejobs_codes.h"

/* A byte that is 0 or 1: the language's own type. C89 has no name for it. */
#if defined(__cplusplus)
typedef bool cubejobs_regions_bool;
#elif defined(__STDC_VERSION__) && __STDC_VERSION__ >= 199901L
#include <stdbool.h>
typedef bool cubejobs_regions_bool;
#else
__extension__ typedef _Bool cubejobs_regions_bool;
#endif

#ifdef __cplusplus
extern "C" {
#endif

/* The version of this header, as a text and as a number: 1.2.3 is 10203. The library returns its
 * own by cubejobs_regions_version_number. */
#define CUBEJOBS_VERSION "0.3.0-dev"
#define CUBEJOBS_VERSION_NUMBER 300

/* The largest dimension of a machine. */
#define CUBEJOBS_REGIONS_MAX_DIM 20

/* The version of this header. A library of another version refuses to open a machine. */
#define CUBEJOBS_REGIONS_VERSION 3

/* The codes that calls return. If several apply, it is the first of those that the comment of the
 * call lists. */
enum cubejobs_regions_code {
    CUBEJOBS_REGIONS_DONE = 0,           /* The call succeeded. */
    CUBEJOBS_REGIONS_NO_ROOM = 1,        /* A part of each block of this dimension was in use. */
    CUBEJOBS_REGIONS_NOT_NOW = 2,        /* No block was found, and one may be free. */
    CUBEJOBS_REGIONS_BAD_DIMENSION = 3,  /* The dimension is above that of the machine. */
    CUBEJOBS_REGIONS_BAD_BASE = 4,       /* No block of this dimension begins at this processor. */
    CUBEJOBS_REGIONS_TAKEN = 5,          /* A part of the block was in use. */
    CUBEJOBS_REGIONS_NOTHING_HELD = 6,   /* The handle of the block holds nothing. */
    CUBEJOBS_REGIONS_HOLDS_ALREADY = 7,  /* The handle that is to be filled holds a block. */
    CUBEJOBS_REGIONS_OTHER_MACHINE = 8,  /* The block is of another machine. */
    CUBEJOBS_REGIONS_NOT_HALVES = 9,     /* The two are not the two halves of a block. */
    CUBEJOBS_REGIONS_STILL_HELD = 10,    /* A block is held, and this is the last handle. */
    CUBEJOBS_REGIONS_OUT_OF_MEMORY = 11, /* Memory ran out. */
    CUBEJOBS_REGIONS_NOT_OPEN = 12,      /* The handle of the machine is shut. */
    CUBEJOBS_REGIONS_OTHER_KIND = 13,    /* The handle is of another kind. */
    CUBEJOBS_REGIONS_ALREADY_OPEN = 14,  /* The handle that is to be opened is open. */
    CUBEJOBS_REGIONS_BAD_VERSION = 15,   /* This header is not of the library's version. */
    CUBEJOBS_REGIONS_TIMED_OUT = 61,     /* The deadline passed. Only calls of cubejobs_wait.h. */
    CUBEJOBS_REGIONS_STOPPED = 62,       /* The event was stopped. Only calls of cubejobs_wait.h. */
    CUBEJOBS_REGIONS_STALE = 63          /* The handle is an old copy. Only with CUBEJOBS_CHECK. */
};

/* The handle of a machine for one thread, and that of a block. Only the library reads or writes
 * them. */
struct cubejobs_regions {
    uint64_t tag;
    void *at;
#ifdef CUBEJOBS_CHECK
    uint64_t generation;
#endif
};
struct cubejobs_block {
    uint64_t tag;
    uint64_t machine;
#ifdef CUBEJOBS_CHECK
    uint64_t generation;
#endif
};

/* The result of a call about a block. If the code is CUBEJOBS_REGIONS_DONE, the block is the 2^dim
 * processors from base on. Otherwise base and dim are 0. cubejobs_regions_code_of returns the code
 * as its type. If an exact take or a take of one block returns CUBEJOBS_REGIONS_NOT_NOW, contended
 * is 1: it gave up a word after lost exchanges. Otherwise contended is 0. */
struct cubejobs_regions_answer {
    uint16_t code;
    uint16_t dim;
    uint32_t contended;
    uint64_t base;
};

/* What is free in a machine. All is 0 unless the code is CUBEJOBS_REGIONS_DONE.
 *   - largest: the largest dimension of a free block, if has_free;
 *   - held: the number of processors in held blocks;
 *   - free: the number of free blocks of each dimension, at the dimension. */
struct cubejobs_regions_occupancy_answer {
    enum cubejobs_regions_code code;
    uint32_t largest;
    cubejobs_regions_bool has_free;
    uint64_t held;
    uint64_t free[CUBEJOBS_REGIONS_MAX_DIM + 1];
};

/* The structs are those of the library only if an enum has 32 bits. */
typedef char cubejobs_regions_code_has_32_bits[sizeof(enum cubejobs_regions_code) == 4 ? 1 : -1];

/* Returns the code of an answer as its type, so that a compiler sees which cases a switch has. */
CUBEJOBS_INLINE enum cubejobs_regions_code cubejobs_regions_code_of(struct cubejobs_regions_answer answer) {
    return CUBEJOBS_AS(enum cubejobs_regions_code, answer.code);
}

/* Below, each comment lists the codes of its call without CUBEJOBS_REGIONS_, in the order in which
 * the call checks them. */

/* Does what cubejobs_regions_open does, which calls it with the version of this header and with a
 * number that no other machine of the program has. OTHER_MACHINE goes by this number. */
CUBEJOBS_NODISCARD enum cubejobs_regions_code cubejobs_regions_open_version(struct cubejobs_regions *thread,
                                                                            uint32_t version, uint32_t dim,
                                                                            uint64_t number);

/* The number of machines that were opened, the same in all files of a program. A shared object may
 * have one of its own. */
#ifdef CUBEJOBS_CHECK
#define cubejobs_regions_machines cubejobs_regions_machines_checked
extern uint64_t cubejobs_regions_machines;
#else
extern uint64_t cubejobs_regions_machines;
__attribute__((weak)) uint64_t cubejobs_regions_machines;
#endif

/* Opens a machine of dimension `dim`, in which nothing is held, and its first handle. Codes:
 * BAD_VERSION, ALREADY_OPEN, OTHER_KIND (it holds a block), BAD_DIMENSION, OUT_OF_MEMORY, DONE. */
CUBEJOBS_NODISCARD CUBEJOBS_INLINE enum cubejobs_regions_code cubejobs_regions_open(struct cubejobs_regions *thread,
                                                                                    uint32_t dim);

/* Opens one more handle of the machine, for another thread. There may be any number of them. Codes:
 * ALREADY_OPEN (the other), OTHER_KIND (the other holds a block), NOT_OPEN, OUT_OF_MEMORY, DONE. */
CUBEJOBS_NODISCARD enum cubejobs_regions_code cubejobs_regions_share(struct cubejobs_regions *thread,
                                                                     struct cubejobs_regions *other);

/* Takes a block of dimension `k`: the quick way, by hints about full words. Codes: NOT_OPEN,
 * OTHER_KIND (a handle of a machine instead of a block's), HOLDS_ALREADY, BAD_DIMENSION, NOT_NOW,
 * DONE. */
CUBEJOBS_NODISCARD struct cubejobs_regions_answer cubejobs_regions_take(struct cubejobs_regions *thread,
                                                                        struct cubejobs_block *block, uint32_t k);

/* Takes a block of dimension `k`, and looks at each word before it refuses. With NO_ROOM this call
 * saw a part of each block of the dimension in use. If no other call ran meanwhile, none is free.
 * Codes: NOT_OPEN, OTHER_KIND, HOLDS_ALREADY, BAD_DIMENSION, NO_ROOM, NOT_NOW, DONE. */
CUBEJOBS_NODISCARD struct cubejobs_regions_answer cubejobs_regions_take_exact(struct cubejobs_regions *thread,
                                                                              struct cubejobs_block *block, uint32_t k);

/* Takes the block of dimension `k` that begins at the processor `base`. With TAKEN this call saw a
 * part of it in use. Codes: NOT_OPEN, OTHER_KIND, HOLDS_ALREADY, BAD_DIMENSION, BAD_BASE, TAKEN,
 * NOT_NOW, DONE. */
CUBEJOBS_NODISCARD struct cubejobs_regions_answer cubejobs_regions_take_at(struct cubejobs_regions *thread,
                                                                           struct cubejobs_block *block, uint64_t base,
                                                                           uint32_t k);

/* Splits a block: it keeps its lower half, and `half` gets the upper one. Codes: NOT_OPEN,
 * OTHER_KIND (the half), HOLDS_ALREADY (the half), NOTHING_HELD, OTHER_MACHINE, BAD_DIMENSION (one
 * processor), DONE. */
CUBEJOBS_NODISCARD enum cubejobs_regions_code cubejobs_regions_split(struct cubejobs_regions *thread,
                                                                     struct cubejobs_block *block,
                                                                     struct cubejobs_block *half);

/* Joins two halves: `block`, which has the lower half, gets the whole, and `half`, which has the
 * upper one, nothing. Codes: NOT_OPEN, NOTHING_HELD (the block), OTHER_MACHINE (the block),
 * NOTHING_HELD (the half), OTHER_MACHINE (the half), NOT_HALVES, DONE. */
CUBEJOBS_NODISCARD enum cubejobs_regions_code cubejobs_regions_join(struct cubejobs_regions *thread,
                                                                    struct cubejobs_block *block,
                                                                    struct cubejobs_block *half);

/* Releases a block, whichever thread has taken it. Then its handle holds nothing. This call may
 * write to the handle after others can take the block. So move a handle first out of memory that
 * the block guards. Codes: NOT_OPEN, NOTHING_HELD, OTHER_MACHINE, DONE. */
enum cubejobs_regions_code cubejobs_regions_release(struct cubejobs_regions *thread, struct cubejobs_block *block);

/* Returns the block that a handle holds. Codes: NOTHING_HELD, DONE. */
struct cubejobs_regions_answer cubejobs_regions_block(const struct cubejobs_block *block);

/* Counts what is free and what is held. Reads each word once, at some moment of the call, and
 * counts exactly what it read. So the counts are those of the machine if no other call runs
 * meanwhile. Codes: NOT_OPEN, DONE. */
struct cubejobs_regions_occupancy_answer cubejobs_regions_occupancy(struct cubejobs_regions *thread);

/* Shuts a handle. The last one frees the machine, if nothing is held. Codes: NOT_OPEN, STILL_HELD,
 * DONE. */
enum cubejobs_regions_code cubejobs_regions_free(struct cubejobs_regions *thread);

/* Returns the version of the library: CUBEJOBS_VERSION_NUMBER of the header that it came with. */
uint32_t cubejobs_regions_version_number(void);

/* Two files of which one alone has CUBEJOBS_CHECK do not link. For a linker refuses a name that is
 * local to threads in one of them. LLD may not. Then the program stops at its start. */
#ifndef CUBEJOBS_CHECK
extern char cubejobs_is_checked;
__attribute__((weak)) char cubejobs_is_checked;
#else
extern __thread char cubejobs_is_checked;
__attribute__((weak)) __thread char cubejobs_is_checked;

/* These are the calls above, with a check of the copies of handles. cubejobs_check.c has them. */
enum cubejobs_regions_code cubejobs_regions_open_version_checked(struct cubejobs_regions *thread, uint32_t version,
                                                                 uint32_t dim, uint64_t number);
enum cubejobs_regions_code cubejobs_regions_share_checked(struct cubejobs_regions *thread,
                                                          struct cubejobs_regions *other);
struct cubejobs_regions_answer cubejobs_regions_take_checked(struct cubejobs_regions *thread,
                                                             struct cubejobs_block *block, uint32_t k);
struct cubejobs_regions_answer cubejobs_regions_take_exact_checked(struct cubejobs_regions *thread,
                                                                   struct cubejobs_block *block, uint32_t k);
struct cubejobs_regions_answer cubejobs_regions_take_at_checked(struct cubejobs_regions *thread,
                                                                struct cubejobs_block *block, uint64_t base,
                                                                uint32_t k);
enum cubejobs_regions_code cubejobs_regions_split_checked(struct cubejobs_regions *thread, struct cubejobs_block *block,
                                                          struct cubejobs_block *half);
enum cubejobs_regions_code cubejobs_regions_join_checked(struct cubejobs_regions *thread, struct cubejobs_block *block,
                                                         struct cubejobs_block *half);
enum cubejobs_regions_code cubejobs_regions_release_checked(struct cubejobs_regions *thread,
                                                            struct cubejobs_block *block);
struct cubejobs_regions_answer cubejobs_regions_block_checked(const struct cubejobs_block *block);
struct cubejobs_regions_occupancy_answer cubejobs_regions_occupancy_checked(struct cubejobs_regions *thread);
enum cubejobs_regions_code cubejobs_regions_free_checked(struct cubejobs_regions *thread);
#ifndef CUBEJOBS_CHECK_INSIDE
#define cubejobs_regions_open_version cubejobs_regions_open_version_checked
#define cubejobs_regions_share cubejobs_regions_share_checked
#define cubejobs_regions_take cubejobs_regions_take_checked
#define cubejobs_regions_take_exact cubejobs_regions_take_exact_checked
#define cubejobs_regions_take_at cubejobs_regions_take_at_checked
#define cubejobs_regions_split cubejobs_regions_split_checked
#define cubejobs_regions_join cubejobs_regions_join_checked
#define cubejobs_regions_release cubejobs_regions_release_checked
#define cubejobs_regions_block cubejobs_regions_block_checked
#define cubejobs_regions_occupancy cubejobs_regions_occupancy_checked
#define cubejobs_regions_free cubejobs_regions_free_checked
#endif
#endif

/* The library is not compiled for a sanitizer, so this part informs three of them. ThreadSanitizer
 * and, if CUBEJOBS_HELGRIND is defined, Helgrind do not see the library's atomics. Here a take
 * acquires what was released of its block. ThreadSanitizer also sees each call write to its
 * handles, so it reports two threads that use one. MemorySanitizer does not see what the library
 * writes. Here each result is initialised. Without these three this part is empty. */
#if defined(__SANITIZE_THREAD__)
#define CUBEJOBS_REGIONS_TSAN 1
#elif defined(__has_feature)
#if __has_feature(thread_sanitizer)
#define CUBEJOBS_REGIONS_TSAN 1
#endif
#if __has_feature(memory_sanitizer)
#define CUBEJOBS_REGIONS_WRITES 1
#endif
#endif
#if defined(CUBEJOBS_REGIONS_TSAN)
void __tsan_acquire(void *address);
void __tsan_release(void *address);
void __tsan_read_range(void *address, long size);
void __tsan_write_range(void *address, long size);
#define CUBEJOBS_REGIONS_ACQUIRE(address) __tsan_acquire(address)
#define CUBEJOBS_REGIONS_RELEASE(address) __tsan_release(address)
#define CUBEJOBS_REGIONS_USE(handle) __tsan_write_range(handle, CUBEJOBS_AS(long, sizeof *(handle)))
#define CUBEJOBS_REGIONS_READ(handle) __tsan_read_range(handle, CUBEJOBS_AS(long, sizeof *(handle)))
#elif defined(CUBEJOBS_HELGRIND)
#include <valgrind/helgrind.h>
#define CUBEJOBS_REGIONS_ACQUIRE(address) ANNOTATE_HAPPENS_AFTER(address)
#define CUBEJOBS_REGIONS_RELEASE(address) ANNOTATE_HAPPENS_BEFORE(address)
#define CUBEJOBS_REGIONS_USE(handle) ((void)(handle))
#define CUBEJOBS_REGIONS_READ(handle) ((void)(handle))
#endif
#ifdef CUBEJOBS_REGIONS_ACQUIRE
/* Two bytes for each node, the same in all files of a program. Node 1 is the largest machine, and
 * nodes 2v and 2v + 1 are the halves of node v. A release of a block releases the first byte of its
 * node, and the second of each node above. A take acquires the second byte of its node, and the
 * first of it and of each node above. So it is ordered after each release of a block that overlaps
 * its own, and after no other. The first byte of node 0 orders the frees. */
extern char cubejobs_regions_order[4 << CUBEJOBS_REGIONS_MAX_DIM];
__attribute__((weak)) char cubejobs_regions_order[4 << CUBEJOBS_REGIONS_MAX_DIM];

CUBEJOBS_INLINE uint64_t cubejobs_regions_node(struct cubejobs_regions_answer held) {
    return (UINT64_C(1) << (CUBEJOBS_REGIONS_MAX_DIM - held.dim)) + (held.base >> held.dim);
}

CUBEJOBS_INLINE struct cubejobs_regions_answer cubejobs_regions_acquired(struct cubejobs_regions_answer answer) {
    uint64_t node = answer.code == CUBEJOBS_REGIONS_DONE ? cubejobs_regions_node(answer) : 0;
    if (node) CUBEJOBS_REGIONS_ACQUIRE(&cubejobs_regions_order[2 * node + 1]);
    for (; node; node /= 2) CUBEJOBS_REGIONS_ACQUIRE(&cubejobs_regions_order[2 * node]);
    return answer;
}

CUBEJOBS_INLINE enum cubejobs_regions_code cubejobs_regions_open_version_seen(struct cubejobs_regions *thread,
                                                                              uint32_t version, uint32_t dim,
                                                                              uint64_t number) {
    CUBEJOBS_REGIONS_USE(thread);
    return cubejobs_regions_open_version(thread, version, dim, number);
}

CUBEJOBS_INLINE enum cubejobs_regions_code cubejobs_regions_share_seen(struct cubejobs_regions *thread,
                                                                       struct cubejobs_regions *other) {
    CUBEJOBS_REGIONS_USE(thread);
    CUBEJOBS_REGIONS_USE(other);
    return cubejobs_regions_share(thread, other);
}

CUBEJOBS_INLINE struct cubejobs_regions_answer cubejobs_regions_take_seen(struct cubejobs_regions *thread,
                                                                          struct cubejobs_block *block, uint32_t k) {
    CUBEJOBS_REGIONS_USE(thread);
    CUBEJOBS_REGIONS_USE(block);
    return cubejobs_regions_acquired(cubejobs_regions_take(thread, block, k));
}

CUBEJOBS_INLINE struct cubejobs_regions_answer cubejobs_regions_take_exact_seen(struct cubejobs_regions *thread,
                                                                                struct cubejobs_block *block,
                                                                                uint32_t k) {
    CUBEJOBS_REGIONS_USE(thread);
    CUBEJOBS_REGIONS_USE(block);
    return cubejobs_regions_acquired(cubejobs_regions_take_exact(thread, block, k));
}

CUBEJOBS_INLINE struct cubejobs_regions_answer cubejobs_regions_take_at_seen(struct cubejobs_regions *thread,
                                                                             struct cubejobs_block *block,
                                                                             uint64_t base, uint32_t k) {
    CUBEJOBS_REGIONS_USE(thread);
    CUBEJOBS_REGIONS_USE(block);
    return cubejobs_regions_acquired(cubejobs_regions_take_at(thread, block, base, k));
}

CUBEJOBS_INLINE enum cubejobs_regions_code cubejobs_regions_split_seen(struct cubejobs_regions *thread,
                                                                       struct cubejobs_block *block,
                                                                       struct cubejobs_block *half) {
    CUBEJOBS_REGIONS_USE(thread);
    CUBEJOBS_REGIONS_USE(block);
    CUBEJOBS_REGIONS_USE(half);
    return cubejobs_regions_split(thread, block, half);
}

CUBEJOBS_INLINE enum cubejobs_regions_code cubejobs_regions_join_seen(struct cubejobs_regions *thread,
                                                                      struct cubejobs_block *block,
                                                                      struct cubejobs_block *half) {
    CUBEJOBS_REGIONS_USE(thread);
    CUBEJOBS_REGIONS_USE(block);
    CUBEJOBS_REGIONS_USE(half);
    return cubejobs_regions_join(thread, block, half);
}

CUBEJOBS_INLINE struct cubejobs_regions_answer cubejobs_regions_block_seen(const struct cubejobs_block *block) {
    CUBEJOBS_REGIONS_READ(CUBEJOBS_WRITABLE(struct cubejobs_block *, block));
    return cubejobs_regions_block(block);
}

CUBEJOBS_INLINE enum cubejobs_regions_code cubejobs_regions_release_seen(struct cubejobs_regions *thread,
                                                                         struct cubejobs_block *block) {
    struct cubejobs_regions_answer held = cubejobs_regions_block(block);
    uint64_t node = held.code == CUBEJOBS_REGIONS_DONE ? cubejobs_regions_node(held) : 0;
    CUBEJOBS_REGIONS_USE(thread);
    CUBEJOBS_REGIONS_USE(block);
    if (node) CUBEJOBS_REGIONS_RELEASE(&cubejobs_regions_order[2 * node]);
    for (node /= 2; node; node /= 2) CUBEJOBS_REGIONS_RELEASE(&cubejobs_regions_order[2 * node + 1]);
    return cubejobs_regions_release(thread, block);
}

CUBEJOBS_INLINE struct cubejobs_regions_occupancy_answer cubejobs_regions_occupancy_seen(
    struct cubejobs_regions *thread) {
    CUBEJOBS_REGIONS_USE(thread);
    return cubejobs_regions_occupancy(thread);
}

CUBEJOBS_INLINE enum cubejobs_regions_code cubejobs_regions_free_seen(struct cubejobs_regions *thread) {
    enum cubejobs_regions_code code;
    CUBEJOBS_REGIONS_USE(thread);
    CUBEJOBS_REGIONS_RELEASE(&cubejobs_regions_order[0]);
    code = cubejobs_regions_free(thread);
    if (code == CUBEJOBS_REGIONS_DONE) CUBEJOBS_REGIONS_ACQUIRE(&cubejobs_regions_order[0]);
    return code;
}

#undef cubejobs_regions_open_version
#undef cubejobs_regions_share
#undef cubejobs_regions_take
#undef cubejobs_regions_take_exact
#undef cubejobs_regions_take_at
#undef cubejobs_regions_split
#undef cubejobs_regions_join
#undef cubejobs_regions_block
#undef cubejobs_regions_release
#undef cubejobs_regions_occupancy
#undef cubejobs_regions_free
#define cubejobs_regions_open_version cubejobs_regions_open_version_seen
#define cubejobs_regions_share cubejobs_regions_share_seen
#define cubejobs_regions_take cubejobs_regions_take_seen
#define cubejobs_regions_take_exact cubejobs_regions_take_exact_seen
#define cubejobs_regions_take_at cubejobs_regions_take_at_seen
#define cubejobs_regions_split cubejobs_regions_split_seen
#define cubejobs_regions_join cubejobs_regions_join_seen
#define cubejobs_regions_block cubejobs_regions_block_seen
#define cubejobs_regions_release cubejobs_regions_release_seen
#define cubejobs_regions_occupancy cubejobs_regions_occupancy_seen
#define cubejobs_regions_free cubejobs_regions_free_seen
#endif
#ifdef CUBEJOBS_REGIONS_WRITES
void __msan_unpoison(const volatile void *address, __SIZE_TYPE__ size);

#define CUBEJOBS_REGIONS_WRITTEN(type, call, arguments, passed) \
    CUBEJOBS_INLINE type call##_seen arguments {                \
        type answer = call passed;                              \
        __msan_unpoison(&answer, sizeof answer);                \
        return answer;                                          \
    }
CUBEJOBS_REGIONS_WRITTEN(struct cubejobs_regions_answer, cubejobs_regions_take,
                         (struct cubejobs_regions * thread, struct cubejobs_block *block, uint32_t k),
                         (thread, block, k))
CUBEJOBS_REGIONS_WRITTEN(struct cubejobs_regions_answer, cubejobs_regions_take_exact,
                         (struct cubejobs_regions * thread, struct cubejobs_block *block, uint32_t k),
                         (thread, block, k))
CUBEJOBS_REGIONS_WRITTEN(struct cubejobs_regions_answer, cubejobs_regions_take_at,
                         (struct cubejobs_regions * thread, struct cubejobs_block *block, uint64_t base, uint32_t k),
                         (thread, block, base, k))
CUBEJOBS_REGIONS_WRITTEN(struct cubejobs_regions_answer, cubejobs_regions_block, (const struct cubejobs_block *block),
                         (block))
CUBEJOBS_REGIONS_WRITTEN(struct cubejobs_regions_occupancy_answer, cubejobs_regions_occupancy,
                         (struct cubejobs_regions * thread), (thread))

#undef cubejobs_regions_take
#undef cubejobs_regions_take_exact
#undef cubejobs_regions_take_at
#undef cubejobs_regions_block
#undef cubejobs_regions_occupancy
#define cubejobs_regions_take cubejobs_regions_take_seen
#define cubejobs_regions_take_exact cubejobs_regions_take_exact_seen
#define cubejobs_regions_take_at cubejobs_regions_take_at_seen
#define cubejobs_regions_block cubejobs_regions_block_seen
#define cubejobs_regions_occupancy cubejobs_regions_occupancy_seen
#endif

/* Two counters are at least 4,096 bytes apart, since each is in another object. So the numbers of
 * machines differ until one object has opened 2^28 of them. */
CUBEJOBS_INLINE enum cubejobs_regions_code cubejobs_regions_open(struct cubejobs_regions *thread, uint32_t dim) {
    uint64_t number = __atomic_add_fetch(&cubejobs_regions_machines, 1, __ATOMIC_SEQ_CST);
    number += CUBEJOBS_AS(uint64_t, CUBEJOBS_CAST(uintptr_t, &cubejobs_regions_machines)) << 16;
    return cubejobs_regions_open_version(thread, CUBEJOBS_REGIONS_VERSION, dim, number);
}

#ifdef __cplusplus
}
#endif

#endif
