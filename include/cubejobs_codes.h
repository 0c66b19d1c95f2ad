/* What the codes of all libraries mean, for C and C++. The other headers include this one.
 *
 * Each header has an enum of the codes of its own calls. They all share one row of numbers: a code
 * that two headers have is the same number in both, and a number has one meaning. Only FULL is two
 * numbers, one of a lane and one of a planner or a scheduler. So one function has the text of each
 * code. The numbers 30, 33 to 40, 52 to 54 and 60 are not in use.
 */
#ifndef CUBEJOBS_CODES_H
#define CUBEJOBS_CODES_H

#include <stdint.h>

/* C89 has no inline of its own. */
#if defined(__cplusplus) || (defined(__STDC_VERSION__) && __STDC_VERSION__ >= 199901L)
#define CUBEJOBS_INLINE static inline
#else
#define CUBEJOBS_INLINE static __inline__
#endif

/* Before a call whose result must not be ignored: without it nobody knows whether the caller has
 * something to give back. */
#if defined(__cplusplus) && __cplusplus >= 201703L
#define CUBEJOBS_NODISCARD [[nodiscard]]
#elif !defined(__cplusplus) && defined(__STDC_VERSION__) && __STDC_VERSION__ > 201710L
#define CUBEJOBS_NODISCARD [[nodiscard]]
#else
#define CUBEJOBS_NODISCARD __attribute__((warn_unused_result))
#endif

/* Casts as each language wants them: between pointers or between a pointer and a number, between
 * numbers and enums, and from a pointer to const. */
#ifdef __cplusplus
#define CUBEJOBS_CAST(type, value) reinterpret_cast<type>(value)
#define CUBEJOBS_AS(type, value) static_cast<type>(value)
#define CUBEJOBS_WRITABLE(type, value) const_cast<type>(value)
#else
#define CUBEJOBS_CAST(type, value) ((type)(value))
#define CUBEJOBS_AS(type, value) ((type)(value))
#define CUBEJOBS_WRITABLE(type, value) ((type)(value))
#endif

/* Returns what a code of any of the libraries means, or that they have no such code. The text stays
 * as long as the program. */
CUBEJOBS_INLINE const char *cubejobs_code_text(uint32_t code) {
    switch (code) {
    case 0: return "the call succeeded";
    case 1: return "a part of each block of this dimension was in use";
    case 2: return "no block was found and one may be free, or another thread has the turn";
    case 3: return "the dimension is too large, or the block has no halves";
    case 4: return "no block of this dimension begins at this processor";
    case 5: return "a part of the block was in use";
    case 6: return "no such block is held";
    case 7: return "the handle that is to be filled holds a block";
    case 8: return "the block is of another machine";
    case 9: return "the two are not the two halves of a block";
    case 10: return "a block is held, and this is the last handle";
    case 11: return "memory ran out";
    case 12: return "the handle or the scheduler is shut";
    case 13: return "the handle is of another kind";
    case 14: return "the handle or the scheduler that is to be opened is open";
    case 15: return "the header is not of the library's version";
    case 16: return "the lane has as many jobs as its capacity";
    case 17: return "closed: no job may be submitted, or none will start";
    case 18: return "the lane has accepted 2^62 jobs";
    case 19: return "there is no job";
    case 20: return "another worker took the job";
    case 21: return "there is no job, and none will come";
    case 22: return "there is no lane with this number";
    case 23: return "a size of the lanes is out of range";
    case 24: return "the lanes have ended";
    case 25: return "the lanes have not ended";
    case 26: return "the lanes are open";
    case 27: return "a lane is not back";
    case 28: return "a worker is not back";
    case 29: return "all lanes, or all workers, are out";
    case 31: return "a job is left";
    case 32: return "another call has not ended";
    case 41: return "no thread is to be woken";
    case 42: return "other calls were in the way: call again";
    case 43: return "there is no job: park the thread";
    case 44: return "the worker lies down";
    case 45: return "a number is out of range";
    case 46: return "there is no place for another job, or no other worker";
    case 47: return "what the call is about is in another state: a job, a worker, a block or a scheduler";
    case 48: return "the time is before that of the last call";
    case 49: return "a worker is out, a job is left, or another call has not ended";
    case 50: return "the memory is too small, null, or not at a multiple of 8";
    case 51: return "the bytes are not a sound image of this dimension";
    case 55: return "no shape of messages has this number";
    case 56: return "the root is not below the number of ranks";
    case 57: return "the rank is not below the number of ranks";
    case 58: return "the round is not below the number of rounds";
    case 59: return "the number is not below the number of messages";
    case 61: return "the deadline passed";
    case 62: return "the waits of this event were stopped";
    case 63: return "the handle is a copy, and its block or machine was given back";
    default: return "the libraries have no such code";
    }
}

#endif
