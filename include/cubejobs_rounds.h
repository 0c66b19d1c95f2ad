/* The messages of collective operations (as in MPI) on 2^k ranks, for C and C++.
 *
 * A collective takes k rounds, one for each bit of a rank. In round i messages go between ranks
 * that differ in bit i only. On an aligned block of 2^k processors, rank r is the processor
 * base + r, so the two ranks are neighbours in the hypercube. This header says which rank sends to
 * which in each round. You send the data, by means of your own.
 *
 *   - broadcast: the rank that receives takes the item. Each other rank has it already, or waits.
 *   - reduce: the rank that receives joins the two items, and puts the one of the lower rank left.
 *   - all-reduce: both ranks join the two items so.
 *   - scan: both do so with the totals. The rank whose bit is 1 also puts the total that it
 *     receives left of its prefix. A prefix begins with the rank's own item, or with the unit for
 *     an exclusive scan.
 *
 * Then items are joined in the order of their ranks, so joining need not be commutative.
 *
 * The library allocates no memory and keeps no state, and asks nothing of other libraries. Any
 * thread may make any call at any time, a signal handler too. Link libcubejobs_rounds.a.
 *
 * The functions are proved to do what this header says. The steps of all ranks over all rounds are
 * exactly the list of messages, each once as a send and once as a receive. Rounds over a slice are
 * proved to give the right result. Only tests show that these messages do (docs/STATUS.md).
 *
 * There is one duty: the caller passes numbers, and nothing else. Each bad number gives a code.
 */
#ifndef CUBEJOBS_ROUNDS_H
#define CUBEJOBS_ROUNDS_H

#include <stdint.h>

#include "cubejobs_codes.h"

#ifdef __cplusplus
extern "C" {
#endif

/* The version of this header, as a text and as a number: 1.2.3 is 10203. The library returns its
 * own by cubejobs_rounds_version_number. */
#define CUBEJOBS_VERSION "0.3.0-dev"
#define CUBEJOBS_VERSION_NUMBER 300

/* The largest dimension of a collective. */
#define CUBEJOBS_ROUNDS_MAX_DIM 31

/* The number that names no rank. */
#define CUBEJOBS_NO_RANK (~CUBEJOBS_AS(uint64_t, 0))

/* The shapes: which messages a collective has. A scan and an exclusive scan have the same. */
enum cubejobs_shape {
    CUBEJOBS_BROADCAST = 0, /* from one rank, the root, to all */
    CUBEJOBS_REDUCE = 1,    /* from all ranks to one, the root */
    CUBEJOBS_ALLREDUCE = 2, /* from all ranks to all */
    CUBEJOBS_SCAN = 3       /* from all ranks to all, and each keeps a prefix */
};

/* The codes that calls return. If several apply, it is the first of them. */
enum cubejobs_rounds_code {
    CUBEJOBS_ROUNDS_DONE = 0,          /* the call succeeded */
    CUBEJOBS_ROUNDS_BAD_DIMENSION = 3, /* above CUBEJOBS_ROUNDS_MAX_DIM */
    CUBEJOBS_ROUNDS_BAD_SHAPE = 55,    /* no shape has this number */
    CUBEJOBS_ROUNDS_BAD_ROOT = 56,     /* not below 2^k */
    CUBEJOBS_ROUNDS_BAD_RANK = 57,     /* not below 2^k */
    CUBEJOBS_ROUNDS_BAD_ROUND = 58,    /* not below k */
    CUBEJOBS_ROUNDS_BAD_NUMBER = 59    /* not below the number of messages */
};

/* The structs are those of the library only if an enum has 32 bits. */
typedef char cubejobs_rounds_code_has_32_bits[sizeof(enum cubejobs_rounds_code) == 4 ? 1 : -1];

/* The result of cubejobs_message_count. If it is refused, rounds and messages are 0. */
struct cubejobs_count_answer {
    enum cubejobs_rounds_code code;
    uint32_t rounds;
    uint64_t messages;
};

/* The result of cubejobs_message: rank `from` sends to rank `to` in this round. If it is refused,
 * the round is 0 and the ranks are CUBEJOBS_NO_RANK. */
struct cubejobs_message_answer {
    enum cubejobs_rounds_code code;
    uint32_t round;
    uint64_t from;
    uint64_t to;
};

/* The result of cubejobs_step: the rank that this rank sends to, and the rank that it receives
 * from. Each is CUBEJOBS_NO_RANK if there is none, and if the call is refused. If both are ranks,
 * they are the same one: the ranks exchange. */
struct cubejobs_step_answer {
    enum cubejobs_rounds_code code;
    uint64_t to;
    uint64_t from;
};

/* Returns how many rounds and messages a collective of a shape has on 2^k ranks. There are k
 * rounds. A broadcast or a reduction has 2^k - 1 messages, the others k * 2^k. The code is
 * CUBEJOBS_ROUNDS_DONE, or CUBEJOBS_ROUNDS_BAD_SHAPE or CUBEJOBS_ROUNDS_BAD_DIMENSION. */
struct cubejobs_count_answer cubejobs_message_count(uint32_t shape, uint32_t k);

/* Returns message number `i` of the collective, from 0 on. Messages are counted round after round.
 * In a round those of a broadcast come in the order of `from ^ root`. Those of a reduction come in
 * the order of their receivers, and the others in that of their senders. An all-reduce and both
 * scans ignore the root, which must be a rank all the same: pass 0.
 *
 * The code is CUBEJOBS_ROUNDS_DONE, or the first of these that applies: CUBEJOBS_ROUNDS_BAD_SHAPE,
 * CUBEJOBS_ROUNDS_BAD_DIMENSION, CUBEJOBS_ROUNDS_BAD_ROOT, CUBEJOBS_ROUNDS_BAD_NUMBER. */
struct cubejobs_message_answer cubejobs_message(uint32_t shape, uint32_t k, uint64_t root, uint64_t i);

/* Returns the partners of a rank in a round: those of the messages of cubejobs_message. The root is
 * as there.
 *
 * The code is CUBEJOBS_ROUNDS_DONE, or the first of these that applies: CUBEJOBS_ROUNDS_BAD_SHAPE,
 * CUBEJOBS_ROUNDS_BAD_DIMENSION, CUBEJOBS_ROUNDS_BAD_ROOT, CUBEJOBS_ROUNDS_BAD_RANK,
 * CUBEJOBS_ROUNDS_BAD_ROUND. */
struct cubejobs_step_answer cubejobs_step(uint32_t shape, uint32_t k, uint64_t root, uint64_t rank, uint32_t round);

/* Returns the version of the library: CUBEJOBS_VERSION_NUMBER of the header that it came with. */
uint32_t cubejobs_rounds_version_number(void);

#ifdef __cplusplus
}
#endif

#endif
