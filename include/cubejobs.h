/* All libraries of cubejobs for C and C++, in one header.
 *
 *   - cubejobs_fit.h: exact first fit of aligned blocks, in memory of yours;
 *   - cubejobs_regions.h: blocks for threads, with no lock;
 *   - cubejobs_lanes.h: bounded queues of jobs from threads to threads, with no lock;
 *   - cubejobs_plan.h: which waiting job starts next, and in which block;
 *   - cubejobs_rounds.h: which rank of a collective sends to which;
 *   - cubejobs_codes.h: what the codes of all calls mean.
 *
 * Each of them also compiles alone. Four more are not here, for threads that sleep and for owners:
 *
 *   - cubejobs_sched.h: which waiting job a thread runs next, and on which processors;
 *   - cubejobs_wait.h: threads that sleep until there is a block, a job, or room for a job, from
 *     C11 and C++11 on;
 *   - cubejobs.hpp: owners, from C++11 on;
 *   - cubejobs_sched.hpp: owners of the scheduler for threads, from C++17 on.
 *
 * A program links the library of each header whose calls it makes, such as libcubejobs_fit.a.
 * docs/C.md is the guide.
 */
#ifndef CUBEJOBS_H
#define CUBEJOBS_H

#include "cubejobs_codes.h"
#include "cubejobs_fit.h"
#include "cubejobs_lanes.h"
#include "cubejobs_plan.h"
#include "cubejobs_regions.h"
#include "cubejobs_rounds.h"

#endif
