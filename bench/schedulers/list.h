/* A scheduler under the rules of docs/PLANNER.md over plain lists and arrays: a list of the waiting jobs of each class,
 * and for each processor the job that holds it. It has no tree and nothing in common with core.h. No block goes out of
 * service. */
#ifndef LIST_H
#define LIST_H
#include "types.h"

struct job {
    uint64_t payload, estimate, end, passed, ticket;
    uint32_t base, next, before;
    unsigned dim, job_class;
    bool runs;
};

struct line {
    uint32_t first, last;
};

struct scheduler {
    unsigned dim;
    struct job *jobs;
    uint32_t *holder;
    struct line lines[CLASSES];
    uint32_t free_slots, reserved, reserved_base, slots;
    uint64_t limit, submitted;
};

/* ---- blocks */

static uint32_t processors_of(unsigned k) {
    return 1u << k;
}

/* Returns the latest end of the jobs in a block, or 0. */
static uint64_t latest_in(const struct scheduler *s, uint32_t base, unsigned k) {
    uint64_t latest = 0;
    for (uint32_t at = base; at < base + processors_of(k); at++) {
        if (s->holder[at] != NOBODY && s->jobs[s->holder[at]].end > latest) {
            latest = s->jobs[s->holder[at]].end;
        }
    }
    return latest;
}

static uint32_t held_in(const struct scheduler *s, uint32_t base, unsigned k) {
    uint32_t held = 0;
    for (uint32_t at = base; at < base + processors_of(k); at++) {
        held += s->holder[at] != NOBODY;
    }
    return held;
}

/* Returns whether a block has no processor of the reserved one. */
static bool is_apart(const struct scheduler *s, uint32_t base, unsigned k) {
    uint32_t end = s->reserved_base + processors_of(s->jobs[s->reserved].dim);
    return base + processors_of(k) <= s->reserved_base || end <= base;
}

/* Returns the first free block of dimension k, or NOBODY. */
static uint32_t first_free(const struct scheduler *s, unsigned k, bool must_be_apart) {
    for (uint32_t base = 0; base < processors_of(s->dim); base += processors_of(k)) {
        uint32_t at = base;
        while (at < base + processors_of(k) && s->holder[at] == NOBODY) {
            at++;
        }
        if (at == base + processors_of(k) && (!must_be_apart || is_apart(s, base, k))) {
            return base;
        }
    }
    return NOBODY;
}

/* Returns the base of the block to reserve. */
static uint32_t chosen_base(const struct scheduler *s, unsigned k) {
    uint32_t base = 0;
    for (unsigned d = s->dim; d-- > k;) {
        uint32_t high = base + processors_of(d);
        uint64_t low_end = latest_in(s, base, d), high_end = latest_in(s, high, d);
        if (high_end < low_end || (high_end == low_end && held_in(s, high, d) < held_in(s, base, d))) {
            base = high;
        }
    }
    return base;
}

/* ---- lists */

static void append(struct scheduler *s, uint32_t slot) {
    struct job *job = &s->jobs[slot];
    struct line *line = &s->lines[job->job_class];
    job->before = line->last;
    job->next = NOBODY;
    *(line->last == NOBODY ? &line->first : &s->jobs[line->last].next) = slot;
    line->last = slot;
}

static void unlink_job(struct scheduler *s, uint32_t slot) {
    struct job *job = &s->jobs[slot];
    struct line *line = &s->lines[job->job_class];
    *(job->before == NOBODY ? &line->first : &s->jobs[job->before].next) = job->next;
    *(job->next == NOBODY ? &line->last : &s->jobs[job->next].before) = job->before;
}

static uint32_t head_of(const struct scheduler *s) {
    for (unsigned c = 0; s->reserved == NOBODY && c < CLASSES; c++) {
        if (s->lines[c].first != NOBODY) {
            return s->lines[c].first;
        }
    }
    return s->reserved;
}

/* ---- calls */

static void open_scheduler(struct scheduler *s, unsigned dim, uint32_t jobs, uint32_t patience) {
    *s = (struct scheduler){.dim = dim, .reserved = NOBODY, .limit = (uint64_t)patience << dim, .slots = jobs};
    memset(s->lines, 0xff, sizeof s->lines);
    s->jobs = room_for(NULL, jobs, sizeof *s->jobs);
    for (uint32_t i = 0; i < jobs; i++) {
        s->jobs[i] = (struct job){.next = i + 1 < jobs ? i + 1 : NOBODY};
    }
    s->holder = room_for(NULL, processors_of(dim), sizeof *s->holder);
    memset(s->holder, 0xff, processors_of(dim) * sizeof *s->holder);
}

static void close_scheduler(struct scheduler *s) {
    free(s->jobs);
    free(s->holder);
}

static uint64_t submit_job(struct scheduler *s, struct request it) {
    uint32_t slot = s->free_slots;
    if (slot == NOBODY) {
        abort();
    }
    struct job *job = &s->jobs[slot];
    s->free_slots = job->next;
    *job = (struct job){.payload = it.payload, .estimate = it.estimate, .job_class = it.job_class};
    job->dim = dim_of(it.processors);
    job->ticket = ++s->submitted * s->slots + slot;
    append(s, slot);
    return job->ticket;
}

static struct job *job_of(struct scheduler *s, uint64_t ticket, bool runs) {
    struct job *job = &s->jobs[ticket % s->slots];
    return job->ticket == ticket && job->runs == runs ? job : NULL;
}

static void finish_job(struct scheduler *s, uint64_t ticket) {
    struct job *job = job_of(s, ticket, true);
    if (job == NULL) {
        abort();
    }
    memset(s->holder + job->base, 0xff, processors_of(job->dim) * sizeof *s->holder);
    *job = (struct job){.next = s->free_slots};
    s->free_slots = (uint32_t)(job - s->jobs);
}

static bool begin_job(struct scheduler *s, uint32_t slot, uint32_t base, uint64_t now, struct start *start) {
    struct job *job = &s->jobs[slot];
    unlink_job(s, slot);
    job->runs = true;
    job->base = base;
    job->end = job->estimate == 0 || job->estimate >= NEVER - now ? NEVER : now + job->estimate;
    for (uint32_t i = 0; i < processors_of(job->dim); i++) {
        s->holder[base + i] = slot;
    }
    s->reserved = s->reserved == slot ? NOBODY : s->reserved;
    *start = (struct start){job->ticket, job->payload, base};
    return true;
}

/* Where jobs of each dimension could start, once this was looked for. */
struct found {
    uint32_t base[DIMS];
    bool is_known[DIMS];
};

static uint32_t found_for(const struct scheduler *s, struct found *found, unsigned k, bool must_be_apart) {
    if (!found->is_known[k]) {
        found->is_known[k] = true;
        found->base[k] = first_free(s, k, must_be_apart);
    }
    return found->base[k];
}

/* Starts the first job that may pass the head. */
static bool pass(struct scheduler *s, uint32_t head, uint64_t now, struct start *start) {
    struct found beside = {{0}, {false}}, any = {{0}, {false}};
    bool is_reserved = s->reserved != NOBODY;
    uint64_t promise = is_reserved ? latest_in(s, s->reserved_base, s->jobs[head].dim) : NEVER;
    for (unsigned c = 0; c < CLASSES; c++) {
        for (uint32_t slot = s->lines[c].first; slot != NOBODY; slot = s->jobs[slot].next) {
            const struct job *job = &s->jobs[slot];
            uint32_t base = slot == head ? NOBODY : found_for(s, &beside, job->dim, is_reserved);
            bool is_brief = promise != NEVER && promise > now && job->estimate > 0 && job->estimate <= promise - now;
            if (base == NOBODY && slot != head && is_brief) {
                base = found_for(s, &any, job->dim, false);
            }
            if (base != NOBODY) {
                s->jobs[head].passed += processors_of(job->dim);
                return begin_job(s, slot, base, now, start);
            }
        }
    }
    return false;
}

static bool start_next(struct scheduler *s, uint64_t now, struct start *start) {
    uint32_t head = head_of(s);
    if (head == NOBODY) {
        return false;
    }
    unsigned k = s->jobs[head].dim;
    uint32_t base = first_free(s, k, false);
    if (base != NOBODY) {
        return begin_job(s, head, base, now, start);
    }
    if (s->reserved == NOBODY) {
        base = chosen_base(s, k);
        if (latest_in(s, base, k) != NEVER || s->jobs[head].passed >= s->limit) {
            s->reserved = head;
            s->reserved_base = base;
        }
    }
    return pass(s, head, now, start);
}

static inline bool promise_of(struct scheduler *s, uint64_t ticket, uint64_t *time) {
    *time = NEVER;
    if (s->reserved == NOBODY || s->jobs[s->reserved].ticket != ticket) {
        return false;
    }
    *time = latest_in(s, s->reserved_base, s->jobs[s->reserved].dim);
    return true;
}
#endif
