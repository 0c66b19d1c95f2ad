/* EASY on counts: a job may have any processors, which need not be in a row. The first job in order that does not fit
 * is promised the time at which enough processors are free, and others start if they do not delay it. It plans with
 * estimates, which must be known. With TRUE_SIZES a job holds as many processors as it asks for, else those of the
 * block that it would have. */
#ifndef COUNTS_H
#define COUNTS_H
#include "types.h"

struct job {
    uint64_t payload, estimate, end;
    uint32_t size, next, before, job_class;
};

struct scheduler {
    struct job *jobs;
    /* The running jobs, by their ends. */
    uint32_t *running;
    uint32_t count, free_processors, first[CLASSES], last[CLASSES], free_slots;
    /* The first job that does not fit, when it could start by the last decision, and what is left then. */
    uint32_t head, extra;
    uint64_t promise;
};

static void open_scheduler(struct scheduler *s, unsigned dim, uint32_t jobs, uint32_t patience) {
    (void)patience;
    *s = (struct scheduler){.free_processors = 1u << dim, .head = NOBODY};
    s->jobs = room_for(NULL, jobs, sizeof *s->jobs);
    s->running = room_for(NULL, ((size_t)1 << dim) + 1, sizeof *s->running);
    for (uint32_t i = 0; i < jobs; i++) {
        s->jobs[i] = (struct job){.next = i + 1 < jobs ? i + 1 : NOBODY};
    }
    memset(s->first, 0xff, sizeof s->first);
    memset(s->last, 0xff, sizeof s->last);
}

static void close_scheduler(struct scheduler *s) {
    free(s->jobs);
    free(s->running);
}

static uint64_t submit_job(struct scheduler *s, struct request it) {
    uint32_t slot = s->free_slots, c = it.job_class;
    s->free_slots = s->jobs[slot].next;
    s->jobs[slot] = (struct job){it.payload, it.estimate, 0, it.processors, NOBODY, s->last[c], c};
#ifndef TRUE_SIZES
    s->jobs[slot].size = 1u << dim_of(it.processors);
#endif
    *(s->last[c] == NOBODY ? &s->first[c] : &s->jobs[s->last[c]].next) = slot;
    s->last[c] = slot;
    return slot;
}

static void finish_job(struct scheduler *s, uint64_t ticket) {
    uint32_t at = 0;
    while (s->running[at] != ticket) {
        at++;
    }
    memmove(s->running + at, s->running + at + 1, (--s->count - at) * sizeof *s->running);
    s->free_processors += s->jobs[ticket].size;
    s->jobs[ticket].next = s->free_slots;
    s->free_slots = (uint32_t)ticket;
}

static bool begin_job(struct scheduler *s, uint32_t slot, uint64_t now, struct start *start) {
    struct job *job = &s->jobs[slot];
    uint32_t at = s->count++, c = job->job_class;
    *(job->before == NOBODY ? &s->first[c] : &s->jobs[job->before].next) = job->next;
    *(job->next == NOBODY ? &s->last[c] : &s->jobs[job->next].before) = job->before;
    job->end = now + job->estimate;
    for (; at > 0 && s->jobs[s->running[at - 1]].end > job->end; at--) {
        s->running[at] = s->running[at - 1];
    }
    s->running[at] = slot;
    s->free_processors -= job->size;
    *start = (struct start){slot, job->payload, 0};
    return true;
}

/* Finds when the head may start. */
static void promise_head(struct scheduler *s, uint32_t head) {
    uint32_t sum = s->free_processors;
    s->head = head;
    for (uint32_t i = 0; sum < s->jobs[head].size; i++) {
        sum += s->jobs[s->running[i]].size;
        s->promise = s->jobs[s->running[i]].end;
    }
    s->extra = sum - s->jobs[head].size;
}

static bool start_next(struct scheduler *s, uint64_t now, struct start *start) {
    s->head = NOBODY;
    for (unsigned c = 0; c < CLASSES; c++) {
        for (uint32_t slot = s->first[c]; slot != NOBODY; slot = s->jobs[slot].next) {
            const struct job *job = &s->jobs[slot];
            if (s->head != NOBODY && s->free_processors == 0) {
                return false;
            }
            if (job->size > s->free_processors) {
                if (s->head == NOBODY) {
                    promise_head(s, slot);
                }
            } else if (s->head == NOBODY || job->size <= s->extra || now + job->estimate <= s->promise) {
                return begin_job(s, slot, now, start);
            }
        }
    }
    return false;
}

static inline bool promise_of(struct scheduler *s, uint64_t ticket, uint64_t *time) {
    *time = s->head == ticket ? s->promise : NEVER;
    return s->head == ticket;
}
#endif
