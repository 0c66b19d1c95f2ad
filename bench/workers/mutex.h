/* A list of jobs under a mutex, with a condition variable, over the exact first fit of libcubejobs_fit. A worker takes
 * the first job whose block is free. No job is passed by more than 1,024 others. */
#ifndef MUTEX_H
#define MUTEX_H
#include "cubejobs_fit.h"
#include "types.h"

enum { MOST_PASSES = 1024 };

struct entry {
    struct job job;
    struct entry *next;
};

static pthread_mutex_t mutex = PTHREAD_MUTEX_INITIALIZER;
static pthread_cond_t some_job = PTHREAD_COND_INITIALIZER, some_room = PTHREAD_COND_INITIALIZER;
static struct cubejobs_fit fit;
static struct entry *entries, *spare, *head, **tail = &head;
static struct start held[MAX_WORKERS];
static bool is_busy[MAX_WORKERS], is_closed;
static unsigned passed;

static void open_system(struct sizes sizes) {
    size_t bytes = cubejobs_fit_bytes(sizes.dim);
    must_be_done("open", cubejobs_fit_open(&fit, malloc(bytes), bytes, sizes.dim));
    entries = calloc(sizes.capacity, sizeof *entries);
    for (unsigned i = 0; i < sizes.capacity; i++) {
        entries[i].next = spare;
        spare = &entries[i];
    }
}

static void submit_job(unsigned thread, struct job job) {
    (void)thread;
    pthread_mutex_lock(&mutex);
    while (spare == NULL) {
        pthread_cond_wait(&some_room, &mutex);
    }
    struct entry *entry = spare;
    spare = entry->next;
    *entry = (struct entry){job, NULL};
    *tail = entry;
    tail = &entry->next;
    pthread_cond_signal(&some_job);
    pthread_mutex_unlock(&mutex);
}

static void end_submits(unsigned thread) {
    (void)thread;
}

static void close_system(void) {
    pthread_mutex_lock(&mutex);
    is_closed = true;
    pthread_cond_broadcast(&some_job);
    pthread_mutex_unlock(&mutex);
}

/* Takes the first job that has a free block off the list. Returns false if none has. */
static bool take_first(struct start *start) {
    uint32_t refused = UINT32_MAX;
    for (struct entry **at = &head; *at != NULL; at = &(*at)->next) {
        struct entry *entry = *at;
        struct cubejobs_fit_answer block = {CUBEJOBS_FIT_NO_ROOM, 0, 0};
        if (entry->job.dim < refused) {
            block = cubejobs_fit_take(&fit, entry->job.dim);
            refused = block.code == CUBEJOBS_FIT_DONE ? refused : entry->job.dim;
        }
        if (block.code == CUBEJOBS_FIT_DONE) {
            *start = (struct start){entry->job.payload, block.base, entry->job.dim};
            passed = at == &head ? 0 : passed + 1;
            tail = tail == &entry->next ? at : tail;
            *at = entry->next;
            entry->next = spare;
            spare = entry;
            return true;
        }
        if (refused == 0 || passed >= MOST_PASSES) {
            return false;
        }
    }
    return false;
}

static bool next_job(unsigned worker, struct start *start) {
    pthread_mutex_lock(&mutex);
    if (is_busy[worker]) {
        must_be_done("release", cubejobs_fit_release(&fit, held[worker].base, held[worker].dim));
    }
    while (!(is_busy[worker] = take_first(start)) && !(is_closed && head == NULL)) {
        pthread_cond_wait(&some_job, &mutex);
    }
    held[worker] = *start;
    if (is_busy[worker]) {
        pthread_cond_signal(&some_room);
        if (head != NULL) {
            pthread_cond_signal(&some_job);
        }
    } else {
        pthread_cond_broadcast(&some_job);
    }
    pthread_mutex_unlock(&mutex);
    return is_busy[worker];
}
#endif
