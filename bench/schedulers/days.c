/* Plays days of a batch system on a machine with a scheduler. Compile it with the header of the scheduler:
 *
 *     gcc -O2 -std=gnu11 '-DSCHEDULER="core.h"' days.c -lm
 *
 * days DIM JOBS LOAD SEED ESTIMATES CLASSES PATIENCE [FILE]
 *
 * ESTIMATES is usual, exact, none or overrun; workload.h says what they are. It prints names and numbers:
 *   blocks, asked        how many percent of the machine is in blocks of jobs, and how many percent they asked for,
 *                        until the last job comes
 *   wait, slowdown       the mean seconds of waiting, and the mean bounded slowdown: of run times below 10 s 10 s count
 *   wide, longest        the mean and the longest wait of jobs with a quarter of the machine or more
 *   promised, broken     how many jobs were promised a time, and how many of them started later
 *   seconds              what the run took
 * It writes a line for each start to FILE: the job, the processor at which its block begins, and the time. */
#include <inttypes.h>
#include <time.h>

#include SCHEDULER
#include "workload.h"

struct end {
    uint64_t at;
    uint32_t job;
};

static struct scheduler scheduler;
static struct task *tasks;
static uint64_t *tickets, *starts, *promises;
static uint32_t count, running, head, oldest[CLASSES];
static unsigned dim;
static struct end *heap;
static FILE *file;

/* ---- the ends of running jobs, the earliest one first; of those at the same time that of the earlier job */

static bool is_before(struct end one, struct end other) {
    return one.at != other.at ? one.at < other.at : one.job < other.job;
}

static void push_end(struct end end) {
    uint32_t at = ++running;
    for (; at > 1 && is_before(end, heap[at / 2]); at /= 2) {
        heap[at] = heap[at / 2];
    }
    heap[at] = end;
}

static struct end pop_end(void) {
    struct end first = heap[1], last = heap[running--];
    uint32_t at = 1;
    for (uint32_t next = 2; next <= running; next = 2 * at) {
        next += next < running && is_before(heap[next + 1], heap[next]);
        if (!is_before(heap[next], last)) {
            break;
        }
        heap[at] = heap[next];
        at = next;
    }
    heap[at] = last;
    return first;
}

/* ---- events */

static void submit(uint32_t job) {
    const struct task *it = &tasks[job];
    tickets[job] = submit_job(&scheduler, (struct request){job, it->estimate, it->processors, it->job_class});
}

/* Starts all jobs that may start. */
static void start_all(uint64_t now) {
    struct start start;
    while (start_next(&scheduler, now, &start)) {
        uint32_t job = (uint32_t)start.payload;
        starts[job] = now;
        push_end((struct end){now + tasks[job].run, job});
        if (file != NULL) {
            fprintf(file, "%" PRIu32 " %" PRIu64 " %" PRIu64 "\n", job, start.base, now);
        }
    }
}

/* Returns the first job in order that waits, of those that have come. */
static uint32_t first_waiting_task(uint32_t come) {
    for (unsigned c = 0; c < CLASSES; c++) {
        while (oldest[c] < come && (tasks[oldest[c]].job_class != c || starts[oldest[c]] != NEVER)) {
            oldest[c]++;
        }
        if (oldest[c] < come) {
            return oldest[c];
        }
    }
    return NOBODY;
}

/* Notes what the first job was promised. A promise never grows. */
static void note_promise(uint32_t come) {
    uint64_t time;
    if (head == NOBODY || starts[head] != NEVER || !promise_of(&scheduler, tickets[head], &time)) {
        head = first_waiting_task(come);
        if (head == NOBODY || !promise_of(&scheduler, tickets[head], &time)) {
            return;
        }
    }
    promises[head] = time < promises[head] ? time : promises[head];
}

static void play(void) {
    uint32_t come = 0;
    while (come < count || running > 0) {
        bool is_end = running > 0 && (come == count || heap[1].at <= tasks[come].at);
        uint64_t now = is_end ? heap[1].at : tasks[come].at;
        if (is_end) {
            finish_job(&scheduler, tickets[pop_end().job]);
        } else {
            submit(come++);
        }
        start_all(now);
        note_promise(come);
    }
}

/* ---- results */

/* Returns how many percent of the machine jobs have until the last one comes. */
static double use_of(bool is_blocks) {
    double span = (double)tasks[count - 1].at, sum = 0;
    for (uint32_t i = 0; i < count; i++) {
        double from = (double)starts[i], to = (double)(starts[i] + tasks[i].run);
        double size = is_blocks ? (double)(1u << dim_of(tasks[i].processors)) : (double)tasks[i].processors;
        to = to < span ? to : span;
        sum += to > from ? (to - from) * size : 0;
    }
    return 100 * sum / span / exp2(dim);
}

static void print_waits(void) {
    double wait = 0, slowdown = 0, wide = 0, longest = 0;
    uint32_t wide_count = 0, promised = 0, broken = 0;
    for (uint32_t i = 0; i < count; i++) {
        double own = (double)(starts[i] - tasks[i].at) / 1000, run = (double)tasks[i].run / 1000;
        double slow = (own + run) / (run < 10 ? 10 : run);
        wait += own;
        slowdown += slow < 1 ? 1 : slow;
        if (tasks[i].processors > 1u << dim >> 3) {
            wide += own;
            wide_count++;
            longest = own > longest ? own : longest;
        }
        promised += promises[i] != NEVER;
        broken += promises[i] != NEVER && starts[i] > promises[i];
    }
    printf(" wait %.0f slowdown %.1f wide %.0f longest %.0f promised %" PRIu32 " broken %" PRIu32, wait / count,
           slowdown / count, wide / (wide_count > 0 ? wide_count : 1), longest, promised, broken);
}

static enum estimates estimates_of(const char *word) {
    static const char *const names[] = {"usual", "exact", "none", "overrun"};
    for (unsigned i = 0; i < 4; i++) {
        if (strcmp(word, names[i]) == 0) {
            return (enum estimates)i;
        }
    }
    fprintf(stderr, "there are no estimates %s\n", word);
    exit(2);
}

int main(int word_count, char **words) {
    if (word_count < 8) {
        return 2;
    }
    unsigned classes = (unsigned)strtoul(words[6], NULL, 10);
    dim = (unsigned)strtoul(words[1], NULL, 10);
    count = (uint32_t)strtoul(words[2], NULL, 10);
    if (dim < 3 || dim > MAX_DIM || count == 0 || classes == 0 || classes > CLASSES) {
        return 2;
    }
    tasks = make_tasks(dim, count, strtod(words[3], NULL), strtoull(words[4], NULL, 10), estimates_of(words[5]), classes);
    tickets = room_for(NULL, count, sizeof *tickets);
    starts = memset(room_for(NULL, count, sizeof *starts), 0xff, count * sizeof *starts);
    promises = memset(room_for(NULL, count, sizeof *promises), 0xff, count * sizeof *promises);
    heap = room_for(NULL, count + 1, sizeof *heap);
    head = NOBODY;
    file = word_count > 8 ? fopen(words[8], "w") : NULL;
    open_scheduler(&scheduler, dim, count, (uint32_t)strtoul(words[7], NULL, 10));
    clock_t began = clock();
    play();
    double seconds = (double)(clock() - began) / CLOCKS_PER_SEC;
    close_scheduler(&scheduler);
    printf("blocks %.2f asked %.2f", use_of(true), use_of(false));
    print_waits();
    printf(" seconds %.3f\n", seconds);
    return file != NULL && fclose(file) != 0;
}
