/* Times threads that submit jobs and workers that run them in blocks. Compile it with the header of a system:
 *
 *     gcc -O2 -pthread '-DSYSTEM="planner.h"' work.c
 *
 * work mix DIM WORKERS SECONDS ESTIMATES
 *   Eight threads submit as fast as there is room, for this long. Of ten jobs six have a block of dimension 0 to 2, three
 *   of 3 to 5 and one of 6 to 9, and sleep for 50 to 2,050 microseconds. From 0.3 s on, each 0.2 s a job of one
 *   millisecond asks for the whole machine, or in turn for half of it. ESTIMATES is `known` or `unknown`.
 *   It prints the percentage of the machine's processors in blocks of jobs that run; thousand jobs a second; processor
 *   time and context switches for a second; and the median and the longest wait, in milliseconds, of jobs for half the
 *   machine and for all of it.
 *
 * work spin SUBMITTERS WORKERS CAPACITY JOBS NANOSECONDS
 *   Jobs have blocks of dimension 0 to 3 of 1,024 processors, and spin for this long. It prints the processor time and
 *   the time on the clock of a job, in nanoseconds.
 *
 * With -DCHECK each job writes its name on its processors, and no other job may have written there. */
#define _GNU_SOURCE
#include <inttypes.h>
#include <string.h>
#include <sys/resource.h>

#include SYSTEM

enum { MOST_JOBS = 4000000, MOST_DIM = 16 };
enum kind { SMALL, HALF, WHOLE };

struct task {
    uint64_t submitted, started, length;
    uint8_t dim, kind;
};

static struct task *tasks;
static atomic_uint task_count;
static _Atomic uint64_t busy, owners[1 << MOST_DIM];
static struct sizes sizes;
static bool is_spinning, is_known;
static double seconds;
static uint64_t most_jobs, spin;

static uint32_t next_random(uint64_t *state) {
    *state = *state * 6364136223846793005u + 1442695040888963407u;
    return (uint32_t)(*state >> 33);
}

static void sleep_for(uint64_t nanoseconds) {
    struct timespec left = {(time_t)(nanoseconds / 1000000000), (long)(nanoseconds % 1000000000)};
    while (nanosleep(&left, &left) != 0) {
    }
}

/* ---- jobs */

static bool submit_task(unsigned thread, uint8_t dim, uint64_t length, enum kind kind) {
    unsigned number = atomic_fetch_add(&task_count, 1);
    if (number >= most_jobs) {
        atomic_fetch_sub(&task_count, 1);
        return false;
    }
    tasks[number] = (struct task){now(), 0, length, dim, (uint8_t)kind};
    submit_job(thread, (struct job){number, is_known ? length + 300000 : 0, dim});
    return true;
}

static void submit_mix(unsigned thread) {
    uint64_t state = 77 + thread, wide_at = now() + 300000000, end = now() + (uint64_t)(seconds * 1e9);
    for (unsigned wide = 0; now() < end;) {
        if (thread == 0 && now() >= wide_at) {
            bool is_half = wide++ % 2 == 1;
            submit_task(thread, (uint8_t)(sizes.dim - is_half), 1000000, is_half ? HALF : WHOLE);
            wide_at = now() + 200000000;
            continue;
        }
        uint32_t choice = next_random(&state) % 100, low = choice < 60 ? 0 : choice < 90 ? 3 : 6;
        uint32_t dim = low + next_random(&state) % (low == 6 ? 4 : 3);
        dim = dim < sizes.dim ? dim : sizes.dim;
        if (!submit_task(thread, (uint8_t)dim, 50000 + next_random(&state) % 2000 * 1000, SMALL)) {
            return;
        }
    }
}

static void submit_spins(unsigned thread) {
    uint64_t state = 77 + thread;
    while (submit_task(thread, (uint8_t)(next_random(&state) % 4), spin, SMALL)) {
    }
}

static void *submitter(void *number) {
    unsigned thread = (unsigned)(uintptr_t)number;
    if (is_spinning) {
        submit_spins(thread);
    } else {
        submit_mix(thread);
    }
    end_submits(thread);
    return NULL;
}

/* Writes a name on the processors of a block, which must have another one. */
static void own(const struct start *start, uint64_t from, uint64_t to) {
#ifdef CHECK
    for (uint64_t i = start->base; i < start->base + (UINT64_C(1) << start->dim); i++) {
        if (atomic_exchange(&owners[i], to) != from) {
            fprintf(stderr, "processor %" PRIu64 " has two jobs\n", i);
            abort();
        }
    }
#else
    (void)start, (void)from, (void)to;
#endif
}

static void *worker(void *number) {
    struct start start;
    while (next_job((unsigned)(uintptr_t)number, &start)) {
        struct task *task = &tasks[start.payload];
        own(&start, 0, start.payload + 1);
        task->started = now();
        if (is_spinning) {
            while (spin > 0 && now() - task->started < spin) {
            }
        } else {
            sleep_for(task->length);
            atomic_fetch_add(&busy, (now() - task->started) << task->dim);
        }
        own(&start, start.payload + 1, 0);
    }
    return NULL;
}

/* ---- numbers */

static int by_size(const void *a, const void *b) {
    uint64_t one = *(const uint64_t *)a, other = *(const uint64_t *)b;
    return (one > other) - (one < other);
}

static void print_waits(enum kind kind, unsigned count) {
    uint64_t *waits = calloc(count + 1, sizeof *waits);
    unsigned found = 0;
    for (unsigned i = 0; i < count; i++) {
        if (tasks[i].kind == kind && tasks[i].started > 0) {
            waits[found++] = tasks[i].started - tasks[i].submitted;
        }
    }
    qsort(waits, found, sizeof *waits, by_size);
    printf(" %.2f %.2f", (double)waits[found / 2] / 1e6, found > 0 ? (double)waits[found - 1] / 1e6 : 0);
    free(waits);
}

static uint64_t number_of(const char *word) {
    return strtoull(word, NULL, 10);
}

static bool read_words(int count, char **words) {
    if (count == 6 && strcmp(words[1], "mix") == 0) {
        sizes = (struct sizes){(unsigned)number_of(words[2]), 8, (unsigned)number_of(words[3]), 512};
        seconds = strtod(words[4], NULL);
        is_known = strcmp(words[5], "known") == 0;
        most_jobs = MOST_JOBS;
        return true;
    }
    if (count == 7 && strcmp(words[1], "spin") == 0) {
        unsigned submitters = (unsigned)number_of(words[2]), workers = (unsigned)number_of(words[3]);
        sizes = (struct sizes){10, submitters, workers, submitters * (unsigned)number_of(words[4])};
        most_jobs = number_of(words[5]);
        spin = number_of(words[6]);
        is_spinning = true;
        return most_jobs <= MOST_JOBS;
    }
    return false;
}

int main(int word_count, char **words) {
    pthread_t submitters[MAX_SUBMITTERS], workers[MAX_WORKERS];
    if (!read_words(word_count, words) || sizes.submitters > MAX_SUBMITTERS || sizes.workers > MAX_WORKERS ||
        sizes.dim > MOST_DIM) {
        return 2;
    }
    tasks = calloc(MOST_JOBS, sizeof *tasks);
    open_system(sizes);
    uint64_t began = now();
    for (unsigned i = 0; i < sizes.workers; i++) {
        pthread_create(&workers[i], NULL, worker, (void *)(uintptr_t)i);
    }
    for (unsigned i = 0; i < sizes.submitters; i++) {
        pthread_create(&submitters[i], NULL, submitter, (void *)(uintptr_t)i);
    }
    for (unsigned i = 0; i < sizes.submitters; i++) {
        pthread_join(submitters[i], NULL);
    }
    close_system();
    for (unsigned i = 0; i < sizes.workers; i++) {
        pthread_join(workers[i], NULL);
    }
    double time = (double)(now() - began);
    unsigned count = atomic_load(&task_count);
    struct rusage usage;
    getrusage(RUSAGE_SELF, &usage);
    double used = (double)(usage.ru_utime.tv_sec + usage.ru_stime.tv_sec) * 1e9 +
                  (double)(usage.ru_utime.tv_usec + usage.ru_stime.tv_usec) * 1e3;
    for (unsigned i = 0; i < count; i++) {
        if (tasks[i].started == 0) {
            fprintf(stderr, "job %u never ran\n", i);
            return 1;
        }
    }
    if (is_spinning) {
        printf("%.1f %.1f\n", used / count, time / count);
        return 0;
    }
    printf("%.1f %.2f %.4f %.0f", 100.0 * (double)busy / time / (double)(1u << sizes.dim), count / time * 1e6, used / time,
           (double)(usage.ru_nvcsw + usage.ru_nivcsw) / time * 1e9);
    print_waits(HALF, count);
    print_waits(WHOLE, count);
    puts("");
    return 0;
}
