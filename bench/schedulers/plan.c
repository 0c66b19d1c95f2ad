/* Times the calls of a scheduler that always has the same number of waiting jobs. Compile it with its header:
 *
 *     gcc -O2 -std=gnu11 '-DSCHEDULER="core.h"' plan.c -lm
 *
 * plan DIM WAITING ESTIMATES SIZES WARM JOBS ROUNDS
 *
 * ESTIMATES is `known` or `unknown`: all jobs have an estimate, which is too long, or none has one. SIZES is `narrow`,
 * jobs of 1 to 4 processors, or `mixed`: of ten jobs six have 1 to 4, three 5 to 32, one 33 to 512, and of a thousand one
 * has half of the machine.
 *
 * First it plays WARM jobs and twice ROUNDS rounds of JOBS jobs, and notes all calls. Then it plays the WARM jobs again,
 * and prints `ready` and a sum over their starts. For each line that it reads it makes the calls of one round: in turn
 *   job S P         P is the nanoseconds of all calls for one job: a submit, a finish, and each call for the next
 *                   start. They are of processor time, all others on the clock.
 *   next S P Q R T  the medians of single calls that start a job, of those that start none, and of both together, and
 *                   the 99th percentile of both together
 * S is a sum over all starts so far, which must be those of the first time.
 *
 * `plan memory DIM JOBS WAITING` opens a scheduler for JOBS jobs, submits WAITING, and prints how many bytes it took. */
#include <inttypes.h>
#include <malloc.h>
#include <math.h>
#include <time.h>
#include <x86intrin.h>

#include SCHEDULER

enum kind { SUBMIT, NEXT, FINISH };

/* A call: for SUBMIT and FINISH the number of a job, for NEXT the time. */
struct call {
    uint64_t number;
    enum kind kind;
};

struct task {
    uint64_t run, estimate;
    uint32_t processors;
};

struct end {
    uint64_t at;
    uint32_t job;
};

static struct scheduler scheduler;
static struct task *tasks;
static uint64_t *tickets, now, sum, random_state;
static struct end *heap;
static uint32_t submitted, started, running, wanted;
static unsigned dim;
static struct call *calls;
static size_t call_count, call_room;
static bool is_noting;

/* ---- jobs */

/* The next number of a generator (xorshift, Marsaglia 2003). */
static uint64_t next_random(void) {
    random_state ^= random_state << 13;
    random_state ^= random_state >> 7;
    random_state ^= random_state << 17;
    return random_state;
}

static uint32_t between(uint32_t low, uint32_t high) {
    return low + (uint32_t)((next_random() >> 20) % (high - low + 1));
}

static uint32_t random_size(bool is_mixed) {
    uint32_t choice = between(0, 999), most = 1u << dim >> 1;
    uint32_t size = !is_mixed || choice < 600 ? between(1, 4) : choice < 900 ? between(5, 32) : between(33, 512);
    size = is_mixed && choice == 999 ? most : size;
    return size < most ? size : most;
}

static void make_tasks(uint32_t count, bool is_known, bool is_mixed) {
    tasks = room_for(NULL, count, sizeof *tasks);
    random_state = 88172645463325252u;
    for (uint32_t i = 0; i < count; i++) {
        double run = exp(4 + between(0, 7000) / 1000.0), ratio = between(50, 1000) / 1000.0;
        tasks[i] = (struct task){(uint64_t)run, is_known ? (uint64_t)(run / ratio) : 0, random_size(is_mixed)};
    }
}

static bool is_before(struct end one, struct end other) {
    return one.at != other.at ? one.at < other.at : one.job < other.job;
}

static void push_end(struct end end) {
    uint32_t at = ++running;
    for (; at > 1 && is_before(end, heap[at / 2]); at /= 2) {
        heap[at] = heap[at / 2];
    }
    heap[at] = end;
}

static struct end pop_end(void) {
    struct end first = heap[1], last = heap[running--];
    uint32_t at = 1;
    for (uint32_t next = 2; next <= running; next = 2 * at) {
        next += next < running && is_before(heap[next + 1], heap[next]);
        if (!is_before(heap[next], last)) {
            break;
        }
        heap[at] = heap[next];
        at = next;
    }
    heap[at] = last;
    return first;
}

/* ---- calls */

static void note(enum kind kind, uint64_t number) {
    if (is_noting) {
        if (call_count == call_room) {
            call_room = 2 * call_room + 1024;
            calls = room_for(calls, call_room, sizeof *calls);
        }
        calls[call_count++] = (struct call){number, kind};
    }
}

static void submit(uint32_t job) {
    tickets[job] = submit_job(&scheduler, (struct request){job, tasks[job].estimate, tasks[job].processors, 0});
}

static void add_start(const struct start *start) {
    sum = sum * 31 + start->base * 7 + start->payload;
}

/* Plays until this many jobs were started: ends of jobs, starts, and submits of others instead. */
static void play(uint32_t until) {
    struct start start;
    while (started < until) {
        while (submitted - started < wanted) {
            note(SUBMIT, submitted);
            submit(submitted++);
        }
        note(NEXT, now);
        if (start_next(&scheduler, now, &start)) {
            add_start(&start);
            push_end((struct end){now + tasks[start.payload].run, (uint32_t)start.payload});
            started++;
        } else {
            struct end end = pop_end();
            now = end.at;
            note(FINISH, end.job);
            finish_job(&scheduler, tickets[end.job]);
        }
    }
}

static void begin(uint32_t jobs) {
    now = sum = submitted = started = running = 0;
    open_scheduler(&scheduler, dim, jobs, 16);
}

/* ---- rounds */

static uint64_t nanoseconds(clockid_t clock) {
    struct timespec time;
    clock_gettime(clock, &time);
    return (uint64_t)time.tv_sec * 1000000000 + (uint64_t)time.tv_nsec;
}

/* The processor's count of ticks, read in order with what is before it and after it. */
static uint64_t ticks(void) {
    _mm_lfence();
    uint64_t count = __rdtsc();
    _mm_lfence();
    return count;
}

/* Returns the fewest ticks that a time of nothing takes. */
static uint64_t ticks_of_nothing(void) {
    uint64_t least = UINT64_MAX;
    for (unsigned i = 0; i < 10000; i++) {
        uint64_t first = ticks(), own = ticks() - first;
        least = own < least ? own : least;
    }
    return least;
}

static void make_call(const struct call *call) {
    struct start start;
    if (call->kind == SUBMIT) {
        submit((uint32_t)call->number);
    } else if (call->kind == FINISH) {
        finish_job(&scheduler, tickets[call->number]);
    } else if (start_next(&scheduler, call->number, &start)) {
        add_start(&start);
    }
}

static void time_jobs(const struct call *from, const struct call *end, uint32_t jobs) {
    uint64_t began = nanoseconds(CLOCK_PROCESS_CPUTIME_ID);
    for (const struct call *call = from; call < end; call++) {
        make_call(call);
    }
    double all = (double)(nanoseconds(CLOCK_PROCESS_CPUTIME_ID) - began);
    printf("job %" PRIu64 " %.1f\n", sum, all / jobs);
}

static int by_size(const void *a, const void *b) {
    uint64_t one = *(const uint64_t *)a, other = *(const uint64_t *)b;
    return (one > other) - (one < other);
}

/* Times of single calls, in ticks. */
struct samples {
    uint64_t *all;
    size_t count;
};

/* Returns the sample below which this many hundredths lie, or 0 if there is none. */
static uint64_t percentile(struct samples *it, unsigned hundredths) {
    qsort(it->all, it->count, sizeof *it->all, by_size);
    return it->count > 0 ? it->all[(it->count - 1) * hundredths / 100] : 0;
}

static void add_sample(struct samples *it, uint64_t ticks) {
    it->all[it->count++] = ticks;
}

static void time_nexts(const struct call *from, const struct call *end) {
    struct samples kinds[3] = {{NULL, 0}, {NULL, 0}, {NULL, 0}};
    uint64_t nothing = ticks_of_nothing(), began = nanoseconds(CLOCK_MONOTONIC), first = ticks();
    for (unsigned i = 0; i < 3; i++) {
        kinds[i].all = room_for(NULL, (size_t)(end - from) + 1, sizeof *kinds[i].all);
    }
    for (const struct call *call = from; call < end; call++) {
        uint64_t before = sum, start = ticks();
        make_call(call);
        uint64_t all = ticks() - start, own = all > nothing ? all - nothing : 0;
        if (call->kind == NEXT) {
            add_sample(&kinds[0], own);
            add_sample(&kinds[sum != before ? 1 : 2], own);
        }
    }
    double scale = (double)(nanoseconds(CLOCK_MONOTONIC) - began) / (double)(ticks() - first);
    printf("next %" PRIu64 " %.1f %.1f %.1f %.1f\n", sum, (double)percentile(&kinds[1], 50) * scale,
           (double)percentile(&kinds[2], 50) * scale, (double)percentile(&kinds[0], 50) * scale,
           (double)percentile(&kinds[0], 99) * scale);
    for (unsigned i = 0; i < 3; i++) {
        free(kinds[i].all);
    }
}

/* Notes the calls of all rounds: where each begins, and the sum at its end. */
static void note_rounds(uint32_t jobs, uint32_t rounds, size_t *begins, uint64_t *sums) {
    is_noting = true;
    for (uint32_t i = 0; i < rounds; i++) {
        begins[i] = call_count;
        play(started + jobs);
        sums[i] = sum;
    }
    begins[rounds] = call_count;
    is_noting = false;
}

static int play_rounds(uint32_t jobs, uint32_t rounds, const size_t *begins, const uint64_t *sums) {
    for (uint32_t i = 0; i < rounds && getchar() != EOF; i++) {
        const struct call *from = calls + begins[i], *end = calls + begins[i + 1];
        if (i % 2 == 0) {
            time_jobs(from, end, jobs);
        } else {
            time_nexts(from, end);
        }
        fflush(stdout);
        if (sum != sums[i]) {
            fputs("the starts are others than the first time\n", stderr);
            return 1;
        }
    }
    return 0;
}

static uint32_t number_of(const char *word) {
    return (uint32_t)strtoul(word, NULL, 10);
}

static size_t bytes_in_use(void) {
    struct mallinfo2 info = mallinfo2();
    return info.uordblks + info.hblkhd;
}

/* Prints the bytes of a scheduler for this many jobs. */
static int print_memory(char **words) {
    uint32_t jobs = number_of(words[1]), waiting = number_of(words[2]);
    dim = number_of(words[0]);
    make_tasks(waiting + 1, true, true);
    tickets = room_for(NULL, waiting + 1, sizeof *tickets);
    size_t before = bytes_in_use();
    open_scheduler(&scheduler, dim, jobs, 16);
    for (uint32_t i = 0; i < waiting; i++) {
        submit(i);
    }
    printf("%zu\n", bytes_in_use() - before);
    return 0;
}

int main(int word_count, char **words) {
    if (word_count == 5 && strcmp(words[1], "memory") == 0) {
        return print_memory(words + 2);
    }
    if (word_count != 8) {
        return 2;
    }
    uint32_t warm = number_of(words[5]), jobs = number_of(words[6]), rounds = 2 * number_of(words[7]);
    dim = number_of(words[1]);
    wanted = number_of(words[2]);
    uint32_t most = warm + rounds * jobs + wanted, at_once = (1u << dim) + wanted;
    make_tasks(most, strcmp(words[3], "known") == 0, strcmp(words[4], "mixed") == 0);
    tickets = room_for(NULL, most, sizeof *tickets);
    heap = room_for(NULL, ((size_t)1 << dim) + 2, sizeof *heap);
    size_t *begins = room_for(NULL, rounds + 1, sizeof *begins);
    uint64_t *sums = room_for(NULL, rounds + 1, sizeof *sums);
    begin(at_once);
    play(warm);
    note_rounds(jobs, rounds, begins, sums);
    close_scheduler(&scheduler);
    begin(at_once);
    play(warm);
    printf("ready %" PRIu64 "\n", sum);
    fflush(stdout);
    return play_rounds(jobs, rounds, begins, sums);
}
