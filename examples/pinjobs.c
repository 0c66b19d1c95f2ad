// Runs the commands of a file, each pinned to CPUs of its own: `pinjobs FILE LOG`. A line is a number
// of CPUs, an estimate in seconds (0: not known) and a shell command, as in `4 60 ./simulate`. In the
// command OMP_NUM_THREADS is this number of CPUs. CPUs are in the order of the topology, so those of
// a command share caches if they can. Commands start in the order of the file, and a later one may
// pass an earlier one that it does not delay (docs/PLANNER.md). LOG gets the line of FILE, the exit
// code (128 + signal), the CPUs and the text of each command that has ended. Ctrl-C cancels what
// waits and sends SIGTERM to what runs, and once more SIGKILL. The status is 0, or 1 if a command
// failed, 2 for a bad line, 3 if the system refused a call, 130 after Ctrl-C. If a line is bad,
// nothing starts.
//
// HyperQueue, Slurm and Flux do more: time limits, other machines, memory, resume. Two runs do not
// know of each other. CPUs are given on when a shell ends: what a command leaves in the background
// may share them then. We measured no gain of speed by pinning, and claim none. In a clone:
//
//     cc -Iinclude examples/pinjobs.c release/linux-x86_64/libcubejobs_plan.a -o pinjobs
#define _GNU_SOURCE
#include <fcntl.h>
#include <sched.h>
#include <signal.h>
#include <stdio.h>
#include <stdlib.h>
#include <string.h>
#include <sys/wait.h>
#include <time.h>
#include <unistd.h>

#include "cubejobs_plan.h"

enum { LONGEST = 1000000000 };
static const char *const SHARED[] = {"topology/package_cpus_list", "cache/index3/shared_cpu_list",
                                     "cache/index2/shared_cpu_list", "topology/thread_siblings_list"};
static uint64_t cpus[CPU_SETSIZE]; // the first CPU that shares each of these with it, and itself
static struct job { uint64_t ticket, base, estimate; unsigned line, want; pid_t pid; char *text; } *jobs;
static unsigned cpu_count, count;
static struct cubejobs_plan plan;
static sigset_t signals, before;

static void die(const char *what) { fprintf(stderr, "pinjobs: "), perror(what), exit(3); }

static void must(uint32_t code) {
    if (code) fprintf(stderr, "pinjobs: %s\n", cubejobs_code_text(code)), exit(3);
}

static int by_place(const void *a, const void *b) {
    uint64_t x = *(const uint64_t *)a, y = *(const uint64_t *)b;
    return (x > y) - (x < y);
}

static void find_cpus(void) {
    cpu_set_t mine;
    if (sched_getaffinity(0, sizeof mine, &mine)) die("the CPUs");
    for (unsigned c = 0; c < CPU_SETSIZE; c++) {
        if (!CPU_ISSET(c, &mine)) continue;
        for (unsigned level = 0, first = 0; level < 4; level++, first = 0) {
            char path[128];
            snprintf(path, sizeof path, "/sys/devices/system/cpu/cpu%u/%s", c, SHARED[level]);
            FILE *list = fopen(path, "r");
            if (list && (fscanf(list, "%u", &first) != 1 || first >= CPU_SETSIZE)) first = 0;
            cpus[cpu_count] = cpus[cpu_count] * CPU_SETSIZE + first;
            if (list) fclose(list);
        }
        cpus[cpu_count] = cpus[cpu_count] * CPU_SETSIZE + c, cpu_count++;
    }
    qsort(cpus, cpu_count, sizeof *cpus, by_place);
}

static void read_jobs(const char *name) {
    FILE *file = fopen(name, "r");
    char *line = NULL;
    unsigned widest = 1;
    size_t size = 0;
    while (2 * widest <= cpu_count) widest *= 2;
    for (ssize_t length; file && (length = getline(&line, &size, file)) > 0; line = NULL, size = 0) {
        unsigned long number[2] = {0, 0};
        char *text = line, *end = line;
        for (int i = 0; i < 2 && (i == 0 || text > end); i++) {
            size_t digits = strspn(text, "0123456789");
            number[i] = digits ? strtoul(text, &end, 10) : ~0ul;
            if (digits) text = end + strspn(end, " \t");
        }
        line[length - (line[length - 1] == '\n')] = 0;
        if (number[0] < 1 || number[0] > widest || number[1] > LONGEST || text == end || !*text ||
            memchr(line, 0, (size_t)length - 1))
            fprintf(stderr, "%s:%u: not 1 to %u CPUs, seconds and a command\n", name, count + 1, widest), exit(2);
        if (!(jobs = realloc(jobs, (count + 1) * sizeof *jobs))) die(name);
        struct job *job = &jobs[count++];
        *job = (struct job){.line = count, .want = (unsigned)number[0], .estimate = number[1], .text = text};
    }
    if (!file || ferror(file)) die(name);
    free(line), fclose(file);
}

// Submits all commands. The machine has a power of two of CPUs: those that are not there are out of service.
static void submit_jobs(void) {
    struct cubejobs_plan_options options = {.jobs = count ? count : 1, .patience = 16};
    while (1u << options.dim < cpu_count) options.dim++;
    must(cubejobs_plan_open(&plan, options, NULL));
    for (unsigned p = cpu_count; p < 1u << options.dim; p++) must(cubejobs_plan_occupy(&plan, p, 0));
    for (unsigned i = 0; i < count; i++) {
        struct cubejobs_plan_job it = cubejobs_plan_submit(
            &plan, (struct cubejobs_plan_request){i, jobs[i].estimate * 1000, jobs[i].want, 0});
        must(it.code), jobs[i].ticket = it.ticket;
    }
}

static uint64_t milliseconds(void) {
    struct timespec now;
    if (clock_gettime(CLOCK_MONOTONIC, &now)) die("the clock");
    return (uint64_t)now.tv_sec * 1000 + (uint64_t)now.tv_nsec / 1000000;
}

static void run(const struct job *job) { // in the child
    char number[16];
    cpu_set_t set;
    CPU_ZERO(&set);
    for (uint64_t p = job->base; p < job->base + job->want; p++) CPU_SET(cpus[p] % CPU_SETSIZE, &set);
    snprintf(number, sizeof number, "%u", job->want);
    if (dup2(open("/dev/null", O_RDONLY), 0) == 0 && !setenv("OMP_NUM_THREADS", number, 1) && !setpgid(0, 0) &&
        !sched_setaffinity(0, sizeof set, &set) && !sigprocmask(SIG_SETMASK, &before, NULL))
        execl("/bin/sh", "sh", "-c", job->text, (char *)NULL);
    perror("pinjobs: a command"), _exit(126);
}

// Starts what may start now. Returns whether all went well.
static int start_jobs(void) {
    for (struct cubejobs_plan_job it; (it = cubejobs_plan_next(&plan, milliseconds())).code == CUBEJOBS_PLAN_DONE;) {
        struct job *job = &jobs[it.payload];
        job->base = it.base;
        if ((job->pid = fork()) == 0) run(job);
        if (job->pid < 0) return perror("pinjobs: fork"), must(cubejobs_plan_finish(&plan, it.ticket).code), 0;
        setpgid(job->pid, job->pid);
    }
    return 1;
}

// Cancels what waits, and sends a signal to what runs.
static void stop_jobs(int number) {
    for (unsigned i = 0; i < count; i++)
        if (cubejobs_plan_cancel(&plan, jobs[i].ticket).code == CUBEJOBS_PLAN_WRONG_STATE && number) kill(-jobs[i].pid, number);
}

int main(int argc, char **argv) {
    if (argc != 3) return fprintf(stderr, "usage: pinjobs FILE LOG\n"), 2;
    unsigned failed = 0, stops = 0, broken = 0;
    find_cpus(), read_jobs(argv[1]), submit_jobs();
    FILE *log = fopen(argv[2], "a");
    if (!log) die(argv[2]);
    sigemptyset(&signals), sigaddset(&signals, SIGINT), sigaddset(&signals, SIGTERM), sigaddset(&signals, SIGCHLD);
    sigprocmask(SIG_BLOCK, &signals, &before);
    for (int is_stop, status;;) {
        if (!start_jobs()) broken = 1, stop_jobs(0);
        if (!cubejobs_plan_counts(&plan).running) return broken ? 3 : stops ? 130 : failed > 0;
        status = sigwaitinfo(&signals, NULL), is_stop = status == SIGINT || status == SIGTERM;
        for (pid_t pid; (pid = waitpid(-1, &status, WNOHANG)) > 0; failed += status != 0) {
            struct job *job = jobs;
            while (job->pid != pid) job++;
            must(cubejobs_plan_finish(&plan, job->ticket).code), job->pid = 0;
            fprintf(log, "%u\t%d\t", job->line, WIFEXITED(status) ? WEXITSTATUS(status) : 128 + WTERMSIG(status));
            for (unsigned i = 0; i < job->want; i++) fprintf(log, "%d ", (int)(cpus[job->base + i] % CPU_SETSIZE));
            fprintf(log, "\t%s\n", job->text);
        }
        if (fflush(log) && !broken) perror(argv[2]), broken = 1, stop_jobs(0); // what runs may end
        if (is_stop) stop_jobs(stops++ ? SIGKILL : SIGTERM);
    }
}
