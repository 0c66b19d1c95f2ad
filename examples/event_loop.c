// A scheduler of shell commands with one event loop: `event_loop DIM` reads requests from a pipe. A
// line is a number of processors, an estimate in seconds (0: not known) and a command, as in
// `4 60 ./simulate --case 7`. A command runs as a child, and finds its processors in
// CUBEJOBS_PROCESSORS, as 0-3. Ctrl-C cancels what waits, and a second one ends what runs. The
// status is 0, or 1 if a line was bad or the system refused a call.
//
//     cc -Iinclude examples/event_loop.c release/linux-x86_64/libcubejobs_plan.a -o event_loop
//     printf '4 60 sleep 1\n8 60 echo all\n2 1 echo few\n' | ./event_loop 3
#define _GNU_SOURCE
#include <fcntl.h>
#include <inttypes.h>
#include <poll.h>
#include <signal.h>
#include <stdio.h>
#include <stdlib.h>
#include <string.h>
#include <sys/signalfd.h>
#include <sys/wait.h>
#include <time.h>
#include <unistd.h>

#include "cubejobs_plan.h"

enum { JOBS = 10000, LINE = 4096, NEVER = 1000000000 };
static struct job { uint64_t ticket; pid_t pid; char *command; } jobs[JOBS + 1]; // by their numbers, from 1 on
static struct cubejobs_plan plan;
static unsigned count, left, stops, failed;
static sigset_t signals, before;

static void die(const char *what) { fprintf(stderr, "event_loop: "), perror(what), exit(1); }

static uint64_t milliseconds(void) {
    struct timespec now;
    clock_gettime(CLOCK_MONOTONIC, &now);
    return (uint64_t)now.tv_sec * 1000 + (uint64_t)now.tv_nsec / 1000000;
}

static void run(const char *processors, const char *command) { // in the child
    if (!setenv("CUBEJOBS_PROCESSORS", processors, 1) && !setpgid(0, 0) && dup2(open("/dev/null", O_RDONLY), 0) == 0 &&
        !sigprocmask(SIG_SETMASK, &before, NULL))
        execl("/bin/sh", "sh", "-c", command, (char *)NULL);
    perror("event_loop: a command"), _exit(126);
}

// Starts each job that may start now. It is called after each event.
static void start_jobs(void) {
    for (struct cubejobs_plan_job start; (start = cubejobs_plan_next(&plan, milliseconds())).code == CUBEJOBS_PLAN_DONE;) {
        struct job *job = &jobs[start.payload];
        char processors[32];
        snprintf(processors, sizeof processors, "%u-%u", (unsigned)start.base, (unsigned)start.base + start.processors - 1);
        printf("%u starts on %s\n", (unsigned)start.payload, processors);
        if ((job->pid = fork()) == 0) run(processors, job->command);
        if (job->pid < 0) die("fork");
        setpgid(job->pid, job->pid);
    }
}

// Submits the job of a line. A bad line is named, and the others go on.
static void submit(char *line) {
    struct cubejobs_plan_request request = {.payload = count + 1};
    int at = 0;
    const int found = sscanf(line, "%u %" SCNu64 " %n", &request.processors, &request.estimate, &at);
    struct cubejobs_plan_job answer = {.code = CUBEJOBS_PLAN_OUT_OF_RANGE};
    if (found == 2 && line[at] && request.estimate < NEVER && count < JOBS) {
        request.estimate *= 1000;
        answer = cubejobs_plan_submit(&plan, request);
    }
    if (answer.code != CUBEJOBS_PLAN_DONE) {
        fprintf(stderr, "event_loop: '%s': %s\n", line, cubejobs_code_text(answer.code)), failed = 1;
        return;
    }
    jobs[++count] = (struct job){answer.ticket, 0, strdup(line + at)}, left++;
    if (!jobs[count].command) die("memory");
}

// Ends the jobs whose children have ended.
static void reap(void) {
    int status;
    for (pid_t pid; (pid = waitpid(-1, &status, WNOHANG)) > 0; left--) {
        unsigned number = 1;
        while (jobs[number].pid != pid) number++;
        if (cubejobs_plan_finish(&plan, jobs[number].ticket).code != CUBEJOBS_PLAN_DONE) abort();
        printf("%u ends with %d\n", number, WIFEXITED(status) ? WEXITSTATUS(status) : 128 + WTERMSIG(status));
    }
}

// Cancels what waits. The second time it ends what runs.
static void stop(void) {
    for (unsigned number = 1; number <= count; number++) {
        const struct cubejobs_plan_job job = cubejobs_plan_cancel(&plan, jobs[number].ticket);
        if (job.code == CUBEJOBS_PLAN_DONE) printf("%u is cancelled\n", number), left--;
        if (job.code == CUBEJOBS_PLAN_WRONG_STATE && stops) kill(-jobs[number].pid, SIGTERM);
    }
    stops++;
}

int main(int argc, char **argv) {
    const struct cubejobs_plan_options options = {argc == 2 ? (uint32_t)atoi(argv[1]) : ~0u, JOBS, 16, 0};
    if (cubejobs_plan_open(&plan, options, NULL)) return fprintf(stderr, "usage: event_loop DIM\n"), 1;
    setvbuf(stdout, NULL, _IOLBF, 0);
    sigemptyset(&signals), sigaddset(&signals, SIGCHLD), sigaddset(&signals, SIGINT);
    sigprocmask(SIG_BLOCK, &signals, &before);
    struct pollfd from[] = {{0, POLLIN, 0}, {signalfd(-1, &signals, SFD_NONBLOCK | SFD_CLOEXEC), POLLIN, 0}};
    if (from[1].fd < 0) die("signals");
    static char line[LINE];
    size_t have = 0;
    for (struct signalfd_siginfo signal; from[0].fd == 0 || left; start_jobs()) {
        if (poll(from, 2, -1) < 0) die("poll");
        while (read(from[1].fd, &signal, sizeof signal) > 0)
            if (reap(), signal.ssi_signo == SIGINT) stop(), from[0].fd = -1;
        if (from[0].fd || !from[0].revents) continue;
        const ssize_t got = read(0, line + have, LINE - have);
        have += got > 0 ? (size_t)got : 0;
        for (char *end; (end = memchr(line, '\n', have)); memmove(line, end + 1, have))
            *end = 0, submit(line), have -= (size_t)(end + 1 - line);
        if (got <= 0 || have == LINE) from[0].fd = -1; // the pipe ended, or a line is too long
    }
    return cubejobs_plan_close(&plan) || failed || have;
}
