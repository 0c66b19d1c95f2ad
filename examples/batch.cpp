// A batch scheduler in C++17. Each line of a file is a job with two numbers. It runs on as many of
// 16 processors as the first says (1 to 16), for as many milliseconds as the second says. Here a job
// only sleeps. Two threads submit the jobs, and four run them. No two running jobs share a
// processor. The scheduler says which job runs next, and lets threads sleep while they wait.
//
// On Ctrl-C the jobs that run end, and no other begins. Those that are left are printed, as lines
// of a file. The status is 0, or 3 if jobs are left.
#include <atomic>
#include <chrono>
#include <csignal>
#include <cstdio>
#include <cstdlib>
#include <exception>
#include <fstream>
#include <iostream>
#include <sstream>
#include <string>
#include <thread>
#include <vector>
#include <unistd.h>

#include "cubejobs_sched.hpp"

using std::chrono::milliseconds;
using std::chrono::nanoseconds;

constexpr unsigned dim = 4, processors = 1 << dim, submitters = 2, workers = 4, places = 64;

struct job {
    unsigned processors, ms;
    bool ran; // its worker writes this, and the main thread reads it after the worker has ended
};

struct batch {
    std::vector<job> jobs = {};
    std::atomic<std::size_t> ended{0};
    cubejobs::scheduler sched{{dim, places, 16, workers}};
};

// Submits each second job. While there is no place for a job, the thread sleeps.
static void submit(batch &all, std::size_t first) {
    for (std::size_t i = first; i < all.jobs.size(); i += submitters) {
        const auto estimate = static_cast<std::uint64_t>(nanoseconds(milliseconds(all.jobs[i].ms + 1)).count());
        const auto code = all.sched.submit({i, estimate, all.jobs[i].processors, 0}).code;
        if (code == CUBEJOBS_SCHED_CLOSED) break;
        if (code == CUBEJOBS_SCHED_DONE) continue;
        std::fprintf(stderr, "batch: submit: %s\n", cubejobs_code_text(code));
        std::exit(1);
    }
}

// Runs jobs until none will start any more.
static void work(batch &all, cubejobs::sched_worker worker) {
    while (cubejobs::allocation running = worker.next()) { // the job ends with it
        job &mine = all.jobs[running.payload()];
        std::this_thread::sleep_for(milliseconds(mine.ms)); // it has the processors from running.base() on
        mine.ran = true;
        all.ended++;
    }
}

// Reads the jobs. Ends the program at a line that is not a job.
static void read_jobs(std::vector<job> &jobs, const char *name) {
    std::ifstream file(name);
    for (std::string line; file && std::getline(file, line);) {
        std::istringstream words(line);
        long wanted = 0, ms = -1;
        if (words >> wanted >> ms && (words >> std::ws).eof() && wanted >= 1 && wanted <= processors && ms >= 0 &&
            ms < 1000000000) {
            jobs.push_back({unsigned(wanted), unsigned(ms), false});
            continue;
        }
        std::cerr << name << ':' << jobs.size() + 1 << ": not processors and milliseconds\n";
        std::exit(2);
    }
    if (file.eof()) return;
    std::perror(name);
    std::exit(2);
}

// Shows a line of progress, if standard error is a terminal.
static void show(const batch &all, const char *end) {
    const auto counts = all.sched.counts();
    if (!isatty(2)) return;
    std::cerr << '\r' << all.ended << " of " << all.jobs.size() << " jobs ran, " << counts.waiting << " wait, and "
              << counts.running << " run on " << counts.asked << " of " << processors << " processors" << end;
}

// Runs all jobs, or on Ctrl-C those that have begun.
static void run(batch &all, const sigset_t &interrupt) {
    const timespec tick = {0, 20000000};
    std::vector<std::thread> threads;
    for (unsigned i = 0; i < workers; i++) threads.emplace_back(work, std::ref(all), all.sched.worker());
    for (unsigned i = 0; i < submitters; i++) threads.emplace_back(submit, std::ref(all), i);
    while (all.ended < all.jobs.size() && sigtimedwait(&interrupt, nullptr, &tick) != SIGINT) show(all, "   ");
    all.sched.close(cubejobs::waiting::comes_back); // the jobs that wait do not run
    for (std::thread &thread : threads) thread.join();
    show(all, "\n");
}

int main(int argc, char **argv) {
    sigset_t interrupt;
    if (argc != 2) return std::fprintf(stderr, "usage: batch FILE\n"), 2;
    sigemptyset(&interrupt), sigaddset(&interrupt, SIGINT);
    pthread_sigmask(SIG_BLOCK, &interrupt, nullptr); // in all threads: only sigtimedwait takes it
    try {
        batch all;
        read_jobs(all.jobs, argv[1]);
        run(all, interrupt);
        const std::size_t left = all.jobs.size() - all.ended;
        std::cout << all.ended << " of " << all.jobs.size() << " jobs ran" << (left ? ", and these are left:\n" : "\n");
        for (const job &one : all.jobs)
            if (!one.ran) std::cout << one.processors << ' ' << one.ms << '\n';
        return !std::cout.flush() ? 1 : left ? 3 : 0;
    } catch (const std::exception &wrong) {
        std::fprintf(stderr, "batch: %s\n", wrong.what());
        return 1;
    }
}
