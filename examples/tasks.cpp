// A small batch scheduler in C++17: a pool of threads that runs functions, each on processors of its
// own. A function may throw. Then its processors are free at once, and the others go on. The output
// is examples/tasks.out.
#include <cstdio>
#include <functional>
#include <stdexcept>
#include <string>
#include <thread>
#include <vector>

#include "cubejobs_sched.hpp"

using std::chrono::milliseconds;
using std::chrono::nanoseconds;

struct task {
    std::string name;
    std::uint32_t processors, job_class; // tasks of a lower class come first
    milliseconds estimate;               // how long it runs at most, or 0
    std::function<void(const cubejobs::allocation &)> act;
    std::string result; // its worker writes this, and the main thread reads it after a join
};

// Runs tasks until none will start any more. The payload of a job is the number of its task.
static void work(cubejobs::sched_worker worker, std::vector<task> &tasks) {
    while (cubejobs::allocation job = worker.next()) { // at its end the job is done, also by an exception
        task &mine = tasks[job.payload()];
        try {
            mine.act(job);
            mine.result = "ran on " + std::to_string(job.processors()) + " processors";
        } catch (const std::exception &wrong) {
            mine.result = std::string("failed: ") + wrong.what();
        }
    }
}

// Runs all tasks on 2^dim processors, at most `workers` at once.
static void run(std::vector<task> &tasks, std::uint32_t dim, std::uint32_t workers) {
    cubejobs::scheduler sched({dim, 64, 16, workers});
    std::vector<std::thread> threads;
    for (std::uint32_t i = 0; i < workers; i++) threads.emplace_back(work, sched.worker(), std::ref(tasks));
    for (std::size_t i = 0; i < tasks.size(); i++) {
        const auto estimate = static_cast<std::uint64_t>(nanoseconds(tasks[i].estimate).count());
        const auto code = sched.submit({i, estimate, tasks[i].processors, tasks[i].job_class}).code;
        if (code != CUBEJOBS_SCHED_DONE) tasks[i].result = cubejobs_code_text(code);
    }
    sched.close(cubejobs::waiting::runs); // the workers run what waits, and then they end
    for (std::thread &thread : threads) thread.join();
}

int main() {
    const auto sleep = [](const cubejobs::allocation &) { std::this_thread::sleep_for(milliseconds(2)); };
    const auto fail = [](const cubejobs::allocation &) { throw std::runtime_error("no such file"); };
    std::vector<task> tasks = {
        {"compile", 8, 0, milliseconds(9), sleep, ""}, {"link", 2, 0, milliseconds(9), sleep, ""},
        {"test", 16, 0, milliseconds(9), sleep, ""},   {"copy", 2, 1, milliseconds(9), fail, ""},
        {"pack", 3, 1, milliseconds(0), sleep, ""},    {"render", 32, 1, milliseconds(0), sleep, ""}};
    run(tasks, 4, 4);
    for (const task &one : tasks) std::printf("%s %s\n", one.name.c_str(), one.result.c_str());
}
