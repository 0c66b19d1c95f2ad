// Owners of lanes. Four threads submit numbers, each by a lane of its own, and four workers add them
// up. A producer sleeps while its lane is full. In C++20 a worker without a job sleeps. Before, it
// tries again. The output is examples/lanes.out.
#include <cstdio>
#include <thread>
#include <vector>

#include "cubejobs.hpp"

constexpr unsigned threads = 4, numbers = 100000;

// Submits the numbers from 1 on.
static void produce(cubejobs::lane lane) {
    for (unsigned i = 1; i <= numbers; i++)
        if (lane.submit_or_wait(i, 0).code != CUBEJOBS_LANES_DONE) return;
}

// Adds numbers up, until there are none and none will come.
static void consume(cubejobs::worker worker, unsigned long *sum) {
    for (;;) {
#ifdef CUBEJOBS_SLEEPS
        const auto job = worker.next();
#else
        const auto job = worker.try_next();
#endif
        if (job.code == CUBEJOBS_LANES_ENDED) return;
        if (job.code == CUBEJOBS_LANES_DONE) *sum += job.payload;
        else std::this_thread::yield();
    }
}

static void join(std::vector<std::thread> &all) {
    for (std::thread &one : all) one.join();
}

int main() {
    unsigned long sums[threads] = {0}, sum = 0;
    std::vector<std::thread> producers, workers;
    cubejobs::lanes lanes(threads, threads, 64);
    for (unsigned long &mine : sums) {
        workers.emplace_back(consume, lanes.worker(), &mine);
        producers.emplace_back(produce, lanes.lane());
    }
    join(producers);
    const unsigned long jobs = static_cast<unsigned long>(lanes.close().accepted);
    join(workers); // they have taken what was left
    for (unsigned long mine : sums) sum += mine;
    std::printf("%lu jobs, with a sum of %lu\n", jobs, sum);
    return !lanes.finish().empty();
}
