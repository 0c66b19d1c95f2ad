// Threads take blocks, and another thread releases them: owners of C++11. The output is
// examples/blocks.out.
#include <cstdio>
#include <mutex>
#include <thread>
#include <vector>

#include "cubejobs.hpp"

static std::mutex lock;
static std::vector<cubejobs::block> left; // guarded by `lock`

// Takes blocks with a handle of its own, and leaves every second one for another thread.
static void work(cubejobs::machine mine, unsigned turns) {
    for (unsigned turn = 0; turn < turns; turn++) {
        cubejobs::block taken = mine.take(turn % 4);
        if (!taken) taken = mine.take_exact(turn % 4);
        if (!taken || turn % 2) continue; // here an owner ends, and its block is released
        cubejobs::block half = mine.split(taken);
        mine.join(taken, half);
        std::lock_guard<std::mutex> guard(lock);
        left.push_back(std::move(taken));
    }
}

// Releases what the others have left, through a handle of its own. Returns the number of blocks.
static unsigned long sweep(cubejobs::machine &mine) {
    std::lock_guard<std::mutex> guard(lock);
    unsigned long count = left.size();
    for (cubejobs::block &block : left) mine.adopt(block);
    left.clear();
    return count;
}

int main() {
    cubejobs::machine mine(10);
    std::vector<std::thread> threads;
    unsigned long swept = 0;
    for (int i = 0; i < 4; i++) threads.emplace_back(work, mine.share(), 1000);
    for (int i = 0; i < 100; i++) swept += sweep(mine);
    for (std::thread &thread : threads) thread.join();
    swept += sweep(mine);

    cubejobs::first_fit one_thread(4);
    cubejobs::first_fit::block four = one_thread.take(2), pair = one_thread.take(1);
    if (swept == 0 || mine.occupancy().held != 0) return 1;
    std::printf("each block was released once; exact first fit gives %d and %d\n", int(four.base()), int(pair.base()));
}
