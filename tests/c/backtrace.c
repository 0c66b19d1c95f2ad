/* Crashes inside a call of the library, by a null pointer, and shows the frames of the crash. */
#include <execinfo.h>
#include <signal.h>
#include <unistd.h>

#include "cubejobs_regions.h"

void crash(void);

static void show(int number) {
    void *frames[64];
    backtrace_symbols_fd(frames, backtrace(frames, 64), 1);
    _exit(number == SIGSEGV ? 0 : 1);
}

__attribute__((noinline)) void crash(void) {
    static struct cubejobs_regions machine;
    void *loaded[1];
    backtrace(loaded, 1); /* loads what it needs, which a signal handler may not */
    if (cubejobs_regions_open(&machine, 3)) _exit(2);
    _exit((int)cubejobs_regions_take(&machine, 0, 1).code + 3);
}

int main(void) {
    signal(SIGSEGV, show);
    crash();
    return 9;
}
