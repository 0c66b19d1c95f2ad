/* Stops a thread before one of its atomic instructions, in scripts of the orders of threads (x86-64, Linux). A thread
 * that has called `step` traps after each instruction. It goes on until it has made as many atomic ones as `arm` said,
 * and then it waits for `may_go`. */
#ifndef _GNU_SOURCE
#define _GNU_SOURCE
#endif
#include "cubejobs_wait.h"

#include <signal.h>
#include <stdio.h>
#include <string.h>
#include <sys/syscall.h>
#include <ucontext.h>
#include <unistd.h>

/* How long a thread may wait for what is free, in seconds. */
#ifndef PATIENCE
#define PATIENCE 60
#endif
#define TRAP_FLAG 0x100

static __thread int is_stepped;
/* How many atomic instructions the stepped thread still makes before it stops. At 0 it does not stop. */
static int left;
static int is_stopped, may_go;

static int get(int *flag) { return __atomic_load_n(flag, __ATOMIC_SEQ_CST); }
static void set(int *flag, int value) { __atomic_store_n(flag, value, __ATOMIC_SEQ_CST); }

/* Whether an instruction is atomic: it has the prefix `lock`, or it is an exchange with memory. */
static int is_atomic(const unsigned char *code) {
    if (*code == 0xf0) return 1;
    if (*code == 0x66) code++;
    if ((*code & 0xf0) == 0x40) code++;
    return (*code == 0x86 || *code == 0x87) && code[1] < 0xc0;
}

static void trap(int number, siginfo_t *info, void *context) {
    greg_t *registers = ((ucontext_t *)context)->uc_mcontext.gregs;
    (void)number, (void)info;
    if (!is_stepped) {
        registers[REG_EFL] &= ~TRAP_FLAG;
        return;
    }
    registers[REG_EFL] |= TRAP_FLAG;
    if (!get(&left) || !is_atomic((const unsigned char *)registers[REG_RIP])) return;
    if (__atomic_sub_fetch(&left, 1, __ATOMIC_SEQ_CST)) return;
    set(&is_stopped, 1);
    while (!get(&may_go)) sched_yield();
}

static void lose(int number) {
    static const char said[] = "a wake is lost\n";
    (void)number;
    _exit(write(2, said, sizeof said - 1) ? 1 : 2);
}

/* Has this thread trap from now on, until it clears `is_stepped`. */
static void step(void) {
    is_stepped = 1;
    raise(SIGTRAP);
}

static int traps(void) {
    struct sigaction action;
    memset(&action, 0, sizeof action);
    action.sa_sigaction = trap, action.sa_flags = SA_SIGINFO;
    return !sigaction(SIGTRAP, &action, 0) && signal(SIGALRM, lose) != SIG_ERR;
}

/* Begins a script, or its next part: the stepped thread makes this number of steps, for 0 any number. */
static void arm(int steps) {
    alarm(PATIENCE);
    set(&may_go, 0), set(&is_stopped, 0), set(&left, steps);
}

/* Whether a thread of this process sleeps. */
static int sleeps(int tid) {
    char name[64], state = 0;
    FILE *file;
    if (!tid) return 0;
    snprintf(name, sizeof name, "/proc/self/task/%d/stat", tid);
    file = fopen(name, "r");
    if (!file) return 0;
    if (fscanf(file, "%*d %*s %c", &state) != 1) state = 0;
    fclose(file);
    return state == 'S';
}

/* Runs a script with a stop before each atomic instruction in turn, until none is stopped. Returns how many were. */
static int in_all_orders(int (*script)(int)) {
    int steps = 1;
    while (script(steps)) steps++;
    return steps - 1;
}
