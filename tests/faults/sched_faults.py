"""What may be wrong with cubejobs_sched.hpp and with the naps of cubejobs_sched.h (a part of ffi).

Without one of these lines an owner ends what is not its own, or leaves what is. sched_owners.cpp must see it. Or a
thread that naps loses a wake, which sched_random.c must see.
"""
from checks.lib.c_programs import RACE
from tests.faults.wait_faults import LOST

# What a program says that sees a fault: one of its own statements does not hold, or a thread sleeps for too long. Which
# of them comes first depends on the order of the threads.
SEEN = (b", part ", LOST)
LOCK = "        std::lock_guard<std::mutex> locked(turn);\n"
END, LEAVE = (f"    {it} {{\n" for it in ("cubejobs_sched_code end(std::uint64_t ticket)", "void leave()"))
# What is wrong, the lines and what is there instead, and what is said then, if that is not SEEN.
OF_OWNERS = (
    ("an old allocation ends a newer job", "if (!runs(ticket)) return", "if (!running || !ticket) return"),
    ("a job that its worker ended runs", f"    {LOCK}            running = 0;\n", f"    {LOCK}"),
    ("a worker leaves while its job runs", "if (!running && !is_lost())", "if (!is_lost())"),
    ("a worker stays after its last job", "is_left ? cubejobs_sched_leave(&at) : ", ""),
    ("no worker is lost", "return all->losses[at.number] != losses;", "return false;"),
    ("the end of an owner does not close", "~scheduler() { close(waiting::runs); }", "~scheduler() = default;"),
    ("a job does not end with its allocation", "~allocation() { done(); }", "~allocation() = default;",
     b"cubejobs::error", *SEEN),
    ("a time that has passed is no deadline", "return all ? all : 1;", "return all;"),
)
# The same of what only a sanitizer sees.
LEAKS = ("jobs that wait at the end are kept",
         "        while (cubejobs_sched_rest(&at).code == CUBEJOBS_SCHED_DONE) {}\n", "",
         b"LeakSanitizer")
OF_RACES = (
    ("two threads end a job", f"{END}{LOCK}", END, RACE),
    ("a worker leaves beside the end of its job", f"{LEAVE}{LOCK}", LEAVE, RACE),
    ("a worker goes on beside the end of its job", f"    {LOCK}            running = 0;\n",
     "            running = 0;\n", RACE),
)
# The same of the header.
OF_NAPS = (
    ("a submit that has napped is not counted", "    order->naps = 0;\n", ""),
    ("a worker forgets a job that came as it napped", "    worker->streak = 0;\n    __atomic_fetch_add",
     "    worker->streak = 0;\n    __atomic_store_n(&word->value, CUBEJOBS_SCHED_AWAKE, __ATOMIC_SEQ_CST);\n    __atomic_fetch_add"),
)
