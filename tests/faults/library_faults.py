"""What may be wrong with the libraries for C: the faults of tests/c/wrong_*.c in the order of their numbers, from 1 on.

Each library that has faults stands before the functions that it wraps.
"""
from checks.lib.c_programs import CALLS

KILLS, SCHED_CALLS, SCHED_RANDOM = "tests/c/fit_kills.c", CALLS("sched"), "tests/c/sched_random.c"
WRAPPED = {
    "fit": [f"cubejobs_image_{it}" for it in ("take", "release", "split", "join", "repair", "check")],
    "lanes": [f"cubejobs_lanes_{it}" for it in ("take", "take_any", "close", "rest", "submit")],
    "regions": [f"cubejobs_regions_{it}" for it in ("take", "release", "free", "split")],
    "sched": [*(f"cubejobs_sched_try_{it}" for it in (
        "submit", "cancel", "worker", "next", "give_up", "done", "leave", "lost", "occupy", "vacate", "close", "rest",
        "settle", "forecast", "counts")), "syscall"],
    "sleep": [f"cubejobs_lanes_{it}" for it in ("wake", "find", "awake")],
}
# What is wrong with a library of regions, and what the calls say then.
OF_REGIONS = (
    ("each taker gets the first block", b"has two owners"),
    ("a release by another thread does nothing", b"take_at"),
    ("the last handle is shut although a block is held", b"another answer"),
    ("a split forgets a half", b"another answer"),
)
# What is wrong with a library of first fit, the program that sees it, and what that says.
OF_FIT = (
    ("a take gives the second fit", CALLS("fit"), b": take"),
    ("a release of a part succeeds", CALLS("fit"), b": release"),
    ("a split loses a half", CALLS("fit"), b"fit_calls.c:"),
    ("a repair does nothing", CALLS("fit"), b"the image after a repair"),
    ("a repair of what a process has left does nothing", KILLS, b"happened in part"),
    ("an attach accepts each image", CALLS("fit"), b"attach accepts"),
    ("a count is not updated", CALLS("fit"), b"free blocks"),
    ("a split holds nothing for a moment", KILLS, b"happened in part"),
    ("a join holds nothing for a moment", KILLS, b"happened in part"),
)
# What is wrong with a library of lanes: the calls say of each that there is another answer.
OF_LANES = (
    "some jobs come twice",
    "a job loses its dimension",
    "a close counts too few",
    "jobs that are left are forgotten",
    "a submit submits twice",
    "a submit submits another job first",
)
# What is wrong with a library of the scheduler, and the program that sees it, with its words.
OF_SCHED = (
    ("a start is given to two workers", SCHED_CALLS, "crowd 3 4 4 3000"),
    ("a cancel loses the job", SCHED_RANDOM, "5 40"),
    ("a deadline is ignored", SCHED_RANDOM, "5 40"),
    ("a submit names no worker", SCHED_RANDOM, "5 40"),
    ("a job that starts at a deadline is lost", SCHED_RANDOM, "races 3000"),
    ("a call never says that more may start", SCHED_CALLS, "one"),
    ("a call never says that all is over", SCHED_CALLS, "crowd 3 4 4 3000"),
    ("a wake by the system is lost", SCHED_CALLS, "one"),
    ("a rest loses a job", SCHED_RANDOM, "5 40"),
    ("a block that is occupied is in service", SCHED_RANDOM, "5 40"),
)
