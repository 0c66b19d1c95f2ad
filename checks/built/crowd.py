"""Has many threads use the bitmap tree and the job lanes at length, and looks at what they count.

Sixteen threads take blocks of mixed sizes, keep several, and release them in any order, over a table with a bit for
each processor (`library_bench blocks`). No processor may be in two blocks at once, all takes must be made, and the words
must be those of a new machine in the end. Sixteen producers submit jobs to lanes, from which eight workers take them
(`library_bench jobs`). Each job must come out once, with its payload and its dimension, and in the order of its lane.
`checks/run crowd [CALLS]` makes 10^8 takes of blocks and 10^7 submits of jobs, or at least this number of each.
"""
import os

from checks.lib.repository import path
from checks.lib.rows import Row, answer, must, must_answer, run_rows

BENCH = path("crates/library_bench/out/library_bench")
THREADS, WORKERS, CAPACITY = 16, 8, 64
TAKES, JOBS, SECONDS = 10**8, 10**7, 7200


def make_takes(each):
    """Has each thread make this number of takes."""
    wanted = f"{THREADS * each} 0 true\n"
    must_answer([BENCH, "blocks", str(THREADS), str(each)], "", 0, wanted, "", timeout=SECONDS)


def pass_jobs(each):
    """Has each producer submit this number of jobs."""
    words = [BENCH, "jobs", str(THREADS), str(WORKERS), str(CAPACITY), str(each)]
    status, out, said = answer(words, timeout=SECONDS)
    must(status == 0 and out.decode() == f"{THREADS * each} {THREADS * each} 0\n",
         f"status {status}, {out!r}, {said!r}")


def main(words):
    must(os.path.exists(BENCH), "library_bench is not built: cd crates/library_bench && rt run")
    takes, jobs = (-(-int(words[0] if words else most) // THREADS) for most in (TAKES, JOBS))
    rows = [Row(f"{THREADS * takes} takes", make_takes, (takes,)), Row(f"{THREADS * jobs} jobs", pass_jobs, (jobs,))]
    return run_rows("crowd", rows, says_ok=True)
