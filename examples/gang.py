"""Runs five gangs of threads on eight processors. While a gang runs, no other one has its processors, so what it does
there needs no lock. The scheduler says which gang is next.

    PYTHONPATH=python python3 examples/gang.py
"""
import threading
from typing import List

from cubejobs import Scheduler, current_processors

DIM, SIZES = 3, (3, 8, 2, 4, 6)
# What each processor has added up.
sums = [0] * (1 << DIM)


def part(processor: int, place: int, size: int, numbers: List[int]) -> None:
    """Adds up one part of the numbers, on one processor."""
    sums[processor] += sum(numbers[place::size])


def gang(numbers: List[int]) -> int:
    """Shares the numbers among the processors of this job, each with a thread. Returns how many it has."""
    processors = current_processors()
    threads = [threading.Thread(target=part, args=(it, place, len(processors), numbers))
               for place, it in enumerate(processors)]
    for thread in threads:
        thread.start()
    for thread in threads:
        thread.join()
    return len(processors)


if __name__ == "__main__":
    with Scheduler(DIM) as scheduler:
        jobs = [scheduler.submit(gang, list(range(1000)), processors=size, estimate=0.01) for size in SIZES]
        for number, job in enumerate(jobs, 1):
            print(f"job {number} ran on {job.result()} processors")
    print(f"{sum(sums)} in all")
