"""Runs jobs in worker processes, each on a block of one machine. The parent takes and releases; a worker gets the first
processor and the dimension of its block.

    PYTHONPATH=python python3 examples/processes.py
"""
from concurrent.futures import FIRST_COMPLETED, Future, ProcessPoolExecutor, wait
from typing import Dict, List

from cubejobs import Block, NoRoom, Region, Regions

# The dimension of the block that each job needs.
JOBS = [dim for dim in range(4) for _ in range(10)]


def work(region: Region) -> int:
    """Uses the processors of a block, in a worker. Here it only counts them."""
    return len(region.processors)


def run(machine: Regions, dims: List[int]) -> int:
    """Runs a job for each dimension, the largest first, and returns how many processors they had in all."""
    waiting, used = sorted(dims), 0
    running: Dict["Future[int]", Block] = {}
    with ProcessPoolExecutor(4) as workers:
        while waiting or running:
            try:
                while waiting:
                    block = machine.take(waiting[-1])
                    running[workers.submit(work, block.region)] = block
                    waiting.pop()
            except NoRoom:
                pass
            for job in wait(running, return_when=FIRST_COMPLETED).done:
                used += job.result()
                running.pop(job).release()
    return used


if __name__ == "__main__":
    with Regions(4) as machine:
        used = run(machine, JOBS)
    print(f"{len(JOBS)} jobs had {used} processors in all")
