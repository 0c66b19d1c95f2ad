"""A program of a user, whose types mypy must find right: one function serves both machines."""
import copy
from concurrent.futures import Executor, Future, wait
from typing import List, Optional, Union

from cubejobs import (Block, Counts, FirstFit, Forecast, Job, Machine, NoRoom, Occupancy, Planner, Region, Regions,
                      Scheduler, SchedulerCounts, SchedulerFuture, State, current_processors)


def fill(machine: Machine, dim: int) -> List[Block]:
    """Takes blocks until there is no room."""
    found: List[Block] = []
    try:
        while True:
            found.append(machine.take(dim))
    except NoRoom:
        return found


def width(it: Union[Block, Region]) -> int:
    return len(it.processors) + it.base - it.region.base


def plan(machine: FirstFit, dim: int, reserved: Union[Block, Region]) -> Optional[Region]:
    """Finds a block apart from another one, and takes it in a copy."""
    other: FirstFit = copy.copy(machine)
    found = other.first_apart(dim, reserved)
    if found is None or other.first(dim) is None:
        return other.largest()
    other.take_at(*found)
    kept: FirstFit = FirstFit.from_image(other.dim, other.image())
    return kept.block_with(found.base)


def starts(planner: Planner, now: int) -> List[range]:
    """Starts all jobs that may start, and says which processors they have."""
    found: List[range] = [job.processors for job in planner.starts(now)]
    waiting: List[Job] = [job for job in planner.jobs() if job.state is not State.RUNS]
    counts: Counts = planner.counts()
    return found if len(waiting) == counts.waiting else []


def squares(executor: Executor) -> List[float]:
    return list(executor.map(pow, range(4), [2.0] * 4))


def gang(scheduler: Scheduler) -> int:
    """Runs jobs on processors, and holds some itself."""
    futures: List[SchedulerFuture[range]] = [scheduler.submit(current_processors, processors=it) for it in (1, 2)]
    text: "Future[str]" = scheduler.submit(repr, 7, estimate=0.5, job_class=1, timeout=2)
    with scheduler.allocation(2, timeout=9.5) as processors:
        held: range = processors
    found: Optional[Forecast] = None if futures[0].done() else futures[0].forecast()
    time: Optional[float] = found.time if found else None
    wait(futures)
    counts: SchedulerCounts = scheduler.counts()
    scheduler.occupy(Region(0, 0))
    scheduler.vacate(Region(0, 0))
    return len(held) + len(text.result()) + len(futures[1].result()) + counts.running if time is None else 0


def main() -> None:
    machines: List[Machine] = [Regions(4), FirstFit(4)]
    for machine in machines:
        with machine as same:
            blocks = fill(same, 2)
            free: Occupancy = same.occupancy()
            print(machine, free.held, [width(it) + width(it.region) for it in blocks])
            for block in blocks:
                same.release(block)
    exact = FirstFit(4)
    exact.join(exact.take(1), exact.take(1))
    upper: Block = exact.split(Region(0, 2))
    print(plan(exact, 1, upper), exact.is_free(4, 2), exact.free_blocks(0))
    with Regions(1) as regions, regions.take(1) as block:
        print(regions.dim, block.split().region.processors)
    with Planner(3, jobs=4, patience=0) as planner:
        ticket: int = planner.submit("a job", processors=3, estimate=5)
        end: Optional[int] = planner.forecast(ticket).time
        print(starts(planner, 2), end, planner.finish(ticket))
    with Scheduler(3, workers=4, jobs=9) as scheduler:
        print(squares(scheduler), gang(scheduler), scheduler.dim)


if __name__ == "__main__":
    main()
