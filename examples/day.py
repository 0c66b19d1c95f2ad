"""Plans a day of jobs on 64 processors, draws it, and prints how long each kind of job waits.

    PYTHONPATH=python python3 examples/day.py

The jobs are drawn at random, with a fixed seed. Users ask for more time than a job takes, as they do. A letter is a job;
a wide job is a capital one. The time is in minutes.
"""
import heapq
import random
from typing import Dict, List, NamedTuple, Tuple

from cubejobs import Job, Planner

DIM, MINUTES, COUNT = 6, 24 * 60, 72
# A column of the picture is so many minutes, and a row so many processors.
COLUMN, ROW = 20, 4


class Task(NamedTuple):
    """A job of a user: when it comes, how many processors it needs, how long it runs and how long it is said to run."""

    name: str
    comes: int
    processors: int
    minutes: int
    estimate: int


class Span(NamedTuple):
    """Where and when a job ran."""

    task: Task
    processors: range
    start: int


def day(seed: int) -> List[Task]:
    """Returns the jobs of a day, in the order in which they come: mostly narrow ones, and some that need half."""
    draw = random.Random(seed)
    times = sorted(draw.randrange(MINUTES - 180) for _ in range(COUNT))
    tasks = []
    for number, comes in enumerate(times):
        width = draw.choice((1, 2, 4, 4, 8, 8, 12, 16, 16, 32, 64))
        minutes = draw.randint(20, 180 if width < 32 else 60)
        letter = "abcdefghijklmnopqrstuvwxyz"[number % 26]
        name = letter.upper() if width >= 32 else letter
        tasks.append(Task(name, comes, width, minutes, minutes * draw.choice((1, 2, 3))))
    return tasks


def plan(tasks: List[Task]) -> List[Span]:
    """Runs the day: at each event the planner hears it, and says which jobs start."""
    spans: List[Span] = []
    ends: List[Tuple[int, int]] = []  # of the running jobs, the first one first, with their tickets
    coming = list(reversed(tasks))
    with Planner(DIM, jobs=COUNT) as planner:
        while coming or ends:
            now = min([it.comes for it in coming[-1:]] + [it[0] for it in ends[:1]])
            while ends and ends[0][0] == now:
                planner.finish(heapq.heappop(ends)[1])
            while coming and coming[-1].comes == now:
                task = coming.pop()
                planner.submit(task, processors=task.processors, estimate=task.estimate)
            for job in planner.starts(now):
                spans.append(started(job, now))
                heapq.heappush(ends, (now + job.payload.minutes, job.ticket))
    return spans


def started(job: Job, now: int) -> Span:
    return Span(job.payload, job.processors, now)


def picture(spans: List[Span]) -> str:
    """Draws the plan: time to the right, processors upward. A cell has the job that has most of it."""
    lines = []
    for low in reversed(range(0, 1 << DIM, ROW)):
        line = ""
        for begin in range(0, MINUTES, COLUMN):
            middle, processor = begin + COLUMN // 2, low + ROW // 2
            found = [it.task.name for it in spans
                     if processor in it.processors and it.start <= middle < it.start + it.task.minutes]
            line += found[0] if found else "."
        lines.append(f"{low:3} {line}")
    hours = "".join(f"{hour:<{60 // COLUMN}}" for hour in range(24)).rstrip()
    return "\n".join([*lines, f"    {hours}"])


def waits(spans: List[Span]) -> Dict[str, List[int]]:
    """Returns the waits of narrow and of wide jobs, in minutes."""
    found: Dict[str, List[int]] = {"up to 16 processors": [], "half or all": []}
    for it in spans:
        found["half or all" if it.task.processors >= 32 else "up to 16 processors"].append(it.start - it.task.comes)
    return found


if __name__ == "__main__":
    spans = plan(day(seed=11))
    print(picture(spans))
    for kind, minutes in waits(spans).items():
        minutes.sort()
        print(f"{kind}: {len(minutes)} jobs wait {minutes[len(minutes) // 2]} minutes in the median, {minutes[-1]} at most")
    last = max(it.start + it.task.minutes for it in spans)
    used = sum(it.task.processors * it.task.minutes for it in spans)
    print(f"busy: {100 * used // (last << DIM)} % of the machine until minute {last}")
