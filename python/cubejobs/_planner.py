"""The planner: which waiting job starts next, and on which processors."""
import ctypes
import enum
import itertools
import threading
import weakref
from types import TracebackType
from typing import Any, Callable, ContextManager, Dict, Iterator, NamedTuple, NoReturn, Optional, Type

from cubejobs._common import OtherProcess, Process, Region, natural, region_of
from cubejobs._library import (DONE, MAX_DIM, MAX_JOBS, NEVER, PLAN_VERSION, Handle, PlanMemory, PlanOptions,
                               PlanRequest, load_plan)

# The codes of cubejobs_plan.h that become exceptions here.
NO_JOB, OUT_OF_MEMORY, FULL, WRONG_STATE, TIME_BACK = 19, 11, 46, 47, 48
CLASSES = 8

_plan = load_plan()


class PlannerFull(Exception):
    """A refused submit: the planner has as many jobs as it may have."""


class NoJob(Exception):
    """A refused call: the job with this ticket is over, or there was none."""


class WrongState(Exception):
    """A refused call: the job waits where it must run, or runs where it must wait. Of a block: a part of it is in use,
    or no call has taken exactly this block out of service."""


class State(enum.Enum):
    """Where a job is."""

    WAITS = 1
    RESERVED = 2
    RUNS = 3


class Job(NamedTuple):
    """What a planner knows of a job.

    `payload`, `size` and `job_class` are as it was submitted: `size` is how many processors it needs. `region` is the
    block that it holds or that is reserved for it, or None. `time` is its estimated end, or the promise of a reserved
    job, by which it starts: the latest end of the jobs in its block, or 0 if none is there. It is None if it is not
    known, and for a job that waits. `before` is how many waiting jobs come before it, and `arrival` how many were
    submitted before it.
    """

    ticket: int
    payload: Any
    state: State
    size: int
    job_class: int
    region: Optional[Region]
    time: Optional[int]
    before: int
    arrival: int

    @property
    def processors(self) -> range:
        """The processors that a running job has: the first ones of its block. A waiting job has none."""
        base = self.region.base if self.region else 0
        return range(base, base + (self.size if self.state is State.RUNS else 0))


class Counts(NamedTuple):
    """How many jobs wait and run. Then processors: those that no other job can have since a job runs, those that the
    running jobs asked for, those out of service, and the most that one job could get now if no other waited."""

    waiting: int
    running: int
    held: int
    asked: int
    occupied: int
    largest: int


class Planner:
    """A planner of a machine with 2^dim processors: it says which job starts where, and runs nothing itself.

    Tell it what happens: `submit`, `cancel`, `finish`. After each of these go through `starts(now)`. It has no clock:
    times and estimates are whole numbers in a unit of yours, and the time never goes back.

    >>> planner = Planner(dim=3, jobs=100)
    >>> wide = planner.submit("wide", processors=6, estimate=10)
    >>> all_of_it = planner.submit("all", processors=8, estimate=5)
    >>> [(job.payload, job.processors, job.time) for job in planner.starts(0)]
    [('wide', range(0, 6), 10)]
    >>> planner.forecast(all_of_it).time
    10
    >>> planner.finish(wide)
    'wide'
    >>> [(job.payload, job.time) for job in planner.starts(8)]
    [('all', 13)]

    A job that waits can be taken back:

    >>> late = planner.submit("late", processors=1)
    >>> list(planner.starts(9)), planner.forecast(late).before
    ([], 0)
    >>> planner.cancel(late), planner.counts().waiting
    ('late', 0)

    `jobs` is how many may wait and run at once. A block is reserved for the first job if its promise is known. If it
    is not, one is reserved once `patience` times 2^dim processors have passed the job.
    """

    def __init__(self, dim: int, *, jobs: int = 10_000, patience: int = 16) -> None:
        """Opens a planner without jobs, at time 0. Raises ValueError or MemoryError."""
        self.dim = natural(dim, MAX_DIM, "the dimension of a machine")
        self.capacity = natural(jobs, MAX_JOBS, "the number of jobs", 1)
        self._lock, self._mark, self._is_open = threading.RLock(), Process.mark, True
        # The payloads by the numbers that the library keeps of them.
        self._payloads: Dict[int, Any] = {}
        self._numbers = itertools.count()
        self._handle = Handle()
        weakref.finalize(self, _drop, self._handle, self._mark).atexit = False
        options = PlanOptions(self.dim, self.capacity, natural(patience, 2**32 - 1, "the patience"), 0)
        if _plan.open_version(self._handle, PLAN_VERSION, options, PlanMemory(), 0) != DONE:
            raise MemoryError("there is no memory for the planner")

    def submit(self, payload: Any = None, *, processors: int, estimate: Optional[int] = None, job_class: int = 0) -> int:
        """Submits a job, which waits from now on, and returns its ticket. The estimate is how long it runs at most, or
        None if you do not know. Jobs of a lower class, which is 0 to 7, come first. Raises PlannerFull or ValueError."""
        size = natural(processors, 1 << self.dim, "a number of processors", 1)
        length = 0 if estimate is None else natural(estimate, NEVER, "an estimate", 1)
        with self._turn():
            number = next(self._numbers)
            self._payloads[number] = payload
            request = PlanRequest(number, length, size, natural(job_class, CLASSES - 1, "a class"))
            found = _plan.submit(self._handle, request)
            if found.code != DONE:
                del self._payloads[number]
                raise PlannerFull(f"the planner has its {self.capacity} jobs")
            return int(found.ticket)

    def cancel(self, ticket: int) -> Any:
        """Takes a waiting job back, and returns its payload. Raises NoJob, or WrongState if it runs."""
        return self._ended(_plan.cancel, ticket, "the job runs: finish it")

    def finish(self, ticket: int) -> Any:
        """Says that a running job has ended, well or not, and returns its payload. Raises NoJob, or WrongState if it
        waits."""
        return self._ended(_plan.finish, ticket, "the job waits: cancel it")

    def next(self, now: int) -> Optional[Job]:
        """Starts one job at this time, and returns it. Returns None if none may start. Raises ValueError if the time is
        before that of the last call."""
        time = natural(now, NEVER - 1, "a time")
        with self._turn():
            found = _plan.next(self._handle, time)
            if found.code == TIME_BACK:
                raise ValueError(f"the time {time} is before that of the last call")
            return self._job(found) if found.code == DONE else None

    def starts(self, now: int) -> Iterator[Job]:
        """Starts each job that may start at this time, as you go through them. Go through all. Raises as `next` does."""
        while True:
            job = self.next(now)
            if job is None:
                return
            yield job

    def forecast(self, ticket: int) -> Job:
        """Says where a job is. Raises NoJob."""
        with self._turn():
            found = _plan.forecast(self._handle, natural(ticket, NEVER, "a ticket"))
            if found.code == NO_JOB:
                raise NoJob(f"no job has the ticket {ticket}")
            return self._job(found)

    def jobs(self) -> Iterator[Job]:
        """Returns all jobs, in no order. It meets each job once that is there all the time."""
        ticket = 0
        while True:
            with self._turn():
                found = _plan.after(self._handle, ticket)
                if found.code == NO_JOB:
                    return
                ticket = found.ticket
                job = self._job(_plan.forecast(self._handle, ticket))
            yield job

    def occupy(self, base: int, dim: int) -> None:
        """Takes the block of a dimension that begins at a processor out of service. Finish the jobs in it first. Raises
        ValueError if there is no such block, and WrongState if a part of it is held or out of service."""
        self._served(_plan.occupy, base, dim, "a part of the block is in use")

    def vacate(self, base: int, dim: int) -> None:
        """Puts exactly a block that was taken out of service back into it. Raises ValueError if there is no such block,
        and WrongState if this one was not taken out."""
        self._served(_plan.vacate, base, dim, "this block was not taken out of service")

    def counts(self) -> Counts:
        """Counts jobs and processors."""
        with self._turn():
            found = _plan.counts(self._handle)
        return Counts(found.waiting, found.running, found.held, found.asked, found.occupied, found.largest)

    def __len__(self) -> int:
        counts = self.counts()
        return counts.waiting + counts.running

    def close(self) -> None:
        """Frees the planner with all its jobs. A second close does nothing."""
        with self._turn(also_closed=True):
            if self._is_open:
                self._is_open = False
                _plan.close(self._handle)
                self._payloads.clear()

    def __enter__(self) -> "Planner":
        return self

    def __exit__(self, kind: Optional[Type[BaseException]], value: Optional[BaseException],
                 trace: Optional[TracebackType]) -> None:
        try:
            self.close()
        except OtherProcess:
            if kind is None:
                raise

    def __reduce__(self) -> NoReturn:
        raise TypeError("a planner cannot be copied or sent to another process: a copy would give out the same blocks")

    def __repr__(self) -> str:
        name = f"Planner(dim={self.dim}"
        if self._mark is not Process.mark:
            return f"{name}, of another process)"
        if not self._is_open:
            return f"{name}, closed)"
        counts = self.counts()
        return f"{name}, waiting={counts.waiting}, running={counts.running})"

    def _turn(self, also_closed: bool = False) -> ContextManager[Any]:
        """Returns the lock of the planner. Raises OtherProcess in the child of a fork, and ValueError after a close."""
        if self._mark is not Process.mark:
            raise OtherProcess("the planner belongs to the process that this one was forked from: open another one")
        if not self._is_open and not also_closed:
            raise ValueError("the planner is closed")
        return self._lock

    def _job(self, found: Any) -> Job:
        state = State(found.state)
        region = None if state is State.WAITS else Region(found.base, found.dim)
        time = None if found.time == NEVER else found.time
        return Job(found.ticket, self._payloads[found.payload], state, found.processors, found.job_class, region, time,
                   found.before, found.arrival)

    # The payload goes after the call of the library. If Ctrl-C comes in between, it stays until the close.

    def _ended(self, call: Callable[..., Any], ticket: int, wrong: str) -> Any:
        with self._turn():
            found = call(self._handle, natural(ticket, NEVER, "a ticket"))
            if found.code == NO_JOB:
                raise NoJob(f"no job has the ticket {ticket}")
            if found.code == WRONG_STATE:
                raise WrongState(wrong)
            return self._payloads.pop(found.payload)

    def _served(self, call: Callable[..., Any], base: int, dim: int, wrong: str) -> None:
        region = region_of(base, dim, self.dim)
        with self._turn():
            if call(self._handle, *region) != DONE:
                raise WrongState(wrong)


def _drop(handle: Handle, mark: object) -> None:
    """Frees a planner that nobody has any more, except in the child of a fork: there the memory is a copy, in which a
    thread may have stopped inside a call."""
    if mark is Process.mark:
        _plan.close(handle)


# A user sees them as parts of the module, in messages and in pickles too.
for _it in (Counts, Job, NoJob, Planner, PlannerFull, State, WrongState):
    _it.__module__ = "cubejobs"
