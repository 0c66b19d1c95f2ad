"""The scheduler: threads that run jobs, each on processors of its own."""
# The submit of Scheduler has words of its own, which mypy does not find in that of Executor.
# mypy: disable-error-code=override
import atexit
import concurrent.futures
import contextlib
import functools
import itertools
import logging
import math
import queue
import threading
import time
import weakref
from types import TracebackType
from typing import (TYPE_CHECKING, Any, Callable, ContextManager, Dict, Iterable, Iterator, List, NamedTuple, NoReturn,
                    Optional, Set, Type, TypeVar)

from cubejobs._common import OtherProcess, Process, Region, natural, region_of
from cubejobs._library import (DONE, MAX_DIM, MAX_JOBS, MAX_WORKERS, NEVER, SCHED_VERSION, Handle, SchedOptions,
                               SchedRequest, load_sched)
from cubejobs._planner import CLASSES, NO_JOB, NoJob, State, WrongState

# Codes of cubejobs_sched.h: another thread has the turn, and no job may come or will start any more.
NOT_NOW, CLOSED = 2, 17
# After this number of tries a thread that waits for the turn sleeps, for this many seconds at a time.
TRIES, MOMENT = 32, 5e-5

_sched = load_sched()
# A put waits for no lock, and Ctrl-C leaves none taken.
_Flag = queue.SimpleQueue
_T = TypeVar("_T")
if TYPE_CHECKING:
    _Future = concurrent.futures.Future
else:

    class _Future(concurrent.futures.Future):
        """The future of Python, which has no Future[T] in Python 3.8."""

        __class_getitem__ = classmethod(lambda cls, _: cls)


class Forecast(NamedTuple):
    """Where a job is. A job that runs has processors, and others have none. `time` is in seconds of time.monotonic().
    Of a job that runs it is the estimated end, even if that has passed. Of a reserved one it is the promise, by which it
    starts: the latest end of the jobs in its block, or 0 if none is there. It is None if it is not known."""

    state: State
    processors: range
    time: Optional[float]


class SchedulerCounts(NamedTuple):
    """How many jobs wait and run. Then processors: those that no other job can have since a job runs, those that the
    running jobs asked for, and those out of service."""

    waiting: int
    running: int
    held: int
    asked: int
    occupied: int


class SchedulerFuture(_Future[_T]):
    """The future of a job. Once it is done, the job has no processors any more."""

    def __init__(self, core: "_Core", processors: int) -> None:
        """Makes the future of a job that is still to be submitted. Only `Scheduler.submit` does so."""
        super().__init__()
        self.ticket = 0
        # The core, until the job is over.
        self._core: Optional[_Core] = core
        # Whether the job was taken back. Only a thread that has the turn of the core sets it.
        self._size, self._was_taken_back = processors, False

    def cancel(self) -> bool:
        """Takes the job back if it waits. Returns whether it will never run: False if it runs or has run. Raises
        OtherProcess in the child of a fork."""
        core = self._core
        is_first = core is not None and core.take_back(self)
        if self._was_taken_back:
            self._be_cancelled(is_first)
        return self._was_taken_back

    def forecast(self) -> Forecast:
        """Says where the job is. Raises NoJob if it is over, and OtherProcess in the child of a fork."""
        core = self._core
        found = core.forecast(self.ticket) if core else None
        if found is None or found.code == NO_JOB:
            raise NoJob("the job is over")
        state = State(found.state)
        processors = range(found.base, found.base + self._size) if state is State.RUNS else range(0)
        is_known = state is not State.WAITS and found.time != NEVER
        return Forecast(state, processors, found.time / 1e9 if is_known else None)

    def _be_cancelled(self, is_first: bool) -> None:
        """Cancels the future of a job that was taken back. The first call also wakes what waits for it."""
        super().cancel()
        if is_first:
            self.set_running_or_notify_cancel()
            self._core = None


class _Job(NamedTuple):
    future: "SchedulerFuture[Any]"
    call: Callable[[], Any]


class _Core:
    """What a scheduler, its threads and its futures share. It does not refer to the scheduler, so one that you drop can
    end. One thread at a time has the turn, and it alone uses the handle."""

    def __init__(self, options: SchedOptions) -> None:
        self.mark, self.capacity, self.workers = Process.mark, options.jobs, options.workers
        # The garbage collector, or a signal handler, may come here again in the thread that has the turn.
        self.turn = threading.RLock()
        # The jobs that wait or run, by the numbers that the library keeps of them.
        self.jobs: Dict[int, _Job] = {}
        self.numbers = itertools.count()
        # A thread sleeps on a flag until something is put into it. Workers have flags, and so have submits that wait.
        self.flags: "List[_Flag[None]]" = [_Flag() for _ in range(options.workers)]
        self.full: "Set[_Flag[None]]" = set()
        self.threads: List[threading.Thread] = []
        self.holds: Set[_Hold] = set()
        self.working, self.is_closed = 0, False
        self.handle = Handle()
        weakref.finalize(self, _free, self.handle, self.mark).atexit = False
        if _sched.open_version(self.handle, SCHED_VERSION, options) != DONE:
            raise MemoryError("there is no memory for the scheduler")

    def here(self) -> ContextManager[Any]:
        """Returns the lock that gives a thread the turn. Raises OtherProcess in the child of a fork."""
        if self.mark is not Process.mark:
            raise OtherProcess("the scheduler belongs to the process that this one was forked from: open another one")
        return self.turn

    # A thread that makes one of these calls has the turn.

    def look(self, call: Callable[..., Any], *arguments: Any) -> Any:
        """Makes a call of the library, and again while another thread has the turn there."""
        tries, answer = 0, call(self.handle, *arguments)
        while answer.code == NOT_NOW:
            time.sleep(0 if tries < TRIES else MOMENT)
            tries, answer = tries + 1, call(self.handle, *arguments)
        return answer

    def play(self, call: Callable[..., Any], *arguments: Any) -> Any:
        """Makes a call at this time, and wakes the workers that got a job by it."""
        answer = self.look(call, *arguments, time.monotonic_ns())
        for worker in answer.woken[: answer.count]:
            self.flags[worker].put(None)
        return answer

    def make(self, call: Callable[..., Any], *arguments: Any, ends: bool = False) -> Any:
        """Makes a call at this time, and all that follows from it. If it ends a job or closes, it makes room, and maybe
        no job will start any more."""
        try:
            answer = effect = self.play(call, *arguments)
            while effect.more:
                effect = self.play(_sched.try_settle)
            if ends and answer.code == DONE:
                _wake(self.flags if answer.over else [])
                _wake(self.full)
            return answer
        except BaseException:
            # Ctrl-C came in between, and the answer may be lost. So all look again.
            _wake(self.flags)
            _wake(self.full)
            raise

    def grow(self) -> None:
        """Starts a worker thread if there are not as many as jobs, with one that comes. Raises RuntimeError if there is
        none then."""
        if self.is_closed or len(self.threads) >= min(self.workers, len(self.jobs) + 1):
            return
        thread = threading.Thread(target=_work, args=(self,), name="cubejobs worker", daemon=True)
        self.threads.append(thread)
        self.working += 1
        _working.add(self)
        try:
            thread.start()
        except RuntimeError:
            self.threads.remove(thread)
            self.working -= 1
            if not self.threads:
                raise

    def close(self, mode: int) -> None:
        """Lets no job come any more. In mode 1 no job that waits will start."""
        self.make(_sched.try_close, mode, ends=True)
        self.is_closed = True
        if not self.working:
            _working.discard(self)

    def rest(self) -> "List[SchedulerFuture[Any]]":
        """Takes the waiting jobs of a closed scheduler back. Returns their futures, which are still to be cancelled."""
        found: "List[SchedulerFuture[Any]]" = []
        given = self.look(_sched.try_rest, 0)
        while given.code == DONE:
            found += self.forget(given.payload)
            given = self.look(_sched.try_rest, given.worker + 1)
        return found

    def forget(self, number: int) -> "List[SchedulerFuture[Any]]":
        """Removes a job that was taken back. Returns its future, if it has one."""
        job = self.jobs.pop(number, None)
        if job:
            job.future._was_taken_back = True
        return [job.future] if job else []

    # These calls take the turn.

    def has_submitted(self, job: _Job, request: SchedRequest) -> bool:
        """Submits a job. Returns whether there was a place for it. Raises RuntimeError after a shutdown."""
        with self.here():
            self.grow()
            found = self.make(_sched.try_submit, request)
            if found.code == CLOSED:
                raise RuntimeError("cannot schedule new futures after shutdown")
            if found.code == DONE:
                # If Ctrl-C comes before this line, the job ends without a call.
                self.jobs[request.payload] = job
                job.future.ticket = found.ticket
            return bool(found.code == DONE)

    def submit(self, job: _Job, request: SchedRequest, deadline: float) -> None:
        """Submits a job, and sleeps until the deadline while there is no place for it. Raises TimeoutError, or
        RuntimeError after a shutdown."""
        if self.has_submitted(job, request):
            return
        flag: "_Flag[None]" = _Flag()
        self.full.add(flag)
        try:
            is_late = False
            while not self.has_submitted(job, request):
                if is_late:
                    raise TimeoutError(f"the scheduler has its {self.capacity} jobs")
                is_late = not _sleep(flag, deadline)
        finally:
            self.full.discard(flag)

    def forecast(self, ticket: int) -> Any:
        with self.here():
            return self.look(_sched.try_forecast, ticket)

    def take_back(self, future: "SchedulerFuture[Any]") -> bool:
        """Takes the job of a future back if it waits. Returns whether this call did so."""
        with self.here():
            if future._was_taken_back:
                return False
            found = self.make(_sched.try_cancel, future.ticket, ends=True)
            if found.code == DONE:
                self.forget(found.payload)
            return future._was_taken_back

    def next(self, worker: int) -> Any:
        """Waits until a worker gets a job, and returns the answer that says which. Returns None if none will start."""
        flag = self.flags[worker]
        while True:
            # The flag is empty before the turn, so no wake after it is lost.
            while not flag.empty():
                flag.get()
            with self.turn:
                found = self.make(_sched.try_next, worker)
                is_over = found.code == CLOSED
                if is_over:
                    found = self.make(_sched.try_give_up, worker)
            if found.code == DONE:
                return found
            if is_over:
                return None
            flag.get()

    def end(self, worker: int, number: int) -> None:
        """Ends the job of a worker, whose processors then are free."""
        with self.turn:
            self.make(_sched.try_done, worker, ends=True)
            self.jobs.pop(number, None)

    def leave(self, worker: int) -> None:
        """Lets a worker go. The last one cancels all jobs that are left, since none of them will start."""
        left: "List[SchedulerFuture[Any]]" = []
        with self.turn:
            self.make(_sched.try_leave, worker)
            self.working -= 1
            if not self.working:
                left = self.rest()
                # If Ctrl-C came in a cancel, the library may have given a job back that is still here.
                left += itertools.chain.from_iterable(map(self.forget, [*self.jobs]))
                _working.discard(self)
        for future in left:
            future._be_cancelled(True)


class Scheduler(concurrent.futures.Executor):
    """An executor whose jobs run on processors of a machine with 2^dim of them: each job has its own while it runs.

    >>> with Scheduler(3) as scheduler:
    ...     wide = scheduler.submit(current_processors, processors=8)
    ...     narrow = scheduler.submit(pow, 2, 5)
    ...     wide.result(), narrow.result()
    (range(0, 8), 32)

    The rules are those of the C header `cubejobs_sched.h`. Jobs start in the order of their classes, and of their arrival
    in a class. A job may pass the first one if it does not delay it: for that one a block is reserved. The scheduler has
    threads of its own, which it starts as jobs come, and binds none to a CPU. At most `workers` jobs run at once, by
    default 32, or as many as there are processors. `jobs` is how many may wait and run.

    >>> with Scheduler(3) as scheduler:
    ...     with scheduler.allocation(6) as processors:
    ...         late = scheduler.submit(sum, [1, 2], processors=4)
    ...         len(processors), late.running(), late.cancel()
    (6, False, True)

    Jobs that submit. A submit sleeps while there is no place for its job. If each thread runs such a job, or one that
    waits for a future, all may wait for ever. So use a timeout there.

    Ends. Python waits for the jobs when it exits, also if you forgot the shutdown. A child process of multiprocessing
    does not, so call it there. A scheduler that you drop runs the jobs that it has. In the child of a fork its calls raise
    OtherProcess, and its jobs never end. `patience` is as in `Planner`.
    """

    def __init__(self, dim: int, *, workers: Optional[int] = None, jobs: int = 1024, patience: int = 16) -> None:
        """Opens a scheduler without jobs and threads. Raises ValueError or MemoryError."""
        self.dim = natural(dim, MAX_DIM, "the dimension of a machine")
        most = min(32, 1 << self.dim) if workers is None else workers
        self.workers = natural(most, MAX_WORKERS, "the number of workers", 1)
        self.capacity = natural(jobs, MAX_JOBS, "the number of jobs", 1)
        patience = natural(patience, 2**32 - 1, "the patience")
        self._core = _Core(SchedOptions(self.dim, self.capacity, patience, self.workers))
        weakref.finalize(self, _drop, self._core).atexit = False

    def submit(self, fn: Callable[..., _T], /, *args: Any, processors: int = 1, estimate: Optional[float] = None,
               job_class: int = 0, timeout: Optional[float] = None, **kwargs: Any) -> SchedulerFuture[_T]:
        """Submits a call as a job, and returns its future. The job needs this number of processors. The estimate says how
        many seconds it runs at most, or is None if you do not know. Jobs of a lower class, which is 0 to 7, come first.

        Sleeps while there is no place for the job, for at most `timeout` seconds. Then it raises TimeoutError, and the job
        is not submitted. Raises ValueError, and RuntimeError after a shutdown."""
        core, deadline = self._core, _deadline(timeout)
        size = natural(processors, 1 << self.dim, "a number of processors", 1)
        job_class = natural(job_class, CLASSES - 1, "a class")
        request = SchedRequest(next(core.numbers), _nanoseconds(estimate), size, job_class)
        future: SchedulerFuture[_T] = SchedulerFuture(core, size)
        core.submit(_Job(future, functools.partial(fn, *args, **kwargs)), request, deadline)
        return future

    @contextlib.contextmanager
    def allocation(self, processors: int, *, estimate: Optional[float] = None, job_class: int = 0,
                   timeout: Optional[float] = None) -> Iterator[range]:
        """Gives processors to the calling thread until the `with` ends. It is a job in which a thread of the scheduler
        sleeps. Sleeps until the job starts, for at most `timeout` seconds. Raises as `submit` does, and CancelledError if
        a shutdown cancels the job. With a TimeoutError the job is over."""
        hold = _Hold(self._core, _deadline(timeout))
        try:
            future = self.submit(hold.keep, processors=processors, estimate=estimate, job_class=job_class, timeout=timeout)
            yield hold.processors(future)
        finally:
            hold.release()
        # The child of a fork has nothing to give back.
        self._core.here()

    def counts(self) -> SchedulerCounts:
        """Counts jobs and processors."""
        with self._core.here():
            found = self._core.look(_sched.try_counts)
        return SchedulerCounts(found.waiting, found.running, found.held, found.asked, found.occupied)

    def occupy(self, region: Region) -> None:
        """Takes a block out of service. Raises ValueError if the machine has no such block, and WrongState if a part of
        it is held or out of service."""
        self._served(_sched.try_occupy, region, "a part of the block is in use")

    def vacate(self, region: Region) -> None:
        """Puts exactly a block that was taken out of service back into it. Raises ValueError if the machine has no such
        block, and WrongState if this one was not taken out."""
        self._served(_sched.try_vacate, region, "this block was not taken out of service")

    def shutdown(self, wait: bool = True, *, cancel_futures: bool = False) -> None:
        """Lets no job come any more. Jobs that wait still run, or are cancelled. With `wait` it waits until no job runs
        and the threads have ended. A job for which no block is in service is cancelled then."""
        core = self._core
        with core.here():
            core.close(1 if cancel_futures else 0)
            left = core.rest() if cancel_futures else []
            _wake(core.flags)
            threads = [*core.threads]
        for future in left:
            future._be_cancelled(True)
        for thread in threads if wait else []:
            thread.join()

    def __exit__(self, kind: Optional[Type[BaseException]], value: Optional[BaseException],
                 trace: Optional[TracebackType]) -> None:
        try:
            self.shutdown()
        except OtherProcess:
            if kind is None:
                raise

    def __reduce__(self) -> NoReturn:
        raise TypeError("a scheduler cannot be copied or sent to another process: a copy would give out the same blocks")

    def __repr__(self) -> str:
        name = f"Scheduler(dim={self.dim}"
        if self._core.mark is not Process.mark:
            return f"{name}, of another process)"
        counts = self.counts()
        return f"{name}, waiting={counts.waiting}, running={counts.running}{', shut' if self._core.is_closed else ''})"

    def _served(self, call: Callable[..., Any], region: Region, wrong: str) -> None:
        base, dim = region_of(*region, self.dim)
        with self._core.here():
            if self._core.make(call, base, dim).code != DONE:
                raise WrongState(wrong)


class _Hold:
    """A job that has processors for a thread outside, until that thread gives them back."""

    def __init__(self, core: _Core, deadline: float) -> None:
        self.core, self.deadline = core, deadline
        self.future: Optional[SchedulerFuture[None]] = None
        # The processors, once it runs. After its end, None.
        self.given: "_Flag[Optional[range]]" = _Flag()
        self.may_end: "_Flag[None]" = _Flag()

    def keep(self) -> None:
        """Runs in a thread of the scheduler."""
        self.core.holds.add(self)
        self.given.put(current_processors())
        self.may_end.get()
        self.core.holds.discard(self)

    def processors(self, future: "SchedulerFuture[None]") -> range:
        """Waits until the job of this future runs. Raises TimeoutError or CancelledError."""
        self.future = future
        future.add_done_callback(lambda _: self.given.put(None))
        try:
            found = self.given.get(timeout=_seconds_until(self.deadline))
        except queue.Empty:
            if future.cancel():
                raise TimeoutError("the processors were not free in time") from None
            found = self.given.get()
        if found is None:
            raise concurrent.futures.CancelledError
        return found

    def release(self) -> None:
        """Waits until the processors are free."""
        if self.core.mark is Process.mark:
            self.may_end.put(None)
            if self.future and not self.future.cancel():
                concurrent.futures.wait([self.future])


class _Here(threading.local):
    processors: Optional[range] = None


_here = _Here()
# The cores that have threads, which end before Python does.
_working: Set[_Core] = set()


def current_processors() -> range:
    """Returns the processors of the job that this thread runs. Raises RuntimeError outside a job."""
    if _here.processors is None:
        raise RuntimeError("this thread runs no job of a scheduler")
    return _here.processors


def _deadline(timeout: Optional[float]) -> float:
    return math.inf if timeout is None else time.monotonic() + timeout


def _seconds_until(deadline: float) -> float:
    """Returns how long a thread may sleep."""
    return min(max(0.0, deadline - time.monotonic()), threading.TIMEOUT_MAX)


def _sleep(flag: "_Flag[None]", deadline: float) -> bool:
    """Sleeps until something is in the flag. Returns whether that was before the deadline."""
    try:
        flag.get(timeout=_seconds_until(deadline))
    except queue.Empty:
        return False
    return True


def _wake(flags: "Iterable[_Flag[None]]") -> None:
    for flag in [*flags]:
        flag.put(None)


def _nanoseconds(estimate: Optional[float]) -> int:
    if estimate is None:
        return 0
    if not 0 < estimate * 1e9 < NEVER:
        raise ValueError(f"an estimate is more than 0 and less than {NEVER / 1e9:.0f} seconds, and not {estimate}")
    return max(1, int(estimate * 1e9))


def _work(core: _Core) -> None:
    """Runs jobs in a thread of its own, until none will start any more."""
    with core.turn:
        worker = core.look(_sched.try_worker).worker
    while True:
        start = core.next(worker)
        if start is None:
            break
        try:
            _run(core, worker, start)
        except BaseException:
            logging.getLogger("cubejobs").critical("the future of a job was changed by others", exc_info=True)
    core.leave(worker)


def _run(core: _Core, worker: int, start: Any) -> None:
    """Runs the job that a worker got. Its processors are free before its future is done."""
    job, result, failure = core.jobs.get(start.payload), None, None
    try:
        if job and job.future.set_running_or_notify_cancel():
            _here.processors = range(start.base, start.base + start.processors)
            result = job.call()
    except BaseException as reason:
        failure = reason
    _here.processors = None
    core.end(worker, start.payload)
    if not job:
        return
    job.future._core = None
    try:
        if failure is None:
            job.future.set_result(result)
        else:
            job.future.set_exception(failure)
    finally:
        # A failure has this frame. So neither it nor its future stays in it.
        job = failure = None


def _drop(core: _Core) -> None:
    """Closes a scheduler that nobody has any more. Its threads run the jobs that wait, and end."""
    if core.mark is Process.mark:
        with core.turn:
            core.close(0)


def _free(handle: Handle, mark: object) -> None:
    """Frees what no scheduler, no thread and no future has any more, except in the child of a fork."""
    if mark is Process.mark:
        _sched.try_free(handle)


def _end_all() -> None:
    """Waits for all jobs before Python ends. Threads that Python does not wait for may still hold processors."""
    cores = [core for core in [*_working] if core.mark is Process.mark]
    for core in cores:
        _drop(core)
    for core in cores:
        for hold in [*core.holds]:
            hold.may_end.put(None)
        for thread in [*core.threads]:
            thread.join()


atexit.register(_end_all)
# A user sees them as parts of the module, in messages and in pickles too.
for _it in (Forecast, Scheduler, SchedulerCounts, SchedulerFuture, current_processors):
    _it.__module__ = "cubejobs"
