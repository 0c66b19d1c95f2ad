"""Small programs on what the module promises of schedulers, and random programs with a table of owners:
`python3 schedules.py NAME`, and `python3 schedules.py SEED JOBS`."""
import concurrent.futures
import contextlib
import copy
import gc
import itertools
import pickle
import random
import signal
import subprocess
import sys
import threading
import time
import weakref
from concurrent.futures import CancelledError, as_completed, wait

from checks.lib.rows import must
from cubejobs import Forecast, NoJob, OtherProcess, Region, Scheduler, SchedulerCounts, State, WrongState, current_processors
from tests.python.behaviour import KEPT, _resident, raises
from tests.python.forks import in_a_child, leave

# A program that waits in vain fails after this many seconds. One that ends without a shutdown has fewer.
SECONDS, TO_END = 60, 5
NAME = "cubejobs worker"


class Gate:
    """A job that runs until it may end, and returns its processors."""

    def __init__(self):
        self.has_begun, self.may_end = threading.Event(), threading.Event()

    def __call__(self):
        self.has_begun.set()
        must(self.may_end.wait(SECONDS), "a job may not end")
        return current_processors()


@contextlib.contextmanager
def busy(scheduler, processors, **words):
    """Keeps processors busy. Gives the future of the job that does so."""
    gate = Gate()
    future = scheduler.submit(gate, processors=processors, **words)
    must(gate.has_begun.wait(SECONDS), "a job does not begin")
    try:
        yield future
    finally:
        gate.may_end.set()


def equal(got, wanted):
    must(got == wanted, f"{got}, and not {wanted}")


def at_last(holds, what):
    """Waits until something holds."""
    end = time.monotonic() + SECONDS
    while not holds():
        must(time.monotonic() < end, what)
        time.sleep(0.001)


def _workers():
    return [it for it in threading.enumerate() if it.name == NAME]


def idle(occupied=0):
    return SchedulerCounts(0, 0, 0, 0, occupied)


def jobs_have_processors_of_their_own():
    with Scheduler(3) as scheduler:
        for size in range(1, 9):
            equal(scheduler.submit(current_processors, processors=size).result(), range(size))
        with busy(scheduler, 3) as first, busy(scheduler, 2) as second, busy(scheduler, 2) as third:
            equal(scheduler.counts(), SchedulerCounts(0, 3, 8, 7, 0))
            equal(repr(scheduler), "Scheduler(dim=3, waiting=0, running=3)")
            found = [it.forecast().processors for it in (first, second, third)]
        equal([it.result() for it in (first, second, third)], found)
        equal(sorted((it.start, len(it)) for it in found), [(0, 3), (4, 2), (6, 2)])
        equal(scheduler.counts(), idle())


def results_are_as_of_other_executors():
    with Scheduler(2) as scheduler:
        equal(scheduler.submit(lambda *words, **more: (words, more), 1, fn=2, self=3).result(), ((1,), {"fn": 2, "self": 3}))
        failed = scheduler.submit(lambda: 1 // 0)
        raises(ZeroDivisionError, failed.result)
        equal(type(failed.exception()), ZeroDivisionError)
        equal(type(scheduler.submit(sys.exit, 3).exception()), SystemExit)
        equal(list(scheduler.map(pow, range(50), itertools.repeat(2))), [it * it for it in range(50)])
        raises(ZeroDivisionError, list, scheduler.map(lambda it: 1 // it, (1, 0, 1)))
        futures = [scheduler.submit(int, it) for it in range(20)]
        equal(sorted(it.result() for it in as_completed(futures, SECONDS)), [*range(20)])
        done, pending = wait(futures)
        equal((len(done), len(pending)), (20, 0))
        must(isinstance(scheduler, concurrent.futures.Executor) and isinstance(failed, concurrent.futures.Future), "types")
        raises(TypeError, scheduler.submit, None)
        equal(scheduler.counts(), idle())


def a_future_is_done_when_its_processors_are_free():
    with Scheduler(3) as scheduler:
        for _ in range(200):
            future = scheduler.submit(int, processors=8)
            found = []

            def called(_, found=found):
                raises(RuntimeError, current_processors)
                found.append(scheduler.counts())

            future.add_done_callback(called)
            future.result()
            at_last(lambda found=found: found, "no callback")
            equal((scheduler.counts(), found), (idle(), [idle()]))


def the_first_job_has_a_promise():
    with Scheduler(3) as scheduler:
        before = time.monotonic()
        with busy(scheduler, 4, estimate=50) as half:
            after = time.monotonic()
            wide = scheduler.submit(int, processors=8, estimate=5)
            late = scheduler.submit(int, processors=1, estimate=100)
            equal(scheduler.submit(current_processors, processors=2, estimate=10).result(), range(4, 6))
            for future, state, processors in ((half, State.RUNS, range(4)), (wide, State.RESERVED, range(0))):
                found = future.forecast()
                equal(found, Forecast(state, processors, found.time))
                must(before + 50 <= found.time <= after + 50, f"{found}, begun between {before} and {after}")
            equal(late.forecast(), Forecast(State.WAITS, range(0), None))
            equal(scheduler.counts(), SchedulerCounts(2, 1, 4, 4, 0))
        must(wide.result() == late.result() == 0, "a job is lost")
        raises(NoJob, wide.forecast)
        with busy(scheduler, 3) as unknown:
            equal(unknown.forecast(), Forecast(State.RUNS, range(3), None))


def jobs_start_by_their_classes():
    started = []
    with Scheduler(2) as scheduler:
        with busy(scheduler, 4):
            futures = [scheduler.submit(started.append, it, processors=4, job_class=it) for it in (5, 7, 0, 3)]
            tickets = [it.ticket for it in futures]
        wait(futures)
    equal(started, [0, 3, 5, 7])
    must(len({*tickets}) == 4 and 0 not in tickets, f"tickets {tickets}")


def a_job_that_waits_is_cancelled_once():
    called = []
    with Scheduler(2) as scheduler:
        with busy(scheduler, 4) as running:
            waiting = scheduler.submit(called.append, 1)
            waiting.add_done_callback(called.append)
            answers = []
            threads = [threading.Thread(target=lambda: answers.append(waiting.cancel())) for _ in range(8)]
            for it in threads:
                it.start()
            for it in threads:
                it.join()
            equal((answers, called), ([True] * 8, [waiting]))
            must(waiting.cancelled() and waiting.done() and waiting.cancel(), str(waiting))
            equal([*as_completed([waiting], SECONDS)], [waiting])
            for call in (waiting.result, waiting.exception):
                raises(CancelledError, call)
            raises(NoJob, waiting.forecast)
            must(not running.cancel() and running.running(), str(running))
        running.result()
        must(not running.cancel() and not running.cancelled(), str(running))


def a_full_scheduler_lets_submits_wait():
    with Scheduler(1, jobs=2) as scheduler:
        with busy(scheduler, 2):
            last = scheduler.submit(int)
            for timeout in (0, -1, 0.05):
                raises(TimeoutError, lambda timeout=timeout: scheduler.submit(int, timeout=timeout))
            equal(scheduler.counts(), SchedulerCounts(1, 1, 2, 2, 0))
            found = []
            for free in (last.cancel, None):
                thread = threading.Thread(target=lambda: found.append(scheduler.submit(current_processors, timeout=SECONDS)))
                thread.start()
                time.sleep(0.05)
                must(thread.is_alive(), "a submit does not wait")
                if free:
                    must(free(), "no place")
                    thread.join()
        thread.join()
        equal([len(it.result()) for it in found], [1, 1])


def a_shutdown_ends_submits_that_wait():
    scheduler, ended = Scheduler(0, jobs=1), []
    with busy(scheduler, 1):
        thread = threading.Thread(target=lambda: raises(RuntimeError, scheduler.submit, int) or ended.append(1))
        thread.start()
        time.sleep(0.05)
        scheduler.shutdown(wait=False)
        thread.join()
    equal(ended, [1])
    scheduler.shutdown()


def allocations_hold_processors():
    with Scheduler(3) as scheduler:
        with scheduler.allocation(6, estimate=9, job_class=2) as processors:
            equal((processors, scheduler.counts()), (range(6), SchedulerCounts(0, 1, 8, 6, 0)))
            raises(RuntimeError, current_processors)
            for timeout in (0, 0.05):
                raises(TimeoutError, lambda timeout=timeout: leave(scheduler.allocation(1, timeout=timeout)))
            equal(scheduler.counts(), SchedulerCounts(0, 1, 8, 6, 0))
        equal(scheduler.counts(), idle())

        def failing():
            with scheduler.allocation(8, timeout=SECONDS):
                raise KeyError(8)

        raises(KeyError, failing)
        equal(scheduler.counts(), idle())
        with scheduler.allocation(2) as one, scheduler.allocation(2) as two:
            equal((one, two), (range(2), range(2, 4)))
        must("still" not in repr(scheduler), repr(scheduler))


def a_shutdown_cancels_an_allocation_that_waits():
    scheduler, ended = Scheduler(2), []
    with busy(scheduler, 4):
        thread = threading.Thread(target=lambda: raises(CancelledError, leave, scheduler.allocation(1)) or ended.append(1))
        thread.start()
        at_last(lambda: scheduler.counts().waiting, "no allocation waits")
        scheduler.shutdown(wait=False, cancel_futures=True)
        thread.join()
    equal(ended, [1])
    raises(RuntimeError, leave, scheduler.allocation(1))


def blocks_are_taken_out_of_service():
    with Scheduler(3) as scheduler:
        scheduler.occupy(Region(0, 2))
        raises(WrongState, scheduler.occupy, Region(0, 0))
        raises(WrongState, scheduler.vacate, Region(0, 1))
        equal((scheduler.counts(), scheduler.submit(current_processors).result()), (idle(4), range(4, 5)))
        with busy(scheduler, 4):
            raises(WrongState, scheduler.occupy, Region(4, 0))
            waiting = scheduler.submit(current_processors, processors=8)
        time.sleep(0.05)
        must(not waiting.done(), "a job has a block that is out of service")
        scheduler.vacate(Region(0, 2))
        equal((waiting.result(), scheduler.counts()), (range(8), idle()))
        for call in (scheduler.occupy, scheduler.vacate):
            for region in (Region(1, 1), Region(8, 0), Region(0, 4), Region(-1, 0)):
                raises(ValueError, call, region)


def numbers_out_of_range_are_refused():
    with Scheduler(3) as scheduler:
        for words in ({"processors": 0}, {"processors": 9}, {"estimate": 0}, {"estimate": -1}, {"estimate": 2e10},
                      {"estimate": float("nan")}, {"job_class": 8}, {"job_class": -1}):
            raises(ValueError, lambda words=words: scheduler.submit(int, **words))
            raises(ValueError, lambda words=words: leave(scheduler.allocation(**{"processors": 1, **words})))
        for words in ({"processors": 1.5}, {"estimate": "1"}, {"timeout": "1"}):
            raises(TypeError, lambda words=words: scheduler.submit(int, **words))
        equal((scheduler.counts(), _workers()), (idle(), []))
    for words in ({"dim": 21}, {"dim": -1}, {"workers": 0}, {"workers": 65537}, {"jobs": 0}, {"jobs": 2**24 + 1},
                  {"patience": -1}, {"patience": 2**32}):
        raises(ValueError, lambda words=words: Scheduler(**{"dim": 3, **words}))


def threads_come_as_they_are_needed():
    raises(RuntimeError, current_processors)
    with Scheduler(3) as scheduler:
        equal((scheduler.workers, _workers()), (8, []))
        for _ in range(20):
            scheduler.submit(int).result()
        equal(len(_workers()), 1)
        with busy(scheduler, 1), busy(scheduler, 1), busy(scheduler, 1):
            equal(len(_workers()), 3)
    equal((_workers(), Scheduler(6).workers), ([], 32))
    most, running = [], []

    def work():
        running.append(1)
        most.append(len(running))
        time.sleep(0.001)
        running.pop()

    with Scheduler(3, workers=2) as scheduler:
        wait([scheduler.submit(work) for _ in range(40)])
        equal(len(_workers()), 2)
    must(max(most) <= 2, f"{max(most)} jobs run at once")


def threads_that_sleep_take_no_time():
    with Scheduler(3, jobs=2) as scheduler:
        scheduler.map(int, range(9))
        with scheduler.allocation(8, timeout=SECONDS):
            waiting = scheduler.submit(int)
            thread = threading.Thread(target=scheduler.submit, args=(int,))
            thread.start()
            before = time.process_time()
            time.sleep(0.3)
            used = time.process_time() - before
            must(thread.is_alive() and not waiting.done() and used < 0.1, f"sleep takes {used} s of processor time")
        thread.join()


def a_shutdown_runs_or_cancels_what_waits():
    for cancels, waits in itertools.product((False, True), repeat=2):
        scheduler = Scheduler(2)
        with busy(scheduler, 4) as running:
            waiting = [scheduler.submit(int, it, processors=2) for it in range(9)]
            scheduler.shutdown(wait=False, cancel_futures=cancels)
            raises(RuntimeError, scheduler.submit, int)
            must(repr(scheduler).endswith(f"waiting={0 if cancels else 9}, running=1, shut)"), repr(scheduler))
            equal([it.cancelled() for it in waiting], [cancels] * 9)
            if waits and not cancels:
                # A second one cancels what the first one left.
                scheduler.shutdown(wait=False, cancel_futures=True)
                cancels = True
        scheduler.shutdown()
        equal((running.result(), _workers(), scheduler.counts()), (range(4), [], idle()))
        equal([it.cancelled() for it in waiting], [cancels] * 9)
        must(cancels or [it.result() for it in waiting] == [*range(9)], "a job is lost")
        scheduler.shutdown()


def a_shutdown_without_jobs_ends():
    for cancels in (False, True):
        Scheduler(2).shutdown(cancel_futures=cancels)
        scheduler = Scheduler(2)
        scheduler.submit(int).result()
        scheduler.shutdown(cancel_futures=cancels)
    with Scheduler(2) as scheduler:
        scheduler.submit(scheduler.shutdown, wait=False).result()
    equal(_workers(), [])


def a_job_without_a_block_in_service_is_cancelled():
    with Scheduler(2) as scheduler:
        scheduler.occupy(Region(3, 0))
        lost, kept = scheduler.submit(int, processors=4), scheduler.submit(int, processors=2)
    must(lost.cancelled() and kept.result() == 0, f"{lost}, {kept}")
    equal((_workers(), scheduler.counts()), ([], idle(1)))


def the_exception_of_a_body_comes_out():
    def failing():
        with Scheduler(1) as scheduler:
            scheduler.submit(int)
            raise KeyError(7)

    raises(KeyError, failing)
    equal(_workers(), [])


def a_scheduler_is_not_copied():
    for call in (copy.copy, copy.deepcopy, pickle.dumps):
        raises(TypeError, call, Scheduler(1))


def a_dropped_scheduler_runs_its_jobs():
    futures, cores = [], []
    for _ in range(20):
        scheduler = Scheduler(2)
        cores.append(weakref.ref(scheduler._core))
        futures += [scheduler.submit(pow, it, 2, processors=3) for it in range(10)]
    del scheduler
    gc.collect()
    equal([it.result(SECONDS) for it in futures], [it * it for it in range(10)] * 20)
    at_last(lambda: not _workers(), "threads are left")
    gc.collect()
    must(not any(it() for it in cores), "a dropped scheduler keeps its memory")


def dropped_schedulers_keep_no_memory():
    before = _resident()
    for part in range(100):
        scheduler = Scheduler(16, jobs=2**14)
        if part % 10 == 0:
            scheduler.submit(int).result()
    del scheduler
    at_last(lambda: not _workers(), "threads are left")
    kept = _resident() - before
    must(kept < KEPT, f"100 schedulers keep {kept:,} bytes")


class Word:
    """An argument of a job."""


def jobs_let_their_arguments_go():
    def fail(word):
        raise KeyError(word)

    gc.disable()
    with Scheduler(2) as scheduler:
        for call in (id, fail):
            with busy(scheduler, 4):
                words = [Word() for _ in range(3)]
                seen = [weakref.ref(it) for it in words]
                futures = [scheduler.submit(call, it) for it in words]
                futures[2].cancel()
                del words
                must(seen[0]() and seen[1]() and not seen[2](), "a cancelled job keeps its argument, or one that waits does not")
            wait(futures)
            # A failure has the frame of its job.
            del futures
            at_last(lambda seen=seen: not any(it() for it in seen), "a job that is over keeps its argument")


def children_find_schedulers_shut():
    scheduler, gate = Scheduler(2), Gate()
    running, waiting = scheduler.submit(gate, processors=3), scheduler.submit(int, processors=4)
    gate.has_begun.wait()

    def act():
        for call in (lambda: scheduler.submit(int), scheduler.counts, scheduler.shutdown, waiting.cancel, waiting.forecast,
                     running.cancel, running.forecast, lambda: leave(scheduler), lambda: leave(scheduler.allocation(1)),
                     lambda: scheduler.occupy(Region(3, 0)), lambda: scheduler.vacate(Region(3, 0))):
            raises(OtherProcess, call)
        equal(repr(scheduler), "Scheduler(dim=2, of another process)")
        jobs_have_processors_of_their_own()
        allocations_hold_processors()

    in_a_child(act)
    with Scheduler(1) as other, other.allocation(1):
        in_a_child(lambda: raises(KeyError, _leave_in_a_child, other))
    gate.may_end.set()
    equal((running.result(), waiting.result()), (range(3), 0))
    scheduler.shutdown()


def _leave_in_a_child(scheduler):
    """Leaves a scheduler of the parent by an exception, which must come out."""
    with scheduler:
        raise KeyError(scheduler.dim)


def a_child_may_leave_an_allocation():
    with Scheduler(1) as scheduler:
        held = scheduler.allocation(1)
        held.__enter__()
        in_a_child(lambda: raises(OtherProcess, held.__exit__, None, None, None))
        equal(scheduler.counts().running, 1)
        held.__exit__(None, None, None)


def children_come_while_threads_call():
    with Scheduler(3) as scheduler:
        has_ended = threading.Event()

        def work():
            while not has_ended.is_set():
                with scheduler.allocation(3), Scheduler(1) as other:
                    other.submit(int).result()

        threads = [threading.Thread(target=work) for _ in range(3)]
        for it in threads:
            it.start()
        try:
            for _ in range(30):
                in_a_child(lambda: raises(OtherProcess, scheduler.counts) or jobs_have_processors_of_their_own())
        finally:
            has_ended.set()
            for it in threads:
                it.join()


# Programs that forget the shutdown, with the number of lines that each writes.
ENDS = {
    "idle": (0, "Scheduler(2).submit(int).result()"),
    "waiting": (20, "s = Scheduler(2); [s.submit(print, 'ran', processors=4) for _ in range(20)]"),
    "running": (1, "s = Scheduler(2); s.submit(lambda: time.sleep(0.3) or print('ran'))"),
    "shut without a wait": (1, "s = Scheduler(2); s.submit(print, 'ran'); s.shutdown(wait=False)"),
    "dropped": (1, "Scheduler(2).submit(lambda: time.sleep(0.3) or print('ran'))"),
    "an allocation without an end": (1, "s = Scheduler(2); a = s.allocation(2); a.__enter__(); s.submit(print, 'ran', processors=4)"),
    "a thread that is no daemon": (1, "s = Scheduler(2); s.submit(int).result(); threading.Thread(target=lambda: "
                                      "time.sleep(0.3) or s.submit(print, 'ran', processors=4)).start()"),
    "a daemon with an allocation": (0, "s = Scheduler(2)\ndef f():\n    with s.allocation(4): time.sleep(99)\n"
                                       "threading.Thread(target=f, daemon=True).start(); time.sleep(0.2)"),
    "a daemon that submits": (0, "s = Scheduler(2, jobs=3)\ndef f():\n  try:\n    while True: s.submit(time.sleep, 0.001)\n"
                                 "  except RuntimeError: pass\nthreading.Thread(target=f, daemon=True).start(); time.sleep(0.2)"),
    "without a block": (0, "s = Scheduler(2); s.occupy(Region(0, 0)); s.submit(print, 'ran', processors=4)"),
    "a child": (1, "s = Scheduler(2); s.submit(time.sleep, 0.1)\nif os.fork(): os.wait(); print('ran')"),
}


def programs_end_without_a_shutdown():
    began, words = time.monotonic(), [sys.executable, "-B", "-W", "ignore", "-c"]
    begin = "import os, threading, time\nfrom cubejobs import *\n"
    programs = {name: subprocess.Popen([*words, begin + code], stdout=subprocess.PIPE, stderr=subprocess.PIPE, text=True)
                for name, (_, code) in ENDS.items()}
    for name, program in programs.items():
        said, more = program.communicate(timeout=SECONDS)
        must((program.returncode, said, more) == (0, "ran\n" * ENDS[name][0], ""),
             f"{name}: status {program.returncode}, {said[-300:]}{more[-600:]}")
        seconds = time.monotonic() - began
        must(seconds < TO_END, f"{name}: it takes {seconds:.1f} s to end")


def ctrl_c_in_a_submit_loses_no_job():
    """Interrupts calls at random moments. Each job that has a future runs once, and the processors are free."""
    turns, is_on, interrupts, futures, called = random.Random(7), False, 0, [], []

    def interrupt(*_):
        if is_on:
            raise KeyboardInterrupt

    signal.signal(signal.SIGALRM, interrupt)
    with Scheduler(3, jobs=4) as scheduler:
        # The threads are there then: an interrupt may stop the start of one.
        with busy(scheduler, 1), busy(scheduler, 1), busy(scheduler, 1), busy(scheduler, 1):
            pass
        for _ in range(1000):
            try:
                is_on = True
                signal.setitimer(signal.ITIMER_REAL, turns.uniform(1e-5, 1e-3))
                while True:
                    futures.append(scheduler.submit(called.append, len(called), processors=turns.randint(1, 8), timeout=9))
                    scheduler.counts()
            except KeyboardInterrupt:
                interrupts += 1
            is_on = False
        wait(futures)
    must(interrupts > 300, f"only {interrupts} interrupts")
    must(len(futures) <= len(called) <= len(futures) + interrupts, f"{len(futures)} jobs make {len(called)} calls")
    equal((scheduler.counts(), _workers()), (idle(), []))


class Program:
    """Threads that use one scheduler at random. A table has the job that owns each processor."""

    def __init__(self, seed, jobs):
        self.seed, self.random, self.each = seed, random.Random(seed), jobs // 5
        dim = self.random.randrange(6)
        self.words = {"workers": self.random.choice((None, 1, 3, 40)), "jobs": self.random.choice((1, 4, 50, 1000))}
        self.scheduler, self.size = Scheduler(dim, patience=self.random.choice((0, 1, 16)), **self.words), 2**dim
        self.owners, self.lock, self.entries, self.wrong = [None] * self.size, threading.Lock(), [], []

    def own(self, number, processors, size, seconds):
        """Owns processors for a moment."""
        must(len(processors) == size, f"{processors} are not {size}")
        for it in processors:
            must(self.owners[it] is None, f"the jobs {self.owners[it]} and {number} have the processor {it}")
            self.owners[it] = number
        time.sleep(seconds)
        for it in processors:
            must(self.owners[it] == number, f"the processor {it} of {number} is of {self.owners[it]}")
            self.owners[it] = None

    def run(self, entry):
        entry["runs"] += 1
        self.own(entry["number"], current_processors(), entry["size"], entry["seconds"])
        if entry["fails"]:
            raise KeyError(entry["number"])
        return entry["number"]

    def submit(self, turns, number):
        size = turns.randint(1, self.size) if turns.random() < 0.3 else min(self.size, turns.choice((1, 1, 2, 3)))
        entry = {"number": number, "size": size, "seconds": turns.choice((0, 0, 1e-4, 2e-3)), "fails": turns.random() < 0.1,
                 "runs": 0, "ends": 0, "cancels": 0}
        words = {"processors": size, "estimate": turns.choice((None, 1e-3, 1)), "job_class": turns.randrange(8)}
        timeout = turns.choice((None, 0, 1e-3))
        try:
            if turns.random() < 0.15:
                with self.scheduler.allocation(timeout=timeout, **words) as processors:
                    self.own(number, processors, size, entry["seconds"])
                return
            entry["future"] = self.scheduler.submit(self.run, entry, timeout=timeout, **words)
        except TimeoutError:
            must(timeout is not None, "a call without a timeout is late")
            return
        entry["future"].add_done_callback(lambda _: entry.update(ends=entry["ends"] + 1))
        with self.lock:
            self.entries.append(entry)

    def look(self, turns):
        """Cancels a job, looks at one, or waits for one."""
        with self.lock:
            entry = turns.choice(self.entries) if self.entries else None
        if entry and turns.random() < 0.5:
            entry["cancels"] += entry["future"].cancel()
        elif entry:
            with contextlib.suppress(NoJob):
                found = entry["future"].forecast()
                must(len(found.processors) == (entry["size"] if found.state is State.RUNS else 0), str(found))
        counts = self.scheduler.counts()
        must(counts.asked <= counts.held <= self.size and counts.occupied <= self.size, str(counts))

    def use_block(self, turns):
        dim = turns.randrange(self.size.bit_length())
        region = Region(turns.randrange(0, self.size, 2**dim), dim)
        with contextlib.suppress(WrongState):
            self.scheduler.occupy(region)
            self.own("a block", region.processors, 2**dim, 1e-4)
            self.scheduler.vacate(region)

    def work(self, part):
        turns = random.Random(f"{self.seed} {part}")
        try:
            for number in range(self.each):
                self.submit(turns, f"{part}.{number}")
                if turns.random() < 0.3:
                    self.look(turns)
                if turns.random() < 0.02:
                    self.use_block(turns)
        except BaseException as wrong:
            self.wrong.append(wrong)

    def play(self):
        threads = [threading.Thread(target=self.work, args=(it,)) for it in range(5)]
        for it in threads:
            it.start()
        for it in threads:
            it.join()
        self.scheduler.shutdown(cancel_futures=self.random.random() < 0.5)
        must(not self.wrong, f"{self.wrong[:3]}")
        for entry in self.entries:
            future = entry["future"]
            must(future.done() and entry["ends"] == 1, f"{entry}: it has not one end")
            if future.cancelled():
                must(entry["runs"] == 0, f"{entry}: a cancelled job runs")
            else:
                must(entry["runs"] == 1 and entry["cancels"] == 0, f"{entry}: it runs not once")
                found = future.exception()
                result = repr(found) if found else future.result()
                equal(result, f"KeyError('{entry['number']}')" if entry["fails"] else entry["number"])
        core = self.scheduler._core
        must(not core.jobs and not core.full and not core.holds, f"{core.jobs}, {core.full} and {core.holds} are left")
        equal((self.scheduler.counts(), {*self.owners}, _workers()), (idle(), {None}, []))


def main(words):
    if words[0].isdigit():
        seed, jobs = map(int, words)
        for part in range(max(1, jobs // 500)):
            try:
                Program(f"{seed} {part}", 500).play()
            except BaseException:
                print(f"schedules, with the seed {seed} {part}:", file=sys.stderr)
                raise
    else:
        globals()[words[0]]()


if __name__ == "__main__":
    main(sys.argv[1:])
