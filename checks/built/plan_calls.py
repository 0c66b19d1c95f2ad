"""Plays the planner beside a plain model of its rules: `checks/run plan_calls FOLDER [SEED PLANNERS CALLS]`, where
FOLDER has the archive.

plan_calls.c makes random calls and prints each one with its answer. Here plan_model.py answers the same calls, and each
line must agree in all its numbers. It is run as C and as C++, with the compiler's checks of addresses, also of memory
that is not freed. Half of the planners are in memory of the caller, between marks that must stay. A model with a fault
must be seen. Each request for memory is refused in turn. SEED, PLANNERS and
CALLS are for a longer run: calls of so many planners.
"""
import os
import subprocess
import tempfile
from typing import NamedTuple

from checks.lib.repository import path
from checks.lib.rows import Row, answer, must, needs, run_rows
from tests.models.plan_model import DONE, NO_JOB, Model

LIBRARY = "libcubejobs_plan.a"
STRICT = ["-O1", "-g", "-Wall", "-Wextra", "-Werror", "-pedantic", f"-I{path('include')}"]
CHECKS = ["-fsanitize=address,undefined", "-fno-sanitize-recover=all"]
C, CXX = ["gcc", "-std=c11", "-xc"], ["g++", "-std=c++11", "-xc++"]
OUT_OF_RANGE, NOT_OPEN, ALREADY_OPEN, BAD_VERSION = 45, 12, 14, 15
SLOTS = 2**24
# The bytes of the fixed parts, of a node of a machine and of a job.
BYTES = 4000, 14, 96
NOTHING = [0] * 10
# How plan_calls.c prints an address that is no multiple of 8.
MISALIGNED = 2
VERSION = 1


class Replay:
    """Answers the calls of one planner after another, and knows the ticket of each job."""

    def __init__(self, rules=Model):
        self.rules, self.model = rules, None
        self.arrivals, self.tickets = {}, {}

    def job(self, answered):
        """Returns the numbers of an answer about a job, from the model's code and tuple."""
        code, found = answered
        if code != DONE:
            return [code, *NOTHING]
        state, base, dim, time, before, processors, job_class, payload, arrival = found
        return [DONE, state, self.tickets[arrival], payload, base, time, before, arrival, processors, dim, job_class]

    def arrival(self, ticket):
        return self.arrivals.get(ticket, -1)

    # ---- calls: each takes the numbers of the call and those that the library answered, and returns the right ones

    def o(self, numbers, _):
        version, dim, jobs, patience, flags, memory = numbers
        if version != VERSION:
            return [BAD_VERSION]
        if self.model:
            return [ALREADY_OPEN]
        if self.y([dim, jobs, patience, flags], None) == [0] or memory == MISALIGNED:
            return [OUT_OF_RANGE]
        self.model = self.rules(dim, jobs, patience)
        self.arrivals, self.tickets = {}, {}
        return [DONE]

    def y(self, numbers, _):
        dim, jobs, _patience, flags = numbers
        fixed, node, job = BYTES
        return [0 if dim > 20 or not 1 <= jobs <= SLOTS or flags else fixed + node * 2**(dim + 1) + job * jobs]

    def s(self, numbers, answered):
        payload, estimate, processors, job_class = numbers
        code, job = self.model.submit(payload, estimate, processors, job_class)
        if code != DONE:
            return [code, *NOTHING]
        ticket = answered[2]
        live = {self.tickets[arrival] % SLOTS for arrival in self.model.jobs if arrival != job.arrival}
        must(ticket and ticket not in self.arrivals and ticket % SLOTS not in live, f"{ticket} is no new ticket")
        must(ticket % SLOTS < self.model.most, f"there is no slot of the ticket {ticket}")
        self.arrivals[ticket], self.tickets[job.arrival] = job.arrival, ticket
        return self.job(self.model.forecast(job.arrival))

    def f(self, numbers, _):
        return self.job(self.model.finish(self.arrival(numbers[0])))

    def c(self, numbers, _):
        return self.job(self.model.cancel(self.arrival(numbers[0])))

    def q(self, numbers, _):
        return self.job(self.model.forecast(self.arrival(numbers[0])))

    def n(self, numbers, _):
        return self.job(self.model.next(numbers[0]))

    def b(self, numbers, _):
        return [self.model.occupy(*numbers)]

    def v(self, numbers, _):
        return [self.model.vacate(*numbers)]

    def a(self, numbers, _):
        first = numbers[0] % SLOTS + 1 if numbers[0] else 0
        later = [self.tickets[it] for it in self.model.jobs if self.tickets[it] % SLOTS >= first]
        if not later:
            return [NO_JOB, *NOTHING]
        ticket = min(later, key=lambda it: it % SLOTS)
        answer = self.job(self.model.forecast(self.arrivals[ticket]))
        answer[6] = 0
        return answer

    def t(self, _numbers, _answered):
        return [DONE, *self.model.counts()]

    def x(self, _numbers, _answered):
        self.model = None
        return [DONE]

    def line(self, line):
        """Answers the call of a line. Returns what is wrong, or None."""
        call, _, said = line.partition(" = ")
        name, *words = call.split()
        numbers, answered = [int(it) for it in words], [int(it) for it in said.split()]
        if self.model or name in "oy":
            right = getattr(self, name)(numbers, answered)
        else:
            right = [NOT_OPEN, *[0] * (len(answered) - 1)]
        return None if right == answered else f"{line}\n  the model answers {' '.join(map(str, right))}"


# ---- models with a fault, each of which must be seen


class IgnoresClasses(Model):
    def waiting(self):
        return sorted((job for job in self.jobs.values() if job.base is None), key=lambda job: job.arrival)


class ForgetsTheReservation(Model):
    def first(self, dim, apart=None):
        return super().first(dim)


class WaitsForNoPromise(Model):
    def place_beside(self, job, head):
        apart = (self.reserved[1], 2**head.dim) if self.reserved else None
        return self.first(job.dim, apart)


class IsNeverPatient(Model):
    def __init__(self, dim, most, patience):
        super().__init__(dim, most, 0)


class ReservesTheFirst(Model):
    def choose(self, dim):
        return next(base for base in self.blocks(dim) if self.is_usable(base, dim))


class IgnoresWhatIsBusy(Model):
    def busy(self, base, dim):
        return 0


class KeepsTheReservation(Model):
    def occupy(self, base, dim):
        kept = self.reserved
        code = super().occupy(base, dim)
        self.reserved = kept if self.reserved or kept and self.is_usable(kept[1], 0) else self.reserved
        return code


class EndsLater(Model):
    def start(self, job, base):
        super().start(job, base)
        job.end += job.end < 2**64 - 2
        return job


FAULTS = (IgnoresClasses, ForgetsTheReservation, WaitsForNoPromise, IsNeverPatient, ReservesTheFirst, IgnoresWhatIsBusy,
          KeepsTheReservation, EndsLater)

# ---- runs


class Place(NamedTuple):
    """A folder with the archive, and one for programs."""

    folder: str
    room: str

    def built(self, compiler, source="tests/c/plan_calls.c", flags=()):
        """Compiles a program over the library. Returns its path."""
        needs(compiler[0])
        out = f"{self.room}/program"
        words = [*compiler, *STRICT, path(source), "-xnone", *flags, f"{self.folder}/{LIBRARY}", "-o", out]
        status, _, said = answer(words, timeout=300)
        must(status == 0, said.decode(errors="replace"))
        return out


def calls(program, words):
    """Yields the calls that a run of the program prints, without the ends of their lines. It must end well."""
    with subprocess.Popen([program, *words], stdout=subprocess.PIPE, text=True) as ran:
        for line in ran.stdout:
            yield line.rstrip("\n")
    must(ran.returncode == 0, f"status {ran.returncode}")


def must_agree(place, compiler, words):
    """Sees that the library and the model answer each call alike."""
    replay, count = Replay(), 0
    for line in calls(place.built(compiler), words):
        wrong = replay.line(line)
        must(not wrong, f"call {count}: {wrong}")
        count += 1
    return f"{count:,} calls"


def must_refuse(place):
    """Sees that each request for memory may be refused, and that a planner has as many bytes as it says."""
    program = place.built(C, "tests/c/plan_memory.c", ["-Wl,--wrap=malloc,--wrap=free"])
    must(not list(calls(program, [])), "it writes")


def must_differ(place, rules):
    """Sees that a model with a fault answers a call otherwise."""
    replay = Replay(rules)
    lines = list(calls(place.built(C), ["5", "300", "100"]))
    must(any(differs(replay, line) for line in lines), "no call differs")


def differs(replay, line):
    """Returns whether a model answers a call otherwise. A state that the rules exclude is a difference, too."""
    try:
        return replay.line(line)
    except (IndexError, KeyError, StopIteration, ValueError):
        return True


def rows(place, words):
    yield Row("random calls", must_agree, (place, [*C, *CHECKS], words or ["1", "400", "120"]))
    yield Row("random calls by C++", must_agree, (place, [*CXX, *CHECKS], ["2", "100", "120"]))
    yield Row("requests for memory", must_refuse, (place,))
    for rules in FAULTS:
        yield Row(f"a model that {rules.__name__}", must_differ, (place, rules))


def main(words):
    must(words and os.path.exists(f"{words[0]}/{LIBRARY}"), __doc__)
    with tempfile.TemporaryDirectory() as room:
        return run_rows("plan_calls", rows(Place(words[0], room), words[1:]))
