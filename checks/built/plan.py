"""Plays random events on the scheduler in its source form and on a plain model of it, and compares all answers.

`checks/run plan [--long]` builds plan.rs over `rust/src/source`. It plays 60,000 events, and with `--long` 1,000,000:
machines of up to 256 processors, jobs of all classes, jobs into slots by name, blocks that go out of service and
return, jobs that end late, full tables. plan_model.py is the model.

It must see slips.
"""
import os
import random
import tempfile

from checks.built.beside import WORDS, copied
from checks.lib.rows import Row, Wrong, answer, must, needs, run_rows
from tests.faults.slips import OF_THE_PLANNER
from tests.models.plan_model import DONE, NEVER, NO_JOB, Model

EVENTS, MANY, AT_ONCE, SECONDS = 60_000, 1_000_000, 4000, 1800
PROGRAM = "tests/rust/plan.rs"


class Player:
    """Makes random events, and plays them on the model."""

    def __init__(self, seed):
        self.random, self.events, self.wanted = random.Random(seed), [], []
        self.open()

    def open(self):
        one = self.random
        dim, most = one.randrange(9), one.choice((0, 1, 3, 10, 40)) if one.random() < 0.2 else 100_000
        self.model, self.now = Model(dim, most, one.choice((0, 0, 1, 2, 4, 16))), 0
        self.load, self.classes = one.choice((0.3, 0.45, 0.6)), one.choice((1, 2, 8))
        self.events.append(f"o {dim} {most} {self.model.patience}")

    def play(self, event, answered):
        self.events.append(event)
        self.wanted.append(f"{event[0]} {answered}")

    def known(self, code, told):
        return " ".join(map(str, told)) if code == DONE else "none" if code == NO_JOB else "wrong"

    def some_job(self, runs):
        """Returns the number of a job, most often of one that runs or that waits."""
        numbers = [it.arrival for it in self.model.jobs.values() if (it.base is not None) == runs]
        is_one = numbers and self.random.random() < 0.95
        return self.random.choice(numbers) if is_one else self.random.randrange(self.model.arrivals)

    def submit(self):
        one, size = self.random, 2**self.model.dim
        processors = one.randint(1, size) if one.random() < 0.4 else min(size, one.choice((1, 1, 2, 3, 4)))
        estimate = one.choice((0, one.randint(1, 20), one.randint(1, 200), NEVER - one.randrange(3)))
        job = one.randrange(1000), estimate, processors, one.randrange(self.classes)
        done = "ok" if self.model.submit(*job)[0] == DONE else "full"
        letter, slot = ("i", [one.randrange(60)]) if one.random() < 0.4 else ("s", [])
        self.play(" ".join(map(str, [letter, *job, *slot])), done)

    def use_block(self):
        one, model = self.random, self.model
        dim = one.randint(0, model.dim) if one.random() < 0.4 else min(1, model.dim)
        base = one.randrange(2 ** (model.dim - dim)) << dim
        if model.out and one.random() < 0.5:
            base, dim = one.choice([*model.out.items()]) if one.random() < 0.9 else (base, dim)
            self.play(f"v {base} {dim}", str(model.vacate(base, dim) == DONE).lower())
        else:
            self.play(f"b {base} {dim}", str(model.occupy(base, dim) == DONE).lower())

    def decide(self):
        started = True
        while started:
            code, told = self.model.next(self.now)
            started = code == DONE
            self.play(f"n {self.now} {self.random.randrange(2)}", self.known(code, told) if started else "-")

    def step(self):
        one, model, what = self.random, self.model, self.random.random()
        if what < self.load or not model.arrivals:
            self.submit()
        elif what < self.load + 0.05:
            number = self.some_job(runs=False)
            self.play(f"c {number}", self.known(*model.cancel(number)))
        elif what < self.load + 0.12:
            self.use_block()
        else:
            number = self.some_job(runs=True)
            self.play(f"d {number}", self.known(*model.finish(number)))
        self.now += one.choice((0, 0, 1, one.randrange(30), one.randrange(300)))
        if one.random() < 0.7:
            self.decide()
        if model.arrivals and one.random() < 0.5:
            number = self.some_job(runs=False)
            self.play(f"f {number}", self.known(*model.forecast(number)))
        if one.random() < 0.3:
            self.play("k", " ".join(map(str, model.counts())))
        if one.random() < 0.01:
            self.open()


def built(folder, slip=None):
    """Builds the program in a folder, with a slip, and returns its path."""
    needs("rustc")
    copied(folder, PROGRAM, [slip] if slip else [])
    program = os.path.join(folder, "plan")
    words = ["nice", "rustc", *WORDS, '--cfg=feature="plan"', "-o", program, os.path.join(folder, PROGRAM)]
    status, _, err = answer(words, "", timeout=SECONDS, text=True)
    must(status == 0, f"rustc refuses the program:\n{err[:3000]}")
    return program


def compared(count, slip=None):
    """Plays this number of events. Fails at the first answer that is another one than the model's."""
    with tempfile.TemporaryDirectory() as folder:
        program, player, done = built(folder, slip), Player(1), 0
        while done < count:
            while len(player.wanted) < min(AT_ONCE, count):
                player.step()
            _, out, err = answer([program], "\n".join(player.events) + "\n", timeout=SECONDS, text=True)
            for place, (got, wanted) in enumerate(zip(out.splitlines() + [err[:300]], player.wanted)):
                must(got == wanted, f"answer {done + place} is '{got}', and the model's is '{wanted}'")
            done += len(player.wanted)
            player.events, player.wanted = [], []
            player.open()
    return f"{done:,} answers"


def must_see(slip):
    """Sees that a slip gives another answer."""
    try:
        compared(EVENTS, slip)
    except Wrong as seen:
        must("answer " in str(seen), str(seen))
        return
    must(False, "all answers are those of the model")


def main(words):
    rows = [Row("each answer is that of the model", compared, (MANY if "--long" in words else EVENTS,))]
    rows += [Row(slip.name, must_see, (slip,)) for slip in OF_THE_PLANNER]
    return run_rows("plan", rows)
