"""Plays days of a batch system by the planner for C and by plain lists, start by start: `checks/run plan_days FOLDER
[--long]`, where FOLDER has the archive.

bench/schedulers/days.c makes the jobs and plays them. It is compiled with the library and with bench/schedulers/list.h,
the rules over a list of waiting jobs and an array of processors. Both must start the same jobs at the same times in the
same blocks. Long queues, eight classes and thousands of jobs are new here: `plan_calls` makes any calls, but few at a
time. If no job runs longer than its estimate, no job may start later than it was promised.

A list with a fault must be seen. With --long there are more and longer days.
"""
import os
import tempfile
from typing import NamedTuple

from checks.lib.repository import path
from checks.lib.rows import Row, answer, must, needs, output, run_rows

LIBRARY, LIST = "libcubejobs_plan.a", "list.h"
PATIENCE, SEEDS = 16, 4
# The faults of lists: a name, the text that is replaced, and the new one.
FAULTS = (
    ("a list that lets no brief job pass", "job->estimate > 0 && job->estimate <=", "job->estimate > 0 && 1 >="),
    ("a list that keeps no block apart", "is_apart(s, base, k))", "is_apart(s, base, k) || k == 0)"),
    ("a list that reserves too early", "s->jobs[head].passed >= s->limit", "2 * s->jobs[head].passed >= s->limit"),
    ("a list that reserves another block", "high_end < low_end ||", "high_end <= low_end ||"),
    ("a list that ends a job too late", "NEVER : now + job->estimate", "NEVER : now + 2 * job->estimate"),
    ("a list that mixes classes", "&s->lines[job->job_class]", "&s->lines[job->job_class / 2]"),
)


class Days(NamedTuple):
    """What is played: the machine, how many jobs, their load, what they say of run times, and their classes."""

    dim: int
    jobs: int
    load: float
    estimates: str
    classes: int

    def words(self, seed):
        return list(map(str, (self.dim, self.jobs, self.load, seed, self.estimates, self.classes, PATIENCE)))


DAYS = tuple(Days(*setup, estimates, classes) for estimates in ("usual", "exact", "none", "overrun")
             for setup, classes in (
                 ((4, 6000, 2.0), 8), ((7, 6000, 1.2), 8), ((8, 6000, 0.9), 1), ((10, 6000, 1.2), 2)))
LONG_DAYS = (*(it._replace(jobs=20_000) for it in DAYS), Days(12, 10_000, 1.2, "usual", 8),
             Days(14, 5000, 1.5, "none", 1))
# Days on which each fault shows.
FAULTY = (Days(6, 4000, 1.5, "usual", 4), Days(6, 4000, 1.5, "none", 1))


class Place(NamedTuple):
    """A folder with the archive, and one for programs and files."""

    folder: str
    room: str

    def built(self, header, name):
        """Compiles the player with a scheduler, unless it is there. Returns its path."""
        program = f"{self.room}/{name}"
        if os.path.exists(program):
            return program
        needs("gcc")
        words = ["gcc", "-O2", "-std=gnu11", "-Wall", "-Wextra", "-Werror", f'-DSCHEDULER="{header}"']
        words += [f"-I{path('include')}", f"-I{path('bench/schedulers')}", path("bench/schedulers/days.c")]
        words += ["-o", program]
        archive = [f"{self.folder}/{LIBRARY}"] if header == "library.h" else []
        status, _, said = answer([*words, *archive, "-lpthread", "-ldl", "-lm"], timeout=300)
        must(status == 0, said.decode(errors="replace"))
        return program

    def played(self, header, name, days, seed):
        """Plays days. Returns the lines of the starts, and the numbers by their names."""
        program, file = self.built(header, name), f"{self.room}/starts"
        said = output([program, *days.words(seed), file], timeout=600).split()
        with open(file) as lines:
            return lines.read().splitlines(), dict(zip(said[::2], map(float, said[1::2])))


def must_agree(place, days, seed):
    """Sees that the library and the lists start the same jobs, and that the promises hold."""
    ours, numbers = place.played("library.h", "library", days, seed)
    theirs, other = place.played(LIST, "list", days, seed)
    must(len(ours) == days.jobs, f"{len(ours)} starts")
    for number, (one, two) in enumerate(zip(ours, theirs)):
        must(one == two, f"start {number} is '{one}', and the lists have '{two}'")
    must(len(theirs) == len(ours), f"the lists have {len(theirs)} starts")
    for name in ("promised", "broken"):
        must(numbers[name] == other[name], f"{numbers[name]:.0f} jobs are {name}, and {other[name]:.0f} of the lists")
    must(days.estimates == "overrun" or numbers["broken"] == 0, f"{numbers['broken']:.0f} promises are broken")
    must(days.estimates == "none" or numbers["promised"] > 0, "nothing is promised")
    return f"{len(ours):,} starts, {numbers['promised']:.0f} promises"


def must_differ(place, name, old, new):
    """Sees that lists with a fault start other jobs than the library."""
    with open(path("bench/schedulers/list.h")) as file:
        text = file.read()
    must(text.count(old) >= 1, f"there is no '{old}'")
    faulty = f"{place.room}/{name}.h"
    with open(faulty, "w") as file:
        file.write(text.replace(old, new))
    found = (place.played(faulty, name, days, 1)[0] != place.played("library.h", "library", days, 1)[0]
             for days in FAULTY)
    must(any(found), "it starts the same jobs")


def rows(place, is_long):
    for days in LONG_DAYS if is_long else DAYS:
        for seed in range(1, SEEDS + 1 if is_long else 2):
            yield Row(f"{days} {seed}", must_agree, (place, days, seed))
    for name, old, new in FAULTS:
        yield Row(name, must_differ, (place, name, old, new))


def main(words):
    must(words and os.path.exists(f"{words[0]}/{LIBRARY}"), __doc__)
    with tempfile.TemporaryDirectory() as room:
        return run_rows("plan_days", rows(Place(words[0], room), "--long" in words))
