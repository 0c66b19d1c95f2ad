"""Tries the Python module of this clone over shared objects.

    checks/run python FOLDER               the tests of the gate, over those of a folder
    checks/run python --long               random programs at length, over those of release/
    checks/run python .. --seed N          random programs from this seed on

It runs the examples of the module's page, and small programs on what the module promises of blocks, machines, planners,
schedulers, memory and processes. Random programs run beside a model, or with a table of owners. mypy reads the module
and programs of users, where it is installed. pip installs the module into a virtual environment and removes it.
"""
import argparse
import ast
import multiprocessing
import os
import platform
import tempfile

from checks.built import wheel
from checks.lib.repository import ROOT, path, read
from checks.lib.rows import Row, answer, must, needs, output, run_rows

HERE, MODULE = path("tests", "python"), path("python")
DOCTEST = "import cubejobs, doctest; failed, tried = doctest.testmod(cubejobs); print(tried); raise SystemExit(failed)"
EXAMPLES = ("day.py", "gang.py", "processes.py")
SECONDS = 900
# How many random programs run of each kind, and how many calls each makes: in the gate, and at length.
GATE, LONG = (2, 50_000), (10, 300_000)
# How much slower the plain model of a planner is, and the threads of a scheduler.
PLAIN, SLEEPY = 5, 50


def programs(file):
    """Returns the names of the programs in a file: its functions without arguments, except those with an underscore."""
    found = [it for it in ast.parse(read(HERE, file)).body if isinstance(it, ast.FunctionDef)]
    return [it.name for it in found if not it.args.args and not it.name.startswith("_")]


class Module:
    """The module of this clone, over the shared objects of a folder."""

    def __init__(self, folder):
        self.env = {**os.environ, "PYTHONPATH": f"{MODULE}:{ROOT}", "CUBEJOBS_LIB": folder}

    def runs(self, *words):
        """Runs Python with the module on its path, and returns what it writes. It must end well."""
        # Newer versions of Python warn of a fork beside threads.
        words = ["python3", "-B", "-W", "ignore::DeprecationWarning", *words]
        return output(words, env=self.env, timeout=SECONDS)

    def examples_of_its_page(self):
        must(int(self.runs("-c", DOCTEST)) >= 20, "the module has too few examples")

    def example(self, name):
        """Runs an example of Python, whose output is beside it."""
        file = path("examples", name)
        must(self.runs(file) == read(f"{file[:-3]}.out"), f"{name} has another output")

    def has_good_types(self):
        needs("mypy")
        words = ["mypy", "--strict", "--cache-dir", os.devnull, f"{MODULE}/cubejobs", f"{MODULE}/backend",
                 f"{HERE}/typed.py", *(path("examples", it) for it in EXAMPLES)]
        status, said, more = answer(words, "", text=True, env={**os.environ, "MYPYPATH": MODULE}, timeout=SECONDS)
        must(status == 0, (said + more)[-800:])


def rows(module, work, folder):
    yield Row("the examples of its page", module.examples_of_its_page)
    yield from (Row(f"the example {it}", module.example, (it,)) for it in EXAMPLES)
    yield Row("its types", module.has_good_types)
    for file in ("behaviour.py", "forks.py", "plans.py", "schedules.py"):
        yield from (Row(it.replace("_", " "), module.runs, (f"{HERE}/{file}", it)) for it in programs(file))
    for method in multiprocessing.get_all_start_methods():
        words = f"{HERE}/forks.py", "workers_have_machines_of_their_own", method
        yield Row(f"workers by {method}", module.runs, words)
    yield from wheel.rows(work, folder)


def random_rows(module, seed, seeds, calls):
    for part in ("alone", "threads"):
        for it in map(str, range(seed, seed + seeds)):
            words = f"{HERE}/random_calls.py", part, it, str(calls)
            yield Row(f"random calls, {part}, with the seed {it}", module.runs, words)
    for it in map(str, range(seed, seed + seeds)):
        words = f"{HERE}/plans.py", it, str(calls // PLAIN)
        yield Row(f"random calls of planners, with the seed {it}", module.runs, words)
    for it in map(str, range(seed, seed + seeds)):
        words = f"{HERE}/schedules.py", it, str(calls // SLEEPY)
        yield Row(f"random jobs of schedulers, with the seed {it}", module.runs, words)


def main(words):
    options = argparse.ArgumentParser("checks/run python", usage=__doc__.split("\n\n")[1].strip())
    options.add_argument("folder", nargs="?", default=path("release", f"linux-{platform.machine()}"))
    options.add_argument("--long", action="store_true")
    options.add_argument("--seed", type=int, default=1)
    chosen = options.parse_args(words)
    folder = os.path.realpath(chosen.folder)
    must(os.path.isdir(folder), f"there is no folder {folder}")
    module = Module(folder)
    if chosen.long:
        return run_rows("python", random_rows(module, chosen.seed, *LONG), says_ok=True)
    with tempfile.TemporaryDirectory() as work:
        return run_rows("python", [*rows(module, work, folder), *random_rows(module, chosen.seed, *GATE)])
