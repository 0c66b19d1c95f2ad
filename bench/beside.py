"""Runs `cubejobs` beside other programs of the same job, in turn on the same inputs."""
import os
import random
import statistics
import subprocess
import sys
import tempfile
import time
from typing import NamedTuple

BENCH = os.path.dirname(os.path.realpath(__file__))
ROOT = os.path.dirname(BENCH)
TURNS = 7
# The numbers of dispatchers, the places of a queue, and the inputs by which the settings of `run` are measured: the
# dimension of the machine, what kind of jobs, how many, the number of items of each, and the number of lanes.
DISPATCHERS = (1, 2, 4)
CAPACITIES = (16, 1_024)
SETTING_INPUTS = (
    (3, "allreduce", 1_000_000, 1, 1),
    (3, "allreduce", 1_000_000, 1, 16),
    (4, "scan", 300_000, 16, 16),
    (6, "scan", 100_000, 64, 4),
    (10, "scan", 20_000, 1_024, 4),
    (10, "allreduce", 20_000, 1_024, 4),
)


class Cost(NamedTuple):
    """What a run took: processor time and time on the clock in seconds, and the peak memory in MB."""

    processor: float
    clock: float
    memory: float


def write_jobs(kind, count, items, lanes, path):
    """A jobs file: so many jobs of a kind, each of so many random items, on random lanes."""
    rng = random.Random(count + items)
    with open(path, "w") as file:
        file.write("lane,kind,op,root,items\n")
        for _ in range(count):
            words = " ".join(str(rng.getrandbits(64)) for _ in range(items))
            file.write(f"{rng.randrange(lanes)},{kind},add,0,{words}\n")


def write_commands(kind, count, path, names=72):
    """A file of commands for `place`: so many takes and frees, in random order, of random dimensions; of this many
    names, or of ever new ones."""
    rng = random.Random(count)
    held = []
    with open(path, "w") as file:
        file.write("command,name,dim\n")
        for number in range(count):
            if rng.randrange(2) == 0 or not held:
                name = f"n{rng.randrange(names)}" if kind == "few names" else f"n{number}"
                held.append(name)
                file.write(f"take,{name},{rng.randrange(8)}\n")
            else:
                name = held.pop(len(held) - 1 - rng.randrange(min(len(held), 60)))
                file.write(f"free,{name},-\n")


def write_schedule(kind, count, path):
    """A schedule of 32 stations that take and release random nodes: so many steps, or runs."""
    rng = random.Random(count)
    with open(path, "w") as file:
        file.write("station,call,arg\n")
        for number in range(count):
            station = rng.randrange(32)
            if kind == "runs" or number % 8 == 0:
                file.write(f"{station},take,{rng.randrange(1, 2048)}\n")
            if kind == "runs":
                file.write(f"{station},run,-\n")
            else:
                file.write(f"{station},step,1\n")
            if kind == "runs" or number % 8 == 4:
                file.write(f"{station},release,-\n")


def built(folder, source):
    """The plain program of a source file, built into the folder."""
    program = os.path.join(folder, os.path.splitext(source)[0])
    subprocess.run(["rustc", "--edition", "2021", "-O", "-o", program, os.path.join(BENCH, source)], check=True)
    return program


def built_by_cargo(folder, project):
    """The program of a Cargo project of this folder, built into `folder`, or None where its crates are missing."""
    command = ["cargo", "build", "--release", "--offline", "--quiet", "--target-dir", folder]
    done = subprocess.run(command, cwd=os.path.join(BENCH, project))
    return os.path.join(folder, "release", project) if done.returncode == 0 else None


def proved():
    """The path of `cubejobs`, which is built first where its sources have changed."""
    subprocess.run([os.path.join(ROOT, "cubejobs"), "--help"], stdout=subprocess.DEVNULL, check=True)
    return os.path.join(ROOT, "out", "cubejobs")


def measured(command, path, out):
    """The cost of one run, which reads the file at `path` and writes that at `out`."""
    with open(path, "rb") as stdin, open(out, "wb") as stdout:
        start = time.perf_counter()
        process = subprocess.Popen(command, stdin=stdin, stdout=stdout)
        _, status, usage = os.wait4(process.pid, 0)
        clock = time.perf_counter() - start
    process.returncode = 0
    if status != 0:
        sys.exit(f"{' '.join(command)} ended with status {status}")
    return Cost(usage.ru_utime + usage.ru_stime, clock, usage.ru_maxrss / 1024)


def measured_in_turn(commands, path, folder, turns=TURNS):
    """The least times and the greatest memory of each command in several turns, by its name. It fails
    where two commands wrote different bytes."""
    outputs = {name: os.path.join(folder, f"output {number}") for number, name in enumerate(commands)}
    best = {}
    for _ in range(turns):
        for name, command in commands.items():
            cost = measured(command, path, outputs[name])
            old = best.get(name, cost)
            best[name] = Cost(min(old.processor, cost.processor), min(old.clock, cost.clock), max(old.memory, cost.memory))
    first = next(iter(outputs.values()))
    for name, output in outputs.items():
        if subprocess.run(["cmp", "-s", first, output]).returncode != 0:
            sys.exit(f"{name} wrote different bytes")
    return best


def compare(arguments, source, plain_arguments, inputs, program=None):
    """Prints a line for each input and program: the least processor time and the greatest peak memory
    of several runs, with their ratios to those of the plain program. Without a build of `cubejobs` it makes one.

    An input is a label, and a function that writes the input to a path. It should write line by line,
    since a child's peak memory begins with that of its parent.
    """
    program = program or proved()
    with tempfile.TemporaryDirectory() as folder:
        commands = {"proved": [program, *arguments], "plain": [built(folder, source), *plain_arguments]}
        path = os.path.join(folder, "input.csv")
        print(f"{'input':40} program   seconds      MB    time  memory")
        for label, write in inputs:
            write(path)
            best = measured_in_turn(commands, path, folder)
            for name, cost in best.items():
                time_ratio = cost.processor / best["plain"].processor
                memory_ratio = cost.memory / best["plain"].memory
                print(f"{label:40} {name:8} {cost.processor:8.3f} {cost.memory:7.1f} {time_ratio:7.2f} {memory_ratio:7.2f}")


def is_loaded():
    """Whether other programs use more than half of each processor."""
    return os.getloadavg()[0] > os.cpu_count() / 2


def medians_in_turn(commands, path, folder, turns):
    """The median cost of each command in several turns, by its name. It fails where two commands wrote different
    bytes."""
    outputs = {name: os.path.join(folder, f"output {number}") for number, name in enumerate(commands)}
    costs = {name: [] for name in commands}
    for _ in range(turns):
        for name, command in commands.items():
            costs[name].append(measured(command, path, outputs[name]))
    first = next(iter(outputs.values()))
    for name, output in outputs.items():
        if subprocess.run(["cmp", "-s", first, output]).returncode != 0:
            sys.exit(f"{name} wrote different bytes")
    return {name: Cost(*map(statistics.median, zip(*own))) for name, own in costs.items()}


def compare_settings(commands_of, inputs, turns=TURNS):
    """Prints a line for each input and command: the median processor time, time on the clock and peak memory of
    several runs, with their ratios to those of the first command. A star marks a row that began or ended under load.

    An input is a label, what `commands_of` makes its commands by name of, and a function that writes the input.
    """
    with tempfile.TemporaryDirectory() as folder:
        path = os.path.join(folder, "input.csv")
        print(f"{'input':48} program        processor   clock      MB    processor  clock  memory")
        for label, what, write in inputs:
            write(path)
            was_loaded = is_loaded()
            costs = medians_in_turn(commands_of(what), path, folder, turns)
            mark = " *" if was_loaded or is_loaded() else ""
            base = next(iter(costs.values()))
            for name, cost in costs.items():
                ratios = [own / other for own, other in zip(cost, base)]
                print(
                    f"{label:48} {name:14} {cost.processor:9.3f} {cost.clock:7.3f} {cost.memory:7.1f}"
                    f" {ratios[0]:12.2f} {ratios[1]:6.2f} {ratios[2]:7.2f}{mark}",
                    flush=True,
                )
