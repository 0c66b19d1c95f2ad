"""Rows of the lanes (a part of ffi): jobs that pass, workers and submits that sleep, crowds, and faults of the
headers."""
from checks.lib.c_programs import (
    ADDRESSES, C, CALLS, CHECKED, CLANG, CLANG_20, CONDITION, CXX, CXX_17, CXX_20, FIT, HELGRIND, LANES, MARKED,
    OWN_MALLOC, PLAN, RACE, RACES, RACES_20, REGIONS, SCHED, WATCHED, Program, must_be_seen, must_run, shim, unlike)
from checks.lib.rows import Row
from tests.examples import batch
from tests.faults import wait_faults
from tests.faults.library_faults import OF_LANES, WRAPPED

# The programs of lanes whose threads sleep, and their words where a fault must be seen.
THAT_SLEEP = {"look_order": [], "sleep_calls": ["2000"], "room_calls": ["200"]}
MOVES = "-Wno-self-move"


def shim_of_sleep(number):
    return shim("sleep", number, WRAPPED["sleep"])


def of_jobs(room, longer):
    """Yields the lanes with workers that ask again, and the wrong libraries, which the programs must see."""
    for name, title, jobs in (("lanes", "the lanes", (20_000, 1000, 2000, 100_000)),
                              ("asleep", "workers that sleep", (20_000, 1000, 2000, 20_000))):
        for compiler, count in zip((CHECKED, RACES, CLANG, CXX), jobs):
            program = Program(CALLS(name), [LANES], compiler, words=[str(count * longer)])
            yield Row(program.by(title), must_run, (room, program))
    memory = Program("tests/c/lanes_memory.c", [LANES], C, OWN_MALLOC)
    yield Row("the memory of the lanes", must_run, (room, memory))
    yield Row("examples/lanes.c", must_run, (room, Program("examples/lanes.c", [LANES], shown="examples/lanes.out")))
    race = Program(CALLS("lanes"), [LANES], RACES, ["-DUNGUARDED"], ["500"])
    yield Row("a race beside a job is seen", must_be_seen, (room, race, RACE))
    for number, what in enumerate(OF_LANES, 1):
        wrong = Program(CALLS("lanes"), [LANES], C, shim("lanes", number, WRAPPED["lanes"]), ["2000"])
        yield Row(what, must_be_seen, (room, wrong, b"another answer"))
    marked = Program(CALLS("lanes"), [LANES], C, MARKED, ["100"], HELGRIND)
    yield Row("helgrind sees no race between jobs", must_run, (room, marked))


def crowds(longer, seconds):
    """Yields 16 producers and eight workers, with memory of each job, which must end well. The threads try again, or
    sleep. In a long run there are 10^7 jobs, 25 rounds of 10^5, and rounds of 4,000 under each sanitizer for these
    seconds."""
    for sleeps in (), ("-DSLEEP",):
        for (compiler, flags, runner), jobs in zip((*WATCHED, (CXX, (), ())), (100_000, 4000, 20_000, 400, 100_000)):
            yield Program(CALLS("jobs"), [LANES], compiler, [*flags, *sleeps], [str(jobs)], runner)
        if longer > 1:
            yield Program(CALLS("jobs"), [LANES], C, sleeps, [str(10**7)])
            yield Program(CALLS("jobs"), [LANES], C, sleeps, ["100000", "0", "25"])
            for compiler, flags, runner in WATCHED:
                yield Program(CALLS("jobs"), [LANES], compiler, [*flags, *sleeps], ["4000", str(seconds)], runner)


def of_crowds(room, longer, seconds):
    for program in crowds(longer, seconds):
        yield Row(" ".join([program.by("a crowd of", *program.words), *program.flags]), must_run, (room, program))


def of_waits(room):
    """Yields the headers with a fault, which the programs must see."""
    for number, (name, what, old, new, said) in enumerate(wait_faults.OF_THE_HEADER):
        unlike(room, f"fault{number}", "cubejobs_wait.h", old, new)
        library, words = (LANES if name in THAT_SLEEP else REGIONS), THAT_SLEEP.get(name, ["2000"])
        compiler, flags = [*C, f"-I{room}/fault{number}"], shim_of_sleep(5) if name == "sleep_calls" else ()
        program = Program(f"tests/c/{name}.c", [library], compiler, ["-DPATIENCE=3", *flags], words)
        yield Row(what, must_be_seen, (room, program, said))
    unlike(room, "cancelled", "cubejobs_wait.h", *wait_faults.CANCELLED)
    compiler = [*C, CONDITION, f"-I{room}/cancelled"]
    program = Program(CALLS("deadline"), [REGIONS], compiler, ["-DPATIENCE=3"], ["100"])
    yield Row("a thread that ends inside a wait", must_be_seen, (room, program, wait_faults.LOST))
    for number, (name, what, old, new, said) in enumerate(wait_faults.OF_OWNERS):
        unlike(room, f"owners{number}", "cubejobs.hpp", old, new)
        compiler, flags = [*CXX_20, f"-I{room}/owners{number}"], ["-DOWNERS", "-DPATIENCE=3"]
        program = Program(f"tests/c/{name}.c", [LANES], compiler, flags, THAT_SLEEP[name])
        yield Row(f"owners of lanes: {what}", must_be_seen, (room, program, said))
    for number, (what, said) in enumerate(wait_faults.OF_A_LIBRARY, 1):
        program = Program(CALLS("sleep"), [LANES], C, ["-DPATIENCE=3", *shim_of_sleep(number)], ["2000"])
        yield Row(what, must_be_seen, (room, program, said))


def of_owners(room):
    """Yields the owners of C++, and the batch scheduler."""
    name, libraries = "tests/c/owners_calls.cpp", [REGIONS, FIT, PLAN, LANES]
    for compiler in ([*CXX, *ADDRESSES], CXX_17, [*CXX_20, *ADDRESSES], CLANG_20, RACES_20):
        program = Program(name, libraries, compiler, [MOVES])
        yield Row(program.by(name), must_run, (room, program))
        program = Program("tests/c/owners_codes.cpp", libraries, [*compiler, "-fno-exceptions"])
        yield Row(program.by(program.source), must_run, (room, program))
        program = Program("examples/lanes.cpp", [LANES], compiler, shown="examples/lanes.out")
        yield Row(program.by(program.source), must_run, (room, program))
    for source, compilers in (("c", (CHECKED, RACES)), ("cpp", ([*CXX_17, *ADDRESSES], RACES_20))):
        for compiler in compilers:
            program = Program(f"examples/batch.{source}", [SCHED], compiler)
            yield Row(program.by(program.source), batch.must_work, (room, program))


def of_sleepers(room, longer):
    """Yields the workers and the submits of lanes that sleep."""
    for compiler, jobs in ((CHECKED, 5000), (RACES, 500), (CLANG, 1000), (CXX, 20_000), ([*C, CONDITION], 5000)):
        program = Program(CALLS("sleep"), [LANES], compiler, words=[str(min(jobs * longer, 10**6))])
        yield Row(program.by("sleeping workers"), must_run, (room, program))
    again = Program(CALLS("sleep"), [LANES], C, shim_of_sleep(5), ["2000"])
    yield Row("wakes and finds that are called again", must_run, (room, again))
    owners = [*CXX, *ADDRESSES, "-DOWNERS"], [*CXX_20, *ADDRESSES, "-DOWNERS"], [*RACES_20, "-DOWNERS"]
    for compiler in (CHECKED, RACES, CLANG, CXX, [*CHECKED, CONDITION], *owners):
        program = Program(CALLS("room"), [LANES], compiler, words=[str(100 * longer)])
        yield Row(program.by("sleeping submits"), must_run, (room, program))
    for compiler, flags in ((CHECKED, ()), ([*C, CONDITION], ()), (CXX_20, ["-DOWNERS"])):
        program = Program("tests/c/look_order.c", [LANES], compiler, flags)
        yield Row(" ".join([program.by("scripted orders of lanes"), *flags]), must_run, (room, program))
