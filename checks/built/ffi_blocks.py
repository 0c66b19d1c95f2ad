"""Rows of exact first fit, of rounds, of planners and of the regions (a part of ffi): what must end well, and what must
be seen."""
from checks.built import misuse
from checks.lib.c_programs import (
    C, CALLS, CHECKED, CLANG, CONDITION, CXX, FIT, HELGRIND, MARKED, OWN_MALLOC, PLAN, RACE, RACES, REGIONS, ROUNDS,
    WATCHED, Program, must_be_seen, must_run, shim)
from checks.lib.rows import Row
from tests.examples import preload
from tests.faults.library_faults import KILLS, OF_FIT, OF_REGIONS, WRAPPED

# The file with the checks of handles, beside a program.
CHECKER = ["-xc", misuse.CHECKER, "-xnone"]


def programs_for_one(longer):
    """Yields the programs over first fit, rounds and planners that must end well."""
    for compiler in (CHECKED, CXX):
        yield Program(CALLS("fit"), [FIT], compiler, words=[str(100_000 * min(longer, 10))])
        yield Program(KILLS, [FIT], compiler, words=["1000", "20000"] if longer > 1 else [])
        yield Program("examples/fit.c", [FIT], compiler, shown="examples/fit.out")
        yield Program(CALLS("rounds"), [ROUNDS], compiler)
        yield Program("examples/rounds.c", [ROUNDS], compiler, shown="examples/rounds.out")
        yield Program("examples/plan.c", [PLAN], compiler, shown="examples/plan.out")


def for_one(room, longer):
    """Yields those programs, and the wrong libraries of first fit, which the programs must see."""
    for program in programs_for_one(longer):
        yield Row(program.by(program.source), must_run, (room, program))
    for number, (what, source, said) in enumerate(OF_FIT, 1):
        words = ["2000", "500"] if source == CALLS("fit") else []
        program = Program(source, [FIT], C, shim("fit", number, WRAPPED["fit"]), words)
        yield Row(what, must_be_seen, (room, program, said))


def long_programs(seconds):
    """Yields the programs over the regions that are too long for the gate: eight threads, over a table of owners."""
    yield Program(CALLS("regions"), [REGIONS], C, words=[str(10**8 // 8), "0", "5"])
    for compiler, flags, runner in WATCHED:
        yield Program(CALLS("regions"), [REGIONS], compiler, flags, ["4000", str(seconds), "8"], runner)


def programs(longer, seconds):
    """Yields the programs over the regions that must end well."""
    if longer > 1:
        yield from long_programs(seconds)
    for compiler, pairs, turns in ((CHECKED, 10_000, 1000), (RACES, 500, 200), (CLANG, 2000, 200), (CXX, 20_000, 5000)):
        yield Program(CALLS("regions"), [REGIONS], compiler, words=[str(pairs)])
        yield Program(CALLS("wait"), [REGIONS], compiler, words=[str(turns * longer)])
    yield Program(CALLS("wait"), [REGIONS], [*C, CONDITION], words=["5000"])
    for compiler in (CHECKED, [*C, CONDITION], CXX, [*CHECKED, misuse.CHECK]):
        flags = CHECKER if misuse.CHECK in compiler else ()
        yield Program(CALLS("deadline"), [REGIONS], compiler, flags, [str(625 * longer)])
    yield Program(CALLS("deadline"), [REGIONS], RACES, words=[str(100 * longer)])
    yield Program(CALLS("check"), [REGIONS], [*C, misuse.CHECK], CHECKER, [str(min(100_000 * longer, 1_000_000))])
    yield Program("tests/c/regions_memory.c", [REGIONS], C, OWN_MALLOC)
    yield Program("tests/c/regions_fork.c", [REGIONS], CHECKED, OWN_MALLOC, [str(100_000 * longer)])
    for name in ("regions", "arena", "wait"):
        yield Program(f"examples/{name}.c", [REGIONS], shown=f"examples/{name}.out")
    for compiler in (CHECKED, [*C, CONDITION]):
        yield Program("tests/c/wait_order.c", [REGIONS], compiler)
    yield Program("examples/blocks.cpp", [REGIONS, FIT], CXX, shown="examples/blocks.out")
    yield Program(CALLS("arena"), [REGIONS])


def of_regions(room, longer, seconds):
    """Yields the programs over the regions, and the wrong libraries, which the programs must see."""
    for program in programs(longer, seconds):
        yield Row(" ".join([program.by(program.source, *program.words), *program.flags]), must_run, (room, program))
    race = Program(CALLS("regions"), [REGIONS], RACES, ["-DUNGUARDED"], ["500"])
    yield Row("a race beside a block is seen", must_be_seen, (room, race, RACE))
    unmarked = Program(CALLS("regions"), [REGIONS], [*CLANG, f"-I{room}/unmarked"], [], ["20"])
    yield Row("a block that is not written is seen", must_be_seen, (room, unmarked, b"WARNING: MemorySanitizer"))
    separate = Program("tests/c/regions_fork.c", [REGIONS], C, [*OWN_MALLOC, "-DSEPARATE"])
    yield Row("processes with a machine each are seen", must_be_seen, (room, separate, b"a processor has two owners"))
    for number, (what, said) in enumerate(OF_REGIONS, 1):
        program = Program(CALLS("regions"), [REGIONS], C, shim("regions", number, WRAPPED["regions"]), ["2000"])
        yield Row(what, must_be_seen, (room, program, said))
    marked = Program(CALLS("regions"), [REGIONS], C, MARKED, ["100"], HELGRIND)
    yield Row("helgrind sees no race", must_run, (room, marked))
    race = Program(CALLS("regions"), [REGIONS], C, [*MARKED, "-DUNGUARDED"], ["100"], HELGRIND)
    yield Row("helgrind sees a race", must_be_seen, (room, race, b"Possible data race"))
    yield Row("preload.c", preload.build, (room, f"{room}/lib{REGIONS}.a"))
    yield from preload.rows(room)
