"""Rows of the scheduler for threads and of its owners in C++ (a part of ffi): what must end well, and be seen."""
from checks.lib.c_programs import (
    ADDRESSES, C, CHECKED, CLANG, CLANG_20, CONDITION, CXX, CXX_17, CXX_20, OWN_MALLOC, RACES, RACES_20, SCHED,
    Program, must_be_seen, must_run, shim, unlike)
from checks.lib.rows import Row
from tests.faults import sched_faults
from tests.faults.library_faults import OF_SCHED, SCHED_CALLS, SCHED_RANDOM, WRAPPED

OWNERS = "tests/c/sched_owners.cpp"


def long_programs(seconds):
    """Yields the programs that pass 10^7 jobs, make 10^6 races of each kind, and run for these seconds under each
    sanitizer."""
    yield Program(SCHED_CALLS, [SCHED], CXX, words=["crowd", "7", "4", "4", "10000000"])
    yield Program(SCHED_RANDOM, [SCHED], CXX, words=["races", "1000000"])
    for compiler in (CHECKED, RACES, CLANG):
        yield Program(SCHED_RANDOM, [SCHED], compiler, words=["for", str(seconds)])


def programs(longer, seconds):
    """Yields the programs over the scheduler for threads that must end well."""
    if longer > 1:
        yield from long_programs(seconds)
    watched = ((CHECKED, 3), (RACES, 1), (CLANG, 1), (CXX, 5), ([*CHECKED, CONDITION], 2), (["clang", *CHECKED[1:]], 2))
    for compiler, times in watched:
        runs = [(SCHED_CALLS, f"crowd {times} 4 4 {2000 * times * min(longer, 20)}"), (SCHED_CALLS, "one"),
                (SCHED_RANDOM, f"{times} {10 * times * longer}"), (SCHED_RANDOM, f"races {200 * times * longer}")]
        for source, words in runs:
            # MemorySanitizer does not see what a call of the library itself writes.
            if compiler is not CLANG or words != "one":
                yield Program(source, [SCHED], compiler, words=words.split())
    yield Program("tests/c/sched_memory.c", [SCHED], C, OWN_MALLOC)
    for compiler in (CHECKED, RACES, CXX):
        yield Program("examples/sched.c", [SCHED], compiler, shown="examples/sched.out")
    # The fault of number 0 is none: another thread often has the turn.
    for source, words in ((SCHED_CALLS, "crowd 3 4 4 5000"), (SCHED_RANDOM, "5 20")):
        yield Program(source, [SCHED], C, shim("sched", 0, WRAPPED["sched"]), words.split())
    yield from owners(longer)


def owners(longer):
    """Yields the programs over the owners of C++ of a scheduler that must end well."""
    for compiler in ([*CXX_17, *ADDRESSES], CLANG_20, RACES_20, [*CXX_17, "-fno-exceptions", "-fno-rtti"],
                     [*CXX_20, *ADDRESSES, CONDITION]):
        yield Program(OWNERS, [SCHED], compiler, words=[str(2000 * min(longer, 20))])
    for compiler in ([*CXX_17, *ADDRESSES], CLANG_20, RACES_20):
        yield Program("examples/tasks.cpp", [SCHED], compiler, shown="examples/tasks.out")


def wrong_owners(room):
    """Yields the faults of the owners of C++ of a scheduler, which a program must see."""
    faults = [*((CXX_17, it) for it in sched_faults.OF_OWNERS), ([*CXX_17, *ADDRESSES], sched_faults.LEAKS),
              *((RACES_20, it) for it in sched_faults.OF_RACES)]
    for number, (compiler, (what, old, new, *said)) in enumerate(faults):
        unlike(room, f"sched_owners{number}", "cubejobs_sched.hpp", old, new)
        compiler = [*compiler, f"-I{room}/sched_owners{number}"]
        program = Program(OWNERS, [SCHED], compiler, ["-DPATIENCE=3"], ["2000"])
        yield Row(f"owners of a scheduler: {what}", must_be_seen, (room, program, said or sched_faults.SEEN))


def rows(room, longer, seconds):
    """Yields the scheduler for threads, and the wrong libraries, which the programs must see."""
    for program in programs(longer, seconds):
        title = " ".join([program.by(program.source, *program.words), *program.flags[:1]])
        yield Row(title, must_run, (room, program))
    for number, (what, source, words) in enumerate(OF_SCHED, 1):
        flags = ["-DPATIENCE=3", *shim("sched", number, WRAPPED["sched"])]
        program = Program(source, [SCHED], C, flags, words.split())
        yield Row(what, must_be_seen, (room, program, sched_faults.SEEN))
    for number, (what, old, new) in enumerate(sched_faults.OF_NAPS):
        unlike(room, f"sched_naps{number}", "cubejobs_sched.h", old, new)
        compiler = [*C, f"-I{room}/sched_naps{number}"]
        program = Program(SCHED_RANDOM, [SCHED], compiler, ["-DPATIENCE=3"], ["races", "1000"])
        yield Row(f"naps of a scheduler: {what}", must_be_seen, (room, program, sched_faults.SEEN))
    yield from wrong_owners(room)
