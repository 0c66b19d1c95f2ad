"""Calls the proved libraries for C from C (with the compiler's checks of addresses and undefined behaviour, and of
races), from C++ and from Rust.

Of the rounds of collectives: each step and message on up to 128 ranks, beside the textbook's rules, and the results
that they give. Commands are pinned to blocks of CPUs. Of exact first fit: 100,000 random calls on each of 13 machines,
beside a plain model; each call over random bytes; and processes that are killed inside a call. Of the regions with no
lock: each code where it must come, handles that are shut, foreign or of the wrong kind, eight threads with a table of
counters and with plain memory that blocks guard, and each request for memory refused in turn. Threads release blocks of
others, and wait for blocks, and so do processes that share memory. Of the lanes: the same, beside lists. Sixteen
producers pass jobs to eight workers. Workers and submits sleep, also in random programs and in scripted orders of
threads. Of the scheduler for threads: each call, crowds and random programs of threads, and races of deadlines, places
and closes. Wrong libraries, and headers with a fault, must be seen. The examples are built and run. A language whose
compiler is not there is skipped.

The libraries of plain Rust (`rust/c`) are called too, in the gate by the plainest programs.

`checks/run ffi [--after-gate] [--libraries FOLDER] [--source] [--long] [--seconds N] [--only WORD]`. With `--source` it
calls only the libraries of plain Rust, by all programs. With `--libraries` it takes the archives of a folder, and
builds none. With `--after-gate` it takes the libraries below as `rt ci` has just left them. With `--long` it makes more
than 10^7 calls of first fit and 1,000 kills, 10^8 takes of the regions, and passes 10^7 jobs by lanes and by the
scheduler. Regions, jobs and the scheduler run under each sanitizer for N seconds each, or half an hour. With `--only`
it runs the rows whose names have the word.
"""
import os
import shutil
import subprocess
import tempfile

from checks.built import archive, ffi_blocks, ffi_lanes, ffi_sched, misuse, static
from checks.lib import erase
from checks.lib.c_programs import (
    C, CHECKED, CLANG, FIT, LANES, LIBRARIES, PLAN, REGIONS, ROUNDS, SCHED, SECONDS, Program, must_run, must_see_change,
    unlike)
from checks.lib.repository import files_below, path
from checks.lib.rows import Row, answer, must, needs, put, run_rows
from checks.lib.toolchain import AFTER_GATE, FOR_ANY
from tests.examples import event_loop, pinjobs

OF_REGIONS = ("cube_shape", "alloc_bits", "bitmap_tree", "bitmap_occupancy", "hidden_box")
OF_ROUNDS = ("collectives", "cube_shape")
OF_PLAN = ("cube_shape", "fit_tree", "sched_blocks", "sched_jobs", "sched_core", "hidden_box")
OF_SCHED = (*OF_PLAN, "sched_law", "sched_board", "sched_threads")
OF_LANES = ("hidden_box", "lanes", "wake_calls", "wake_pool")
BELOW = {FIT: ("cube_shape", "fit_tree", "alloc_bits"), PLAN: OF_PLAN, SCHED: OF_SCHED, LANES: OF_LANES,
         REGIONS: OF_REGIONS, ROUNDS: OF_ROUNDS}
# What the names of rows begin with that look into archives.
OF_ARCHIVES = ("names of its own", "the Rust package")
LONGER, HALF_AN_HOUR = 100, 1800
# Names that a program may have, which are those of functions inside the libraries too.
OWN_NAMES = "#include <stdlib.h>\n" + "".join(f"void {it}(void) {{ abort(); }}\n" for it in (
    "*rattle_alloc", "*rattle_realloc", "rattle_dealloc"))


def build(crate, after_gate):
    """Builds the library of a crate, unless it is newer than its sources and than what says its processor."""
    file = path("crates", crate, "out", f"lib{crate}.a")
    sources = [it for name in (crate, *BELOW[crate]) for it in files_below(f"crates/{name}/src", "")]
    sources += [static.__file__, path("checks/lib/toolchain.py")]
    if os.path.exists(file) and all(os.path.getmtime(it) <= os.path.getmtime(file) for it in sources):
        return
    words = [path("checks", "run"), "static", crate] if after_gate else ["rt", "lib", *FOR_ANY]
    status, out, said = answer(words, cwd=path("crates", crate), timeout=SECONDS)
    must(status == 0, f"the library {crate} was not built:\n{(out + said).decode(errors='replace')}")


def of_examples(room):
    """Yields the examples over planners, and wrong ones that must be seen."""
    for source, example in (("examples/pinjobs.c", pinjobs), ("examples/event_loop.c", event_loop)):
        for compiler in (CHECKED, [*CLANG[:2], "-xc"]):
            program = Program(source, [PLAN], compiler)
            yield Row(program.by(source), example.must_work, (room, program))
        for what, old, new in example.WRONG_PROGRAMS:
            wrong = example.must_work, room, Program(source, [PLAN], C), old, new
            yield Row(f"{what}: it is seen", must_see_change, wrong)


def rows(room, longer, seconds):
    yield from ffi_blocks.of_regions(room, longer, seconds)
    yield from ffi_lanes.of_jobs(room, longer)
    yield from ffi_lanes.of_crowds(room, longer, seconds)
    yield from ffi_sched.rows(room, longer, seconds)
    yield from ffi_lanes.of_waits(room)
    yield from ffi_lanes.of_owners(room)
    yield from ffi_lanes.of_sleepers(room, longer)
    yield from misuse.rows(room, *(f"{room}/lib{it}.a" for it in (REGIONS, LANES, FIT, PLAN)))
    yield from of_examples(room)
    yield from ffi_blocks.for_one(room, longer)
    # A library keeps its names to itself: it is linked whole beside the other one, and beside a program's own names.
    for whole in ([*LIBRARIES], [*LIBRARIES[::-1]], []):
        both = ["-Wl,--whole-archive", *whole, "-Wl,--no-whole-archive"] if whole else [REGIONS]
        names = Program("examples/regions.c", both, C, ["-xc", f"{room}/own.c", "-xnone"], shown="examples/regions.out")
        yield Row(f"names of its own, and {' and '.join(whole) or REGIONS}", must_run, (room, names))


def build_sources(room):
    """Builds the library of plain Rust for each header, and puts it into a folder by the name of the archive."""
    needs("cargo")
    for crate, feature in erase.LIBRARIES.items():
        words = ["cargo", "build", "--quiet", "--offline", "--release", "--package=cubejobs-c", "--no-default-features"]
        words += [f"--features={feature}", f"--manifest-path={path('rust', 'Cargo.toml')}"]
        status, _, said = answer([*words, f"--target-dir={room}/target"], timeout=SECONDS)
        must(status == 0, said.decode(errors="replace"))
        shutil.copy(f"{room}/target/release/libcubejobs_source.a", f"{room}/lib{crate}.a")


def rust(room):
    needs("cargo")
    subprocess.run([path("checks", "run"), "ffi_rust", room], check=True)


def word_after(words, option, default):
    return words[words.index(option) + 1] if option in words else default


def put_libraries(room, made, after_gate):
    """Puts the libraries into a folder: those of another folder, or else those that it builds."""
    for crate in LIBRARIES:
        if made:
            shutil.copy(os.path.join(made, f"lib{crate}.a"), room)
        else:
            build(crate, after_gate)
    if not made:
        archive.main([room])


def prepared(room):
    """Puts into a folder what rows compile beside the libraries. Returns the folder."""
    put(f"{room}/own.c", OWN_NAMES)
    unlike(room, "unmarked", "cubejobs_regions.h", "__has_feature(memory_sanitizer)", "0")
    return room


def rows_of_sources(room, longer, seconds, is_short):
    """Yields the rows over the libraries of plain Rust. In short they are programs that must end well, by gcc and with
    nothing that watches them."""
    for row in rows(room, longer, seconds):
        program = row.arguments[1] if row.act is must_run else None
        is_plain = program is not None and program.compiler[0] in ("gcc", "g++") and not program.placed
        if not row.name.startswith(OF_ARCHIVES) and (is_plain or not is_short):
            yield row._replace(name=f"plain Rust: {row.name}")


def main(words):
    is_source, is_long = "--source" in words, "--long" in words
    longer, only = LONGER if is_long else 1, word_after(words, "--only", "")
    seconds, wanted = int(word_after(words, "--seconds", HALF_AN_HOUR)), []
    with tempfile.TemporaryDirectory() as room:
        if not is_source:
            put_libraries(room, word_after(words, "--libraries", ""), AFTER_GATE in words)
            wanted += [*rows(prepared(room), longer, seconds), Row("the Rust package", rust, (room,))]
        if is_source or shutil.which("cargo"):
            os.mkdir(f"{room}/source")
            build_sources(f"{room}/source")
            wanted += rows_of_sources(prepared(f"{room}/source"), longer, seconds, not is_source and not is_long)
            wanted.append(Row("a crash inside plain Rust", misuse.crash_has_its_frames, (f"{room}/source",)))
        return run_rows("ffi", [row for row in wanted if only in row.name], says_ok=True)
