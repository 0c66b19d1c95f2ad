"""Compiles and runs programs in C and C++ over the libraries of a folder, by the compilers that watch them."""
import os
import shutil
import subprocess
from typing import NamedTuple, Sequence

from checks.lib.repository import path, read
from checks.lib.rows import Skipped, Wrong, answer, must, needs, put

SECONDS = 7200
LIBRARIES = FIT, PLAN, SCHED, LANES, ROUNDS, REGIONS = tuple(
    f"cubejobs_{it}" for it in ("fit", "plan", "sched", "lanes", "rounds", "regions"))
STRICT = ["-O1", "-g", "-Wall", "-Wextra", "-Werror", "-pedantic", f"-I{path('include')}"]
C, CXX = ["gcc", "-std=c11", "-xc"], ["g++", "-std=c++11", "-xc++"]
ADDRESSES = ["-fsanitize=address,undefined", "-fno-sanitize-recover=all"]
CXX_17, CXX_20 = (["g++", f"-std={it}", "-xc++"] for it in ("c++17", "c++20"))
CLANG_20, RACES_20 = ["clang++", "-std=c++20", "-xc++"], [*CXX_20, "-fsanitize=thread"]
CHECKED, RACES = [*C, *ADDRESSES], [*C, "-fsanitize=thread"]
CLANG = ["clang", "-std=c11", "-xc", "-fsanitize=memory"]
# A sanitizer wants to place its memory itself, which an address that the system has made random may prevent.
PLACED, THAT_PLACE = ["setarch", "-R"], {"-fsanitize=thread", "-fsanitize=memory"}
HELGRIND = ["valgrind", "--tool=helgrind", "--quiet", "--error-exitcode=9"]
MARKED = ["-DCUBEJOBS_HELGRIND"]
# The compilers and tools that watch a program, with their flags.
WATCHED = ((CHECKED, (), ()), (RACES, (), ()), (CLANG, (), ()), (C, MARKED, HELGRIND))
CONDITION = "-DCUBEJOBS_EVENT_CONDITION"
OWN_MALLOC = ["-Wl,--wrap=malloc,--wrap=free"]
RACE = b"WARNING: ThreadSanitizer: data race"
# The programs that make calls of a library.
CALLS = "tests/c/{}_calls.c".format
# Of each folder, how its program was compiled, and the text of its source.
COMPILED = {}


class Program(NamedTuple):
    """A C program: its source, its libraries, and how it is compiled and run. It may have to show what a file has."""

    source: str
    libraries: Sequence[str]
    compiler: Sequence[str] = CHECKED
    flags: Sequence[str] = ()
    words: Sequence[str] = ()
    runner: Sequence[str] = ()
    shown: str = ""

    @property
    def placed(self):
        """Returns the words that run it: a runner, or what a sanitizer needs."""
        return self.runner or (PLACED if THAT_PLACE & {*self.compiler} else ())

    def by(self, *what):
        """Returns the title of a row: what it is, and how it is compiled and run."""
        return " ".join([*what, "by", *self.placed, *self.compiler])

    def make(self, room):
        """Compiles the program over the libraries of a folder, unless it is there. Returns the words that run it."""
        has, tried = shutil.which(self.compiler[0]), [*self.compiler, "-o", "/dev/null", "-"]
        if not has or answer(tried, "int main() { return 0; }")[0]:
            raise Skipped(f"no {' '.join(self.compiler)} here")
        needs(*self.placed[:1])
        libraries = [f"{room}/lib{it}.a" if it.startswith("cubejobs_") else it for it in self.libraries]
        words = [*self.compiler, *STRICT, path(self.source), "-xnone", *self.flags, *libraries, "-pthread"]
        if COMPILED.get(room) != (words, read(self.source)):
            COMPILED.pop(room, None)
            status, _, said = answer([*words, "-o", f"{room}/program"], timeout=SECONDS)
            must(status == 0, f"{' '.join(words)}: {said.decode(errors='replace')}")
            COMPILED[room] = words, read(self.source)
        return [*self.placed, f"{room}/program", *self.words]

    def start(self, room):
        """Compiles and runs the program. Returns its status and its outputs."""
        return answer(self.make(room), timeout=SECONDS)


def must_run(room, program):
    """Sees that a program ends well, and shows what its file has."""
    status, out, said = program.start(room)
    must(status == 0, f"status {status}: {(out + said).decode(errors='replace')[-2000:]}")
    if program.shown:
        must(out.decode() == read(program.shown), f"it shows {out.decode()!r}")
    return "" if program.shown else out.decode().strip()


def must_be_seen(room, program, warning):
    """Sees that a sanitizer or the program itself stops it with this warning, or with one of these, in one of ten runs:
    some faults need an order of threads that not each run has."""
    warnings = (warning,) if isinstance(warning, bytes) else warning
    for _ in range(10):
        status, out, said = program.start(room)
        if status != 0 and any(it in out + said for it in warnings):
            return
    missing = b" or ".join(warnings).decode()
    raise Wrong(f"status {status}, and no {missing}: {(out + said).decode(errors='replace')[-500:]}")


def must_see_change(must_work, room, program, old, new):
    """Sees that a program does not work in which the one text is replaced by the other."""
    right, file = read(program.source), f"{room}/wrong.c"
    must(right.count(old) == 1, f"{program.source} has no {old!r}")
    put(file, right.replace(old, new))
    try:
        must_work(room, program._replace(source=file))
    except (Wrong, subprocess.TimeoutExpired):
        return
    raise Wrong("it is not seen")


def unlike(room, folder, header, old, new):
    """Puts a header into a folder, with a fault."""
    text = read(f"include/{header}")
    must(old in text, f"{header} has no {old!r}")
    os.makedirs(f"{room}/{folder}", exist_ok=True)
    put(f"{room}/{folder}/{header}", text.replace(old, new))


def shim(name, number, wrapped):
    """Returns the flags by which the wrong library of this name stands before these functions, with the fault of this
    number."""
    wraps = ",".join(f"--wrap={it}" for it in wrapped)
    return [f"-DWRONG={number}", "-xc", path(f"tests/c/wrong_{name}.c"), "-xnone", f"-Wl,{wraps}"]
