"""Sees wrong use of the libraries for C, and what helps to find it (a part of ffi).

A program with CUBEJOBS_CHECK refuses old copies of handles, and does not link with a file that lacks it. Two plug-ins
refuse each other's blocks. ThreadSanitizer sees two threads with one handle. A crash inside plain Rust has a whole
backtrace.
"""
import os

from checks.lib.repository import path
from checks.lib.rows import Row, answer, must, needs

SECONDS = 600
INCLUDE = f"-I{path('include')}"
STRICT = ["-std=c11", "-O1", "-g", "-Wall", "-Wextra", "-Werror", "-pedantic", INCLUDE]
CHECK, CHECKER = "-DCUBEJOBS_CHECK", path("include/cubejobs_check.c")
LINKERS = ("bfd", "gold", "lld")
MIXED = b"a part of this program was compiled without CUBEJOBS_CHECK"
# A program, and a part of it.
WHOLE = '#include "cubejobs_regions.h"\nint part(void);\nint main(void) { return part(); }\n'
PART = '#include "cubejobs_regions.h"\nint part(void);\nint part(void) { return 0; }\n'


def compiled(words, given=""):
    """Compiles, and must succeed."""
    status, out, said = answer([*words], given, text=True, timeout=SECONDS)
    must(status == 0, f"{' '.join(words)}: {(out + said)[:600]}")


def object_of(room, name, text, flags):
    compiled(["gcc", *STRICT, *flags, "-xc", "-c", "-", "-o", f"{room}/{name}.o"], text)
    return f"{room}/{name}.o"


def does_not_mix(room, library, linker, order):
    """Sees that a program of which one file alone has CUBEJOBS_CHECK does not link, or stops at its start."""
    needs(f"ld.{linker}")
    compiled(["gcc", *STRICT, CHECK, "-c", CHECKER, "-o", f"{room}/checker.o"])
    whole, program = object_of(room, "whole", WHOLE, [CHECK]), f"{room}/mixed"
    for flags in ([CHECK], []):
        objects = [[whole, object_of(room, "part", PART, flags), f"{room}/checker.o"][it] for it in order]
        words = ["gcc", f"-fuse-ld={linker}", *objects, library, "-pthread", "-lm", "-o", program]
        if os.path.exists(program):
            os.remove(program)
        status, _, said = answer(words, timeout=SECONDS)
        started, _, told = answer([program], timeout=SECONDS) if status == 0 else (1, b"", MIXED)
        if flags:
            must(status == 0 and started == 0 and not told, f"a whole program: {said[:300]} {told[:300]}")
        else:
            must(started != 0 and MIXED in told, f"{linker} takes a part without CUBEJOBS_CHECK")


def owners_are_checked(room, *libraries):
    """Runs the tests of the owners of C++ in a checking build."""
    needs("g++")
    compiled(["gcc", *STRICT, CHECK, "-c", CHECKER, "-o", f"{room}/checker.o"])
    words = ["g++", "-std=c++11", CHECK, INCLUDE, "-O1", "-Wall", "-Wextra", "-Werror", "-Wno-self-move"]
    words += [path("tests/c/owners_calls.cpp"), f"{room}/checker.o", *libraries, "-pthread", "-lm"]
    compiled([*words, "-o", f"{room}/owners"])
    status, out, said = answer([f"{room}/owners"], timeout=SECONDS)
    must(status == 0, f"status {status}: {(out + said).decode(errors='replace')[:600]}")


def plugins_are_apart(room, library):
    """Loads two plug-ins, each with the archive and a machine of its own."""
    source, made = path("tests/c/plugin.c"), []
    for number in range(2):
        made.append(f"{room}/plugin{number}.so")
        compiled(["gcc", *STRICT, "-shared", "-fPIC", "-DPLUGIN", source, library, "-pthread", "-lm", "-o", made[-1]])
    compiled(["gcc", *STRICT, source, library, "-pthread", "-lm", "-ldl", "-o", f"{room}/loader"])
    status, out, said = answer([f"{room}/loader", *made], timeout=SECONDS)
    must(status == 0, (out + said).decode(errors="replace"))


def one_handle_is_seen(room, library, flags):
    words = ["gcc", *STRICT, "-fsanitize=thread", *flags, path("tests/c/one_handle.c"), library, "-pthread", "-lm"]
    compiled([*words, "-o", f"{room}/one_handle"])
    for _ in range(10):
        status, _, said = answer(["setarch", "-R", f"{room}/one_handle"], timeout=SECONDS)
        if b"ThreadSanitizer: data race" in said:
            return
    must(False, f"status {status}, and no race: {said[:300]}")


def crash_has_its_frames(room):
    """Builds the shared object of plain Rust, looks at its name and size, and crashes inside it."""
    needs("cargo", "readelf")
    words = ["cargo", "build", "--quiet", "--offline", "--release", "--package=cubejobs-c"]
    compiled([*words, f"--manifest-path={path('rust', 'Cargo.toml')}", f"--target-dir={room}/shared"])
    shared = f"{room}/shared/release/libcubejobs_source.so"
    name = answer(["readelf", "-d", shared], "", text=True)[1].partition("soname: [")[2].partition("]")[0]
    must(name.startswith("libcubejobs_source.so."), f"the shared object has the name {name!r}")
    must(os.path.getsize(shared) < 600_000, f"the shared object has {os.path.getsize(shared)} bytes")
    os.symlink(shared, f"{room}/{name}")
    compiled(["gcc", *STRICT, "-rdynamic", path("tests/c/backtrace.c"), shared, "-o", f"{room}/crash"])
    status, out, said = answer([f"{room}/crash"], timeout=SECONDS, env={**os.environ, "LD_LIBRARY_PATH": room})
    frames = [it for it in ("cubejobs_regions_take", "(crash+", "_start") if it not in out.decode(errors="replace")]
    must(status == 0 and not frames, f"status {status}, no {frames}: {(out + said).decode(errors='replace')[:600]}")


def rows(room, regions, lanes, exact, plan):
    """Yields the rows over the libraries of regions, of lanes, of exact first fit and of the planner."""
    yield Row("the owners of C++ in a checking build", owners_are_checked, (room, regions, lanes, exact, plan))
    for linker in LINKERS:
        for order in ((0, 1, 2), (2, 1, 0), (1, 2, 0)):
            yield Row(f"files with and without checks by {linker}, {order}", does_not_mix,
                      (room, regions, linker, order))
    yield Row("two plug-ins", plugins_are_apart, (room, regions))
    yield Row("two threads with one handle of regions", one_handle_is_seen, (room, regions, ()))
    yield Row("two threads with one worker of lanes", one_handle_is_seen, (room, lanes, ("-DONE_WORKER",)))
