"""Builds what is released for Linux on aarch64, over what `rt ci` has just left, and runs it in an emulator.

    checks/run aarch64 FOLDER           builds into FOLDER, compares with release/linux-aarch64, and runs programs
    checks/run aarch64 --renew FOLDER   builds into FOLDER, and puts files and sums into release/linux-aarch64
    checks/run aarch64 --run FOLDER     runs what FOLDER has

The toolchain's helpers in C are for x86-64 only. aarch64_heap.c and aarch64_os.c replace them, compiled by the
toolchain's own compiler. The shared objects and the program are linked with the C library of Debian's cross packages,
whose versions SHA256SUMS has. Where other versions are here, or release/ has no files of these sources, the comparison
is skipped, and where none is, all of it. `--renew` copies the libraries into rust/lib/aarch64 too. An emulator on
x86-64 hides weak memory orders: these runs show wrong code, and no missing order.
"""
import os
import shutil
import subprocess
import tempfile

from checks.built import archive, beside, release
from checks.lib.c_programs import CALLS, FIT, LANES, LIBRARIES, PLAN, REGIONS, ROUNDS, SCHED, SECONDS, Program, must_run
from checks.lib.repository import path, read_bytes, version_of_sources
from checks.lib.rows import Row, Skipped, answer, must, needs, output, put, run_rows
from checks.lib.toolchain import build_below, crates, kit, sum_of_sources
from tests.install.tables import IN_RUST

RELEASE, TRIPLE, PROGRAM = release.AARCH64, "aarch64-unknown-linux-gnu", "jobs_cli"
CROSS, COMPILER, EMULATOR = "/usr/aarch64-linux-gnu", "aarch64-linux-gnu-gcc", "qemu-aarch64"
# With the C library of the cross packages, also where this system has one of its own for aarch64.
WITH_LIBRARIES = [EMULATOR, "-E", f"LD_LIBRARY_PATH={CROSS}/lib", "-L", CROSS]
PACKAGES = ("libc6-arm64-cross", "libc6-dev-arm64-cross", "libgcc-s1-arm64-cross")
# What the linker of the toolchain looks for, of the C library and of the compiler.
OF_LIBC = ("Scrt1.o", "crti.o", "crtn.o", "libc_nonshared.a", "libc.so.6", "libm.so.6", "libgcc_s.so.1",
           "ld-linux-aarch64.so.1")
OF_GCC = ("crtbeginS.o", "crtendS.o", "libgcc.a")
C, CXX = [COMPILER, "-static", "-std=c11", "-xc"], ["aarch64-linux-gnu-g++", "-static", "-std=c++20", "-xc++"]


def packages():
    """Returns the versions of the cross packages, as SHA256SUMS has them."""
    words = ["dpkg-query", "--show", "--showformat=${Package} ${Version}, ", *PACKAGES]
    status, out, _ = answer(words, "", text=True) if shutil.which("dpkg-query") else (1, "", "")
    return "" if status else out.strip(", ")


def toolchain(room):
    """Makes a toolchain for aarch64 of the toolchain's programs and of the cross packages. Returns its folder."""
    lib, tools = f"{room}/toolchain/lib", f"{room}/toolchain/bin"
    os.makedirs(lib)
    os.symlink(f"{kit().KIT}/toolchain/bin", tools)
    for name in OF_LIBC:
        os.symlink(f"{CROSS}/lib/{name}", f"{lib}/{name}")
    for name in OF_GCC:
        os.symlink(output([COMPILER, f"-print-file-name={name}"]).strip(), f"{lib}/{name}")
    return f"{room}/toolchain"


def helpers(room):
    """Compiles the helpers in C, each as an archive, so that only what is used is linked. Returns their paths."""
    made = []
    for name in ("heap", "os"):
        words = [f"{kit().KIT}/toolchain/bin/clang", f"--target={TRIPLE}", "-O2", "-fPIC", "-ffreestanding", "-Wall",
                 "-Werror", "-c", path("tests/c", f"aarch64_{name}.c"), "-o", f"{room}/{name}.o"]
        subprocess.run(words, check=True)
        made.append(f"{room}/lib{name}.a")
        subprocess.run([f"{kit().KIT}/toolchain/bin/llvm-ar", "rcsD", made[-1], f"{room}/{name}.o"], check=True)
    return made


def compile_crate(crate, out):
    """Builds a library or the program for aarch64, with what `rt` has kept of its proof."""
    kept = ["--incremental", "out/incremental"] if os.path.isdir(f"{crate.folder}/out/incremental") else []
    words = [kit().RATTLE, "build", *crate.words(["--jobs", "1"], keeps=False), *kept, "--target", TRIPLE]
    status, said, more = answer([*words, "--toolchain", f"{kit().KIT}/toolchain", "-o", out], cwd=crate.folder,
                                timeout=SECONDS)
    must(status == 0, f"{crate.name} was not built for aarch64: {(said + more).decode(errors='replace')[-600:]}")


def build(folder):
    """Builds the libraries and the program into a folder."""
    known = crates()
    build_below([known[name] for name in (*LIBRARIES, PROGRAM)], after_gate=True)
    os.makedirs(folder, exist_ok=True)
    with tempfile.TemporaryDirectory() as room:
        heap, system = helpers(room)
        for name in LIBRARIES:
            compile_crate(known[name], f"{room}/{name}.a")
        archive.make_all(archive.System(f"{room}/{{name}}.a", heap, f"{CROSS}/lib/libc.so.6"), folder)
        compile_crate(known[PROGRAM], f"{room}/program.o")
        words = ["--target", TRIPLE, "--toolchain", toolchain(room), "-o", f"{folder}/cubejobs"]
        subprocess.run([f"{kit().KIT}/bin/rattle-link", *words, f"{room}/program.o", system, heap], check=True)


def compare(folder):
    """Sees that the files of release/ are those that were built, if they are of these sources and packages."""
    held = release.Release(RELEASE)
    if not os.path.isdir(RELEASE):
        raise Skipped("release/ has no files for aarch64")
    if held.said("sources") != sum_of_sources():
        raise Skipped("the files of release/ are of other sources; to renew them: checks/run aarch64 --renew FOLDER")
    if held.said("linked with") != packages():
        here = packages() or "none of these"
        raise Skipped(f"release/ was linked with {held.said('linked with')}, and here is {here}")
    faults = [*held.faults(folder)]
    must(not faults, "; ".join(faults))


def emulated(folder, *words, given=b""):
    """Runs the program in the emulator. Returns its status and its outputs."""
    return answer([*WITH_LIBRARIES, f"{folder}/cubejobs", *words], given, timeout=300)


def must_be_as_here(folder, built, words):
    """Sees that the program gives the bytes and the status that it gives on this machine, by the same name."""
    there, here = emulated(folder, *words), answer(["cubejobs", *words], executable=built, timeout=300)
    must(there == here, f"status {there[0]}, output {there[1][:200]!r}, errors {there[2][:200]!r}")


def programs():
    """Yields C programs over the libraries, which must end well."""
    for name, library, words in (("fit", FIT, ["2000", "1000"]), ("rounds", ROUNDS, []),
                                 ("regions", REGIONS, ["500"]), ("wait", REGIONS, ["100"]), ("lanes", LANES, ["500"]),
                                 ("asleep", LANES, ["300"]), ("jobs", LANES, ["2000"]),
                                 ("sched", SCHED, ["one"]), ("sched", SCHED, ["crowd", "1", "4", "8", "2000"])):
        yield Program(CALLS(name), [library], C, (), words, [EMULATOR])
    # Not examples/fit.c: the emulator has no robust locks. There the lock of a process that died stays locked for ever.
    for name, library in (("rounds", ROUNDS), ("plan", PLAN), ("sched", SCHED), ("regions", REGIONS),
                          ("arena", REGIONS),
                          ("wait", REGIONS), ("lanes", LANES)):
        yield Program(f"examples/{name}.c", [library], C, (), (), [EMULATOR], f"examples/{name}.out")
    yield Program("examples/lanes.cpp", [LANES], CXX, (), (), [EMULATOR], "examples/lanes.out")


def needs_no_later_library(folder):
    """Sees that nothing asks for a later C library than the files for x86-64 do."""
    for name in release.FILES:
        newest = release.newest_symbol(read_bytes(folder, name))
        must(newest <= release.NEWEST_GLIBC, f"{name} needs the C library {'.'.join(map(str, newest))}")


def in_rust(folder):
    """Runs the examples of the Rust package over these libraries, by a compiler that has its standard library."""
    beside.compiler_for(TRIPLE, "cargo")
    with tempfile.TemporaryDirectory() as room:
        name = f"CARGO_TARGET_{TRIPLE.upper().replace('-', '_')}"
        env = {**os.environ, "CUBEJOBS_LIB": folder, "CARGO_TARGET_DIR": room, f"{name}_LINKER": COMPILER,
               f"{name}_RUNNER": " ".join(WITH_LIBRARIES)}
        for example, wanted in IN_RUST.items():
            words = ["cargo", "run", "--quiet", "--offline", f"--target={TRIPLE}", "--example", example]
            more = ["--", path("examples", "batch.jobs")] if example == "batch" else []
            said = output([*words, *more], cwd=path("rust"), env=env, timeout=300)
            must(said == wanted, f"the example {example} says {said[-200:]!r}")


def rows(folder):
    yield Row("the examples in Rust on aarch64", in_rust, (folder,))
    yield Row("the C library that is needed", needs_no_later_library, (folder,))
    for program in programs():
        yield Row(" ".join([program.source, *program.words, "on aarch64"]), must_run, (folder, program))
    built = path("crates", PROGRAM, "out", PROGRAM)
    built = built if os.path.exists(built) else os.path.join(release.RELEASE, "cubejobs")
    examples = path("examples")
    for words in (["--version"], ["run", "--dim", "3", f"{examples}/jobs.csv"],
                  ["run", "--dim", "3", "--dispatchers", "4", f"{examples}/jobs.csv"],
                  ["report", "--dim", "3", f"{examples}/jobs.csv"], ["place", "--dim", "3", f"{examples}/place.csv"],
                  ["replay", f"{examples}/schedule.csv", "--dim", "2", "--stations", "3"], ["run", "--dim", "13"],
                  ["run", "--dim", "3", "missing.csv"], ["help"], []):
        yield Row(f"cubejobs {' '.join(os.path.basename(it) for it in words)} on aarch64", must_be_as_here,
                  (folder, built, words))


def renew(folder):
    for name in release.FILES:
        put(os.path.join(RELEASE, name), read_bytes(folder, name), 0o755 if name == "cubejobs" else 0o644)
    for name in release.COPIES:
        put(os.path.join(release.RUST, "aarch64", name), read_bytes(RELEASE, name))
    held = release.Release(RELEASE)
    held.write_sums(version_of_sources(), release.build_here(), f"# linked with {packages()}")


def main(words):
    needs(COMPILER, EMULATOR)
    folder = words[-1] if words and not words[-1].startswith("-") else ""
    must(folder and words[:-1] in ([], ["--renew"], ["--run"]), __doc__)
    folder = os.path.join(os.path.realpath(folder), "aarch64") if words[0] != "--run" else os.path.realpath(folder)
    if words[0] != "--run":
        build(folder)
    if words[0] == "--renew":
        return renew(folder)
    compared = [] if words[0] == "--run" else [Row("the files of release/linux-aarch64", compare, (folder,))]
    return run_rows("aarch64", [*compared, *rows(folder)])
