"""Makes the same random calls of the archives of `release/` and of the erased sources, in one process, and compares all
answers. It is compiled with checks of overflow.

`checks/run beside [--long] [--slips [NAME..]]`. In the gate it makes 100,000 calls of each library, and with `--long`
1,000,000. With `--slips`, and with `--long`, it puts each slip of OF_ANSWERS into a copy of the text or of the shim,
and must see a difference.

A driver in Rattle makes 60,000 calls of the proved crates, and prints each answer. It runs by `rt try`, without a
proof. Its own erased text runs over the erased crates, and must print the same. With `--slips` it must see those of
SEEN_BY_THE_DRIVER. With `--long` an interpreter of Rattle runs it too, beside what the compiler of Rattle makes.

A self-test makes 300,000 calls of the Rust package, and gives a number that depends on each answer. Both forms must
give the same one. With `--long` it must be the same on other processors, and in WebAssembly by node.

With `--long` ThreadSanitizer watches plain memory that blocks and jobs guard, where `rustc +nightly` has it. The same
program with relaxed orders in the shim must be seen. The tests of the Rust package run on other processors, by
emulators or as 32-bit programs. They need a compiler (of the variable RUSTC, if it is set) with the target's standard
library, and a C compiler that links for it.
"""
import functools
import os
import shutil
import subprocess
import tempfile

from checks.lib import erase
from checks.lib.repository import path, read, write
from checks.lib.rows import Row, Skipped, answer, must, needs, run_rows
from tests.faults.slips import OF_ANSWERS, SEEN_BY_THE_DRIVER, Slip

CALLS, MANY, ROUNDS, SECONDS = 100_000, 1_000_000, 16_000, 1800
PROGRAM, RACE, RELEASE = "tests/rust/beside.rs", "tests/rust/race.rs", "release/linux-x86_64"
WORDS = ["--edition", "2021", "-Coverflow-checks=on", "-Cdebug-assertions=on", "-O"]
FEATURES = [f'--cfg=feature="{it}"' for it in ("lanes", "plan", "regions", "sched", "std")]


WATCHED = ["+nightly", "-Zsanitizer=thread", "-Cunsafe-allow-abi-mismatch=sanitizer"]
# Processors other than this one: the C compiler that links for each, and its emulator, if it needs one.
TARGETS = (
    ("aarch64-unknown-linux-gnu", "aarch64-linux-gnu-gcc", "qemu-aarch64 -L /usr/aarch64-linux-gnu"),
    ("s390x-unknown-linux-gnu", "s390x-linux-gnu-gcc", "qemu-s390x -L /usr/s390x-linux-gnu"),
    ("i686-unknown-linux-gnu", "i686-linux-gnu-gcc", ""),
)


# The self-test in WebAssembly. A toolchain of Debian has no linker of its own.
SELF_TEST, WASM = "tests/rust/selftest.rs", "wasm32-unknown-unknown"
WASM_LINKERS = ("wasm-ld", "wasm-ld-19")
RUN_WASM = """import { readFileSync } from "node:fs";
const { instance } = await WebAssembly.instantiate(readFileSync(process.argv[1]), {});
console.log(BigInt.asUintN(64, instance.exports.selftest()).toString());"""

# The driver, what it uses, and how many steps its interpreter makes at most.
DRIVER, STEPS = "tests/driver", 5 * 10**9
USED = "bitmap_occupancy bitmap_tree collectives cube_shape cubejobs_fit fit_tree lanes wake_calls"


def built(root, folder, source=PROGRAM, more=()):
    """Builds a program over the sources below a root, with the archives that are shipped."""
    program = os.path.join(folder, "program")
    words = [*more, *WORDS, *FEATURES, f"-Lnative={path(RELEASE)}", "-o", program, os.path.join(root, source)]
    status, _, err = answer(["nice", "rustc", *words], "", timeout=SECONDS, text=True)
    must(status == 0, f"rustc refuses the program:\n{err[:2000]}")
    return program


def all_same(calls):
    """Sees that all answers are the same."""
    needs("rustc")
    with tempfile.TemporaryDirectory() as folder:
        status, out, err = answer([built(path(), folder), str(calls)], "", timeout=SECONDS, text=True)
    must(status == 0, err[:2000])
    return out.strip()


def copied(folder, source, slips):
    """Copies a program and what it reads to a folder, with slips."""
    shutil.copytree(path("rust/src"), os.path.join(folder, "rust/src"))
    os.makedirs(os.path.join(folder, os.path.dirname(source)))
    shutil.copy(path(source), os.path.join(folder, source))
    for slip in slips:
        text = read("rust/src/source", slip.file)
        must(text.count(slip.old) == 1, f"the text {slip.old!r} is there {text.count(slip.old)} times, and not once")
        with open(os.path.join(folder, "rust/src/source", slip.file), "w", encoding="utf-8") as file:
            file.write(text.replace(slip.old, slip.new))


def differs(slip):
    """Sees that a slip gives other answers, or no end."""
    with tempfile.TemporaryDirectory() as folder:
        copied(folder, PROGRAM, [slip])
        program = built(folder, folder)
        try:
            status, _, err = answer([program, str(CALLS)], "", timeout=60, text=True)
        except subprocess.TimeoutExpired:
            return "no end"
    must(status != 0, "no answer differs")
    return next((it for it in err.splitlines() if "the archive, and" in it), err.strip().splitlines()[1])[-90:]


def driver_sources():
    """Returns the texts of the driver by name. Its files end in .in, since `rt ci` refuses sources that no crate
    has."""
    names = sorted(it for it in os.listdir(path(DRIVER)) if it.endswith(".rt.in"))
    return {name.removesuffix(".rt.in"): read(DRIVER, name) for name in names}


@functools.cache
def driven(steps):
    """Runs the driver by `rt try`, in a copy of the crates in which each is a library. Returns what it prints."""
    needs("rt")
    with tempfile.TemporaryDirectory() as folder:
        shutil.copytree(path("crates"), f"{folder}/crates", ignore=shutil.ignore_patterns("out"))
        for name, text in driver_sources().items():
            write(f"{folder}/crates/driver/src/{name}.rt", text)
        write(f"{folder}/crates.txt", f"{read('crates.txt').replace(' staticlib:', ':')}driver: {USED}\n")
        words = ["nice", "rt", "try", "--steps", str(steps), "--seconds", str(SECONDS)]
        status, out, err = answer(words, "", timeout=SECONDS, text=True, cwd=f"{folder}/crates/driver")
    must(status == 0 and out, f"rt try: status {status}, {err[-1000:]}")
    must(steps < STEPS or "runners=2" in err, f"the interpreter has no answer: {err[-1000:]}")
    return out


def erased_driver(slips):
    """Runs the driver's erased text over the erased crates, with slips. Returns its status, and what it prints."""
    sources = {name: text for name, text in driver_sources().items() if name != "main"}
    texts, _ = erase.erased_files("driver", sources)
    with tempfile.TemporaryDirectory() as folder:
        copied(folder, f"{DRIVER}/main.rs", slips)
        for name, text in {**texts, "mod": "".join(f"pub mod {name};\n" for name in texts)}.items():
            write(f"{folder}/rust/src/source/driver/{name}.rs", text)
        with open(f"{folder}/rust/src/source/mod.rs", "a", encoding="utf-8") as file:
            file.write("pub mod driver;\n")
        status, out, _ = answer([built(folder, folder, f"{DRIVER}/main.rs")], "", timeout=60, text=True)
    return status, out


def prints_the_same(steps):
    """Sees that the driver and its erased text print the same."""
    needs("rustc")
    here = driven(steps)
    found = difference(here, *erased_driver([]))
    must(not found, found)
    return f"{len(here.splitlines())} answers"


def difference(here, status, out):
    """Returns the first answer of the erased text that is not the driver's, or an empty text."""
    one, other = here.splitlines(), out.splitlines()
    for number, (wanted, got) in enumerate(zip(one, other)):
        if wanted != got:
            return f"answer {number} is {wanted!r}, and {got!r} by the erased text"
    is_same = status == 0 and len(one) == len(other)
    return "" if is_same else f"status {status}, and {len(other)} answers of {len(one)} by the erased text"


def prints_another(steps, slip):
    """Sees that the driver's erased text prints something else with a slip, or nothing, or does not end."""
    here = driven(steps)
    try:
        found = difference(here, *erased_driver([slip]))
    except subprocess.TimeoutExpired:
        return "no end"
    must(found, "it prints the same")
    return found


# The orders that must be seen.
RELAXED = [Slip("", f"kit/{it}.rs", "Ordering::SeqCst}", "Ordering::Relaxed as SeqCst}") for it in
           ("atomic_table", "counted_slot")]


def watched(what, slips):
    """Sees that the sanitizer finds no race in plain memory that is guarded, or one if the orders are relaxed."""
    if not shutil.which("rustc") or answer(["rustc", "+nightly", "--version"])[0]:
        raise Skipped("there is no rustc +nightly")
    with tempfile.TemporaryDirectory() as folder:
        copied(folder, RACE, slips)
        program = built(folder, folder, RACE, WATCHED)
        environment = {**os.environ, "TSAN_OPTIONS": "report_thread_leaks=0"}
        words = ["setarch", "-R", program, str(ROUNDS), what]
        status, _, err = answer(words, "", timeout=SECONDS, text=True, env=environment)
    is_race = "WARNING: ThreadSanitizer: data race" in err
    must(is_race == bool(slips) and (slips or not status), f"status {status}: {err[:2000]}")


def compiler_for(target, *tools):
    """Returns a compiler that has the standard library of a target, if these tools are there too."""
    compiler = os.environ.get("RUSTC", "rustc")
    for word in (compiler, *tools):
        if not shutil.which(word):
            raise Skipped(f"there is no {word}")
    found = answer([compiler, "--print", "target-libdir", "--target", target], "", text=True)[1].strip()
    if not os.path.isdir(found):
        raise Skipped(f"{compiler} has no standard library for {target}")
    return compiler


def self_test(compiler, form, runner, *words):
    """Builds and runs the self-test over a form of the package. Returns the number that it gives."""
    features = [f'--cfg=feature="{it}"' for it in ("lanes", "plan", "regions", *form)]
    features += [] if form else ["--cfg=cubejobs_archives"]
    with tempfile.TemporaryDirectory() as folder:
        library, program = f"{folder}/libcubejobs.rlib", f"{folder}/selftest"
        common = ["nice", compiler, "--edition=2021", "-O", f"-Lnative={path(RELEASE)}"]
        target = [it for it in words if it.startswith("--target")]
        package = ["--crate-name=cubejobs", "--crate-type=rlib", *features, *target, path("rust/src/lib.rs")]
        package += ["-o", library]
        for made in (package, [*words, f"--extern=cubejobs={library}", path(SELF_TEST), "-o", program]):
            status, _, err = answer([*common, *made], "", timeout=SECONDS, text=True)
            must(status == 0 and "warning" not in err, f"rustc: {err[:2000]}")
        status, out, err = answer([*runner, program], "", timeout=SECONDS, text=True)
    must(status == 0 and out.strip().isdigit(), f"the self-test: status {status}, {out[:200]!r}, {err[:600]}")
    return out.strip()


def number_of(form=("source",)):
    """Returns the number that the self-test gives on this machine over a form of the package."""
    return self_test(compiler_for("x86_64-unknown-linux-gnu"), form, ())


def same_in_both_forms():
    numbers = number_of(("source",)), number_of(())
    must(numbers[0] == numbers[1], f"plain Rust gives {numbers[0]}, and the libraries {numbers[1]}")
    return numbers[0]


def same_on(target, linker, emulator):
    """Sees that the self-test gives the same number on another processor."""
    compiler = compiler_for(target, linker, *emulator.split()[:1])
    got = self_test(compiler, ("source",), emulator.split(), f"--target={target}", f"-Clinker={linker}")
    must(got == number_of(), f"{got} is not the number of this processor")


def same_in_wasm():
    """Sees that the self-test gives the same number in WebAssembly."""
    compiler = compiler_for(WASM, "node")
    linker = next(filter(shutil.which, WASM_LINKERS), None)
    words = [f"-Clinker={linker}", "-Clinker-flavor=wasm-ld"] if linker else []
    runner = ["node", "--input-type=module", "--eval", RUN_WASM, "--"]
    got = self_test(compiler, ("source",), runner, f"--target={WASM}", "--crate-type=cdylib", *words)
    must(got == number_of(), f"{got} is not the number of this processor")


def runs_on(target, linker, emulator):
    """Runs the tests of the Rust package on another processor."""
    compiler_for(target, "cargo", linker, *emulator.split()[:1])
    with tempfile.TemporaryDirectory() as folder:
        name = target.upper().replace("-", "_")
        environment = {**os.environ, "CARGO_TARGET_DIR": folder, f"CARGO_TARGET_{name}_LINKER": linker}
        if emulator:
            environment[f"CARGO_TARGET_{name}_RUNNER"] = emulator
        words = ["nice", "cargo", "test", "--quiet", "--offline", "--tests", "--features=source", f"--target={target}"]
        status, out, err = answer(words, "", timeout=SECONDS, text=True, env=environment, cwd=path("rust"))
    must(status == 0, (out + err)[-2000:])


def main(words):
    is_long, names = "--long" in words, [it for it in words if not it.startswith("--")]
    rows = [] if names else [Row("all answers are the same", all_same, (MANY if is_long else CALLS,)),
                             Row("a self-test gives the same number in both forms", same_in_both_forms),
                             Row("a driver in Rattle and its erased text", prints_the_same, (STEPS if is_long else 1,))]
    if is_long or "--slips" in words:
        rows += [Row(it.name, differs, (it,)) for it in OF_ANSWERS if not names or it.name in names]
        rows += [Row(f"by the driver: {it.name}", prints_another, (STEPS if is_long else 1, it))
                 for it in SEEN_BY_THE_DRIVER if not names or it.name in names]
    if is_long:
        for what in ("blocks", "lanes"):
            rows.append(Row(f"no race beside {what}", watched, (what, [])))
            rows.append(Row(f"a race beside {what} is seen if orders are relaxed", watched, (what, RELAXED)))
        rows += [Row(f"the tests on {target[0]}", runs_on, target) for target in TARGETS]
        rows += [Row(f"the self-test on {target[0]}", same_on, target) for target in TARGETS]
        rows.append(Row("the self-test in WebAssembly", same_in_wasm))
    return run_rows("beside", rows, says_ok=True)
