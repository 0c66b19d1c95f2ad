"""Tests the Rust package `cubejobs-pool`: its tests, documents and examples, without a warning.

    checks/run pool                 one run of all, and a look for mutants that no longer fit
    checks/run pool --long          2,000 random programs; 25 runs of the tests, every other one on two processors; a
                                    run under AddressSanitizer, which sees leaks too; and each mutant: a test sees it
                                    within a limit of time, and passes without it
    checks/run pool --mutants NAME..  these mutants alone

A mutant is a file of rust/pool/mutants: the file that it changes, the tests that see it, the old text and the new one.
The tests are `unit`, or `crowds`, `graphs`, `memory`, `semantics` or `waits`, a file of tests, and a part of the test's
name. After `addresses` they run under AddressSanitizer. ThreadSanitizer has no part here: it would need the library and
std compiled for it.
"""
import os
import re
import shutil
import subprocess
import tempfile

from checks.lib.repository import files_below, path, read
from checks.lib.rows import Wrong, needs

PACKAGE = "rust/pool"
# The seconds of a build, of a whole run of the tests, and the least limit of a test that may see a mutant. On a busy
# machine the limit is some times what the tests take without the mutant.
BUILD, RUN, TEST, TIMES = 600, 300, 20, 4
RUNS = 25
# The number of random programs in a long run, and its seconds.
GRAPHS, MANY = 2000, 1800
# A user of rustc may ask for a sanitizer only as one of its developers.
TRIPLE = "x86_64-unknown-linux-gnu"
ADDRESSES = {"RUSTC_BOOTSTRAP": "1", "RUSTFLAGS": "-Awarnings -Zsanitizer=address"}
EXAMPLES = {
    "sort": r"1000 numbers in order on 4 workers, .*",
    "mixed": r"100000 small jobs ran, 270 gangs have their sum, 30 failed, .*",
    "power": r"the largest eigenvalue is 3\.9998, after \d+ steps on 4 workers",
}
WORDS = {"sort": ["1000"]}


def run(folder, target, words, seconds=BUILD, is_sanitized=False):
    """Runs cargo in a folder. Returns its status and what it says; a run that takes too long has the status None."""
    env = dict(os.environ, CARGO_TARGET_DIR=target, CARGO_TERM_COLOR="never", RUST_BACKTRACE="0")
    if is_sanitized:
        env |= ADDRESSES
        words = [words[0], "--target", TRIPLE, *words[1:]]
    command = ["cargo", words[0], "--offline", *words[1:]]
    with subprocess.Popen(command, cwd=folder, env=env, stdout=subprocess.PIPE, stderr=subprocess.STDOUT, text=True,
                          errors="replace", start_new_session=True) as ran:
        try:
            said, _ = ran.communicate(timeout=seconds)
            return ran.returncode, said
        except subprocess.TimeoutExpired:
            os.killpg(ran.pid, 9)
            return None, ran.communicate()[0]


def must(folder, target, words, seconds=BUILD, is_sanitized=False):
    status, said = run(folder, target, words, seconds, is_sanitized)
    if status != 0:
        raise Wrong(f"cargo {' '.join(words)}:\n{said[-3000:]}")
    return said


def whole(target):
    """Runs all that a user of the package may run."""
    folder = path(PACKAGE)
    os.environ.update(RUSTFLAGS="-Dwarnings", RUSTDOCFLAGS="-Dwarnings")
    if subprocess.run(["cargo", "fmt", "--check"], cwd=folder, check=False, capture_output=True).returncode == 1:
        raise Wrong("cargo fmt has something to change")
    if shutil.which("cargo-clippy"):
        must(folder, target, ["clippy", "--all-targets"])
    else:
        print("pool: no clippy here")
    must(folder, target, ["test"], BUILD + RUN)
    must(folder, target, ["doc", "--no-deps"])
    for name, last in EXAMPLES.items():
        said = must(folder, target, ["run", "--quiet", "--release", "--example", name, "--", *WORDS.get(name, [])])
        if not re.fullmatch(last, said.strip().splitlines()[-1]):
            raise Wrong(f"the example {name} says {said.strip().splitlines()[-1]!r}")
    print("pool: the tests, documents and examples pass, with no warning")


def many(target):
    processors = os.sched_getaffinity(0)
    for number in range(1, RUNS + 1):
        os.sched_setaffinity(0, processors if number % 2 else sorted(processors)[:2])
        status, said = run(path(PACKAGE), target, ["test", "--tests"], RUN)
        if status != 0:
            raise Wrong(f"run {number} of the tests:\n{said[-3000:]}")
        print(f"pool: run {number} of {RUNS} passes", flush=True)
    os.sched_setaffinity(0, processors)
    print(f"pool: {RUNS} runs of the tests pass")


def graphs(target):
    """Runs random programs: all of them, a quarter on one processor, and all with a thread for each job."""
    os.environ["POOL_GRAPHS"] = str(GRAPHS)
    must(path(PACKAGE), target, ["test", "--test", "graphs"], BUILD + MANY)
    del os.environ["POOL_GRAPHS"]
    print(f"pool: {GRAPHS} random programs end with their results")


def can_sanitize(work):
    """Returns whether rustc has AddressSanitizer, and the system lets it look for leaks."""
    program, command = os.path.join(work, "empty"), ["rustc", "-Zsanitizer=address", "-", "-o"]
    built = subprocess.run([*command, program], input=b"fn main() {}", env=dict(os.environ, **ADDRESSES), check=False,
                           capture_output=True)
    can = built.returncode == 0 and subprocess.run([program], check=False, capture_output=True).returncode == 0
    if not can:
        print("pool: no AddressSanitizer here")
    return can


def sanitized(target):
    if can_sanitize(target):
        # The sanitizer reserves more memory than the first test allows, and keeps freed memory from the second.
        skipped = ["--skip", "a_limit_of_memory", "--skip", "a_dropped_pool_frees_its_lanes"]
        must(path(PACKAGE), target, ["test", "--tests", "--", *skipped], BUILD + RUN, True)
        print("pool: AddressSanitizer has nothing to say of the tests")


def mutants():
    """Returns the name of each mutant, with its lines by their first words."""
    found = {}
    for file in files_below(f"{PACKAGE}/mutants", ".edit"):
        lines = (line.partition(": ") for line in read(file).splitlines())
        found[os.path.basename(file)[:-5]] = {word: rest.replace("\\n", "\n") for word, _, rest in lines}
    return found


def tests_of(edit):
    """Returns the kind of a mutant's tests, the part of their names, and whether they run under AddressSanitizer."""
    test = edit["test"].removeprefix("addresses ")
    kind, _, name = test.partition(" ")
    return kind, name, test != edit["test"]


def fault_of(edit):
    """Returns why a mutant cannot be tried, or None."""
    if sorted(edit) != ["file", "new", "old", "test"]:
        return f"it has the lines {', '.join(edit)}"
    kind, name, _ = tests_of(edit)
    file, tests = f"{PACKAGE}/{edit['file']}", [f"{PACKAGE}/tests/{kind}.rs"]
    if kind == "unit":
        tests = files_below(f"{PACKAGE}/src", ".rs")
    missing = [it for it in [file, *tests] if not os.path.exists(path(it))]
    if missing:
        return f"there is no file {missing[0]}"
    if not any(re.search(rf"\bfn \w*{re.escape(name)}", read(it)) for it in tests):
        return f"there is no test {edit['test']}"
    count = read(file).count(edit["old"])
    return None if count == 1 else f"{edit['file']} has the old text {count} times"


def look_at_mutants(edits):
    """Fails if a mutant does not fit the package of today."""
    faults = [f"{name}: {fault}" for name, edit in edits.items() if (fault := fault_of(edit))]
    if faults:
        raise Wrong("mutants that do not fit:\n" + "\n".join(faults))


def run_tests(folder, target, edit, seconds):
    """Runs the tests of a mutant in a copy of the package. Returns their status and what they say, as `run` does."""
    kind, name, is_sanitized = tests_of(edit)
    words = ["test", "--lib"] if kind == "unit" else ["test", "--test", kind]
    must(os.path.join(folder, "pool"), target, [*words, "--no-run"], BUILD, is_sanitized)
    return run(os.path.join(folder, "pool"), target, [*words, name], seconds, is_sanitized)


def limit_of(folder, target, edit):
    """Returns the seconds that each test of a mutant has. The tests must pass without it."""
    os.environ.pop("POOL_TEST_SECONDS", None)
    status, said = run_tests(folder, target, edit, RUN)
    took = re.findall(r"finished in ([\d.]+)s", said)
    if status != 0 or not re.search(r"[1-9]\d* passed", said):
        raise Wrong(f"{edit['test']} without a mutant, status {status}:\n{said[-3000:]}")
    return max(TEST, TIMES * round(sum(map(float, took))))


def try_mutant(folder, target, edit, limit):
    """Applies a mutant to a copy of the package. Returns how its tests see it within this limit of seconds, or None."""
    file = os.path.join(folder, "pool", edit["file"])
    with open(file, encoding="utf-8") as source:
        text = source.read()
    with open(file, "w", encoding="utf-8") as source:
        source.write(text.replace(edit["old"], edit["new"]))
    try:
        os.environ["POOL_TEST_SECONDS"] = str(limit)
        status, said = run_tests(folder, target, edit, 3 * limit)
    finally:
        with open(file, "w", encoding="utf-8") as source:
            source.write(text)
    if status is None:
        return "it does not end"
    if status == 0:
        return None
    if tests_of(edit)[2]:
        return "AddressSanitizer reports it" if "ERROR: " in said and "Sanitizer: " in said else None
    if "has overflowed its stack" in said:
        return "a stack overflows"
    return "it does not end" if "has not ended within" in said or "ABRT" in said else "a test fails"


def see_mutants(names):
    known = mutants()
    unknown = [name for name in names if name not in known]
    if unknown:
        raise Wrong(f"there is no mutant {unknown[0]}")
    tried = {name: known[name] for name in names or known}
    look_at_mutants(tried)
    missed = []
    with tempfile.TemporaryDirectory() as work:
        folder, target = os.path.join(work, "rust"), os.path.join(work, "target")
        shutil.copytree(path("rust"), folder, ignore=shutil.ignore_patterns("target"))
        os.environ.update(RUSTFLAGS="-Awarnings")
        can = can_sanitize(work)
        tried = {name: edit for name, edit in tried.items() if can or not tests_of(edit)[2]}
        by_test = {edit["test"]: edit for edit in tried.values()}
        limits = {test: limit_of(folder, target, edit) for test, edit in by_test.items()}
        for name, edit in tried.items():
            seen = try_mutant(folder, target, edit, limits[edit["test"]])
            print(f"{name}: {seen or 'NOT SEEN'}", flush=True)
            missed += [] if seen else [name]
    if missed:
        raise Wrong(f"no test sees {', '.join(missed)}")
    print(f"pool: the tests see {len(tried)} mutants")


def main(words):
    needs("cargo")
    if words[:1] == ["--mutants"]:
        see_mutants(words[1:])
        return
    look_at_mutants(mutants())
    with tempfile.TemporaryDirectory() as target:
        whole(target)
        if words == ["--long"]:
            graphs(target)
            many(target)
            sanitized(target)
    if words == ["--long"]:
        see_mutants([])
