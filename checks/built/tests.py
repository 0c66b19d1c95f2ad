"""Runs the tests of `tests/`, which are in Rattle and have no proof: `checks/run tests [NAME..]`.

A proof of a test shows only that the test itself is safe, and takes ten times as long as a run. So these tests run by
`rt try --test`, over the sources as they stand. `tests/uses.txt` has the crates that each one uses. A call that breaks
a `requires` is seen in part, so no test makes one.
"""
import concurrent.futures
import os
import re
import shutil
import tempfile

from checks.lib.repository import files_below, path, read, write
from checks.lib.rows import Row, answer, must, needs, run_rows

FOLDER, USES, ENDING = "tests", "tests/uses.txt", ".rt.in"
# The most seconds of one test, and of all tests of a crate.
TEST_SECONDS, SECONDS = "120", 1800


def lines():
    """Returns the lines of `tests/uses.txt`, by the name of the crate."""
    found = [line for line in read(USES).splitlines() if line and not line.startswith("#")]
    return {line.split()[0].rstrip(":"): line for line in found}


def is_listed(name, listed):
    must(name in listed, f"{USES} has no line for it")


def copy_tests(name, room):
    """Copies the sources of a crate of tests to a room with crates, and returns its folder."""
    home, crate = path(FOLDER, name), f"{room}/crates/{name}"
    for file in files_below(f"{FOLDER}/{name}", ENDING):
        write(f"{crate}/{os.path.relpath(file, home).removesuffix('.in')}", read(file))
    return crate


def run_tests(name, line):
    """Runs the tests of a crate in a copy of the crates, whose sources are laid out. Returns how many passed."""
    needs("rt")
    with tempfile.TemporaryDirectory(prefix="tests-") as room:
        shutil.copytree(path("crates"), f"{room}/crates", ignore=shutil.ignore_patterns("out", "proofs"))
        shutil.copy(path("HANDLES"), room)
        write(f"{room}/crates.txt", f"{read('crates.txt')}{line}\n")
        crate = copy_tests(name, room)
        status, out, _ = answer(["rt", "fmt"], "", cwd=crate, timeout=60, text=True)
        must(status == 0 and not out, f"rt fmt lays it out in another way: {out[:300]}")
        words = ["rt", "try", "--test", "--seconds", TEST_SECONDS]
        status, out, err = answer(words, "", cwd=crate, timeout=SECONDS, text=True)
    passed = re.search(r"^test result: ok\. (\d+) passed; 0 failed", out + err, re.M)
    failed = re.findall(r"^test (\S+) \.\.\. FAILED", out + err, re.M)
    must(status == 0 and passed, f"status {status}, {', '.join(failed) or (out + err)[-600:]}")
    return f"{passed[1]} tests"


def main(words):
    listed = lines()
    names = sorted(it for it in os.listdir(path(FOLDER)) if os.path.isdir(path(FOLDER, it, "src")))
    with concurrent.futures.ThreadPoolExecutor(2) as pool:
        wanted = [it for it in names if it in listed and (not words or it in words)]
        begun = {it: pool.submit(run_tests, it, listed[it]) for it in wanted}
        rows = [Row(f"{it} is listed", is_listed, (it, listed)) for it in names]
        rows += [Row(f"tests of {it}", ran.result) for it, ran in begun.items()]
        return run_rows("tests", rows, says_ok=True)
