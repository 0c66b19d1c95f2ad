"""Tries mutants that no contract refuses: the prover must accept each, and the test that it names must fail.

They change hints of `bitmap_tree`: marks, spares, and the word at which a search begins. Each is a file of
`checks/mutants/tested`, written as those of `mutants`, and its line `seen by:` names a test of `tests/bitmap`. They are
tried on a copy of these crates, one after the other. Without a mutant all tests must pass.

    checks/run tested [--stale] [NAME..]

--stale only sees that each can be applied, and that its test is there.
"""
import re
import shutil
import tempfile

from checks.built.tests import ENDING, FOLDER, copy_tests, lines
from checks.lib.repository import files_below, path, read, write
from checks.lib.rows import Row, answer, must, run_rows
from checks.mutants.mutant import Edit, texts_of

CRATE, TESTS = "bitmap_tree", "bitmap"
COPIED = ("cube_shape", "ghost_history", "alloc_bits", "bitmap_occupancy", "fixed_vec", "fit_tree", "tests_bitmap",
          CRATE)
SECONDS = 3600
# The most seconds that a test may take: with a wrong hint it may search for long.
TEST_SECONDS = "120"


def seen_by(edit):
    return re.search(r"^seen by: (\w+)$", edit.text, re.M)[1]


def is_current(edit):
    """Sees that a mutant can be applied, and that the test that it names is there."""
    must(not edit.why, edit.why)
    test = rf"^#\[test\]\n(?:#.*\n)*fn {seen_by(edit)}\("
    files = files_below(f"{FOLDER}/{TESTS}", ENDING)
    must(any(re.search(test, read(file), re.M) for file in files), "there is no such test")


def copy_crates(room):
    used = [line for line in read("crates.txt").splitlines() if re.match(rf"({'|'.join(COPIED)})\b[^:]*:", line)]
    write(f"{room}/crates.txt", "\n".join([*used, lines()[TESTS], ""]))
    shutil.copy(path("HANDLES"), room)
    for name in COPIED:
        shutil.copytree(path("crates", name), f"{room}/crates/{name}", ignore=shutil.ignore_patterns("out"))
    copy_tests(TESTS, room)


def run_tests(room):
    """Proves the crate of a copy, and runs the tests over it. Returns the names of those that failed."""
    status, out, said = answer(["rt", "lib"], cwd=f"{room}/crates/{CRATE}", timeout=SECONDS)
    must(status == 0, f"it is not proved: {(out + said).decode(errors='replace')[-600:]}")
    words = ["rt", "try", "--test", "--seconds", TEST_SECONDS]
    _, out, said = answer(words, cwd=f"{room}/crates/{TESTS}", timeout=SECONDS)
    ended = re.findall(r"^test \S+::(\w+) \.\.\. (ok|FAILED)$", (out + said).decode(errors="replace"), re.M)
    must(ended, f"no test ran: {(out + said).decode(errors='replace')[-600:]}")
    return [name for name, how in ended if how == "FAILED"]


def try_edit(room, edit):
    """Sees that the tests fail over a mutant, and puts the sources back."""
    is_current(edit)
    folder = f"{room}/crates/{CRATE}"
    before = {file: read(folder, file) for file, _, _ in edit.pairs}
    changed = edit.apply(before)
    try:
        for file, text in changed.items():
            write(f"{folder}/{file}", text)
        failed = run_tests(room)
    finally:
        for file, text in before.items():
            write(f"{folder}/{file}", text)
    must(seen_by(edit) in failed, f"{seen_by(edit)} passes; {', '.join(failed) or 'no test'} fails")
    return f"fails {', '.join(failed)}"


def try_none(room):
    failed = run_tests(room)
    must(not failed, f"{', '.join(failed)} fails")


def main(words):
    texts = texts_of(path("crates", CRATE))
    edits = [Edit(file, texts) for file in files_below("checks/mutants/tested", ".edit")]
    if "--stale" in words:
        return run_rows("tested", [Row(edit.name, is_current, (edit,)) for edit in edits])
    edits = [edit for edit in edits if not words or edit.name in words]
    with tempfile.TemporaryDirectory(prefix="tested-") as room:
        copy_crates(room)
        rows = [Row("no mutant", try_none, (room,)), *(Row(edit.name, try_edit, (room, edit)) for edit in edits)]
        return run_rows("tested", rows, says_ok=True)
