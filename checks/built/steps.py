"""Counts what calls do and no clause counts: every atomic access, also one that leaves no record, and the joins of a
collective.

`checks/run steps [--long]` makes 40,000 random calls of each structure in the source form (`rust/src/source`), by 1 to
8 threads, and with `--long` 1,000,000: of the bitmap tree, of lanes of jobs, and of the tree of status words, which it
erases itself. Each call must make at most the number of atomic accesses that the pages state (docs/REGIONS.md,
docs/LANES.md and docs/ALGORITHM.md). The words of the sources are put under a type that counts each access of a thread.
A collective must make exactly the joins of the rounds of its tally. Threads stop in the middle of a call of lanes, and
others go on.

It must see slips, most of them calls that make loads more: each second one of OF_STEPS in the gate, and with `--long`
all.
"""
import os
import re
import tempfile

from checks.lib import erase
from checks.lib.repository import files_below, path, read, write
from checks.lib.rows import Row, answer, must, needs, run_rows
from tests.faults.slips import OF_STEPS

CALLS, MANY, SECONDS = 40_000, 1_000_000, 1800
PROGRAM = "tests/rust/steps.rs"
WORDS = ["--edition", "2021", "-Coverflow-checks=on", "-O",
         *(f'--cfg=feature="{it}"' for it in ("lanes", "regions", "std"))]
# The import of the words in the shim, and what stands there instead: each file of the source form that has one.
IMPORT = "use core::sync::atomic::{AtomicU64, Ordering::SeqCst};"
COUNTED = "use crate::counting::AtomicU64;\nuse core::sync::atomic::Ordering::SeqCst;"
SHIMS = ("kit/atomic_table.rs", "kit/counted_slot.rs")
# What has words of its own, and is not measured: first fit, which orders its writes.
UNMEASURED = ["cubejobs_fit/open.rs", "fit_tree/writes.rs"]


def sources():
    """Returns the texts of the program's sources, by their names: the source form, its words counted, and the tree."""
    folder = path("rust/src/source")
    texts = {os.path.relpath(it, folder): read(it) for it in files_below("rust/src/source", ".rs")}
    has_words = sorted(name for name, text in texts.items() if re.search(r"\bsync::atomic\b|\bAtomic[UI]\d+\b", text))
    must(has_words == sorted([*SHIMS, *UNMEASURED]), f"atomic words are in {has_words}, and are counted in {SHIMS}")
    for name in SHIMS:
        must(texts[name].count(IMPORT) == 1, f"{name} does not import its words by '{IMPORT}'")
        texts[name] = texts[name].replace(IMPORT, COUNTED)
    for crate in erase.TREE:
        texts.update({f"{crate}/{name}.rs": text for name, text in erase.erased_tree(crate).items()})
        texts["mod.rs"] += f"pub mod {crate};\n" if crate not in erase.CRATES else ""
    return texts


def ran(calls, slip=None):
    """Builds the program, with a slip, and runs it. Returns its status, its output and its errors."""
    needs("rustc")
    texts = sources()
    if slip:
        must(texts[slip.file].count(slip.old) == 1, f"the text {slip.old!r} is not there once")
        texts[slip.file] = texts[slip.file].replace(slip.old, slip.new)
    with tempfile.TemporaryDirectory() as folder:
        for name in ("rust/src/place.rs", "rust/src/shared.rs", PROGRAM):
            write(f"{folder}/{name}", read(name))
        for name, text in texts.items():
            write(f"{folder}/rust/src/source/{name}", text)
        program = os.path.join(folder, "program")
        words = ["nice", "rustc", *WORDS, "-o", program, f"{folder}/{PROGRAM}"]
        status, _, err = answer(words, "", timeout=SECONDS, text=True)
        must(status == 0, f"rustc refuses the program:\n{err[:3000]}")
        return answer([program, str(calls)], "", timeout=SECONDS, text=True)


def all_within(calls):
    """Sees that no call makes more than its number. Shows the largest numbers."""
    status, out, err = ran(calls)
    must(status == 0, err[:2000])
    print(out, end="")
    return f"{calls:,} calls of each"


def must_see(slip):
    """Sees that a slip causes its error."""
    status, _, err = ran(CALLS, slip)
    must(status != 0 and slip.seen in err, f"status {status}, {err[:500]}")


def main(words):
    calls = MANY if "--long" in words else CALLS
    rows = [Row("each call makes at most its number of atomic accesses", all_within, (calls,))]
    slips = OF_STEPS if "--long" in words else OF_STEPS[::2]
    rows += [Row(slip.name, must_see, (slip,)) for slip in slips]
    return run_rows("steps", rows)
