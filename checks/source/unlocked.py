"""Finds locks in the sources of the queue, of both trees, of the libraries of regions and of the scheduler for threads,
and of job lanes with their calls of sleep and wake: `line_ruled`, `floor_tree`, `cubejobs_regions`,
`cubejobs_sched`, `cubejobs_lanes`, `wake_calls` and all below.

No contract says this of a call that may wait: a lock around it changes neither its result nor what it records. It finds

- a lock, a channel, a once cell or another type of the standard library that makes a thread wait for another one,
- a crate of the toolchain that is not in ALLOWED, in the crate's line of crates.txt; the queue of `crossbeam_queue` has
  no lock, but a push or a pop may wait for another one; a claim of `counted_slot` is tried once, and may be refused;
  of `crossbeam_utils` sources may name `Backoff` alone,
- the repository's `locked_peers`, a queue and an allocator under a lock each, and
- a loop with no bound (`forever`), of which a lock made by hand needs one; each floor's `take` alone has such a loop.

`checks/run unlocked [FOLDER]` reads this repository, or a copy of it.
"""
import os
import re

from checks.lib.rattle_source import uncommented
from checks.lib.crates import libraries_of, uses_of
from checks.lib.repository import ROOT, files_below, read
from checks.lib.rows import print_faults

TOPS = ("line_ruled", "floor_tree", "cubejobs_regions", "cubejobs_sched", "cubejobs_lanes",
        "wake_calls")
ALLOWED = {
    "core", "std", "std_alloc", "std_heap", "atomic_table", "bitflags", "counted_slot", "crossbeam_queue",
    "crossbeam_utils",
    "thiserror"}
LOCKS = re.compile(
    r"\b(?:\w*Mutex\w*|\w+Lock|\w+Lock(?:Read|Write)Guard|Condvar|Barrier|OnceCell|mpsc|(?:try_)?lock|locked_\w+)\b"
    r"|\bsync::(?:\{[^}]*)?\bOnce\b|\bcrossbeam_utils\b(?!::Backoff;)"
)
FOREVER = re.compile(r"\bforever\b")
WAITS = {"crates/floor_tree/src/floor_tree.rt": 1}


def faults_of(crate, root):
    """Yields what is wrong in the sources of a crate, and in its line of crates.txt."""
    for dep in libraries_of(crate, root):
        if dep not in ALLOWED:
            yield f"crates.txt: {crate} stands on {dep}"
    files = files_below(os.path.join(root, "crates", crate, "src"), ".rt")
    if not files:
        yield f"{crate}: no source was found"
    for file in files:
        text, name = uncommented(read(file)), os.path.relpath(file, root)
        yield from (f"{name}: {word}" for word in sorted({it[0] for it in LOCKS.finditer(text)}))
        loops = len(FOREVER.findall(text))
        if loops != WAITS.get(name, 0):
            yield f"{name}: {loops} loops with no bound, and not {WAITS.get(name, 0)}"


def main(words):
    root = os.path.realpath(words[0]) if words else ROOT
    names = sorted({below for top in TOPS for below in [top, *uses_of(top, root)]})
    status = print_faults(fault for name in names for fault in faults_of(name, root))
    if not status:
        print(f"unlocked: {len(names)} crates have no lock")
    return status
