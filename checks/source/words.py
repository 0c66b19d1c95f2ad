"""Fails where one word has two senses: a public type whose name stands in two crates, or a word of docs/GLOSSARY.md
with two entries; where a crate has no row of docs/STATUS.md with its cells; and where docs/ALGORITHM.md does not
name exactly the events of the tree.

It reads the types that each library makes public and has itself, and the first column of the glossary's tables. ALLOWED
says which crates may share a name, and why; an entry that is not needed fails too. Bare, the names of NOBODYS belong to
no crate. `checks/run words [FOLDER]` reads this repository, or a copy of it.
"""
import glob
import os
import re

from checks.lib.rattle_source import TYPES, all_items, items_in, passed_on
from checks.lib.repository import ROOT, crate_names, files_below, read
from checks.lib.rows import blind, print_faults

NOBODYS = ("Lane", "Pass", "Station")
# Which crates have a type of this name, and why that misleads nobody.
ALLOWED = {
    "Answer": ("cubejobs_fit cubejobs_regions", "what a call of a library for C answers; each has a header of its own"),
    "Closer": ("dispatcher lanes", "the right to close a shop, and to close lanes of jobs"),
    "Entry": ("job_queue tree_steps", "a lane's entry into a line, and a station's member of a seat"),
    "Finished": ("dispatcher uses", "what is known at the end: of a shop, of a run over a line alone"),
    "FreeMachine": ("cube_tree locked_peers", "what a close gives; callers of floors see F::Machine"),
    "Handle": ("cubejobs_lanes cubejobs_plan cubejobs_regions cubejobs_sched",
               "what a caller in C keeps; each library has one of its own"),
    "Kind": ("cube_core job_types", "of an event, and of a collective; a caller of jobs sees no event"),
    "Lane": ("lanes", "the producer's handle of a lane of jobs; at a queue it is that of a line"),
    "LaneRecord": ("job_queue lanes line_ring", "what a lane has done: of jobs, at a line and at its ring"),
    "Note": ("cube_core lanes", "of a machine that is closed, and of lanes that are"),
    "Occupancy": ("bitmap_occupancy cube_ledger", "what is free, by the words of either tree"),
    "OccupancyAnswer": ("cubejobs_fit cubejobs_regions", "what is free in a machine, by a library for C"),
    "Opened": ("dispatcher job_queue", "a new shop, and a new line, each with all that its callers need"),
    "PassRecord": ("job_queue line_ring", "what a pass has done, at a line and at its ring, which line_ruled joins"),
    "Plan": ("lanes tests_kit", "which words lanes have, and what a test does"),
    "Reading": ("job_queue line_gate", "what a pass read of a line, and of its gate, which line_ruled joins"),
    "Refused": ("bitmap_tree cube_core job_queue", "a refused take, call of the pure machine, and job of a line"),
    "Request": ("cli_args job_types", "of a command line, and of a job; a caller of either sees one"),
    "Row": ("jobs_csv tests_kit", "what is written as a line of CSV, and a row of a test"),
    "Sizes": ("job_queue lanes", "of lanes of jobs, and of a line"),
    "Taken": ("job_queue lanes", "the outcome of a take, from a lane of jobs and from a line"),
    "Tally": ("collectives uses", "rounds and messages, and what a stranger's line counts"),
    "Worker": ("dispatcher lanes", "of a shop, and of lanes of jobs"),
}
# The cells of a row of docs/STATUS.md, after the crate.
CELLS = ("Proved", "Tested", "Passes everything")


def types_in(items):
    return {item.name for item in all_items(items) if item.is_public and item.kind in TYPES}


def public_types(source):
    """Returns the types that the library with the sources in this folder makes public and has itself."""
    files = {os.path.relpath(file, source): items_in(file, read(file)) for file in files_below(source, ".rt")}
    root = files["lib.rt"]
    modules = {item.name: item.is_public for item in root if item.kind == "mod"}
    own, names = {name for items in files.values() for name in types_in(items)}, types_in(root)
    for at, listed in passed_on(root):
        if at.strip(": ").split("::")[0] in modules:
            names |= own & set(listed)
    public = tuple(f"{name}{end}" for name, is_public in modules.items() if is_public for end in (".rt", os.sep))
    return names.union(*(types_in(items) for file, items in files.items() if file.startswith(public)))


def homes(root):
    found = {}
    for library in sorted(glob.glob(f"{root}/crates/*/src/lib.rt")):
        source = os.path.dirname(library)
        for name in public_types(source):
            found.setdefault(name, []).append(os.path.basename(os.path.dirname(source)))
    return found


def type_faults(found):
    for name, crates in sorted(found.items()):
        allowed, _ = ALLOWED.get(name, ("", ""))
        if (len(crates) > 1 or name in NOBODYS) and " ".join(crates) != allowed:
            yield f"the public type {name} stands in {', '.join(crates)}"
    for name, (crates, _) in ALLOWED.items():
        stands = found.get(name, [])
        if " ".join(stands) != crates or (len(stands) < 2 and name not in NOBODYS):
            yield f"words: the entry {name} for {crates} is not needed as it stands"
    if len(found) < 100:
        yield f"only {len(found)} public types were found"


def glossary_faults(text):
    """Yields what is wrong with the first column of the tables, whose headings stand above a line of dashes."""
    rows = re.findall(r"^\| ([^|\n]*) \|.*\n(?!\|---)", text, re.M)
    entries = [word.strip().lower() for row in rows for word in row.split(",")]
    for word in sorted({word for word in entries if entries.count(word) > 1}):
        yield f"docs/GLOSSARY.md has {entries.count(word)} entries of '{word}'"
    if len(entries) < 50:
        yield f"docs/GLOSSARY.md has {len(entries)} words alone"


def status_faults(text, crates):
    """Yields which crates have no row, and which rows say nothing of what is proved or tested, or have other cells."""
    rows = {it[1]: re.split(r"(?<!\\)\|", it[2]) for it in re.finditer(r"^\| `(\w+)` \|(.*)\|$", text, re.M)}
    for crate in crates:
        cells = rows.get(crate, [])
        if len(cells) != len(CELLS) or not "".join(cells[:2]).strip():
            yield f"docs/STATUS.md has no row of `{crate}` with {', '.join(CELLS)}"


def event_kinds(root):
    """Returns the names of the tree's events, and the word that `cubejobs replay` prints for each."""
    items = items_in("", read(root, "crates/cube_core/src/event.rt"))
    kinds = next(re.findall(r"\w+", item.text) for item in items if item.name == "Kind")
    return kinds, dict(re.findall(r"Kind::(\w+) => \"(\w+)\"", read(root, "crates/jobs_csv/src/replay_rows.rt")))


def step_faults(text, kinds, printed):
    """Yields where the names beside the lines of code are others than those of the events."""
    code = "\n".join(re.findall(r"^```.*?^```$", text, re.M | re.S))
    for name in sorted({*re.findall(r" {3}([A-Z][a-z]+)(?: {3}.*)?$", code, re.M)} - {*kinds}):
        yield f"docs/ALGORITHM.md names the step {name}, which is no event"
    for kind in kinds:
        if not re.search(rf"\b{kind}\b", text) or printed.get(kind) != kind.lower():
            yield f"docs/ALGORITHM.md has no step {kind}, or `cubejobs replay` prints another word for it"


# Known bad pages, and the words of each fault.
STATUS = "| `a` | all | | a \\| b |\n| `b` | | all | |\n| `c` | | | time |\n| `d` | all | |\n"
ALGORITHM = "```\nw = load(h)         Look\nh            Leap     at Once\n```\n*Claim*"


def known_bad():
    yield [*status_faults(STATUS, "abcde")], [f"no row of `{crate}`" for crate in "cde"]
    steps = [*step_faults(ALGORITHM, ["Look", "Claim", "Mark"], {"Look": "look", "Claim": "claims", "Mark": "mark"})]
    yield steps, ["names the step Leap", "no step Claim", "no step Mark"]


def main(words):
    root = os.path.realpath(words[0]) if words else ROOT
    faults = [*type_faults(homes(root)), *glossary_faults(read(root, "docs", "GLOSSARY.md"))]
    faults += status_faults(read(root, "docs", "STATUS.md"), crate_names())
    faults += step_faults(read(root, "docs", "ALGORITHM.md"), *event_kinds(root))
    return print_faults([*faults, *blind("words", known_bad())])
