"""Sees that each sentence that promises something has what carries it.

It reads README.md, docs/C.md, docs/RUST.md, docs/LANES.md, docs/REGIONS.md, docs/SCHEDULER.md and the headers of
`include`, and finds each sentence that says "proved", "never", "each" or "at most". The file `tests/claims.txt` lists
them by page. An entry is the beginning of a sentence, with code and links as they are written, and then, on a line that
is set in, what carries it, parted by semicolons:

    CRATE: FUNCTION CLAUSE    a clause of a function, which must have it
    CRATE: NAME               a definition, or a type, of a crate
    tested by NAME            a check, a function or a file of a test, which must be there
    measured by FILE          a script
    a duty                    what the caller must keep
    a description             what the thing is or how it works, and no promise

A sentence without an entry, an entry without a sentence, and a carrier that is not there fail. `checks/run claims
--list` prints the sentences without an entry, each with its page.
"""
import glob
import os
import re

from checks.lib.repository import files_below, path, place, read
from checks.lib.rows import blind, print_faults
from checks.source.prose import END, comments_of, outside_code, parts

ENTRIES = "tests/claims.txt"
PAGES = ("README.md", "docs/C.md", "docs/RUST.md", "docs/LANES.md", "docs/REGIONS.md", "docs/SCHEDULER.md")
PROMISES = re.compile(r"\b(?:proved|proves|never|each|at most)\b", re.I)
PLAIN = ("a duty", "a description")
# Where tests are: files whose text or name has the function or the file of a test.
TESTS = ("checks", "rust/tests", "rust/pool/tests", "tests", "crates/tests_bitmap",
         "crates/tests_lanes", "crates/tests_files", "python")


def sentences(file, text):
    """Yields each sentence of a page or of the comments of a header that promises something."""
    if file.endswith(".md"):
        found = parts(outside_code(enumerate(text.splitlines(), 1)))
    else:
        found = (part for comment in comments_of(file, text) for part in parts(comment))
    for _, part, _ in found:
        at = 0
        for end in [*(it.span() for it in END.finditer(part)), (len(part), len(part))]:
            sentence = " ".join(part[at : end[0]].split())
            at = end[1]
            if PROMISES.search(re.sub(r"`[^`]*`", "", sentence)):
                yield sentence


def entries(text):
    """Returns the entries of each page: the beginning of a sentence, and its carriers."""
    found, page = {}, None
    for line in text.splitlines():
        if line.startswith("## "):
            page = found.setdefault(line[3:], {})
        elif line.startswith(" "):
            page[last] += [it.strip() for it in line.split(";") if it.strip()]
        elif line.strip() and not line.startswith("#"):
            last = line.strip()
            page[last] = []
    return found


def clauses_in(crate, function):
    """Returns the names of the clauses of the functions of this name in a crate, a trait's too."""
    names = set()
    for file in files_below(f"crates/{crate}/src", ".rt"):
        for it in re.finditer(rf"\bfn {function}\b.*?(?=\n    }}|\n}}|\n{{}}|;\n\n)", read(file), re.S):
            names.update(re.findall(r"^\s*ensures (\w+) \{", it[0], re.M))
    return names


def is_in_crate(crate, name):
    return any(re.search(rf"\b{name}\b", read(file)) for file in files_below(f"crates/{crate}", ".rt", ".antt"))


def is_a_test(name):
    """Returns whether a check, a function or a file of a test has this name."""
    if f'Check("{name}"' in read("checks/run"):
        return True
    for folder in TESTS:
        for file in files_below(folder, ".rt", ".rs", ".py", ".c", ".cpp"):
            if os.path.basename(file) == name or re.search(rf"\b(?:fn|def) {re.escape(name)}\b", read(file)):
                return True
    return False


def fault_of(carrier):
    """Returns what is wrong with a carrier, or nothing."""
    if carrier in PLAIN:
        return ""
    for begin, holds in (("tested by ", is_a_test), ("measured by ", lambda it: os.path.exists(path(it)))):
        if carrier.startswith(begin):
            return "" if holds(carrier.removeprefix(begin)) else f"'{carrier}': there is none"
    crate, _, rest = carrier.partition(": ")
    if not rest or not os.path.isdir(path("crates", crate)):
        return f"'{carrier}' is no carrier"
    function, _, clause = rest.partition(" ")
    if clause:
        return "" if clause in clauses_in(crate, function) else f"{crate}: {function} has no clause {clause}"
    return "" if is_in_crate(crate, function) else f"{crate} has no {function}"


def faults_in(page, text, listed):
    """Yields each sentence of a page that no entry begins, and each entry that begins none or has no carrier."""
    used = set()
    for sentence in sentences(page, text):
        found = [it for it in listed if sentence.startswith(it)]
        used.update(found)
        if not found:
            yield f"{page}: no entry of {ENTRIES} begins '{sentence}'"
    for entry, carriers in listed.items():
        if entry not in used:
            yield f"{ENTRIES}: no sentence of {page} begins '{entry}'"
        if not carriers:
            yield f"{ENTRIES}: nothing carries '{entry}'"
        yield from (f"{ENTRIES}: {fault}" for fault in map(fault_of, carriers) if fault)


SAMPLE = "It never waits. Nothing here. A `never` is code.\n\n- Each call\n  is proved.\n"
LISTED = {"Each call": ["cube_shape: regions_apart exact_no", "tested by nobody_at_all"], "Some": [], "It": ["a duty"]}
WANTED = ("regions_apart has no clause exact_no", "'tested by nobody_at_all': there is none", "begins 'Some'",
          "carries 'Some'")


def main(words):
    pages = [*PAGES, *sorted(map(place, glob.glob(path("include", "*"))))]
    listed = entries(read(ENTRIES))
    faults = [fault for page in pages for fault in faults_in(page, read(page), listed.get(page, {}))]
    faults += [f"{ENTRIES}: {page} is not read" for page in listed if page not in pages]
    if "--list" in words:
        faults = [it for it in faults if it.partition(": ")[2].startswith("no entry")]
    sample = [*faults_in("README.md", SAMPLE, LISTED)]
    faults += blind("claims",
                    [(sample, WANTED), ([*faults_in("README.md", SAMPLE, {})], ("It never waits", "Each call is"))])
    return print_faults(faults)
