"""Compares crates.txt, the map of the crates, with what is made from it and with the pages that draw and list them.

- crates.txt has a comment above each crate, which says what it has. A crate uses only crates above its own line: those of
  its own part, and those of the parts before it.
- crates/README.md is the same as a list with links. `checks/run layers --write` writes it.
- docs/ARCHITECTURE.md draws each crate once, in at most 30 lines. A crate uses what its row or a lower one has.
- docs/STATUS.md has its rows in the order of crates.txt.
- docs/ADDING.md names each library for C where it says what a call of one takes.
"""
import re

from checks.lib.repository import crate_names, read, write
from checks.lib.rows import blind, print_faults

CRATES, LIST, DRAWN = "crates.txt", "crates/README.md", "docs/ARCHITECTURE.md"
STATUS, ADDING, MOST_LINES = "docs/STATUS.md", "docs/ADDING.md", 30
PART = re.compile(r"^# ---- (.*?) ----$", re.M)
LINE = re.compile(r"^(\w+)((?: [^\s:]+)*):(.*)$", re.M)
SAID = re.compile(r"^# (.*)\n(\w+)(?: [^\s:]+)*:", re.M)
# Numbers by their words.
NUMBERS = "zero one two three four five six seven eight nine ten eleven twelve".split()


def parts_of(text):
    """Returns the parts of crates.txt: their names, and of each crate what its line says and what it uses."""
    pieces = PART.split(text)
    return [(name, [(it[1], it[2].split(), it[3].split()) for it in LINE.finditer(body)])
            for name, body in zip(pieces[1::2], pieces[2::2])]


def faults_of_parts(text):
    """Yields each crate that uses one which is not above it, and a wrong number of parts."""
    parts = parts_of(text)
    order = [crate for _, crates in parts for crate, _, _ in crates]
    above = set()
    for name, crates in parts:
        for crate, _, uses in crates:
            for it in uses:
                if it in order and it not in above:
                    yield f"{CRATES}: {crate}, of the part '{name}', uses {it}, which is not above it"
            above.add(crate)
    said = re.search(r"There are (\w+) parts", text)
    if not said or said[1] != NUMBERS[len(parts)]:
        yield f"{CRATES}: there are {NUMBERS[len(parts)]} parts, and its head says {said[1] if said else 'nothing'}"


def list_of(text):
    """Yields the lines of crates/README.md."""
    says = {crate: said for said, crate in SAID.findall(text)}
    yield "# The crates\n\nIn each part the lowest crate comes first. A crate uses only crates above it.\n"
    yield "[Architecture](../docs/ARCHITECTURE.md) draws them.\n"
    for name, crates in parts_of(text):
        yield f"\n## {name[0].upper()}{name[1:]}\n\n| Crate | It has |\n|---|---|\n"
        yield from (f"| [`{it}`]({it}) | {says.get(it, '')} |\n" for it, _, _ in crates)
    yield "\n<!-- All is written by checks/run layers --write, from crates.txt. -->\n"


def faults_of_list(text, shown):
    """Yields each crate of which crates.txt does not say what it has, and whether the list is stale."""
    says = {crate for _, crate in SAID.findall(text)}
    yield from (f"{CRATES}: no comment says what {it} has" for _, part in parts_of(text) for it, _, _ in part if it not in says)
    if shown != "".join(list_of(text)):
        yield f"{LIST} is stale: checks/run layers --write renews it"


def rows_of(drawing, crates):
    """Returns of each crate the numbers of the rows of a drawing that name it."""
    rows, row = {it: [] for it in crates}, 0
    for line in drawing.splitlines():
        row += "+-" in line or "+=" in line
        for word in re.findall(r"\w+", line):
            if word in rows:
                rows[word].append(row)
    return rows


def faults_of_drawing(text, crates):
    """Yields what the drawing has otherwise than crates.txt. `crates` are all, each with those that it uses."""
    drawing = re.search(r"^```\n(\+-.*?)^```$", text, re.M | re.S)
    if not drawing:
        yield f"{DRAWN}: there is no drawing"
        return
    if len(drawing[1].splitlines()) > MOST_LINES:
        yield f"{DRAWN}: the drawing has {len(drawing[1].splitlines())} lines of at most {MOST_LINES}"
    rows = rows_of(drawing[1], crates)
    for crate, uses in crates.items():
        if len(rows[crate]) != 1:
            yield f"{DRAWN}: the drawing has {crate} {len(rows[crate])} times"
        for it in uses:
            if rows[crate] and rows[it] and rows[it][-1] < rows[crate][0]:
                yield f"{DRAWN}: the drawing has {it} above {crate}, which uses it"


def wrong_order(where, found, wanted):
    """Yields what a list has otherwise than the crates, in their order."""
    yield from (f"{where} lacks {it}" for it in wanted if it not in found)
    yield from (f"{where} has {it}, which is no crate" for it in dict.fromkeys(found) if it not in wanted)
    yield from (f"{where} has {it} twice" for it in dict.fromkeys(found) if found.count(it) > 1)
    if sorted(found) == sorted(wanted) and found != wanted:
        at = next(n for n, it in enumerate(found) if it != wanted[n])
        yield f"{where} has {found[at]} where {wanted[at]} comes in {CRATES}"


def faults_of_adding(text, libraries):
    """Yields each library for C that the row of their calls does not name."""
    row = next((line for line in text.splitlines() if line.startswith("| A call of a C library |")), "")
    yield from (f"{ADDING}: the row of a call of a C library lacks {it}" for it in libraries if f"`{it}`" not in row)


def faults_in(crates, shown, drawn, status, adding):
    """Yields what the texts of the files say otherwise than the first of them."""
    lines = [it for _, part in parts_of(crates) for it in part]
    names = [it for it, _, _ in lines]
    yield from faults_of_parts(crates)
    yield from faults_of_list(crates, shown)
    yield from faults_of_drawing(drawn, {it: [use for use in uses if use in names] for it, _, uses in lines})
    yield from wrong_order(f"{STATUS}: the page", re.findall(r"^\| `(\w+)` \|", status, re.M), names)
    yield from faults_of_adding(adding, [it for it, words, _ in lines if "staticlib" in words])


# Known bad files: of `b` nothing is said, the drawing has `b` above `a`, which uses it, and so on.
SAMPLE = (
    "# There are three parts\n# ---- low ----\n# one\na: c b\nb staticlib:\n# ---- high ----\n# two\nc: a\n",
    "# The crates\n",
    "```\n+--+\n|b |\n+--+\n|c |\n+--+\n|c a|\n+--+\n```\n",
    "| `b` |\n| `a` |\n| `c` |\n", "| A call of a C library | `a` |\n")
WANTED = (
    "a, of the part 'low', uses c", "a, of the part 'low', uses b", "there are two parts", "no comment says what b has",
    "README.md is stale", "has b above a", "has c 2 times", "page has b where a comes", "library lacks b")


def main(words):
    text = read(CRATES)
    if words == ["--write"]:
        write(LIST, "".join(list_of(text)))
    faults = [*faults_in(text, read(LIST), read(DRAWN), read(STATUS), read(ADDING))]
    named = [it for _, part in parts_of(text) for it, _, _ in part]
    faults += [] if named == crate_names() else [f"{CRATES}: a crate is in no part"]
    faults += blind("layers", [([*faults_in(*SAMPLE)], WANTED)])
    return print_faults(faults)
