"""Finds what a script can find of the rules of prose in CONTRIBUTING.md: long sentences, lines and table cells, banned
words, and doc comments of functions that do not begin with a verb. It counts the words of each document. The guides for
users and the first pages for maintainers have a limit.

It reads the documents that are written by hand, and the comments of sources, definitions, proofs and headers. Code
blocks do not count, code in backticks is one word, and a link is its text. A list item, a heading and a table cell end
a sentence. A page on calling is read up to its example, which is quoted like all below it.

    checks/run prose            all files, and the table of words
    checks/run prose FILE..     the faults of these files alone
"""
import glob
import os
import re

from checks.lib.rattle_source import COMMENT_OF_ANTT, LITERAL, all_items, items_in, spaces
from checks.lib import erase
from checks.lib.repository import crate_names, files_below, path, place, read
from checks.lib.rows import blind, print_faults

MOST_IN_SENTENCE, MOST_COLUMNS, MOST_IN_CELL = 25, 100, 60
GENERATED = ("crates/README.md",)
# What is made from sources that are read themselves.
ERASED = tuple(f"rust/src/source/{it}/" for it in erase.CRATES)
# The pages on calling, which are counted together.
PAGES = "crates/*/CALLING.md"
# The pages that are read from end to end, with the most words of each, so that they stay short: the guides by which a
# user builds, installs, calls or runs this, and the first pages for a maintainer. Others explain or list, are read in
# parts, and have no limit.
LIMITS = {
    "README.md": 1200, "docs/GUIDE.md": 1900, "docs/C.md": 2960, "docs/RUST.md": 1760, "docs/INSTALL.md": 230,
    "docs/SCHEDULER.md": 1350, "docs/PLANNER.md": 1400, "CONTRIBUTING.md": 900, "docs/ARCHITECTURE.md": 1500,
}
# Words that are not written, and what to say.
BANNED = {
    r"told|tells": "returns, reports or says",
    r"who(?:ever|m)?": "the caller, the thread or you",
    r"so many": "the number by its name",
    r"comes? to(?! (?:an|the|its) end\b)": "is",
    r"in the place of": "instead of",
    r"but for": "except",
    r"(?<!left )behind(?= [\w`(])": "after",
    r"stands(?: for)?": "is",
    r"lets? through": "allows",
    r"becomes? of": "the outcome of",
    r"to be had": "available",
    r"pass(?:es|ed) over": "skips",
}
IS_BANNED = re.compile(r"\b(?:" + "|".join(f"({it})" for it in BANNED) + r")\b", re.I)
# First words of a doc comment that end as a verb does, and are none.
NO_VERBS = ("This", "Its", "Is", "As", "Has", "Was", "Does", "Always", "Unless", "Whose", "Perhaps", "Jobs", "Bits",
            "Numbers", "Regions", "Words", "Rows", "Bytes", "Lanes", "Stations", "Nodes")
# The end of a sentence: neither two dots, nor the dot of a short form.
END = re.compile(r"""(?<=[^.\s][.!?])(?<!e\.g\.)(?<!i\.e\.)(?<!\bvs\.)(?<!\bal\.)["')\]]*\s+""")
MARK = re.compile(r"^\s*(?://[/!]?|--+|/?\*+(?!/))? ?(.*?)(?:\*+/)?\s*$")
ITEM = re.compile(r"\s*(?:[-*+]|\d+\.)\s+|#+\s")


def outside_code(numbered):
    """Yields the lines of a text with their numbers, those of code blocks and of HTML as empty ones."""
    in_code = False
    for number, line in numbered:
        is_fence = line.lstrip().startswith("```")
        yield number, "" if is_fence or in_code or line.lstrip().startswith("<") else line
        in_code ^= is_fence


def parts(numbered):
    """Yields each paragraph, list item, heading and cell: its line's number, its text, and whether it is a cell."""
    held, is_held_heading = [], False
    for number, line in [*numbered, (0, "")]:
        is_row, starts = line.lstrip().startswith("|"), ITEM.match(line)
        if held and (not line.strip() or is_row or starts or is_held_heading):
            yield held[0][0], "\n".join(text for _, text in held), False
            held = []
        if is_row:
            yield from ((number, cell, True) for cell in re.split(r"(?<!\\)\|", line)[1:-1])
        elif line.strip():
            held.append((number, line[starts.end() :] if starts else line))
            is_held_heading = line.startswith("#")


def plain(text):
    """Returns a text with code as one word, links and pictures as their texts, and no stars; the lines are kept."""
    text = re.sub(r"(`+).+?\1", lambda code: "`_`" + "\n" * code[0].count("\n"), text, flags=re.S)
    return re.sub(r"!?\[([^\]]*)\]\([^)]*\)", r"\1", text).replace("*", "")


def count(text):
    return len(re.findall(r"\S*\w\S*", text))


def faults_of(numbered):
    """Yields the number of a line and its fault, for each fault of a text."""
    for first, text, is_cell in parts(outside_code(numbered)):
        if is_cell:
            longest = max(count(plain(it)) for it in text.split("<br>"))
            if longest > MOST_IN_CELL:
                yield first, f"a table cell of {longest} words"
        text, at = plain(re.sub(r"[.:]?<br>", ". ", text)), 0
        for end in [*(it.span() for it in END.finditer(text)), (len(text), len(text))]:
            sentence = text[at : end[0]]
            if count(sentence) > MOST_IN_SENTENCE:
                yield first + text.count("\n", 0, at), f"{count(sentence)} words: {' '.join(sentence.split())[:60]}"
            at = end[1]
        for word in IS_BANNED.finditer(text.replace("\n", " ")):
            say = [*BANNED.values()][word.lastindex - 1]
            yield first + text.count("\n", 0, word.start()), f"'{word[0]}': say {say}"


def of_document(text):
    text = text.partition("\n## Example")[0] + "\n"
    numbered = [*enumerate(text.splitlines(), 1)]
    for number, line in outside_code(numbered):
        if len(line) > MOST_COLUMNS and not line.lstrip().startswith("|"):
            yield number, f"{len(line)} columns"
    yield from faults_of(numbered)


def comments_of(file, text):
    """Yields each comment of a source, as lines with their numbers, without marks. One beside code stands alone."""
    comment = COMMENT_OF_ANTT if file.endswith(".antt") else LITERAL
    code = comment.sub(lambda it: it[0] if it[0][0] in "\"'" else spaces(it), text).splitlines()
    held, last = [], None
    for number, (line, rest) in enumerate(zip(text.splitlines(), code), 1):
        start = len(rest.rstrip()) if len(rest.rstrip()) < len(line.rstrip()) else None
        kind = start is not None and re.match(r"\s*(///|//!|//|--|)", line[start:])[1]
        if held and (start is None or start or kind != last):
            yield held
            held = []
        if start is not None:
            held.append((number, MARK.match(line[start:])[1]))
            last = kind if not start else None
    yield from [held] if held else []


def of_source(file, text):
    lines = text.splitlines()
    for comment in comments_of(file, text):
        for number, _ in comment:
            if len(lines[number - 1]) > MOST_COLUMNS:
                yield number, f"{len(lines[number - 1])} columns"
        yield from faults_of(comment)
    for item in all_items(items_in(file, text)) if file.endswith((".rt", ".rs")) else ():
        above = text[item.beginning(text, ("///", "#")) : item.start]
        word = re.search(r"///\s*(\S*)", above) if item.kind == "fn" and "#[test]" not in above else None
        if word and (not re.fullmatch(r"[A-Z][a-z-]*s[,.:;]?", word[1]) or word[1] in NO_VERBS):
            yield text.count("\n", 0, item.start) + 1, f"`{item.name}`: '{word[1]}' is no verb in the third person"


def faults_in(file, text):
    found = of_document(text) if file.endswith(".md") else of_source(file, text)
    return [f"{file}:{number}: {fault}" for number, fault in sorted(set(found))]


def documents():
    """Returns the documents that are written by hand."""
    readmes = (f"{it}/README.md" for it in ("examples/mpi", "rust", "rust/pool", "rust/src/source"))
    patterns = "*.md", "docs/*.md", *readmes, PAGES
    found = [place(it) for pattern in patterns for it in sorted(glob.glob(path(pattern)))]
    return [it for it in found if it not in GENERATED]


def sources():
    folders = [f"crates/{crate}/{part}" for crate in crate_names() for part in ("src", "specs", "proofs")]
    found = [place(it) for folder in [*folders, "include", "rust/src"] for it in
             files_below(folder, ".rt", ".antt", ".h", ".rs")]
    return [it for it in found if not it.startswith(ERASED)]


def words_of(text):
    text = text.partition("\n## Example")[0]
    return sum(count(plain(part)) for _, part, _ in parts(outside_code(enumerate(text.splitlines(), 1))))


def counted():
    """Returns the number of words of each document."""
    found = {}
    for file in documents():
        name = PAGES if file.endswith("/CALLING.md") else file
        found[name] = found.get(name, 0) + words_of(read(file))
    return found


def show(found):
    for name, words in found.items():
        print(f"{name:26}{words:>7}" + (f" of {LIMITS[name]}" if name in LIMITS else ""))
    print(f"{'all':26}{sum(found.values()):>7}")


def long_pages(found):
    """Yields each page with a limit that is not there, or has more words than its limit."""
    for name, most in LIMITS.items():
        words = found.get(name, 0)
        if words > most or not words:
            yield f"{name} has {words} words, and {most} are allowed" if words else f"there is no {name}"


# Known bad texts: the name of a file, its text, and the words of each fault.
LONG = "word " * 13
SAMPLES = (
    ("a.md", f"# {LONG}\n{LONG}`a b`\n{LONG}end.\n\n{LONG}\n- {LONG}end. [b\nc](d) {LONG}\n", ["a.md:2: 28 words"]),
    ("a.md", f"Good. It is\ntold `who told`.\n```\ntold\n```\n| {LONG * 5} | {LONG} |\n", [
        "a.md:2: 'told': say", "a.md:6: 65 words", "a.md:6: a table cell of 65 words"]),
    ("a.md", f"{'x' * 101}\n\n| {'x' * 101} |\n\n## Example\nso many\n", ["a.md:1: 101 columns"]),
    ("a.rt", '/// A map.\n#[inline]\nfn f() {}\n\n/// Gives.\nfn g() {}\n// but\n// for "who"\nfn h() { "told" }\n', [
        "a.rt:3: `f`: 'A' is no verb", "a.rt:7: 'but for': say", "a.rt:8: 'who': say"]),
    ("a.rs", "/// Its map.\nfn f() {}\n/// All.\n#[test]\nfn g() {}\n", ["a.rs:2: `f`: 'Its' is no verb"]),
    ("a.antt", f"-- {LONG}\n-- {LONG}\n\na : ℕ -- {'x' * 93}\n", ["a.antt:1: 26 words", "a.antt:4: 102 columns"]),
    ("a.h", f"/* {LONG}\n * {LONG}\n *\n * {LONG} */\nint a; /* so many */\n", ["a.h:1: 26 words", "a.h:5: 'so many'"]),
)
# Numbers of words, of which the first two are bad: a page, its words, and the words of the fault.
LENGTHS = (
    ("README.md", 1201, ["README.md has 1201 words, and 1200 are allowed"]),
    ("docs/INSTALL.md", 0, ["there is no docs/INSTALL.md"]),
    ("docs/INSTALL.md", 230, []),
    ("docs/STATUS.md", 10**6, []),
)


def main(words):
    files = [place(os.path.realpath(it)) for it in words] or [*documents(), *sources()]
    faults = [fault for file in files for fault in faults_in(file, read(file))]
    faults += blind("prose", ((faults_in(file, text), wanted) for file, text, wanted in SAMPLES))
    faults += blind("prose", (([*long_pages({**LIMITS, name: most})], wanted) for name, most, wanted in LENGTHS))
    if not words:
        found = counted()
        show(found)
        faults += long_pages(found)
    status = print_faults(faults)
    print(f"prose: {len(faults)} faults in {len(files)} files")
    return status
