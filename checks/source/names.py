"""Finds what documents name that is not there: a word in backticks that is nowhere in this repository, a path, and
a relative link whose file or heading does not exist. It also compares numbers that documents give with what is counted.

A word counts as there where a source, a script, a header or an example has it, or the name of a file. Of a page on
calling the part above its example is read. CHANGELOG.md may name what an older version had, but no broken link.
`checks/run names FILE..` reads these documents alone.
"""
import glob
import os
import re

from checks.lib.repository import ROOT, path, place, read
from checks.lib.rows import blind, print_faults
from checks.source.prose import GENERATED, documents, outside_code

# Mutants, and what a document says of their number.
COUNTS = (
    (("mutants", "*", "*.edit"), "docs/STATUS.md", r"`mutants/` has ([\d,]+),"),
    (("mutants", "*", "*.edit"), "docs/STATUS.md", r"- `edits`, [^.]*the ([\d,]+) mutants"),
    (("rust", "pool", "mutants", "*.edit"), "docs/STATUS.md", r"pool has ([\d,]+) mutants"),
)
# Tables of which a document says how many entries they have: the page, its sentence, the first line of the table, and a
# pattern of an entry in the lines up to the next empty one.
TABLES = (
    ("docs/GUIDE.md", r"`cubejobs` has (\w+) commands", "| Command | It |", r"^\| \["),
    ("docs/ARCHITECTURE.md", r"changes its shape (\w+) times", "| Shape | Made by", r"\b\d+\. "),
)
NUMBERS = "zero one two three four five six seven eight nine ten eleven twelve".split()
# Words of the toolchain, of the system and of other libraries that nothing here uses, and parts of other languages.
EXCUSED = {
    "rt": "tidy untested holes RT_JOBS", "Linux": "perf ulimit O_NONBLOCK madvise nice pthread_cleanup_push",
    "MPI": "MPI_Exscan",
}
# Folders whose files are made or are no text, and those whose files only give their names: a mutant is wrong code.
NO_FOLDERS, ONLY_NAMES = (".git", "out", "target", "release", "__pycache__"), ("mutants", "pictures")
# A word, and no part of one whose rest a star or two dots stand for.
WORD = re.compile(r"(?<![*\w])(?<!\.\.)[^\W\d]\w\w+(?![*\w])")
CODE = re.compile(r"(`+)(.+?)\1", re.S)
LINK = re.compile(r"""\]\(([^()\s]*)\)|\b(?:src|srcset|href)="([^"]*)\"""")
HEADING = re.compile(r"^#+ (.*)$", re.M)
FENCED = re.compile(r"^```.*?^```$", re.M | re.S)
# A word of a path that is to be filled in, as NAME in mutants/CRATE/NAME.edit; and a path of the system.
TO_FILL, OF_SYSTEM = re.compile(r"\b[A-Z]+\b(?!\.md)|\.\.$"), re.compile(r"(?<!\S)/\S+")


def words_of_tree():
    """Returns all words of the files that are no documents, and of the names of all files."""
    found = {word for words in EXCUSED.values() for word in words.split()}
    for at, folders, files in os.walk(ROOT):
        folders[:] = [it for it in folders if it not in NO_FOLDERS]
        found.update(WORD.findall(" ".join(files)), WORD.findall(place(at)))
        for file in files if place(at).split(os.sep)[0] not in ONLY_NAMES else ():
            if not file.endswith((".md", ".a", ".svg", ".lock")):
                with open(os.path.join(at, file), encoding="utf-8", errors="ignore") as text:
                    found.update(WORD.findall(text.read()))
    return found


def missing_names(text, known):
    """Yields the number of a line of a document, and a word or path in backticks that is not there."""
    text = "\n".join(line for _, line in outside_code(enumerate(text.partition("\n## Example")[0].splitlines())))
    tops = re.compile(r"(?:" + "|".join(map(re.escape, os.listdir(ROOT))) + r")/[^\s,;:()#]+")
    for code in CODE.finditer(text):
        number = text.count("\n", 0, code.start()) + 1
        paths = tops.findall(code[2]) if re.match(tops, code[2].removeprefix("./")) else []
        yield from ((number, it) for it in paths if not glob.glob(path(TO_FILL.sub("*", it))))
        words = WORD.findall((tops if paths else OF_SYSTEM).sub("", code[2]))
        yield from ((number, word) for word in words if word not in known)


def anchors(text):
    """Returns what a link may name of a page: its headings, in small letters and with hyphens."""
    headings = HEADING.findall(FENCED.sub("", text))
    return {re.sub(r"[^\w\- ]", "", heading.lower()).replace(" ", "-") for heading in headings}


def broken_links(page, text):
    """Yields what a relative link of a page leads to, where that is not there."""
    for link in ("".join(it) for it in LINK.findall(CODE.sub("", FENCED.sub("", text)))):
        if re.match(r"[a-z]+:", link):
            continue
        file, _, anchor = link.partition("#")
        file = os.path.normpath(os.path.join(os.path.dirname(page), file)) if file else page
        known = os.path.exists(path(file))
        if not known or anchor and file.endswith(".md") and anchor not in anchors(read(file) if file != page else text):
            yield f"{page}: the link {link} leads to no {'heading' if known else 'file'}"


def faults_in(page, text, known):
    """Yields what is wrong with a page. What leads docs/THEOREM.md leads on from there, and is read there."""
    if page not in (*GENERATED, "CHANGELOG.md"):
        found = sorted(set(missing_names(text, known)))
        yield from (f"{page}:{number}: `{word}` is nowhere in the tree" for number, word in found)
    if not page.startswith("docs/theorem/"):
        yield from broken_links(page, text)


# Known bad pages: the text of README.md, and the words of each fault. LOST must not stand in this file as one word.
LOST = "no_such" "_name"
SAMPLES = (
    (f"a `take` of\n`{LOST}` and `{LOST}*`\n```\n`{LOST}`\n```\n", [f"README.md:2: `{LOST}`"]),
    (f"`crates/{LOST}/src`, `crates/NAME/src`, `./checks/run {LOST}`, `/{LOST}`\n", [f"crates/{LOST}/src", f"`{LOST}"]),
    ("# A `b`, c\n[a](#a-b-c) [b](#a-c) [c](docs) [d](e.md) `[f](g)` <img src=\"h.svg\">\n[i](http://j)", [
        "the link #a-c leads to no heading", "the link e.md leads to no file", "the link h.svg leads to no file"]),
)


def faults_of_counts():
    """Yields each number of mutants in a document that is not that of the files, and each wrong number of entries."""
    for folder, file, said in COUNTS:
        count = f"{len(glob.glob(path(*folder))):,}"
        found = re.search(said, read(file))
        if not found or found[1] != count:
            yield f"{file}: there are {count} mutants, and it says {found[1] if found else 'nothing'}"
    for file, said, head, entry in TABLES:
        text = read(file)
        table = text.partition(head)[2].partition("\n\n")[0]
        count = len(re.findall(entry, table, re.M))
        found = re.search(said, text)
        if not found or found[1] not in (str(count), (NUMBERS + [""] * count)[count]):
            told = found[1] if found else "nothing"
            yield f"{file}: the table under '{head}' has {count} entries, and it says {told}"


def main(words):
    pages = [place(os.path.realpath(it)) for it in words] or [*documents(), *GENERATED]
    known = words_of_tree()
    faults = [fault for page in pages if os.path.exists(path(page)) for fault in faults_in(page, read(page), known)]
    faults += [] if words else faults_of_counts()
    faults += blind("names", (([*faults_in("README.md", text, known)], wanted) for text, wanted in SAMPLES))
    return print_faults(faults)
