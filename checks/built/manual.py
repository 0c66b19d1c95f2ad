"""Compares the manual pages of the libraries, docs/cubejobs_*.3, with the headers of which they are made.

`checks/run manual` fails where a page is another one, or where `man` has a warning. `--write` writes the pages.
"""
import os
import re
import shutil
import textwrap

from checks.lib.repository import path, read, version_of_sources, write
from checks.lib.rows import answer, must, print_faults

# Each library: its header, and the other headers that belong to its page.
LIBRARIES = {
    "cubejobs_fit": ("cubejobs_fit.h", "exact first fit of aligned blocks"),
    "cubejobs_plan": ("cubejobs_plan.h", "which waiting job starts next, and in which block"),
    "cubejobs_sched": ("cubejobs_sched.h", "scheduler of jobs for threads"),
    "cubejobs_regions": ("cubejobs_regions.h", "lock-free allocator of aligned blocks"),
    "cubejobs_lanes": ("cubejobs_lanes.h", "bounded queues of jobs, without locks"),
    "cubejobs_rounds": ("cubejobs_rounds.h", "the messages of collectives"),
    "cubejobs_wait": ("cubejobs_wait.h", "threads that sleep until there is a block, a job, or room for a job"),
}
COMMENT = re.compile(r"/\*(.*?)\*/", re.S)
# A comment, and after it the declarations up to the next blank line.
ENTRY = re.compile(r"^/\*(?P<says>(?:(?!\*/).)*)\*/\n(?:#\w[^\n]*\n)*(?P<code>(?:(?!/\*|#)[^\n]+\n)+)", re.S | re.M)
# What the headers keep for themselves: the calls that sanitizers see, and the parts of inline calls.
INNER = re.compile(r"_(?:seen|acquired|node|unpark_all|head_of|rooms_of|count_of|place|set|no_memory)$")
# Headers of which a page shows what programs call alone: the functions whose comments list codes, and these.
WITHOUT_CODES = {"cubejobs_sched": ["cubejobs_sched_now"]}
FUNCTION = re.compile(r"^(?!typedef|\s)[\w *]*?\b(cubejobs_\w+)\((?:[^;{]*)\)(?=;| \{)", re.M | re.S)


def plain(comment):
    """Returns the text of a comment in C, without the stars at its lines."""
    lines = [re.sub(r"^ \* ?", "", line) for line in comment.strip().split("\n")]
    return "\n".join(line.rstrip() for line in lines)


def escaped(text):
    shown = text.replace("\\", "\\e").replace("-", "\\-").replace("'", "\\(aq")
    return "\n".join(f"\\&{line}" if line[:1] in (".", "'") else line for line in shown.split("\n"))


def verbatim(text):
    return f".nf\n{escaped(text)}\n.fi"


def paragraphs(text):
    """Returns prose as roff. A list keeps its lines."""
    parts = []
    for part in re.split(r"\n\s*\n", text.strip("\n")):
        is_list = re.search(r"^\s+(?:-|\d+\.|\|) ", part, re.M)
        parts.append(f".PP\n{verbatim(part) if is_list else escaped(re.sub(chr(10) + ' *', chr(10), part.strip()))}")
    return "\n".join(parts)


def wrapped(code):
    """Returns a prototype in lines that fit a terminal."""
    kept = re.sub(r"(struct|const|u?int\d+_t|size_t) ", r"\1~", " ".join(code.split()))
    return textwrap.fill(kept, 72, subsequent_indent="    ", break_on_hyphens=False).replace("~", " ")


def declarations(text):
    """Yields each declaration of a function with its comment: the prototype without a body."""
    for found in ENTRY.finditer(text):
        names = [it for it in FUNCTION.finditer(found["code"])]
        if names:
            shown = [re.sub(r"^static |\b(?:[A-Z_]*INLINE|inline)\b ?|__attribute__\(\(\w+\)\) ?", "", it[0]) + ";"
                     for it in names]
            yield [it[1] for it in names], list(map(wrapped, shown)), plain(found["says"])


def is_shown(library, names, says):
    return library not in WITHOUT_CODES or "Codes:" in says or names == WITHOUT_CODES[library]


def page(library):
    header, about = LIBRARIES[library]
    text = read("include", header)
    top = plain(COMMENT.search(text)[1])
    found = [it for it in declarations(text) if is_shown(library, it[0], it[2])]
    must(len(found) > 2, f"{header} has {len(found)} declarations")
    links = "" if library == "cubejobs_wait" else f"\n.PP\nLink with \\fI\\-l{escaped(library)}\\fR."
    functions = "\n".join(f".SS {escaped(', '.join(names))}\n{verbatim(chr(10).join(code))}\n{paragraphs(says)}"
                          for names, code, says in found)
    others = ", ".join(f".BR {it} (3)" for it in LIBRARIES if it != library).replace(", .BR", " ,\n.BR")
    return "\n".join([
        f'.TH {library.upper()} 3 "" "cubejobs {version_of_sources()}"',
        f".\\\" Made of include/{header} by checks/run manual.",
        ".nh",
        f".SH NAME\n{library} \\- {escaped(about)}",
        f".SH SYNOPSIS\n.nf\n#include <{header}>\n.fi{links}",
        f".SH DESCRIPTION\n{paragraphs(top)}",
        f".SH FUNCTIONS\n{functions}",
        f".SH SEE ALSO\n.BR cubejobs (1) ,\n{others}",
    ]) + "\n"


def left_out(library):
    """Returns the functions of a header that its page does not show, and should."""
    text = read("include", LIBRARIES[library][0])
    names = {it[1] for it in FUNCTION.finditer(COMMENT.sub("", text)) if not INNER.search(it[1])}
    if library in WITHOUT_CODES:
        shown = [names[0] for names, _, says in declarations(text) if "Codes:" in says]
        names = {*WITHOUT_CODES[library], *shown,
                 *(["a function with codes"] if len(shown) != text.count("Codes:") else [])}
    return sorted(it for it in names if f" {it}(" not in page(library).replace("*", " ").replace("\n    ", " "))


def faults():
    for library in LIBRARIES:
        yield from (f"docs/{library}.3 does not show {it}" for it in left_out(library))
        name = f"docs/{library}.3"
        if not os.path.exists(path(name)) or read(name) != page(library):
            yield f"{name} is not what the header makes: checks/run manual --write"
        elif shutil.which("man"):
            status, out, said = answer(["man", "--warnings", "-E", "UTF-8", "-l", path(name)], "", text=True)
            if status or said or "FUNCTIONS" not in out:
                yield f"man says of {name}: {said[:300]}"


def main(words):
    if words == ["--write"]:
        for library in LIBRARIES:
            write(f"docs/{library}.3", page(library))
        return 0
    return print_faults(faults())
