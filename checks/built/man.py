"""Compares docs/cubejobs.1, the manual page, with the help of the built program, of which it is made.

`checks/run man PROGRAM` fails where the page is another one, where it leaves out a line of help, and where a line of
help is longer than 80 columns. `checks/run man --write PROGRAM` writes the page.
"""
import re
from typing import Dict, List, NamedTuple, Tuple

from checks.lib.helps import helps
from checks.lib.repository import read, write
from checks.lib.rows import output, print_faults
from checks.lib.toolchain import program

PAGE, MOST_COLUMNS = "docs/cubejobs.1", 80
# A head of a help, on a line of its own, with its lines.
HEAD = re.compile(r"^([A-Z][A-Za-z ]*)(?:, as in `.*`)?:\n(?= )", re.M)
EXAMPLE = re.compile(r"^Example: (.*)$", re.M)
# The heads of the page that gather parts of the helps, each with the heads of these parts.
GATHERED = (
    ("OPTIONS", ("Commands", "Arguments", "Options")),
    ("EXIT STATUS", ("Exit status",)),
    ("FILES", ("Files", "Events")),
    ("DIAGNOSTICS", ("Faults of the input", "Other faults", "Faults of a file")),
    ("NOTES", ("Records", "Memory", "")),
)
SEE_ALSO = ("cubejobs_fit(3), cubejobs_lanes(3), cubejobs_plan(3), cubejobs_regions(3), cubejobs_rounds(3), "
            "cubejobs_sched(3), cubejobs_wait(3), mlr(1), sqlite3(1)")


class Help(NamedTuple):
    """The help of a command: what it does, its usage, its parts by their heads, and its examples."""

    about: str
    usage: str
    parts: List[Tuple[str, str]]
    examples: List[str]


def parsed(text):
    """Takes a help apart. A part without a head follows one that has a head."""
    examples = EXAMPLE.findall(text)
    about, _, rest = EXAMPLE.sub("", text).partition("Usage: ")
    line, _, rest = rest.partition("\n")
    parts = []
    while rest.strip("\n"):
        head = HEAD.match(rest := rest.lstrip("\n"))
        body = rest[head.end():] if head else rest
        # Text ends before the next head. What stands under a head ends where a line is not indented.
        end = re.search(r"^(?=\S)", body, re.M) if head else HEAD.search(body)
        stop = end.start() if end else len(body)
        parts.append((rest[:head.end()].strip("\n")[:-1] if head else "", body[:stop].strip("\n")))
        rest = body[stop:]
    return Help(about.strip("\n"), line, parts, examples)


def verbatim(text):
    """Returns lines that `man` shows as they are: nothing in them is taken for roff's own."""
    lines = (line.rstrip().replace("\\", "\\e").replace("-", "\\-") for line in text.strip("\n").split("\n"))
    shown = (f"\\&{line}" if line[:1] in (".", "'") else line for line in lines)
    return "\n".join([".nf", *shown, ".fi"])


def title(name, commands):
    return f'.SS "{", ".join(f"{name} {command}".strip() for command in commands)}"'


def gathered(name, shown, heads):
    """Returns the parts of all helps under these heads. A part that several commands have is shown once."""
    owners: Dict[Tuple[str, str], List[str]] = {}
    for command, it in shown.items():
        for head, body in it.parts:
            if head.partition(",")[0] in heads:
                owners.setdefault((head, body), []).append(command)
    lines, last = [], None
    for (head, body), commands in owners.items():
        if commands != last:
            lines.append(title(name, commands))
        elif lines:
            lines.append(".PP")
        lines.append(verbatim(f"{head}:\n{body}" if head else body))
        last = commands
    return "\n".join(lines)


def page(built):
    name, version = output([built, "--version"]).split()
    shown = {command: parsed(text) for command, text in helps(built).items()}
    about = shown[""].about
    synopsis = "\n".join(it.usage for it in shown.values())
    described = [f"{title(name, [command])}\n{verbatim(it.about)}" for command, it in shown.items() if command]
    examples = "\n".join(dict.fromkeys(one for it in shown.values() for one in it.examples))
    parts = [
        f'.TH {name.upper()} 1 "" "{name} {version}"',
        ".\\\" Made of the program's help by checks/run man.",
        f".SH NAME\n{name} \\- {about[0].lower()}{about[1:]}",
        f".SH SYNOPSIS\n{verbatim(synopsis)}",
        "\n".join([".SH DESCRIPTION", *described]),
        *(f'.SH "{head}"\n{gathered(name, shown, heads)}' for head, heads in GATHERED),
        f".SH EXAMPLES\n{verbatim(examples)}",
        f'.SH "SEE ALSO"\n{SEE_ALSO}',
    ]
    return "\n".join(parts) + "\n"


def left_out(built, text):
    """Yields the lines of help that the page does not have."""
    has = set(text.split("\n"))
    for command, it in helps(built).items():
        for line in it.split("\n")[0 if command else 1:]:
            line = re.sub(r"^(Usage|Example): ", "", line)
            if line.strip() and verbatim(line).split("\n")[1] not in has:
                yield f"{PAGE} leaves out a line of `{command or 'help'}`: {line}"


def long_lines(built):
    for command in helps(built):
        for words in ([*command.split(), "--help"], [*command.split(), "-h"]):
            for line in output([built, *words]).split("\n"):
                if len(line) > MOST_COLUMNS:
                    yield f"{' '.join(words)}: {len(line)} columns: {line}"


def main(words):
    built = program(words)
    made = page(built)
    if "--write" in words:
        write(PAGE, made)
    stale = [f"{PAGE} is not made of this program's help; `checks/run man --write PROGRAM` writes it"]
    return print_faults([*long_lines(built), *left_out(built, made), *(stale if read(PAGE) != made else [])])
