"""Fails where a CALLING.md does not quote, line for line, its callers.

A page is written by hand, and has `## Example` with the callers of QUOTES, each below the name of its file. This check
also fails where a file that is named does not exist, and where a crate of QUOTES has no page or another one has one.

`checks/run callers --write` writes the quotes.
"""
import os
import re
import textwrap

from checks.lib.rattle_source import all_items, items_in
from checks.lib.repository import crate_names, path, read, write
from checks.lib.rows import Wrong, blind, must, print_faults

# Which callers and proofs the CALLING.md of a crate quotes, in their order: a file, or after a # the item of it whose
# head begins with these words.
QUOTES = {
    "alloc_bits": ("uses/src/two_regions.rt",),
    "bitmap_tree": ("tests_bitmap/src/tests/crowd.rt#fn work",),
    "cli_commands": ("jobs_cli/src/main.rt#fn main",),
    "collectives": ("uses/src/extent.rt",),
    "cube_tree": ("uses/src/subcubes.rt", "uses/proofs/subcubes/hold_two/Answers.antt", "uses/src/room.rt"),
    "cubejobs_fit": ("../examples/fit.c",),
    "cubejobs_lanes": ("../examples/lanes.c",),
    "cubejobs_regions": ("../examples/regions.c",),
    "cubejobs_plan": ("../examples/plan.c",),
    "cubejobs_sched": ("../examples/sched.c",),
    "cubejobs_rounds": ("../examples/rounds.c",),
    "dispatcher": ("uses/src/counting.rt",),
    "fit_tree": ("tests_bitmap/src/backfill.rt",),
    "jobs_csv": ("uses/src/count.rt",),
    "lanes": ("tests_lanes/src/tests/script.rt#fn three_lanes_and_what_is_left",),
    "sched_core": ("cubejobs_plan/src/starting.rt#pub(crate) fn next",),
    "sched_threads": ("cubejobs_sched/src/jobs.rt#pub(crate) fn submit",),
}
OPENING = re.compile(r"\A(//.*\n)+\n?")
BLOCK = re.compile(r"((?<=```rust\n)|(?<=```antt\n)|(?<=```c\n)).*?(?=```\n)", re.DOTALL)
NAMED = re.compile(r"`((?:crates|examples)/[^`\s]+)`")
EXAMPLE = "\n## Example\n"


def item(file, head):
    """Returns the item whose head begins so, with the comments above it, from its own margin on."""
    text = read("crates", file)
    found = []
    for it in all_items(items_in(file, text)):
        line = text[text.rfind("\n", 0, it.start) + 1 :].lstrip(" ")
        if it.end and line.startswith(head) and (head.endswith("<") or not re.match(r"\w", line[len(head) :])):
            found.append(it)
    must(len(found) == 1, f"{len(found)} items of {file} begin with {head!r}")
    return textwrap.dedent(text[found[0].beginning(text, ("//", "#")) : found[0].end] + "\n")


def caller(name):
    file, _, head = name.partition("#")
    return item(file, head) if head else OPENING.sub("", read("crates", file))


def page_of(crate):
    return f"crates/{crate}/CALLING.md"


def wrong_pages():
    for crate in sorted({*QUOTES} ^ {it for it in crate_names() if os.path.exists(path(page_of(it)))}):
        yield f"{page_of(crate)} is not there" if crate in QUOTES else f"callers: QUOTES has no entry {crate}"


def misnamed(where, names, text):
    for file in NAMED.findall(text):
        if not os.path.exists(path(file)):
            yield f"{where} names {file}, which does not exist"
    for name, block in zip(names, BLOCK.finditer(text)):
        file = os.path.normpath(os.path.join("crates", name.partition("#")[0]))
        if "/proofs/" not in file and file not in NAMED.findall(text[: block.start()]):
            yield f"{where} quotes {file} and does not name it above"


def page_faults(crate, names, text):
    """Returns the text of a crate's page as it must be, and what only a writer can put right."""
    where = page_of(crate)
    by_hand, heading, example = text.partition(EXAMPLE)
    if not heading:
        return text, [f"{where} has no '## Example'"]
    faults = [*misnamed(where, names, example)]
    if len(BLOCK.findall(example)) != len(names):
        faults.append(f"{where} has {len(BLOCK.findall(example))} quotes and not {len(names)}")
    callers = iter(names)
    try:
        example = BLOCK.sub(lambda _: caller(next(callers)), example, count=len(names))
    except Wrong as wrong:
        faults.append(f"{where}: {wrong}")
    return by_hand + heading + example, faults


# Pages of `dispatcher`, and the words of each fault.
SAMPLES = (
    ("# A\n", ["no '## Example'"]),
    (f"# A\n{EXAMPLE}\n`crates/no`\n\n", ["crates/no, which does not exist", "has 0 quotes and not 1"]),
    (f"# A\n{EXAMPLE}\n```rust\n```\n", ["quotes crates/uses/src/counting.rt and does not name it above"]),
)


def known_bad():
    yield from ((page_faults("dispatcher", QUOTES["dispatcher"], text)[1], wanted) for text, wanted in SAMPLES)


def main(words):
    faults = [*wrong_pages(), *blind("callers", known_bad())]
    for crate in (it for it in QUOTES if os.path.exists(path(page_of(it)))):
        text = read(page_of(crate))
        fresh, found = page_faults(crate, QUOTES[crate], text)
        faults += found
        if words == ["--write"] and not found and fresh != text:
            write(page_of(crate), fresh)
        elif fresh != text:
            faults.append(f"{page_of(crate)} is stale: checks/run callers --write renews it")
    return print_faults(faults)
