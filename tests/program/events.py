"""Rows of `--events`: the file of a run's events, beside an output that stays the same, and against events that are out
of order, name another block or another job, or hold a processor twice."""
import collections
import os
import tempfile

from checks.lib.repository import read_bytes
from checks.lib.rows import Row, must, must_answer
from tests.program.named_files import HELD, REPORTED, must_leave, put_in, words_of
from tests.program.texts import ANSWERS, BAD, GOOD, JOBS, REPLIES, REPLY

# The events of a job of one number on a machine of one processor.
EVENTS = f"{ANSWERS}\ntake,l0s0,0,0,given\nfree,l0s0,0,0,freed\n"
# The events of no job.
NO_EVENTS = f"{ANSWERS}\n"
TWO = f"{JOBS}\n0,scan,add,0,7\n0,allreduce,add,0,9\n", f"{REPLIES}\n0,0,scan,0,7,0,0\n0,1,allreduce,0,9,0,0\n"
TWO_EVENTS = f"{EVENTS}take,l0s1,0,0,given\nfree,l0s1,0,0,freed\n"
# The words, the input, the text of standard output, and the files that are new or changed.
WRITTEN = {
    "a run": ("run --dim 0 --events new.csv", GOOD, REPLY, {"new.csv": EVENTS}),
    "a quiet run": ("run --dim 0 -q --events=new.csv", GOOD, REPLY, {"new.csv": EVENTS}),
    "two jobs of a lane": ("run --dim 0 --events new.csv", *TWO, {"new.csv": TWO_EVENTS}),
    "no jobs": ("run --dim 3 --events new.csv", f"{JOBS}\n", f"{REPLIES}\n", {"new.csv": NO_EVENTS}),
    "the last lane": ("run --dim 0 --events new.csv", GOOD.replace("\n0", "\n15"), REPLY.replace("\n0", "\n15"),
        {"new.csv": EVENTS.replace("l0", "l15")}),
    "a report": ("report --dim 0 jobs.csv --events new.csv", "", REPORTED, {"new.csv": EVENTS}),
    "events and an output": (
        "run --dim 0 --events new.csv --output old.csv", GOOD, "", {"new.csv": EVENTS, "old.csv": REPLY}),
    "an output that is a dash": ("run --dim 0 --events new.csv --output -", GOOD, REPLY, {"new.csv": EVENTS}),
    "events over a file": ("run --dim 0 --events old.csv", GOOD, REPLY, {"old.csv": EVENTS}),
    "events over the file of a link": ("run --dim 0 --events link.csv", GOOD, REPLY, {"old.csv": EVENTS}),
    "events over the input": ("run --dim 0 jobs.csv --events jobs.csv", "", REPLY, {"jobs.csv": EVENTS}),
    "events in a folder": ("run --dim 0 --events folder/new.csv", GOOD, REPLY, {"folder/new.csv": EVENTS}),
}
# Words and standard input, and the line of standard error: nothing is written and no file changes.
FAILED = {
    "a refused input": ("bad.csv --events new.csv", GOOD, "record 1: Word"),
    "a refused input, events over a file": ("bad.csv --events old.csv", GOOD, "record 1: Word"),
    "a refused input, events and an output": ("bad.csv --events new.csv --output old.csv", GOOD, "record 1: Word"),
    "a missing input": ("none.csv --events old.csv", GOOD, "input: Missing: none.csv"),
    "events in a missing folder": ("--events none/new.csv", BAD, "events: Missing: none/new.csv"),
    "events that are a folder": ("--events folder", BAD, "events: Folder: folder"),
    "events with no name": (["--events", ""], BAD, "events: Missing: "),
    "events that are a device": ("--events /dev/null", BAD, "events: Special: /dev/null"),
    "events that are a pipe": ("--events pipe", BAD, "events: Special: pipe"),
    "events that are a link to itself": ("--events loop.csv", BAD, "events: Other: loop.csv"),
    "an output in a missing folder": ("--events new.csv --output none/a.csv", BAD, "output: Missing: none/a.csv"),
    "a report in a missing folder": ("report --dim 0 --events none/new.csv", BAD, "events: Missing: none/new.csv"),
}
NO_OWN_FILE = "the file of '--events' must be neither the file of '--output' nor '-'"
# Command lines whose events have no file of their own.
NOT_OWN = {
    "one file as both": "run --dim 3 --output old.csv --events old.csv",
    "one new file as both": "report --dim 3 --events new.csv --output new.csv",
    "events that are a dash": "run --dim 3 --events -",
    "events that are a dash, and an output": "run --dim 3 --output new.csv --events -",
}
# Many jobs of mixed sizes and lanes, on a machine of which each takes a part.
MANY, DIM, LANES = 20_000, 6, 5


def with_files(program, words, given, status, out, err, changed):
    with tempfile.TemporaryDirectory() as folder:
        put_in(folder, HELD)
        os.symlink("old.csv", os.path.join(folder, "link.csv"))
        os.symlink("loop.csv", os.path.join(folder, "loop.csv"))
        os.mkfifo(os.path.join(folder, "pipe"))
        must_answer([program, *words], given, status, out, err, cwd=folder)
        must_leave(folder, {**HELD, **changed})


def not_own(program, words):
    with tempfile.TemporaryDirectory() as folder:
        put_in(folder, HELD)
        usage = "Usage: cubejobs <COMMAND>\n\nFor more information, try '--help'.\n"
        must_answer([program, *words.split()], GOOD, 2, "", f"error: {NO_OWN_FILE}\n\n{usage}", cwd=folder)
        must_leave(folder, HELD)


def sizes(count):
    """Yields the number of items of each job."""
    return [1 + at * 7919 % 2 ** (1 + at % DIM) for at in range(count)]


def must_be_in_order(rows, dims):
    """Sees that each job takes one block of its dimension and frees it later, and that no processor is held twice."""
    holder, blocks, freed = {}, {}, collections.Counter()
    for at, row in enumerate(rows):
        command, name, dim, base, outcome = row.split(",")
        block = range(int(base), int(base) + 2 ** int(dim))
        must(dims.get(name) == int(dim), f"event {at}: {name} has dimension {dims.get(name)}, not {dim}")
        must(int(base) % len(block) == 0 and block.stop <= 2**DIM, f"event {at}: {row} is no block")
        if command == "take":
            must(outcome == "given" and name not in blocks, f"event {at}: {row}")
            held = [processor for processor in block if processor in holder]
            must(not held, f"event {at}: {name} takes {held[:1]}, which {holder.get((held or [None])[0])} holds")
            blocks[name] = block
            holder.update(dict.fromkeys(block, name))
        else:
            must((command, outcome) == ("free", "freed") and blocks.get(name) == block, f"event {at}: {row}")
            freed[name] += 1
            for processor in block:
                must(holder.pop(processor, None) == name, f"event {at}: {name} does not hold {processor}")
    must(not holder and freed == collections.Counter([*dims]), f"{len(freed)} of {len(dims)} jobs are freed")


def many_jobs(program, words):
    """Runs many jobs on several dispatchers: their events are in an order of time."""
    jobs, dims, next_seq = [JOBS], {}, collections.Counter()
    for at, items in enumerate(sizes(MANY)):
        lane = at % LANES
        dims[f"l{lane}s{next_seq[lane]}"] = (items - 1).bit_length()
        next_seq[lane] += 1
        jobs.append(f"{lane},scan,add,0,{' '.join(['1'] * items)}")
    given = "\n".join(jobs) + "\n"
    with tempfile.TemporaryDirectory() as folder:
        put_in(folder, {"jobs.csv": given})
        command = [program, *words.split(), "jobs.csv"]
        plain = os.path.join(folder, "plain.csv")
        must_answer([*command, "--output", plain], "", 0, "", "", cwd=folder)
        replies = read_bytes(plain).decode()
        must_answer([*command, "--events", "events.csv"], "", 0, replies, "", cwd=folder)
        header, *rows = read_bytes(os.path.join(folder, "events.csv")).decode().splitlines()
        must(header == ANSWERS and len(rows) == 2 * MANY, f"{len(rows)} events under {header}")
        must_be_in_order(rows, dims)


def rows(program):
    for name, (words, given, out, changed) in WRITTEN.items():
        yield Row(f"events: {name}", with_files, (program, words_of(words), given, 0, out, "", changed))
    for name, (words, given, fault) in FAILED.items():
        status, how = (1, "refused") if fault.startswith("record") else (3, "failed")
        yield Row(f"events: {name}", with_files, (program, words_of(words), given, status, "", f"{how}: {fault}\n", {}))
    for name, words in NOT_OWN.items():
        yield Row(f"events: {name}", not_own, (program, words))
    for words in (f"run --dim {DIM} --dispatchers 4", f"run --dim {DIM} --dispatchers 16 --capacity 1"):
        yield Row(f"events: many jobs, {words}", many_jobs, (program, words))
