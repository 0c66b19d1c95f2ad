"""Rows of files that are named: what is read and written, and that nothing else is there in the end, against an output
that is written in part, or is changed by a command that fails, and against a temporary file that stays."""
import os
import shutil
import tempfile

from checks.lib.repository import read_bytes
from checks.lib.rows import AS_NOBODY, Row, encoded, must, must_answer, put
from tests.program.devices import open_pipe
from tests.program.texts import ANSWERS, BAD, CALLS, COMMANDS, EVENTS, GOOD, REPLY, TOTALS, VALUES

PLACED = f"{COMMANDS}\ntake,a,1\n", f"{ANSWERS}\ntake,a,1,0,given\n"
PLAYED = f"{CALLS}\n0,take,1\n", f"{EVENTS}\n-,end,-,-,0\n"
REPORTED = f"{TOTALS}\nlane,0,1,1,0\ndim,0,1,1,0\nfree,0,1,1,0\ntotal,-,1,1,0\n"
# The files of the folder, in which there are two links and a pipe too.
HELD = {
    "jobs.csv": GOOD, "bad.csv": BAD, "old.csv": "old\n", "place.csv": PLACED[0], "calls.csv": PLAYED[0],
    "folder/in.csv": GOOD,
}
# Words, after `run --dim 3` where they name no command, and the text of standard input; then the file that is new or
# changed, or None where the reply is standard output, and its text.
ANSWERED = {
    "an input": ("jobs.csv", BAD, None),
    "an input before the options": ("run jobs.csv --dim 3", BAD, None),
    "an input after two dashes": ("-- jobs.csv", BAD, None),
    "an input in a folder": ("folder/in.csv", BAD, None),
    "an input that is standard input by its name": ("/dev/stdin", GOOD, None),
    "an input that is a dash": ("-", GOOD, None),
    "an output": ("--output new.csv", GOOD, "new.csv"),
    "an output by its letter, of a quiet run": ("-q -o new.csv", GOOD, "new.csv"),
    "a place with letters": ("place -n 3 -onew.csv place.csv", "", "new.csv", PLACED[1]),
    "an output over a file": ("--output=old.csv", GOOD, "old.csv"),
    "an output in a folder": ("--output=folder/new.csv", GOOD, "folder/new.csv"),
    "an output over the file of a link": ("--output link.csv", GOOD, "old.csv"),
    "an output that is a dash": ("--output -", GOOD, None),
    "an input and an output": ("jobs.csv --output new.csv", BAD, "new.csv"),
    "one file as both": ("jobs.csv --output jobs.csv", BAD, "jobs.csv"),
    "one file as both, by two names": ("jobs.csv --output folder/../jobs.csv", BAD, "jobs.csv"),
    "a long run": ("run --dim 3 --long jobs.csv --output new.csv", "", "new.csv", f"{VALUES}\n0,0,0,7\n"),
    "a report": ("report --dim 0 jobs.csv --output new.csv", "", "new.csv", REPORTED),
    "a place": ("place --dim 3 place.csv --output new.csv", "", "new.csv", PLACED[1]),
    "a replay": ("replay --dim 3 --stations 1 calls.csv --output new.csv", "", "new.csv", PLAYED[1]),
}
# Words and standard input, and the line of standard error: against an output that changes, or that is there, though the
# input is refused or is not there. A fault with a file's name is one that the system has: the status is 3, and else 1.
LONG = "a" * 300
FAILED = {
    "an input by a link": ("link.csv", "", "record 0: Fields"),
    "a refused input and an output": ("bad.csv --output new.csv", GOOD, "record 1: Word"),
    "a refused input and an output over a file": ("bad.csv --output old.csv", GOOD, "record 1: Word"),
    "a refused input of a long run, and an output": ("--long bad.csv --output old.csv", GOOD, "record 1: Word"),
    "one refused file as both": ("bad.csv --output bad.csv", GOOD, "record 1: Word"),
    "a missing input": ("none.csv", GOOD, "input: Missing: none.csv"),
    "a missing input and an output over a file": ("none.csv --output old.csv", GOOD, "input: Missing: none.csv"),
    "an input with no name": ([""], GOOD, "input: Missing: "),
    "an input in a file": ("jobs.csv/in.csv", GOOD, "input: Missing: jobs.csv/in.csv"),
    "an input that is a folder": ("folder", GOOD, "input: Folder: folder"),
    "a place whose input is missing": ("place --dim 3 none.csv", PLACED[0], "input: Missing: none.csv"),
    "a name of 300 bytes": (LONG, GOOD, f"input: Other: {LONG}"),
    "a link to itself": ("loop.csv", GOOD, "input: Other: loop.csv"),
    "an output that is a folder": ("--output folder", GOOD, "output: Folder: folder"),
    "an output in a missing folder": ("--output none/new.csv", GOOD, "output: Missing: none/new.csv"),
    "an output in a file": ("--output jobs.csv/new.csv", GOOD, "output: Missing: jobs.csv/new.csv"),
    "an output that would be a folder": ("--output new/", GOOD, "output: Missing: new/"),
    "an output in a missing folder, of which no more is named": ("--output new/.", GOOD, "output: Missing: new/."),
    "an output in a missing folder that is left again": ("--output new/..", GOOD, "output: Missing: new/.."),
    "an output that is a device": ("--output /dev/null", BAD, "output: Special: /dev/null"),
    "an output that is standard output by its name": ("--output /dev/stdout", BAD, "output: Special: /dev/stdout"),
    "an output with a name of 300 bytes": (f"--output {LONG}", BAD, f"output: Other: {LONG}"),
    "an output whose name has two lines": (["--output", "none/a\nb"], BAD, "output: Missing: none/a\nb"),
    "a refused output and a missing input": ("none.csv --output folder", BAD, "input: Missing: none.csv"),
    "an output with no name": (["--output", ""], GOOD, "output: Missing: "),
    "an output that is a pipe": ("--output pipe", GOOD, "output: Special: pipe"),
    "an output that is a link to itself": ("--output loop.csv", GOOD, "output: Other: loop.csv"),
}
# The same by one who may not read `secret.csv`, nor write `fixed.csv` or into the folder `shut`, which hold old text.
DENIED = {
    "an input that may not be read": ("secret.csv", "input: Denied: secret.csv"),
    "an output that may not be written": ("--output fixed.csv", "output: Denied: fixed.csv"),
    "an output in a folder that may not be written": ("--output shut/new.csv", "output: Denied: shut/new.csv"),
    "an output over a file in a folder that may not be written": (
        "--output shut/old.csv", "output: Denied: shut/old.csv"),
}
MODES = {"secret.csv": 0o200, "fixed.csv": 0o444, "shut": 0o555, "shut/old.csv": 0o666, ".": 0o777}


def words_of(text):
    words = text.split() if isinstance(text, str) else text
    return words if words[0] in ("run", "report", "place", "replay") else ["run", "--dim", "3", *words]


def put_in(folder, texts):
    for name, text in texts.items():
        put(os.path.join(folder, name), text)


def must_leave(folder, texts):
    """Sees that the folder holds these files, and no other things than it had."""
    found = {}
    for above, folders, names in os.walk(folder):
        for at in (os.path.join(above, name) for name in names + folders):
            if os.path.isfile(at) and not os.path.islink(at):
                found[os.path.relpath(at, folder)] = read_bytes(at)
            else:
                must(os.path.basename(at) in ("folder", "shut", "link.csv", "loop.csv", "pipe"), f"{at} is there")
    for name in sorted({*found, *texts}):
        wanted = encoded(texts[name]) if name in texts else None
        must(found.get(name) == wanted, f"{name} holds {found.get(name)} and not {wanted}")


def with_files(program, words, given, status, out, err, changed):
    with tempfile.TemporaryDirectory() as folder:
        put_in(folder, HELD)
        os.chmod(os.path.join(folder, "old.csv"), 0o640)
        links = {"link.csv": "old.csv", "loop.csv": "loop.csv"}
        for name, target in links.items():
            os.symlink(target, os.path.join(folder, name))
        os.mkfifo(os.path.join(folder, "pipe"))
        must_answer([program, *words], given, status, out, err, cwd=folder, umask=0o022)
        must_leave(folder, {**HELD, **changed})
        must(all(os.path.islink(os.path.join(folder, name)) for name in links), "a link is none any more")
        for name, mode in (("old.csv", 0o640), ("new.csv", 0o644)):
            at = os.path.join(folder, name)
            must(not os.path.exists(at) or os.stat(at).st_mode & 0o777 == mode, f"the mode of {name} has changed")


def without_leave(program, words, err):
    held = {"secret.csv": GOOD, "fixed.csv": "old\n", "shut/old.csv": "old\n"}
    with tempfile.TemporaryDirectory() as folder, tempfile.TemporaryDirectory() as beside:
        put_in(folder, held)
        for name, mode in MODES.items():
            os.chmod(os.path.join(folder, name), mode)
        # The superuser may do all, so another user runs a copy that it can reach.
        os.chmod(beside, 0o755)
        runs = shutil.copy(program, os.path.join(beside, "cubejobs"))
        must_answer([runs, *words], GOOD, 3, "", err, cwd=folder, **AS_NOBODY)
        os.chmod(os.path.join(folder, "secret.csv"), 0o600)
        must_leave(folder, held)


def beside_open_input(program):
    """Reads a named file while standard input stays open, against a command that reads standard input all the same."""
    with tempfile.TemporaryDirectory() as folder, open_pipe() as (inner, _):
        put_in(folder, {"jobs.csv": GOOD})
        must_answer([program, *words_of("jobs.csv")], None, 0, REPLY, "", stdin=inner, timeout=10, cwd=folder)


def rows(program):
    yield Row("named: an input, and standard input that stays open", beside_open_input, (program,))
    for name, (words, given, changed, *text) in ANSWERED.items():
        new = {changed: text[0] if text else REPLY} if changed else {}
        yield Row(f"named: {name}", with_files, (program, words_of(words), given, 0, "" if changed else REPLY, "", new))
    for name, (words, given, fault) in FAILED.items():
        status, how = (1, "refused") if fault.startswith("record") else (3, "failed")
        yield Row(f"named: {name}", with_files, (program, words_of(words), given, status, "", f"{how}: {fault}\n", {}))
    for name, (words, fault) in DENIED.items():
        yield Row(f"named: {name}", without_leave, (program, words_of(words), f"failed: {fault}\n"))
