"""Runs rows: each is a name, a function that raises Wrong where the row fails, and what it is called with."""
import hashlib
import inspect
import os
import shutil
import signal
import subprocess
import time
from typing import Any, Callable, NamedTuple, Tuple

# The signals by which a user, a system or a terminal ends a command.
ENDING = (signal.SIGINT, signal.SIGTERM, signal.SIGHUP)
# The options of a start by a user without rights. Only the superuser can start as another user.
NOBODY = 65534
AS_NOBODY = {"user": NOBODY, "group": NOBODY, "extra_groups": []} if os.geteuid() == 0 else {}


class Wrong(Exception):
    """An answer that is another one than it must be."""


class Skipped(Exception):
    """What this machine cannot try."""


class Row(NamedTuple):
    """A case of a check. All that it depends on stands in its arguments, so rows can be collected before one is run."""

    name: str
    act: Callable
    arguments: Tuple[Any, ...] = ()


def title(function):
    return function.__name__.replace("_", " ")


def methods(kind):
    """Returns the methods of a class that want nothing but their object, in their order."""
    found = [it for it in vars(kind).values() if inspect.isfunction(it)]
    return [it for it in found if [*inspect.signature(it).parameters] == ["self"]]


def must(holds, what):
    if not holds:
        raise Wrong(what)


def needs(*tools):
    """Skips what follows if a tool is missing."""
    for tool in tools:
        if not shutil.which(tool):
            raise Skipped(f"no {tool} here")


def must_be_distinct(rows):
    """Fails where two rows try the same: a check that repeats one row sees nothing of the others."""
    seen = {}
    for row in rows:
        key = row.act, hashlib.sha256(repr(row.arguments).encode("utf-8", "surrogatepass")).digest()
        must(key not in seen, f"the rows {seen.get(key)!r} and {row.name!r} are one")
        seen[key] = row.name


def run_rows(check, rows, says_ok=False):
    """Runs all rows, says which fail and are skipped, and counts them. Returns the status of the check."""
    rows = list(rows)
    must_be_distinct(rows)
    failed = skipped = 0
    for row in rows:
        try:
            more = row.act(*row.arguments)
            if says_ok:
                print(f"ok: {row.name}{f' ({more})' if more else ''}")
        except Skipped as reason:
            skipped += 1
            print(f"{check}: {row.name} is skipped: {reason}")
        except (Wrong, OSError, subprocess.SubprocessError) as wrong:
            failed += 1
            print(f"FAILED: {row.name}: {wrong}")
    passed = len(rows) - failed - skipped
    print(f"{check}: {passed} passed, {failed} failed" + (f", {skipped} skipped" if skipped else ""))
    return 1 if failed or not rows else 0


def print_faults(faults):
    faults = list(faults)
    for fault in faults:
        print(f"FAILED: {fault}")
    return 1 if faults else 0


def blind(check, samples):
    """Yields a fault where a check does not find in a known bad sample what it must: its faults, and words of each."""
    for found, wanted in samples:
        if len(found) != len(wanted) or not all(words in fault for words, fault in zip(wanted, found)):
            yield f"{check} finds {found} in a known bad sample, and not {wanted}"


def shown(data):
    return f"{data[:200]!r}{' ..' if len(data) > 200 else ''}"


def encoded(text):
    """Returns the bytes of a text, in which \\udc80 to \\udcff are single bytes that are no UTF-8."""
    return text.encode("utf-8", "surrogateescape")


def answer(command, given=b"", **how):
    """Runs a command to its end, and returns its status, its output and its errors. `how` are options of the start."""
    streams = {"stdout": subprocess.PIPE, "stderr": subprocess.PIPE, "timeout": 60, "check": False, **how}
    if "stdin" not in how:
        streams["input"] = given if isinstance(given, bytes) or how.get("text") else encoded(given)
    done = subprocess.run(command, **streams)
    return done.returncode, done.stdout or (b"" if not how.get("text") else ""), done.stderr


def output(command, given="", **how):
    """Returns the text that a command writes, which must end well and without a word on standard error."""
    status, out, err = answer(command, given, text=True, **how)
    must(status == 0 and not err, f"{' '.join(command)}: status {status}, errors {err[:600]!r}")
    return out


def must_be_answer(got, status, out, err):
    """Sees that an answer has this status and these whole outputs."""
    for name, one, wanted in zip(("status", "output", "errors"), got, (status, encoded(out), encoded(err))):
        say = str if name == "status" else shown
        must(one == wanted, f"{name} {say(one)} and not {say(wanted)}")


def must_answer(command, given, status, out, err, **how):
    """Runs a command, whose status and whole outputs must be these."""
    must_be_answer(answer(command, given, **how), status, out, err)


def comes(holds, seconds):
    """Waits until something holds, and answers whether it does within these seconds."""
    end = time.monotonic() + seconds
    while not (is_so := holds()) and time.monotonic() < end:
        time.sleep(0.001)
    return is_so


def heed_signals():
    """Undoes what nohup and a shell's background do: a signal that is ignored when a shell starts is never trapped."""
    for number in ENDING:
        signal.signal(number, signal.SIG_DFL)


def put(file, data=b"old\n", mode=0o644, owner=None):
    """Writes a file with these bytes or this text, and gives it a mode and an owner. Makes its folder if need be."""
    os.makedirs(os.path.dirname(file) or ".", exist_ok=True)
    with open(file, "wb") as it:
        it.write(encoded(data) if isinstance(data, str) else data)
    if owner:
        os.chown(file, *owner)
    os.chmod(file, mode)
