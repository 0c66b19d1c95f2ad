"""A room in which the launcher ./cubejobs runs: a small copy of the repository, and a stand-in for `rt`."""
import contextlib
import hashlib
import os
import re
import select
import shutil
import signal
import subprocess
from typing import List, NamedTuple

from checks.lib.repository import read, write
from checks.lib.rows import Wrong, heed_signals, must, put

# What a call needs that finds a program: coreutils. What a build needs besides.
COREUTILS = """cat chmod cksum cp date dirname env fold id ls mkdir mkfifo mv readlink rm sha256sum sleep tail tsort
    uname""".split()
TOOLS = ["sh", "flock", "kill", "sed", *COREUTILS]
# Seconds that a call may take, and the columns of the longest line that it writes.
PATIENCE, COLUMNS = 10, 80
CRATES = ["cube_shape", "jobs_cli"]
RELEASED = "release/linux-x86_64/cubejobs"
# The stand-in. `calls` has a line for each call; `plan` says what a build does, the last line for all further ones.
RT = "tests/launcher/rt.sh"


class Answer(NamedTuple):
    """What a call ends with: its status, its standard output, and the lines of standard error."""

    status: int
    out: str
    err: List[str]

    def __str__(self):
        return f"status {self.status}, output {self.out!r}, errors {self.err}"


class Clone:
    """A copy of the repository in a folder of its own, whose name has a space."""

    def __init__(self, room, launcher):
        self.started, self.room = [], os.path.realpath(room)
        self.folder, self.fake, self.tools = (os.path.join(self.room, name) for name in ("a clone", "fake", "tools"))
        os.mkdir(self.tools)
        for crate in CRATES:
            self.write(f"crates/{crate}/src/lib.rt", f"//! {crate}\n")
        lines = "# crate: libraries", "cube_shape:", "other: cube_shape", "jobs_cli may_wait=2: cube_shape clap", ""
        self.write("crates.txt", "\n".join(lines))
        self.launcher, self.rt = shutil.copy(launcher, self.at("cubejobs")), os.path.join(self.tools, "rt")
        for tool in TOOLS:
            os.symlink(shutil.which(tool), os.path.join(self.tools, tool))
        put(self.rt, read(RT), 0o755)
        put(f"{self.fake}/calls", "")
        self.plan("builds")

    def at(self, name):
        return os.path.join(self.folder, name)

    def plan(self, *words):
        write(f"{self.fake}/plan", "\n".join(words) + "\n")

    def write(self, name, text):
        write(self.at(name), text)

    def go(self):
        write(f"{self.fake}/go", "")

    def calls(self):
        """Returns the process number and the crate of each call of the stand-in."""
        return [(int(line.split()[0]), line.split()[1]) for line in read(f"{self.fake}/calls").splitlines()]

    def builds(self):
        return [crate for _, crate in self.calls()].count("jobs_cli")

    def release(self, program="#!/bin/sh\necho \"released: $*\"\n", sources=None, sum_of=None, mode=0o755, to=RELEASED):
        """Puts a program into release/, made from these sources and with the sum of this text."""
        put(self.at(to), program, mode)
        total = hashlib.sha256((sum_of or program).encode()).hexdigest()
        sums = f"# version 9.9.9\n# sources {sources or self.sources()}\n{total}  cubejobs\n{total}  libother.a\n"
        self.write(f"{os.path.dirname(to)}/SHA256SUMS", sums)

    def move_to(self, system):
        """Makes this machine another one, as `uname -sm` names it."""
        os.remove(f"{self.tools}/uname")
        put(f"{self.tools}/uname", f"#!/bin/sh\necho {system}\n", 0o755)

    def sources(self):
        self.run("--prove")
        return read(self.at("out/cubejobs.sources")).strip()

    def start(self, words, launcher=None, folder=None, wrapped=(), out=subprocess.PIPE, user=(), **more):
        env = {"PATH": self.tools, "FAKE": self.fake, **more}
        how = {"stdin": subprocess.PIPE, "stdout": out, "stderr": subprocess.PIPE, "text": True, **dict(user)}
        command = [*wrapped, launcher or self.launcher, *(words.split() if isinstance(words, str) else words)]
        where = folder or self.room
        started = subprocess.Popen(command, env=env, cwd=where, start_new_session=True, preexec_fn=heed_signals, **how)
        self.started.append(started)
        return started

    def end(self):
        for started in self.started:
            with contextlib.suppress(ProcessLookupError):
                os.killpg(started.pid, signal.SIGKILL)
            started.communicate()

    def run(self, words, given="", **more):
        """Runs the launcher with these words, a text or a list, to its end."""
        return ended(self.start(words, **more), given)

    def works(self, words="--version", given="", **more):
        """Sees that the program that was built answers a call. Returns the lines of standard error."""
        return is_of_program(self.run(words, given, **more), words, given)


def ended(started, given=""):
    """Waits for a launcher, and returns what it ends with."""
    try:
        out, err = started.communicate(given, timeout=PATIENCE)
    except subprocess.TimeoutExpired:
        raise Wrong(f"it had not ended after {PATIENCE} seconds") from None
    must_be_short(err)
    return Answer(started.returncode, out, err.splitlines())


def must_be_short(err):
    """Refuses a line of the launcher, or one that it indents, that is wider than a terminal."""
    wide = [it for it in err.splitlines() if it.startswith(("cubejobs: ", "    ")) and len(it) > COLUMNS]
    must(not wide, f"lines of more than {COLUMNS} columns: {wide}")


def sentences(err):
    """Returns the sentences on standard error, each joined with its indented lines."""
    return re.sub(r"\n {4,}", " ", "\n".join(err)).split("\n")


def line_with(started, text):
    """Waits for a line on standard error that has this text, and returns it."""
    seen = ""
    while text not in seen:
        is_there, _, _ = select.select([started.stderr], [], [], PATIENCE)
        piece = os.read(started.stderr.fileno(), 4096).decode() if is_there else ""
        must(piece, f"no line with {text!r} comes, but {seen!r}")
        seen += piece
    return next(line for line in seen.splitlines() if text in line)


def is_running(process):
    try:
        return read(f"/proc/{process}/stat").rpartition(")")[2].split()[0] != "Z"
    except OSError:
        return False


def refuses(got, *texts):
    """The launcher's own failure: status 70, nothing on standard output, one sentence at the end."""
    last = sentences(got.err)[-1]
    must(got[:2] == (70, "") and last.startswith("cubejobs: "), got)
    must(all(text in last for text in texts), f"the sentence {last!r} does not have {texts}")


def is_of_program(got, words, given="", status=0):
    """The own answer of the program that was built, which shows its words and its input."""
    must(got[:2] == (status, f"args: {words}\n{given}") and got.err[-1:] == ["note"], got)
    return got.err


def must_be(got, status, out, err):
    must(got == (status, out, err), got)
