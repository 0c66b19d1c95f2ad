"""Runs examples/event_loop.c (a part of ffi): jobs that pass, bad lines, and Ctrl-C once and twice."""
import os
import signal
import subprocess
import tempfile

from checks.lib.repository import read
from checks.lib.rows import comes, must, put

SECONDS = 20
# A job that runs until there is a file, or for a minute: a wrong program leaves it running.
HOLDS = "for i in $(seq 6000); do [ ! -e {} ] || break; sleep 0.01; done"


class Loop:
    """A running event loop of four processors."""

    def __init__(self, words, room):
        self.out, self.err = (os.path.join(tempfile.mkdtemp(dir=room), it) for it in ("out", "err"))
        with open(self.out, "wb") as out, open(self.err, "wb") as err:
            self.ran = subprocess.Popen([*words, "2"], stdin=subprocess.PIPE, stdout=out, stderr=err)

    def __enter__(self):
        return self

    def __exit__(self, *_):
        self.ran.kill()
        self.ran.wait()
        self.ran.stdin.close()

    def write(self, *lines):
        self.ran.stdin.write("".join(f"{it}\n" for it in lines).encode())
        self.ran.stdin.flush()

    def said(self, file):
        return read(file).splitlines()

    def shows(self, *lines):
        """Waits until it has written these lines, and no others."""
        must(comes(lambda: len(self.said(self.out)) >= len(lines), SECONDS),
             f"it says {self.said(self.out)}, not {lines}")
        must(self.said(self.out) == [*lines], f"it says {self.said(self.out)}, not {lines}")

    def ends(self, status, *errors):
        if not self.ran.stdin.closed:
            self.ran.stdin.close()
        must(comes(lambda: self.ran.poll() is not None, SECONDS), "it does not end")
        must(self.ran.returncode == status and self.said(self.err) == [*errors],
             f"{self.ran.returncode}, {self.said(self.err)}")


def must_plan(words, room):
    """Sees that a brief job passes one that waits for all processors, and that a long one does not."""
    with Loop(words, room) as loop:
        loop.write(f"2 9 {HOLDS.format(f'{room}/go')}", "4 9 exit 7", "1 600 true",
                   f"1 1 echo $CUBEJOBS_PROCESSORS > {room}/where",
                   "x 1 true", "5 1 true", "1 true", "1 1 ", "1 99999999999 true")
        before = ["1 starts on 0-1", "4 starts on 2-2", "4 ends with 0"]
        loop.shows(*before)
        must(read(f"{room}/where") == "2-2\n", "it has other processors")
        put(f"{room}/go")
        loop.shows(*before, "1 ends with 0", "2 starts on 0-3", "2 ends with 7", "3 starts on 0-0", "3 ends with 0")
        bad = ("x 1 true", "5 1 true", "1 true", "1 1 ", "1 99999999999 true")
        loop.ends(1, *(f"event_loop: '{it}': a number is out of range" for it in bad))


def must_cancel(words, room):
    """Sees that Ctrl-C cancels what waits, that what runs goes on, and that a second Ctrl-C ends it."""
    for signals, end in ((1, "1 ends with 0"), (2, "1 ends with 143")):
        with Loop(words, room) as loop:
            loop.write(f"4 9 {HOLDS.format(f'{room}/go{signals}')}", "4 9 true", "1 0 true")
            shown = ["1 starts on 0-3"]
            loop.shows(*shown)
            for number in range(signals):
                loop.ran.send_signal(signal.SIGINT)
                shown += ["2 is cancelled", "3 is cancelled"] if number == 0 else []
                comes(lambda: len(loop.said(loop.out)) == 4, 0.3)
                loop.shows(*shown, *([end] if number else []))
            put(f"{room}/go{signals}")
            loop.shows(*shown, end)
            loop.ends(0)


def must_end(words, room):
    """Sees that it ends with its pipe: at once without jobs, and after those that run."""
    with Loop(words, room) as loop:
        loop.ends(0)
    with Loop(words, room) as loop:
        loop.write("1 1 sleep 0.1", "1 1 sleep 0.2")
        loop.ends(0)
        must(loop.said(loop.out)[2:] == ["1 ends with 0", "2 ends with 0"], "a job is left")
    for words_of_user in ([], ["21"], ["2", "2"]):
        ran = subprocess.run([*words, *words_of_user], input="", capture_output=True, check=False, text=True)
        must((ran.returncode, ran.stderr) == (1, "usage: event_loop DIM\n"), f"{words_of_user}: {ran}")


# What is wrong with a program: its text, and the text that replaces it.
WRONG_PROGRAMS = (
    ("estimates are not passed on", "request.estimate *= 1000;", "request.estimate = 0;"),
    ("a job does not know its processors", "!setenv(\"CUBEJOBS_PROCESSORS\", processors, 1)", "!(processors == NULL)"),
    ("Ctrl-C cancels nothing", "if (reap(), signal.ssi_signo == SIGINT) stop()",
     "if (reap(), signal.ssi_signo == SIGINT) stops++"),
    ("a second Ctrl-C ends nothing", "WRONG_STATE && stops", "WRONG_STATE && 0"),
    ("an end is not noted", "reap(), signal", "signal"),
)


def must_work(room, program):
    """Builds the program, and runs it."""
    words = program.make(room)
    for part in (must_plan, must_cancel, must_end):
        with tempfile.TemporaryDirectory(dir=room) as folder:
            part(words, folder)
