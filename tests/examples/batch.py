"""Runs examples/batch.c and examples/batch.cpp (a part of ffi): whole files, lines that are no jobs, and Ctrl-C."""
import collections
import os
import pty
import re
import signal
import subprocess

from checks.lib.repository import path, read
from checks.lib.rows import answer, comes, must, must_answer, put

JOBS, SECONDS = "examples/batch.jobs", 60
# Files, and the number of the first line that is no job.
WRONG = (("2 x\n", 1), ("0 1\n", 1), ("17 1\n", 1), ("1 2\n-1 3\n", 2), ("1 -3\n", 1), ("1\n", 1), ("1 2 3\n", 1),
         ("1 1\n\n1 1\n", 2), ("1 99999999999\n", 1), ("4294967296 1\n", 1), ("jobs\n", 1),
         ("1 1\n1 1" + " " * 100 + "2\n", 2))
# The last jobs fill the machine, so that others wait while one runs.
LONG = "".join(f"{1 + it % 5} {1 + it % 7}\n" for it in range(100)) + "16 100\n" * 400


def must_run_all(words, text, file):
    put(file, text)
    count = len(text.splitlines())
    must_answer([*words, file], "", 0, f"{count} of {count} jobs ran\n", "", timeout=SECONDS)


def must_refuse(words, said):
    status, out, err = answer(words, timeout=SECONDS)
    must(status == 2 and out == b"" and err.startswith(said), f"status {status}, output {out!r}, errors {err!r}")


def must_stop(words, after, signals, file):
    """Sends signals once some jobs have run. The other jobs must be printed, in their order."""
    put(file, LONG)
    ours, theirs = pty.openpty()
    with subprocess.Popen([*words, file], stdout=subprocess.PIPE, stderr=theirs) as run:
        os.close(theirs)
        shown = b""
        while int((re.findall(rb"(\d+) of \d+ jobs", shown) or [0])[-1]) < after:
            shown += os.read(ours, 4096)
        for _ in range(signals):
            run.send_signal(signal.SIGINT)
        must(comes(lambda: run.poll() is not None, SECONDS), "it does not end")
        first, *left = run.stdout.read().decode().splitlines()
    os.close(ours)
    said, lines = re.fullmatch(r"(\d+) of (\d+) jobs ran, and these are left:", first), LONG.splitlines()
    must(run.returncode == 3 and said and int(said[2]) == len(lines), f"status {run.returncode}, first line {first!r}")
    must(after <= int(said[1]) == len(lines) - len(left), f"{first!r}, with {len(left)} lines")
    must(not collections.Counter(left) - collections.Counter(lines), "a line is none of the file")
    rest = iter(lines)
    must(all(it in rest for it in left), "the lines are in another order")


def must_work(room, program):
    """Builds a scheduler, and runs it."""
    words, file = program.make(room), f"{room}/jobs"
    for text in (read(JOBS), "", "1 2\n16 1", "".join(f"{1 + it % 16} 0\n" for it in range(3000))):
        must_run_all(words, text, file)
    for text, line in WRONG:
        put(file, text)
        must_refuse([*words, file], f"{file}:{line}: not processors".encode())
    for more, said in (([], b"usage"), ([f"{room}/none"], f"{room}/none: ".encode()), ([room], f"{room}: ".encode()),
                       ([path(JOBS), path(JOBS)], b"usage")):
        must_refuse([*words, *more], said)
    for after, signals in ((1, 1), (60, 2), (101, 1)):
        must_stop(words, after, signals, file)
