"""Rows of inputs and outputs that fail, that stay open, or that have little room."""
import contextlib
import fcntl
import os
import resource
import signal
import subprocess
import tempfile
import termios

from checks.lib.repository import read_bytes
from checks.lib.rows import Row, comes, encoded, must, must_answer, must_be_answer, put, shown
from tests.program.texts import ANSWERS, BAD, COMMANDS, GOOD, HEADERS, JOBS, READ, REPLY, WRITE

# Redirections of the shell of `run` at dimension 3 on a file of one job: the status, and standard error.
DEVICES = {
    "input that is closed": ("<&-", GOOD, 3, READ),
    "input that is a folder": ("</", GOOD, 3, READ),
    "input that can only be written": ("0>/dev/null", GOOD, 3, READ),
    "input with nothing in it": ("</dev/null", GOOD, 1, "refused: record 0: Fields\n"),
    "output that is closed": (">&-", GOOD, 3, WRITE),
    "output that is full": (">/dev/full", GOOD, 3, WRITE),
    "output that can only be read": ("1</dev/null", GOOD, 3, WRITE),
    "a refused input and output that is full": (">/dev/full", BAD, 1, "refused: record 1: Word\n"),
    "a refused input and no standard error": ("2>&-", BAD, 1, ""),
    "a refused input and standard error that is full": ("2>/dev/full", BAD, 1, ""),
    "nothing open": ("<&- >&- 2>&-", GOOD, 3, ""),
}

# `run` at dimension 3, whose input is not waited for: what it has so far, the status, and standard error. A read of
# what is not there yet fails, and nothing is read after a refused record.
NOT_WAITED_FOR = {
    "input that has nothing yet": ("", 3, READ),
    "input that has a good job so far": (GOOD, 3, READ),
    "input that has a refused job so far": (BAD, 1, "refused: record 1: Word\n"),
}

# Commands of `place` whose rows, 350 KB, are more than a pipe holds, and more than a file may have.
MANY_COMMANDS = f"{COMMANDS}\n" + "take,a,0\nfree,a,-\n" * 10_000
MANY_ROWS = f"{ANSWERS}\n" + "take,a,0,0,given\nfree,a,0,0,freed\n" * 10_000
LARGEST_FILE = 100_000
# A mark that is taken off only where one read has all of it, and line ends of two bytes that are cut apart.
CUT_ANYWHERE = f'\ufeff{JOBS}\r\n\r\n0,"scan",add,0,"7"\r\n'


@contextlib.contextmanager
def open_pipe(is_waited_for=True):
    """Lends a pipe whose ends, the inner and the outer one, both stay open."""
    ends = os.pipe()
    for end in ends:
        os.set_blocking(end, is_waited_for)
    try:
        yield ends
    finally:
        for end in ends:
            os.close(end)


def must_have_first_rows(part):
    """Sees that some of the rows of many commands were let out, and not all: the first ones."""
    is_part = 0 < len(part) < len(MANY_ROWS) and encoded(MANY_ROWS).startswith(part)
    must(is_part, f"{len(part)} bytes of output, {shown(part)}")


def closed_by_its_reader(command):
    inner, outer = os.pipe()
    os.close(inner)
    with open(outer, "wb") as output:
        must_answer(command, GOOD, 3, "", WRITE, stdout=output)


def first_line_alone(program):
    given = f"{COMMANDS}\n" + "take,a,0\nfree,a,-\n" * 100_000
    pipe = '{ "$0" place --dim 3 2>"$1/errors"; echo $? >"$1/code"; } | head -n 1; cat "$1/code" "$1/errors"'
    with tempfile.TemporaryDirectory() as folder:
        must_answer(["sh", "-c", pipe, program, folder], given, 0, f"{ANSWERS}\n3\n{WRITE}", "")


def stays_open(command, given, status, err, is_waited_for):
    with open_pipe(is_waited_for) as (inner, outer):
        os.write(outer, encoded(given))
        must_answer(command, None, status, "", err, stdin=inner, timeout=10)


def byte_by_byte(command, given, out):
    streams = {"stdin": subprocess.PIPE, "stdout": subprocess.PIPE, "stderr": subprocess.PIPE}
    with subprocess.Popen(command, bufsize=0, **streams) as started:
        try:
            with contextlib.suppress(BrokenPipeError):
                for byte in encoded(given):
                    started.stdin.write(bytes([byte]))
                    is_read = comes(lambda: not any(fcntl.ioctl(started.stdin, termios.FIONREAD, bytes(4))), 2)
                    must(is_read, "input that is not read")
            got = started.communicate(timeout=10)
        finally:
            started.kill()
    must_be_answer((started.returncode, *got), 0, out, "")


def pipe_that_is_full(place):
    with open_pipe(is_waited_for=False) as (_, outer):
        with contextlib.suppress(BlockingIOError):
            while os.write(outer, bytes(4096)):
                pass
        must_answer(place, MANY_COMMANDS, 3, "", WRITE, stdout=outer, timeout=10)


def pipe_with_room(place):
    with open_pipe(is_waited_for=False) as (inner, outer):
        must_answer(place, MANY_COMMANDS, 3, "", WRITE, stdout=outer, timeout=10)
        must_have_first_rows(os.read(inner, len(MANY_ROWS)))


def limit_files():
    resource.setrlimit(resource.RLIMIT_FSIZE, (LARGEST_FILE, LARGEST_FILE))
    resource.setrlimit(resource.RLIMIT_CORE, (0, 0))


def file_with_a_limit(place, status, err, has_signal):
    with tempfile.TemporaryFile() as file:
        how = {"stdout": file, "preexec_fn": limit_files, "restore_signals": has_signal}
        must_answer(place, MANY_COMMANDS, status, "", err, **how)
        file.seek(0)
        must_have_first_rows(file.read())


def named_file_with_a_limit(place, name):
    with tempfile.TemporaryDirectory() as folder:
        old, command = os.path.join(folder, "old.csv"), [*place, "--output", os.path.join(folder, name)]
        put(old)
        must_answer(command, MANY_COMMANDS, 3, "", WRITE, preexec_fn=limit_files, restore_signals=False)
        is_kept = os.listdir(folder) == ["old.csv"] and read_bytes(old) == b"old\n"
        must(is_kept, f"the folder has {os.listdir(folder)}")


def rows(program):
    run, place = ([program, command, "--dim", "3"] for command in ("run", "place"))
    for name, (redirections, given, status, err) in DEVICES.items():
        command = ["sh", "-c", f'exec "$0" run --dim 3 {redirections}', program]
        yield Row(f"device: {name}", must_answer, (command, given, status, "", err))
    yield Row("device: output that its reader has closed", closed_by_its_reader, (run,))
    yield Row("device: a reader that takes one line", first_line_alone, (program,))
    # against a program that reads to the end before it looks at the first record, or waits where there is nothing yet
    for words, header in HEADERS.items():
        command, name = [program, *words.split(), "--dim", "3"], words.split()[0]
        for number, given in enumerate(("x\n", f"{header}\nx\n")):
            title = f"{name}: input that stays open after record {number}"
            yield Row(title, stays_open, (command, given, 1, f"refused: record {number}: Fields\n", True))
    for name, (given, status, err) in NOT_WAITED_FOR.items():
        yield Row(f"device: {name}", stays_open, (run, given, status, err, False))
    yield Row("run: input that comes byte by byte", byte_by_byte, (run, CUT_ANYWHERE, REPLY))
    # against a program that waits for an output which takes a part and no byte more, or that says that all went out
    yield Row("device: a named file at its limit", named_file_with_a_limit, (place, "new.csv"))
    yield Row("device: a named file at its limit, in place of another", named_file_with_a_limit, (place, "old.csv"))
    yield Row("device: output that is full and not waited for", pipe_that_is_full, (place,))
    yield Row("device: output that has some room and is not waited for", pipe_with_room, (place,))
    # Python ignores the signal that the system sends at the limit, and so does the program then.
    yield Row("device: a file at its limit", file_with_a_limit, (place, 3, WRITE, False))
    ended = place, -signal.SIGXFSZ, "", True
    yield Row("device: a file at its limit, and the signal of it", file_with_a_limit, ended)
