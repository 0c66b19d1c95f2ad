"""Runs the built program with a terminal as standard error, and reads what it shows while it works.

A long run shows how many records are read and how many replies are done, in one line that is wiped at the end; all else
is as in a run with `--quiet`. Nothing is shown for short work, with `--quiet`, where TERM is dumb, and where standard
error is no terminal. A terminal that is stopped or unread holds up a run by a second at most. With a terminal as
standard input each command says in one line what it waits for. Where the input is a file and is refused, a second line
says where, and what is wanted there. `checks/run progress FILE` tries the program FILE.
"""
import contextlib
import itertools
import os
import pty
import re
import subprocess
import tempfile
import threading
import time
import tty

from checks.lib.rows import Row, Wrong, answer, comes, methods, must, run_rows, title
from checks.lib.toolchain import program

ENVIRONMENT = {**os.environ, "TERM": "xterm"}
HEADER = "lane,kind,op,root,items\n"
# Nothing is shown of fewer records than LEAST. Counts are shown ten times a second: LONG jobs take some tenths.
LEAST, SOME, LONG = 1000, 30_500, 400_500
# A count that stays is shown within this many seconds.
SHOWN_WITHIN = 30
COUNTED = re.compile(rb"\r(?:(\d+) records read|(\d+) of (\d+) replies done)")


def jobs(count, last=""):
    return (HEADER + "".join(f"{number % 16},allreduce,add,0,{number} 1\n" for number in range(count)) + last).encode()


class Terminal:
    """A terminal, and all that it is sent. Where nobody reads it, it is full from the beginning."""

    def __init__(self, is_read):
        self.master, self.slave = pty.openpty()
        tty.setraw(self.slave)
        self.sent = bytearray()
        self.listener = threading.Thread(target=self.read)
        if is_read:
            self.listener.start()
        else:
            self.fill()

    def read(self):
        # The read fails once the last writer has closed the terminal.
        with contextlib.suppress(OSError):
            while data := os.read(self.master, 65536):
                self.sent += data

    def fill(self):
        os.set_blocking(self.slave, False)
        with contextlib.suppress(BlockingIOError):
            while os.write(self.slave, b"." * 100):
                pass
        os.set_blocking(self.slave, True)

    def must_show(self, records):
        line = b"\r%d records read" % records
        must(comes(lambda: line in self.sent, SHOWN_WITHIN), f"the terminal was not sent {line}, but {self.sent[-60:]}")

    def close(self):
        if self.listener.ident:
            self.listener.join()
        os.close(self.master)


def on_terminal(command, given, cuts=(), is_read=True, env=(), with_output=False):
    """Runs a command with a terminal as standard error, and as standard output too if that is asked for. After each of
    these numbers of records its input pauses until the terminal shows that they are read, or for a second where nobody
    reads it. Returns the status, standard output, and the bytes that the terminal was sent."""
    terminal, lines = Terminal(is_read), iter(given.splitlines(keepends=True))
    streams = {"stdin": subprocess.PIPE, "stdout": terminal.slave if with_output else subprocess.PIPE}
    started = subprocess.Popen(command, stderr=terminal.slave, env={**ENVIRONMENT, **dict(env)}, **streams)
    os.close(terminal.slave)
    try:
        for before, cut in zip((-1, *cuts), cuts):
            started.stdin.writelines(itertools.islice(lines, cut - before))
            started.stdin.flush()
            if is_read:
                terminal.must_show(cut)
            else:
                time.sleep(1)
        out, _ = started.communicate(b"".join(lines), timeout=60)
    except (Wrong, subprocess.TimeoutExpired):
        started.kill()
        raise
    finally:
        terminal.close()
    return started.returncode, out, bytes(terminal.sent)


def screen(sent):
    """Returns the lines that a terminal shows after these bytes. Blanks at the end of a line do not show."""
    lines = []
    for text in sent.decode().split("\n"):
        line = ""
        for piece in text.split("\r"):
            line = piece + line[len(piece) :]
        lines.append(line.rstrip())
    return lines


def must_count(sent, count):
    """Sees that the line counts records and then the replies, of which there are `count`, and never goes back."""
    shown = [(int(step[1] or step[3]), int(step[2] or 0)) for step in COUNTED.finditer(sent)]
    must(shown and shown == sorted(set(shown)), f"{shown[:5]} ..")
    must(all(LEAST <= records <= count and replies <= records for records, replies in shown), f"{shown[:5]} ..")


def must_be_wiped(got, wanted, count):
    """Sees that a run answers as it does with no terminal, and that its line counts and is wiped in the end."""
    status, out, sent = got
    must((status, out) == wanted[:2], f"status {status}, and {len(out)} bytes of output")
    must_count(sent, count)
    must(screen(sent) == [""], f"the terminal shows {screen(sent)}")


class Parts:
    """What is tried of `run` and of `report`: each method is a row."""

    def __init__(self, built, name):
        self.command = [built, name, "--dim", "3", "--dispatchers", "4"]

    def long_work(self):
        given = jobs(LONG)
        wanted = answer([*self.command, "--quiet"], given)
        must(wanted[0] == 0 and len(wanted[1]) > 100 and wanted[2] == b"", "a run with --quiet fails")
        must(answer(self.command, given) == wanted, "standard error is a file, and the answer is another one")
        must_be_wiped(on_terminal(self.command, given), wanted, LONG)
        for words, env, when in ((["--quiet"], {}, "with --quiet"), ([], {"TERM": "dumb"}, "where TERM is dumb")):
            status, out, sent = on_terminal([*self.command, *words], given, env=env)
            must((status, out) == wanted[:2] and sent == b"", f"{when} the terminal is sent {sent[:60]}")

    def slow_input(self):
        got = on_terminal(self.command, jobs(SOME), cuts=(1000, 2500, 2501))
        must_be_wiped(got, answer(self.command, jobs(SOME)), SOME)

    def one_terminal(self):
        given = jobs(LONG)
        _, _, wanted = on_terminal([*self.command, "--quiet"], given, with_output=True)
        status, _, sent = on_terminal(self.command, given, with_output=True)
        must(status == 0 and COUNTED.search(sent), "nothing is shown")
        must(screen(sent) == screen(wanted), "the terminal shows something else after the run")

    def refused_file(self):
        given, line = jobs(SOME, "0,scan,plus,0,4\n"), f"refused: record {SOME + 1}: Word"
        status, out, sent = on_terminal(self.command, given, cuts=(LEAST,))
        must((status, out) == (1, b"") and COUNTED.search(sent), f"status {status}, terminal {sent[-60:]}")
        must(screen(sent) == [line, ""], f"the terminal shows {screen(sent)}")
        must(answer(self.command, given) == (1, b"", f"{line}\n".encode()), "a file gets another line")

    def short_work(self):
        given = jobs(LEAST - 1)
        status, out, sent = on_terminal(self.command, given)
        must((status, out) == answer(self.command, given)[:2] and sent == b"", f"status {status}, terminal {sent[:60]}")

    def lost_terminal(self):
        given = jobs(SOME)
        master, slave = pty.openpty()
        os.close(master)
        status, out, _ = answer(self.command, given, stderr=slave, env=ENVIRONMENT)
        os.close(slave)
        must((status, out) == answer(self.command, given)[:2], f"status {status}")

    def unread_terminal(self):
        """Nobody reads the terminal, which takes no more. The run ends all the same: its line waits from the first
        records on, and the other records and all replies do not."""
        given = jobs(SOME)
        try:
            status, out, _ = on_terminal(self.command, given, cuts=(LEAST,), is_read=False)
        except subprocess.TimeoutExpired:
            raise Wrong("a run waits for a terminal that nobody reads") from None
        must((status, out) == answer(self.command, given)[:2], f"status {status}, and {len(out)} bytes of output")


# What is typed to each command, what it says before, and what it answers.
END_OF_INPUT = b"\x04"
WAITS = "waiting for {}, CSV with the header {}; Ctrl-D ends it\n"
OF_JOBS = f"{HEADER}0,scan,add,0,7\n", WAITS.format("jobs", HEADER.strip())
TYPED = {
    "run --dim 3": (*OF_JOBS, "lane,seq,kind,dim,result,rounds,messages\n0,0,scan,0,7,0,0\n"),
    "report --dim 0 --quiet": (
        *OF_JOBS, "group,key,count,processors,idle\nlane,0,1,1,0\ndim,0,1,1,0\nfree,0,1,1,0\ntotal,-,1,1,0\n"),
    "place --dim 2": ("command,name,dim\ntake,a,1\n", WAITS.format("commands", "command,name,dim"),
        "command,name,dim,base,outcome\ntake,a,1,0,given\n"),
    "replay --dim 3 --stations 1": (
        "station,call,arg\n", WAITS.format("a schedule", "station,call,arg"),
        "station,event,node,word,note\n-,end,-,-,0\n"),
}


# An input that each command refuses, the line of standard error, and the second one on a terminal.
REFUSED = {
    "run --dim 3": (
        f"{HEADER}0,scan,add,0,7\n0,scan,add,x1,7\n", "refused: record 2: Number",
        '  line 3, field root: "x1"; wanted: a number below 2^64, with no sign and no leading zero'),
    "run --dim 3 --long": (
        f"{HEADER}16,scan,add,0,7\n", "refused: record 1: Number",
        '  line 2, field lane: "16"; wanted: a number below 16, with no sign and no leading zero'),
    # against a progress line that stays, or is wiped after the two lines
    "run --dim 3 --capacity 1024": (
        jobs(SOME, "0,scan,plus,0,4\n0,scan,plus,0,4\n").decode(), f"refused: record {SOME + 1}: Word",
        f'  line {SOME + 2}, field op: "plus"; wanted: add, min, max, xor, and, or; for a broadcast -'),
    "report --dim 0 --quiet": (
        f"{HEADER}0,scan,add,0,7 8\n", "refused: record 1: Job TooLarge",
        "  line 2; wanted: no more items than the machine has processors"),
    # against bytes that a terminal would obey
    "place --dim 2": (
        "command,name,dim\ntake,\x1b[2J\u009b,1\n", "refused: record 1: Word",
        '  line 2, field name: "\\u{1b}[2J\\u{9b}"; wanted: 1 to 16 bytes, each of them a to z or a digit'),
    # against a line that counts records
    "replay --dim 3 --stations 1": (
        "station,call,arg\n\n0,run,-\n0,step,101\n", "refused: record 2: Number",
        '  line 4, field arg: "101"; wanted: for take a node, for step a number from 1 to 100, for any other -'),
    "replay --dim 2 --stations 1": (
        "command,name,dim\n", "refused: record 0: Word",
        '  line 1, field station: "command"; wanted: another file: this is the input of place'),
    "place --dim 3": ("", "refused: record 0: Fields", "  line 1; wanted: 3 fields: command,name,dim"),
}


def shown_lines(command, stdin, env=()):
    """Returns what a terminal shows that is the standard error of a command that refuses its input."""
    terminal = Terminal(is_read=True)
    started = subprocess.Popen(
        command, stdin=stdin, stdout=subprocess.PIPE, stderr=terminal.slave, env={**ENVIRONMENT, **dict(env)})
    os.close(terminal.slave)
    try:
        out, _ = started.communicate(timeout=60)
    except subprocess.TimeoutExpired:
        started.kill()
        raise Wrong("it does not end") from None
    finally:
        terminal.close()
    must((started.returncode, out) == (1, b""), f"status {started.returncode}, output {out}")
    return screen(bytes(terminal.sent))


def piped(given):
    """Returns the end of a pipe from which this text is read."""
    return subprocess.Popen(["printf", "%s", given], stdout=subprocess.PIPE).stdout


def refused_input(built, words, given, first, second):
    """Sees that a file has the second line, and that a pipe has not, and a terminal that cannot rewrite a line."""
    command = [built, *words.split()]
    with tempfile.NamedTemporaryFile("w", encoding="utf-8") as file:
        file.write(given)
        file.flush()
        named, both, one = [*command, file.name], [first, second, ""], [first, ""]
        must(shown_lines(named, subprocess.DEVNULL) == both, f"{shown_lines(named, subprocess.DEVNULL)}")
        with open(file.name, "rb") as stdin:
            must(shown_lines(command, stdin) == both, "a file that is standard input has no second line")
        dumb = shown_lines(named, subprocess.DEVNULL, {"TERM": "dumb"})
        must(dumb == one, f"where TERM is dumb it shows {dumb}")
        must(answer(named, b"") == (1, b"", f"{first}\n".encode()), "a file gets another line")
    if len(given) < 1000:
        must(shown_lines(command, piped(given)) == one, "a pipe that is read has a second line")
        must(shown_lines([*command, "/dev/stdin"], piped(given)) == one, "a pipe that is named has a second line")


def typed_answer(built, words, typed):
    master, slave = pty.openpty()
    os.write(master, typed)
    try:
        status, out, err = answer([built, *words.split()], stdin=slave, env=ENVIRONMENT)
    finally:
        os.close(slave)
        os.close(master)
    return status, out.decode(), err.decode()


def typed_input(built, words, typed, said, wanted):
    got = typed_answer(built, words, typed.encode() + END_OF_INPUT)
    must(got == (0, wanted, said), f"typed input is answered by {got}")
    got = typed_answer(built, words, b"x\n" + END_OF_INPUT)
    must(got == (1, "", f"{said}refused: record 0: Fields\n"), f"a typed word is answered by {got}")
    command = words.split()[0]
    status, out, err = typed_answer(built, f"{command} --help", END_OF_INPUT)
    must(status == 0 and out and err == "", f"help says {err}")
    status, out, err = typed_answer(built, f"{command} --dim x", END_OF_INPUT)
    must(status == 2 and out == "" and "waiting" not in err, f"a bad command line says {err}")


def main(words):
    built, rows = program(words), []
    for name in ("run", "report"):
        parts = Parts(built, name)
        rows += [Row(f"{name}: {title(part)}", part, (parts,)) for part in methods(Parts)]
    rows += [Row(f"{words}: refused input", refused_input, (built, words, *refused))
             for words, refused in REFUSED.items()]
    rows += [Row(f"{words}: typed input", typed_input, (built, words, *typed)) for words, typed in TYPED.items()]
    return run_rows("progress", rows)
