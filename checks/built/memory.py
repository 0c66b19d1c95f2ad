"""Refuses each request for memory of `cubejobs` in turn, and each start of a thread, and reads the program's answer.

For each input it runs the program once for each of its requests, with that one refused; for small inputs also with the
two after it, and with all after it. The answer must be that of ample memory, or status 3 with OutOfMemory on standard
error and at most the first lines of the output. A file that is named may be named there, and each file that is written
must be whole or as it was. The room for events is asked for before a thread starts. A run in which a thread and all
later ones cannot be started ends as with all of them. No run may hang. There must be a thread for each dispatcher other
than the first, and one more that writes events.
`checks/run memory FILE` tries FILE.
"""
import os
import pty
import subprocess
import tempfile
import tty

from checks.lib.repository import read_bytes
from checks.lib.rows import Row, Wrong, answer, must, put, run_rows
from checks.lib.toolchain import program, shim

# A run that takes longer, in seconds, hangs.
SECONDS = 60
# How many jobs each of two long lanes has. The room for the events of a job takes at least EVENT_BYTES for each of two.
LONG, EVENT_BYTES = 10_000, 24
# How many requests are refused in a row: one alone; or three, and all from the first one on.
ONE, EACH_WAY = [1], [1, 3, 0]
# The names, among a command's words, of a file with its input and of those that it writes, which hold OLD before.
INPUT_FILE, OUTPUT_FILE, EVENTS_FILE, OLD = "jobs.csv", "old.csv", "events.csv", b"old\n"
WANT, WANT_OF_WRITE = b"failed: record 0: OutOfMemory\n", b"failed: record 0: Write\n"
SIDES = {"input": INPUT_FILE, "output": OUTPUT_FILE, "events": EVENTS_FILE}
HEADER = "lane,kind,op,root,items\n"
# A kind, an operation and a root of each collective, and the same for jobs of the largest machine.
KINDS = (("scan", "add", 0), ("broadcast", "-", 0), ("reduce", "min", 0), ("allreduce", "xor", 0), ("exscan", "min", 0))
LARGEST = (
    ("broadcast", "-", 4095), ("reduce", "max", 2048), ("allreduce", "add", 0), ("scan", "or", 0), ("exscan", "and", 0))


def row(lane, kind, items):
    return f"{lane},{kind[0]},{kind[1]},{kind[2]},{' '.join(map(str, items))}\n"


def jobs(count, lanes):
    rows = (row(at % lanes, KINDS[at % len(KINDS)], range(2 ** ((at + at // 5) % 5))) for at in range(count))
    return (HEADER + "".join(rows)).encode()


def refused_jobs(count):
    """Returns a file in which every third job is refused, for another column in turn."""
    wrong = ("x,scan,add,0,1\n", "0,sum,add,0,1\n", "0,scan,add,0,01\n")
    rows = (wrong[at // 3 % 3] if at % 3 == 2 else row(0, KINDS[0], range(3)) for at in range(count))
    return (HEADER + "".join(rows)).encode()


def example(name):
    return read_bytes("examples", f"{name}.csv")


def inputs():
    """Returns the words of each command, its input, and how many requests are refused in a row."""
    # Jobs of two lanes, enough for the list of all replies to grow; of all lanes, so that each grows; and large ones.
    few, many = jobs(20, 2), jobs(200, 16)
    rows = (row(at, kind, (it * 2**at for it in range(4096))) for at, kind in enumerate(LARGEST))
    large = (HEADER + "".join(rows)).encode()
    # Jobs of one lane and of one processor, whose events have one order.
    small = (HEADER + "".join(row(0, KINDS[0], [at]) for at in range(10))).encode()
    alone, four = "--dispatchers 1 --capacity 1", "--dispatchers 4 --capacity 1"
    return [
        ("run --dim 3", example("jobs"), EACH_WAY),
        (f"run --dim 4 {alone}", few, EACH_WAY),
        ("run --dim 4", many, ONE),
        (f"run --dim 4 {four}", many, ONE),
        ("run --dim 12", large, ONE),
        ("report --dim 3", example("jobs"), EACH_WAY),
        (f"report --dim 4 {alone}", few, EACH_WAY),
        (f"report --dim 4 {four}", many, ONE),
        (f"run --dim 3 {INPUT_FILE} --output {OUTPUT_FILE}", example("jobs"), EACH_WAY),
        (f"run --dim 4 {four} --output {OUTPUT_FILE}", many, ONE),
        (f"run --dim 0 {alone} {INPUT_FILE} --events {EVENTS_FILE}", small, EACH_WAY),
        (f"run --dim 0 {alone} --output {OUTPUT_FILE} --events {EVENTS_FILE}", small, EACH_WAY),
        (f"report --dim 0 {alone} --events {EVENTS_FILE}", small, ONE),
        ("run --dim 3 --long", example("jobs"), EACH_WAY),
        (f"run --dim 12 --long --output {OUTPUT_FILE}", large, ONE),
        (f"place --dim 2 {INPUT_FILE}", example("place"), EACH_WAY),
        ("place --dim 2", example("place"), EACH_WAY),
        ("replay --dim 2 --stations 3", example("schedule"), EACH_WAY),
        ("check run --dim 3", refused_jobs(30), EACH_WAY),
        (f"check run --dim 3 {INPUT_FILE}", refused_jobs(200), ONE),
        ("check replay", example("schedule"), EACH_WAY),
        ("messages --shape allreduce --dim 3", b"", EACH_WAY),
        ("help check", b"", EACH_WAY),
        ("help messages", b"", EACH_WAY),
    ]


class Command:
    def __init__(self, built, arguments, text, folder, shims):
        self.words, self.text, self.folder, self.shims = [built, *arguments.split()], text, folder, shims
        self.names_input = INPUT_FILE in self.words
        self.written = [name for name in (OUTPUT_FILE, EVENTS_FILE) if name in self.words]

    def path(self, name):
        return os.path.join(self.folder, name)

    def run(self, refused, count=1, thread=0):
        """Runs the program with `count` requests for memory refused from this one on, or no thread from this one on
        started: its status, its output, its errors, and the files that it writes."""
        env = {**os.environ, "LD_PRELOAD": self.shims, "COUNT_FILE": self.path("count")}
        env.update(REFUSE=str(refused), REFUSE_COUNT=str(count), REFUSE_THREAD=str(thread))
        put(self.path(INPUT_FILE), self.text)
        for name in self.written:
            put(self.path(name), OLD)
        how = f"{count or 'all'} from request {refused} on, or no thread from {thread} on"
        try:
            got = answer(self.words, b"" if self.names_input else self.text, env=env, timeout=SECONDS, cwd=self.folder)
        except subprocess.TimeoutExpired:
            raise Wrong(f"{how}: it hangs") from None
        left = [name for name in os.listdir(self.folder) if name.startswith(".cubejobs-")]
        must(not left, f"{how}: {left} is left")
        return *got, *(read_bytes(self.path(name)) for name in self.written)

    def may_fail_by(self, got, wanted):
        status, out, said, *files = got
        named = [f"failed: {side}: OutOfMemory: {name}\n".encode()
                 for side, name in SIDES.items() if name in self.words]
        # The output is in place before the events, so it may be whole where these could not be put in place.
        is_late = self.written == [OUTPUT_FILE, EVENTS_FILE] and said == named[-1]
        is_kept = files == [OLD] * len(files) or (is_late and files == [wanted[3], OLD])
        # Two temporary files of one folder: the second asks for a name of its own at its first write, which then fails.
        errors = [WANT, *named, *[WANT_OF_WRITE][: len(self.written) == 2]]
        return status == 3 and said in errors and wanted[1].startswith(out) and is_kept

    def counted(self):
        return [int(number) for number in read_bytes(self.path("count")).split()]

    def threads(self):
        """Returns how many threads it starts: for each dispatcher other than the first. One more writes the events."""
        if self.words[1] not in ("run", "report"):
            return 0
        dispatchers = int(self.words[self.words.index("--dispatchers") + 1]) if "--dispatchers" in self.words else 2
        return dispatchers - 1 + (EVENTS_FILE in self.written)


def refuse_each(built, shims, arguments, text, counts):
    with tempfile.TemporaryDirectory() as folder:
        command = Command(built, arguments, text, folder, shims)
        wanted = command.run(0)
        status = 1 if command.words[1:3] == ["check", "run"] else 0
        must(wanted[0] == status, f"status {wanted[0]} with ample memory")
        total, threads, *_ = command.counted()
        must(total and threads == command.threads(), f"{total} requests, {threads} threads for {command.threads()}")
        wants = 0
        for count, refused in ((count, refused) for count in counts for refused in range(1, total + 1)):
            got = command.run(refused, count)
            is_fine = got == wanted or command.may_fail_by(got, wanted)
            must(is_fine, f"{count or 'all'} from request {refused} of {total} on: status {got[0]}, errors {got[2]}")
            wants += got != wanted
        for thread in range(1, threads + 1):
            got = command.run(0, thread=thread)
            must(got == wanted, f"no thread from {thread} on: status {got[0]}, errors {got[2]}")
        must(wants, "no request is answered by OutOfMemory")
    ways = f"each of {total} requests refused, in {len(counts)} ways"
    return f"{ways}, {wants} answered by OutOfMemory; each of {threads} threads refused, with the same answer"


def refuse_second_line(built, shims):
    """Refuses each request of a command that refuses its file, with a terminal as standard error. It shows the two
    lines of such a file, or the first of them, or that memory ran out."""
    first, second = b"refused: record 1: Word\n", b'  line 2, field command: "give"; wanted: take or free\n'
    with tempfile.TemporaryDirectory() as folder:
        put(os.path.join(folder, INPUT_FILE), b"command,name,dim\ngive,a,-\n")
        env = {**os.environ, "TERM": "xterm", "LD_PRELOAD": shims, "COUNT_FILE": os.path.join(folder, "count")}

        def shown(refused):
            master, slave = pty.openpty()
            tty.setraw(slave)
            env.update(REFUSE=str(refused), REFUSE_COUNT="1", REFUSE_THREAD="0")
            command = [built, "place", "--dim", "2", INPUT_FILE]
            status, out, _ = answer(command, b"", env=env, cwd=folder, stderr=slave, timeout=SECONDS)
            os.close(slave)
            lines = os.read(master, 4096)
            os.close(master)
            return status, out, lines

        must(shown(0) == (1, b"", first + second), f"{shown(0)} with ample memory")
        total = int(read_bytes(os.path.join(folder, "count")).split()[0])
        ends = {(1, b"", first + second): 0, (1, b"", first): 0, (3, b"", WANT): 0}
        for refused in range(1, total + 1):
            got = shown(refused)
            must(got in ends, f"request {refused} of {total} refused: {got}")
            ends[got] += 1
        must(all(list(ends.values())[1:]), f"{[*ends.values()]} ends")
    return f"each of {total} requests refused"


def must_reserve_events(built, shims):
    """Sees that the room for all events is asked for before the first thread starts: it counts the bytes that a run
    asks for before that, with events and without."""
    text, sizes = HEADER.encode() + LONG * b"0,allreduce,add,0,1\n1,allreduce,add,0,1\n", []
    with tempfile.TemporaryDirectory() as folder:
        for more in ("", f" --events {EVENTS_FILE}"):
            command = Command(built, f"run --dim 3{more}", text, folder, shims)
            got = command.run(0)
            must(got[0] == 0, f"status {got[0]}, errors {got[2]}")
            sizes.append(command.counted()[3])
    room = sizes[1] - sizes[0]
    must(room >= 2 * LONG * 2 * EVENT_BYTES, f"{room} bytes are no room for the events of {2 * LONG} jobs")
    return f"{room} bytes for events"


def main(words):
    built = program(words)
    with tempfile.TemporaryDirectory() as folder:
        shims = shim("refuse.c", folder)
        rows = [Row(words, refuse_each, (built, shims, words, *how)) for words, *how in inputs()]
        rows.append(Row("room for events", must_reserve_events, (built, shims)))
        rows.append(Row("a second line on a terminal", refuse_second_line, (built, shims)))
        return run_rows("memory", rows, says_ok=True)
