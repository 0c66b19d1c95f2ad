"""Runs examples/pinjobs.c (a part of ffi): commands that read their own CPUs, bad lines, a full disk, and Ctrl-C."""
import itertools
import os
import re
import signal
import subprocess
import tempfile

from checks.lib.rows import Skipped, answer, comes, must, must_be_answer, put

COMMANDS, SECONDS = 200, 120
# How much later than it was started a command may read the clock, in nanoseconds.
JITTER = 10**9
# What a command writes of itself: its line, OMP_NUM_THREADS, its CPUs, and when it began and ended.
COMMAND = "b=$(date +%s%N); sleep 0.0{}; grep Cpus_allowed_list /proc/self/status | " \
    "sed \"s/.*:/{} $OMP_NUM_THREADS $b $(date +%s%N)/\" >> {}"
WRONG = ("true", "0 1 true", "-1 1 true", "1", "1 ", "1 1", "1 1 ", "1 true", "1true", "1 1true", "x 1 true", "",
         "4096 1 true",
         "99999999999999999999 1 true", "1 -1 true", "1 1000000001 true", "1 1 a\0b")


def cpus_in(text):
    """Returns the CPUs of a list as the system writes it."""
    ends = [[int(it) for it in part.split("-")] for part in text.split(",")]
    return frozenset(cpu for it in ends for cpu in range(it[0], it[-1] + 1))


def widths():
    """Returns what lines may ask for: powers of two up to the CPUs that are here, and one more than most of them."""
    most = len(os.sched_getaffinity(0)).bit_length() - 1
    return sorted({1 << it for it in range(most + 1)} | {(1 << it) + 1 for it in range(1, most)})


def must_pin(words, room):
    """Sees that each command had CPUs of its own, and that those of one width began in their order."""
    asked, seen, log = [*itertools.islice(itertools.cycle(widths()), COMMANDS)], f"{room}/seen", f"{room}/log"
    put(f"{room}/jobs", "".join(f"{it} 9 {COMMAND.format(n % 4, n, seen)}\n" for n, it in enumerate(asked, 1)))
    put(seen, "")
    put(log, "")
    must_be_answer(answer([*words, f"{room}/jobs", log], timeout=SECONDS), 0, "", "")
    logged = {int(n): (code, frozenset(map(int, cpus.split()))) for n, code, cpus, _ in (
        line.split("\t", 3) for line in open(log, encoding="utf-8"))}
    runs = [line.split() for line in open(seen, encoding="utf-8")]
    must(all(len(it) == 5 for it in runs), "a command has no OMP_NUM_THREADS")
    must(sorted(int(it[0]) for it in runs) == [*range(1, COMMANDS + 1)] == sorted(logged), "not each command ran once")
    spans = []
    for number, threads, begun, ended, cpus in runs:
        width, own = asked[int(number) - 1], cpus_in(cpus)
        must(threads == str(width) and len(own) == width, f"line {number}: {threads} threads on {cpus}")
        must(logged[int(number)] == ("0", own), f"line {number}: {logged[int(number)]}, and it had {cpus}")
        spans.append((int(begun), int(ended), own))
    for one, other in itertools.combinations(spans, 2):
        is_apart = one[1] < other[0] or other[1] < one[0] or not one[2] & other[2]
        must(is_apart, f"two commands shared CPUs: {one} and {other}")
    blocks = {own for _, _, own in spans if len(own) & len(own) - 1 == 0}
    must(all(a <= b or b <= a or not a & b for a in blocks for b in blocks), "blocks are not aligned")
    begins = {int(it[0]): int(it[2]) for it in runs}
    for width in widths():
        same = [begins[n] for n, it in enumerate(asked, 1) if it == width]
        late = max(before - after for before, after in zip(same, same[1:]))
        must(late < JITTER, f"a command began {late} ns before an older one of {width} CPUs")


def must_plan(words, room):
    """Sees that a brief command passes one that waits for all CPUs, and that a long one does not."""
    most, log = max(widths()), f"{room}/plan"
    if most == 1:
        raise Skipped("one CPU here")
    lines = ("1 3 sleep 1", f"{most} 9 true", "1 60 true", "1 1 true")
    put(f"{room}/jobs", "\n".join(lines))
    put(log, "")
    must_be_answer(answer([*words, f"{room}/jobs", log], timeout=SECONDS), 0, "", "")
    order = [line.split("\t")[0] for line in open(log, encoding="utf-8")]
    must(order == ["4", "1", "2", "3"], f"they end in the order {order}")


def must_refuse(words, room):
    """Sees that a bad line is named, and that nothing starts: not even the line before it."""
    log = f"{room}/refused"
    for line in WRONG:
        put(f"{room}/jobs", f"1 1 touch {room}/started\n{line}\n1 1 touch {room}/started\n")
        status, out, err = answer([*words, f"{room}/jobs", log])
        said = rf"{room}/jobs:2: not 1 to \d+ CPUs, seconds and a command\n"
        must(status == 2 and out == b"" and re.fullmatch(said, err.decode()), f"{line!r}: {status}, {err!r}")
        must(not os.path.exists(f"{room}/started") and not os.path.exists(log), f"{line!r}: something started")
    put(f"{room}/jobs", "1 1 true\n")
    for more, status, said in (([], 2, "usage"), ([f"{room}/jobs"], 2, "usage"),
                               ([f"{room}/none", log], 3, f"pinjobs: {room}/none: No such file"),
                               ([room, log], 3, f"pinjobs: {room}: Is a directory"),
                               ([f"{room}/jobs", f"{room}/none/log"], 3, f"pinjobs: {room}/none/log: No such file")):
        got = answer([*words, *more])
        must(got[0] == status and got[2].startswith(said.encode()), f"{more}: {got}")


def must_log(words, room):
    """Sees exit codes, signals, an empty file, a last line without an end, and a full disk."""
    log = f"{room}/codes"
    put(f"{room}/jobs",
        "1 0 exit 7\n1 0 kill -9 $$\n1\t0\tno_such_command_at_all 2> /dev/null\n1 0 read x; test -z \"$x\"")
    put(log, "")
    must_be_answer(answer([*words, f"{room}/jobs", log]), 1, "", "")
    codes = sorted(line.split("\t")[:2] for line in open(log, encoding="utf-8"))
    must(codes == [["1", "7"], ["2", "137"], ["3", "127"], ["4", "0"]], f"the log has {codes}")
    put(f"{room}/jobs", "")
    must_be_answer(answer([*words, f"{room}/jobs", log]), 0, "", "")
    put(f"{room}/jobs", f"1 0 echo >> {room}/ran\n" * 500)
    status, _, err = answer([*words, f"{room}/jobs", "/dev/full"])
    must(status == 3 and err == b"/dev/full: No space left on device\n", f"a full disk: {status}, {err!r}")
    must(len(open(f"{room}/ran", encoding="utf-8").read()) < 500, "all commands ran on a full disk")


def must_stop(words, room):
    """Sees that Ctrl-C ends what runs, and that a second one ends what minds no SIGTERM."""
    for trap, signals, codes in (("", 1, {"143"}), ("trap '' TERM; ", 2, {"137"})):
        log = f"{room}/stopped{signals}"
        lasting = f"{trap}touch {room}/runs{signals}.$$; for i in 1 2 3 4 5 6 7 8 9; do sleep 2; done"
        put(f"{room}/jobs", f"1 9 {lasting}\n" * 300)
        with subprocess.Popen([*words, f"{room}/jobs", log], stderr=subprocess.PIPE) as run:
            ran = lambda: sum(it.startswith(f"runs{signals}.") for it in os.listdir(room))
            must(comes(lambda: ran() == len(os.sched_getaffinity(0)), SECONDS), "the commands do not start")
            for number in range(signals):
                must(number == 0 or comes(lambda: run.poll() is None, 1), "it ended at the first one")
                run.send_signal(signal.SIGINT)
                comes(lambda: run.poll() is not None, 1)
            must(comes(lambda: run.poll() is not None, SECONDS), "it does not end")
        ended = [line.split("\t")[1] for line in open(log, encoding="utf-8")]
        must(run.returncode == 130 and set(ended) == codes, f"status {run.returncode}, codes {ended}")
        must(len(ended) == ran() <= len(os.sched_getaffinity(0)), f"{len(ended)} commands have ended, {ran()} began")


# What is wrong with a program: its text, and the text that replaces it.
WRONG_PROGRAMS = (
    ("no command is pinned", "!sched_setaffinity(0, sizeof set, &set)", "!0"),
    ("each command gets the first block", "job->base = it.base", "job->base = 0"),
    ("a command gets all of its block", "p < job->base + job->want; p++) CPU_SET", "p < job->base + 1; p++) CPU_SET"),
    ("estimates are not passed on", "jobs[i].estimate * 1000", "0"),
    ("OMP_NUM_THREADS is not set", "!setenv(\"OMP_NUM_THREADS\", number, 1)", "!0"),
    ("the last bad line is not seen", "memchr(line, 0, (size_t)length - 1)", "0"),
    ("a signal is no exit code", "128 + WTERMSIG(status)", "WTERMSIG(status)"),
    ("a second Ctrl-C is no harder", "stops++ ? SIGKILL : SIGTERM", "stops++ ? SIGTERM : SIGTERM"),
)


def must_work(room, program):
    """Builds the program, and runs it."""
    words = program.make(room)
    for part in (must_pin, must_plan, must_refuse, must_log, must_stop):
        with tempfile.TemporaryDirectory(dir=room) as folder:
            part(words, folder)
    return f"{COMMANDS} commands"
