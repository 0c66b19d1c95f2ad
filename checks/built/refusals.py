"""Refuses memory to single calls of the libraries, and looks at what comes back.

The programs `cube_bench` and `library_bench` make calls one after the other, and after each they write a line: the
call's name, and what came back. Each request for memory is refused in turn, then each and the two after it, then each
and all after it. A call must say OutOfMemory exactly where one of its own requests was
refused, and give back what it got: all items of a job, all stations of a cube, all replies that a worker has. A call
that is to take no memory makes no request. In the end the program holds as many blocks of memory as in the beginning.
`checks/run refusals FILE` tries FILE, which has the name of one of them.
"""
import os
import tempfile

from checks.lib.repository import path
from checks.lib.rows import Row, Wrong, answer, must, run_rows
from checks.lib.toolchain import shim

BUILT = "crates/{0}/out/{0}".format
BENCH, OF_LIBRARIES = "cube_bench", "library_bench"
# A run that takes longer, in seconds, hangs.
SECONDS = 20
# How many requests are refused in a row: one alone, three, and all from the first one on.
MODES = {"one": "1", "three": "3", "all": "0"}
REFUSED = " OutOfMemory"

# The calls of each run of a program: the call's name, what it gives, what comes back where it is refused (None: it
# takes no memory), and how many of the calls after it are left out then.
REST = 99
ITEMS = [("items", " 4 7 1 8", "", 1), ("Job::new", " 4 7 1 8", " 4 7 1 8", 0)]
RUNS = {
    (BENCH, "memory", "cube"): [("Cube::open", " 0 1 2", "", REST), ("Solo::new", " 0", " 0 1 2", REST)],
    (BENCH, "memory", "items"): ITEMS * 5,
    (BENCH, "memory", "files"): [(f"read_{name}", " 9", " 0", 0) for name in ("jobs", "place", "schedule")],
    # A machine of dimension 10 has 17 words, and its first block of 32 processors begins at 0.
    (OF_LIBRARIES, "block_memory"): [
        ("open", " 10", "", 2), ("take", " 0", None, 0), ("close", " 17", None, 0),
        ("open_with_permits", " 3", "", 1), ("close_with_permits", " 17", None, 0),
    ],
    # A job is submitted to the first of two lanes.
    (OF_LIBRARIES, "job_memory"): [("Lanes::open", " 2", "", 2), ("deal_worker", " 0", "", 1), ("into_rest", " 1", None, 0)],
}


def shop_calls(count):
    """Returns the calls on a shop that answers this many jobs. A worker that is refused has some of the replies."""
    return [
        ("jobs", f" {count}", "", REST),
        ("Shop::open", "", "", REST),
        ("feed Done", " 0", None, 0),
        ("dispatch", f" {count}", [f" {replies}" for replies in range(count + 1)], 0),
        ("finish", "".join(f" {seq}" for seq in range(count)), None, 0),
        ("Ledger::of", f" {count}", "", 0),
    ]


SHOPS = ("free", "locked")
RUNS.update({(BENCH, "memory", "shop", shop, str(jobs)): shop_calls(jobs) for shop in SHOPS for jobs in (3, 4, 9)})


def told(out):
    lines = out.decode().split("\n")
    must(lines.pop() == "" and len(lines) % 2 == 0, f"output {lines[-2:]}")
    counts = [tuple(int(word) for word in line.split()[1:]) for line in lines[1::2]]
    return list(zip(lines[::2], counts))


def must_be(calls, lines):
    """Sees that these lines are of these calls, some left out after a refused one. Returns how many were refused."""
    must(lines and lines[0][0] == "begin", "it does not begin")
    given = refused = left_out = 0
    before, lines = lines[0][1], iter(lines[1:])
    for name, gives, back, skips in calls:
        if left_out:
            left_out -= 1
            continue
        line, counts = next(lines, (None, None))
        must(counts, f"no line of {name}")
        requests, refusals = counts[0] - before[0], counts[1] - before[1]
        before = counts
        must(back is not None or requests == 0, f"{name} makes {requests} requests")
        if refusals:
            wanted = [f"{name}{REFUSED}{end}" for end in ([back] if isinstance(back, str) else back)]
            must(line in wanted, f"{line!r} where {name} is refused")
            refused, left_out = refused + 1, skips
        else:
            must(line == name + gives, f"{line!r} where {name} is not refused")
            given += back is not None
    line, _ = next(lines, (None, None))
    must(line == str(given), f"{line!r} at the end, where {given} calls had memory")
    must(next(lines, None) is None, "a line more")
    return refused


def run(command, shims, refused, mode):
    env = {**os.environ, "LD_PRELOAD": shims, "REFUSE": str(refused), "REFUSE_COUNT": mode, "TELL": "1"}
    status, out, err = answer(command, env=env, timeout=SECONDS)
    must(err == b"", f"errors {err}")
    return status, told(out)


def is_told(command, shims, calls, mode, refused, begin):
    """Answers whether a call of the run is refused where this request is."""
    status, lines = run(command, shims, refused, mode)
    if refused <= begin and (status, lines) == (3, []):
        return False  # there is no room for the program's own words
    must(status == 0, f"status {status}")
    # The C library does without the buffer that it asks for with the first line.
    told_so = must_be(calls, lines) > 0
    must(told_so or refused <= begin, "no call says so")
    must(lines[0][1][2] == lines[-1][1][2], f"{lines[0][1][2]} blocks become {lines[-1][1][2]}")
    return told_so


def try_each(command, shims, calls):
    """Refuses the requests of a run in turn, in each mode. Returns how many runs there were, and refused a call."""
    status, ample = run(command, shims, 0, "1")
    must(status == 0 and must_be(calls, ample) == 0, f"status {status} with ample memory")
    begin, end = ample[0][1][0], ample[-1][1][0]
    wants = 0
    for mode, refused in ((mode, refused) for mode in MODES for refused in range(1, end + 1)):
        try:
            wants += is_told(command, shims, calls, MODES[mode], refused, begin)
        except Wrong as wrong:
            raise Wrong(f"request {refused} of {end}, {mode}: {wrong}") from None
    must(wants > 0, "no request is refused to a call")
    return f"{len(MODES) * end} runs with requests refused, in {wants} to a call"


def main(words):
    named = {os.path.basename(word): os.path.realpath(word) for word in words}
    programs = named or {name: path(BUILT(name)) for name in (BENCH, OF_LIBRARIES)}
    for name, built in programs.items():
        must(os.path.exists(built), f"{name} is not built: cd crates/{name} && rt run")
    with tempfile.TemporaryDirectory() as folder:
        shims = shim("refuse.c", folder)
        runs = [(of, programs[of[0]], calls) for of, calls in RUNS.items() if of[0] in programs]
        rows = [Row(" ".join(of), try_each, ([built, *of[1:]], shims, calls))
                for of, built, calls in runs]
        return run_rows("refusals", rows, says_ok=True)
