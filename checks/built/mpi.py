"""Builds and runs examples/mpi/cubempi.c with 9 MPI ranks: `checks/run mpi [FOLDER]`, over the program and libraries of
a folder, or those of release/.

It runs 500 random jobs of every kind, by rounds and by MPI's own collectives, and compares the bytes with those of
`cubejobs run`. Each decision that the trace has must be that of the plain model of the planner. The messages of each
job must be those of the textbook's trees and exchanges. Ctrl-C must cancel what waits. Wrong programs must be seen, and
bad files named by line and field. It is skipped where mpicc or mpirun is not there.
"""
import collections
import os
import random
import signal
import subprocess
import tempfile
import time

from checks.lib.repository import path, read
from checks.lib.rows import Row, Skipped, Wrong, answer, comes, must, needs, output, put, run_rows
from tests.models.plan_model import DONE, NO_JOB, Model

RELEASE, SOURCE = path("release", "linux-x86_64"), "examples/mpi/cubempi.c"
DIM, JOBS, SECONDS = 3, 500, 60
LIBRARIES = ("libcubejobs_plan.a", "libcubejobs_rounds.a")
# How often the jobs come again in a run that Ctrl-C ends.
AGAIN = 100
STRICT = ["-std=c11", "-O2", "-Wall", "-Wextra", "-Werror", "-pedantic", f"-I{path('include')}"]
# Open MPI refuses more ranks than cores, and the superuser, unless it is asked. Ranks that wait yield to others.
OF_OPEN_MPI = ["--oversubscribe", "--allow-run-as-root"]
QUIET = {"OMPI_MCA_mpi_yield_when_idle": "1", "OMPI_MCA_btl": "self,vader"}
KINDS, OPS = ("broadcast", "reduce", "allreduce", "scan", "exscan"), ("add", "min", "max", "xor", "and", "or")
HEADER = "lane,kind,op,root,items\n"
# What is wrong with a program: its text, and the text that replaces it.
WRONG = (
    ("the root is ignored", "t->dim, t->root, me, round)", "t->dim, 0, me, round)"),
    ("each job gets the first block", "start((int)it.payload, (int)it.base)", "start((int)it.payload, 0)"),
    ("estimates are left out", "return 500 * (job->dim + 1)", "return job->dim * 0"),
    ("a message is not counted", "part->to[round] = to == MPI_PROC_NULL", "part->to[round] = to != MPI_PROC_NULL"),
)
# Lines that are no jobs of a machine of 8 processors, and the fields that are named.
BAD = (("16,scan,add,0,1", "lane"), ("-1,scan,add,0,1", "lane"), (",scan,add,0,1", "lane"),
       ("0,gather,add,0,1", "kind"), ("0,scan,mul,0,1", "op"), ("0,scan,-,0,1", "op"), ("0,broadcast,add,0,1", "op"),
       ("0,scan,add,1,1", "root"),
       ("0,reduce,add,2,1 2", "root"), ("0,reduce,add,,1 2", "root"), ("0,scan,add,0,", "items"),
       ("0,scan,add,0", "items"),
       ("0,scan,add,0,1  2", "items"), ("0,scan,add,0,1 x", "items"), ("0,scan,add,0,18446744073709551616", "items"),
       ("0,scan,add,0,1 2 3 4 5 6 7 8 9", "items"), ("0,scan,add,0,-1", "items"), ("0,scan,add,0,1,2", "end"),
       ("", "lane"), ("0,scan,add,0,1\0,2", "byte"))


def random_jobs(seed):
    draw = random.Random(seed)
    yield HEADER
    for _ in range(JOBS):
        k = draw.randint(0, DIM)
        count, kind = draw.randint((1 << k) // 2 + 1, 1 << k), draw.choice(KINDS)
        root = draw.randrange(count) if kind in ("broadcast", "reduce") else 0
        most = draw.choice((9, 999, 2**64 - 1))
        items = " ".join(str(draw.randint(0, most)) for _ in range(count))
        yield f"{draw.randrange(16)},{kind},{'-' if kind == 'broadcast' else draw.choice(OPS)},{root},{items}\n"


def build(folder, room, source=None, compiler="gcc"):
    """Compiles the example, or another text of it. Returns the program."""
    needs(compiler)
    file = path(SOURCE)
    if source:
        file = f"{room}/wrong.c"
        put(file, source)
    libraries = [os.path.join(folder, it) for it in LIBRARIES]
    env = {**os.environ, "OMPI_CC": compiler, "MPICH_CC": compiler}
    status, _, said = answer(["mpicc", *STRICT, file, *libraries, "-o", f"{room}/cubempi"], timeout=SECONDS, env=env)
    must(status == 0, f"mpicc: {said.decode(errors='replace')}")
    return f"{room}/cubempi"


def is_open_mpi():
    return "Open MPI" in output(["mpirun", "--version"])


def run(program, *words, ranks=(1 << DIM) + 1):
    """Runs the program. Returns its status, its output and its errors."""
    more = OF_OPEN_MPI if is_open_mpi() else []
    return answer(["mpirun", *more, "-n", str(ranks), program, *words], env={**os.environ, **QUIET}, timeout=SECONDS)


def messages(kind, k, root):
    """Returns the messages of a collective, by the textbook: a binomial tree, or an exchange in each round."""
    pairs = [(i, rank, rank ^ 1 << i) for i in range(k) for rank in range(1 << k)]
    if kind == "broadcast":
        return {(i, a, b) for i, a, b in pairs if a ^ root < 1 << i}
    if kind == "reduce":
        return {(i, a, b) for i, a, b in pairs if (a ^ root) % (2 << i) == 1 << i}
    return set(pairs)


class Plan:
    """The plain model of the planner, with all jobs of a file."""

    def __init__(self, dims):
        self.model, self.most = Model(DIM, len(dims), 16), 0
        for job, k in enumerate(dims):
            self.model.submit(job, 500 * (k + 1), 1 << k, 0)

    def start(self, job, base, now):
        code, told = self.model.next(now)
        must(code == DONE and (told[8], told[1]) == (job, base),
             f"job {job} starts at {base}, and the model says {told}")
        self.most = max(self.most, self.model.counts()[1])

    def rest(self, now):
        must(self.model.next(now)[0] == NO_JOB, "a job may start, and none does")

    def end(self, job):
        must(self.model.finish(job)[0] == DONE, f"job {job} does not run")


def must_be_traced(trace, text):
    """Sees that decisions are those of the model, and messages those of the jobs. Returns how many jobs ran at once at
    most."""
    jobs = [line.split(",") for line in text.splitlines()[1:]]
    dims = [(len(items.split()) - 1).bit_length() for _, _, _, _, items in jobs]
    plan, sent = Plan(dims), collections.defaultdict(set)
    for word, *numbers in (line.rstrip("\n").split(",") for line in open(trace, encoding="utf-8")):
        job, *rest = map(int, numbers)
        if word == "sent":
            must(tuple(rest) not in sent[job], f"job {job} sent {rest} twice")
            sent[job].add(tuple(rest))
        else:
            getattr(plan, word)(job, *rest)
    must(not plan.model.jobs, "not each job ran once")
    for job, (_, kind, _, root, _) in enumerate(jobs):
        must(sent[job] == messages(kind, dims[job], int(root)), f"job {job} has other messages: {jobs[job]}")
    return plan.most


def must_run(program, room, text, want, split):
    put(f"{room}/jobs.csv", text)
    words = ["--split"] if split else ["--trace", f"{room}/trace"]
    if split and not is_open_mpi():
        raise Skipped("this is not Open MPI: min and max of MPICH 4.0 compare as signed")
    status, out, said = run(program, *words, f"{room}/jobs.csv")
    must(status == 0, f"status {status}: {said.decode(errors='replace')[-1000:]}")
    must(out.decode() == want, "the output is not that of `cubejobs run`")
    return "" if split else f"at most {must_be_traced(f'{room}/trace', text)} jobs at once"


def must_stop(program, room, text):
    """Sees that Ctrl-C cancels what waits: the output has the jobs that have run, and they are those of the trace."""
    header, _, lines = text.partition("\n")
    put(f"{room}/many.csv", f"{header}\n{lines * AGAIN}")
    words = ["mpirun", *(OF_OPEN_MPI if is_open_mpi() else []), "-n", str((1 << DIM) + 1), program]
    words += ["--trace", f"{room}/stopped", "--out", f"{room}/out", f"{room}/many.csv"]
    with subprocess.Popen(words, env={**os.environ, **QUIET}, stderr=subprocess.DEVNULL) as ran:
        must(comes(lambda: os.path.exists(f"{room}/stopped") and os.path.getsize(f"{room}/stopped"), SECONDS),
             "no job starts")
        time.sleep(0.2)
        ran.send_signal(signal.SIGINT)
        ran.wait(SECONDS)
    words = [line.split(",")[0] for line in open(f"{room}/stopped", encoding="utf-8")]
    rows_of_jobs = read(f"{room}/out").count("\n") - 1
    must(rows_of_jobs == words.count("end") == words.count("start"),
         f"{rows_of_jobs} rows, {words.count('start')} starts")
    must(0 < rows_of_jobs < JOBS * AGAIN, f"{rows_of_jobs} jobs ran")
    return f"{rows_of_jobs} of {JOBS * AGAIN} jobs"


def must_see(folder, room, text, want, old, new):
    """Sees that a wrong program fails, or that what it writes does."""
    right = read(SOURCE)
    must(right.count(old) == 1, f"{SOURCE} has no {old!r}")
    program = build(folder, room, right.replace(old, new))
    try:
        must_run(program, room, text, want, False)
    except Wrong:
        return
    raise Wrong("it is not seen")


def must_name(program, room, text, said):
    """Sees that a bad file is named with line and field, and that nothing is written."""
    put(f"{room}/bad.csv", text)
    status, out, err = run(program, f"{room}/bad.csv")
    wanted = f"cubempi: {room}/bad.csv{said}\n"
    must(status == 2 and out == b"" and wanted.encode() in err, f"status {status}, output {out!r}, errors {err!r}")


def must_report(program, room, trace, said):
    """Sees that a trace that cannot be written is reported."""
    put(f"{room}/one.csv", f"{HEADER}0,scan,add,0,1 2\n")
    status, _, err = run(program, "--trace", trace, f"{room}/one.csv")
    must(status == 3 and said in err, f"status {status}, errors {err!r}")


def must_refuse(program, words, ranks):
    status, out, err = run(program, *words, ranks=ranks)
    must(status == 2 and out == b"" and err.count(b"usage: ") == 1, f"status {status}, output {out!r}, errors {err!r}")


def rows(folder, room):
    program, text = build(folder, room), "".join(random_jobs(1))
    put(f"{room}/jobs.csv", text)
    want = output([os.path.join(folder, "cubejobs"), "run", "--dim", str(DIM), f"{room}/jobs.csv"])
    for split in (False, True):
        title = f"{JOBS} jobs by {'MPI' if split else 'rounds'}"
        yield Row(title, must_run, (program, room, text, want, split))
    if is_open_mpi():
        yield Row("Ctrl-C", must_stop, (program, room, text))
    for number, (line, field) in enumerate(BAD):
        before = "0,scan,add,0,1\n" * (number % 3)
        said = f":{2 + number % 3}: bad {field}"
        yield Row(f"{line!r}", must_name, (program, room, f"{HEADER}{before}{line}\n", said))
    yield Row("no header", must_name, (program, room, "0,scan,add,0,1\n", ":1: bad header"))
    yield Row("an empty file", must_name, (program, room, "", ": no file of jobs"))
    jobs = f"{room}/jobs.csv"
    for words, ranks in (([], 9), (["--all", jobs], 9), ([jobs], 8), ([jobs], 1)):
        yield Row(f"{len(words)} words, {ranks} ranks", must_refuse, (program, words, ranks))
    yield Row("a full disk", must_report, (program, room, "/dev/full", b"cubempi: output: No space left on device"))
    yield Row("no folder", must_report, (program, room, f"{room}/none/trace", b"cubempi: LOG: No such file"))
    wrong = f"{room}/wrong"
    os.mkdir(wrong)
    yield Row("it compiles by clang", build, (folder, wrong, None, "clang"))
    for what, old, new in WRONG:
        yield Row(f"{what}: it is seen", must_see, (folder, wrong, text, want, old, new))


def main(words):
    folder = os.path.realpath(words[0]) if words else RELEASE
    needs("mpicc", "mpirun")
    with tempfile.TemporaryDirectory(prefix="mpi-") as room:
        return run_rows("mpi", rows(folder, room), says_ok=True)
