"""Finds a word of the command line, a call, a page or a peer that one of its places lacks.

Each of these stands in several places, which no compiler compares. This check takes the names from the first place, and
looks for each in the others:

- an operation or a kind of collective: among the words of a record, in the help, the guide, and tests,
- a fault: in the guide and in a row of the program,
- an option of the program: in the guide and in a row of the program,
- a column of an output: in the help,
- a queue or an allocator that is no peer: in what `unlocked` reads, and in the tests in Rattle,
- an exported call: in a header, a test in C and the Rust package,
- a call of the Python module: in a test in Python,
- a page: in a link of another page,
- a benchmark: in docs/PERFORMANCE.md or the head of another one,
- a scheduler to compare with: in a script of bench/.

EXCUSED has what need not be in a place, and why; an entry that is not needed fails too. `checks/run complete`
"""
import os
import re

from checks.lib.crates import listed, uses_of
from checks.lib.repository import crate_names, files_below, path, place, read
from checks.lib.rows import blind, print_faults
from checks.source.unlocked import TOPS

HELP, GUIDE, FIELDS = "crates/cli_args/src/command_line.rt", "docs/GUIDE.md", "crates/jobs_csv/src/job_fields.rt"
ANY_NUMBER, MAN, HEADERS = "crates/tests_files/src/tests/any_number.rt", "docs/cubejobs.1", "crates/jobs_csv/src"
FAULTS = (("crates/jobs_csv/src/fault.rt", "FaultKind"), ("crates/atomic_file/src/file_fault.rt", "FileReason"))
# A name, a place that lacks it, and why nothing is missing there.
EXCUSED = {
    ("cubejobs_plan_bytes", "the Rust package"): "a planner in Rust keeps its memory on the heap",
    ("cubejobs_fit_bytes", "the Rust package"): "its size is a constant of the dimension there",
    ("cubejobs_sched_share", "the Rust package"): "threads share a scheduler by reference there",
    ("Spent", "rows of the program"): "no run is long enough for a lane to have no number left",
    ("--version", "the guide"): "each program has it, and the page on exit statuses names it",
}


def texts(*patterns, endings=("",)):
    """Returns the texts of all files below these folders, or of these files, as one."""
    files = [it for pattern in patterns for it in
             (files_below(pattern, *endings) if os.path.isdir(path(pattern)) else [path(pattern)])]
    return "\n".join(read(it) for it in files if os.path.basename(os.path.dirname(it)) != "__pycache__")


def variants(file, name):
    """Returns the variants of an enum of a file."""
    body = re.search(rf"pub enum {name} \{{\n(.*?)^\}}", read(file), re.M | re.S)[1]
    return re.findall(r"^    ([A-Z]\w*)", body, re.M)


def has(text, name):
    return re.search(rf"(?<![\w-]){re.escape(name)}(?![\w-])", text) is not None


def of_the_program():
    """Yields what kind a name is of, the name, and the texts where it must be, by their places."""
    fields, rows = read(FIELDS), texts("tests/program", endings=(".py",))
    mutants = [it.partition("_")[0] for it in os.listdir(path("mutants/collectives"))]
    places = {"the words of a record": fields, "the help": read(HELP), "the guide": read(GUIDE)}
    for name in map(str.lower, variants("crates/job_types/src/kind.rt", "Op")):
        yield "operation", name, {**places, "OPS": re.search(r"const OPS[^=]*=[^;]*;", read(ANY_NUMBER))[0].lower(),
                                  "mutants/collectives": " ".join(mutants)}
    for name in map(str.lower, variants("crates/job_types/src/kind.rt", "Kind")):
        yield "kind", name, {**places, "rows of the program": rows}
    for file, kind in FAULTS:
        for name in variants(file, kind):
            yield "fault", name, {"the guide": read(GUIDE), "rows of the program": rows}
    for name in sorted({*re.findall(r"\\-\\-([a-z-]+)", read(MAN).replace("\\-", "-").replace("--", "\\-\\-"))}):
        yield "option", f"--{name}", {"the guide": read(GUIDE), "rows of the program": rows}
    for columns in sorted({*re.findall(r'"((?:\w+,)+\w+)(?:\\n)?"', texts(HEADERS, endings=(".rt",)))}):
        for name in columns.split(","):
            yield "column", name, {"the help": read(HELP)}


def of_the_crates():
    """Yields the same of queues and allocators, and of the calls of the libraries for C."""
    read_by_unlocked = " ".join(sorted({it for top in TOPS for it in (top, *uses_of(top))}))
    for crate in (it for it in crate_names() if it not in ("uses", "locked_peers")):
        source = texts(f"crates/{crate}/src", endings=(".rt",))
        if re.search(r"^impl(?:<[^>]*>)? (?:JobLine|Floor) for", source, re.M):
            yield "queue or allocator", crate, {"unlocked": read_by_unlocked, "tests/uses.txt": read("tests/uses.txt")}
        if crate in listed() and crate.startswith("cubejobs_"):
            yield from of_a_library(crate, source)


def of_a_library(crate, source):
    """Yields the same of the calls that a library exports, and of its codes."""
    header = read(f"include/{crate}.h")
    tests, rust = texts("tests/c", "examples", endings=(".c", ".cpp", ".h")), texts("rust/src", endings=("_ffi.rs",))
    inline = re.split(r"(?m)^(?=(?:CUBEJOBS_NODISCARD )?CUBEJOBS_INLINE\b)", header)[1:]
    for name in re.findall(r'pub extern "C" fn (\w+)', source):
        yield "call", name, {"its header": header}
        if not name.endswith("_version_number"):
            # An inline function of the header may make the call.
            callers = [re.search(r"\b(cubejobs_\w+)\(", it)[1] for it in inline if f"{name}(" in it]
            yield "call", name, {"the tests in C": " ".join([tests, *(name for it in callers if has(tests, it))])}
            yield "call", name, {"the Rust package": rust}


def of_pages():
    """Yields the same of the Python module, of pages, of benchmarks and of schedulers to compare with."""
    module, tests = texts("python/cubejobs", endings=(".py",)), texts("tests/python", "examples", endings=(".py",))
    public = [it for it in re.split(r"(?m)^(?=class |def )", module) if re.match(r"class [A-Z]", it)]
    for name in sorted({it for one in public for it in re.findall(r"^    def ([a-z]\w*)\(self", one, re.M)}):
        yield "call of Python", name, {"the tests in Python": tests}
    pages = [it for it in files_below("docs", ".md") if os.path.dirname(it) == path("docs")]
    for page in map(place, pages):
        others = texts("README.md", "CONTRIBUTING.md", *(it for it in pages if place(it) != page))
        yield "page", os.path.basename(page), {"a link of another page": others}
    measured = texts("docs/PERFORMANCE.md", "docs/STATUS.md", "CONTRIBUTING.md", "docs/RUST.md",
                     "rust/pool/README.md")
    for name in sorted(os.listdir(path("bench"))):
        if os.path.isfile(path("bench", name)) and os.access(path("bench", name), os.X_OK):
            yield "benchmark", f"bench/{name}", {"docs/PERFORMANCE.md": measured}
    scripts = texts(*(f"bench/{it}" for it in os.listdir(path("bench")) if os.path.isfile(path("bench", it))))
    for folder in ("schedulers", "workers"):
        programs = "\n".join([scripts, texts(f"bench/{folder}", endings=(".c", ".h"))])
        for name in sorted(it for it in os.listdir(path("bench", folder)) if it.endswith(".h")):
            stem = name.removesuffix(".h")
            yield "peer", stem, {"a script of bench/": programs.replace(f'"{name}"', stem)}


def lacking(found, excused):
    """Yields a sentence for each name that a place lacks, and for each excuse that is not needed."""
    needed = set()
    for kind, name, places in found:
        for where, text in places.items():
            if not has(text, name):
                needed.add((name, where))
                if (name, where) not in excused:
                    yield f"the {kind} {name} is not in {where}"
    yield from (f"complete: the excuse for {name} in {where} is not needed" for name, where in excused if
                (name, where) not in needed)


def main(_):
    faults = [*lacking([*of_the_program(), *of_the_crates(), *of_pages()], EXCUSED)]
    sample = [("call", "a_call", {"here": "a_call()", "there": "a_call_more()"})]
    wanted = ["a_call is not in there", "excuse for a_call in here"]
    faults += blind("complete", [([*lacking(sample, {("a_call", "here"): "why"})], wanted)])
    return print_faults(faults)
