"""Compares the codes of the libraries for C, which share one row of numbers.

A name has one number in all headers, and a number one name, except those of OTHERS. include/cubejobs_codes.h has a text
for each number, each a different one, and for no other. A crate has the codes of its header that its library returns.
The Rust package and the page have the numbers of the headers. `checks/run codes` prints what differs.
"""
import re
from typing import NamedTuple, Tuple

from checks.lib.repository import read
from checks.lib.rows import must, print_faults


class Library(NamedTuple):
    """A library: its header, the prefix and the enum of its codes, its crate, and the codes that no call of it
    returns."""

    header: str
    prefix: str
    enum: str
    crate: str
    not_its_own: Tuple[str, ...] = ()


LIBRARIES = (
    Library("cubejobs_fit.h", "CUBEJOBS_FIT_", "cubejobs_fit_code", "cubejobs_fit"),
    Library("cubejobs_regions.h", "CUBEJOBS_REGIONS_", "cubejobs_regions_code", "cubejobs_regions",
            ("TIMED_OUT", "STOPPED", "STALE")),
    Library("cubejobs_lanes.h", "CUBEJOBS_LANES_", "cubejobs_lanes_code", "cubejobs_lanes", ("TIMED_OUT",)),
    Library("cubejobs_plan.h", "CUBEJOBS_PLAN_", "cubejobs_plan_code", "cubejobs_plan"),
    Library("cubejobs_rounds.h", "CUBEJOBS_ROUNDS_", "cubejobs_rounds_code", "cubejobs_rounds"),
    Library("cubejobs_sched.h", "CUBEJOBS_SCHED_", "cubejobs_sched_code", "cubejobs_sched", ("TIMED_OUT",)),
)
TEXTS = "cubejobs_codes.h"
# Codes of the planner and of the scheduler with a name or a number of the lanes: they are full themselves, and not a
# lane; and where the lanes say that a queue is empty, they say of any call that there is no job.
OTHERS = {it: ("FULL", "NO_JOB") for it in ("cubejobs_plan.h", "cubejobs_sched.h")}
# Where the Rust package has numbers of codes, and the header that they are of.
IN_RUST = {"fit_ffi.rs": "cubejobs_fit.h", "regions_ffi.rs": "cubejobs_regions.h", "lanes_ffi.rs": "cubejobs_lanes.h",
           "rounds_ffi.rs": "cubejobs_rounds.h", "plan_ffi.rs": "cubejobs_plan.h", "sched_ffi.rs": "cubejobs_sched.h"}
# The outcomes of the page that are codes of cubejobs_fit.h.
IN_PAGE = {"given": "DONE", "freed": "DONE", "nosubcube": "NO_ROOM"}
CONSTANT = re.compile(r"^pub const ([A-Z_]+): u32 = (\d+);", re.M)


def codes_of(library):
    """Returns the codes of a header: the number of each name."""
    text = read("include", library.header)
    found = re.search(rf"^enum {library.enum} \{{(.*?)^\}};", text, re.M | re.S)
    must(found, f"{library.header} has no enum {library.enum}")
    codes = {name: int(number) for name, number in re.findall(rf"{library.prefix}([A-Z_]+) = (\d+)", found[1])}
    must(len(codes) > 2, f"{library.header} has {len(codes)} codes")
    return codes


def faults():
    headers = {it.header: codes_of(it) for it in LIBRARIES}
    names, numbers = {}, {}
    for header, codes in headers.items():
        for name, number in codes.items():
            if name in OTHERS.get(header, ()):
                numbers.setdefault(number, name)
                continue
            if names.setdefault(name, number) != number:
                yield f"{header}: {name} is {number}, and elsewhere {names[name]}"
            if numbers.setdefault(number, name) != name:
                yield f"{header}: {number} is {name}, and elsewhere {numbers[number]}"
    texts = re.findall(r'^    case (\d+): return "(.*)";', read("include", TEXTS), re.M)
    if len(dict(texts)) != len(texts) or len({text for _, text in texts}) != len(texts):
        yield f"{TEXTS}: two codes, or two texts, are the same"
    yield from (f"{TEXTS}: {number} has a text, and is no code" for number, _ in texts if int(number) not in numbers)
    yield from (f"{TEXTS}: {number} has no text" for number in numbers if str(number) not in dict(texts))
    for library in LIBRARIES:
        own = {name: number for name, number in headers[library.header].items() if name not in library.not_its_own}
        crate = {name: int(number) for name, number in CONSTANT.findall(read("crates", library.crate, "src/codes.rt"))
                 if name not in ("VERSION", "NO_WORKER")}
        if crate != own:
            yield f"{library.crate} and {library.header} differ in {sorted(set(crate.items()) ^ set(own.items()))}"
    shown = re.findall(r"^const (?:TAKEN|FREED) = \{ __proto__: null, (.*) \};", read("view/index.html"), re.M)
    pairs = {word: int(number) for line in shown for number, word in re.findall(r'(\d+): "(\w+)"', line)}
    if pairs != {word: headers["cubejobs_fit.h"][name] for word, name in IN_PAGE.items()}:
        yield f"view/index.html has the codes {pairs}"
    for file, header in IN_RUST.items():
        constants = CONSTANT.findall(read("rust/src", file))
        for name, number in constants:
            if name in names and headers[header].get(name) != int(number):
                yield f"rust/src/{file}: {name} is {number}, and in {header} {headers[header].get(name)}"


def main(words):
    must(not words, "codes takes no words")
    return print_faults(faults())
