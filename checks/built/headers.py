"""Compiles the headers in `include/` in each C from C89 to C23 and each C++ from C++98 to C++23, with no warning.

Each header stands alone, and all stand together in either order, under gcc and clang, and the sanitizers of which a
header knows. Some begin with a later standard. C++ can say the name of each struct, where that of NAMED_TWICE needs the
word `struct`, as `stat` does. A line names each
compiler that is not there and each standard that it does not know. Headers with a fault must be refused. So must a call
whose result is ignored, and a switch without one of the codes. `checks/run headers FOLDER` takes other headers.
"""
import itertools
import os
import re
import shutil
import tempfile
from typing import NamedTuple

from checks.lib.repository import path, read, write
from checks.lib.rows import Row, Skipped, answer, must, run_rows

NAMES = ("cubejobs.h", "cubejobs_codes.h", "cubejobs_fit.h", "cubejobs_lanes.h", "cubejobs_plan.h",
         "cubejobs_regions.h", "cubejobs_rounds.h", "cubejobs_sched.h", "cubejobs_sleep.h")
# A struct with the name of the function that returns it.
NAMED_TWICE = ("cubejobs_plan_counts", "cubejobs_sched_counts", "cubejobs_sched_forecast", "cubejobs_sched_worker")
# Headers that begin with a later standard, and those in which they have no part.
NO_CXX_11 = ("c89", "c99", "c11", "c17", "c2x", "c++98")
LATER = {"cubejobs_wait.h": ("c89", "c99", "c++98"), "cubejobs_error.hpp": NO_CXX_11, "cubejobs.hpp": NO_CXX_11,
         "cubejobs_sched.hpp": (*NO_CXX_11, "c++11", "c++14")}
NOWHERE = ["-o", "/dev/null"]
WARNINGS = ["-Werror", "-Wall", "-Wextra", "-pedantic", "-Wconversion", "-Wshadow"]
MORE = {"gcc": [], "clang": ["-Wcomma", "-Wmissing-variable-declarations"], "g++": ["-Weffc++", "-Wold-style-cast"],
        "clang++": ["-Wcomma", "-Wmissing-variable-declarations", "-Wold-style-cast"]}
CHECKED = "-DCUBEJOBS_CHECK"
# Each compiler with its language, and the standards from the oldest to the newest.
C = ("c89", "c99", "c11", "c17", "c2x")
CXX = ("c++98", "c++11", "c++14", "c++17", "c++20", "c++2b")
COMPILERS = {"gcc": ("c", C), "clang": ("c", C), "g++": ("c++", CXX), "clang++": ("c++", CXX)}
SANITIZERS = {"gcc": ("thread",), "g++": ("thread",), "clang": ("thread", "memory"), "clang++": ("thread", "memory")}


class Call(NamedTuple):
    """A call whose result must not be ignored: its header, the handles, the call, and how its code is read."""

    header: str
    handles: str
    words: str
    code: str = ""


REGIONS, LANES, FIT, PLAN = "cubejobs_regions.h", "cubejobs_lanes.h", "cubejobs_fit.h", "cubejobs_plan.h"
SCHED, WAIT = "cubejobs_sched.h", "cubejobs_wait.h"
OF_FIT = "struct cubejobs_fit fit; (void)&fit"
OF_PLAN = "struct cubejobs_plan plan; static struct cubejobs_plan_options options; static struct cubejobs_plan_request "
OF_PLAN += "request; (void)&plan; (void)&options; (void)&request"
OF_SCHED = ("struct cubejobs_sched sched; static struct cubejobs_sched_options options; "
            "static struct cubejobs_sched_request request; static struct cubejobs_sched_worker worker; "
            "(void)&sched; (void)&options; (void)&request; (void)&worker")
OF_REGIONS = ("struct cubejobs_regions one, other; static struct cubejobs_block block, half; "
              "(void)&other; (void)&half; (void)&block")
OF_LANES = ("struct cubejobs_lanes lanes; static struct cubejobs_lane lane; static struct cubejobs_worker worker; "
            "(void)&lanes; (void)&lane; (void)&worker")
OF_PARKING = f"{OF_LANES}; static struct cubejobs_parking parking; (void)&parking"
CALLS = (
    Call(REGIONS, OF_REGIONS, "cubejobs_regions_open(&one, 3)"),
    Call(REGIONS, OF_REGIONS, "cubejobs_regions_share(&one, &other)"),
    Call(REGIONS, OF_REGIONS, "cubejobs_regions_take(&one, &block, 1)", ".code"),
    Call(REGIONS, OF_REGIONS, "cubejobs_regions_take_exact(&one, &block, 1)", ".code"),
    Call(REGIONS, OF_REGIONS, "cubejobs_regions_take_at(&one, &block, 2, 1)", ".code"),
    Call(REGIONS, OF_REGIONS, "cubejobs_regions_split(&one, &block, &half)"),
    Call(REGIONS, OF_REGIONS, "cubejobs_regions_join(&one, &block, &half)"),
    Call(LANES, OF_LANES, "cubejobs_lanes_open(&lanes, 1, 1, 1)"),
    Call(LANES, OF_LANES, "cubejobs_lanes_lane(&lanes, &lane)"),
    Call(LANES, OF_LANES, "cubejobs_lanes_worker(&lanes, &worker)"),
    Call(LANES, OF_LANES, "cubejobs_lanes_submit(&lane, 1, 0)", ".code"),
    Call(LANES, OF_LANES, "cubejobs_lanes_take_any(&worker, 0)", ".code"),
    Call(WAIT, OF_PARKING, "cubejobs_lanes_submit_and_wake(&lane, 1, 0, &parking)", ".code"),
    Call(WAIT, OF_PARKING, "cubejobs_lanes_submit_until(&lane, 1, 0, &parking, 0)", ".code"),
    Call(WAIT, OF_PARKING, "cubejobs_lanes_take_any_and_raise(&worker, 0, &parking)", ".code"),
    Call(WAIT, OF_PARKING, "cubejobs_lanes_wait(&worker, 0, &parking)", ".code"),
    *(Call(FIT, OF_FIT, f"cubejobs_fit_{it}(&fit, 0, 0, 3)") for it in ("open", "attach", "repair")),
    Call(FIT, OF_FIT, "cubejobs_fit_take(&fit, 1)", ".code"),
    Call(FIT, OF_FIT, "cubejobs_fit_take_at(&fit, 2, 1)", ".code"),
    Call(FIT, OF_FIT, "cubejobs_fit_split(&fit, 2, 1)"),
    Call(FIT, OF_FIT, "cubejobs_fit_join(&fit, 2, 1)"),
    Call(PLAN, OF_PLAN, "cubejobs_plan_open(&plan, options, 0)"),
    Call(PLAN, OF_PLAN, "cubejobs_plan_submit(&plan, request)", ".code"),
    Call(PLAN, OF_PLAN, "cubejobs_plan_next(&plan, 1)", ".code"),
    Call(SCHED, OF_SCHED, "cubejobs_sched_open(&sched, options)"),
    Call(SCHED, OF_SCHED, "cubejobs_sched_submit(&sched, request, 0)", ".code"),
    Call(SCHED, OF_SCHED, "cubejobs_sched_worker(&sched, &worker)"),
    Call(SCHED, OF_SCHED, "cubejobs_sched_next(&worker, 0)", ".code"),
    Call(SCHED, OF_SCHED, "cubejobs_sched_rest(&sched)", ".code"),
)
# Each header with an enum of codes: what has one, and how it is read.
KINDS = (
    (FIT, "cubejobs_fit_code", ("struct cubejobs_fit_answer", "it.code")),
    (FIT, "cubejobs_fit_code", ("struct cubejobs_fit_occupancy_answer", "it.code")),
    (PLAN, "cubejobs_plan_code", ("struct cubejobs_plan_job", "it.code")),
    (PLAN, "cubejobs_plan_code", ("struct cubejobs_plan_counts", "it.code")),
    *((SCHED, "cubejobs_sched_code", (f"struct cubejobs_sched_{it}", "it.code"))
      for it in ("job", "answer", "counts", "forecast")),
    (REGIONS, "cubejobs_regions_code", ("struct cubejobs_regions_answer", "cubejobs_regions_code_of(it)")),
    (REGIONS, "cubejobs_regions_code", ("struct cubejobs_regions_occupancy_answer", "it.code")),
    (LANES, "cubejobs_lanes_code", ("struct cubejobs_submit_answer", "it.code")),
    ("cubejobs_rounds.h", "cubejobs_rounds_code", ("struct cubejobs_step_answer", "it.code")),
)
# A fault in a header, and the language that refuses it.
FAULTS = (
    ("cubejobs_regions.h", "DONE = 0, ", "DONE = 0, // a comment of C99\n", "c"),
    ("cubejobs_codes.h", "<stdint.h>", "<stddef.h>", "c"),
    ("cubejobs_regions.h", "struct cubejobs_block {", "struct cubejobs_regions_block {", "c++"),
    ("cubejobs_regions.h", "uint64_t node = held.code", "uint32_t node = held.code", "c"),
)


def source(folder, names, language):
    """Returns a program text that has these headers, the first of them twice, and names each of their structs."""
    lines = [f'#include "{name}"' for name in [*names, names[0]]]
    structs = [it for name in names for it in re.findall(r"^struct (\w+) \{", read(folder, name), re.M)]
    said = {it: "struct " if language == "c" or it in NAMED_TWICE else "" for it in structs}
    return "\n".join(lines + [f"extern {said[it]}{it} one_{it};" for it in structs]) + "\n"


def refusal(folder, compiler, standard, names, flags=()):
    language = COMPILERS[compiler][0]
    return refusal_of(compiler, standard, source(folder, names, language), ["-I", folder, *flags])


def refusal_of(compiler, standard, text, flags):
    words = [compiler, f"-std={standard}", *WARNINGS, *MORE[compiler], *flags, "-O1", "-x", COMPILERS[compiler][0],
             "-c", "-"]
    status, _, said = answer([*words, *NOWHERE], text, text=True)
    return "" if status == 0 and not said else said or "it failed with no word"


def must_compile(folder, compiler, standard, names, flags=()):
    said = refusal(folder, compiler, standard, names, flags)
    must(not said, said[:600])


def must_be_seen(folder, oldest, name, old, new, language):
    """Sees that each compiler of the language refuses a fault in a header in its oldest standard."""
    text = read(folder, name)
    must(text.count(old) > 0, f"{name} has no {old!r}")
    with tempfile.TemporaryDirectory() as room:
        write(f"{room}/{name}", text.replace(old, new))
        for compiler in (it for it in oldest if COMPILERS[it][0] == language):
            tries = (("-I", folder), ("-I", folder, "-fsanitize=thread"))
            said = [refusal(room, compiler, oldest[compiler], [name], flags) for flags in tries]
            must(any(said), f"{compiler} takes {new!r}")


def must_not_be_ignored(folder, compiler, standard, call):
    """Sees that a call may not be made for nothing, and that its result may be used."""
    head = f'#include "{call.header}"\nvoid act(void);\nvoid act(void) {{ static {call.handles}; '
    for use, is_refused in ((f"{call.words};", True), (f"if ({call.words}{call.code}) return;", False)):
        said = refusal_of(compiler, standard, f"{head}{use} }}\n", ["-I", folder])
        must(bool(said) == is_refused, said[:600] or f"{call.words} may be ignored")


def must_have_each_case(folder, compiler, standard, kind):
    """Sees that a switch over codes is complete, and that one which lacks a code is not."""
    header, enum, value = kind
    codes = re.findall(r"^    (CUBEJOBS_\w+) = \d+",
                       read(folder, header).partition(f"enum {enum} {{")[2].partition("};")[0], re.M)
    for left in (codes, codes[:-1]):
        cases = " ".join(f"case {it}:" for it in left)
        text = f'#include "{header}"\nint act({value[0]} it);\nint act({value[0]} it) {{ '
        text += f"switch ({value[1]}) {{ {cases} return 1; }} return 0; }}\n"
        said = refusal_of(compiler, standard, text, ["-I", folder])
        must(bool(said) == (left is not codes), said[:600] or f"{compiler}: a switch without {codes[-1]} is complete")


def tries_of(compiler):
    """Yields the headers that are compiled together, and the flags."""
    without_one = [it for it in LATER if it != "cubejobs_sched.hpp"]
    for names in (*([name] for name in (*NAMES, *LATER)), NAMES, NAMES[::-1], (*NAMES, *without_one), (*NAMES, *LATER)):
        yield names, ()
    for it in ("cubejobs_wait.h", "cubejobs_sched.h", "cubejobs_sched.hpp"):
        yield [it], ("-DCUBEJOBS_EVENT_CONDITION",)
    yield ["cubejobs_wait.h"], (CHECKED,)
    yield ["cubejobs_regions.h"], (CHECKED, "-fsanitize=thread")
    if COMPILERS[compiler][0] == "c++":
        yield from (([it], ("-fno-exceptions", "-fno-rtti")) for it in LATER if it.endswith(".hpp"))
        yield ["cubejobs.hpp"], (CHECKED,)
    if os.path.exists("/usr/include/valgrind/helgrind.h"):
        yield ["cubejobs_regions.h"], ("-DCUBEJOBS_HELGRIND", "-Wno-gnu-statement-expression", "-Wno-pedantic")
    for it in SANITIZERS[compiler]:
        yield NAMES, (f"-fsanitize={it}",)
        yield from (([name], (f"-fsanitize={it}",)) for name in LATER)


def known_standards():
    """Returns the standards that each compiler knows which is here."""
    known = {}
    for compiler, (language, standards) in COMPILERS.items():
        if not shutil.which(compiler):
            print(f"headers: no {compiler} here")
            continue
        words = [compiler, "-x", language, "-c", "/dev/null", *NOWHERE]
        tried = {it: answer([*words, f"-std={it}"])[0] for it in standards}
        known[compiler] = [it for it, status in tried.items() if status == 0]
        if any(tried.values()):
            print(f"headers: {compiler} does not know {', '.join(it for it, status in tried.items() if status)}")
    return known


def main(words):
    folder, known = os.path.realpath(words[0]) if words else path("include"), known_standards()
    if not known:
        raise Skipped("there is no compiler")
    oldest = {compiler: standards[0] for compiler, standards in known.items()}
    rows = [Row(f"a fault that is seen: {fault[2]!r}", must_be_seen, (folder, oldest, *fault)) for fault in FAULTS]
    for compiler, standards in known.items():
        for standard in {standards[0], standards[-1]}:
            rows += [Row(f"{compiler} -std={standard}: {it.words} is used", must_not_be_ignored,
                         (folder, compiler, standard, it))
                     for it in CALLS if standard not in LATER.get(it.header, ())]
            rows += [Row(f"{compiler} -std={standard}: the cases of {it[2][0]}", must_have_each_case,
                         (folder, compiler, standard, it)) for it in KINDS]
    for compiler, standards in known.items():
        for standard, (names, flags) in itertools.product(standards, tries_of(compiler)):
            if not any(standard in LATER.get(name, ()) for name in names):
                title = " ".join([compiler, f"-std={standard}", *flags, *names])
                rows.append(Row(title, must_compile, (folder, compiler, standard, names, flags)))
    return run_rows("headers", rows)
