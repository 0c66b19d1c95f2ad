"""Shows what the types refuse: the compiler must refuse each wrong function by the error named with it, and no other.

Handles of both running trees cannot be dropped or used twice. Calls of `cube_tree` are lent no runtime, without which
no lock can be taken. Of the line with no lock, an end can be had only from a pop that found the ring empty after a
reading that sealed the line; an entry can be settled only by what its push answered, and a push wants an entry that
came before the close. A caller reads the end of a worker and the close note of a shop, and can neither make nor change
one. Nothing is proved of these functions: a check that is asked for none reads the crate and holds it to the types.
`checks/run must_not_compile [--after-gate]` takes the libraries below as `rt ci` has left them, or builds them first.
"""
import copy
import re
import subprocess
import tempfile

from checks.lib.repository import write
from checks.lib.rows import Row, answer, must, run_rows
from checks.lib.toolchain import AFTER_GATE, build_below, check_words, crates
from checks.mutants.mutant import texts_of
from tests.faults.misused_handles import (
    APART, DROPS, GOOD, LIB, LOCKED, MEMBERS, OF_SHOP, OF_TREES, OVER_LOCK, OVER_SHOP, OVER_TREES, STEPS, USES)


def caller(uses):
    """Returns a crate over these."""
    crate = copy.copy(crates()["line_ruled"])
    crate.name, crate.deps = "caller", [crates()[it] for it in uses]
    return crate


def compiled(head, uses, wrong):
    """Compiles wrong functions at the ends of files: of the library with this head over these crates, or of the line
    where there is no head. Returns the function and the error of each refusal, and what was said."""
    crate, places = caller(uses) if head else copy.copy(crates()["line_ruled"]), {}
    texts = {LIB: head} if head else texts_of(crate.folder)
    with tempfile.TemporaryDirectory() as crate.folder:
        for file, text in texts.items():
            for name, _, signature, body in wrong.get(file, ()):
                places[file, str(text.count("\n") + 1)] = name
                text += f"fn {name}{signature} {{ {body} }}\n"
            write(f"{crate.folder}/{file}", text)
        how = {"cwd": crate.folder, "text": True, "stderr": subprocess.STDOUT, "timeout": 600}
        _, said, _ = answer(check_words(crate, [""]), "", **how)
    found = re.findall(r"(src/\w+\.rt):(\d+):\d+: error\[([\w-]+)\]", said)
    return {(places.get((file, line), "the crate"), error) for file, line, error in found}, said


def must_refuse(head, uses, wrong):
    """Sees that functions are refused by their errors, and that nothing else is."""
    wanted = {(name, error) for functions in wrong.values() for name, error, _, _ in functions if error}
    got, said = compiled(head, uses, wrong)
    must(got == wanted, f"wanted {sorted(wanted)}, and nothing else: {sorted(got)}\n{said}")
    return ", ".join(f"{name} ({error})" for name, error in sorted(wanted))


def main(words):
    build_below([caller(OF_TREES), caller(OF_SHOP), crates()["line_ruled"]], AFTER_GATE in words)
    rows = [
        Row("handles that are dropped", must_refuse, (OVER_TREES, OF_TREES, {LIB: GOOD + DROPS})),
        Row("handles that are taken apart", must_refuse, (OVER_TREES, OF_TREES, {LIB: GOOD + APART})),
        Row("handles that are used twice", must_refuse, (OVER_TREES, OF_TREES, {LIB: GOOD + USES})),
        Row("takes under a lock", must_refuse, (OVER_LOCK, ["cube_tree"], {LIB: LOCKED})),
        *(Row(f"steps of the line, list {number}", must_refuse, ("", [], it)) for number, it in enumerate(STEPS, 1)),
        Row("ends that are put together", must_refuse, (OVER_SHOP, OF_SHOP, {LIB: MEMBERS})),
    ]
    return run_rows("must_not_compile", rows, says_ok=True)
