"""Tests `edits`, which judges mutants, and the reader of sources under it: mutants of known verdicts must be told so.

Of `alloc_bits` one is a mutant; one changes nothing, in a function that calls the wrong one, so that it is hidden
in their common check; one has a name that does not exist, so that the front end refuses the check of all; one is right,
and only the proof misses a name; one is stale. Three stand in functions that hold another one, so each pair has a copy.
Two of `backoff` stand in the same check, and neither crate's verdicts are the other's. Two of a definition name the
function that is proved over it, of which one does not read it. Two of `sched_jobs` stand in a function that calls
itself, of which no copy is proved. Words given here are passed on to `edits`.
"""
import os
import re
import tempfile
from types import SimpleNamespace

from checks.lib.rattle_source import functions_in, items_in, uncommented
from checks.lib.repository import path, read, write
from checks.lib.rows import answer
from checks.mutants import due
from checks.mutants.verdict import NAMES_ONLY, lines_of, verdict_of_event

BITS, MEANING = "src/bits.rt", "specs/Represents.antt"
FILL, MEANS = "bits[start..end].fill(taken);", "a p → bit_of bits p ≡ true"
TREES, ALONE, LEAF = "src/trees.rt", "return fork.right;", "if is_leaf_of(fork.right, slot) {"
NONE, WROTE, FOUND = "none_set(&bits[start..end])", "write(bits, n, region, true);", "return Some(region);"
# By crate and name: file, old text, new text, the verdict, and the function that is proved over a definition.
PLANTED = {
    "alloc_bits/wrong_body": (BITS, FILL, "bits[start..end].fill(!taken);", "refused"),
    "alloc_bits/hidden_and_unchanged": ("src/regions.rt", WROTE, WROTE, "PROVED"),
    "alloc_bits/unknown_name": (BITS, FOUND, "return Some(no_such_region);", "BAD"),
    "alloc_bits/right_by_another_way": (BITS, NONE, "bits[start..end].iter().all(|taken| !*taken)", "NAMES"),
    "alloc_bits/second_wrong_body": (BITS, FILL, "bits[start..end].fill(false);", "refused"),
    "alloc_bits/second_and_unchanged": (BITS, FOUND, FOUND, "PROVED"),
    "alloc_bits/second_by_the_same_way": (BITS, NONE, NONE, "PROVED"),
    "alloc_bits/stale": (BITS, "bits.fill(no_such_text);", "bits.fill(true);", "BAD"),
    "alloc_bits/wrong_definition": (MEANING, MEANS, MEANS.replace("true", "false"), "refused", "regions::set_region"),
    "alloc_bits/definition_not_read": (MEANING, MEANS, MEANS.replace("true", "false"), "PROVED", "bits::none_set"),
    "backoff/wrong_body": ("src/pause.rt", "if burst <= LONGEST_BURST {", "if burst <= 2 * LONGEST_BURST {", "refused"),
    "backoff/unchanged": ("src/pause.rt", "burst: FIRST_BURST,", "burst: FIRST_BURST,", "PROVED"),
    "sched_jobs/a_wrong_body": (TREES, ALONE, ALONE.replace("right", "left"), "refused"),
    "sched_jobs/another_and_unchanged": (TREES, LEAF, LEAF, "PROVED"),
}
WRONG = "backoff/wrong_body"
# A missing name, as a check reports it in one line and, where it lists names that are near, in two.
MISSING = (
    "./proofs/a/Answers.antt:1:2: error: `returns`: record `A` has no field `b` (nearest: .c)\n",
    "./proofs/a/Answers.antt:1:2: error: `returns`: record `A` (nearest: .c, .d)\n  has no field `b`\n",
)
# What a check says of an open goal, and of the lines to start a proof of it with, for which it searches the goal again.
OPEN, OFFER = "`search` did not prove", "Answers.antt with these lines"
# A source, and the functions that the reader finds in it: their owners, and where each ends.
SOURCES = {
    "fn first() -> u8 { 1 }\n\nimpl Second {\n    fn third(&self) -> u8 { 3 }\n}\n": [
        (None, "fn first() -> u8 { 1 }"), ("Second", "fn third(&self) -> u8 { 3 }")],
    "fn of(a: [u8; 2], f: fn(u8))\n ensures one { a } ensures { b } { c }\nstruct No { d: u8 }": [
        (None, "fn of(a: [u8; 2], f: fn(u8))\n ensures one { a } ensures { b } { c }")],
    "trait Law { fn told() requires { a }; fn kept() { b } }\n"
    "impl<T: A<B>> Law<T> for C<T> { fn told() { c } ghost d = { e } }": [
        ("Law", "fn kept() { b }"), ("CLaw", "fn told() { c }")],
    "impl Sink<Job> for Lanes { fn row() { // }\n '}'; \"}\" } }": [("LanesSinkJob", "fn row() { // }\n '}'; \"}\" }")],
}


# What is said of a wrong event whose law is to be refused by lemma `b` of A.antt, with the states of law and code, and
# the verdict.
OPEN_LEMMA, OTHER_GOAL = "proofs/A.antt:1:2: error: `b` is open", "src/a.rt:1:2: error: a goal is open"
EVENTS = (
    (OPEN_LEMMA, "not proved", "proved", "refused"),
    ("", "proved", "proved", "PROVED"),
    ("", "not proved", "proved", "BAD"),
    (OPEN_LEMMA.replace("b", "c"), "not proved", "proved", "BAD"),
    (OPEN_LEMMA, "not proved", "not proved", "BAD"),
    (f"{OPEN_LEMMA}\n{OTHER_GOAL}", "not proved", "proved", "BAD"),
)


def judged(folder, *words):
    """Returns the status of `edits`, which keeps verdicts in the folder, and what it says of each mutant there."""
    env = {**os.environ, "XDG_CACHE_HOME": f"{folder}/cache"}
    command = [path("checks", "run"), "edits", "--from", folder, *words, "alloc_bits", "backoff", "sched_jobs"]
    status, said, _ = answer(command, "", text=True, env=env, stderr=None, timeout=None)
    return status, dict(re.findall(r"(?m)^(\w+/\S+): (\w+): ", said)), said


def plant(folder):
    for name, (file, old, new, _, *only) in PLANTED.items():
        lines = [f"file: {file}", f"old: {old}", f"new: {new}", *(f"only: {it}" for it in only), ""]
        write(f"{folder}/{name}.edit", "\n".join(lines))


def of_the_reader():
    """Yields what is expected of the reader, whether it holds, and what was found."""
    for said in MISSING:
        yield "a missing name is no goal", NAMES_ONLY.match(lines_of(said, "alloc_bits")[0]), said
    for text, wanted in SOURCES.items():
        found = [(it.owner, text[it.start : it.end]) for it in functions_in("src/lib.rt", text)]
        yield "a function ends with its body", found == wanted, found
    event = SimpleNamespace(law=["law"], code=["code"], only=["law", "code"], lemmas=["A.b"])
    for said, law, code, wanted in EVENTS:
        word, why = verdict_of_event(event, {"law": (law, ""), "code": (code, "")}, said.split("\n"))
        yield f"an event is {wanted}", word == wanted, (said, why)
    item = items_in("src/lib.rt", next(text for text in SOURCES if "ensures one" in text))[0]
    yield "clauses are read", [it.strip() for it in item.clauses] == ["a", "b"], item.clauses
    plain = uncommented('a "// b" // c\n/* d */ e')
    yield "a string is no comment", plain.split() == ["a", '"//', 'b"', "e"], plain


def of_all(folder, words):
    """Yields the same of the verdicts on all mutants."""
    status, told, said = judged(folder, "--stale")
    yield "a stale mutant fails before any check", status == 1 and told == {"alloc_bits/stale": "BAD"}, said
    _, _, said = judged(folder, "--plan")
    first = re.findall(r"(?m)^check 1: (\w+): ", said)
    yield "crates beside one another share a check", sorted(first) == ["alloc_bits", "backoff"], said
    turns = [set(re.findall(rf"(?m)^check {it}: (\w+): ", said)) for it in range(1, 6)]
    apart = [it for it in turns if "sched_jobs" in it]
    yield "crates above one another share none", apart and all(it == {"sched_jobs"} for it in apart), said
    status, told, said = judged(folder, *words)
    yield "mutants that are not refused fail", status == 1, said
    for name, (_, _, _, wanted, *_) in PLANTED.items():
        yield f"{name} is {wanted}", told.get(name) == wanted, said


def of_one(folder, words):
    """Yields the same of one mutant that was refused before, and of the same one when it has changed."""
    for name in PLANTED:
        if name != WRONG:
            os.remove(f"{folder}/{name}.edit")
    status, told, said = judged(folder, *words)
    yield "one that was refused is kept", status == 0 and told == {WRONG: "refused"} and " in 0 checks " in said, said
    with open(f"{folder}/{WRONG}.edit", "a", encoding="utf-8") as it:
        it.write("\n")
    os.mkdir(f"{folder}/kept")
    status, told, said = judged(folder, *words, "--keep", f"{folder}/kept")
    is_tried = status == 0 and told == {WRONG: "refused"} and " in 1 checks " in said
    yield "a refused mutant passes, and a changed one is tried", is_tried, said
    logs = [read(it.path) for it in os.scandir(f"{folder}/kept")]
    is_so = logs and all(OPEN in it and OFFER not in it for it in logs)
    yield "an open goal is reported, and not searched again", is_so, logs


def of_due():
    """Yields known choices of the mutants that are due: what it is, whether it holds, and what was chosen."""
    counts = {"a": 40, "b": 5, "c": 30, "d": 25}
    days = {"a": "2026-01-03", "b": "2026-01-01", "c": "2026-01-02", "d": ""}
    for changed, wanted in (("", "d"), ("b", "bd"), ("d", "db"), ("ab", "bad"), ("abcd", "db"), ("ac", "c")):
        crates, why = due.chosen(counts, {it: it in changed for it in counts}, days)
        yield f"mutants of {changed or 'nothing'} are due", "".join(crates) == wanted, f"{crates}: {why}"


def main(words):
    with tempfile.TemporaryDirectory() as folder:
        plant(folder)
        told = [*of_the_reader(), *of_due(), *of_all(folder, words), *of_one(folder, words)]
    failed = [(what, said) for what, holds, said in told if not holds]
    for what, said in failed:
        print(f"FAILED: {what}\n{said}")
    print(f"edits_judge: {len(told) - len(failed)} passed, {len(failed)} failed")
    return 1 if failed else 0
