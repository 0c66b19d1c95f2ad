"""What a check says of the mutants that it was called for, and what earlier runs said of them."""
import hashlib
import os
import re
import tempfile
import threading

from checks.lib import rattle_source
from checks.lib.rattle_source import functions_in
from checks.lib.repository import PARTS, read, read_bytes
from checks.mutants import mutant
from checks.mutants.mutant import names_for, path_of

NAMES_ONLY = re.compile(r"(\./)?proofs/.*(has no field|is not in scope|has no `|was not admitted|is not a name)")
NAMED = re.compile(r"(?m)^fn (\S+): (proved|not proved|no proof|could not tell)(.*)")
IN_A_PART = re.compile(rf"(?:note: )?(?:\./)?(?:{'|'.join(PARTS)})/\S+:\d+:\d+: ")
CALLS = re.compile(r"[:;] it calls ")
# A lemma that is refused, and anything else: a proof of the code, a goal of the code, or the code itself.
LEMMA = re.compile(r"(?:\./)?proofs/([A-Za-z]*)\.antt:[0-9:]* error: `([^`]*)`")
NO_LEMMA = re.compile(r"(\./)?(proofs/[a-z_]*/|src/)|(note: )?(\./)?(src|specs|proofs)/.*it is not proved that")
STANDS_ON_ANOTHER = re.compile(r"declarations? that depends? on")


def names_of(crate, said):
    return {it[0]: it[1:] for it in NAMED.findall(said) if it[0].startswith(f"{crate.name}::")}


def lines_of(said, crate):
    """Returns the lines of a check, with the files of this crate named as in its folder. Where a line names what is
    near, what is missing comes in a line of its own: the two are one here."""
    told = re.sub(r"\n +(?=has no field )", " ", said)
    return re.sub(rf"(?m)^((?:note: )?(?:\./)?){crate}/(?=(?:{'|'.join(PARTS)})/)", r"\1", told).split("\n")


def told_of(function, name, texts, lines):
    """Returns what the check says of goals of this function: those of its span or its own proof files, and apart from
    them those that only miss a name."""
    text = texts[function.file]
    span = next((it for it in functions_in(function.file, text) if it.key() == function.key()), None)
    rows = range(text.count("\n", 0, span.start) + 1, text.count("\n", 0, span.end) + 2) if span else ()
    folder = "proofs/" + "/".join(name.split("::")[1:]) + "/"
    own, by_name = [], []
    for line in lines:
        at = re.match(r"(?:note: )?(?:\./)?(\S+?):(\d+):\d+: ", line)
        is_here = at and (at[1] == function.file and int(at[2]) in rows or at[1].startswith(folder))
        if is_here and ("error" in line or "it is not proved" in line):
            (by_name if NAMES_ONLY.match(line) else own).append(re.sub(r"^note: ", "", line))
    return sorted(own, key=lambda it: "requires" in it), by_name


def told_of_edit(crate, batch, edit, names, lines):
    """Returns what the check says of a mutant: the states and the names of its functions, the goals of its own, and
    those that only miss a name."""
    if not edit.functions:
        told = [it for it in lines if IN_A_PART.match(it) and "error" in it]
        state = "proved" if all(state == "proved" for state, _ in names.values()) else "not proved"
        return [state], ["a definition"], [it for it in told if not NAMES_ONLY.match(it)], told
    states, shown, own, by_name = [], [], [], []
    for function in edit.functions:
        for name in names_for(function, crate, names):
            state, rest = names[name]
            goal = re.search(r"`search` did not prove (`[^;]*)", rest)
            told = told_of(function, name, batch.texts, lines)
            states.append(state)
            shown.append(name)
            own += ([f"not proved: {goal[1]}"] if goal else []) + told[0]
            by_name += told[1]
    return states, shown, own, by_name


def verdict_of_event(edit, names, lines):
    """Returns what the check says of a wrong event. The law must be refused by lemmas that the event names and by no
    others; and its code must be proved, unless it only calls what stands on the law."""
    lemmas = {".".join(it.groups()) for it in map(LEMMA.match, lines) if it}
    others = [it for it in lines if NO_LEMMA.match(it) and not STANDS_ON_ANOTHER.search(it)]
    missing = [it for it in edit.only if it not in names]
    if missing:
        return "BAD", f"the check has no line of {missing[0]}"
    if any(names[it][0] == "proved" for it in edit.law):
        return "PROVED", ", ".join(edit.law)
    others += [it for it in edit.code if names[it][0] != "proved" and not CALLS.match(names[it][1])]
    if others:
        return "BAD", f"the code does not meet the changed definition: {others[0][:200]}"
    by = " ".join(sorted(lemmas))
    return "refused" if lemmas and lemmas <= {*edit.lemmas} else "BAD", f"the lemmas that refuse it: {by or 'none'}"


def verdict(crate, batch, edit, names, lines):
    """Returns what the check says of a mutant of the batch, as a word and a reason, or None if another one hides it."""
    if edit.law:
        return verdict_of_event(edit, names, lines)
    states, shown, own, by_name = told_of_edit(crate, batch, edit, names, lines)
    what = ", ".join(shown)
    if not states:
        return "BAD", f"the check has no line of {path_of(edit.functions[0])}"
    if all(it == "proved" for it in states):
        return "PROVED", what
    if own or by_name:
        return "refused" if own else "NAMES", f"{what}: {(own or by_name)[0][:200]}"
    if len(batch.edits) > 1:
        return None  # it calls a function that another mutant of the batch holds, and more is not said
    if "could not tell" in states:
        return "BAD", f"the check could not tell of {what}"
    return "refused", f"{what}: {names[shown[0]][1].strip(': ')[:200]}"


class Kept:
    """Why mutants were refused in earlier runs on this machine, each under a sum of all that this stands on."""

    def __init__(self, is_used):
        caches = os.environ.get("XDG_CACHE_HOME") or os.path.expanduser("~/.cache")
        self.folder, self.is_used, self.sums = os.path.join(caches, "cubejobs", "edits"), is_used, {}
        beside = os.path.join(os.path.dirname(__file__), "edits.py")
        judges = (__file__, mutant.__file__, rattle_source.__file__, beside)
        self.own = hashlib.sha256(b"".join(read_bytes(file) for file in judges)).hexdigest()

    def file(self, crate, edit):
        if crate.name not in self.sums:
            self.sums[crate.name] = crate.stamp()
        named = repr((self.own, self.sums[crate.name], edit.name, edit.text))
        return os.path.join(self.folder, hashlib.sha256(named.encode()).hexdigest())

    def reason(self, crate, edit):
        try:
            return read(self.file(crate, edit)) if self.is_used else None
        except OSError:
            return None

    def keep(self, crate, edit, reason):
        try:
            os.makedirs(self.folder, exist_ok=True)
            with tempfile.NamedTemporaryFile("w", dir=self.folder, encoding="utf-8", delete=False) as it:
                it.write(reason)
            os.replace(it.name, self.file(crate, edit))
        except OSError:
            pass


class Tally:
    """The lines that are printed, and how many mutants there are of each verdict."""

    def __init__(self, kept):
        self.counts, self.lock, self.kept = {}, threading.Lock(), kept
        self.seconds, self.checks, self.of_earlier = 0.0, 0, 0

    def tell(self, crate, edit, word, reason):
        with self.lock:
            self.counts[word] = self.counts.get(word, 0) + 1
            print(f"{crate}/{edit}: {word}: {reason}", flush=True)

    def told_before(self, crate, edit):
        reason = self.kept.reason(crate, edit)
        if reason is not None:
            self.of_earlier += 1
            self.tell(crate.name, edit.name, "refused", f"(kept) {reason}")
        return reason is not None

    def spend(self, seconds):
        with self.lock:
            self.seconds, self.checks = self.seconds + seconds, self.checks + 1

    def end(self):
        others = "".join(f", {count} {word}" for word, count in sorted(self.counts.items()) if word != "refused")
        kept = f", {self.of_earlier} of them by earlier runs" if self.of_earlier else ""
        used = f"in {self.checks} checks and {self.seconds:.0f} s of processor time"
        print(f"{self.counts.get('refused', 0)} edits refused{others}{kept}, {used}", flush=True)
        return 1 if others else 0


def unreached(crate, batch, lines, tally):
    """Returns lists of the mutants of which the check says nothing, each list for a check. Reports a single one."""
    if len(batch.edits) > 1:
        texts = batch.texts
        named = [it for it in batch.edits if any(told_of(held, "", texts, lines)[0] for held in it.functions)]
        others = [it for it in batch.edits if it not in named]
        return [*([it] for it in named), others] if named else [[it] for it in others]
    first = next((it for it in lines if "error" in it), lines[-1])
    tally.tell(crate.name, batch.edits[0].name, "BAD", f"the check did not reach the prover: {first[:200]}")
    return []


def judge(crate, batch, said, tally):
    """Tells of each mutant of a batch. Returns lists of those that are to be tried again, each list in a check."""
    lines, names, again = lines_of(said, crate.name), names_of(crate, said), []
    if not names:
        return unreached(crate, batch, lines, tally)
    for edit in batch.edits:
        told = verdict(crate.name, batch, edit, names, lines)
        if not told:
            again.append([edit])
            continue
        tally.tell(crate.name, edit.name, *told)
        if told[0] == "refused":
            tally.kept.keep(crate, edit.source, told[1])
    held = {name for edit in batch.edits for it in edit.functions for name in names_for(it, crate.name, names)}
    for name, (state, rest) in sorted(names.items()) if all(it.functions for it in batch.edits) else ():
        if state != "proved" and name not in held and not CALLS.match(rest):
            tally.tell(crate.name, name, "BAD", f"it holds no edit, and is {state}{rest[:160]}")
    return again
