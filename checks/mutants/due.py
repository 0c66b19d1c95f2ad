"""Chooses the mutants that the gate tries, and notes of which crates all were refused (a part of edits).

mutants/CRATE/TRIED has a sum and a day. The sum is that of the crate's sources, definitions, proofs and mutants, and of
the definitions and public contracts of all crates below it. On that day all mutants of the crate were refused. A crate
with another sum, or with no such file, is due. The gate tries the mutants of all crates that are due. Of the others it
tries those with the oldest days, at most a tenth of all mutants. If more than half of all mutants are due, it tries the
oldest of these, at most half, and says which crates stay due. Each time it tries one crate at least, whatever that has.
"""
import datetime
import hashlib
import os

from checks.source.contracts import contracts
from checks.lib.crates import uses_of
from checks.lib.repository import PARTS, files_below, path, read, read_bytes, write

TRIED = "TRIED"


def sum_of(crate):
    """Returns the sum of what the verdicts on a crate's mutants stand on."""
    files = [file for part in PARTS for file in files_below(f"crates/{crate}/{part}")]
    files += files_below(f"mutants/{crate}", ".edit")
    files += [file for below in sorted(uses_of(crate)) for file in files_below(f"crates/{below}/specs")]
    total = hashlib.sha256()
    for file in files:
        total.update(os.path.relpath(file, path()).encode() + b"\0" + read_bytes(file) + b"\0")
    for below in sorted(uses_of(crate)):
        total.update(contracts(below).encode() + b"\0")
    return total.hexdigest()[:16]


def noted(crate):
    """Returns the sum and the day that a crate's file has, or two empty words."""
    file = path("mutants", crate, TRIED)
    return tuple(read(file).split()) if os.path.exists(file) else ("", "")


def note(crates):
    """Writes that all mutants of these crates were refused today."""
    for crate in crates:
        write(f"mutants/{crate}/{TRIED}", f"{sum_of(crate)} {datetime.date.today()}\n")


def taken(crates, counts, most):
    """Returns the first crates that have this number of mutants at most, or the first one."""
    found, count = [], 0
    for crate in crates:
        if found and count + counts[crate] > most:
            break
        found.append(crate)
        count += counts[crate]
    return found


def chosen(counts, is_due, days):
    """Returns the crates whose mutants are to be tried, and a sentence on why. Of each crate it is given the number of
    its mutants, whether it is due, and the day on which all were refused."""
    total, by_age = sum(counts.values()), sorted(counts, key=lambda it: (days[it], it))
    due = [it for it in by_age if is_due[it]]
    of_due = sum(counts[it] for it in due)
    if of_due > total / 2:
        crates = taken(due, counts, total / 2)
        left = [it for it in due if it not in crates]
        return crates, f"{of_due} of {total} mutants are due; these stay due: {' '.join(left) or 'none'}"
    others = taken([it for it in by_age if it not in due], counts, total / 10)
    oldest = min((days[it] for it in others), default="none")
    why = f"{of_due} of {total} mutants are due, those of: {' '.join(due) or 'none'}"
    return due + others, f"{why}; {sum(counts[it] for it in others)} others were refused last, from {oldest} on"


def chosen_here(counts):
    """Returns what `chosen` does, of the crates with these numbers of mutants as they are here."""
    notes = {crate: noted(crate) for crate in counts}
    is_due = {crate: notes[crate][0] != sum_of(crate) for crate in counts}
    return chosen(counts, is_due, {crate: notes[crate][1] for crate in counts})
