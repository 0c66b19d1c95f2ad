"""Tries the mutants: mutants and definitions, each of which the prover must refuse.

A function is proved from its own body and the contracts of what it calls. So mutants of different functions do not help
one another: many share one copy of a crate and one check of it. A second mutant of a function stands in a copy of the
function, with a copy of its proof files, unless it is a trait's. One mutant can only hide another, which is looked for.
The copy of a crate is read as a library by source: of a crate that is checked itself each open goal is searched twice.
Crates of which none stands below another share a check. A mutant of a definition stands alone in its copy; a line
`only: FUNCTION` names a function that it is to be refused for, and without one all functions are proved. A wrong event
of the tree's algorithm, which is in definition and code alike, stands alone too. Its line `law:` names the law, which
must be refused, by lemmas of its line `refused by:` and by nothing else. The functions of its line `code:` must be
proved, unless they only call what stands on the law.

    checks/run edits [--stale | --plan] [--after-gate] [--anew] [--due] [--keep FOLDER] [--from FOLDER] [CRATE | CRATE/EDIT ..]

With no name it tries all mutants of mutants/CRATE. --stale only sees that each can be applied. --plan shows which share
a check. --after-gate takes the libraries below as `rt ci` has just left them; without it they are built first. What was
refused is kept in ~/.cache/cubejobs/edits, by a sum of all that the verdict stands on, and with --anew each is tried.
--due tries those of crates that have changed, and of others the oldest: `due` says which. Where all of a run are refused,
it notes in mutants/CRATE/TRIED the day of each crate of which all were tried: commit these files.
--keep puts what each check said into a folder. --from takes CRATE's mutants from FOLDER/CRATE. It says of a mutant:

    refused   its function has a goal of its own that is not proved, or that its proof file does not meet; or its law
              is refused, as it must be
    PROVED    the prover let it through
    NAMES     it is refused, but only since a proof file names what the mutant took away, which says little
    BAD       it cannot be applied, the front end does not read it, the check does not speak of its function, or more
              than its lemmas refuse it

The status is 0 where each is refused and no function without a mutant is.
"""
import argparse
import os
import re
import shutil
import subprocess
import sys
import tempfile
from concurrent.futures import ThreadPoolExecutor

from checks.lib.repository import PARTS, files_below, read, write
from checks.lib.toolchain import build_below, crates, kit
from checks.mutants import due
from checks.mutants.mutant import batches_of, edits_of, path_of, texts_of
from checks.mutants.verdict import Kept, Tally, judge, names_of

# The most memory that a check was seen to take.
CHECK_BYTES = 3_500_000_000
# The crate with nothing in it that a check is called for.
JUDGED = "judged"
# The most mutants of crates that share their checks: more would leave a processor without work at the end.
MOST_EDITS = 64


def words_of(crates, room):
    """Returns the words of a check of the copies of these crates. A library, a static one too, is given by its source
    to a crate with nothing in it: of the crate that it is called for a check also prints how a proof may start, and
    searches every open goal again for it."""
    each = [crate.words(["--jobs", "1"], keeps=False) for crate in crates]
    if crates[0].is_program:
        return each[0]
    write(f"{room}/{JUDGED}/src/lib.rt", "")
    words = each[0]
    if crates[0].is_static:
        at = words.index("--crate-type")
        del words[at : at + 2]
    words[words.index("--links") + 1] = f"{JUDGED}="
    words = ["--crate-name", JUDGED, f"{JUDGED}/src/lib.rt", *words[words.index("src/lib.rt") + 1 :]]
    core = "--extern", f"core={kit().KIT}/rlibs/core.rlib"
    for flag, value in [core, *(pair for more in each[1:] for pair in zip(more, more[1:]))]:
        if flag in ("--extern", "-L") and value not in words:
            words += [flag, value]
    for crate in crates:
        uses = dict.fromkeys(["core", *crate.of_kit, *(it.name for it in crate.deps)])
        words += ["--lib", f"{crate.name}:{','.join(uses)}={crate.name}/src/lib.rt"]
    return words


def run_check(turn, room, keep, tally, is_whole=False):
    """Checks copies of crates, as a whole or the functions that hold a mutant, and returns what the check said."""
    for crate, batch in turn:
        for part in PARTS:
            shutil.rmtree(f"{room}/{crate.name}/{part}", ignore_errors=True)
        for file, text in batch.texts.items():
            write(f"{room}/{crate.name}/{file}", text)
    each = [(crate, edit) for crate, batch in turn for edit in batch.edits]
    named = ([*(path_of(it, crate) for it in edit.functions), *edit.only] for crate, edit in each)
    only = dict.fromkeys(it for names in named for it in names)
    words = [kit().RATTLE, "check", *words_of([crate for crate, _ in turn], room), "--incremental", f"{room}/kept"]
    words += [word for name in only if not is_whole for word in ("--only", name)]
    folder = f"{room}/{turn[0][0].name}" if turn[0][0].is_program else room
    how = {"stdin": subprocess.DEVNULL, "stdout": subprocess.PIPE, "stderr": subprocess.STDOUT, "errors": "replace"}
    with subprocess.Popen(words, cwd=folder, **how) as ran:
        said = ran.stdout.read()
        _, status, used = os.wait4(ran.pid, 0)
        ran.returncode = os.waitstatus_to_exitcode(status)
    seconds = used.ru_utime + used.ru_stime
    tally.spend(seconds)
    if keep:
        names = "+".join(crate.name for crate, _ in turn), "+".join(it.name for it in turn[0][1].edits)[:80]
        used = f"{len(each)} edits, {seconds:.0f} s of processor time, {used.ru_maxrss // 1024} MB\n"
        write(f"{os.path.abspath(keep)}/{'.'.join(names)}.log", said + used)
    return said


def by_itself(crate, batch, room, keep, tally, said):
    """Returns what a check of this crate alone says, of which this may be known; of all its functions, where it knows
    one by no such name."""
    said = said or run_check([(crate, batch)], room, keep, tally)
    if "has no function" in said and not names_of(crate, said):
        said = run_check([(crate, batch)], room, keep, tally, is_whole=True)
    return said


def turns_in(left):
    """Yields the checks of a track, and takes their batches away: the next batch of each crate that has one left, or a
    single one of which the check must prove all functions of its crate."""
    while any(batches for _, batches, _ in left):
        ready = [(crate, batches) for crate, batches, _ in left if batches]
        shared = [it for it in ready if all(edit.functions or edit.only for edit in it[1][0].edits)]
        yield [(crate, batches.pop(0)) for crate, batches in shared or ready[:1]]


def try_track(track, options, tally):
    with tempfile.TemporaryDirectory(prefix="edits-") as room:
        os.mkdir(f"{room}/kept")
        left = [(crate, list(batches), texts) for crate, batches, texts in track]
        for turn in turns_in(left):
            said = run_check(turn, room, options.keep, tally)
            saids = [said] * len(turn)
            if not all(names_of(crate, said) for crate, _ in turn):
                known = said if len(turn) == 1 else ""
                saids = [by_itself(crate, batch, room, options.keep, tally, known) for crate, batch in turn]
            for (crate, batch), said in zip(turn, saids):
                batches, texts = next((batches, texts) for it, batches, texts in left if it is crate)
                for edits in judge(crate, batch, said, tally):
                    batches.extend(batches_of([it.source for it in edits], crate.name, texts))


def tracks_of(work):
    """Returns the crates in as few tracks as can be: those with most checks first, each into the first track where none
    stands below another."""
    tracks = []
    for crate, batches, texts in sorted(work, key=lambda it: (-len(it[1]), -sum(len(batch.edits) for batch in it[1]))):
        count, below = sum(len(it.edits) for it in batches), {it.name for it in crate.below()}
        for track in tracks:
            held = sum(len(it.edits) for _, batches, _ in track for it in batches)
            is_apart = all(it.name not in below and crate not in it.below() for it, _, _ in track)
            if not crate.is_program and not track[0][0].is_program and is_apart and held + count <= MOST_EDITS:
                track.append((crate, batches, texts))
                break
        else:
            tracks.append([(crate, batches, texts)])
    return tracks


def lanes():
    free = 1024 * int(re.search(r"MemAvailable:\s+(\d+)", read("/proc/meminfo"))[1])
    return max(1, min(len(os.sched_getaffinity(0)), free // CHECK_BYTES))


def work_of(options, tally):
    """Returns each crate with the batches of the mutants to be tried, and its texts. Reports those that cannot be."""
    work = []
    for crate in crates().values():
        wanted = [it.partition("/")[2] for it in options.names if it.partition("/")[0] == crate.name]
        if (options.names and not wanted) or (options.due and crate.name not in options.chosen):
            continue
        texts = texts_of(crate.folder)
        edits = [it for it in edits_of(crate.name, texts, options.from_folder) if not any(wanted) or it.name in wanted]
        for edit in edits:
            if edit.why:
                tally.tell(crate.name, edit.name, "BAD", edit.why)
        only_looks = options.stale or options.plan
        edits = [it for it in edits if not it.why and (only_looks or not tally.told_before(crate, it))]
        if edits:
            work.append((crate, batches_of(edits, crate.name, texts), texts))
    return work


def chosen_crates(options):
    """Returns the crates whose mutants are tried, and says why these."""
    counts = {it: len(files_below(f"mutants/{it}", ".edit")) for it in crates()}
    counts = {crate: count for crate, count in counts.items() if count}
    if not options.due:
        return list(counts)
    found, why = due.chosen_here(counts)
    print(f"edits: {sum(counts[it] for it in found)} mutants are tried: {why}", flush=True)
    return found


def show_plan(work, options, tally):
    left = [[(crate, list(batches), texts) for crate, batches, texts in track] for track in tracks_of(work)]
    turns = [turn for track in left for turn in turns_in(track)]
    for number, turn in enumerate(turns if options.plan else (), 1):
        for crate, batch in turn:
            print(f"check {number}: {crate.name}: {len(batch.edits)}: {' '.join(it.name for it in batch.edits)}")
    count = sum(len(batch.edits) for _, batches, _ in work for batch in batches)
    print(f"{count} edits can be applied, in {len(turns)} checks; {tally.counts.get('BAD', 0)} cannot")
    return 1 if tally.counts else 0


def cost_of(track):
    each = ((sum(len(it.edits) + 10 for it in batches), texts.values()) for _, batches, texts in track)
    return sum(edits * sum(map(len, texts)) for edits, texts in each)


def main(words):
    parser = argparse.ArgumentParser(prog="checks/run edits", usage=__doc__.split("\n\n")[2].strip())
    for word in ("--stale", "--plan", "--after-gate", "--anew", "--due"):
        parser.add_argument(word, action="store_true")
    parser.add_argument("--keep")
    parser.add_argument("--from", dest="from_folder")
    parser.add_argument("names", nargs="*")
    options = parser.parse_args(words)
    unknown = {it.partition("/")[0] for it in options.names} - {*crates()}
    if unknown:
        sys.exit(f"edits: crates.txt has no crate {', '.join(sorted(unknown))}")
    options.chosen = chosen_crates(options)
    tally = Tally(Kept(not options.anew))
    work = work_of(options, tally)
    if options.stale or options.plan:
        return show_plan(work, options, tally)
    build_below([it[0] for it in work], options.after_gate)
    with ThreadPoolExecutor(lanes()) as pool:
        tracks = sorted(tracks_of(work), key=cost_of, reverse=True)
        for ran in [pool.submit(try_track, it, options, tally) for it in tracks]:
            ran.result()
    status = tally.end()
    if not (status or options.names or options.from_folder):
        due.note(options.chosen)
    return status
