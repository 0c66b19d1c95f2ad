"""Explores the algorithm of docs/ALGORITHM.md: three stations, in every interleaving of their atomic steps.

The model of tests/models is the page's pseudo-code, which the first row compares. In each state that an interleaving
leads to, held blocks do not overlap and the page's invariants hold. Where no call is in progress the words are as the
page says, and a search that runs alone gets the first available block. No call makes more steps than the page's bounds.
Rows with wrong rules show that each of these can fail.

`checks/run algorithm [PROGRAM]` also plays schedules on the model and by `PROGRAM replay`, and compares the steps.
"""
import inspect
import itertools
import re

from checks.lib.repository import read
from checks.lib.rows import Row, Wrong, answer, must, run_rows
from tests.models.tree_calls import LEFT, Rules, release, retire, take
from tests.models.tree_interleavings import ALL, explore
from tests.models.tree_player import Player

PAGE, SCHEDULES = "docs/ALGORITHM.md", "examples/schedules"


def must_be_the_page():
    """Compares the page's lines with the comments of the model, and the names of its steps with those of the model."""
    sources = {call.__name__: inspect.getsource(call) for call in (take, release, retire)}
    steps = re.findall(r'Step\("(\w+)"', "".join(sources.values()))
    blocks = dict(re.findall(r"^```\n(\w+)\([^\n]*\):\n(.*?)^```$", read(PAGE), re.M | re.S))
    must([*blocks] == [*sources], f"the page has {[*blocks]}, and the model {[*sources]}")
    named = []
    for name, block in blocks.items():
        pieces = [[*re.split(r" {2,}", line.strip()), ""] for line in block.splitlines()]
        lines = [" | ".join(it[:2] if it[1].lower() in steps else it[:1]) for it in pieces]
        own = re.findall(r"(?m)^ +#: (.*)$", sources[name])
        must(own == lines, f"{name}: the page has {[it for it in lines if it not in own]}, "
             f"and the model {[it for it in own if it not in lines]}")
        named += [it[1].lower() for it in pieces if it[1].lower() in steps]
    must(named == steps, f"the steps of the page are {named}, of the model {steps}")


def must_all_be_right(n, choices):
    """Explores a machine with three stations of these programs, each choice on its own."""
    states = 0
    for programs in choices:
        visited, ends = explore(n, programs)
        states += visited
        must(ends == {(7, *[0] * ((2 << n) - 1))}, f"the words are {ends} once all stations have retired")
    return f"{len(choices)} times three programs, {states} states"


def must_be_refuted(rules, broken, watched, n, programs):
    """Explores by a wrong rule, and sees what is found broken first."""
    try:
        explore(n, programs, rules, watched)
    except Wrong as wrong:
        must(str(wrong).startswith(f"{broken}: "), f"it breaks another thing first, and not {broken}: {wrong}")
        return wrong
    raise Wrong("nothing refutes it")


def takes(*nodes):
    return [("take", node) for node in nodes]


def searches(*dims):
    return [("search", k) for k in dims]


def schedules():
    """Returns the lines of each schedule of examples/ on a small machine, with the machine's size."""
    sizes = re.findall(rf"replay --dim (\d+) --stations (\d+) < ({SCHEDULES}/\S+)", read("docs", "ALGORITHM.md"))
    return {name: (int(n), int(stations), read(name).split()[1:]) for n, stations, name in sizes}


def must_leave_a_bit():
    """Plays the schedule of three marks, by which an Unmark of a station's own mark alone leaves a bit for ever."""
    n, _, lines = schedules()[f"{SCHEDULES}/three-marks.csv"]
    right, wrong = Player(n), Player(n, Rules(unmarks_all=False))
    right.play(*lines)
    wrong.play(*lines)
    must(not right.calls and not any(right.words), f"by the page's rules the words are {right.words}")
    must(not wrong.calls and not any(wrong.holds.values()) and wrong.words[1] == LEFT, f"the words are {wrong.words}")


def must_be_replayed(program, n, stations, lines):
    """Compares what the model and the program make of a schedule. Without lines it is a random one."""
    player = Player(n)
    if lines:
        player.play(*lines)
    else:
        lines = player.play_at_random(stations, f"{n} {stations}")
    text = "\n".join(["station,call,arg", *lines, ""])
    status, out, err = answer([program, "replay", "--dim", str(n), "--stations", str(stations)], text, text=True)
    rows = [row.rpartition(",")[0] for row in out.splitlines()[1:]]
    first = next((it for it in itertools.zip_longest(rows, player.ended()) if it[0] != it[1]), "")
    must(status == 0 and not first, f"status {status}, errors {err!r}; the program's row and the model's are {first}")
    return f"{len(rows)} rows"


def must_be_replayed_at_random(program):
    for n, stations in itertools.product(range(5), (2, 3, 5, 9, 48)):
        must_be_replayed(program, n, stations, ())


def rows_of_right():
    pairs = [takes(v) for v in (1, 2, 4, 5)]
    yield "2 processors, each takes any node", 1, [[takes(0)] * 3]
    yield "2 processors, takes", 1, [[takes(2, 2), takes(2, 3), takes(1)], [takes(2, 3), takes(2, 3), takes(1)]]
    yield "2 processors, searches", 1, [[searches(0, 1), searches(0), searches(0)]]
    yield "4 processors, each takes one of four nodes", 2, [*itertools.combinations_with_replacement(pairs, 3)]
    yield "4 processors, takes in both halves", 2, [[takes(4), takes(5), takes(6)], [takes(2), takes(4), takes(6)]]
    yield "4 processors, two takes", 2, [[takes(4, 4), takes(5), takes(2)]]
    yield "4 processors, searches with a hint", 2, [[takes(2, 2), searches(0, 0), takes(1)]]


def rows_of_wrong():
    three = [takes(2, 2), takes(2, 3), takes(1)]
    yield "no Sweep: blocks overlap", Rules(sweeps=False), "overlap", (), 1, three
    yield "no Sweep: a mark misleads", Rules(sweeps=False), "marks", ALL, 1, three
    yield "no Sweep: a bit is gone", Rules(sweeps=False), "safety", ("safety",), 1, three
    yield "a Raise past OCC: blocks overlap", Rules(heeds_occ=False), "overlap", (), 1, three
    yield "one shared mark: a bit is left", Rules(has_own_mark=False), "rest", ("rest",), 1, three
    yield "one shared mark: nobody owes a bit", Rules(has_own_mark=False), "debts", ALL, 1, three
    yield "a look at one child alone: blocks overlap", Rules(looks_at_both=False), "overlap", (), 1, three
    yield "a release without a climb: a bit is left", Rules(climbs=False), "rest", ("rest",), 1, three
    hasty = [takes(1, 2), takes(4), takes(4)]
    yield "a roll-back without a look: blocks overlap", Rules(looks_in_a_roll_back=False), "overlap", (), 2, hasty
    own = [takes(4, 4), takes(5), takes(2)]
    yield "an Unmark of its own mark: a mark misleads", Rules(unmarks_all=False), "marks", ALL, 2, own


def main(words):
    rows = [Row("the page's lines are the model's", must_be_the_page)]
    rows += [Row(name, must_all_be_right, case) for name, *case in rows_of_right()]
    rows += [Row(name, must_be_refuted, case) for name, *case in rows_of_wrong()]
    rows += [Row("an Unmark of its own mark: a bit is left", must_leave_a_bit)]
    for program in words:
        rows += [Row(name, must_be_replayed, (program, *case)) for name, case in schedules().items()]
        rows += [Row("random schedules", must_be_replayed_at_random, (program,))]
    return run_rows("algorithm", rows, says_ok=True)
