"""Explores the model of the tree: each state that some interleaving of the stations' atomic steps leads to.

In each one held blocks must not overlap, and the invariants of docs/ALGORITHM.md must hold.
"""
import functools
import itertools
from collections import deque

from checks.lib.rows import Wrong, must
from tests.models.tree_calls import (
    LEFT, OCC, OWNED, RIGHT, Rules, Step, ancestors, is_below, mark_of, release, retire, search, side, take)


def standing(call):
    """Returns where a call stands: of it and of each call inside it the place, and the values of its names."""
    found = []
    while call is not None:
        names = sorted(call.gi_frame.f_locals.items())
        values = tuple(it for it in names if isinstance(it[1], (int, str, tuple)) and it[0] != "rules")
        found.append((call.gi_code.co_name, call.gi_frame.f_lasti, values))
        call = call.gi_yieldfrom
    return tuple(found)


class Local:
    """What one station is in: how many calls of its program it has begun, its hint, the node that it holds between two
    calls, and within a call the next step. `moves` has for each step that may come next its node and its outcome: by
    the word that it finds, the word that it leaves, and what the station is in then."""

    def __init__(self, number, begun, hint, holds, step):
        self.number, self.begun, self.hint, self.holds, self.step, self.moves = number, begun, hint, holds, step, []
        it = step or Step("", 0, "", owns=holds, swept=1)
        path_up = [(p, side(it.owns, p)) for p in ancestors(it.owns or 1)]
        self.owns, self.holds_block, self.owner = it.owns, it.owns > 0 and it.stop == 0, (it.owns << 16) + it.stop
        self.passed = [(p, bit) for p, bit in path_up if p > it.stop]
        self.swept = [(p, bit) for p, bit in path_up if p >= it.swept]
        self.at, self.marked, self.mark = it.at, it.marked, mark_of(number)
        self.saw_clear = [bit for bit, saw in zip((LEFT, RIGHT), it.seen) if saw]
        self.can_clear = False not in it.seen


class Tree:
    """A machine of dimension n, and for each station a list of calls: ("take", NODE), where node 0 is any node, or
    ("search", k). A station releases what it got before its next call, and retires after its last one."""

    def __init__(self, n, programs, rules):
        self.n, self.programs, self.rules = n, programs, rules
        self.nodes = range(1, 2 << n)
        self.locals, self.fixed, self.at_rest = {}, {}, set()

    def start(self, number, call, hint):
        name, argument = call
        if name == "retire":
            return retire(number)
        if name == "search":
            return search(self.rules, number, 1 << self.n - argument, hint)
        return (take if name == "take" else release)(self.rules, number, argument)

    def bound(self, name, argument):
        """Returns the most steps of a call, and one more for the hint of a search."""
        if name == "retire":
            return 1
        j = self.n - argument if name == "search" else argument.bit_length() - 1
        return {"take": 3 + 7 * j, "release": 1 + 5 * j, "search": (3 + 7 * j) * 2**j + 1}[name]

    def next_calls(self, number, begun, holds):
        program = self.programs[number]
        if holds:
            return [("release", holds)]
        if begun == len(program):
            return [("retire", 0)]
        if program[begun:begun + 1] == [("take", 0)]:
            return [("take", node) for node in self.nodes]
        return program[begun:begun + 1]

    def resting(self, number, begun, hint, holds):
        key = number, begun, hint, holds
        if key not in self.locals:
            it = self.locals[key] = Local(*key, None)
            for call in self.next_calls(number, begun, holds):
                self.add_move(it, begun + (call[0] != "release"), call, ())
        return self.locals[key]

    def running(self, number, begun, hint, call, found):
        """Returns what a station is in whose call has found these words."""
        must(len(found) <= self.bound(*call), f"bounds: {call} makes more than {self.bound(*call)} steps")
        made = self.start(number, call, hint)
        try:
            step = next(made)
            for word in found:
                step = made.send(word)
        except StopIteration as end:
            if call[0] == "search":
                return self.resting(number, begun, end.value[1], end.value[0])
            must(end.value != "held" or len(found) <= 2 + 2 * len(ancestors(call[1])), f"bounds: {call}")
            return self.resting(number, begun, hint, call[1] if end.value == "held" else 0)
        key = number, begun, hint, call, standing(made)
        if key not in self.locals:
            it = self.locals[key] = Local(number, begun, hint, 0, step)
            self.add_move(it, begun, call, found)
        return self.locals[key]

    def add_move(self, local, begun, call, found):
        step = local.step or next(self.start(local.number, call, local.hint))

        @functools.cache
        def outcome(word):
            return step.written(word), self.running(local.number, begun, local.hint, call, (*found, word))

        local.moves.append((step.node, outcome))


def fixed_bits(tree, stations):
    """Returns for each node which bits of its word are fixed by what these stations own and have passed, and how; and
    a node that has an owner and is owned or was passed by another station, if there is one."""
    clash = None
    for a, b in itertools.permutations(stations, 2):
        overlap = a.holds_block and b.holds_block and (a.owns == b.owns or is_below(a.owns, b.owns))
        must(not overlap, f"overlap: nodes {a.owns} and {b.owns} are held")
        if b.owns and (a.owns == b.owns or any(p == b.owns for p, _ in a.passed)):
            clash = b.owns
    sides, owners = [0] * (2 << tree.n), [it.owns for it in stations]
    for p, bit in (it for station in stations for it in station.passed):
        sides[p] |= bit
    return [(v, OCC | sides[v], (v in owners) | sides[v]) for v in tree.nodes], clash


def must_be_safe(words, fixed, clash):
    for v, mask, bits in fixed:
        if words[v] & mask != bits:
            raise Wrong(f"safety: the word of node {v} is {words[v]:#x}")
    if clash:
        raise Wrong(f"safety: node {clash} has an owner, and another station owns or has passed it")


def marks_must_agree(words, stations):
    for it in stations:
        if it.marked and words[it.at] & it.mark:
            if it.marked & ~words[it.at]:
                raise Wrong(f"marks: the word of node {it.at} is {words[it.at]:#x}, and was marked as {it.marked:#x}")
            for bit in it.saw_clear:
                if any([(it.at, bit) in other.swept for other in stations]):
                    raise Wrong(f"marks: a take has swept node {it.at} from a child that was seen clear")


def debts_must_be_owed(words, stations):
    count = len(words)
    for v, word in enumerate(words):
        if not word & OWNED or not v:
            if word and v and not any(it.at == v and it.marked == word for it in stations):
                raise Wrong(f"debts: the word of node {v} is {word:#x}, and no release there has marked it so")
        elif not word & OCC and (2 * v >= count or not (words[2 * v] | words[2 * v + 1]) & OWNED):
            if not any(it.at == v and it.can_clear and it.marked in (0, word) for it in stations):
                raise Wrong(f"debts: the word of node {v} is {word:#x}, and no release there can clear it")


def alone(call, words):
    """Makes all steps of a call, with no other between them. Returns what the call returns."""
    try:
        step = next(call)
        while True:
            found, words[step.node] = words[step.node], step.written(words[step.node])
            step = call.send(found)
    except StopIteration as end:
        return end.value


def rest_must_be_exact(tree, words, stations):
    """Compares the words with what is held, where no call is in progress. Then one more station searches alone, with
    each hint."""
    held = [it.holds for it in stations if it.holds]
    if (words, *held) in tree.at_rest:
        return
    tree.at_rest.add((words, *held))
    for v in tree.nodes:
        is_used = any(h == v or is_below(h, v) for h in held)
        must(words[v] & OWNED if is_used else words[v] == 0, f"rest: the word of node {v} is {words[v]:#x}")
    for k in range(tree.n + 1):
        depth = range(1 << tree.n - k, 2 << tree.n - k)
        available = [v for v in depth if not any(v == h or is_below(v, h) or is_below(h, v) for h in held)]
        for hint in range(1 << tree.n):
            got, _ = alone(search(tree.rules, len(stations), depth[0], hint), list(words))
            must(got == (available or [0])[0], f"alone: a search for 2^{k} processors gets {got} beside {held}")


ALL = ("safety", "marks", "debts", "rest")


def must_be_right(tree, words, stations, watched):
    """Sees that held blocks do not overlap, and the parts of ALL that are watched."""
    owners = tuple([it.owner for it in stations])
    fixed = tree.fixed.get(owners)
    if fixed is None:
        fixed = tree.fixed[owners] = fixed_bits(tree, stations)
    if "safety" in watched:
        must_be_safe(words, *fixed)
    if "marks" in watched:
        marks_must_agree(words, stations)
    if "debts" in watched:
        debts_must_be_owed(words, stations)
    if "rest" in watched and not any([it.step for it in stations]):
        rest_must_be_exact(tree, words, stations)


def way_to(state, came_from, count):
    """Returns the stations that made the steps that lead to a state."""
    way = []
    while came_from[state]:
        before = came_from[state]
        way += [str(new.number) for new, old in zip(state[count:], before[count:]) if new is not old]
        state = before
    return " ".join(reversed(way))


def explore(n, programs, rules=Rules(), watched=ALL):
    """Visits each state that some interleaving leads to, those of fewer steps first. Returns how many there are, and
    the words where all stations have retired."""
    tree, count, ends = Tree(n, programs, rules), 2 << n, set()
    start = (*[0] * count, *(tree.resting(s, 0, 0, 0) for s in range(len(programs))))
    came_from, ahead = {start: None}, deque([start])
    while ahead:
        state = ahead.popleft()
        try:
            must_be_right(tree, state[:count], state[count:], watched)
            moves = [(place, *move) for place in range(count, len(state)) for move in state[place].moves]
            for place_of_local, node, outcome in moves:
                then = list(state)
                then[node], then[place_of_local] = outcome(state[node])
                then = tuple(then)
                if then not in came_from:
                    came_from[then] = state
                    ahead.append(then)
        except Wrong as wrong:
            raise Wrong(f"{wrong}; after steps of the stations {way_to(state, came_from, count)}") from wrong
        if not moves:
            ends.add(state[:count])
    return len(came_from), ends
