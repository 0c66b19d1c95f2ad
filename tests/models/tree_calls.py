"""A model of the tree: the pseudo-code of docs/ALGORITHM.md, by which each call yields its atomic steps.

Each comment `#:` is the page's line that the code under it does. `checks/run algorithm` compares them.
"""
from typing import NamedTuple, Tuple

OCC, LEFT, RIGHT, OWNED = 1, 2, 4, 7


def mark_of(station):
    return 1 << 8 + station


def is_clear(word):
    return not word & OWNED


def ancestors(node):
    """Returns the ancestors of a node, from its parent to the root."""
    return tuple(node >> up for up in range(1, node.bit_length()))


def levels(node, above):
    return node.bit_length() - above.bit_length()


def side(node, above):
    """Returns the bit of the half of `above` that the node is in."""
    return RIGHT if node >> levels(node, above) - 1 & 1 else LEFT


def is_below(node, above):
    return node > above > 0 and node >> levels(node, above) == above


def after(node, above):
    """Returns the first node at the node's depth that comes after those below `above`."""
    return above + 1 << levels(node, above)


class Rules(NamedTuple):
    """The rules of the page. Another value breaks one."""

    sweeps: bool = True
    heeds_occ: bool = True
    has_own_mark: bool = True
    unmarks_all: bool = True
    looks_at_both: bool = True
    climbs: bool = True
    looks_in_a_roll_back: bool = True


class Step(NamedTuple):
    """The next step of a station, and what the station is until it makes it. It owns the node `owns`, has passed the
    ancestors deeper than `stop`, and is swept at those from `swept` down. Or it is a release at the node `at`, whose
    mark made the word `marked`, and which saw each child clear (True), in use (False), or not yet (None)."""

    name: str
    node: int
    kind: str
    value: int = 0
    new: int = 0
    owns: int = 0
    stop: int = 0
    swept: int = 0
    at: int = 0
    marked: int = 0
    seen: Tuple = (None, None)

    def written(self, word):
        """Returns the word that the step leaves where it finds this one."""
        return {
            "load": word,
            "store": self.value,
            "and": word & self.value,
            "or": word | self.value,
            "cas": self.new if word == self.value else word,
        }[self.kind]


def take(rules, s, h):
    """Takes node `h` for station `s`. Like each call of the model it yields its steps, and is sent what they find."""
    #: w = load(h) | Look
    w = yield Step("look", h, "load")
    #: if w is not clear: return "in use"
    if not is_clear(w):
        return "in use"
    #: if not cas(h, w, OWNED): return "lost" | Claim
    if (yield Step("claim", h, "cas", w, OWNED)) != w:
        return "lost"
    del w  # A name that is kept for nothing would make two states of one.
    #: for each ancestor p of h, from its parent to the root:
    for p in ancestors(h):
        #: fetch_and(p, OWNED) | Sweep
        if rules.sweeps:
            yield Step("sweep", p, "and", OWNED, owns=h, stop=p, swept=p + 1)
        #: old = fetch_or(p, side we came from) | Raise
        #: if old has OCC:
        if (yield Step("raise", p, "or", side(h, p), owns=h, stop=p, swept=p)) & OCC and rules.heeds_occ:
            #: release(h)
            yield from (release if rules.looks_in_a_roll_back else lower)(rules, s, h, p)
            #: return "under p"
            return p
    #: return "held"
    return "held"


def release(rules, s, h, stop=0):
    m = mark_of(s if rules.has_own_mark else 0)
    #: store(h, 0) | Zero
    yield Step("zero", h, "store", owns=h, stop=stop, swept=stop + 1)
    #: for each ancestor p of h, from its parent to the root:
    for p in ancestors(h) if rules.climbs else ():
        #: fetch_and(p, OWNED) | Unmark
        yield Step("unmark", p, "and", OWNED if rules.unmarks_all else ~m, at=p)
        #: w = fetch_or(p, m) | m | Mark
        w = (yield Step("mark", p, "or", m, at=p)) | m
        #: if w has OCC: return
        if w & OCC:
            return
        #: v = w without marks
        v = w & OWNED
        #: if load(left child) is clear: remove LEFT from v | Child
        left = is_clear((yield Step("child", 2 * p, "load", at=p, marked=w)))
        v &= ~LEFT if left else OWNED
        #: if load(right child) is clear: remove RIGHT from v | Child
        right = not rules.looks_at_both or is_clear(
            (yield Step("child", 2 * p + 1, "load", at=p, marked=w, seen=(left, None))))
        v &= ~RIGHT if right else OWNED
        #: if not cas(p, w, v): return | Clear
        if (yield Step("clear", p, "cas", w, v, at=p, marked=w, seen=(left, right))) != w:
            return
        #: if v is not clear: return
        if not is_clear(v):
            return
        del w, v, left, right


def retire(s):
    #: fetch_or(word 0, bit s) | Retire
    yield Step("retire", 0, "or", 1 << s)


def search(rules, s, first, hint):
    """Searches the depth of the node `first`, as the page says in words. Returns the node that it holds, or 0, and the
    hint."""
    h = first
    if is_below(h, hint):
        if (yield Step("peek", hint, "load")) & OCC:
            h = after(h, hint)
        else:
            hint = 0
    while h < 2 * first:
        answered = yield from take(rules, s, h)
        if answered == "held":
            return h, hint
        under = answered if isinstance(answered, int) else 0
        hint = under if under and h == first else hint
        h = after(h, under) if under else h + 1
        del answered, under
    return 0, hint


def lower(_, s, h, stop):
    """Rolls back wrongly: takes the sides away that the take has raised, with no look at the children."""
    yield Step("zero", h, "store", owns=h, stop=stop)
    for p in (it for it in ancestors(h) if it > stop):
        yield Step("lower", p, "and", ~side(h, p), at=p)
