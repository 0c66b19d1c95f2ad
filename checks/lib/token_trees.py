"""Texts as trees of tokens: what the eraser reads and writes."""
import re

TOKEN = re.compile(r"""
    (?P<space>\s+) | (?P<comment>//[^\n]*) | (?P<text>b?"(?:[^"\\]|\\.)*") | (?P<letter>b?'(?:[^'\\\n]|\\[^\n]{1,9}?)')
  | (?P<life>'[A-Za-z_]\w*) | (?P<number>\d\w*(?:\.\d\w*)?) | (?P<name>[^\W\d]\w*) | (?P<sign>::|->|=>|\.\.=|.)
""", re.X | re.S)
CLOSES = {"(": ")", "[": "]", "{": "}"}


class Unknown(Exception):
    """A form that the eraser does not know."""


class Token(str):
    """A token, with its kind: the name of a group of TOKEN."""

    kind = "sign"


class Tree(list):
    """The tokens and trees between two brackets, or those of a file."""

    opens = ""


def token(text, kind="name"):
    made = Token(text)
    made.kind = kind
    return made


def tree(items, opens):
    made = Tree(items)
    made.opens = opens
    return made


def parsed(text):
    """Returns the tree of a text."""
    open_trees = [Tree()]
    for found in TOKEN.finditer(text):
        if found["sign"] in CLOSES:
            open_trees.append(tree([], found[0]))
        elif found["sign"] in CLOSES.values():
            closed = open_trees.pop()
            if CLOSES.get(closed.opens) != found[0]:
                raise Unknown(f"a {found[0]} closes nothing")
            open_trees[-1].append(closed)
        else:
            open_trees[-1].append(token(found[0], found.lastgroup))
    if len(open_trees) != 1:
        raise Unknown("a bracket is not closed")
    return open_trees[0]


def shown(items):
    """Returns the text of a token, of a tree, or of a list of both."""
    if isinstance(items, Token):
        return str(items)
    inside = "".join(map(shown, items))
    return items.opens + inside + CLOSES.get(items.opens, "") if isinstance(items, Tree) else inside


def is_tree(items, at, opens):
    return at < len(items) and isinstance(items[at], Tree) and items[at].opens == opens


def is_blank(item):
    return isinstance(item, Token) and item.kind in ("space", "comment")


def after(items, at):
    """Returns the place of the first item from `at` on that is no space and no comment."""
    while at < len(items) and is_blank(items[at]):
        at += 1
    return at


def until(items, at, *signs):
    """Returns the place of the first of these tokens from `at` on, or the end."""
    while at < len(items) and not (isinstance(items[at], Token) and items[at] in signs):
        at += 1
    return at


def last(out):
    """Returns the last item that is no space and no comment."""
    return next((it for it in reversed(out) if not is_blank(it)), "")


def without_space(out):
    while out and is_blank(out[-1]) and out[-1].kind == "space":
        out.pop()
