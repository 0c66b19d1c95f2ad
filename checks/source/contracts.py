"""Reads the public contracts of the crates: comments, heads and clauses of their public functions."""
import functools
import itertools
import re

from checks.lib.rattle_source import all_items, owner_of
from checks.lib.repository import read
from checks.source.definitions import exports, sources_of


@functools.cache
def interface(crate):
    """Returns the items of a crate's files without tests, and the names that it makes public."""
    files = {file: items for file, items in sources_of(crate).items() if "tests" not in file}
    return [item for items in files.values() for item in all_items(items)], exports(files) or set()


def is_promised(function, names):
    block = function.block
    if block and block.kind == "trait":
        return block.is_public and block.name in names
    name = owner_of(block.head) if block else function.name
    return function.is_public and not function.is_of_trait and name in names


def quoted(text, block, functions):
    """Returns functions of a block, or of none, as Rust: comments, heads and clauses."""
    parts = [text[it.beginning(text, ("///", "#")) : it.until].rstrip() + ";" for it in functions]
    shown = re.sub(r"(?m)^ *#.*\n", "", "\n\n".join(parts))
    return f"{text[text.rfind(chr(10), 0, block.start) + 1 : block.inside[0]]}\n{shown}\n}}" if block else shown


@functools.cache
def contracts(crate):
    """Returns the public functions of a crate, file by file, as Rust."""
    items, names = interface(crate)
    promised, parts = [it for it in items if it.kind == "fn" and is_promised(it, names)], []
    for file, of_file in itertools.groupby(promised, lambda it: it.file):
        blocks = [quoted(read(file), *group) for group in itertools.groupby(of_file, lambda it: it.block)]
        parts.append("\n\n".join([f"// From {file}:", *blocks]))
    return "\n\n".join(parts) + "\n"
