"""The crates of this repository, as crates.txt lists them."""
import os
import re

from checks.lib.repository import ROOT, read

LINE = re.compile(r"^(\w+)(?: [^\s:]+)*:(.*)$", re.M)


def listed(root=ROOT):
    """Returns what each crate uses: crates of this repository, and libraries of the toolchain."""
    return {it[1]: it[2].split() for it in LINE.finditer(read(os.path.join(root, "crates.txt")))}


def libraries_of(crate, root=ROOT):
    """Returns the libraries of the toolchain that a crate names."""
    known = listed(root)
    return [it for it in known[crate] if it not in known]


def uses_of(crate, root=ROOT):
    """Returns all crates of this repository below a crate."""
    known, found = listed(root), set()
    left = [crate]
    while left:
        new = {it for it in known[left.pop()] if it in known} - found
        found |= new
        left += new
    return found
