"""Clones of this repository whose release/ has what was built, and what is below a folder."""
import hashlib
import os
import shutil

from checks.lib.repository import ROOT, read, read_bytes, version_of_sources, write
from checks.lib.toolchain import sum_of_sources


def copy_to(folder, built):
    """Makes a clone of this repository whose release/ has what was built."""
    made = shutil.ignore_patterns("out", "target", ".git", "__pycache__")
    shutil.copytree(ROOT, folder, ignore=made, symlinks=True)
    release, names = os.path.join(folder, "release", "linux-x86_64"), sorted(os.listdir(built))
    os.makedirs(release, exist_ok=True)
    sums = [f"# sources {sum_of_sources(folder)}"]
    sums += [f"{hashlib.sha256(read_bytes(built, name)).hexdigest()}  {name}" for name in names]
    for name in names:
        shutil.copy(os.path.join(built, name), release)
    write(os.path.join(release, "SHA256SUMS"), "\n".join(sums) + "\n")


def clone_with(work, built):
    """Makes a clone whose release/ has what was built. Returns its folder."""
    clone = os.path.join(work, "clone")
    copy_to(clone, built)
    sums = os.path.join(clone, "release", "linux-x86_64", "SHA256SUMS")
    write(sums, f"# version {version_of_sources()}\n{read(sums)}")
    return clone


def tree(folder):
    """Returns all that is below a folder: each path with its mode, and what it holds or leads to."""
    found = {}
    for at, folders, files in os.walk(folder):
        for name in folders + files:
            it = os.path.join(at, name)
            held = os.readlink(it) if os.path.islink(it) else None
            if held is None and os.path.isfile(it):
                with open(it, "rb") as file:
                    held = file.read()
            found[os.path.relpath(it, folder)] = os.lstat(it).st_mode, held
    return found
