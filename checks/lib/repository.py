"""The files of this repository: where they stand, what they hold, the crates in their order, the limits."""
import itertools
import os
import re

ROOT = os.path.dirname(os.path.dirname(os.path.dirname(os.path.realpath(__file__))))
# The mutants: a folder for each crate, in which each file is a mutant.
MUTANTS = "mutants"
# The folders of a crate: its sources, definitions and proofs.
PARTS = ("src", "specs", "proofs")
# The crates on which nobody builds: callers, programs, measurements and tests.
NO_LIBRARIES = (
    "uses", "jobs_cli", "locked_peers", "cube_bench", "library_bench", "tests_kit", "tests_bitmap", "tests_files",
    "tests_lanes")
VERSION_SOURCE = "crates/release_version/src/lib.rt"
LIMITS = ("crates/cube_shape/src/limits.rt", "crates/alloc_bits/src/limits.rt", "crates/lanes/src/sizes.rt")


def path(*names):
    """Returns the path of a file of the repository, or of one that is named as a whole."""
    return os.path.join(ROOT, *names)


def read(*names):
    with open(path(*names), encoding="utf-8") as file:
        return file.read()


def read_bytes(*names):
    with open(path(*names), "rb") as file:
        return file.read()


def write(name, text):
    """Writes a text to a file, whose folder is made where there is none."""
    os.makedirs(os.path.dirname(path(name)) or ".", exist_ok=True)
    with open(path(name), "w", encoding="utf-8") as file:
        file.write(text)


def crate_names():
    """Returns the names of the crates, the lowest first, as crates.txt lists them."""
    lines = [line for line in read("crates.txt").splitlines() if line.strip() and not line.startswith("#")]
    return [line.partition(":")[0].split()[0] for line in lines]


def files_below(folder, *endings):
    """Returns the paths of the files below a folder with one of these endings, sorted folder by folder."""
    found = []
    for at, folders, files in os.walk(path(folder)):
        folders.sort()
        found += [os.path.join(at, name) for name in sorted(files) if name.endswith(endings or "")]
    return found


def crate_files(*endings):
    """Yields the paths of the files of all crates with one of these endings, the lowest crate first."""
    for crate, part in itertools.product(crate_names(), PARTS):
        yield from files_below(f"crates/{crate}/{part}", *endings)


def place(file):
    """Returns the path of a file as it stands below the repository."""
    return os.path.relpath(file, ROOT)


def version_of_sources():
    """Returns the version of the sources that are here."""
    return re.search(r'VERSION: &str = "([^"]*)"', read(VERSION_SOURCE))[1]


def limits():
    """Returns each constant of the limits: its file, the sentence above it, its name, and its value as written."""
    pattern = r"(///.*\n)?pub const (\w+): \w+ = (.*);"
    return [(home, *found) for home in LIMITS for found in re.findall(pattern, read(home))]
