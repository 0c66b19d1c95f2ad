"""Runs each command line of README.md and of docs/, and compares what they show with what comes out.

The commands run in a copy of this repository without what was made in it, on a PATH with no `rt`, with the program and
libraries of FOLDER as those of release/: `checks/run readme FOLDER`. A line `..` is for all that follows. A line whose
compiler or reader of tables is not there is passed over, and named.
"""
import glob
import os
import re
import shutil
import tempfile

from checks.lib.clones import copy_to
from checks.lib.repository import path, place, read
from checks.lib.rows import Row, Skipped, Wrong, answer, must, run_rows

BLOCK = re.compile(r"^```\w*\n(\$ .*?)^```$", re.M | re.S)
COMPILERS = {"cc": "cc", "c++": "c++", "(cd rust": "cargo"}
# What reads rows, and a command that ends well where it is there.
READERS = {
    "| mlr ": ["mlr", "--version"], "| sqlite3 ": ["sqlite3", "--version"],
    "import pandas": ["python3", "-c", "import pandas"],
}
SECONDS = 120
MOST_LINES = 130
# How many commands are shown at least: a document that shows fewer is not read right.
LEAST_COMMANDS = {"README.md": 4, "docs/ALGORITHM.md": 7}


def commands(document):
    for block in BLOCK.findall(read(document)):
        for piece in re.split(r"^\$ ", block, flags=re.M)[1:]:
            command, _, shown = piece.partition("\n")
            yield command, shown


def works(trial, env):
    return bool(shutil.which(trial[0], path=env["PATH"])) and answer(trial, env=env)[0] == 0


def must_show(command, shown, folder, env):
    """Sees that a command ends well, with an empty standard error and the output that is shown."""
    compiler = next((it for word, it in COMPILERS.items() if command.startswith(word)), None)
    if compiler and not shutil.which(compiler):
        raise Skipped(f"no {compiler} here")
    for word, trial in READERS.items():
        if word in command and not works(trial, env):
            raise Skipped(f"no {word.split()[-1]} here")
    status, out, err = answer(["sh", "-c", command], "", text=True, cwd=folder, env=env, timeout=SECONDS)
    is_so = out.startswith(shown[: -len("..\n")]) if shown.endswith("\n..\n") else out == shown
    must(status == 0 and err == "" and shown and is_so, f"status {status}, output {out[:400]!r}, errors {err[:400]!r}")


def must_be_short():
    lines = len(read("README.md").splitlines())
    must(lines <= MOST_LINES, f"README.md has {lines} lines, and not {MOST_LINES} at most")


def environment(room):
    """Returns an environment whose PATH has no `rt`; a folder of PATH that has it may have cargo too."""
    there = [it for it in os.environ["PATH"].split(":") if not os.path.exists(f"{it}/rt")]
    os.mkdir(f"{room}/bin")
    if shutil.which("cargo"):
        os.symlink(shutil.which("cargo"), f"{room}/bin/cargo")
    return {**os.environ, "PATH": ":".join([f"{room}/bin", *there]), "CARGO_TARGET_DIR": f"{room}/target"}


def main(words):
    if not words:
        raise Wrong("name the folder with the program and the libraries")
    documents = ["README.md", *(place(file) for file in sorted(glob.glob(path("docs/*.md"))))]
    with tempfile.TemporaryDirectory(prefix="readme-") as room:
        folder, env = os.path.join(room, "clone"), environment(room)
        copy_to(folder, os.path.realpath(words[0]))
        rows = [Row("README.md is one page", must_be_short)]
        for document in documents:
            shown = list(commands(document))
            rows += [Row(f"{document}: {it[0]}", must_show, (*it, folder, env)) for it in shown]
            least = LEAST_COMMANDS.get(document, 0)
            must(len(shown) >= least, f"{document} shows {len(shown)} commands")
        return run_rows("readme", rows)
