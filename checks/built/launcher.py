"""Shows what the launcher ./cubejobs does in each situation that a user can meet.

Each part runs the launcher in a small copy of the repository, with a stand-in for `rt` and with a PATH that has no awk.
It fails where an answer is another one. `checks/run launcher FILE` tries the launcher FILE.
"""
import os
import tempfile

from checks.lib.repository import path
from checks.lib.rows import Row, methods, run_rows, title
from tests.launcher.situations import Situations


def in_a_clone(situation, launcher):
    with tempfile.TemporaryDirectory(prefix="launcher-") as room:
        clone = Situations(room, launcher)
        try:
            return situation(clone)
        finally:
            clone.end()


def main(words):
    launcher = os.path.realpath(words[0]) if words else path("cubejobs")
    rows = [Row(title(it), in_a_clone, (it, launcher)) for it in methods(Situations)]
    return run_rows("launcher", rows, says_ok=True)
