"""Builds the static library of a crate, for any x86-64, over what `rt ci` has just left: `checks/run static CRATE`.

`rt lib` builds each library below once more, since `rt ci` leaves them with no stamp, which takes a processor a quarter
of an hour. It also keeps what it proved for its next call, which takes half as long again as to keep nothing.
"""
import os
import subprocess

from checks.lib.rows import must
from checks.lib.toolchain import FOR_ANY, build_below, crates, kit


def main(words):
    crate = crates().get(words[0]) if len(words) == 1 else None
    must(crate and crate.is_static, "static: name one static library of crates.txt")
    build_below([crate], after_gate=True)
    os.makedirs(f"{crate.folder}/out", exist_ok=True)
    build = [kit().RATTLE, "build", *crate.words(["--jobs", "1"], keeps=False), "--toolchain", f"{kit().KIT}/toolchain"]
    build += ["--backend", "llvm", *FOR_ANY, "-o", f"out/lib{crate.name}.a"]
    return subprocess.run(build, cwd=crate.folder, stdin=subprocess.DEVNULL, check=False).returncode
