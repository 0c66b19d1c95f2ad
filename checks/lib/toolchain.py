"""What calls of the prover, a compiler or the program need: the toolchain's own library, which knows the words of a
check, the libraries of this repository as they stand, and the program that was built."""
import importlib.machinery
import importlib.util
import os
import re
import shutil
import subprocess
import sys
import tempfile

from checks.lib.repository import ROOT, path, read
from checks.lib.rows import output

# The libraries for C are built for any such processor: they cannot look for what they need, as `cubejobs` does.
FOR_ANY = ["--cpu", "x86-64"]
AFTER_GATE = "--after-gate"
PROGRAM = "crates/jobs_cli/out/jobs_cli"


def kit():
    if "rtlib" not in sys.modules:
        rt = shutil.which("rt") or sys.exit("rt is not on PATH")
        file = os.path.join(os.path.dirname(os.path.realpath(rt)), "rtlib.py")
        loader = importlib.machinery.SourceFileLoader("rtlib", file)
        sys.modules["rtlib"] = importlib.util.module_from_spec(importlib.util.spec_from_loader("rtlib", loader))
        loader.exec_module(sys.modules["rtlib"])
    return sys.modules["rtlib"]


def crates(root=ROOT):
    return {it.name: it for it in kit().crates_below(root)}


def build_below(tops, after_gate):
    """Builds the libraries below these crates, the lowest first. `rt ci` leaves its own with no stamp, and none where
    it puts back what stood there before."""
    below = {dep.name: dep for crate in tops for dep in crate.below()}
    for dep in sorted(below.values(), key=lambda it: len(it.below())):
        is_left = after_gate and os.path.isdir(dep.rlib) and not os.path.exists(f"{os.path.dirname(dep.rlib)}/stamp")
        if not is_left and dep.build_rlib(["--jobs", "1"], anew=False):
            sys.exit(f"the library {dep.name} was not built")


def wasm_module(name):
    """Builds a static library for WebAssembly with 64-bit memories, and returns the bytes of its module."""
    crate = crates()[name]
    build_below([crate], after_gate=True)
    kept = ["--incremental", "out/incremental"] if os.path.isdir(f"{crate.folder}/out/incremental") else []
    to = ["--target", "wasm64-unknown-unknown", "--toolchain", f"{kit().KIT}/toolchain", "-o"]
    with tempfile.TemporaryDirectory() as folder:
        archive, module = os.path.join(folder, "library.a"), os.path.join(folder, "library.wasm")
        build = [kit().RATTLE, "build", *crate.words(["--jobs", "1"], keeps=False), *kept, *to, archive]
        link = [f"{kit().KIT}/bin/rattle-link", *to, module, archive]
        for words in (build, link):
            subprocess.run(words, cwd=crate.folder, stdin=subprocess.DEVNULL, capture_output=True, check=True)
        with open(module, "rb") as it:
            return it.read()


def check_words(crate, functions, folder=None):
    """Returns the words of a check of these functions of the crate, or of none where the one name is empty."""
    words = [kit().RATTLE, "check", *crate.words(["--jobs", "1"], keeps=False)]
    words += [word for name in functions for word in ("--only", name)]
    return words + (["--incremental", folder] if folder else [])


def program(words):
    """Returns the program that the words name, or else the one that `rt ci` left, which is built if need be."""
    named = [word for word in words if not word.startswith("-")]
    if not named and not os.path.exists(path(PROGRAM)):
        subprocess.run([path("cubejobs"), "--prove", "--version"], stdout=subprocess.DEVNULL, check=True)
        return path("out", "cubejobs")
    return os.path.realpath(named[0] if named else path(PROGRAM))


def gcc(source, out, *flags):
    words = ["gcc", "-O1", "-Wall", "-Wextra", "-Werror", *flags, path("tests/c", source), "-o", out]
    subprocess.run(words, check=True)
    return out


def shim(source, folder):
    """Compiles a C file of `tests/c` that LD_PRELOAD puts before the C library."""
    return gcc(source, os.path.join(folder, source.replace(".c", ".so")), "-shared", "-fPIC")


def sum_of_sources(root=ROOT):
    """Returns the checksum of the sources below a folder, as the launcher computes it."""
    function = re.search(r"^sources\(\) \{\n.*?^\}\n", read("cubejobs"), re.M | re.S)[0]
    return output(["sh", "-c", f"{function}sources"], env={**os.environ, "root": root}).strip()
