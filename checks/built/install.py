"""Installs what was built into a folder of its own, uses it as an installed package is used, and uninstalls it.

`checks/run install FOLDER` makes a clone whose release/ has the files of FOLDER, runs its `./install`, and then
compiles and runs examples with pkg-config, CMake, cargo and Python, without a file of the clone. Each example in Rust
runs in a package of a user, over the libraries and as plain Rust. A part whose tool is missing is skipped and named. In
the end nothing may be left. Bad options, a damaged file and a folder that cannot be written end with their status, and
change nothing.
"""
import copy
import hashlib
import os
import re
import shutil
import stat
import tempfile

from checks.built import pool
from checks.built.install_used import Used
from checks.lib.clones import tree
from checks.lib.repository import read, read_bytes, write
from checks.lib.rows import AS_NOBODY, Row, Skipped, must, needs, output, put, run_rows
from tests.install.tables import EXAMPLES, IN_RUST, PACKAGES, PARTS, VERSIONS

# The form of the package, by its feature.
FORMS = {"": "over the libraries", "source": "as plain Rust"}


class Place(Used):
    """The same place, installed again, in parts and in other ways, and uninstalled."""

    def again(self):
        """A second installation changes nothing, and one in which a file is missing puts it back."""
        before = tree(self.prefix)
        os.remove(self.of("bin", "cubejobs"))
        self.must_install("--prefix", self.prefix)
        must(tree(self.prefix) == before, "a second installation made something else")

    def of_a_later_version(self):
        """What the new version has no more goes, and what another hand put there stays."""
        put(self.of("include", "cubejobs_old.h"))
        with open(self.of("share", "cubejobs", "installed"), "a", encoding="utf-8") as it:
            it.write(f"file {self.of('include', 'cubejobs_old.h')}\n")
        put(self.of("include", "other.h"))
        self.must_install("--prefix", self.prefix)
        must(not os.path.exists(self.of("include", "cubejobs_old.h")), "an old header is still there")
        must(os.path.exists(self.of("include", "other.h")), "a file of others is gone")

    def uninstalled(self):
        """All of it goes. A file of others stays, with its folders."""
        self.must_install("--prefix", self.prefix, "--uninstall")
        must([*tree(self.prefix)] == ["include", "include/other.h"], f"these are left: {[*tree(self.prefix)][:5]}")
        status, _, said = self.install("--prefix", self.prefix, "--uninstall")
        must(status == 1 and "nothing is installed" in said, f"a second one: status {status}, {said!r}")

    def at(self, name):
        """Returns a place with the same clone, and a prefix and a room of its own."""
        other = copy.copy(self)
        other.work = self.room(name)
        other.prefix = os.path.join(other.work, "the prefix")
        return other

    def add(self, *parts):
        self.must_install("--prefix", self.prefix, *(word for part in parts for word in ("--only", part)))

    def files(self):
        """Returns the installed files, except the list of them."""
        found = {name for name, (mode, _) in tree(self.prefix).items() if not stat.S_ISDIR(mode)}
        return found - {"share/cubejobs/installed"}

    def must_be_parts(self, *parts):
        """Sees that the files are exactly of these parts, and that the list has the parts and the files."""
        patterns, found = [it for part in parts for it in PARTS[part]], self.files()
        listed = read(self.of("share/cubejobs/installed")).splitlines()
        more = [it for it in found if not any(re.fullmatch(pattern, it) for pattern in patterns)]
        less = [pattern for pattern in patterns if not any(re.fullmatch(pattern, it) for it in found)]
        must(not more and not less, f"{parts}: {more[:5]} are of no part, nothing is of {less}")
        wanted = {f"part {it}" for it in parts} | {f"file {self.of(it)}" for it in found}
        listed = {it for it in listed if not it.startswith("folder ")}
        must(listed == wanted, f"the list has {sorted(listed - wanted)[:5]}, and not {sorted(wanted - listed)[:5]}")

    def use(self, part):
        """Uses a part as its users do."""
        if part == "c":
            self.with_pkg_config("regions.c")
            self.with_pkg_config("blocks.cpp")
            self.built("prefix", f"-DCMAKE_PREFIX_PATH={self.prefix}")
        if part == "rust":
            self.with_cargo("", ())
        if part == "python":
            self.with_python()
        if part == "program":
            self.with_the_program()

    def only(self, part):
        """A part alone has its files, works, and goes as a whole."""
        place = self.at(f"only {part}")
        place.add(part)
        place.must_be_parts(part)
        try:
            place.use(part)
        finally:
            place.must_install("--prefix", place.prefix, "--uninstall")
            must(not os.path.exists(place.prefix), f"these are left: {[*tree(place.prefix)][:5]}")

    def parts_together(self):
        """A further part is added, and those before stay. An installation of all parts replaces them."""
        place = self.at("parts")
        place.add("c")
        before = {name: it for name, it in tree(place.prefix).items() if name in place.files()}
        place.add("python", "program")
        place.must_be_parts("c", "python", "program")
        must(before.items() <= tree(place.prefix).items(), "files of the first part are others")
        place.add("c")
        place.must_be_parts("c", "python", "program")
        place.use("c")
        place.add()
        place.must_be_parts(*PARTS)
        whole = self.at("whole")
        whole.add()
        must(place.files() == whole.files(), "all parts, one after the other, are not all")
        place.must_install("--prefix", place.prefix, "--uninstall")
        must(not os.path.exists(place.prefix), f"these are left: {[*tree(place.prefix)][:5]}")

    def parts_of_a_later_version(self):
        """What the new version of a part has no more goes, also if another part is added. An installation of a version
        that had no parts is one of all."""
        place = self.at("later")
        place.add("rust", "python")
        old = place.of("share/cubejobs/python/cubejobs/old.py")
        put(old)
        put(os.path.join(os.path.dirname(old), "__pycache__/old.cpython-311.pyc"))
        with open(place.of("share/cubejobs/installed"), "a", encoding="utf-8") as it:
            it.write(f"file {old}\n")
        place.add("program")
        place.must_be_parts("rust", "python", "program")
        must(not os.path.exists(f"{os.path.dirname(old)}/__pycache__"), "what Python kept of a module is left")
        place.add()
        listed = place.of("share/cubejobs/installed")
        write(listed, re.sub(r"^part \w+\n", "", read(listed), flags=re.M))
        place.add("c")
        place.must_be_parts(*PARTS)

    def used_by_python(self):
        """What Python keeps of the module goes with it."""
        needs("python3")
        place = self.at("used by python")
        place.add("python")
        folder = place.of("share/cubejobs/python")
        env = {name: it for name, it in os.environ.items() if name != "PYTHONDONTWRITEBYTECODE"}
        output(["python3", "-c", "import cubejobs"], cwd=folder, env=env)
        must(os.path.isdir(f"{folder}/cubejobs/__pycache__"), "Python has kept nothing")
        place.must_install("--prefix", place.prefix, "--uninstall")
        must(not os.path.exists(place.prefix), f"these are left: {[*tree(place.prefix)][:5]}")

    def for_a_package(self):
        """With --destdir the same files go below a folder, and name the prefix alone."""
        package = os.path.join(self.work, "package")
        folders = "--prefix", "/usr", "--libdir", "/usr/lib/64", "--pythondir", "/usr/lib/py"
        self.must_install(*folders, "--destdir", package)
        must("package" not in read(package, "usr/lib/64/pkgconfig/cubejobs_fit.pc"), "the package names the folder")
        must(os.path.exists(f"{package}/usr/lib/py/cubejobs/py.typed"), "the Python module is elsewhere")
        self.must_install("--prefix", "/usr", "--destdir", package, "--uninstall")
        must(not tree(package), f"these are left: {[*tree(package)][:5]}")

    def for_another_processor(self):
        """Takes the files for aarch64, or stand-ins where release/ has none, and refuses a processor without files."""
        here, there = (os.path.join(self.clone, "release", f"linux-{it}") for it in ("x86_64", "aarch64"))
        package, is_there = os.path.join(self.work, "of aarch64"), os.path.isdir(there)
        words = ["--prefix", "/usr", "--processor", "aarch64", "--destdir", package]
        if not is_there:
            self.refusal(words, 1, "the release is for Linux x86_64, and this is Linux aarch64")
            shutil.copytree(here, there)
            put(f"{there}/cubejobs", "for aarch64\n", 0o755)
            total = hashlib.sha256(b"for aarch64\n").hexdigest()
            write(f"{there}/SHA256SUMS", re.sub(r"\w{64}(?=  cubejobs\n)", total, read(f"{there}/SHA256SUMS")))
        self.must_install(*words)
        for name, made in (("cubejobs", "bin/cubejobs"), ("libcubejobs_fit.a", "lib/libcubejobs_fit.a")):
            is_same = read_bytes(there, name) == read_bytes(package, "usr", made)
            must(is_same, f"{made} is not the file for aarch64")
        self.refusal(["--processor", "riscv64"], 1, "for Linux aarch64 and Linux x86_64, and this is Linux riscv64")
        if not is_there:
            shutil.rmtree(there)

    def damaged(self):
        target = os.path.join(self.work, "damaged")
        file = os.path.join(self.clone, "release/linux-x86_64/libcubejobs_fit.a")
        with open(file, "r+b") as it:
            first = it.read(1)
            it.seek(0)
            it.write(b"?")
        try:
            self.refusal(["--prefix", target], 1, "is damaged")
            must(not os.path.exists(target), "something was installed")
        finally:
            with open(file, "r+b") as it:
                it.write(first)

    def without_rights(self):
        if not AS_NOBODY:
            raise Skipped("only the superuser can start as another user")
        target = os.path.join(self.work, "closed")
        os.makedirs(target, 0o755)
        os.chmod(self.work, 0o755)
        status, _, said = self.install("--prefix", target, **AS_NOBODY)
        must(status == 1 and "cannot make the folder" in said and not tree(target), f"status {status}, {said!r}")

    def with_few_tools(self):
        """It needs sh and coreutils alone: here PATH has nothing else."""
        needs("dpkg")
        room, target = self.room("tools"), os.path.join(self.work, "few")
        names = [it for it in output(["dpkg", "-L", "coreutils"]).split() if re.fullmatch(r"(/usr)?/bin/[^/]+", it)]
        for name in [*names, "/bin/sh"]:
            os.symlink(os.path.realpath(shutil.which(os.path.basename(name))),
                       os.path.join(room, os.path.basename(name)))
        for words in ([], ["--uninstall"]):
            status, _, said = self.install("--prefix", target, *words, env={"PATH": room})
            must(status == 0 and not said, f"status {status}, {said!r}")
        must(not os.path.exists(target), "something is left")


def rows(place):
    yield Row("the installation", place.must_install, ("--prefix", place.prefix))
    yield Row("the program", place.with_the_program)
    yield from (Row(f"{it} with pkg-config", place.with_pkg_config, (it,)) for it in EXAMPLES)
    for form, said in FORMS.items():
        yield Row(f"a package of Rust {said}", place.with_cargo, (form,))
        for name in (*IN_RUST, *pool.EXAMPLES):
            yield Row(f"the example {name} {said}", place.in_rust, (form, name))
    for words, saying in PACKAGES:
        yield Row(f"find_package({words})", place.package_of_cmake, (words, saying))
    yield from (Row(f"packages of {it[0]}", place.compared_version, it) for it in VERSIONS)
    yield from (Row(f"the part {it} alone", place.only, (it,)) for it in PARTS)
    for act in (place.the_program_of_the_readme, place.with_cmake, place.moved, place.libraries_elsewhere,
                place.with_cargo_doc, place.as_packages,
                place.with_python, place.with_man, place.again, place.of_a_later_version, place.uninstalled,
                place.parts_together, place.parts_of_a_later_version, place.used_by_python,
                place.for_a_package, place.for_another_processor, place.damaged, place.without_rights,
                place.with_few_tools):
        yield Row(act.__name__.replace("_", " "), act)
    for words, wanted, saying in ((["--prefx", "/x"], 2, "no option --prefx"), (["--prefix"], 2, "needs a folder"),
                                  (["--prefix", "here"], 2, "begins with /"),
                                  (["--prefix", "/a\nb"], 2, "a line break"),
                                  (["--processor"], 2, "needs a name"), (["--only"], 2, "needs a part"),
                                  (["--only", "c rust"], 2, "no part c rust"),
                                  (["--only", "nonsense"], 2, "the parts are c rust python program docs"),
                                  (["--uninstall", "--only", "c"], 2, "takes no --only")):
        yield Row(f"the words {words!r}", place.refusal, (words, wanted, saying))


def main(words):
    must(len(words) == 1 and os.path.isdir(words[0]), __doc__)
    needs("sh", "sha256sum")
    with tempfile.TemporaryDirectory() as work:
        return run_rows("install", rows(Place(work, os.path.realpath(words[0]))))
