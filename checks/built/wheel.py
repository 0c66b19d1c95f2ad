"""Installs the Python module by pip into a plain virtual environment, without a network, and removes it.

The wheel comes from a clone, and from the source archive that the clone makes. Its bytes are the same each time, RECORD
has the sum of each file, and the clone stays as it was. What is damaged, or has no shared objects, is refused.
"""
import base64
import csv
import hashlib
import io
import os
import shutil
import sysconfig
import tarfile
import zipfile

from checks.lib.clones import clone_with, tree
from checks.lib.repository import path, read, version_of_sources
from checks.lib.rows import Row, Skipped, answer, must, output, put

SECONDS = 300
# What a user sees of the installed module: where it is, what it has loaded, and that it works.
USE = """import cubejobs, os
home = os.path.dirname(cubejobs.__file__)
maps = [line.split(maxsplit=5)[5].strip() for line in open("/proc/self/maps") if home in line]
print(home, *sorted({os.path.basename(it) for it in maps}))
machines, typed = (cubejobs.Regions(3), cubejobs.FirstFit(3)), os.listdir(home).count("py.typed")
print(cubejobs.__version__, *(it.take(2) for it in machines), typed)
"""
# Calls a hook of the backend, in a folder and with a module path of its own.
HOOK = """import sys
sys.path.insert(0, sys.argv[1])
import cubejobs_build
print(getattr(cubejobs_build, sys.argv[2])(sys.argv[3]))
"""


class Wheel:
    """A clone, and a virtual environment that has pip alone."""

    def __init__(self, work, built):
        self.work, self.clone = work, clone_with(work, built)
        self.python = os.path.join(work, "venv", "bin", "python")
        self.version = version_of_sources().replace("-dev", ".dev0")
        hidden = ("PYTHONPATH", "CUBEJOBS_LIB", "LD_LIBRARY_PATH")
        self.env = {name: it for name, it in os.environ.items() if name not in hidden and not name.startswith("PIP_")}
        self.env.update(PIP_NO_INDEX="1", PIP_NO_CACHE_DIR="1", PIP_DISABLE_PIP_VERSION_CHECK="1")
        self.env["PIP_CONFIG_FILE"] = os.devnull

    def venv(self):
        """Makes the virtual environment, which row after row uses."""
        if not os.path.exists(self.python):
            words = ["python3", "-m", "venv", os.path.dirname(os.path.dirname(self.python))]
            status, said, more = answer(words, "", text=True, env=self.env, timeout=SECONDS)
            if status:
                raise Skipped(f"no venv with pip here: {(said + more).strip().splitlines()[0][:120]}")
        return os.path.join(self.work, "venv")

    def pip(self, *words):
        return answer([self.python, "-m", "pip", *words], "", text=True, env=self.env, cwd=self.work, timeout=SECONDS)

    def must_pip(self, *words):
        status, said, more = self.pip(*words)
        must(status == 0, f"pip {' '.join(words)}: status {status}, {(said + more)[-600:]}")
        return said

    def hook(self, name, top, to):
        os.makedirs(to, exist_ok=True)
        return os.path.join(to, output(["python3", "-B", "-c", HOOK, f"{top}/backend", name, to], env=self.env).strip())

    def is_used(self, of):
        """Installs the module, uses it from another folder, and uninstalls it: nothing is left."""
        before = tree(self.venv())
        self.must_pip("install", of)
        home, *loaded = output([self.python, "-c", USE], env=self.env, cwd="/").splitlines()[0].split()
        must(home.startswith(self.work) and "site-packages" in home, f"the module is in {home}")
        wanted = [f"libcubejobs_{it}.so" for it in ("fit", "plan", "regions", "sched")]
        must(loaded == wanted, f"the module has loaded {loaded}")
        must(f"Version: {self.version}\n" in self.must_pip("show", "cubejobs"), "pip shows another version")
        used = output([self.python, "-c", USE], env=self.env, cwd="/").splitlines()[1]
        must(used == f"{version_of_sources()} Block(base=0, dim=2) Block(base=0, dim=2) 1", used)
        self.has_types()
        self.must_pip("uninstall", "--yes", "cubejobs")
        must(tree(self.venv()) == before, f"these are left: {sorted({*tree(self.venv())} ^ {*before})[:5]}")

    def has_types(self):
        """Sees that mypy, if it is here, finds the types of the installed module."""
        if shutil.which("mypy"):
            words = ["mypy", "--strict", "--cache-dir", os.devnull, "--python-executable", self.python]
            words.append(path("tests", "python", "typed.py"))
            status, said, more = answer(words, "", text=True, env=self.env, cwd=self.work, timeout=SECONDS)
            must(status == 0, (said + more)[-800:])

    def from_the_clone(self):
        before = tree(self.clone)
        self.is_used(os.path.join(self.clone, "python"))
        kept = {it: held for it, held in tree(self.clone).items() if "__pycache__" not in it}
        must({*kept.items()} == {*before.items()}, f"pip has changed the clone: {sorted({*kept} ^ {*before})[:5]}")

    def from_a_wheel(self):
        self.is_used(self.hook("build_wheel", f"{self.clone}/python", f"{self.work}/wheel"))

    def from_a_source_archive(self):
        """The archive makes the same wheel as the clone."""
        made = self.hook("build_sdist", f"{self.clone}/python", f"{self.work}/sdist")
        self.is_used(made)
        room = f"{self.work}/unpacked"
        with tarfile.open(made) as it:
            it.extractall(room, filter="data")
        top = os.path.join(room, os.path.basename(made)[: -len(".tar.gz")])
        must("Name: cubejobs\n" in read(f"{top}/PKG-INFO"), "the source archive has no PKG-INFO")
        one, other = (self.hook("build_wheel", it, f"{self.work}/{number}")
                      for number, it in enumerate((top, f"{self.clone}/python")))
        must(self.bytes_of(one) == self.bytes_of(other), "the source archive makes another wheel")

    def bytes_of(self, file):
        with open(file, "rb") as it:
            return it.read()

    def same_twice(self, name):
        made = []
        for number, (zone, mask) in enumerate((("UTC", 0o022), ("Asia/Kolkata", 0o077))):
            self.env["TZ"], old = zone, os.umask(mask)
            try:
                made.append(self.bytes_of(self.hook(name, f"{self.clone}/python", f"{self.work}/{name}{number}")))
            finally:
                os.umask(old)
        must(made[0] == made[1], f"two runs of {name} make other bytes")

    def has_a_right_record(self):
        """RECORD names each file of the wheel, with its size and sum. The name of the wheel has its tag."""
        made = self.hook("build_wheel", f"{self.clone}/python", f"{self.work}/record")
        tag = f"py3-none-{sysconfig.get_platform().replace('-', '_').replace('.', '_')}"
        must(os.path.basename(made) == f"cubejobs-{self.version}-{tag}.whl", made)
        info = f"cubejobs-{self.version}.dist-info"
        with zipfile.ZipFile(made) as wheel:
            files = {it: wheel.read(it) for it in wheel.namelist()}
        rows = list(csv.reader(io.StringIO(files[f"{info}/RECORD"].decode())))
        must(sorted(it[0] for it in rows) == sorted(files) == sorted({*files}), "RECORD names other files")
        for name, total, size in rows:
            digest = base64.urlsafe_b64encode(hashlib.sha256(files[name]).digest()).decode().rstrip("=")
            wanted = ("", "") if name.endswith("/RECORD") else (f"sha256={digest}", str(len(files[name])))
            must((total, size) == wanted, f"RECORD has {total}, {size} of {name}")
        must(f"\nTag: {tag}\n" in files[f"{info}/WHEEL"].decode(), "WHEEL has another tag")
        metadata = files[f"{info}/METADATA"].decode()
        must(f"\nName: cubejobs\nVersion: {self.version}\n" in metadata, "METADATA has another name or version")

    def refusal(self, top, saying):
        self.venv()
        status, said, more = self.pip("install", top)
        must(status != 0 and saying in said + more, f"status {status}, {(said + more)[-400:]}")

    def without_shared_objects(self):
        """A copy of the folder alone has none."""
        shutil.copytree(f"{self.clone}/python", f"{self.work}/alone/python")
        self.refusal(f"{self.work}/alone/python", "there are no shared objects here")

    def copied(self, name):
        """Copies module and release into a room of this name. Returns it, and the folder of its shared objects."""
        room = f"{self.work}/{name}"
        for it in ("python", "release"):
            shutil.copytree(f"{self.clone}/{it}", f"{room}/{it}")
        return room, f"{room}/release/{sysconfig.get_platform()}"

    def damaged(self):
        room, folder = self.copied("damaged")
        put(f"{folder}/libcubejobs_fit.so", self.bytes_of(f"{folder}/libcubejobs_fit.so") + b"?")
        self.refusal(f"{room}/python", "is damaged")

    def of_another_version(self):
        room, folder = self.copied("other")
        sums = f"{folder}/SHA256SUMS"
        put(sums, read(sums).replace(f"# version {version_of_sources()}\n", "# version 0.0.9\n"))
        self.refusal(f"{room}/python", "has no shared objects of the version")


def rows(work, built):
    wheel = Wheel(work, built)
    for act in (wheel.from_the_clone, wheel.from_a_wheel, wheel.from_a_source_archive, wheel.has_a_right_record,
                wheel.without_shared_objects, wheel.damaged, wheel.of_another_version):
        yield Row(f"pip: {act.__name__.replace('_', ' ')}", act)
    for name in ("build_wheel", "build_sdist"):
        yield Row(f"{name} makes the same twice", wheel.same_twice, (name,))
