"""Makes the packages of a release: a tarball, from which `./install` installs, and a Debian package of the same files
for each processor that release/ has files for.

`checks/run pack FOLDER` takes what was just built, makes each twice, in other time zones and with other masks of modes,
and compares them to the byte. It installs from the tarball alone. `checks/run pack --out DIR` makes all in DIR, of the
files of release/. They are small and made at will, so the repository does not keep them.
"""
import gzip
import io
import os
import re
import shutil
import subprocess
import tarfile
import tempfile

from checks.lib.clones import clone_with, tree
from checks.lib.repository import ROOT, path, read, version_of_sources, write
from checks.lib.rows import Row, answer, must, needs, run_rows
from checks.source import surface

# The public contracts and the definitions that they cite, in a page that is made from the sources.
CONTRACTS = "docs/CONTRACTS.md"
# What the tarball has, of the files that git knows.
PARTS = ("CHANGELOG.md", "README.md", "SECURITY.md", "completions", "docs", "examples", "include", "install", "python",
         "release", "rust", "view")
# The processors as `uname -m` names them, and as Debian does.
PROCESSORS = {"x86_64": "amd64", "aarch64": "arm64"}
CONTROL = """Package: cubejobs
Version: {version}
Architecture: {architecture}
Maintainer: the owner of this copy <root@localhost>
Depends: libc6 (>= 2.34)
Section: devel
Priority: optional
Description: lock-free allocator of aligned blocks, and scheduler of jobs
 Blocks that are held at the same time never overlap, and each accepted job runs once. Both are proved for every
 interleaving. The package has the program, the libraries for C, C++, Rust and Python, manual pages and examples.
"""
COPYRIGHT = """No licence has been chosen yet. You may read and measure this software. Ask its owner before you ship it.
"""


def date():
    """Returns the seconds since 1970 of the newest release in CHANGELOG.md, or 0."""
    found = re.search(r"^## \S+, (\d{4}-\d\d-\d\d)$", read("CHANGELOG.md"), re.M)
    words = ["date", "--utc", f"--date={found[1]}", "+%s"] if found else []
    return int(subprocess.run(words, check=True, capture_output=True).stdout) if found else 0


def files(clone):
    """Returns the files of the tarball, sorted."""
    found = []
    for part in PARTS:
        top = os.path.join(clone, part)
        for at, _, names in os.walk(top):
            found += [os.path.relpath(os.path.join(at, name), clone) for name in names]
        found += [part] if os.path.isfile(top) else []
    return sorted(it for it in found if not re.search(r"(^|/)(target|mutants|__pycache__)/|^rust/lib/.*\.tmp$", it))


def put(tar, it, data):
    """Puts a file into a tarball, with this data and as nobody's in particular."""
    it.uid = it.gid = 0
    it.uname = it.gname = "root"
    it.mtime, it.mode = date(), 0o755 if it.mode & 0o100 else 0o644
    tar.addfile(it, data)


def tarball(clone, out):
    """Writes the tarball, and returns its path. Its bytes depend on the files alone. It has CONTRACTS too, which no
    clone has."""
    name = f"cubejobs-{version_of_sources()}"
    made = os.path.join(out, f"{name}-linux.tar.gz")
    with open(made, "wb") as raw, gzip.GzipFile("", "wb", 9, raw, 0) as packed, \
            tarfile.open(fileobj=packed, mode="w", format=tarfile.PAX_FORMAT) as tar:
        for file in files(clone):
            with open(os.path.join(clone, file), "rb") as data:
                put(tar, tar.gettarinfo(os.path.join(clone, file), f"{name}/{file}"), data)
        page = "".join(surface.Surface().page()).encode()
        it = tarfile.TarInfo(f"{name}/{CONTRACTS}")
        it.size = len(page)
        put(tar, it, io.BytesIO(page))
    return made


def processors(clone):
    """Returns the processors that release/ of a clone has files for."""
    return [it for it in PROCESSORS if os.path.isdir(os.path.join(clone, "release", f"linux-{it}"))]


def debian(clone, out, processor="x86_64"):
    """Writes the Debian package for a processor, and returns its path."""
    needs("dpkg-deb")
    number, architecture = version_of_sources().replace("-", "~"), PROCESSORS[processor]
    made = os.path.join(out, f"cubejobs_{number}_{architecture}.deb")
    with tempfile.TemporaryDirectory() as room:
        os.chmod(room, 0o755)
        words = ["--prefix", "/usr", "--libdir", f"/usr/lib/{processor}-linux-gnu", "--destdir", room]
        words += ["--pythondir", "/usr/lib/python3/dist-packages", "--processor", processor]
        status, _, said = answer([os.path.join(clone, "install"), *words], "", text=True)
        must(status == 0, f"install: {said}")
        # The system's own list of files replaces that of ./install.
        os.remove(os.path.join(room, "usr/share/cubejobs/installed"))
        write(f"{room}/usr/share/doc/cubejobs/copyright", COPYRIGHT)
        os.chmod(f"{room}/usr/share/doc/cubejobs/copyright", 0o644)
        write(f"{room}/DEBIAN/control", CONTROL.format(version=number, architecture=architecture))
        for it in ("DEBIAN", "DEBIAN/control"):
            os.chmod(f"{room}/{it}", 0o755 if it == "DEBIAN" else 0o644)
        env = {**os.environ, "SOURCE_DATE_EPOCH": str(date())}
        for at, folders, names in os.walk(room):
            for it in folders + names:
                os.utime(os.path.join(at, it), (date(), date()), follow_symlinks=False)
        words = ["dpkg-deb", "--root-owner-group", "-Zxz", "--build", room, made]
        subprocess.run(words, check=True, stdout=subprocess.DEVNULL, env=env)
    return made


def same_twice(make, clone, work, *words):
    """Sees that two runs make the same bytes, and says how many."""
    made, name = [], " ".join((make.__name__, *words))
    for number, (zone, mask) in enumerate((("UTC", 0o022), ("Asia/Kolkata", 0o077))):
        out = os.path.join(work, f"{name}{number}")
        os.makedirs(out)
        os.environ["TZ"], old = zone, os.umask(mask)
        try:
            with open(make(clone, out, *words), "rb") as it:
                made.append(it.read())
        finally:
            os.umask(old)
    must(made[0] == made[1], f"two runs of {name} make other bytes")
    print(f"pack: the {name} has {len(made[0]):,} bytes")


def installs_from_a_tarball(clone, work):
    """Sees that the tarball has all that an installation needs, and makes what a clone with CONTRACTS makes."""
    places = []
    room = os.path.join(work, "unpacked")
    os.makedirs(room)
    with tarfile.open(tarball(clone, room)) as it:
        # Not each Python 3.11 has this filter.
        it.extractall(room, **({"filter": "data"} if hasattr(tarfile, "data_filter") else {}))
    unpacked = os.path.join(room, f"cubejobs-{version_of_sources()}")
    shutil.copy(os.path.join(unpacked, CONTRACTS), os.path.join(clone, CONTRACTS))
    for top in (clone, unpacked):
        places.append(os.path.join(work, f"installed{len(places)}"))
        status, _, said = answer([os.path.join(top, "install"), "--prefix", "/p", "--destdir", places[-1]], "",
                                 text=True)
        must(status == 0 and not said, f"install: status {status}, {said!r}")
    must(tree(places[0]) == tree(places[1]), "the tarball installs something else than a clone")


def rows(clone, work):
    yield Row("the same tarball twice", same_twice, (tarball, clone, work))
    for it in processors(clone):
        yield Row(f"the same Debian package twice for {it}", same_twice, (debian, clone, work, it))
    yield Row("an installation from the tarball", installs_from_a_tarball, (clone, work))


def main(words):
    if words[:1] == ["--out"] and len(words) == 2:
        for made in (tarball(ROOT, words[1]), *(debian(ROOT, words[1], it) for it in processors(ROOT))):
            print(made)
        return 0
    must(len(words) == 1 and os.path.isdir(path(words[0])), __doc__)
    with tempfile.TemporaryDirectory() as work:
        return run_rows("pack", rows(clone_with(work, os.path.realpath(words[0])), work))
