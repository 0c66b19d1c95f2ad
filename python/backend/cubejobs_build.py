"""Builds the wheel and the source archive of the Python module, as pip asks for them (PEP 517). It needs Python alone.

The wheel has the shared objects of this platform inside, from `release/` of the clone. A source archive has those of
all platforms, so it builds a wheel too. The same files make the same bytes each time.
"""
import ast
import base64
import gzip
import hashlib
import io
import os
import re
import sysconfig
import tarfile
import zipfile
from typing import Any, Dict, List, Optional

HERE = os.path.dirname(os.path.dirname(os.path.abspath(__file__)))
# What the module loads, and where a clone and a source archive have it.
SHARED = ("libcubejobs_fit.so", "libcubejobs_plan.so", "libcubejobs_regions.so", "libcubejobs_sched.so")
RELEASES = (os.path.join(HERE, "..", "release"), os.path.join(HERE, "release"))
METADATA = """Metadata-Version: 2.1
Name: cubejobs
Version: {version}
Summary: {summary}
Requires-Python: >=3.8
Classifier: Private :: Do Not Upload
Classifier: Operating System :: POSIX :: Linux
Classifier: Typing :: Typed
Description-Content-Type: text/plain

{description}
"""
WHEEL = """Wheel-Version: 1.0
Generator: cubejobs_build
Root-Is-Purelib: false
Tag: {tag}
"""


def build_wheel(wheel_directory: str, config_settings: Optional[Dict[str, Any]] = None,
                metadata_directory: Optional[str] = None) -> str:
    """Writes the wheel for this platform into a folder, and returns its name."""
    name, tag = f"cubejobs-{_version()}", f"py3-none-{re.sub('[-.]', '_', sysconfig.get_platform())}"
    files = {**_module(), **{f"cubejobs/lib/{it}": data for it, data in _shared(_platform_folder()).items()}}
    files[f"{name}.dist-info/METADATA"] = _metadata()
    files[f"{name}.dist-info/WHEEL"] = WHEEL.format(tag=tag).encode()
    record = f"{name}.dist-info/RECORD"
    lines = [f"{it},sha256={_hash(files[it])},{len(files[it])}\n" for it in sorted(files)]
    files[record] = "".join([*lines, f"{record},,\n"]).encode()
    # It is stored as it is: other versions of zlib compress to other bytes.
    with zipfile.ZipFile(os.path.join(wheel_directory, f"{name}-{tag}.whl"), "w", zipfile.ZIP_STORED) as wheel:
        for it in [*sorted(files.keys() - {record}), record]:
            entry = zipfile.ZipInfo(it)
            entry.create_system, entry.external_attr = 3, 0o100644 << 16
            wheel.writestr(entry, files[it])
    return f"{name}-{tag}.whl"


def build_sdist(sdist_directory: str, config_settings: Optional[Dict[str, Any]] = None) -> str:
    """Writes the source archive, with the shared objects of all platforms, and returns its name."""
    name, files = f"cubejobs-{_version()}", {"PKG-INFO": _metadata(), **_module()}
    for it in ("pyproject.toml", "backend/cubejobs_build.py"):
        files[it] = _read(os.path.join(HERE, it))
    for folder in _platforms():
        sums = {"SHA256SUMS": _read(os.path.join(folder, "SHA256SUMS"))}
        for it, data in {**_shared(folder), **sums}.items():
            files[f"release/{os.path.basename(folder)}/{it}"] = data
    plain = io.BytesIO()
    with tarfile.open(fileobj=plain, mode="w", format=tarfile.PAX_FORMAT) as archive:
        for it in sorted(files):
            entry = tarfile.TarInfo(f"{name}/{it}")
            entry.size, entry.mode = len(files[it]), 0o644
            archive.addfile(entry, io.BytesIO(files[it]))
    with open(os.path.join(sdist_directory, f"{name}.tar.gz"), "wb") as made:
        made.write(gzip.compress(plain.getvalue(), mtime=0))
    return f"{name}.tar.gz"


def _read(file: str) -> bytes:
    with open(file, "rb") as it:
        return it.read()


def _hash(data: bytes) -> str:
    """Returns the sum of a file as RECORD has it."""
    return base64.urlsafe_b64encode(hashlib.sha256(data).digest()).decode().rstrip("=")


def _module() -> Dict[str, bytes]:
    """Returns the files of the package."""
    folder = os.path.join(HERE, "cubejobs")
    names = [it for it in os.listdir(folder) if it.endswith(".py") or it == "py.typed"]
    return {f"cubejobs/{it}": _read(os.path.join(folder, it)) for it in names}


def _text() -> str:
    return _module()["cubejobs/__init__.py"].decode()


def _own_version() -> str:
    found = re.search(r'^VERSION = "(.*)"$', _module()["cubejobs/_library.py"].decode(), re.M)
    if not found:
        raise RuntimeError("the module has no version")
    return found[1]


def _version() -> str:
    """Returns the version as Python writes it: 0.2.1.dev0 of 0.2.1-dev."""
    return _own_version().replace("-dev", ".dev0")


def _metadata() -> bytes:
    """Returns the metadata. The page of the module is its description."""
    page = ast.get_docstring(ast.parse(_text())) or ""
    return METADATA.format(version=_version(), summary=page.partition("\n")[0], description=page).encode()


def _platforms() -> List[str]:
    """Returns the folders with shared objects, each of which is named by its platform. Raises RuntimeError if there are
    none."""
    for release in RELEASES:
        if os.path.isdir(release):
            found = sorted(os.path.join(release, it) for it in os.listdir(release))
            return [it for it in found if os.path.isdir(it)]
    raise RuntimeError("there are no shared objects here: build from a clone, or from a source archive")


def _platform_folder() -> str:
    """Returns the folder with the shared objects of this platform. Raises RuntimeError if it has none."""
    folders = {os.path.basename(it): it for it in _platforms()}
    platform = sysconfig.get_platform()
    if platform not in folders:
        raise RuntimeError(f"the shared objects are for {' and '.join(folders)}, and this is {platform}")
    return folders[platform]


def _shared(folder: str) -> Dict[str, bytes]:
    """Returns the shared objects of a folder. Raises RuntimeError if one is damaged or of another version."""
    sums = _read(os.path.join(folder, "SHA256SUMS")).decode()
    if f"# version {_own_version()}\n" not in sums:
        raise RuntimeError(f"{folder} has no shared objects of the version {_own_version()}")
    files = {name: _read(os.path.join(folder, name)) for name in SHARED}
    for name, data in files.items():
        if f"{hashlib.sha256(data).hexdigest()}  {name}\n" not in sums:
            raise RuntimeError(f"{name} of {folder} is damaged")
    return files
