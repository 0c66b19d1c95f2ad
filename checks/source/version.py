"""Compares the version, which src/lib.rt of release_version has, with each other place that writes it.

They are the headers, the Rust packages with their plain Rust, the manual pages, the Python module and the newest
heading of CHANGELOG.md. release/VERSIONS has a line for each released version: its date, and the sum of its sources. A
released version is of exactly these sources: after a change of one the version must be the next, with `-dev` behind it.

    checks/run version              what differs
    checks/run version --set V      writes a version, such as 0.2.1-dev, to all places but CHANGELOG.md
    checks/run version --released   adds the version of today to release/VERSIONS, with the date of CHANGELOG.md
"""
import re

from checks.lib.repository import VERSION_SOURCE, read, version_of_sources, write
from checks.lib.rows import Wrong, blind, must, print_faults
from checks.lib.toolchain import sum_of_sources

SOURCE, VERSIONS, CHANGELOG = VERSION_SOURCE, "release/VERSIONS", "CHANGELOG.md"
VERSION = r"(\d+)\.(\d+)\.(\d+)(-dev)?"
TEXT, NUMBER = r'(VERSION: &str = ")([^"]*)(")', r"(VERSION_NUMBER: u32 = )(\d+)(;)"
ERASED = "rust/src/source/release_version/mod.rs"
HEADERS = ("cubejobs_fit.h", "cubejobs_lanes.h", "cubejobs_regions.h", "cubejobs_rounds.h")
# Where a version is written: the file, the words around it, and whether it is the number.
PLACES = (
    (SOURCE, TEXT, False),
    (SOURCE, NUMBER, True),
    *((f"include/{name}", r'(#define CUBEJOBS_VERSION ")([^"]*)(")', False) for name in HEADERS),
    *((f"include/{name}", r"(#define CUBEJOBS_VERSION_NUMBER )(\d+)()", True) for name in HEADERS),
    (ERASED, TEXT, False),
    (ERASED, NUMBER, True),
    ("rust/Cargo.toml", r'(\[workspace\.package\]\nversion = ")([^"]*)(")', False),
    ("rust/pool/Cargo.toml", r'(cubejobs = \{ path = "\.\.", version = ")([^"]*)(")', False),
    ("rust/Cargo.lock", r'(name = "cubejobs"\nversion = ")([^"]*)(")', False),
    ("rust/Cargo.lock", r'(name = "cubejobs-c"\nversion = ")([^"]*)(")', False),
    ("rust/Cargo.lock", r'(name = "cubejobs-pool"\nversion = ")([^"]*)(")', False),
    ("python/cubejobs/_library.py", r'(\nVERSION = ")([^"]*)(")', False),
    ("docs/cubejobs.1", r'(\.TH CUBEJOBS 1 "" "cubejobs )([^"]*)(")', False),
)


def number_of(version):
    """Returns the number of a version: 10203 of 1.2.3."""
    first, second, third, _ = re.fullmatch(VERSION, version).groups()
    return str(10000 * int(first) + 100 * int(second) + int(third))


def order(version):
    """Returns a version as numbers, of which a larger one is later. `-dev` comes before the release that it leads
    to."""
    *parts, development = re.fullmatch(VERSION, version).groups()
    return [*map(int, parts), 0 if development else 1]


def released(text):
    """Returns the released versions, each with its date and the sum of its sources."""
    lines = [line.split(" ", 2) for line in text.splitlines() if line and not line.startswith("#")]
    return {version: (date, total) for version, date, total in lines}


def faults(version, texts, total):
    """Yields a sentence for each place that has another version, and for what does not fit the released ones."""
    if not re.fullmatch(VERSION, version):
        yield f"{SOURCE} has the version {version!r}, which is none"
        return
    for name, pattern, is_number in PLACES:
        found, wanted = re.findall(pattern, texts[name]), number_of(version) if is_number else version
        if [it[1] for it in found] != [wanted]:
            yield f"{name} has {[it[1] for it in found]}, and not {wanted}"
    past = released(texts[VERSIONS])
    heading = re.search(r"^## (.*)$", texts[CHANGELOG], re.M)[1]
    if version in past:
        date, known = past[version]
        if known != total:
            yield f"{version} was released of other sources: the next change makes a version with -dev"
        if heading != f"{version}, {date}":
            yield f"{CHANGELOG} begins with {heading!r}, and not with '{version}, {date}'"
    elif version.endswith("-dev"):
        if any(order(version) <= order(it) for it in past):
            yield f"{version} is not later than the released versions"
        if heading != "Unreleased":
            yield f"{CHANGELOG} begins with {heading!r}, and not with 'Unreleased'"
    else:
        yield f"{VERSIONS} has no line for {version}"


def texts_of_today():
    return {name: read(name) for name in (VERSIONS, CHANGELOG, *(place[0] for place in PLACES))}


def samples(version, texts, total):
    """Yields known bad samples, each with what must be found in it."""
    other = {**texts, "include/cubejobs_rounds.h": texts["include/cubejobs_rounds.h"].replace(version, "0.0.9")}
    yield [*faults(version, other, total)], ["include/cubejobs_rounds.h has ['0.0.9']"]
    past = {**texts, VERSIONS: f"{version} 2026-01-01 1 2\n", CHANGELOG: f"## {version}, 2026-01-01\n"}
    yield [*faults(version, past, "3 4")], ["of other sources"]
    yield [*faults(version, {**past, CHANGELOG: "## 0.0.9, 2026-01-01\n"}, "1 2")], ["begins with '0.0.9, 2026-01-01'"]
    if version.endswith("-dev"):
        later = {**texts, VERSIONS: "99.0.0 2026-01-01 1 2\n", CHANGELOG: "## Unreleased\n"}
        yield [*faults(version, later, total)], ["is not later"]


def set_to(version):
    must(re.fullmatch(VERSION, version), f"{version} is no version")
    for name, pattern, is_number in PLACES:
        new = number_of(version) if is_number else version
        write(name, re.sub(pattern, lambda found, new=new: f"{found[1]}{new}{found[3]}", read(name)))


def release(version):
    heading = re.search(r"^## (.*)$", read(CHANGELOG), re.M)[1]
    must(re.fullmatch(rf"{re.escape(version)}, \d{{4}}-\d\d-\d\d", heading), f"{CHANGELOG} begins with {heading!r}")
    write(VERSIONS, f"{read(VERSIONS)}{version} {heading.split()[1]} {sum_of_sources()}\n")


def main(words):
    texts, total = texts_of_today(), sum_of_sources()
    version = version_of_sources()
    if words[:1] == ["--set"] and len(words) == 2:
        return set_to(words[1])
    if words == ["--released"]:
        return release(version)
    if words:
        raise Wrong(__doc__)
    found = [*blind("version", samples(version, texts, total)), *faults(version, texts, total)]
    return print_faults(f"version: {it}" for it in found) or print(f"version: {version} in {len(PLACES)} places")
