"""Compares the files of release/ with what was built from these sources, to the byte.

`checks/run release --sums` looks at the files of release/ alone: they are of these sources, and have their sums.

`checks/run release FOLDER` finds in FOLDER what was just built from nothing. Where release/ is of these sources, each
of its files for x86-64 must be that very file, and need no symbol of a C library later than 2.34. Where another build
of the toolchain made release/ and this one makes other bytes, the comparison is skipped. Where the sources have moved
on, it says how to renew release/, which is no failure: the launcher passes such a release over. The libraries must have
no instruction that an x86-64 may lack. `checks/run release --renew` proves and builds, and puts files and sums there.

If release/ has files for aarch64, they must be of the same sources as those for x86-64, with the sums that SHA256SUMS
has. `checks/run aarch64` builds them anew.
"""
import hashlib
import os
import re
import shutil
import subprocess
import tempfile

from checks.built import archive
from checks.lib.repository import path, place, read, read_bytes, write
from checks.lib.rows import Skipped, Wrong, must, output, print_faults, put
from checks.lib.toolchain import FOR_ANY, sum_of_sources

RELEASE, AARCH64 = path("release", "linux-x86_64"), path("release", "linux-aarch64")
# What is shipped, and where `rt` or the check `archive` puts it.
LIBRARIES = [f"lib{name}.a" for name in archive.LIBRARIES]
SHARED = [f"lib{name}.so" for name in archive.LIBRARIES]
FILES = {"cubejobs": "crates/jobs_cli/out/jobs_cli", **{name: f"out/{name}" for name in LIBRARIES + SHARED}}
NEWEST_GLIBC = (2, 34)
DIFFERS = "differs from what was built"
# Where the Rust package has copies of the libraries, and links them.
RUST, COPIES = path("rust", "lib"), LIBRARIES
# The instructions of each x86-64, as objdump writes them without a suffix of size: those of whole numbers, of the x87,
# and of SSE and SSE2. What is not among them is taken for one that a processor may lack. What objdump shows as tzcnt is
# a rep bsf: a processor without tzcnt runs it as bsf. Compilers for any x86-64 write it where both give the same.
CONDITION = "(?:n?[abceglopsz]|n?[abgl]e|p[eo])"
EVERYWHERE = re.compile(
    rf"(?:j{CONDITION}|set{CONDITION}"
    rf"|cmov{CONDITION}|jmp|j[er]?cxz|loop(?:n?e)?|call|ret|leave|enter|push[fq]*"
    r"|pop[fq]*|nop|endbr64|pause|int3|hlt|ud2|mov|movabs|movzx|movsxd?|lea|xchg|xadd|cmpxchg(?:8b)?|bswap|cbw"
    r"|cwde|cdqe|cwd|cdq|cqo|cl[cd]|st[cd]|cpuid|rdtsc|syscall|add|adc|sub|sbb|inc|dec|neg|cmp|i?mul|i?div|and"
    r"|or|xor|not|test|sh[lr]d?|sa[lr]|ro[lr]|rc[lr]|bt[crs]?|bs[fr]|tzcnt|(?:movs|stos|lods|scas|cmps)[bwdq]"
    r"|f(?!isttp)[a-z0-9]+|emms|mov(?:[au]p|ntp|mskp|hp|lp|s)[sd]|mov(?:hl|lh)ps|movnt(?:i|q|dq)|mov[dq]"
    r"|movdq[au]|mov(?:q2dq|dq2q)|maskmov(?:q|dqu)|(?:add|sub|mul|div|sqrt|min|max|cmp\w*)[sp][sd]|u?comis[sd]"
    r"|(?:rcp|rsqrt)[sp]s|(?:andn?|or|xor|shuf|unpck[hl])p[sd]|cvtt?(?:p[sdi]|s[sdi]|dq)2(?:p[sdi]|s[sdi]|dq)"
    r"|(?:ld|st)mxcsr|(?:s|l|m|cl)f(?:ence|lush)|prefetch(?:nta|t[012])|fx(?:save|rstor)(?:64)?"
    r"|pack(?:ss(?:wb|dw)|uswb)|p(?:add|sub)(?:[bwdq]|u?s[bw])|pandn?|por|pxor|pcmp(?:eq|gt)[bwd]"
    r"|pmul(?:[lh]w|huw|udq)|pmaddwd|pavg[bw]|p(?:max|min)(?:ub|sw)|pmovmskb|psadbw|pshuf(?:d|[hl]w|w)|pextrw"
    r"|pinsrw|ps(?:[lr]l(?:[wdq]|dq)|ra[wd])|punpck[hl](?:bw|wd|dq|qdq))"
)
PREFIXES = re.compile(r"(?:(?:lock|repn?z?|repnz|bnd|notrack|data16|addr32|[cdefgs]s|rex(?:\.\w+)?)\s+)*")
# Some that a processor may lack, of SSE3, SSSE3, SSE4, AVX, BMI and others.
LACKED = """haddps addsubps lddqu fisttp pshufb palignr pabsd ptest pextrq pextrd extractps pcmpeqq pcmpgtq pmaxsd
    blendvpd roundsd crc32 popcnt lzcnt andn bextr mulx shlx rorx movbe cmpxchg16b lahf vaddps vpxor movntdqa
    pmuldq packusdw""".split()
# pcmpeqq of two registers, an instruction of SSE4.1; and how an exchange of 64 bits under `lock` begins.
NOT_EVERYWHERE, EXCHANGE = bytes.fromhex("660f3829c1"), re.compile(rb"\xf0[\x48-\x4f]\x0f\xb1")


def build_here():
    return output(["rt", "version"]).split()[0]


def sum_of(data):
    return hashlib.sha256(data).hexdigest()


class Release:
    def __init__(self, folder):
        self.folder, self.sums = folder, os.path.join(folder, "SHA256SUMS")

    def said(self, word):
        """Returns what SHA256SUMS says of the sources, or what they were built by."""
        found = re.search(rf"^# {word} (.*)$", read(self.sums), re.M) if os.path.exists(self.sums) else None
        return found[1] if found else ""

    def bytes_of(self, name):
        return read_bytes(self.folder, name)

    def take(self, files):
        for name, file in files.items():
            put(os.path.join(self.folder, name), read_bytes(file), 0o755 if name == "cubejobs" else 0o644)
        self.write_sums(output([files["cubejobs"], "--version"]).split()[1], build_here())

    def write_sums(self, version, by, *more):
        """Writes the sums of the files that stand here, and what they were built from and by, with more lines."""
        lines = [f"# version {version}", f"# sources {sum_of_sources()}", f"# built by {by}", *more]
        write(self.sums, "\n".join([*lines, *(f"{sum_of(self.bytes_of(name))}  {name}" for name in FILES)]) + "\n")

    def faults(self, built):
        """Yields a sentence for each fault of a file, which begins with its name. Compares it with what was built, if
        anything was."""
        sums = re.findall(r"^(\w{64})  (\S+)$", read(self.sums), re.M) if os.path.exists(self.sums) else []
        sums = {name: total for total, name in sums}
        if sorted(sums) != sorted(FILES):
            yield f"SHA256SUMS names {', '.join(sorted(sums))}, and not {', '.join(sorted(FILES))}"
            return
        for name in FILES:
            if not os.path.exists(os.path.join(self.folder, name)):
                yield f"{name} is not there"
                continue
            data = self.bytes_of(name)
            own = read_bytes(built, name) if built else data
            if sum_of(data) != sums[name]:
                yield f"{name} is not the file whose sum SHA256SUMS has"
            if data != own:
                at = next((it for it, (a, b) in enumerate(zip(data, own)) if a != b), min(len(data), len(own)))
                yield f"{name} {DIFFERS}: {len(data)} and {len(own)} bytes, first at byte {at}"
            if newest_symbol(data) > NEWEST_GLIBC:
                yield f"{name} needs the C library {'.'.join(map(str, newest_symbol(data)))}"
        for name in sorted({*os.listdir(self.folder)} - {*FILES, "SHA256SUMS"}):
            yield f"{name} is no file of a release"

    def differences(self, built):
        """Returns what is wrong with a release of these sources, and what is not compared since another build made
        other bytes."""
        wrong, skipped = [], []
        is_other = self.said("built by") not in ("", build_here())
        for fault in self.faults(built):
            (skipped if is_other and DIFFERS in fault else wrong).append(fault)
        return wrong + [*lacking(self.folder)], skipped

    def change(self, name, at, new):
        data = self.bytes_of(name)
        put(os.path.join(self.folder, name), data[:at] + new + data[at + len(new) :])


def newest_symbol(data):
    return max([(int(a), int(b)) for a, b in re.findall(rb"GLIBC_(\d+)\.(\d+)", data)], default=(0, 0))


def is_everywhere(line):
    """Answers whether each x86-64 has an instruction. A pextrw into memory is of SSE4.1, one into a register not."""
    line = line[PREFIXES.match(line).end() :]
    return not line or bool(EVERYWHERE.fullmatch(line.split()[0])) and not line.startswith("pextrw WORD")


def lacking(folder):
    """Yields a sentence on each library of a folder that has an instruction which a processor may lack."""
    for name in LIBRARIES if shutil.which("objdump") else ():
        text = output(["objdump", "-d", "-M", "intel", "--no-show-raw-insn", os.path.join(folder, name)])
        lines = re.findall(r"^\s*[0-9a-f]+:\t(.*)$", text, re.M)
        found = {line for line in lines if not is_everywhere(line)}
        if found or len(lines) < 100:
            some = ", ".join(sorted(found)[:3])
            yield f"{name} has {len(found)} instructions that an x86-64 may lack, of {len(lines)}: {some}"


def stale_copies(released=RELEASE, copies=RUST):
    """Yields each library of which the Rust package has another copy, or none."""
    for name in COPIES:
        twin = os.path.join(copies, name)
        if not os.path.exists(twin) or read_bytes(twin) != read_bytes(released, name):
            yield f"{place(twin)} is not the file of release/"
    for name in sorted({*os.listdir(copies)} - {*COPIES, "aarch64"}):
        yield f"{place(os.path.join(copies, name))} is no library that the package links"


def faults_of_aarch64():
    """Yields what is wrong with the files for aarch64, if there are any, as far as it shows without a build."""
    copies = os.path.join(RUST, "aarch64")
    if not os.path.isdir(AARCH64):
        yield from [f"there is {place(copies)}, and no {place(AARCH64)}"] if os.path.isdir(copies) else []
        return
    release = Release(AARCH64)
    faults = [*release.faults(None)]
    yield from (f"for aarch64, {it}" for it in faults)
    for word in ("version", "sources"):
        said, wanted = release.said(word), Release(RELEASE).said(word)
        if said != wanted:
            yield f"for aarch64, {word} {said}, and for x86-64 {wanted}: checks/run aarch64 --renew FOLDER"
    yield from stale_copies(AARCH64, copies) if not faults else []


def renew():
    subprocess.run([path("cubejobs"), "--prove"], check=True)
    for crate in archive.LIBRARIES:
        subprocess.run(["rt", "lib", *FOR_ANY], cwd=path("crates", crate), check=True, stdout=subprocess.DEVNULL)
    archive.main([path("out")])
    Release(RELEASE).take({name: path(file) for name, file in FILES.items()})
    for name in COPIES:
        put(os.path.join(RUST, name), read_bytes(RELEASE, name))


def not_seen(built):
    """Yields what this check does not see, tried on what was built, in a folder of its own."""
    with tempfile.TemporaryDirectory() as folder:
        release = Release(folder)
        release.take({name: os.path.join(built, name) for name in FILES})
        yield from not_seen_of_bytes(release, built)
        yield from not_seen_of_instructions(release, built)


def are_all_in(faults, words):
    """Answers whether these faults have one of each file that begins with these words."""
    return all(any(it.startswith(f"{name} {words}") for it in faults) for name in FILES)


def not_seen_of_bytes(release, built):
    """Yields what is not seen where a byte of each file has changed, by the same build and by another one."""
    builds = build_here(), "another-build"
    for by in builds:
        release.write_sums("0", by)
        if release.differences(built) != ([], []):
            yield f"that {by} has made the same bytes"
    for name in FILES:
        # A byte of the code: objdump must still read the file.
        at = len(release.bytes_of(name)) // 4
        release.change(name, at, bytes([release.bytes_of(name)[at] ^ 1]))
    if not are_all_in(release.differences(built)[0], "is not"):
        yield "files whose sums are others"
    stray = os.path.join(release.folder, "stray")
    put(stray)
    if "stray is no file of a release" not in release.faults(built):
        yield "a file of no release"
    os.remove(stray)
    for by in builds:
        release.write_sums("0", by)
        wrong, skipped = release.differences(built)
        seen, rest = (skipped, wrong) if by == "another-build" else (wrong, skipped)
        if any("may lack" not in it for it in rest) or not are_all_in(seen, "differs"):
            yield f"a changed byte where {by} has made it"


def not_seen_of_instructions(release, built):
    """Yields what is not seen where an instruction that a processor may lack replaces an exchange."""
    yield from (it for it in LACKED if is_everywhere(it))
    name = LIBRARIES[-1]
    put(os.path.join(release.folder, name), read_bytes(built, name))
    release.change(name, EXCHANGE.search(release.bytes_of(name)).start(), NOT_EVERYWHERE)
    if shutil.which("objdump") and not any(it.startswith(name) and "pcmpeqq" in it for it in lacking(release.folder)):
        yield "an instruction of SSE4.1"


def compare(built):
    release, wrong = Release(RELEASE), [*lacking(built), *stale_copies(), *faults_of_aarch64()]
    if release.said("sources") != sum_of_sources():
        print("release: the files of release/ are of other sources; to renew them: checks/run release --renew")
        return wrong
    more, skipped = release.differences(built)
    wrong += more
    if skipped and not wrong:
        by = f"{release.said('built by')} has made release/ and {build_here()} is here"
        raise Skipped(f"{by}, so what differs is not compared: {len(skipped)} files")
    print(f"release: {len(FILES)} files are {'not all ' if wrong else ''}what these sources make")
    return wrong


def faults_of_sums():
    """Yields what is wrong with the files of release/, as far as it shows without a build."""
    release = Release(RELEASE)
    if release.said("sources") != sum_of_sources():
        yield "the files of release/ are of other sources than these: .ci/run builds and tests these, by the prover"
        return
    yield from [*release.faults(None), *lacking(RELEASE), *stale_copies(), *faults_of_aarch64()]


def main(words):
    if words == ["--renew"]:
        return renew()
    if words == ["--sums"]:
        if not shutil.which("objdump"):
            print("release: a look at the instructions is skipped: there is no objdump")
        return print_faults(f"release: {it}" for it in faults_of_sums())
    if len(words) != 1:
        raise Wrong(__doc__)
    for it in not_seen(words[0]):
        must(False, f"release: this check does not see {it}")
    if not shutil.which("objdump"):
        print("release: no objdump here, so nothing is said of the instructions of the libraries")
    return print_faults(f"release: {it}" for it in compare(words[0]))
