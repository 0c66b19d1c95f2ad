"""Makes the libraries for C as they are shipped, each one file to link: `checks/run archive FOLDER` writes an archive
for each of LIBRARIES there, libcubejobs_fit.a and so on, from what stands in the folders `out` of their crates. Of each
it makes a shared object too, libcubejobs_fit.so and so on.

A library that asks for memory gets the allocator of the toolchain, three functions round malloc, realloc and free. Of
what a file defines, the functions of its header alone stay visible, so a program can link it beside another library of
Rattle and names of its own. The toolchain's linker and archiver make the bytes, and no other tool has a part in them.

The name that a program looks for (soname) ends in the first two parts of the version: while the first is 0, the second
changes with each change of the calls.
"""
import os
import struct
import subprocess
import tempfile
from typing import NamedTuple

from checks.lib.c_programs import LIBRARIES
from checks.lib.repository import path, read_bytes, version_of_sources
from checks.lib.rows import Wrong, must, put
from checks.lib.toolchain import kit

# What the names of the headers' functions begin with.
OWN = b"cubejobs_"
SYMBOL = struct.Struct("<IBBHQQ")
RELOCATION = struct.Struct("<QQq")
SYMTAB, RELA = 2, 4
GLOBAL = 1


class System(NamedTuple):
    """A system for which the libraries are made: where its archives, its heap and its C library are."""

    archives: str
    heap: str
    libc: str

    def archive(self, name):
        return self.archives.format(name=name)


def x86_64():
    return System(path("crates", "{name}", "out", "lib{name}.a"), f"{kit().KIT}/c/liblibc_c.a",
                  f"{kit().KIT}/toolchain/lib/libc.so.6")


class Object:
    """A relocatable file of 64 bits, whose symbols can be made local."""

    def __init__(self, data):
        self.data = bytearray(data)
        start, = struct.unpack_from("<Q", data, 40)
        size, count = struct.unpack_from("<HH", data, 58)
        # Of each section: its place in the table, its kind, where its bytes begin, their number, and the section named.
        self.sections = []
        for at in range(start, start + size * count, size):
            kind, = struct.unpack_from("<I", data, at + 4)
            offset, length, link = struct.unpack_from("<QQI", data, at + 24)
            self.sections.append((at, kind, offset, length, link))
        self.table = next(it for it in self.sections if it[1] == SYMTAB)

    def symbols(self):
        """Yields the symbols as they stand: their names and their fields."""
        _, _, offset, length, link = self.table
        names = self.sections[link][2]
        for at in range(offset, offset + length, SYMBOL.size):
            fields = list(SYMBOL.unpack_from(self.data, at))
            start = names + fields[0]
            yield bytes(self.data[start : self.data.index(0, start)]), fields

    def visible(self):
        """Returns the names that it defines for others, and those that it asks of others."""
        symbols = [(name, fields) for name, fields in self.symbols() if fields[1] >> 4 == GLOBAL]
        return {name for name, fields in symbols if fields[3]}, {name for name, fields in symbols if not fields[3]}

    def hide(self):
        """Makes local what it defines and no header names. Local symbols come first, so all get new numbers."""
        symbols = [fields for _, fields in self.symbols()]
        for (name, _), fields in zip(self.symbols(), symbols):
            if fields[1] >> 4 == GLOBAL and fields[3] and not name.startswith(OWN):
                fields[1] &= 15
        order = sorted(range(len(symbols)), key=lambda it: symbols[it][1] >> 4 != 0)
        at, _, offset, _, _ = self.table
        for number, old in enumerate(order):
            SYMBOL.pack_into(self.data, offset + number * SYMBOL.size, *symbols[old])
        struct.pack_into("<I", self.data, at + 44, sum(fields[1] >> 4 == 0 for fields in symbols))
        new = {old: number for number, old in enumerate(order)}
        for _, kind, begin, length, _ in self.sections:
            for place in range(begin, begin + length, RELOCATION.size) if kind == RELA else ():
                where, of, more = RELOCATION.unpack_from(self.data, place)
                RELOCATION.pack_into(self.data, place, where, new[of >> 32] << 32 | of & 0xFFFFFFFF, more)


def make(system, name, out, room):
    """Makes the archive of a library: one file, in which the functions of its header alone are visible."""
    tools, whole = f"{kit().KIT}/toolchain/bin", f"{room}/{name}.o"
    link = [f"{tools}/ld.lld", "-r", "-o", whole, "--whole-archive", system.archive(name), "--no-whole-archive"]
    link += [system.heap]
    subprocess.run(link, check=True)
    made = Object(read_bytes(whole))
    made.hide()
    defined, wanted = made.visible()
    has_others = not all(it.startswith(OWN) for it in defined) or any(it.startswith(b"rattle_") for it in wanted)
    must(defined and not has_others, f"archive: lib{name}.a defines {sorted(defined)} and asks for {sorted(wanted)}")
    put(whole, made.data)
    if os.path.exists(out):
        os.remove(out)
    subprocess.run([f"{tools}/llvm-ar", "rcsD", out, whole], check=True)
    os.chmod(out, 0o644)


def share(system, name, folder, room):
    """Makes the shared object of a library of a folder."""
    tools = f"{kit().KIT}/toolchain/bin"
    interface, names = ".".join(version_of_sources().split(".")[:2]), f"{room}/{name}.map"
    put(names, f"CUBEJOBS_{interface} {{ global: cubejobs_*; local: *; }};\n".encode())
    flags = ["-z", "defs", "-z", "now", "--hash-style=gnu", "--build-id=none", "--as-needed", "--version-script", names]
    whole = ["--whole-archive", f"{folder}/lib{name}.a", "--no-whole-archive", system.libc]
    link = [f"{tools}/ld.lld", "-shared", "-soname", f"lib{name}.so.{interface}", *flags, "-o", f"{room}/{name}.so"]
    subprocess.run([*link, *whole], check=True)
    put(f"{folder}/lib{name}.so", read_bytes(f"{room}/{name}.so"), 0o644)


def make_all(system, folder):
    """Makes the archive and the shared object of each library."""
    os.makedirs(folder, exist_ok=True)
    with tempfile.TemporaryDirectory() as room:
        for name in LIBRARIES:
            make(system, name, os.path.join(folder, f"lib{name}.a"), room)
            share(system, name, folder, room)


def main(words):
    if len(words) != 1:
        raise Wrong(__doc__)
    make_all(x86_64(), words[0])
    print(f"archive: {len(LIBRARIES)} libraries, each one file to link, and as many shared objects")
