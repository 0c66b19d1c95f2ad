"""Reads the definitions of specs/ with what their names mean, and the items of src/ that a crate makes public."""
import functools
import itertools
import os
import re
from collections import ChainMap

from checks.lib.rattle_source import all_items, items_in, passed_on, uncommented
from checks.lib.repository import crate_names, files_below, path, place, read
from checks.lib.rows import must

# A name or a path of names: anything but spaces, brackets, commas and semicolons.
TOKEN = re.compile(r"[^\s(){}\[\],;]+")
HEADER = re.compile(
    r"(?:(?:(?:pub|abbrev|unfoldable|opaque|data|record|law|mutual)\s+)*)"
    r"(?P<name>[^\s:(){},]+)\s*(?:[({][^=]*[)}]\s*)?:(?=\s)")
IMPORT = re.compile(
    r"(?P<words>(?:(?:pub|abbrev|unfoldable|ghost)\s+)*)use\s+(?P<path>[^\s;{]+?)\.?"
    r"(?:\{(?P<names>[^}]*)\})?(?:\s+as\s+(?P<alias>[^\s;]+))?\s*;?\s*$", re.S)
# What the import of a type of src/ leads to, or of one of its variants.
DECLARED = re.compile(r"Rattle\.(\w+)\.specs\.declared\.(?:[a-z]\w*\.)+([A-Z]\w*)")


class Definition:
    """A definition of specs/: its module, its name, and its text with neither comments nor blank lines."""

    def __init__(self, crate, module, name, file, number, block):
        # The head of the block of parameters that it is in, if any.
        self.crate, self.module, self.name, self.file, self.block = crate, module, name, place(file), block
        # Where the comment above it begins, where it begins, and where it ends.
        self.above = self.first = self.last = number
        self.lines, self.comment = [], ""
        self.inside = module.partition(".specs")[2].lstrip(".")

    def __str__(self):
        return f"{self.inside or 'Lib'}.{self.name}"

    @property
    def place(self):
        return f"{self.file}:{self.first}"

    def link(self, text):
        return f"[{text}](../{self.file}#L{self.first})"

    def is_inner(self):
        return any(part == "inner" or part.startswith("Inner") for part in self.inside.split("."))

    def read_comment(self, lines):
        """Reads the comment above it, of the lines of its file."""
        while self.above > 1 and lines[self.above - 2].lstrip().startswith("--"):
            self.above -= 1
        marked = lines[self.above - 1 : self.first - 1]
        self.comment = " ".join(" ".join(line.strip().lstrip("-") for line in marked).split())


class Scope:
    """What the names of a file or a block mean, each a module and a name in it, and those that the file passes on."""

    def __init__(self, around=None):
        self.names, self.passed_on = around.names.new_child() if around else ChainMap(), {}

    def take(self, text):
        found = IMPORT.match(" ".join(text.split()))
        if not found or not found["path"].startswith("Rattle."):
            return
        at, is_passed_on = found["path"].rstrip("."), "pub" in found["words"]
        if found["names"] is None:
            module, _, name = at.rpartition(".")
            self.put(found["alias"] or name, (module, name), is_passed_on)
        for words in filter(None, map(str.split, (found["names"] or "").split(","))):
            name = words[words.index("as") - 1] if "as" in words else words[-1]
            self.put(words[-1], (at, name), is_passed_on)

    def put(self, name, target, is_passed_on):
        must(name != "*", f"an import takes all of {target[0]}: surface cannot tell what it names")
        self.names[name] = target
        if is_passed_on:
            self.passed_on[name] = target


def with_rest(lines, margin):
    """Returns a line with the ones after it that are indented more than its margin."""
    rest = itertools.takewhile(lambda line: line[margin : margin + 1].isspace(), lines[1:])
    return "\n".join([lines[0][margin:], *rest])


def read_definitions(text, crate, module, file):
    """Returns the definitions of a file by their names, and what its imports mean."""
    scope, found, current, pending, block = Scope(), {}, None, "", ""
    lines = [line.rstrip() for line in uncommented(text, is_antt=True).splitlines()]
    for number, line in enumerate(lines, 1):
        if pending or re.match(r"((pub|abbrev|unfoldable)\s+)*use\s", line):
            pending += " " + line
            if pending.count("{") <= pending.count("}"):
                scope.take(pending)
                pending = ""
            continue
        if not line or re.match(r"((pub\s+)?mod\s|infix[lr]?\s)", line):
            continue
        block = block if line[0].isspace() else ""
        whole = with_rest(lines[number - 1 :], 2 if block else 0)
        if re.match(r"module\s+_\s", line):
            current, block = None, re.match(r".*?\bwhere\b", whole, re.S)[0]
            continue
        header = None if whole[0].isspace() else HEADER.match(whole)
        if header:
            current = found[header["name"]] = Definition(crate, module, header["name"], file, number, block)
        if current:
            current.lines.append(line.removeprefix("  ") if block else line)
            current.last = number
    return found, scope


class Specs:
    def __init__(self):
        self.modules, self.scopes = {}, {}
        for crate in crate_names():
            folder = path("crates", crate, "specs")
            for file in files_below(folder, ".antt"):
                inside = os.path.relpath(file, folder)[: -len(".antt")].replace(os.sep, ".")
                self.read_module(crate, f"Rattle.{crate}.specs.{inside}".removesuffix(".Lib"), file)

    def read_module(self, crate, module, file):
        text = read(file)
        self.modules[module], self.scopes[module] = read_definitions(text, crate, module, file)
        for name, definition in self.modules[module].items():
            self.scopes[module].put(name, (module, name), None)
            definition.read_comment(text.splitlines())

    def at(self, target, seen=()):
        """The definition that a path leads to, through what modules pass on. A part of it leads to the whole."""
        if target in seen:
            return None
        module, name = target
        if name in self.modules.get(module, {}):
            return self.modules[module][name]
        if module in self.modules:
            further = self.scopes[module].passed_on.get(name)
            return self.at(further, (*seen, target)) if further else None
        above, _, last = module.rpartition(".")
        return self.at((above, last), (*seen, target)) if above.startswith("Rattle.") and ".specs" in above else None

    def passes_on(self, crate, definition):
        lib = f"Rattle.{crate}.specs"
        modules = self.scopes[lib].passed_on.values() if lib in self.scopes else ()
        return self.at((lib, definition.name)) is definition or definition.module in map(".".join, modules)

    def cited(self, text, scope):
        """The definitions that a text names, in the order in which it does."""
        found = []
        for match in TOKEN.finditer(text):
            if self.is_field(text, match):
                continue
            first, *rest = match[0].split(".")
            if target := scope.names.get(first):
                found.append(self.at(target) or (self.at((".".join(target), rest[0])) if rest else None))
        for name in (it for it in scope.names if "◌" in it):
            words, parts = text.split(), [part for part in name.split("◌") if part]
            if all(part in words for part in parts) or (name == "◌>>=◌" and "do" in words):
                found.append(self.at(scope.names[name]))
        return [*filter(None, dict.fromkeys(found))]

    @staticmethod
    def is_field(text, match):
        """Whether a token only names a field: where a record declares it, or where one is built."""
        before, after = text[: match.start()], text[match.end() :]
        return bool(re.search(r"\n\s+pub\s+$", before) or re.search(r"[{;]\s*$", before) and re.match(r"\s+=\s", after))

    def below(self, definition):
        text = "\n".join(definition.lines)
        return [it for it in self.cited(text, self.scopes[definition.module]) if it is not definition]

    def types(self, definition):
        """Returns the crate and the name of each type of src/ that a definition names."""
        words = [it.partition(".")[0] for it in TOKEN.findall("\n".join(definition.lines))]
        targets = filter(None, map(self.scopes[definition.module].names.get, words))
        return {it.groups() for it in (DECLARED.match(".".join(target)) for target in targets) if it}

    def closure(self, roots):
        """The roots with all that they cite, each definition after those that it cites, where there is no cycle."""
        order, seen = [], set()

        def visit(definition):
            if definition not in seen:
                seen.add(definition)
                for it in self.below(definition):
                    visit(it)
                order.append(definition)

        for root in roots:
            visit(root)
        return order


@functools.cache
def sources_of(crate):
    """Returns the items of each file of a crate, by its path in src/."""
    folder = path("crates", crate, "src")
    return {os.path.relpath(file, folder): items_in(place(file), read(file)) for file in files_below(folder, ".rt")}


def exports(files):
    """Returns the names of the items of lib.rt and of its public modules and of what it passes on, or None for a
    program, all of whose `pub` items count."""
    if "lib.rt" not in files:
        return None
    lib = files["lib.rt"]
    modules = [f"{item.name}.rt" for item in lib if item.kind == "mod" and item.is_public]
    items = [item for file in ["lib.rt", *modules] for item in all_items(files[file])]
    names = {item.name for item in items if item.is_public and item.kind in ("fn", "struct", "enum", "trait")}
    return names.union(*(names for _, names in passed_on(all_items(lib))))
