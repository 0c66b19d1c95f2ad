"""Measures the believed surface: the definitions that the public contracts cite, directly or through others.

It reads the contracts of the public items in crates/*/src and the definitions in crates/*/specs, and counts the
definitions and lines of that closure, without comments, blank lines and imports. It fails where a definition of the
closure has no comment; where docs/THEOREM.md quotes code that no source has; where a library does not pass on a
definition of a crate below that its public clauses cite (`pub use` in its specs/Lib.antt, of the name or of its
module); and where what the theorem or the program reaches has more lines than its budget. The definitions that no
public contract reaches belong among the proofs, or into a folder `inner` or a file `Inner*.antt`.

    checks/run surface               what fails, and the definitions that no public contract reaches
    checks/run surface --write FILE  writes the public contracts and the closure, crate by crate, for readers without
                                     the sources; the tarball has this file

The invariants of types with a model count with `--invariants` alone: no caller sees the private fields of which they
speak. Nor do the proofs that an `impl` gives for the laws of its trait: the law itself counts, in the trait.
"""
import functools
import re
import sys

from checks.lib.rattle_source import TYPES, all_items, uncommented
from checks.lib.repository import NO_LIBRARIES, crate_names, files_below, read, write
from checks.lib.rows import blind, print_faults
from checks.source.contracts import contracts
from checks.source.definitions import Scope, Specs, exports, read_definitions, sources_of

# What a reader of a promise has to believe: the public items of these crates, or those of this name alone, and the most
# lines that all of their clauses may reach, in whatever crate. The theorem is `Shop::finish`, with the contracts of the
# queues, allocators and runners that it speaks of, and with what its values say of a reply and of a job. Over threads
# it is `dispatcher_threads::run`. CONTRIBUTING.md says when a budget may be raised.
OF_THE_THEOREM = (("dispatcher", "finish"), ("dispatcher", "run"), ("job_queue", None), ("floors", None),
                  ("job_types", "at"), ("job_types", "tally"), ("job_types", "dim"))
WHOLES = {
    "the theorem": (OF_THE_THEOREM, 340),
    "the theorem over threads": ((*OF_THE_THEOREM, ("dispatcher_threads", "run")), 430),
    "the program": ((("cli_commands", None), ("cli_tools", None)), 1800),
}
# What counts of an `impl Model`: the type that contracts see in place of the struct.
OF_MODEL = ("Value", "invariant") if "--invariants" in sys.argv else ("Value",)


@functools.cache
def laws():
    """Returns the names of the laws of all traits: the ghost items below a trait's last function. What an `impl` gives
    for a law is a proof, which nobody has to believe."""
    items = [item for crate in crate_names() for file in sources_of(crate).values() for item in all_items(file)]
    traits = [after_functions(item.items) for item in items if item.kind == "trait"]
    return {law.name for below in traits for law in below if law.kind == "ghost"}


def after_functions(items):
    return items[1 + max((at for at, item in enumerate(items) if item.kind == "fn"), default=-1) :]


class Source:
    """The clauses of a crate's public items, or of its functions of one name alone."""

    def __init__(self, crate, specs, only=None):
        self.crate, self.specs, self.only, self.roots = crate, specs, only, []
        files = {file: items for file, items in sources_of(crate).items() if "tests" not in file}
        self.exported = exports(files)
        for items in files.values():
            self.read_items(items, Scope(), lambda item: item.is_public and self.is_exported(item.name))

    def is_exported(self, name):
        return self.exported is None or name in self.exported

    def read_items(self, items, scope, is_public, has_ghost=lambda name: False):
        """Reads the items of a file or block. The two functions say which functions and ghost items count."""
        items = [inner for item in items for inner in (item.items if item.kind == "mod" else [item])]
        for item in (item for item in items if item.kind == "ghost use"):
            scope.take(item.head)
        for item in items:
            if item.kind == "ghost" and has_ghost(item.name) and not self.only:
                self.roots += self.specs.cited(item.text, scope)
            elif item.kind == "fn" and is_public(item) and self.only in (None, item.name):
                for clause in item.clauses:
                    self.roots += self.specs.cited(clause, scope)
            elif item.kind in (*TYPES, "impl") and item.inside:
                self.read_block(item, Scope(scope))

    def read_block(self, block, inner):
        """Reads the items of an `impl`, of a trait or of a type."""
        if block.kind != "impl":
            if block.is_public and self.is_exported(block.name):
                self.read_items(block.items, inner, lambda item: block.kind == "trait", lambda name: True)
            return
        head = re.sub(r"<[^<>]*(?:<[^<>]*>[^<>]*)*>", " ", block.head[len("impl") :])
        names = [it.rpartition("::")[2] for it in re.findall(r"[\w:]+", head.partition("where")[0])]
        names = [it for it in names if it not in ("for", "dyn", "mut", "const")]
        if not names or not self.is_exported(names[-1]):
            return
        if " for " not in head:
            self.read_items(block.items, inner, lambda item: item.is_public)
        elif names[0] == "Model":
            self.read_items(block.items, inner, lambda item: False, lambda name: name in OF_MODEL)
        else:
            self.read_items(block.items, inner, lambda item: True, lambda name: name not in laws())


class Surface:
    """The closure of all public contracts, what is wrong with it, and what it does not reach."""

    def __init__(self):
        self.specs, self.crates = Specs(), crate_names()
        self.roots = {crate: Source(crate, self.specs).roots for crate in self.crates}
        self.closure = self.specs.closure([it for crate in self.crates for it in self.roots[crate]])
        reached = set(self.closure)
        every = [it for module in self.specs.modules.values() for it in module.values()]
        self.unreached = [it for it in every if it not in reached and not it.is_inner()]

    def not_passed_on(self, crate):
        """What the public clauses of a library cite of the crates below, and the library does not pass on."""
        for it in sorted(set(self.roots[crate]), key=str):
            if it.crate != crate and not self.specs.passes_on(crate, it):
                yield f"crates/{crate}/specs/Lib.antt does not pass on {it} of {it.crate}, which its clauses cite"

    @functools.cache
    def reached(self, whole):
        """Returns the definitions that a whole reaches, each after those that it cites."""
        parts, _ = WHOLES[whole]
        return self.specs.closure([it for crate, only in parts for it in Source(crate, self.specs, only).roots])

    def page(self):
        """Yields the text of the page for readers without the sources."""
        yield TOP_OF_PAGE
        for crate in self.crates:
            own, promised = of_crate(self.closure, crate), contracts(crate) if crate not in NO_LIBRARIES else ""
            yield f"\n## {crate}\n" if own or promised.strip() else ""
            yield f"\n```rust\n{promised.strip()}\n```\n" if promised.strip() else ""
            for it in sorted(own, key=lambda it: (it.file, it.first)):
                yield f"\nFrom `{it.place}`:\n\n```antt\n{source_of(it)}\n```\n"

    def faults(self):
        yield from uncommented_ones(self.closure)
        for crate in self.crates:
            yield from self.not_passed_on(crate) if crate not in NO_LIBRARIES else ()
        for whole, (_, most) in WHOLES.items():
            lines = lines_of(self.reached(whole))
            if lines > most:
                yield f"{whole} reaches {lines} lines, and at most {most} are allowed"
        files = [file for crate in self.crates for part in ("src", "specs")
                 for file in files_below(f"crates/{crate}/{part}", ".rt", ".antt")]
        yield from misquoted(read(PAGE), [squeezed(read(file), file.endswith(".antt")) for file in files])


PAGE = "docs/THEOREM.md"
TOP_OF_PAGE = """# Contracts and definitions

Of each crate these are the public functions, each with its comment, its head and its clauses, and
the definitions that public contracts cite, directly or through others. The page on the theorems
explains the signs.
"""


def of_crate(definitions, crate):
    return [it for it in definitions if it.crate == crate]


def lines_of(definitions):
    return sum(len(it.lines) for it in definitions)


def source_of(definition):
    """Returns a definition as it is in its file, with the comment above it, and with the head of its block."""
    lines = read(definition.file).splitlines()[definition.above - 1 : definition.last]
    return "\n".join([definition.block, *lines] if definition.block else lines)


def uncommented_ones(definitions):
    return (f"{it.place}: {it.name} has no comment above it" for it in definitions if not it.comment)


def squeezed(text, is_antt):
    """Returns a text with neither comments nor spaces, nor the comma after the last of a list."""
    return re.sub(r",(?=[)}\]])", "", "".join(uncommented(text, is_antt).split()))


def misquoted(page, known):
    """Yields each code block of a page that none of the known texts has."""
    for kind, block in re.findall(r"^```(\w*)\n(.*?)^```$", page, re.M | re.S):
        if not any(squeezed(block, kind != "rust") in text for text in known):
            yield f"{PAGE}: no source has the block that begins with {block.splitlines()[0][:60]!r}"


# A file of definitions, its names, and those that have no comment; and a block that is quoted, but for its layout.
SAMPLE = """-- a file
use Rattle.a.{b}

-- A long head.
pub record Head (n : ℕ)
    (m : ℕ) : Type 0 where
  -- a field
  pub field : ℕ

-- A group.

abbrev pub none : ℕ
none = 1
module _ (n : ℕ)
    (m : ℕ) where
  -- Inside,
  -- twice.
  inside : ℕ
"""
BLOCK = "pub fn f(\n    a: u8, // here\n) { 1 }\n"


def known_bad():
    found, _ = read_definitions(SAMPLE, "a", "Rattle.a.specs.B", "crates/a/specs/B.antt")
    for it in found.values():
        it.read_comment(SAMPLE.splitlines())
    yield [f"{it} {it.first} to {it.last}: {it.comment}" for it in found.values()], [
        "B.Head 5 to 8: A long head.", "B.none 12 to 13: ", "B.inside 18 to 18: Inside, twice."]
    yield [*uncommented_ones(found.values())], ["crates/a/specs/B.antt:12: none has no comment"]
    page = f"```rust\n{BLOCK}```\n```\npub other : ℕ\n```\n"
    yield [*misquoted(page, [squeezed("pub fn f(a: u8) { 1 }", False)])], ["begins with 'pub other"]


def main(words):
    words, surface = [word for word in words if word != "--invariants"], Surface()
    if len(words) == 2 and words[0] == "--write":
        return write(words[1], "".join(surface.page()))
    if words:
        print(__doc__, file=sys.stderr)
        return 2
    for it in surface.unreached:
        print(f"note: no public contract reaches {it} ({it.place})")
    status = print_faults([*surface.faults(), *blind("surface", known_bad())])
    print(f"surface: public contracts reach {len(surface.closure)} definitions, {lines_of(surface.closure)} lines")
    for whole, (_, most) in WHOLES.items():
        of_whole = surface.reached(whole)
        print(f"surface: {whole} reaches {len(of_whole)} definitions, {lines_of(of_whole)} lines of at most {most}")
    return status
