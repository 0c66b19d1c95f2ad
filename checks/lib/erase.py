"""The eraser: makes plain Rust from proved sources, by leaving out contracts and what proofs alone read.

It reads trees of tokens, never lines. It drops clauses, ghost items, ghost fields, attributes of the prover, texts of
errors, and a `Drop` that only takes its value apart. It keeps the clauses of a public function as lines of its
documentation. It gives paths the names that they have in `rust/src/source`. It writes nothing of its own except what is
named here:

- a first line that names the source, `pub(crate)` at the private modules of a crate, and an import of the names that
  Rattle knows everywhere,
- `#[must_use]` at a type whose values the prover does not allow to be dropped,
- `let alloc = Global;` in a function for C, to which C passes no allocator,
- `ManuallyDrop::new(x)` for `unsafe { ManuallyDrop::new_unchecked(x) }`,
- two nested `if` for an `if let` with `&&`, which older compilers do not know,
- the condition of a module of GATED,
- the texts of MENDED, each for one text of a source, which must still be there, and
- the functions of `rust/c`, each a call of the erased function for C of its name.

It stops (`Unknown`) at a form that it does not know, and at one that Rust and Rattle both accept with different
meanings.
"""
import re

from checks.lib.eraser import KIT, SOURCE, Eraser
from checks.lib.rattle_source import functions_in
from checks.lib.repository import files_below, read
from checks.lib.token_trees import Unknown, parsed, shown

# The erased crates, each after those that it uses. They are modules of `crate::source`.
CRATES = (
    "release_version", "cube_shape", "fit_tree", "cubejobs_fit", "collectives", "cubejobs_rounds", "bitmap_tree",
    "bitmap_occupancy", "cubejobs_regions", "wake_pool", "wake_calls", "lanes", "cubejobs_lanes", "sched_law",
    "sched_blocks", "sched_jobs", "sched_core", "cubejobs_plan", "sched_board", "sched_threads", "cubejobs_sched")
# The crates of the tree of status words, and the collectives as a whole. Only the check `steps` erases them, without
# the pure machine, the text and the flags of a word.
TREE = ("status_word", "cube_core", "tree_steps", "cube_tree", "collectives")
LEFT_OUT = (
    (r"    /// Returns the word as text.*?\n}\n(?=\n/// Proves)", "}\n"),
    (r"    /// Returns the bits of use\..*?\n    }\n\n", ""),
    (r"use crate::use_bits::UseBits;\nuse bitflags::Flags;\n"
     r"|use std::(?:alloc::{AllocError, Global}|fmt::Write);\n(?=.*push_mark)", ""),
    (r"(?<=\n)(?:mod (?:use_bits|act|effect|world|padding)|pub use (?:use_bits|act|world|padding)::[^;]*);\n", ""),
)
NO_TREE = ("status_word/use_bits", "cube_core/act", "cube_core/effect", "cube_core/world", "collectives/padding")
# Modules that no other erased one uses.
UNUSED = (*(f"collectives/{it}" for it in ("collective", "monoid", "operations", "padding", "rounds")), "sched_law/law",
          "sched_law/team_law",           "sched_threads/law")
# Modules of a crate that only some features of the package need, with the condition.
GATED = {"fit_tree/fit": 'any(feature = "plan", feature = "sched")'}
# Files with raw pointers, and the module and the type of what each points to. Each has the type below instead, of the
# shim.
OPAQUE = {
    "cubejobs_lanes/opaque_ptr": ("state", "State"), "cubejobs_regions/opaque_ptr": ("state", "State"),
    "cubejobs_plan/opaque_ptr": ("planner", "Planner"), "cubejobs_sched/opaque_ptr": ("state", "State")}
OPAQUE_TEXT = f"""//! The pointer of a handle to its content on the heap, or to nothing.

use {SOURCE}::CRATE::MODULE::CONTENT;
use {KIT}::opaque::Opaque;

pub(crate) type OpaquePtr = Opaque<CONTENT>;
"""
# For a text of a source, another one. A handle that is shut is a constant of the Rust package. What is proved of
# constants is tested here.
MENDED = (
    ("bitmap_tree/steps", "pub fn blank() -> HiddenSeat", "pub const fn blank() -> HiddenSeat"),
    ("sched_jobs/slots", "const _: () = prove!(", "const _: () = assert!("),
)
# The crates that export functions to C, and the modules of the library for C that do so here.
LIBRARIES = {
    "cubejobs_fit": "fit", "cubejobs_rounds": "rounds", "cubejobs_regions": "regions", "cubejobs_lanes": "lanes",
    "cubejobs_plan": "plan", "cubejobs_sched": "sched"}
EXPORTS = """// Made by checks/lib/erase.py from the functions that crates/CRATE exports. Change those.
//! The functions of C of `CRATE`, over the erased sources.

use crate::source;
"""
SLICES = "use crate::slices::{slice, slice_mut};\n"
PRELUDE = ("Box", "Vec", "vec")
# Functions of the toolchain that only take a value apart. `abandon` and the like are found in the sources.
ENDS = {"drop", "destroy_empty", "into_inner"}
# Forms with another meaning in Rust: a clone that may fail under `map`, a range with no end, the texts of errors.
DIFFERING = re.compile(r"\bmap\(\|\w+\| \w+\.clone\(\)\)|\(\d\w*\.\.\)|\bfor \w+ in \d\w*\.\. *\{|\banyhow\b"
                       r"|\btry_(?:send|recv)\b|\bthread::spawn\b|\b(?:write|writeln)!|\biter::(?:once|empty)\b")


class Ends:
    """The methods `(self)` that only take their value apart, by type and name, and the names of those that do more."""

    def __init__(self):
        self.bodies, self.more = {}, set()

    def add(self, name, text):
        """Adds the methods of an erased file."""
        for it in functions_in(f"src/{name}.rs", text):
            if it.owner and it.name != "drop" and "(self)" in it.head:
                self.bodies.setdefault((it.owner, it.name), []).append(it.text)

    def settle(self):
        """Leaves out the methods that do more, until each that is left calls only such methods."""
        while True:
            more = [it for it, bodies in self.bodies.items() if not all(self.only_ends(it[0], body) for body in bodies)]
            if not more:
                return
            for it in more:
                del self.bodies[it]
                self.more.add(it[1])

    def only_ends(self, owner, body):
        """Answers whether a body, of a type's method, has only patterns, names, fields and calls of such methods."""
        if re.search(r"[^\w\s{}();:,.=_]|\b(?:if|match|for|while|loop|unsafe|return)\b", body):
            return False
        own = re.findall(r"\bself\s*\.\s*(\w+)\s*\(", body)
        called = re.findall(r"(\w+)\s*\(", re.sub(r"\bself\s*\.\s*\w+\s*\(|\blet \(", "(", body))
        known = {name for _, name in self.bodies} - self.more | ENDS
        return all((owner, it) in self.bodies for it in own) and all(it in known for it in called)


def mended(name, text):
    """Returns the text of a source with the texts of MENDED in their places."""
    for file, old, new in MENDED:
        if file == name:
            if text.count(old) != 1:
                raise Unknown(f"{name}: the text that is mended has changed")
            text = text.replace(old, new)
    return text


def laid_out(text):
    """Returns a text without empty lines in excess."""
    text = re.sub(r"[ \t]+\n", "\n", text)
    text = re.sub(r"\n{3,}", "\n\n", text)
    text = re.sub(r"\{\n\n+", "{\n", text)
    text = re.sub(r"\n\n+(\s*\})", r"\n\1", text)
    return re.sub(r"\{\s+\}", "{}", text).strip("\n") + "\n"


def with_head(name, text):
    """Returns an erased text after a line that names its source, with the names that Rattle knows everywhere."""
    known = [it for it in PRELUDE if re.search(rf"\b{it}\b", re.sub(r"//[^\n]*", "", text))]
    imports = f"use {KIT}::prelude::{{{', '.join(known)}}};\n" if known else ""
    doc = re.match(r"(?:\s*//![^\n]*\n)*", text)[0]
    crate, file = name.split("/")
    first = f"// Made from crates/{crate}/src/{file}.rt by checks/lib/erase.py. Change that file.\n"
    return laid_out(f"{first}{doc}\n{imports}{text[len(doc):]}")


def sources_below(folder):
    """Returns the texts of the sources in a folder by their names."""
    return {re.sub(r".*/", "", it)[: -len(".rt")]: read(it) for it in files_below(folder, ".rt")}


def erased_crate(crate):
    """Returns the erased files of a crate by their names, and the eraser that has read them."""
    files = sources_below(f"crates/{crate}/src")
    return erased_files(crate, {it: files[it] for it in files if it != "tests" and f"{crate}/{it}" not in UNUSED})


def homes_of(text):
    """Returns the crate of each name that a source takes from another erased crate."""
    uses = re.findall(r"^use (\w+)::\{?([\w,\s]+)\}?;", text, re.M)
    return {name: crate for crate, names in uses if crate in CRATES for name in re.findall(r"\w+", names)}


def eraser_of(crate, droppable, unused=UNUSED):
    """Returns the eraser of a crate's files, of which some types can be dropped and some modules are left out."""
    return Eraser(crate, droppable, (*CRATES, *TREE), unused, GATED)


def erased_files(crate, files, unused=UNUSED):
    """Returns the erased texts of these sources of a crate by their names, and the eraser that has read them."""
    droppable = {it for text in files.values() for it in re.findall(r"\bimpl(?:<[^{]*?>)? Drop for (\w+)", text)}
    eraser, made = eraser_of(crate, droppable, unused), {}
    for file, text in files.items():
        name = f"{crate}/{file}"
        eraser.file, eraser.homes = name, homes_of(text)
        if name in OPAQUE:
            module, content = OPAQUE[name]
            text = OPAQUE_TEXT.replace("CRATE", crate).replace("MODULE", module).replace("CONTENT", content)
            made[file] = with_head(name, text)
            continue
        differs = DIFFERING.search(re.sub(r"//[^\n]*", "", text))
        if differs:
            raise Unknown(f"{name}: Rust gives `{differs[0]}` another meaning")
        erased = shown(eraser.erased(parsed(mended(name, text))))
        made["mod" if file == "lib" else file] = with_head(name, erased)
    return made, eraser


def erased_tree(crate):
    """Returns the erased files of a crate of the tree by their names, without the texts of LEFT_OUT."""
    files = {it: text for it, text in sources_below(f"crates/{crate}/src").items() if f"{crate}/{it}" not in NO_TREE}
    for pattern, instead in LEFT_OUT:
        files = {it: re.sub(pattern, instead, text, flags=re.S) for it, text in files.items()}
    return erased_files(crate, files, ())[0]


def erased_all():
    """Returns the text of each file that is made, by its place below `rust`."""
    made, exports, drops, ends = {}, {}, [], Ends()
    for crate in CRATES:
        files, eraser = erased_crate(crate)
        drops += eraser.drops
        exports[crate] = "\n".join(eraser.exports)
        for file, text in files.items():
            made[f"src/source/{crate}/{file}.rs"] = text
            ends.add(file, text)
    ends.settle()
    for drop in drops:
        if not ends.only_ends(drop.owner, drop.body):
            raise Unknown(f"{drop.file}: a Drop that does something: {' '.join(drop.body.split())}")
    for crate, file in LIBRARIES.items():
        imports = SLICES if "slice" in exports[crate] else ""
        made[f"c/src/{file}.rs"] = f"{EXPORTS.replace('CRATE', crate)}{imports}\n{exports[crate]}"
    return made
