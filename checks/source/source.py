"""Compares the plain Rust in `rust/src/source` with the proved sources that it is made from.

- The committed text is what the eraser makes now. `--write` writes it.
- An audit walks along the tokens of a source and of its text side by side. It shares no code with the eraser. What is
  left out must begin with a word of the prover, and what is put in must be on a short list.
- The eraser must refuse forms that it does not know, and those that Rust and Rattle read differently.
- The shim has at most 370 lines of code. What it replaces in the toolchain has not changed since the shim was read.
- rust/src/source/README.md says of each function with a `requires` that the package calls, what keeps it.

`checks/run source [--write]`.
"""
import hashlib
import os
import re
import shutil

from checks.lib import erase
from checks.lib.repository import files_below, path, place, read, write
from checks.lib.rows import Row, Wrong, must, needs, run_rows
from checks.lib.token_trees import Unknown, parsed, shown
from checks.lib.toolchain import kit

HOME, SHIM, EXPORTS, PAGE = "rust/src/source", "rust/src/source/kit", "rust/c/src", "rust/src/source/README.md"
BY_HAND = (f"{HOME}/mod.rs", f"{EXPORTS}/lib.rs", f"{EXPORTS}/slices.rs")
LINES_OF_SHIM = 370
# The files of the toolchain that the shim stands for, by the first half of the checksum that each had when it was read.
READ = {
    "atomic_table/src/badge.rt": "1f062ea0adb5c841a390f95e2522615e",
    "atomic_table/src/lends.rt": "6d357c61c811829b7cdbe3036e8f61e5",
    "atomic_table/src/owned.rt": "c5d15829896bb08ff48670a83f15e90e",
    "atomic_table/src/shared.rt": "ffff9cd0c8f12e0eeb6c1680e34fc23e",
    "atomic_table/src/steps.rt": "1011c502f3df42ab00112cf83b94082f",
    "counted_slot/src/lib.rt": "8428abce79b4cc2b23d2abd7c9e2a949",
    "std_alloc/src/arc.rt": "9d51b8a28b6cfd1dd7b36cdb46195ef7",
    "std_alloc/src/boxed.rt": "a3a5eab91273f80607a9aff8e22541b7",
    "std_alloc/src/vec.rt": "ad38e5b4943bc6437f9648b2a5534913",
    "std_alloc/src/vec/deque.rt": "3ccd7e8928070a135f5aa6f5942d18a0",
    "core/src/snapshot.rt": "db9457f393ba12e3c27d1cbcf4fc444c",
    "core/src/mem/manually_drop.rt": "9c41474cc0d369ca4b41c51b0dbc36c0",
    "core/src/alloc.rt": "0b5b360b546aeff051d077ecc535fb0c",
}
WORD = re.compile(r'"(?:[^"\\]|\\.)*"|\'[a-z]\w*\b(?!\')|\w+|::|->|=>|\S')
OPENS, CLOSES = "([{", ")]}"
# What the eraser may put in, besides names of paths.
PUT_IN = [WORD.findall(it) for it in (
    "pub(crate)", "let alloc = Global;", *(f"#[cfg({it})]" for it in erase.GATED.values()),
    '#[must_use = "the proved source spends each value of this type by a call"]')]
PRELUDE = re.compile(r"use std::prelude::\{[\w, ]+\};")
# Forms that the eraser must refuse.
REFUSED = (
    "#[strange]\nfn f() {}", "fn f() { for x in 0.. {} }", "fn f() { g(v.iter().map(|s| s.clone())); }",
    "fn f() { unsafe { g() } }", "impl Model for T { fn g() {} }", "fn f() { std::net::g(); }", "use anyhow::Error;",
    "impl Drop for T { fn drop(self) { if x() {} } }", "impl Drop for T { fn drop(self) { self.abandon(); } }",
    "impl T { fn abandon(self) { g(); } }\nimpl Drop for T { fn drop(self) { self.abandon(); } }",
    "fn f() { if let Some(x) = y && x { g() } else { h() } }", "mod inner { }", "requires { x }", "ghost let x = 1;",
    "fn f() { write!(s, \"\")?; }", "extern \"Rust\" fn f() {}", "#[cfg(feature = \"x\")]\nmod m;")

# A form that stays as it is.
GUARD = "fn f() -> u32 { match x { Some(a) if a == b => 0, _ => 1 } }"


def made_anew():
    """Sees that the committed text is what the eraser makes."""
    made = {f"rust/{it}": text for it, text in erase.erased_all().items()}
    found = [place(it) for home in (HOME, EXPORTS) for it in files_below(home, ".rs")]
    others = [it for it in found if it not in made and not it.startswith(SHIM) and it not in BY_HAND]
    must(not others, f"{others} are made of no source")
    stale = [it for it, text in made.items() if it not in found or read(it) != text]
    must(not stale, f"checks/run source --write renews {stale}")
    return f"{len(made)} files, {sum(text.count(chr(10)) for text in made.values())} lines"


def write_all():
    for crate in erase.CRATES:
        shutil.rmtree(path(HOME, crate), ignore_errors=True)
    for name, text in erase.erased_all().items():
        write(f"rust/{name}", text)


def words_of(text):
    return WORD.findall(re.sub(r'"(?:[^"\\]|\\.)*"|//[^\n]*', lambda it: "" if it[0].startswith("/") else it[0], text))


def past(words, at):
    """Returns the place after the brackets that open at a place."""
    depth = 0
    while True:
        depth += (words[at] in OPENS) - (words[at] in CLOSES)
        at += 1
        if not depth:
            return at


def past_item(words, at):
    """Returns the place after an item that ends with braces."""
    return past(words, words.index("{", at))


def past_ghost(words, at):
    """Returns the place after a ghost item or field, with its `;` or `,`. The last field may have none."""
    while words[at] not in (";", ",") and words[at] not in CLOSES:
        at = past(words, at) if words[at] in OPENS else at + 1
    return at + (words[at] in (";", ","))


def left_out(words, at):
    """Returns the place after what may be left out at a place of a source, or None."""
    word, rest = words[at], words[at : at + 12]
    if word in ("requires", "ensures"):
        return past_item(words, at)
    if word == "ghost" or rest[:2] == ["pub", "ghost"]:
        return past_ghost(words, at + 1)
    if word == "#":
        inside = at + 1 + (words[at + 1] == "!")
        is_drop = words[inside + 1 : inside + 5] == ["derive", "(", "Drop", ")"]
        if words[inside + 1] in ("error", "tactic", "unsafe") or is_drop:
            return past(words, inside)
        if words[inside + 1 : inside + 4] == ["cfg", "(", "test"]:
            return words.index(";", inside) + 1
    if is_ghost_impl(words, at):
        return past_item(words, at)
    for words_left_out in (["extern", '"C"'], ["alloc", ":", "Global", ","], ["alloc", ":", "Global"], ["unsafe"],
                           ["use", "thiserror", "::", "Error", ";"], [",", "Error"],
                           ["+", "Drop"], ["Drop"], ["Drop", ","], [",", "Drop"], ["&", "&"], [","]):
        if rest[: len(words_left_out)] == words_left_out:
            return at + len(words_left_out)
    return None


def comparable(text, crate):
    """Returns an erased text with the paths of its source, without what stands at its head."""
    text = re.sub(r"crate::source::kit::(atomic_table|counted_slot|fixed_vec)\b", r"\1", text)
    text = text.replace("crate::source::kit::", "std::").replace(f"crate::source::{crate}::", "crate::")
    text = re.sub(r"\bcrate::source::(\w+)", r"\1", text)
    text = re.sub(r"ManuallyDrop::new\((\w+)\)", r"unsafe { ManuallyDrop::new_unchecked(\1) }", text)
    return PRELUDE.sub("", re.sub(r"(?<![\w:])core::", "std::", text))


def without_models(source, crate):
    """Returns a source without imports of models, and without the names of modules that are not used."""
    unused = "|".join(it.split("/")[1] for it in erase.UNUSED if it.startswith(f"{crate}/")) or "no module"
    source = re.sub(rf"\bmod (?:{unused});|\bpub use (?:{unused})::[^;]*;", "", source)
    return source.replace("use std::marker::Model;", "").replace("::{Model, PhantomData}", "::PhantomData")


def audit_of(name, source, text):
    """Walks along the tokens of a source and of its erased text. Returns how many were left out."""
    crate = name.split("/")[0]
    one, other = words_of(without_models(comparable(source, crate), crate)), words_of(comparable(text, crate))
    at = to = count = 0
    while at < len(one) or to < len(other):
        put = next((len(it) for it in PUT_IN if other[to : to + len(it)] == it != one[at : at + len(it)]), 0)
        following = left_out(one, at) if at < len(one) else None
        if put and (other[to] != "pub" or one[at : at + 1] == ["mod"]):
            to += put
        elif one[at : at + 1] == other[to : to + 1] and not is_clause(one, at):
            at, to = at + 1, to + 1
        elif following is not None:
            at, count = following, count + following - at
        elif other[to : to + 2] == ["{", "if"] or other[to : to + 1] in (["}"], ["if"], ["{"]) and "&&" in source:
            to += 1
        else:
            raise Wrong(f"{name}: {' '.join(one[at:at + 12])!r} became {' '.join(other[to:to + 12])!r}")
    return count


def is_ghost_impl(words, at):
    """Answers whether an `impl` of a trait begins at a place that Rust does not need."""
    if words[at] not in ("impl", "unsafe") or words[at : at + 2] == ["unsafe", "{"]:
        return False
    start = words.index("{", at)
    head, inside = words[at:start], words[start : start + 6]
    if inside[2:6] == ["drop", "(", "&", "mut"]:
        return False
    return "for" in head and bool({"Model", "Send", "Sync", "Drop"} & set(head[: head.index("for")]))


def is_clause(words, at):
    """Answers whether a clause, a ghost item or an attribute of the prover begins at a place."""
    is_attribute = words[at] == "#" and bool({"error", "tactic", "unsafe"} & set(words[at + 2 : at + 4]))
    is_ghost = words[at] in ("requires", "ensures", "ghost") or words[at : at + 2] == ["pub", "ghost"]
    return is_ghost or is_attribute or is_ghost_impl(words, at)


def audited():
    """Walks along all sources and their texts."""
    count = 0
    for crate in erase.CRATES:
        for file in files_below(f"crates/{crate}/src", ".rt"):
            stem = os.path.basename(file)[: -len(".rt")]
            name = f"{crate}/{stem}"
            if stem == "tests" or name in erase.UNUSED or name in erase.OPAQUE:
                continue
            text = read(HOME, crate, f"{'mod' if stem == 'lib' else stem}.rs")
            count += audit_of(name, erase.mended(name, read(file)), text)
    return f"{count} tokens left out"


def refuses(text):
    """Sees that the eraser refuses a text."""
    eraser, ends = erase.eraser_of("crate", set()), erase.Ends()
    eraser.file = "crate/file"
    try:
        must(not erase.DIFFERING.search(text), "it is refused")
        ends.add("file", shown(eraser.erased(parsed(text))))
        ends.settle()
        must(all(ends.only_ends(it.owner, it.body) for it in eraser.drops), "it is refused")
    except (Unknown, Wrong):
        return
    raise Wrong("the eraser takes it")


def keeps(text):
    """Sees that the eraser leaves a text as it is."""
    eraser = erase.eraser_of("crate", set())
    eraser.file = "crate/file"
    erased = shown(eraser.erased(parsed(text)))
    must(erased.split() == text.split(), f"it becomes {erased!r}")


def code_lines(text):
    return sum(bool(line.strip()) and not line.lstrip().startswith("//") for line in text.splitlines())


def shim_is_small():
    count = sum(code_lines(read(it)) for it in files_below(SHIM, ".rs"))
    must(count <= LINES_OF_SHIM, f"the shim has {count} lines of code, and not at most {LINES_OF_SHIM}")
    return f"{count} lines"


def shim_is_read():
    """Sees that no file of the toolchain for which the shim stands has changed."""
    needs("rt")
    now = {}
    for name in READ:
        with open(os.path.join(kit().KIT, "rattle", name), "rb") as file:
            now[name] = hashlib.sha256(file.read()).hexdigest()[:32]
    changed = [it for it, sum_now in now.items() if sum_now != READ[it]]
    must(not changed, f"read the shim again beside {changed}, which are now {now}")


def owners():
    """Yields each function for C that has a `requires`, with the name of the clause."""
    for crate in erase.CRATES:
        for file in files_below(f"crates/{crate}/src", ".rt"):
            for found in re.finditer(r'pub extern "C" fn (\w+).*?\n\{', read(file), re.S):
                yield from ((found[1], clause) for clause in re.findall(r"\n +requires (\w*)", found[0]))


def owners_are_listed():
    rows = [line for line in read(PAGE).splitlines() if line.startswith("|")]
    for name, clause in owners():
        is_listed = any(f"`{name}`" in row and f"`{clause}`" in row for row in rows)
        must(is_listed, f"{PAGE} does not say what keeps `{clause}` of `{name}`")


def rows_of():
    yield Row("the committed text is that of the eraser", made_anew)
    yield Row("an audit of what was left out and put in", audited)
    for text in REFUSED:
        yield Row(f"the eraser refuses {text[:40]!r}", refuses, (text,))
    yield Row("the eraser keeps the guard of a match arm", keeps, (GUARD,))
    yield Row("the shim is small", shim_is_small)
    yield Row("the shim was read beside the toolchain", shim_is_read)
    yield Row("each requires has a keeper", owners_are_listed)


def main(words):
    if words == ["--write"]:
        write_all()
    return run_rows("source", rows_of(), says_ok=True)
