"""The rules of the eraser: what it leaves out of a tree of tokens, keeps and puts in. The head of erase.py states
them."""
import re
from typing import NamedTuple

from checks.lib.token_trees import (
    Token, Tree, Unknown, after, is_blank, is_tree, last, parsed, shown, token, tree, until, without_space)

SOURCE, KIT = "crate::source", "crate::source::kit"
# What the shim has of the toolchain's crates, of `fixed_vec`, which has raw pointers, and of its `std`. Other paths of
# `std` are those of `core`, if listed.
KIT_CRATES = ("atomic_table", "counted_slot", "fixed_vec")
KIT_STD = ("alloc", "collections", "snapshot", "sync::Arc")
CORE = ("cmp", "fmt", "marker", "mem", "ops", "sync::atomic")
# Types that are not those of a crate.
PLAIN = ("bool", "u8", "u16", "u32", "u64", "usize")
# The attributes that stay, and those that the prover or the linker reads, or the crate of errors.
KEPT, DROPPED = ("cold", "derive", "doc", "inline", "must_use", "repr"), ("error", "tactic", "unsafe")
# What stays in no list of `derive`: Rust can drop each value, and an error has no text here.
NOT_DERIVED = ("Drop", "Error")
MUST_USE = '#[must_use = "the proved source spends each value of this type by a call"]\n'


class LeftOut(NamedTuple):
    """A `Drop` that was left out: its file, its type, and its body."""

    file: str
    owner: str
    body: str


def strip_head(out):
    """Takes the visibility, attributes and comments of an item that is left out off the output."""
    while out:
        before = out[-1]
        is_own = is_blank(before) and not before.startswith("//!")
        if is_own or before in ("pub", "unsafe") or is_tree(out, len(out) - 1, "(") and shown(before) == "(crate)":
            out.pop()
        elif is_tree(out, len(out) - 1, "[") and len(out) > 1 and out[-2] == "#":
            del out[-2:]
        else:
            break
    out.append(token("\n\n" if out and last(out) in (";", "}") else "\n", "space"))


def exported(crate, homes, name, parameters, head):
    """Returns the function of C that calls an erased function. A slice is a pointer and a number there."""
    taken, given, counts = [], [], []
    for parameter, kind in re.findall(r"(\w+): (&?(?:mut )?(?:\[\w+\]|\w+))", shown(parameters)):
        is_slice = kind.endswith("]")
        pointer = "*mut " if "mut" in kind else "*const "
        inside = re.search(r"\w+(?=\]?$)", kind)[0]
        named = inside if inside in PLAIN else f"source::{homes.get(inside, crate)}::{inside}"
        if is_slice:
            counts.append(parameter)
            taken += [f"{parameter}: {pointer}{named}", f"{parameter}_count: usize"]
            given.append(f"unsafe {{ slice{'_mut' if 'mut' in kind else ''}({parameter}, {parameter}_count) }}")
        else:
            taken.append(f"{parameter}: {kind.replace(inside, named)}")
            given.append(parameter)
    result = re.search(r"-> (\w+)", head)[1]
    named = result if result in PLAIN else f"source::{crate}::{result}"
    safety = "/// # Safety\n/// The pointer and the number are of a slice that no other call uses.\n" if counts else ""
    word = "unsafe " if counts else ""
    return (f"{safety}#[no_mangle]\npub {word}extern \"C\" fn {name}({', '.join(taken)}) -> {named} {{\n"
            f"    source::{crate}::{name}({', '.join(given)})\n}}\n")


class Eraser:
    """What is known of a crate while its files are erased."""

    def __init__(self, crate, droppable, crates, unused, gated):
        self.crate, self.droppable, self.crates, self.unused, self.gated = crate, droppable, crates, unused, gated
        self.file, self.is_for_c, self.derived, self.drops, self.exports = "", False, [], [], []
        self.homes = {}

    def erased(self, items):
        """Returns a tree without what is not Rust."""
        out, at = tree([], getattr(items, "opens", "")), 0
        while at < len(items):
            item = items[at]
            if isinstance(item, Tree):
                out.append(self.erased(item))
                at += 1
                continue
            rule = getattr(self, f"on_{item}", None) if item.kind == "name" or item == "#" else None
            rule = self.on_attribute if item == "#" else rule
            following = rule(items, at, out) if rule else self.on_path(items, at, out)
            if following is None:
                out.append(item)
                following = at + 1
            at = following
        return out

    def on_attribute(self, items, at, out):
        opens = after(items, at + 1)
        is_inner = items[opens] == "!"
        opens += is_inner
        if not is_tree(items, opens, "["):
            return None
        name = shown(items[opens][0])
        following = opens + 1
        if name == "cfg":
            if shown(items[opens]) != "[cfg(test)]":
                raise Unknown(f"{self.file}: the attribute {shown(items[opens])}")
            strip_head(out)
            return until(items, following, ";") + 1
        if name in DROPPED:
            kept = ""
        elif name == "derive":
            self.derived = [it for it in re.split(r"[,\s]+", shown(items[opens][1])[1:-1]) if it]
            kept = ", ".join(it for it in self.derived if it not in NOT_DERIVED)
            kept = kept and f"#[derive({kept})]"
        elif name in KEPT:
            kept = shown(items[at:following])
        else:
            raise Unknown(f"{self.file}: the attribute {name}")
        if kept:
            out.append(token(kept, "doc"))
            return following
        return following + (following < len(items) and is_blank(items[following]) and items[following].kind == "space")

    def on_ghost(self, items, at, out):
        """Leaves out a ghost item, member or field, up to its `;` or `,`."""
        name = after(items, at + 1)
        sign = after(items, name + 1)
        if items[name] != "use" and (sign >= len(items) or items[sign] not in (":", "=")):
            raise Unknown(f"{self.file}: ghost {shown(items[name:sign + 1])}")
        strip_head(out)
        return until(items, at, ";", ",") + 1

    def on_Drop(self, _items, at, out):  # pylint: disable=invalid-name
        """Leaves out the bound `Drop`: each value of Rust can be dropped."""
        if last(out) not in (":", "+"):
            return None
        if last(out) == "+":
            while out.pop() != "+":
                pass
            without_space(out)
        return at + 1

    def on_extern(self, items, at, _out):
        """Leaves out `extern "C"`: a function for C is called by Rust here."""
        if items[after(items, at + 1)] != '"C"':
            raise Unknown(f"{self.file}: extern")
        self.is_for_c = True
        return after(items, after(items, at + 1) + 1)

    def on_unsafe(self, items, at, out):
        """Leaves out `unsafe` where Rust has a safe call, or an `impl` that rustc finds."""
        following = after(items, at + 1)
        if items[following] == "impl":
            return following
        call = re.fullmatch(r"\{\s*(ManuallyDrop::new_unchecked\(\w+\))\s*\}", shown(items[following]))
        if not call:
            raise Unknown(f"{self.file}: unsafe {shown(items[following])[:60]}")
        name = re.search(r"\((\w+)\)", call[1])[1]
        out.append(token(f"ManuallyDrop::new({name})"))
        return following + 1

    def on_impl(self, items, at, out):
        if isinstance(last(out), Token) and last(out) in (":", ",", "&", "->", "="):
            return None
        body = at
        while not is_tree(items, body, "{"):
            body += 1
        head = [str(it) for it in items[at + 1 : body] if isinstance(it, Token) and it.kind == "name"]
        traits = head[: head.index("for")] if "for" in head else []
        if "Model" in traits:
            if any(not is_blank(it) for it in self.erased(items[body])):
                raise Unknown(f"{self.file}: an impl Model with code")
        elif {"Send", "Sync"} & set(traits[-1:]):
            if items[body]:
                raise Unknown(f"{self.file}: an impl {traits[-1]} with members")
        elif traits[-1:] == ["Drop"]:
            if "drop(&mut self)" in shown(items[body]):
                return None
            inside = re.fullmatch(r"\{\s*fn drop\(self\) \{(.*)\}\s*\}", shown(items[body]), re.S)
            if not inside:
                raise Unknown(f"{self.file}: an impl Drop of another form")
            self.drops.append(LeftOut(self.file, head[head.index("for") + 1], inside[1]))
        else:
            return None
        strip_head(out)
        return body + 1

    def on_struct(self, items, at, out):
        """Marks a type whose values cannot be dropped in Rattle."""
        derived, self.derived = self.derived, []
        name = after(items, at + 1)
        body = name
        while body < len(items) and not isinstance(items[body], Tree) and items[body] != ";":
            body += 1
        if is_tree(items, body, "{") and not {"Drop", "Copy"} & set(derived) and items[name] not in self.droppable:
            out.insert(beginning(out), token(MUST_USE, "doc"))
        return None

    on_enum = on_struct

    def on_if(self, items, at, out):
        """Nests an `if let` with `&&`, which has no `else`. The guard of a match arm is no such `if`."""
        body = next((n for n in range(at, len(items)) if is_tree(items, n, "{")), len(items))
        head = items[at + 1 : body]
        if "=>" in shown(head):
            return None
        both = next((n for n in range(len(head) - 1) if shown(head[n : n + 2]) == "&&"), None)
        if both is None or not any(it == "let" for it in head):
            return None
        rest = after(items, body + 1)
        if any(it == "let" for it in head[both:]) or rest < len(items) and items[rest] == "else":
            raise Unknown(f"{self.file}: an `if let` with `&&` and more")
        outer, inner = shown(head[:both]).strip(), shown(head[both + 2 :]).strip()
        out += [token(f"if {outer} "), tree([token(f" if {inner} "), self.erased(items[body]), token(" ")], "{")]
        return body + 1

    def on_fn(self, items, at, out):
        """Writes a function without its clauses, which its documentation keeps if it is public."""
        name = after(items, at + 1)
        if not isinstance(items[name], Token):
            return None
        given = parameters_at(items, name + 1)
        clauses, head, end = self.head_of(items, given + 1)
        is_for_c, self.is_for_c = self.is_for_c, False
        start = beginning(out)
        if clauses and out[start:] and out[start] == "pub" and not is_tree(out, start + 1, "("):
            indent = shown(out[start - 1]).rpartition("\n")[2] if start else ""
            lines = ["", "# Clauses of the proved source", "", *map(clause_line, clauses)]
            text = "".join(f"///{' ' + line if line else ''}\n{indent}" for line in lines)
            out.insert(start, token(text, "doc"))
        taken = self.erased(items[given])
        body = self.erased(items[end]) if is_tree(items, end, "{") else None
        if is_for_c and shown(taken[after(taken, 0) :]).startswith("alloc: Global"):
            comma = until(taken, 0, ",")
            taken = tree(taken[after(taken, comma + 1) if comma < len(taken) else comma :], "(")
            body.insert(0, token("\n    let alloc = Global;"))
        if is_for_c:
            self.exports.append(exported(self.crate, self.homes, str(items[name]), taken, shown(head)))
        out += [items[at], *self.erased(items[at + 1 : given]), taken, *self.erased(head)]
        if body is None:
            return end
        without_space(out)
        out += [token(" ", "space"), body]
        return end + 1

    def head_of(self, items, at):
        """Returns the clauses of a function, its other tokens, and the place of its body or of the `;`."""
        clauses, head = [], []
        while at < len(items) and items[at] != ";" and not is_tree(items, at, "{"):
            if items[at] not in ("requires", "ensures"):
                head += [items[at]] if not clauses or not is_blank(items[at]) else []
                at += 1
                continue
            start, at = at, after(items, at + 1)
            while isinstance(items[at], Token):
                at = after(items, at + 1)
            if not is_tree(items, at, "{"):
                raise Unknown(f"{self.file}: the clause {shown(items[start:at + 1])[:60]}")
            clauses.append(" ".join(shown(items[start : at + 1]).split()))
            at += 1
        without_space(head)
        return clauses, head, at

    def on_requires(self, items, at, _out):
        raise Unknown(f"{self.file}: a clause of no function: {shown(items[at:at + 8])[:60]}")

    on_ensures = on_requires

    def on_mod(self, items, at, out):
        """Shows a module of a crate to the package. Leaves out one that is not used."""
        name = after(items, at + 1)
        if not self.file.endswith("/lib") or items[name + 1] != ";":
            raise Unknown(f"{self.file}: the module {items[name]}")
        if f"{self.crate}/{items[name]}" in self.unused:
            strip_head(out)
            return name + 2
        self.gate(items[name], out)
        out += [items[at]] if last(out) == "pub" else [token("pub(crate) "), items[at]]
        return at + 1

    def on_use(self, items, at, out):
        """Leaves out what has no meaning here: models, and texts of errors. Leaves out names of modules that are not
        used."""
        end, first = until(items, at, ";"), items[after(items, at + 1)]
        if first == "thiserror" or f"{self.crate}/{first}" in self.unused and self.file.endswith("/lib"):
            strip_head(out)
            return end + 1
        self.gate(first, out)
        if not re.search(r"\bModel\b", shown(items[at:end])):
            return None
        text = re.sub(r"\bModel\b(?:, )?", "", shown(items[at:end]))
        if text.endswith("::"):
            strip_head(out)
            return end + 1
        items[at:end] = parsed(re.sub(r"\{(\w+)\}", r"\1", text))
        out.append(items[at])
        return at + 1

    def gate(self, module, out):
        """Writes the condition of a module before its declaration, or before an import from it."""
        condition = self.gated.get(f"{self.crate}/{module}")
        if condition and self.file.endswith("/lib"):
            out.insert(beginning(out), token(f"#[cfg({condition})]\n", "doc"))

    def on_path(self, items, at, out):
        """Gives the first name of a path its name here."""
        name, sign = items[at], after(items, at + 1)
        if name.kind != "name" or sign >= len(items) or items[sign] != "::" or last(out) == "::":
            return None
        if name == "crate":
            out.append(token(f"{SOURCE}::{self.crate}"))
        elif name in self.crates:
            out.append(token(f"{SOURCE}::{name}"))
        elif name in KIT_CRATES:
            out.append(token(f"{KIT}::{name}"))
        elif name == "std":
            path = re.match(r"[\w:]*", shown(items[sign + 1 :]))[0].strip(":") + "::"
            out.append(token(KIT if path.startswith(tuple(f"{it}::" for it in KIT_STD)) else "core"))
            if out[-1] == "core" and not path.startswith(tuple(f"{it}::" for it in CORE)):
                raise Unknown(f"{self.file}: the path std::{path}")
        else:
            return None
        return at + 1


def parameters_at(items, at):
    """Returns the place of the parameters of a function, after its generic ones."""
    depth = 0
    while not (depth == 0 and is_tree(items, at, "(")):
        depth += {"<": 1, ">": -1}.get(shown(items[at]), 0)
        at += 1
    return at


def beginning(out):
    """Returns the place in the output of the visibility of the item that follows, or the end."""
    at, start = len(out), len(out)
    while at and (is_blank(out[at - 1]) and out[at - 1].kind == "space" or out[at - 1] in ("pub", "const", "unsafe")
                  or is_tree(out, at - 1, "(") and shown(out[at - 1]) == "(crate)"):
        at -= 1
        start = start if is_blank(out[at]) else at
    return start


def clause_line(clause):
    """Returns a clause as an item of a list."""
    head, _, inside = clause.partition("{")
    return f"- {head.strip()}: `{inside[:-1].strip()}`"
