"""Mutants of a crate: small changes of its text, copies of functions that hold one, and batches that share a check."""
import copy
import os
import re

from checks.lib.rattle_source import functions_in
from checks.lib.repository import MUTANTS, PARTS, files_below, path, read


def path_of(function, crate=None):
    """Returns a function's name, or the end of a method's, since the module of its type is not known here."""
    inside = [crate.name, *function.module] if crate and not crate.is_program else function.module
    return "::".join([*([function.owner] if function.owner else inside), function.name])


def names_for(function, crate, names):
    """Returns the names that the check may have for a function. A method is named after the module of its type, which
    may be another one than that of its `impl`."""
    ours = [it for it in names if it.startswith(f"{crate}::") and it.rpartition("::")[2] == function.name]
    inside = "::".join([crate, *function.module]) + "::"
    if not function.owner:
        return [it for it in ours if it == inside + function.name]
    own = [it for it in ours if it.split("::")[-2] == function.owner]
    return [it for it in own if it.startswith(inside)] or own or [it for it in ours if it.startswith(inside)]


def texts_of(folder):
    return {os.path.relpath(file, folder): read(file) for part in PARTS for file in files_below(f"{folder}/{part}")}


class Edit:
    """A mutant: its pairs of texts, and the functions that hold them. One of specs/ alone is held by none, and may name
    those that are to be proved over it. Nor is a wrong event, which is in definition and code alike: it names the law
    that refuses it, the lemmas by which, and the code that meets the definition again."""

    def __init__(self, file, texts):
        self.name, self.text = os.path.basename(file)[: -len(".edit")], read(file)
        self.pairs, self.why, self.functions, self.source, self.only = [], None, [], self, []
        said = {"file": "", "law": "", "code": "", "refused by": ""}
        # A text of several lines has the further ones after `   |`.
        for word, rest in re.findall(rf"^(old|new|only|{'|'.join(said)}):(?: |$)(.*(?:\n   \|.*)*)", self.text, re.M):
            rest = rest.replace("\n   |", "\n")
            if word == "new":
                self.pairs.append((said["file"].strip(), said.pop("old", ""), rest))
            elif word == "only":
                self.only.append(rest.strip())
            else:
                said[word] = rest
        self.law, self.code, self.lemmas = (said[word].split() for word in ("law", "code", "refused by"))
        self.only += [*self.law, *self.code]
        if not self.pairs or not all(named and old for named, old, _ in self.pairs):
            self.why = "it is no list of lines 'file:', 'old:' and 'new:'"
        else:
            self.place(texts)

    def place(self, texts):
        """Finds the functions that hold it, or why it cannot be applied."""
        for file, old, new in self.pairs:
            count = texts.get(file, "").count(old)
            if count != 1:
                self.why = f"an old: text stands in {file} {count} times, and not once"
                return
            at = texts[file].index(old)
            functions = functions_in(file, texts[file]) if file.startswith("src/") else []
            held = [it for it in functions if it.start <= at < it.end]
            self.functions += [it for it in held[-1:] if it.key() not in [other.key() for other in self.functions]]
            texts = {**texts, file: texts[file].replace(old, new)}
        if not self.functions and any(file.startswith("src/") for file, _, _ in self.pairs):
            self.why = "no function holds it"
        self.functions = [] if self.law else self.functions

    def apply(self, texts):
        """Returns the texts with the mutant, or None where an old: text does not stand once."""
        for file, old, new in self.pairs:
            if texts.get(file, "").count(old) != 1:
                return None
            texts = {**texts, file: texts[file].replace(old, new)}
        return texts


def proof_folders_of(function, texts):
    """Returns the folders of proof files that may be this function's. Of a method the module of its type counts."""
    own = "/".join([*function.module, *([function.owner] if function.owner else []), function.name])
    ends = f"/{function.owner}/{function.name}" if function.owner else None
    found = {os.path.dirname(it) for it in texts if it.startswith("proofs/")}
    return [it for it in sorted(found) if it == f"proofs/{own}" or ends and it.endswith(ends)]


def calls_itself(function, texts):
    """Returns whether a function calls itself, by the folder of its proof files. A copy calls the function, and so has
    other goals."""
    folder = "/".join(["proofs", *function.module, *([function.owner] if function.owner else []), f"+{function.name}"])
    return any(os.path.dirname(it) == folder for it in texts)


def copied_proofs(folder, name, crate, texts):
    """Returns the proof files of a folder for a copy of their function that has this name."""
    there = f"{os.path.dirname(folder)}/{name}"
    module, module_there = (f"Rattle.{crate}." + it.replace("/", ".") for it in (folder, there))
    files = [it for it in texts if os.path.dirname(it) == folder]
    return {there + it[len(folder) :]: texts[it].replace(f"{module}.", f"{module_there}.") for it in files}


def as_a_copy(edit, number, crate, texts):
    """Returns the mutant in a copy of its function, and the copy's text and proof files. None where it is not the
    mutant of one function alone, or where that function cannot stand there twice."""
    function = edit.functions[0] if len(edit.functions) == 1 else None
    if not function or function.is_of_trait or any(file != function.file for file, _, _ in edit.pairs):
        return None
    text = texts[function.file]
    item = text[function.beginning(text) : function.end]
    folders = proof_folders_of(function, texts)
    if "#[cycle" in item or len(folders) > 1 or calls_itself(function, texts):
        return None
    for _, old, new in edit.pairs:
        if item.count(old) != 1:
            return None
        item = item.replace(old, new)
    twin, copied = copy.copy(function), copy.copy(edit)
    twin.name = f"{function.name}_copy{number}"
    copied.source, copied.functions = edit, [twin]
    item = re.sub(rf"\bfn {function.name}\b", f"fn {twin.name}", item, count=1)
    return copied, item, copied_proofs(folders[0], twin.name, crate, texts) if folders else {}


class Batch:
    """Mutants that share a check: no function twice but as copies, and each old: text once in what the others leave."""

    def __init__(self, texts, edits=()):
        self.texts, self.edits = texts, []
        for edit in edits:
            self.takes(edit)

    def takes(self, edit):
        held = {it.key() for other in self.edits for it in other.functions}
        own = {it.key() for it in edit.functions}
        is_apart = own and all(it.functions for it in self.edits) and not held & own
        changed = edit.apply(self.texts) if is_apart or not self.edits else None
        if changed is None:
            return False
        self.texts, self.edits = changed, [*self.edits, edit]
        return True

    def takes_a_copy(self, edit, crate, texts):
        """Takes the mutant in a copy of its function, after the function. The texts are those without mutants."""
        copied = as_a_copy(edit, len(self.edits), crate, texts) if all(it.functions for it in self.edits) else None
        if not copied:
            return False
        edit, item, proofs = copied
        function = edit.source.functions[0]
        text = self.texts[function.file]
        end = next(it.end for it in functions_in(function.file, text) if it.key() == function.key())
        self.texts = {**self.texts, **proofs, function.file: f"{text[:end]}\n\n{item}{text[end:]}"}
        self.edits = [*self.edits, edit]
        return True


def edits_of(crate, texts, folder=None):
    return [Edit(file, texts) for file in files_below(f"{folder or path(MUTANTS)}/{crate}", ".edit")]


def batches_of(edits, crate, texts):
    """Returns the mutants in few checks: first those that no copy can hold, then each in its place, and then copies."""
    batches, left = [], []
    bound = [it for it in edits if not as_a_copy(it, 0, crate, texts)]
    for edit in [*bound, *(it for it in edits if it not in bound)]:
        if any(it.takes(edit) for it in batches):
            continue
        if batches and edit not in bound:
            left.append(edit)
        else:
            batches.append(Batch(texts, [edit]))
    for edit in left:
        fewest = sorted(batches, key=lambda it: len(it.edits))
        if not any(it.takes_a_copy(edit, crate, texts) for it in fewest):
            batches.append(Batch(texts, [edit]))
    return batches
