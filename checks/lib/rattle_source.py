"""The one reader of Rattle sources: what is a comment, which items a file has, who owns them, and what they promise.

Positions are those of the file's own text. The tests of this reader are rows of `edits_judge`.
"""
import re

LETTER = r"""'(?:\\x[0-9a-fA-F]{2}|\\u\{[^}]*\}|\\.|[^\\'\n])'"""
LITERAL = re.compile(r"""//[^\n]*|/\*.*?\*/|"(?:\\.|[^"\\])*"|""" + LETTER, re.S)
COMMENT_OF_ANTT = re.compile(r"\{-.*?-\}|(?:^|(?<=\s))--+(?=\s|$)[^\n]*", re.S | re.M)
ITEM = re.compile(
    r"\bghost\s+use\b[^;]*;"
    r"|\bghost\s+(?P<ghost>\w+)\s*[:=]\s*(?=\{)"
    r"|(?P<pub>\bpub(?:\([^)]*\))?\s+)?(?:(?:const|unsafe|extern(?:\s+\S+)?)\s+)*"
    r"\b(?P<kind>fn|impl|trait|struct|enum|mod|type|use)\b(?P<rest>\s*(?P<name>\w+)?)"
)
CLAUSE = re.compile(r"\b(?:requires|ensures)\*?\s*(?:\w+\s*)?\{|[{;(\[]")
TYPES = ("struct", "enum", "trait", "type")


def spaces(match):
    """Returns as many spaces as a match has characters, with its line ends."""
    return re.sub(r"[^\n]", " ", match[0])


def blanked(text):
    """Returns the text with comments, strings and characters as spaces, each line and column kept."""
    return LITERAL.sub(spaces, text)


def uncommented(text, is_antt=False):
    """Returns the text with comments as spaces, each line and column kept."""
    if is_antt:
        return COMMENT_OF_ANTT.sub(spaces, text)
    return LITERAL.sub(lambda found: spaces(found) if found[0].startswith("/") else found[0], text)


def closing(text, start):
    """Returns the place of the bracket that closes the one at `start`."""
    depth, opens = 0, text[start]
    closes = {"{": "}", "(": ")", "[": "]"}[opens]
    for found in re.compile(f"[{re.escape(opens + closes)}]").finditer(text, start):
        depth += 1 if found[0] == opens else -1
        if not depth:
            return found.start()
    return len(text)


class Item:
    """An item of a file, from `start` to `end`: a function, an `impl`, a type, a module, an import, or a ghost item."""

    def __init__(self, kind, name, file, start, module=(), around=None):
        self.kind, self.name, self.file, self.start = kind, name, file, start
        self.module, self.around = list(module), around
        self.visibility, self.head, self.text, self.inside, self.end = "", "", "", None, None
        # Where its body begins, or the `;` that ends it.
        self.until = start
        self.clauses, self.items = [], []

    @property
    def is_public(self):
        return self.visibility == "pub"

    @property
    def block(self):
        """Returns the `impl` or the trait in which it stands, or None."""
        around = self.around
        while around and around.kind not in ("impl", "trait"):
            around = around.around
        return around

    @property
    def owner(self):
        """Returns how a check calls the owner of a method."""
        return owner_of(self.block.head) if self.block else None

    @property
    def is_of_trait(self):
        return bool(self.block) and is_of_trait(self.block.head)

    def key(self):
        return self.file, self.name, self.owner

    def beginning(self, text, marks=("#",)):
        """Returns where it begins with the lines above it that begin with one of these marks."""
        start = text.rfind("\n", 0, self.start) + 1
        while start and text[text.rfind("\n", 0, start - 1) + 1 : start].lstrip().startswith(marks):
            start = text.rfind("\n", 0, start - 1) + 1
        return start


def is_of_trait(head):
    """Answers whether this is a trait, or an `impl` of one for a type."""
    return head.startswith("trait") or bool(re.search(r"\bfor\b", re.split(r"\bwhere\b", head)[0]))


def without_parameters(rest):
    """Returns the head of an `impl` after its parameters, and their names."""
    depth = 0
    for at, letter in enumerate(rest if rest.lstrip().startswith("<") else ""):
        depth += {"<": 1, ">": -(rest[at - 1] not in "-=")}.get(letter, 0)
        if not depth and letter == ">":
            return rest[at + 1 :], re.findall(r"\w+", rest[:at])
    return rest, []


def owner_of(head):
    """Returns how a check calls the owner of a method: a type or a trait by its name, an `impl` of a trait by the type,
    the trait and the trait's own arguments, as LanesRowSinkJob for `impl RowSink<Job> for Lanes`."""
    if head.startswith("trait"):
        return re.match(r"trait\s+(\w+)", head)[1]
    rest, parameters = without_parameters(head[len("impl") :])
    parts = [part.strip(" \n&") for part in re.split(r"\bfor\b", re.split(r"\bwhere\b", rest)[0])]
    if len(parts) == 1:
        return last_name(parts[0])
    given = re.search(r"<(.*)>", parts[0], re.S)
    arguments = [last_name(it) for it in given[1].split(",") if re.search(r"\w", it)] if given else []
    return last_name(parts[-1]) + last_name(parts[0]) + "".join(it for it in arguments if it not in parameters)


def last_name(path):
    return re.findall(r"\w+", re.sub(r"<.*", "", path.strip(" \n&"), flags=re.S))[-1]


def module_of(file):
    return [it for it in file[len("src/") : -len(".rt")].split("/") if it not in ("lib", "main", "mod")]


def read_end(clean, item, at):
    """Reads an item from the place after its name on: its clauses, its inside and its end."""
    head_end = None
    while part := CLAUSE.search(clean, at):
        at, item.until = part.end(), part.start()
        head_end = part.start() if head_end is None and part[0] not in "([" else head_end
        if part[0] == ";":
            item.end = None if item.kind == "fn" else at
            break
        close = closing(clean, at - 1)
        if part[0] in "([":
            at = close + 1
        elif part[0] == "{" or item.kind != "fn":
            item.inside, item.text, item.end = (at, close), clean[at:close], close + 1
            at = close + 1
            break
        else:
            item.clauses.append(clean[at:close])
            at = close + 1
    item.head = clean[item.start : len(clean) if head_end is None else head_end]
    return at


def read_items(clean, file, module, around=None, at=0, end=None):
    """Returns the items of a blanked text from `at` to `end`."""
    found, end = [], len(clean) if end is None else end
    while match := ITEM.search(clean, at, end):
        kind = match["kind"] or ("ghost" if match["ghost"] else "ghost use")
        start = match.start("kind") if match["kind"] else match.start()
        item = Item(kind, match["ghost"] or match["name"], file, start, module, around)
        at = match.end()
        if kind == "fn" and not match["name"]:
            continue  # a type, as fn(u8)
        item.visibility = (match["pub"] or "").strip()
        if kind == "use" or kind == "ghost use":
            at = item.end = clean.find(";", start) + 1 or len(clean)
            item.head = clean[start : at - 1]
        else:
            head = "name" if kind == "fn" else "kind"
            at = read_end(clean, item, match.end(head) if match["kind"] else at)
        if item.inside and kind != "ghost":
            inner = [*module, item.name] if kind == "mod" else module
            item.items = read_items(clean, file, inner, item, *item.inside)
        found.append(item)
    return found


def items_in(file, text):
    return read_items(blanked(text), file, module_of(file))


def all_items(items):
    """Yields these items, each before those inside it."""
    for item in items:
        yield item
        yield from all_items(item.items)


def functions_in(file, text):
    """Returns each function of a file of src/ that has a body, an inner one after the one around it."""
    return [item for item in all_items(items_in(file, text)) if item.kind == "fn" and item.end]


def passed_on(items):
    """Yields the path and the names of each `pub use` among these items. A name that is given anew is the new one."""
    for item in items:
        if item.kind == "use" and item.is_public:
            path = item.head[len("use") :].strip()
            first, _, inside = path.partition("{") if "{" in path else path.rpartition("::")
            yield first, [it.split()[-1] for it in inside.rstrip("} \n").split(",") if it.split()]
