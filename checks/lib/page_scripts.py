"""Runs the scripts of view/index.html under node, over a small stand-in for a document."""
import json
import re
import tempfile

from checks.lib.repository import read, write
from checks.lib.rows import output

PAGE = "view/index.html"

# The stand-in. A text of the page itself, as an example's rows, is found in TEXTS.
STAND_IN = """
const elements = new Map();
function newElement(id) {
  const names = new Set();
  return {
    textContent: TEXTS[id] ?? "", innerHTML: "", value: "", hidden: false, dataset: {}, style: {},
    clientWidth: 1000, scrollWidth: 0, scrollLeft: 0,
    classList: { add: (name) => names.add(name), remove: (name) => names.delete(name) },
    setAttribute() {}, focus() {}, click() {},
  };
}
const root = newElement();
globalThis.document = {
  documentElement: root, body: newElement(),
  getElementById: (id) => elements.get(id) ?? elements.set(id, newElement(id)).get(id),
  createElement: newElement,
};
globalThis.location = { search: "", hash: "" };
globalThis.matchMedia = () => ({ matches: false });
globalThis.onresize = null;
document.getElementById("pace").value = "2";
document.getElementById("zoom").value = "1";
"""
WAITS = """(async () => {{
  const answer = await (async () => {{ {} }})();
  process.stdout.write(JSON.stringify(answer));
}})();"""


def block(name):
    """Returns the text of a block of the page."""
    return re.search(rf'<script[^>]* id="{name}">(.*?)</script>', read(PAGE), re.S)[1]


def set_block(name, text):
    """Gives a block of the page this text."""
    before, after = re.split(rf'(?<=id="{name}">).*?(?=</script>)', read(PAGE), maxsplit=1, flags=re.S)
    write(PAGE, before + text + after)


def in_page(body, asked=None, flags=(), **how):
    """Returns the answer of a function body in JavaScript, which has the page's names, and what is asked as `asked`."""
    scripts = re.findall(r'<script id="\w+">(.*?)</script>', read(PAGE), re.S)
    texts = {name: block(name) for name in ("tales", "library")}
    parts = [f"const TEXTS = {json.dumps(texts)};", STAND_IN, *(it.replace('"use strict";', "") for it in scripts)]
    parts += ['const asked = JSON.parse(require("fs").readFileSync(0, "utf8"));', WAITS.format(body)]
    with tempfile.NamedTemporaryFile("w", suffix=".js", encoding="utf-8") as script:
        script.write("\n".join(parts))
        script.flush()
        return json.loads(output(["node", *flags, script.name], json.dumps(asked), **how))
