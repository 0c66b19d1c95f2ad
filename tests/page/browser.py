"""Opens view/index.html in a Chromium and uses it as a person does, for `checks/run page`.

It reads elements and never pixels: what is shown at several events of each schedule, the cards, a click on the strip, a
drag over a timeline, keys, the panel, widths of 1,280 and 360 px in both themes, print, and how long a large file
takes.
"""
import json
import os
import tempfile
import time
import urllib.parse

from checks.lib.browser import opened
from checks.lib.page_scripts import PAGE, in_page
from checks.lib.repository import path, read
from checks.lib.rows import put

# The longest times for a million rows: to load them, and for one step, in milliseconds.
MOST_LOAD, MOST_STEP = 4000, 60
# How long a download may take.
MOST_SECONDS = 20
# A shared machine is slower: the check allows this many times the longest times.
SLACK = 2

SIZES = [(width, theme) for width in (1280, 360) for theme in ("light", "dark")]
TEXTS = ("count", "now", "row", "words", "holders", "end", "warning")


def span_of(number):
    """Returns what the page says of a block of examples/events.csv: the job, its processors and the rows."""
    rows = [line.split(",") for line in read("examples", "events.csv").splitlines()]
    at = [at for at, row in enumerate(rows) if row[0] == "take"][number]
    _, name, dim, base, _ = rows[at]
    end = next(end for end, row in enumerate(rows) if row[:2] == ["free", name])
    lane, job = name[1:].split("s")
    return f"job {job} of lane {lane}, processors {base} to {int(base) + 2 ** int(dim) - 1}: rows {at} to {end}."


class Visit:
    """A visit to the page. It collects what is not as it should be."""

    def __init__(self, page):
        self.page, self.failed = page, []

    def expect(self, holds, what):
        if not holds:
            self.failed.append(f"in the browser: {what}")

    def open(self, words="", rows=""):
        self.page.open(f"file://{path(PAGE)}?{words}" + (f"#csv={urllib.parse.quote(rows)}" if rows else ""))

    def text(self, name):
        return self.page.script(f"document.getElementById('{name}').textContent")

    def count(self, selector):
        return self.page.script(f"document.querySelectorAll({json.dumps(selector)}).length")

    def is_same(self, got, wanted, what):
        self.expect(got == wanted, f"{what}: {got!r} and not {wanted!r}")

    def schedules(self, schedules):
        body = """return asked.map(([text, n, events]) => { load(text); setDim(n); return events.map((event) => { show(event);
            return TEXTS_SHOWN.map((id) => by(id).textContent); }); });""".replace("TEXTS_SHOWN", json.dumps(TEXTS))
        events = [(0, 1, one.event or 2, len(one.rows)) for one in schedules]
        wanted = in_page(body, [(one.text, one.n, its) for one, its in zip(schedules, events)])
        for one, its, all_shown in zip(schedules, events, wanted):
            for event, shown in zip(its, all_shown):
                self.open(f"event={event}&n={one.n}", one.text)
                for name, text in zip(TEXTS, shown):
                    self.is_same(self.text(name).strip(), text.strip(), f"{one.name}, event {event}, {name}")
                self.is_same(self.count("#scroll > svg"), 1, f"{one.name}, event {event}, drawings")

    def cards(self, cards):
        self.open()
        self.is_same(self.count("#examples button > svg"), cards, "cards with a picture")
        self.page.click("[data-example='2']")
        self.is_same(self.text("name"), "A release that is overtaken", "the name of what a card opens")
        self.expect(self.text("count").startswith("Event 30 of"), "a card opens at its event")
        self.is_same(self.page.script("getComputedStyle(by('examples')).display"), "none", "the cards beside a drawing")
        self.is_same(self.text("least"), "at least 2 by its rows, which do not say it", "what is said of the dimension")
        self.open("example=8")
        rest = "46 stations at rest: 0 to 31, 33 to 46"
        self.expect(self.text("holding").endswith(rest), f"the stations at rest: {self.text('holding')}")

    def sizes(self, cards):
        for width, theme in SIZES:
            self.page.size(width, theme=theme)
            for words in ("", *(f"example={index}" for index in range(cards)), "panel=4"):
                self.open(words)
                wide = self.page.script("document.documentElement.scrollWidth")
                self.expect(wide <= width, f"?{words} at {width} px, {theme}, is {wide} px wide")
                back = self.page.script("getComputedStyle(document.body).backgroundColor")
                self.is_same(back, "rgb(255, 255, 255)" if theme == "light" else "rgb(20, 23, 27)", f"paper, {theme}")
        self.page.size(1280)

    def files(self, one):
        """Gives the page a file by its field, by a drop and by a paste, and one that it does not know."""
        text = one.text
        with tempfile.TemporaryDirectory() as folder:
            known, unknown = os.path.join(folder, "known.csv"), os.path.join(folder, "unknown.csv")
            put(known, text)
            put(unknown, "a,b\n1,2\n")
            rows = len(one.rows)
            ways = {"chosen": lambda file: self.page.choose("#file", file),
                    "dropped": lambda file: self.page.drop("#drop", {"files": [file]})}
            for way, give in ways.items():
                self.open()
                give(known)
                self.page.wait("file")
                self.is_same((self.page.script("file.rows.length"), self.text("name")), (rows, "known.csv"),
                             f"a file that was {way}")
                give(unknown)
                self.page.wait("!file")
                self.expect(self.text("error").startswith("Not drawn. "),
                            f"an unknown file that was {way}: {self.text('error')!r}")
        paste = f"""(() => {{ const data = new DataTransfer(); data.setData("text", {json.dumps(text)});
            document.body.dispatchEvent(new ClipboardEvent("paste", {{ clipboardData: data, bubbles: true }})); }})()"""
        self.open()
        self.page.script(paste)
        self.is_same((self.page.script("file?.rows.length"), self.text("name")), (rows, "what was pasted"),
                     "a text that was pasted")

    def plays(self):
        """Plays to the end of a file, where it stops by itself, and stops in the middle."""
        self.open("example=2&event=0")
        self.page.script("by('pace').value = '20'")
        self.page.click("#play")
        self.page.wait("at > 3")
        self.is_same(self.text("play"), "stop", "the button while it plays")
        self.page.click("#play")
        self.page.wait("by('play').textContent === 'play'")
        self.page.script("show(file.rows.length - 2), play(true)")
        self.page.wait("by('play').textContent === 'play'")
        self.is_same(self.page.script("at - file.rows.length"), 0, "the row at which it stops")

    def saves(self):
        """Saves a frame, which is the drawing of the page in light colours."""
        with tempfile.TemporaryDirectory() as folder:
            self.page.call("Browser.setDownloadBehavior", behavior="allow", downloadPath=folder)
            self.open("example=2&event=7")
            wanted = self.page.script("draw(LIGHT, drawingWidth())")
            self.page.click("#save")
            saved = os.path.join(folder, "replay-7.svg")
            end = time.monotonic() + MOST_SECONDS
            while not os.path.exists(saved) and time.monotonic() < end:
                time.sleep(0.05)
            got = read(saved) if os.path.exists(saved) else None
            self.expect(got == wanted and wanted.startswith("<svg"),
                        f"what is saved: {str(got)[:80]!r}, of {os.listdir(folder)}")

    def strip(self):
        self.open("example=2&event=0")
        rows = int(self.page.script("by('at').max"))
        self.page.click("#overview")
        self.expect(abs(self.page.script("at") - rows / 2) <= 1,
                    f"a click in the middle of the strip goes to {self.text('count')}")

    def keys(self):
        self.open("example=2&event=5")
        for key, row in (("ArrowRight", 6), ("ArrowLeft", 5), ("Home", 0), ("ArrowRight", 1)):
            self.page.script("document.activeElement.blur()")
            self.page.key(key)
            self.is_same(self.page.script("at"), row, f"the row after {key}")
        self.page.script("document.querySelector('#near [data-row=\"4\"]').focus()")
        self.page.script("document.activeElement.click()")
        focus = self.page.script("document.activeElement.dataset.row")
        self.is_same(focus, "4", "the row that has the focus after it was chosen")

    def timeline(self):
        self.open("example=0")
        blocks = self.count("#scroll [data-span]")
        self.page.point("#scroll [data-span='3']")
        self.is_same(self.text("pointed"), span_of(3), "under the pointer")
        x, y = self.page.middle("#scroll")
        self.page.drag((x - 100, y), (x + 100, y))
        shown = self.page.script("zoomed?.length")
        wanted = 200 / self.page.script("(drawingWidth() - 58) / 48")
        self.expect(shown is not None and abs(shown - wanted) < 2,
                    f"a drag of 200 px shows {shown} rows and not {wanted:.1f}")
        self.expect(self.count("#scroll [data-span]") < blocks, "a drag shows fewer blocks")
        for _ in range(4):
            self.page.click("#zoomout")
        self.is_same(self.count("#scroll [data-span]"), blocks, "blocks after zooming out")

    def panel(self):
        self.open()
        self.page.click("#openpanel")
        self.page.wait("!by('try').hidden")
        for k in (1, 0, 4):
            self.page.click(f"[data-take='{k}']")
        rows = "file.rows.map((row) => row.line)"
        self.is_same(self.page.script(rows), ["take,a,1,0,given", "take,b,0,2,given", "take,c,4,-,nosubcube"],
                     "the panel's rows")
        self.page.click("#scroll [data-span='0']")
        self.page.click("[data-release='b']")
        self.is_same(self.page.script(rows)[3:], ["free,a,1,0,freed", "free,b,0,2,freed"], "the panel's releases")
        self.is_same(self.text("holders"), "No processor is held.", "after the panel's releases")

    def no_memories(self):
        self.open()
        self.page.script("WebAssembly.instantiate = () => Promise.reject(new Error()); openPanel()")
        self.expect("has no 64-bit memories" in self.text("error"), "a browser without 64-bit memories")

    def print(self):
        self.page.size(1280, theme="dark")
        self.open("example=2")
        self.page.script("onbeforeprint()")
        self.page.media("print", "dark")
        paper = self.page.script("getComputedStyle(document.body).getPropertyValue('--paper').trim()")
        self.is_same(paper, "#fff", "the paper in print")
        fill = self.page.script("document.querySelector('#scroll svg > rect').getAttribute('fill')")
        self.is_same(fill, "#ffffff", "the drawing's paper in print")
        hidden = self.page.script("['#drop', '.bar', '#overview'].map((it) => getComputedStyle(document.querySelector(it)).display)")
        self.is_same(hidden, ["none"] * 3, "the controls in print")
        self.page.size(1280)

    def speed(self):
        """Loads a million rows of each kind, made from rows that repeat, and steps at both ends."""
        round_of_replay = "0,look,1,-,free\\n0,claim,1,OLR,held\\n0,zero,1,-,done\\n"
        round_of_place = "take,l${i}s0,1,${2 * (i % 8)},given\\nfree,l${i}s0,1,${2 * (i % 8)},freed\\n"
        self.open()
        for name, text in (
            ("replay", f"'station,event,node,word,note\\n' + '{round_of_replay}'.repeat(333333)"),
            ("run",
             f"'command,name,dim,base,outcome\\n' + Array.from({{ length: 500000 }}, (_, i) => `{round_of_place}`).join('')"),
        ):
            took = self.page.script(f"""(() => {{ const text = {text}; const time = (act) => {{ const start = performance.now();
                act(); document.body.offsetHeight; return performance.now() - start; }};
                const took = [time(() => load(text))]; show(file.rows.length); const end = at;
                for (const row of [end - 1, end - 2, end >> 1, (end >> 1) + 1, 7, 8]) took.push(time(() => show(row))); return took; }})()""")
            for limit, time, what in [(MOST_LOAD, took[0], "loads"), *((MOST_STEP, one, "steps") for one in took[1:])]:
                self.expect(time <= SLACK * limit, f"a million rows of {name}: {what} in {time:.0f} ms")
            print(f"page: a million rows of {name} load in {took[0]:.0f} ms, the slowest step takes {max(took[1:]):.0f} ms")


def faults(browser, schedules, cards):
    """Returns what is wrong with the page in this browser."""
    with opened(browser) as page:
        page.size(1280)
        visit = Visit(page)
        visit.schedules(schedules)
        visit.cards(cards)
        visit.files(schedules[0])
        visit.plays()
        visit.saves()
        visit.strip()
        visit.keys()
        visit.timeline()
        visit.panel()
        visit.no_memories()
        visit.print()
        visit.sizes(cards)
        visit.speed()
        return [*visit.failed, *(f"the browser reports {fault}" for fault in page.faults)]
