"""Compares view/index.html with the program: `checks/run page PROGRAM`. With `--draw` it writes the pictures of docs/
and the examples in the page, with `--draw` and `--module` also the library in the page.

What the page shows after each event of a schedule is compared with a replay that is cut there: the words with its end
rows, the row, and that there is a sentence for it. What it shows after each command of `place` is compared with the
rows. Files that are no output of the program must each be refused with a reason. The rules of the tree must accept each
row of random schedules, and name each row that was altered. The proved library in the page must be the one that the
toolchain builds from crates/cubejobs_fit, and answer 10,000 calls as `place` does. The pictures of docs/ must be those
that the page draws.

The scripts of the page run under node; where there is a Chromium, the page itself is opened in it too: at several
events, by click, drag and key, at 1,280 and at 360 px. Without node the check is skipped, and without a Chromium or the
toolchain that part of it.
"""
import base64
import os
import random
import re
import shutil

from checks.built import plan_picture
from checks.lib.browser import browser_here
from checks.lib.page_scripts import PAGE, block, in_page, set_block
from checks.lib.repository import path, read, write
from checks.lib.rows import needs, output, print_faults
from checks.lib.toolchain import program, wasm_module
from tests.page import browser as page_browser
from tests.page.tables import BAD_FILES, CARDS, FORGED, SCHEDULES

PICTURES = "docs/pictures"

failed = []


def expect(holds, what):
    if not holds:
        failed.append(what)


SHOWN = """
return asked.map(({ text, event, n }) => {
  load(text);
  if (!file) return { error: by("error").textContent };
  if (n !== undefined) setDim(n);
  if (event !== undefined) { show(event); return { picture: draw(LIGHT, drawingWidth()) }; }
  const shown = [];
  for (let row = 0; row <= file.rows.length; row++) {
    show(row);
    const text = (id) => by(id).textContent;
    const names = ["count", "now", "row", "words", "holders", "end", "warning"];
    shown.push(Object.fromEntries(names.map((id) => [id, text(id)])));
  }
  return { shown, wrong, drawing: by("scroll").innerHTML, strip: by("share").innerHTML };
});
"""


def example(name):
    return read("examples", f"{name}.csv").split()


def parts(text):
    """Returns the rows of a replay, and the fields of its end rows."""
    rows = text.splitlines()[1:]
    ends = [row for row in rows if row.startswith("-,end")]
    return [row for row in rows if row not in ends], [row.split(",") for row in ends]


class Schedule:
    """A schedule with its rows, and the words that are not 0 after each of its events."""

    def __init__(self, built, name):
        self.name, self.built = name, built
        self.n, stations, self.event = SCHEDULES[name]
        self.words = f"replay --dim {self.n} --stations {stations}"
        lines = example(name)
        self.text = self.replay(lines)
        self.rows, _ = parts(self.text)
        steps = self.in_steps(lines)
        expect(self.replay(steps) == self.text, f"{name}: the same rows step by step")
        self.cuts = {}
        for length in range(1, len(steps) + 1):
            rows, ends = parts(self.replay(steps[:length]))
            self.cuts[len(rows)] = ", ".join(f"{row[2]} {row[3]}" for row in ends[:-1])

    def replay(self, lines):
        return output([self.built, *self.words.split()], "\n".join([*lines, ""]))

    def in_steps(self, lines):
        """Returns the schedule with each event by a step of its own, so that there is a cut after each."""
        steps = lines[:1]
        for line in lines[1:]:
            station, call, _ = line.split(",")
            more = len(parts(self.replay([*steps, line]))[0]) - len(parts(self.replay(steps))[0])
            steps += [f"{station},step,1"] * more if call in ("step", "run") and more else [line]
        return steps

    def compare(self, shown):
        expect(len(shown) == len(self.rows) + 1, f"{self.name}: as many events")
        for event, seen in enumerate(shown):
            at, now = f"{self.name}, event {event}", seen["now"]
            is_told = now.endswith(".") and not re.search("undefined|NaN|null", now + seen["holders"])
            expect(not event or seen["row"] == self.rows[event - 1], f"{at}: its row")
            expect(not event or is_told, f"{at}: {now}")
            expect(seen["warning"] == "", f"{at}: {seen['warning']}")
            if event in self.cuts:
                words = self.cuts[event]
                wanted = f"Words that are not 0: {words}." if words else "Each word is 0."
                expect(seen["words"] == wanted, f"{at}: {seen['words']}")
        end = shown[-1]["end"]
        expect(end == "The file's end rows agree with these words.", f"{self.name}: {end}")


def title_of(name, is_run):
    lane, _, number = name[1:].partition("s")
    return f"job {number} of lane {lane}" if is_run else name


def compare_place(what, text, seen, is_run=False):
    """Compares what the page shows of commands with the rows, and its drawing and strip with them too."""
    held, shown, rows = {}, seen["shown"], text.splitlines()[1:]
    for number, row in enumerate(rows, 1):
        _, name, dim, base, outcome = row.split(",")
        name = title_of(name, is_run)
        if outcome == "given":
            first, length = int(base), 1 << int(dim)
            many = f"processors {first} to {first + length - 1} by {name}"
            held[name] = many if length > 1 else f"processor {first} by {name}"
        elif outcome == "freed":
            del held[name]
        wanted = f"Held: {'; '.join(held.values())}." if held else "No processor is held."
        expect(shown[number]["row"] == row, f"{what}, command {number}: its row")
        expect(shown[number]["holders"] == wanted, f"{what}, command {number}: {shown[number]['holders']}")
        expect(shown[number]["warning"] == "", f"{what}, command {number}: {shown[number]['warning']}")
        expect(not is_run or name in shown[number]["now"].lower(), f"{what}, command {number}: {shown[number]['now']}")
    given = [title_of(row.split(",")[1], is_run) for row in rows if row.endswith(",given")]
    titles = re.findall(r'data-span="\d+"><title>(.*?), processor', seen["drawing"])
    expect(titles == given, f"{what}: the blocks of its drawing are {titles}")
    marks = re.search(r'd="([^"]*)"[^>]*data-part="refused"', seen["strip"])[1].count("M")
    refused = sum(not row.endswith(("given", "freed")) for row in rows)
    expect(marks == refused, f"{what}: {marks} red marks on the strip for {refused} refusals")


def random_schedule(chance, n, stations, calls):
    """Returns a schedule in which stations mix their steps, and make some calls that are refused."""
    lines = ["station,call,arg"]
    for _ in range(calls):
        station = chance.randrange(stations)
        call = chance.choices(("take", "release", "step", "run", "retire"), (3, 2, 9, 1, 0.02))[0]
        arg = {"take": chance.randrange(1, 2 << n), "step": chance.randrange(1, 4)}.get(call, "-")
        lines.append(f"{station},{call},{arg}")
    return "\n".join([*lines, ""])


def other_notes():
    """Returns the notes of each event, as the page lists them."""
    return in_page("return NOTES;")


def altered(rows, notes, chance):
    """Yields copies of a schedule's rows in each of which one row has another word or note, with its number."""
    for number, row in enumerate(rows, 1):
        station, event, node, word, note = row.split(",")
        if event == "refused":
            continue
        for other in notes[event]:
            if other != note:
                yield [*rows[: number - 1], ",".join((station, event, node, word, other)), *rows[number:]], number
        wrong = chance.choice([it for it in ("-", "O", "L", "R", "OLR", "LR", "L+3", "-+1") if it != word])
        yield [*rows[: number - 1], ",".join((station, event, node, wrong, note)), *rows[number:]], number


def check_rules(built, schedules):
    """Sees the rules accept each row of random schedules, and name the first row that was altered."""
    chance, texts, notes = random.Random(1), [one.text for one in schedules], other_notes()
    for n, stations in ((0, 1), (0, 3), (1, 4), (2, 3), (3, 8), (4, 16), (6, 30), (9, 40), (12, 48)):
        given = random_schedule(chance, n, stations, 3000)
        texts.append(output([built, "replay", "--dim", str(n), "--stations", str(stations)], given))
    wrongs = in_page("""return asked.map((text) => {
        const found = readFile(text); return [found.rows.length, firstWrong(found)]; });""", texts)
    for text, (_, wrong) in zip(texts, wrongs):
        expect(wrong is None, f"the rules refuse a right row of {text[:60]!r}: {wrong}")
    forged = [pair for one in schedules for pair in altered(one.rows, notes, chance)]
    files = ["\n".join(["station,event,node,word,note", *rows, ""]) for rows, _ in forged]
    found = in_page("return asked.map((text) => firstWrong(readFile(text))?.row ?? 0);", files)
    for (rows, number), row in zip(forged, found):
        expect(row == number, f"the altered row {number}, {rows[number - 1]}, is not named: {row}")
    seen = in_page(SHOWN, [{"text": text} for text in FORGED])
    for (text, (row, why, red)), one in zip(FORGED.items(), seen):
        warning = one["shown"][-1]["warning"]
        named = (one["wrong"] or {}).get("row")
        expect(named == row and f"Row {row}, " in warning and why in warning, f"{text!r}: {warning}")
        reds = re.findall(r'data-overlap="(\d+)"', one["drawing"])
        expect(reds == ([] if red is None else [str(red)]), f"{text!r}: in red are {reds}")
    [cut] = in_page(SHOWN, [{"text": "station,event,node,word,note\n0,look,1,-,free\n"}])
    expect({it["warning"] for it in cut["shown"]} == {"The file has no end rows: it may have been cut."},
           "a file that was cut")
    return sum(length for length, _ in wrongs), len(forged)


def light(colour):
    """Returns the luminance of a colour, by the formula of the accessibility guidelines."""
    parts = [int(colour[at : at + 2], 16) / 255 for at in (1, 3, 5)]
    red, green, blue = (it / 12.92 if it <= 0.04045 else ((it + 0.055) / 1.055) ** 2.4 for it in parts)
    return 0.2126 * red + 0.7152 * green + 0.0722 * blue


def contrast(one, other):
    low, high = sorted((light(one), light(other)))
    return (high + 0.05) / (low + 0.05)


def mixed(colour, ground, share):
    """Returns the colour that is seen where this share of a colour covers a ground."""
    parts = [[int(it[at : at + 2], 16) for at in (1, 3, 5)] for it in (colour, ground)]
    return "#" + "".join(f"{round(share * one + (1 - share) * other):02x}" for one, other in zip(*parts))


def check_contrast():
    """Sees that texts have a contrast of 4.5 and lines one of 3, in each theme and for each station."""
    body = """return [LIGHT, DARK].map((theme) => ({ theme, stations: Array.from({ length: 200 }, (_, number) =>
        ({ fill: colourOf(number), ink: inkOn(colourOf(number)), line: lineOf(number, theme) })) }));"""
    for name, one in zip(("light", "dark"), in_page(body)):
        theme = one["theme"]
        pairs = [(ink, on, 4.5) for ink in ("ink", "faint") for on in ("paper", "box")] + [("ink", "side", 4.5)]
        pairs += [("ring", "paper", 4.5), ("ring", "box", 3)]
        pairs += [(line, on, 3) for line in ("line", "thin") for on in ("paper", "box")]
        for ink, on, least in pairs:
            expect(contrast(theme[ink], theme[on]) >= least,
                   f"{name}: {ink} on {on} has {contrast(theme[ink], theme[on]):.2f}")
        for number, it in enumerate(one["stations"]):
            expect(contrast(it["ink"], it["fill"]) >= 4.5, f"{name}: the ink of {number}")
            faded = mixed(it["fill"], theme["box"], 0.35)
            expect(contrast(theme["ink"], faded) >= 4.5,
                   f"{name}: the ink of {number} where it is past has {contrast(theme['ink'], faded):.2f}")
            least = min(contrast(it["line"], theme[on]) for on in ("paper", "box"))
            expect(least >= 3, f"{name}: the line of {number} has {least:.2f}")
    names = ("paper", "ink", "faint", "line", "soft", "ring")
    styles = re.findall(" ".join(rf"--{it}: (#\w+);" for it in names), read(PAGE))
    expect(len(styles) == 4, f"{len(styles)} sets of colours in the style")
    for style in styles:
        paper, ink, faint, line, soft, ring = (
            it if len(it) > 4 else "#" + "".join(2 * x for x in it[1:]) for it in style)
        least = min(contrast(text, on) for text in (ink, faint, ring) for on in (paper, soft))
        expect(least >= 4.5, f"the style's texts on {paper} have {least:.2f}")
        expect(contrast(line, paper) >= 3, f"the style's lines on {paper} have {contrast(line, paper):.2f}")


def check_paths(built):
    """Sees a machine of dimension 12 with 48 stations drawn by its paths in use, in boxes that can be read."""
    takes = [f"{station},take,{4096 + 85 * station}\n{station},run,-" for station in range(48)]
    text = output([built, "replay", "--dim", "12", "--stations", "48"], "\n".join(["station,call,arg", *takes, ""]))
    body = """load(asked); show(file.rows.length); return [1240, 328].map((width) => draw(LIGHT, width));"""
    used = {node >> up for node in (4096 + 85 * station for station in range(48)) for up in range(13)}
    for width, drawing in zip((1240, 328), in_page(body, text)):
        nodes = {int(it) for it in re.findall(r'data-node="(\d+)"', drawing)}
        expect(nodes == used, f"at {width} px the paths in use have {len(nodes)} nodes and not {len(used)}")
        boxes = re.findall(r'data-node="\d+"><title>[^<]*</title><rect x="[\d.-]+" y="[\d.]+" width="([\d.]+)"',
                           drawing)
        expect(len(boxes) == len(used) and min(map(float, boxes)) >= 22, f"at {width} px a box is too narrow")
        wide = int(re.search(r'<svg [^>]*width="(\d+)"', drawing)[1])
        expect(wide <= 1300, f"at {width} px the drawing is {wide} px wide")


def check_library(built, writes):
    """Compares the library in the page with the one that the toolchain builds, and its answers with those of
    `place`."""
    chance, commands = random.Random(2), []
    for _ in range(10000):
        name = f"n{chance.randrange(70)}"
        is_take = chance.random() < 0.55
        commands.append(["take", name, chance.choice((0, 0, 0, 1, 1, 2, 3, 4, 7))] if is_take else ["free", name, "-"])
    if shutil.which("rt"):
        module = wasm_module("cubejobs_fit")
        if writes:
            lines = re.findall(".{1,100}", base64.b64encode(module).decode())
            set_block("library", "\n" + "\n".join(lines) + "\n")
        expect(base64.b64decode(block("library")) == module,
               f"the library in {PAGE} is the one that rattle builds: --draw --module writes it")
    else:
        print("page: a build of its library is skipped: there is no rt")
    wanted = output([built, "place", "--dim", "9"],
                    "\n".join(["command,name,dim", *(",".join(map(str, it)) for it in commands), ""]))
    body = """const machine = openExact(await loadLibrary(by("library").textContent), 9);
        return asked.map(([command, name, k]) => (command === "take" ? machine.take(name, k) : machine.free(name)));"""
    got = in_page(body, commands, ["--experimental-wasm-memory64"])
    for number, (one, other) in enumerate(zip(got, wanted.splitlines()[1:]), 1):
        expect(one == other, f"call {number} of the library in the page: {one} and not {other}")
    outcomes = {"given", "freed", "nosubcube", "held", "nostation", "nothingheld"}
    expect({row.rpartition(",")[2] for row in got} == outcomes, "each outcome")
    expect(len(got) == 10000, f"{len(got)} calls")
    policy = re.search(r'Content-Security-Policy" content="([^"]*)"', read(PAGE))[1]
    wanted = ("default-src 'none'; style-src 'unsafe-inline'; script-src 'unsafe-inline' 'wasm-unsafe-eval'; "
              "img-src data: blob:")
    expect(policy == wanted, f"the page's policy: {policy}")


def check_cards(files, writes):
    """Sees that the page has each example, with the rows that the program writes."""
    cards = [f"= {event} | {title} | {says}\n{files[name]}" for name, event, title, says in CARDS]
    wanted = "\n" + "".join(cards)
    if writes:
        set_block("tales", wanted)
    expect(block("tales") == wanted, f"the examples in {PAGE} are those of examples/: --draw writes them")
    told = in_page("showExamples(); return by('examples').innerHTML;")
    expect(told.count("<button") == told.count("<svg") == len(CARDS), "a card with a picture for each example")


WAY = ("Jobs wait in a queue. A worker takes a job, and a block of processors for it. It runs the job and releases the "
       "block.")
HELD = "station,call,arg\n1,take,4\n1,run,-\n2,take,3\n2,run,-\n"


def pictures(built, schedules):
    """Yields each picture of the documents in both themes: its name, the document with its place, and what is drawn."""
    body = """return asked.map(({ text, event, n, way }) => [LIGHT, DARK].map((colours) => {
        load(text, event);
        setDim(n);
        return way ? drawWay(colours, 720, { n, world, row: null, said: way }) : draw(colours, 1000); }));"""
    held = output([built, "replay", "--dim", "2", "--stations", "3"], HELD)
    asked = [{"text": one.text, "event": one.event, "n": one.n} for one in schedules]
    asked += [{"text": read("examples", "events.csv"), "event": 30, "n": 4},
              {"text": held, "event": len(parts(held)[0]), "n": 2, "way": WAY}]
    names = [(os.path.basename(one.name), "docs/ALGORITHM.md", "pictures") for one in schedules]
    names += [("events", "docs/GUIDE.md", "pictures"), ("way", "README.md", "docs/pictures")]
    for (name, document, folder), drawn in zip(names, in_page(body, asked)):
        for theme, text in zip(("light", "dark"), drawn):
            yield f"{name}-{theme}.svg", document, folder, text


def check_pictures(built, schedules, draws):
    """Sees that the documents have the pictures that the page draws, and docs/ALGORITHM.md each schedule's command line."""
    for one in schedules:
        command = f"$ ./cubejobs {one.words} < examples/{one.name}.csv\n"
        expect(command in read("docs/ALGORITHM.md"), f"docs/ALGORITHM.md: {command.strip()}")
    wanted = set()
    for name, document, folder, text in pictures(built, schedules):
        expect(f'="{folder}/{name}"' in read(document), f"{document}: the picture {name}")
        file = f"{PICTURES}/{name}"
        wanted.add(name)
        if draws:
            write(file, text + "\n")
        stands = os.path.exists(path(file)) and read(file) == text + "\n"
        expect(stands, f"{file} is what the page draws: checks/run page --draw writes it")
    wanted.update(os.path.basename(plan_picture.name(theme)) for theme in plan_picture.INK)
    differ = sorted(wanted.symmetric_difference(os.listdir(path(PICTURES))))
    expect(not differ, f"{PICTURES} has {differ} beside the pictures that are drawn, or not")


def main(words):
    needs("node")
    built, draws = program(words), "--draw" in words
    schedules = [Schedule(built, name) for name in SCHEDULES]
    place = output([built, "place", "--dim", "3"], read("examples", "place.csv"))
    events = read("examples", "events.csv")
    told = in_page(SHOWN, [*({"text": one.text} for one in schedules), {"text": place}, {"text": events}])
    for one, seen in zip(schedules, told):
        one.compare(seen["shown"])
    compare_place("place", place, told[-2])
    compare_place("events", events, told[-1], is_run=True)
    for text, seen in zip(BAD_FILES, in_page(SHOWN, [{"text": text} for text in BAD_FILES])):
        expect(BAD_FILES[text] in seen.get("error", ""), f"{text!r} is refused: {seen.get('error', 'it was drawn')}")
    rows, forged = check_rules(built, schedules)
    check_contrast()
    check_paths(built)
    check_cards({**{one.name: one.text for one in schedules}, "place": place, "events": events}, draws)
    check_library(built, draws and "--module" in words)
    check_pictures(built, [one for one in schedules if one.event is not None], draws)
    browser = browser_here()
    if browser:
        failed.extend(page_browser.faults(browser, schedules, len(CARDS)))
    else:
        print("page: opening it in a browser is skipped: there is no Chromium")
    cuts, commands = sum(len(one.cuts) for one in schedules), len(place.splitlines()) - 1
    status = print_faults(failed)
    tried = f"{cuts} cuts of {len(schedules)} schedules, {commands} commands, {len(BAD_FILES)} bad files"
    print(f"page: {tried}, {rows} rows by the rules, {forged} altered rows, 10000 calls, {len(failed)} failed")
    return status
