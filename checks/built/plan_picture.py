"""Draws docs/pictures/reservation-*.svg: a plan of a small machine, as the model of the planner makes it.

`checks/run plan_picture [--write]` compares the pictures with what it draws, or writes them.
"""
from checks.lib.repository import path, read, write
from checks.lib.rows import Row, must, run_rows
from tests.models.plan_model import Model

DIM, HOURS = 4, 15
# What is submitted: the time, a name, processors, an estimate, and a word for its colour.
JOBS = ((0, "A", 4, 6, "runs"), (0, "", 4, 1, ""), (0, "B", 4, 9, "runs"), (1, "W", 8, 5, "reserved"),
        (1, "C", 4, 10, "apart"), (2, "D", 2, 3, "brief"))
SHOWN = {"runs": "runs", "reserved": "waits for its reserved block", "apart": "starts apart from it",
         "brief": "ends before the promise"}
INK = {
    "light": {"back": "#ffffff", "ink": "#1b1f24", "line": "#c3c9d0", "runs": "#d5dbe2", "reserved": "#f3c57b",
              "apart": "#a9cdf2", "brief": "#b7dfb0"},
    "dark": {"back": "#0d1117", "ink": "#e6edf3", "line": "#3a434d", "runs": "#38424d", "reserved": "#8a5a12",
             "apart": "#1f4f82", "brief": "#2f6b35"},
}
LEFT, TOP, UNIT, ROW = 64, 16, 42, 20
WIDTH, HEIGHT = LEFT + HOURS * UNIT + 16, TOP + ROW * 2**DIM + 96


def plan():
    """Returns where each job runs, as (name, word, base, processors, start, end), and the reservation, as (base,
    processors, time, promise)."""
    model, found, ends, kept, names = Model(DIM, len(JOBS), 16), [], [], None, {}
    for now in range(HOURS):
        for end, arrival in [it for it in ends if it[0] == now]:
            model.finish(arrival)
            ends.remove((end, arrival))
        for at, name, processors, estimate, word in JOBS:
            if at == now:
                _, job = model.submit(0, estimate, processors, 0)
                names[job.arrival] = name, word
        model.now = now
        while (job := model.decide()) is not None:
            ends.append((job.end, job.arrival))
            found.append((*names[job.arrival], job.base, job.processors, now, job.end))
        if model.reserved and kept is None:
            head = model.jobs[model.reserved[0]]
            kept = model.reserved[1], 2**head.dim, now, model.latest(model.reserved[1], head.dim)
    return found, kept


def box(at, base, processors, end, **more):
    x, y = LEFT + at * UNIT, TOP + ROW * (2**DIM - base - processors)
    words = "".join(f' {name.replace("_", "-")}="{value}"' for name, value in more.items())
    return f'<rect x="{x}" y="{y}" width="{(end - at) * UNIT}" height="{processors * ROW}"{words}/>'


def text(x, y, words, ink, **more):
    said = "".join(f' {name.replace("_", "-")}="{value}"' for name, value in more.items())
    return f'<text x="{x}" y="{y}" font-size="14" fill="{ink}"{said}>{words}</text>'


def drawn(theme):
    """Returns the picture as SVG."""
    ink, (found, kept) = INK[theme], plan()
    bottom = TOP + ROW * 2**DIM
    out = [f'<svg xmlns="http://www.w3.org/2000/svg" width="{WIDTH}" height="{HEIGHT}" viewBox="0 0 {WIDTH} {HEIGHT}" '
           f'font-family="system-ui, \'DejaVu Sans\', sans-serif">'
           f'<rect width="{WIDTH}" height="{HEIGHT}" fill="{ink["back"]}"/>']
    out += [f'<line x1="{LEFT}" y1="{y}" x2="{WIDTH - 16}" y2="{y}" stroke="{ink["line"]}"/>' for y in (TOP, bottom)]
    for name, word, base, processors, start, end in found:
        if name:
            out.append(box(start, base, processors, end, fill=ink[word], stroke=ink["ink"]))
            x, y = LEFT + (start + end) / 2 * UNIT, TOP + ROW * (2**DIM - base - processors / 2) + 5
            out.append(text(x, y, name, ink["ink"], text_anchor="middle"))
    base, processors, at, promise = kept
    dashes = {"stroke": ink["reserved"], "stroke_width": 3, "stroke_dasharray": "8 5"}
    out.append(box(at, base, processors, promise, fill="none", **dashes))
    for hour in range(0, HOURS + 1, 3):
        out.append(text(LEFT + hour * UNIT, bottom + 18, str(hour), ink["ink"], text_anchor="middle"))
    for processor in range(0, 2**DIM, 4):
        y = TOP + ROW * (2**DIM - processor) - 4
        out.append(text(LEFT - 8, y, str(processor), ink["ink"], text_anchor="end"))
    for number, (word, says) in enumerate(SHOWN.items()):
        x, y = LEFT + number % 2 * 300, bottom + 36 + number // 2 * 24
        out.append(f'<rect x="{x}" y="{y}" width="16" height="16" fill="{ink[word]}" stroke="{ink["ink"]}"/>')
        out.append(text(x + 24, y + 13, says, ink["ink"]))
    return "\n".join([*out, "</svg>", ""])


def name(theme):
    return f"docs/pictures/reservation-{theme}.svg"


def is_current(theme):
    must(read(name(theme)) == drawn(theme), "it is stale: --write renews it")


def shows_each_case():
    found, kept = plan()
    where = {it[0]: it[2:] for it in found}
    must(where["W"] == (0, 8, 6, 11) and kept == (0, 8, 1, 6), f"W is planned as {where['W']}, reserved as {kept}")
    must(where["C"][0] >= 8 and where["D"][0] < 8 and where["D"][3] <= kept[3],
         f"C and D are at {where['C']}, {where['D']}")


def main(words):
    if "--write" in words:
        for theme in INK:
            write(path(name(theme)), drawn(theme))
        return 0
    pictures = (Row(name(it), is_current, (it,)) for it in INK)
    return run_rows("plan_picture", [Row("each case is there", shows_each_case), *pictures])
