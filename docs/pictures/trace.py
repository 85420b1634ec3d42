#!/usr/bin/env python3
"""Draws a trace of vmstrace as one SVG: python3 docs/pictures/trace.py TRACE PICTURE.svg [--from STEP] [--to STEP] [--title TEXT].

A lane for each node, from left to right by the number of the step. Waits are shaded from queued to granted, with the lock and who holds it.
The colours follow a light or a dark screen."""
import argparse
import re
from xml.sax.saxutils import escape

STYLE = """<style>
text { font: 12px sans-serif; fill: #1b1f24; } .head { font-weight: bold; font-size: 13px; } .small { font-size: 11px; }
.page { fill: #ffffff; } .lane { stroke: #57606a; } .wait { fill: #fdf1e3; stroke: #b9781f; } .read { stroke: #4a6ea9; stroke-width: 1.5; }
.hit { stroke: #3c8a57; stroke-width: 1.5; stroke-dasharray: 2 2; } .write { fill: #4a6ea9; } .space { fill: #8a63a8; } .lock { fill: #b9781f; }
.answer { fill: #3c8a57; } .death { stroke: #c0392b; stroke-width: 3; } .done { fill: none; stroke: #767c85; }
@media (prefers-color-scheme: dark) {
text { fill: #e6edf3; } .page { fill: #0d1117; } .lane { stroke: #9aa4af; } .wait { fill: #3a2a14; stroke: #dda55a; } .read { stroke: #7ea2dd; }
.hit { stroke: #6cc48b; } .write { fill: #7ea2dd; } .space { fill: #b795d3; } .lock { fill: #dda55a; } .answer { fill: #6cc48b; }
.death { stroke: #ff7b72; } .done { stroke: #8b949e; }
}
</style>"""
LINE = re.compile(r"(\d+) N(\d) (\d+|-) (lock|granted|read|hit|write|stock|too|plan|ask|answers|dies|leaves)\b ?(.*)")
LEFT, TOP, LANE = 46, 96, 116


def events(path):
    """The lines of a trace: step, node, word, rest. The report behind them has other lines."""
    with open(path) as lines:
        for line in lines:
            found = LINE.fullmatch(line.rstrip("\n"))
            if found:
                yield int(found[1]), int(found[2]), found[4], found[5]


def waits(all_events):
    """For each wait its node, the step in which it was queued, that in which it ended, and its text."""
    under_way = {}
    for step, node, word, rest in all_events:
        if word == "lock" and " queued" in rest:
            under_way[node, rest.split(" queued")[0]] = (step, rest.replace(" queued", ""))
        elif word == "granted" and (node, rest) in under_way:
            begun, text = under_way.pop((node, rest))
            yield node, begun, step, text
        elif word == "dies":
            for key in [key for key in under_way if key[0] == node]:
                begun, text = under_way.pop(key)
                yield node, begun, step, text
    last = max((step for step, *_ in all_events), default=0)
    for (node, _), (begun, text) in under_way.items():
        yield node, begun, last, text


def text(x, y, line, kind="", anchor="start"):
    return f'<text class="{kind}" x="{x:.1f}" y="{y:.1f}" text-anchor="{anchor}">{escape(line)}</text>'


def mark(x, y, word, rest):
    """What is drawn for an event at this place of a lane."""
    if word in ("read", "hit"):
        return f'<path class="{word}" d="M{x:.1f},{y - 12} V{y + 12}"/>'
    if word == "write":
        kind = "write" if ", stage" in rest else "space"
        return f'<rect class="{kind}" x="{x - 2.5:.1f}" y="{y - 16}" width="5" height="32"/>'
    if word in ("lock", "ask") and rest.endswith("granted"):
        return f'<circle class="lock" cx="{x:.1f}" cy="{y}" r="4"/>'
    if word == "answers":
        return f'<path class="answer" d="M{x:.1f},{y} l-7,-13 h14 z"/>'
    if word in ("stock", "too"):
        return f'<path class="space" d="M{x:.1f},{y - 8} l7,8 l-7,8 l-7,-8 z"/>'
    if word == "dies":
        return f'<path class="death" d="M{x - 8:.1f},{y - 8} l16,16 m0,-16 l-16,16"/>'
    if word == "leaves":
        return f'<circle class="done" cx="{x:.1f}" cy="{y}" r="6"/>'
    return ""


def labels(x, y, word, rest, rows):
    """The words at an answer, a death, a lock, or a change of stage, on a row that is free."""
    if word == "answers":
        line, level = rest.split("; keeps")[0].split(" = ")[0].split(" (")[0] + " = " + rest.split("; keeps")[0].split(" = ", 1)[1].split(" ")[0], -24
    elif word == "dies":
        line, level = "dies " + rest.split(",")[0], -24
    elif word == "stock":
        line, level = rest.split(",")[0], 30
    elif word in ("lock", "ask") and rest.endswith("granted"):
        line, level = rest[:-8], 30
    elif word == "write" and ", stage" in rest:
        line, level = rest.split(", stage ")[1], 30
        if rows.get("stage") == line:
            return ""
        rows["stage"] = line
    else:
        return ""
    row = next(r for r in range(9) if r == 8 or rows.get((level, r), -1e9) < x)
    rows[level, row] = x + 6.2 * len(line) + 6
    return text(x - 4, y + level + (13 if level > 0 else -13) * row, line, "small")


def draw(all_events, first, last, title):
    shown = [event for event in all_events if first <= event[0] <= last]
    nodes = sorted({node for _, node, _, _ in all_events})
    wide = 9 if last - first < 130 else max(2.5, 1180 / (last - first))
    place = lambda step: LEFT + 14 + (step - first) * wide
    width, height = place(last) + 120, TOP + LANE * len(nodes) + 8
    lane = {node: TOP + LANE * i + 46 for i, node in enumerate(nodes)}
    parts = [text(10, 22, title, "head"), *legend()]
    for node, y in lane.items():
        parts += [text(10, y + 4, f"N{node}", "head"), f'<path class="lane" d="M{LEFT},{y} H{width - 10:.1f}"/>']
    for node, begun, ended, line in waits(all_events):
        if ended >= first and begun <= last:
            a, b, y = place(max(begun, first)), place(min(ended, last)), lane[node]
            fits = b - a > 6.2 * len("waits for " + line)
            parts += [f'<rect class="wait" x="{a:.1f}" y="{y - 9}" width="{b - a:.1f}" height="18" rx="3"/>', text(a + 4, y + (4 if fits else 56), "waits for " + line, "small")]
    rows = {node: {} for node in nodes}
    for step, node, word, rest in shown:
        parts += [mark(place(step), lane[node], word, rest), labels(place(step), lane[node], word, rest, rows[node])]
    step_y = TOP - 12
    every = max(1, round(90 / wide / 10) * 10)
    parts += [text(place(step), step_y, str(step), "small", "middle") for step in range(first, last + 1) if step % every == 0]
    return (f'<svg xmlns="http://www.w3.org/2000/svg" viewBox="0 0 {width:.0f} {height}" width="{width:.0f}" height="{height}" role="img">\n'
            f'<title>{escape(title)}</title>\n{STYLE}\n<rect class="page" width="{width:.0f}" height="{height}"/>\n' + "\n".join(p for p in parts if p) + "\n</svg>\n")


def legend():
    x = 16
    for word, rest, line in [("lock", "granted", "lock"), ("read", "", "read"), ("hit", "", "cache hit"), ("write", ", stage", "write"), ("write", "", "write for space"),
                             ("stock", "", "stock filled or back"), ("answers", "", "answer"), ("dies", "", "death"), ("leaves", "", "leaves")]:
        yield mark(x, 52 + (7 if word == "answers" else 0), word, rest)
        yield text(x + 12, 56, line, "small")
        x += 36 + 6.2 * len(line)


def main():
    words = argparse.ArgumentParser(description=__doc__)
    words.add_argument("trace")
    words.add_argument("picture")
    words.add_argument("--from", dest="first", type=int)
    words.add_argument("--to", dest="last", type=int)
    words.add_argument("--title", default="Events of a run, by the number of the step")
    given = words.parse_args()
    found = list(events(given.trace))
    first = given.first or min(step for step, *_ in found)
    last = given.last or max(step for step, *_ in found)
    with open(given.picture, "w") as out:
        out.write(draw(found, first, last, given.title))


if __name__ == "__main__":
    main()
