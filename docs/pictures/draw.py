#!/usr/bin/env python3
"""Draws the pictures of the documents: python3 docs/pictures/draw.py. The colours follow a light or a dark screen."""
import os
from xml.sax.saxutils import escape

STYLE = """<style>
text { font: 13px sans-serif; fill: #1b1f24; }
.small { font-size: 12px; } .head { font-weight: bold; } .mono { font-family: monospace; font-size: 12.5px; }
.box { fill: #eef3fb; stroke: #4a6ea9; } .warm { fill: #fdf1e3; stroke: #b9781f; } .cool { fill: #e8f5ec; stroke: #3c8a57; }
.page { fill: #ffffff; } .plain { fill: none; stroke: #767c85; } .line { stroke: #57606a; fill: none; } .tip { fill: #57606a; }
@media (prefers-color-scheme: dark) {
text { fill: #e6edf3; } .page { fill: #0d1117; } .box { fill: #1d2a40; stroke: #7ea2dd; } .warm { fill: #3a2a14; stroke: #dda55a; }
.cool { fill: #17321f; stroke: #6cc48b; } .plain { stroke: #8b949e; } .line { stroke: #9aa4af; } .tip { fill: #9aa4af; }
}
</style>
<defs><marker id="tip" viewBox="0 0 8 8" refX="7" refY="4" markerWidth="8" markerHeight="8" orient="auto">
<path class="tip" d="M0,0 L8,4 L0,8 z"/></marker></defs>"""


class Picture:
    def __init__(self, name, width, height, title):
        self.name, self.width, self.height, self.title, self.parts = name, width, height, title, []

    def box(self, x, y, w, h, lines, kind="box"):
        self.parts.append(f'<rect class="{kind}" x="{x}" y="{y}" width="{w}" height="{h}" rx="6"/>')
        top = y + h / 2 - 9 * (len(lines) - 1) + 5
        for i, line in enumerate(lines):
            self.text(x + w / 2, top + 18 * i, line, "head" if i == 0 and len(lines) > 1 else "")

    def text(self, x, y, line, kind="", anchor="middle"):
        self.parts.append(f'<text class="{kind}" x="{x}" y="{y}" text-anchor="{anchor}">{escape(line)}</text>')

    def arrow(self, points):
        path = " L".join(f"{x},{y}" for x, y in points)
        self.parts.append(f'<path class="line" d="M{path}" marker-end="url(#tip)"/>')

    def save(self):
        path = os.path.join(os.path.dirname(os.path.abspath(__file__)), self.name + ".svg")
        with open(path, "w") as out:
            out.write(f'<svg xmlns="http://www.w3.org/2000/svg" viewBox="0 0 {self.width} {self.height}" '
                      f'width="{self.width}" height="{self.height}" role="img">\n<title>{escape(self.title)}</title>\n{STYLE}\n<rect class="page" width="{self.width}" height="{self.height}"/>\n'
                      + "\n".join(self.parts) + "\n</svg>\n")


def nodes():
    p = Picture("nodes", 760, 400, "Nodes with locks, caches and preallocated space over one drive and its image")
    for i, name in enumerate(["node 1", "node 2", "node 3 .. 8"]):
        x = 20 + 250 * i
        p.box(x, 10, 220, 130, [], "box")
        p.text(x + 110, 32, name, "head")
        p.box(x + 15, 44, 190, 26, ["cache: up to 64 blocks"], "cool")
        p.box(x + 15, 74, 190, 26, ["preallocated free space"], "cool")
        p.box(x + 15, 104, 190, 26, ["locks that it holds"], "warm")
        p.arrow([(x + 110, 140), (x + 110, 178)])
    p.box(20, 180, 720, 56, ["lock table", "one lock for each file, Q quotas, V bitmaps, X free space; a value block with each"], "warm")
    p.arrow([(380, 236), (380, 268)])
    p.text(392, 257, "a node writes only under its locks", "small", "start")
    p.box(20, 270, 720, 46, ["drive", "all blocks of the volume, in memory"])
    p.arrow([(380, 316), (380, 346)])
    p.text(392, 335, "each write goes to the image first", "small", "start")
    p.box(20, 348, 720, 46, ["image", "one file of 64 to 65,536 blocks, locked for this program"], "plain")
    p.save()


def theorem():
    p = Picture("theorem", 860, 340, "Report, catalogue and blocks")
    p.text(20, 33, "the report", "head", "start")
    p.text(20, 148, "the catalogue", "head", "start")
    p.text(20, 166, "of one uncached volume", "small", "start")
    p.text(20, 268, "the blocks", "head", "start")
    p.text(20, 286, "of the image", "small", "start")
    for i, name in enumerate(["at the beginning", "", "", "at the end"]):
        x = 180 + 180 * i
        p.box(x, 130, 120, 40, ["c0", "c1", "c2", "c3"][i:i + 1], "cool")
        if name:
            p.box(x, 255, 120, 40, [name])
            p.arrow([(x + 60, 253), (x + 60, 173)])
            p.text(x + 68, 218, "spell", "small", "start")
    for i, line in enumerate(["1 N1 CREATE .. = ..", "2 N2 died at lost ..", "3 N1 LIST .. = .."]):
        x = 232 + 190 * i
        p.box(x, 10, 176, 36, [], "warm")
        p.text(x + 88, 33, line, "mono")
        p.arrow([(x + 88, 46), (330 + 180 * i, 140)])
        p.arrow([(300 + 180 * i, 150), (358 + 180 * i, 150)])
    p.text(510, 200, "each line leads from one catalogue to the next: the report replays", "small")
    p.text(510, 324, "nothing is found in the blocks at the beginning, so they have one catalogue", "small")
    p.save()


def create():
    p = Picture("create", 1090, 220, "The five block writes of a CREATE, and the stage after each")
    p.text(20, 24, "the writes of a CREATE", "head", "start")
    names = ["index-file bitmap", "storage bitmap", "quota row", "header", "directory"]
    says = ["a number is taken", "clusters are taken", "the owner is charged", "the file is there", "the file has a name"]
    stages = ["nothing", "nothing", "nothing", "charged", "lost", "done"]
    for i, name in enumerate(names):
        x = 100 + 185 * i
        p.box(x, 40, 150, 50, [f"{i + 1}. {name}", says[i]])
        if i:
            p.arrow([(x - 35, 65), (x - 2, 65)])
    p.text(95, 124, "stage, if it dies there", "head", "start")
    for i, stage in enumerate(stages):
        middle = 83 + 185 * i
        p.box(middle - 45, 148, 90, 34, [stage], "cool" if stage in ("nothing", "done") else "warm")
        p.arrow([(middle, 146), (middle, 94)])
    p.text(545, 208, "Before the header is written, what writes 1 and 2 took is leaked. The node's preallocated space is leaked by every death.", "small")
    p.save()


def layers():
    names = [
        ("1. Words that all share", "base_words"),
        ("2. The outside", "blk_drive, blk_files, fx_text .."),
        ("3. Blocks of the format", "fx_home, fx_header, fx_dir .."),
        ("4. The plain volume", "plain_cat, plain_rules, plain_vol .."),
        ("5. Locks, caches and stocks", "lock_db, node_locks, node_cache .."),
        ("6. Volumes", "vol_parts, vol_spell, vol_analyze .."),
        ("7. Commands", "op_law, op_create .. xqp_set"),
        ("8. The core", "core_state, core_step, core_death .."),
        ("9. Runs and reports", "run_engine, clus_top, live_run .."),
        ("10. Programs", "vmsclus, vmsclus_live, vmscheck .."),
    ]
    p = Picture("layers", 560, 480, "Ten layers, from words to programs")
    for i, (name, crates) in enumerate(names):
        y = 430 - 46 * i
        p.box(20, y, 520, 40, [], ("box", "cool", "warm")[i % 3])
        p.text(34, y + 25, name, "head", "start")
        p.text(526, y + 25, crates, "mono", "end")
    p.save()


def statuses():
    p = Picture("statuses", 1356, 470, "Which status leads to which step")
    p.box(578, 10, 200, 40, ["the status"], "plain")
    rows = [
        ("0", "done", ["nothing; if a line", "says died: rebuild"], "cool"),
        ("1, 2, 3, 9", "words or script", ["correct them,", "and call again"], "box"),
        ("4", "the image", ["readable? writable?", "no other program?"], "box"),
        ("5", "the volume", ["analyze shows", "what is wrong"], "warm"),
        ("6", "output or sync", ["the job is done:", "do not run it again"], "warm"),
        ("7", "memory", ["give it more"], "box"),
        ("10, 11", "file or records", ["another file or text;", "nothing was written"], "box"),
        ("12", "beyond repair", ["restore a copy", "from before"], "warm"),
    ]
    for i, (code, what, does, kind) in enumerate(rows):
        x = 15 + 168 * i
        p.arrow([(678, 50), (x + 75, 92)])
        p.box(x, 94, 150, 46, [code, what], "plain")
        p.arrow([(x + 75, 140), (x + 75, 168)])
        p.box(x, 170, 150, 60, [], kind)
        for k, line in enumerate(does):
            p.text(x + 75, 204 - 8 * (len(does) - 1) + 17 * k, line, "small")
    p.box(280, 290, 230, 50, ["rebuild", "again, as often as it is stopped"], "cool")
    p.arrow([(420, 230), (390, 288)])
    p.text(250, 264, "if run or rebuild had begun to write", "small")
    p.arrow([(580, 230), (470, 288)])
    p.text(548, 274, "not fatal", "small", "start")
    p.arrow([(930, 230), (930, 315), (512, 315)])
    p.text(830, 308, "if run or rebuild had begun", "small")
    p.arrow([(395, 340), (395, 378)])
    p.box(260, 380, 270, 56, ["look with LIST and STAT", "which commands were done"], "box")
    p.box(600, 380, 270, 56, ["restore a copy, or repair one", "no room in [SYSLOST]: restore one"], "warm")
    p.arrow([(620, 230), (710, 378)])
    p.text(686, 274, "fatal", "small", "start")
    p.arrow([(490, 340), (610, 390)])
    p.text(560, 356, "not mendable", "small", "start")
    p.save()


for draw in (nodes, theorem, create, layers, statuses):
    draw()
