#!/usr/bin/env python3
"""Draws the pictures of this folder.

usage: docs/pictures/draw.py [--check]

- layers.svg: the crates in their layers, as the picture of docs/ARCHITECTURE.md has them. That each crate stands only on crates of
  layers below its own, or on earlier ones of its own layer, is looked up in crates.txt
- tree.svg: the join tree of docs/using/stay.sql over the tables of docs/using: the rows that pass, the groups of hotels of one city,
  and the least rank of each row and group

With --check nothing is written, and the status is 1 if a picture is not as it would be drawn.
"""
import csv
import os
import re
import sys
from html import escape

HERE = os.path.dirname(os.path.abspath(__file__))
TOP = os.path.dirname(os.path.dirname(HERE))
FONT = "font-family='system-ui, -apple-system, Segoe UI, Helvetica, Arial, sans-serif'"
INK, FAINT, LINE, BEST = "#222222", "#666666", "#bbbbbb", "#d55e00"
BLUE, GREEN = "#e8f1f8", "#e9f5f0"


def read(name):
    with open(f"{TOP}/{name}", encoding="utf-8") as file:
        return file.read()


class Picture:
    """The elements of an image, in the order in which they are drawn."""

    def __init__(self, width, height, title):
        self.lines = [f"<svg xmlns='http://www.w3.org/2000/svg' viewBox='0 0 {width} {height}' width='{width}' height='{height}' "
                      f"role='img' {FONT}>", f"<title>{escape(title)}</title>",
                      f"<rect width='{width}' height='{height}' fill='#ffffff'/>"]

    def text(self, x, y, text, size=12, anchor="start", fill=INK, weight="normal"):
        self.lines.append(f"<text x='{x}' y='{y}' font-size='{size}' text-anchor='{anchor}' fill='{fill}' "
                          f"font-weight='{weight}'>{escape(text)}</text>")

    def box(self, x, y, width, height, fill, stroke=LINE):
        self.lines.append(f"<rect x='{x}' y='{y}' width='{width}' height='{height}' rx='4' fill='{fill}' stroke='{stroke}'/>")

    def line(self, x, y, to_x, to_y, stroke=LINE, width=1):
        self.lines.append(f"<line x1='{x}' y1='{y}' x2='{to_x}' y2='{to_y}' stroke='{stroke}' stroke-width='{width}'/>")

    def done(self):
        return "\n".join([*self.lines, "</svg>"]) + "\n"


# ---- the layers

def below():
    """The crates of this repository that each one stands on."""
    lines = [it.partition(":") for it in read("crates.txt").splitlines() if ":" in it and not it.startswith("#")]
    names = [it[0].split()[0] for it in lines]
    return {name: [it for it in line[2].split() if it in names] for name, line in zip(names, lines)}


def layers():
    """Each layer of the picture of ARCHITECTURE.md: its name, its crates of a query, and its others."""
    block = read("docs/ARCHITECTURE.md").partition("```\n")[2].partition("```")[0]
    found = []
    split = block.index("of any tree") - block.rfind("\n", 0, block.index("of any tree")) - 1
    for line in block.splitlines()[2:]:
        name, left, right = line[:24].strip(), line[24:split], line[split:]
        if name:
            found.append((name, [], []))
        if found:
            for words, place in ((left, 1), (right, 2)):
                found[-1][place].extend(re.findall(r"[a-z0-9_]+", words))
    return found


def look_up(rows):
    """Ends with a line if a crate is in no layer, or stands on one of a layer above its own."""
    uses = below()
    depth = {crate: at for at, (_, left, right) in enumerate(rows) for crate in (*left, *right)}
    missing = [it for it in uses if it not in depth and not it.endswith(("_tests", "_example"))]
    if missing:
        sys.exit(f"pictures: not in the picture of ARCHITECTURE.md: {' '.join(missing)}")
    for crate, at in depth.items():
        above = [it for it in uses[crate] if depth[it] < at]
        if above:
            sys.exit(f"pictures: {crate} stands on {' '.join(above)}, of a layer above its own")


def draw_layers():
    rows = layers()
    look_up(rows)
    wide, high, columns, left = 122, 22, (150, 670), 150
    y, boxes, marks = 50, [], []
    for name, *sides in rows:
        marks.append((name, y))
        below_it = y
        for start, side, fill in zip(columns, sides, (BLUE, GREEN)):
            for at, crate in enumerate(side):
                x, top = start + at % 4 * (wide + 6), y + at // 4 * (high + 5)
                boxes.append((crate, x, top, fill))
                below_it = max(below_it, top + high)
        y = below_it + 14
    picture = Picture(columns[1] + 4 * (wide + 6) + 4, y + 14, "The crates of anyk, layer by layer")
    for start, said in zip(columns, ("of a query and its program", "of any tree, graph or text")):
        picture.text(start, 26, said, 13, weight="bold")
    for name, top in marks:
        picture.text(8, top + 15, name, 12, fill=FAINT)
        picture.line(8, top - 7, columns[1] + 4 * (wide + 6), top - 7, "#eeeeee")
    for crate, x, top, fill in boxes:
        picture.box(x, top, wide, high, fill)
        picture.text(x + wide / 2, top + 15, crate, 11, "middle")
    picture.text(left, y + 4, "A crate stands only on crates of layers below its own, and on earlier ones of its own layer.", 12, fill=FAINT)
    return picture.done()


# ---- the tree

def table(name):
    with open(f"{TOP}/docs/using/{name}.csv", encoding="utf-8", newline="") as file:
        return list(csv.DictReader(file))


def draw_tree():
    trains = [it for it in table("trains") if it["origin"] == "Oslo"]
    groups = {}
    for it in table("hotels"):
        groups.setdefault(it["city"], []).append(it)
    picture = Picture(820, 330, "The join tree of a query, with its groups and least ranks")
    picture.text(20, 28, "t: trains from Oslo", 14, weight="bold")
    picture.text(470, 28, "h: hotels, a group for each city", 14, weight="bold")
    picture.text(20, 48, "its price + the least of its group = its least rank", 12, fill=FAINT)
    picture.text(470, 48, "the least price of a group is its bound", 12, fill=FAINT)
    y, at = 66, {}
    for city, rows in groups.items():
        least = min(int(it["price"]) for it in rows)
        picture.box(470, y, 320, 20 * len(rows) + 8, GREEN)
        picture.text(480, y + 18, city, 12, weight="bold")
        for number, it in enumerate(rows):
            is_least = int(it["price"]) == least
            picture.text(580, y + 18 + 20 * number, it["hotel"], 12)
            picture.text(780, y + 18 + 20 * number, it["price"], 12, "end", BEST if is_least else INK, "bold" if is_least else "normal")
        at[city] = (y + (20 * len(rows) + 8) / 2, least)
        y += 20 * len(rows) + 20
    ranks = {it["train"]: int(it["price"]) + at[it["destination"]][1] for it in trains}
    for number, it in enumerate(trains):
        top, rank = 90 + 66 * number, ranks[it["train"]]
        is_first = rank == min(ranks.values())
        middle, least = at[it["destination"]]
        picture.line(330, top + 20, 470, middle, FAINT, 1.2)
        picture.box(20, top, 310, 40, BLUE, BEST if is_first else LINE)
        picture.text(30, top + 24, f"{it['train']} to {it['destination']}", 12, weight="bold")
        picture.text(320, top + 24, f"{it['price']} + {least} = {rank}", 12, "end", BEST if is_first else INK, "bold" if is_first else "normal")
    picture.text(20, 306, "The first answer is known before any other combination is looked at: the row whose least rank is least.", 12, fill=FAINT)
    return picture.done()


def main(words):
    if words not in ([], ["--check"]):
        sys.exit("usage: docs/pictures/draw.py [--check]")
    status = 0
    for name, draw in (("layers", draw_layers), ("tree", draw_tree)):
        file, text = f"{HERE}/{name}.svg", draw()
        if not words:
            with open(file, "w", encoding="utf-8") as output:
                output.write(text)
        elif not os.path.exists(file) or read(f"docs/pictures/{name}.svg") != text:
            print(f"pictures: docs/pictures/{name}.svg: FAILED: it would be drawn otherwise; docs/pictures/draw.py draws it")
            status = 1
    if words:
        print(f"pictures: 2: {'FAILED' if status else 'passed'}")
    return status


if __name__ == "__main__":
    sys.exit(main(sys.argv[1:]))
