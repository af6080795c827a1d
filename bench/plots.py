#!/usr/bin/env python3
"""Draws the plots in bench/plots from the tables in bench/RESULTS.md.

usage: bench/plots.py

- ranking.svg: processor seconds until the first k answers are written, against k, beside sqlite3 and PostgreSQL
- preparing.svg: processor nanoseconds for each row until the first answer, against the rows of each table, for each order of the rows,
  beside sqlite3 and PostgreSQL

- growth.svg: processor nanoseconds for each answer, against the number of answers, with each engine

All axes are logarithmic. PostgreSQL has a line for the query alone and one with its loading; both are left out if the table has `-`
there. A figure such as `over 100` is drawn as a triangle at its number.

The tables are found by their headings and by the names of their columns. After a change of the tables the same call draws the plots
again.
"""
import math
import os
import re
import sys

HERE = os.path.dirname(os.path.abspath(__file__))
sys.path.append(os.path.join(os.path.dirname(HERE), "tests"))
from arguments import arguments

INK, FAINT, GRID = "#222222", "#666666", "#dddddd"
FONT = "font-family='system-ui, -apple-system, Segoe UI, Helvetica, Arial, sans-serif'"
# Colours that differ for eyes that see few; each with its own mark and dashes.
STYLES = [("#0072b2", "circle", ""), ("#d55e00", "square", "7 4"), ("#009e73", "diamond", "2 4"), ("#cc79a7", "circle", "7 4"),
          ("#555555", "square", "2 4")]


# ---- tables

def tables_of(text):
    """Each table as its heading, the names of its columns, and its rows as dictionaries."""
    heading, block = None, []
    for line in [*text.split("\n"), ""]:
        if line.startswith("|"):
            block.append([it.strip().strip("`") for it in line.strip("|").split("|")])
            continue
        if len(block) > 2:
            yield heading, block[0], [dict(zip(block[0], row)) for row in block[2:]]
        block = []
        heading = line[3:] if line.startswith("## ") else heading


def table_of(text, heading, column):
    """The first table under a heading that has a column."""
    for found, names, rows in tables_of(text):
        if found == heading and column in names:
            return names, rows
    sys.exit(f"plots: RESULTS.md has no table under '{heading}' with a column '{column}'")


def number(text):
    """The number of a figure, and whether it is a bound that was passed."""
    return float(text.removeprefix("over ").replace(",", "")), text.startswith("over ")


# ---- drawing

def escaped(text):
    return text.replace("&", "&amp;").replace("<", "&lt;")


def text_at(x, y, text, size=12, anchor="middle", fill=INK, weight="normal", turn=""):
    turned = f" transform='rotate({turn} {x:.1f} {y:.1f})'" if turn else ""
    return f"<text x='{x:.1f}' y='{y:.1f}' font-size='{size}' text-anchor='{anchor}' fill='{fill}' font-weight='{weight}'{turned}>{escaped(text)}</text>"


def mark_at(x, y, shape, colour):
    if shape == "circle":
        return f"<circle cx='{x:.1f}' cy='{y:.1f}' r='4' fill='{colour}'/>"
    corners = {"square": ((-4, -4), (4, -4), (4, 4), (-4, 4)), "diamond": ((0, -5), (5, 0), (0, 5), (-5, 0)), "above": ((-6, 5), (0, -6), (6, 5))}[shape]
    points = " ".join(f"{x + dx:.1f},{y + dy:.1f}" for dx, dy in corners)
    return f"<polygon points='{points}' fill='{colour}'/>"


class Panel:
    """A pair of axes at a place of the picture."""

    def __init__(self, left, top, width, height, across, up, up_log):
        self.left, self.top, self.width, self.height = left, top, width, height
        self.across, self.up, self.up_log = across, up, up_log

    def x(self, value):
        first, last = self.across[0][0], self.across[-1][0]
        return self.left + self.width * math.log(value / first) / math.log(last / first)

    def y(self, value):
        first, last = self.up[0][0], self.up[-1][0]
        part = math.log(value / first) / math.log(last / first) if self.up_log else (value - first) / (last - first)
        return self.top + self.height * (1 - part)

    def axes(self, title, below, beside):
        right, bottom = self.left + self.width, self.top + self.height
        drawn = [text_at(self.left + self.width / 2, self.top - 14, title, 14, weight="600")] if title else []
        for value, name in self.up:
            drawn.append(f"<line x1='{self.left:.1f}' y1='{self.y(value):.1f}' x2='{right:.1f}' y2='{self.y(value):.1f}' stroke='{GRID}'/>")
            drawn += [text_at(self.left - 7, self.y(value) + 4, name, anchor="end", fill=FAINT)] if beside is not None else []
        for value, name in self.across:
            drawn.append(f"<line x1='{self.x(value):.1f}' y1='{bottom:.1f}' x2='{self.x(value):.1f}' y2='{bottom + 5:.1f}' stroke='{FAINT}'/>")
            drawn.append(text_at(self.x(value), bottom + 19, name, fill=FAINT))
        drawn.append(f"<line x1='{self.left:.1f}' y1='{bottom:.1f}' x2='{right:.1f}' y2='{bottom:.1f}' stroke='{FAINT}'/>")
        drawn.append(text_at(self.left + self.width / 2, bottom + 39, below))
        if beside:
            drawn.append(text_at(self.left - 66, self.top + self.height / 2, beside, turn="-90"))
        return drawn

    def line(self, points, style):
        """A line through points, each with whether it is a bound that was passed."""
        colour, shape, dashes = style
        path = " ".join(f"{self.x(x):.1f},{self.y(y):.1f}" for x, y, _ in points)
        drawn = [f"<polyline points='{path}' fill='none' stroke='{colour}' stroke-width='2.5' stroke-dasharray='{dashes}'/>"]
        return drawn + [mark_at(self.x(x), self.y(y), "above" if passed else shape, colour) for x, y, passed in points]


def legend(left, top, ways):
    drawn = []
    for (colour, shape, dashes), name, room in ways:
        drawn.append(f"<line x1='{left}' y1='{top}' x2='{left + 34}' y2='{top}' stroke='{colour}' stroke-width='2.5' stroke-dasharray='{dashes}'/>")
        drawn += [mark_at(left + 17, top, shape, colour), text_at(left + 42, top + 4, name, 13, "start")]
        left += room
    return drawn


def write(name, width, height, title, drawn):
    head = f"<svg xmlns='http://www.w3.org/2000/svg' viewBox='0 0 {width} {height}' width='{width}' height='{height}' role='img' {FONT}>"
    lines = [head, f"<title>{escaped(title)}</title>", f"<rect width='{width}' height='{height}' fill='#ffffff'/>", *drawn, "</svg>"]
    with open(f"{HERE}/plots/{name}", "w", encoding="utf-8") as file:
        file.write("\n".join(lines) + "\n")


# ---- the plots

def draw_panels(panels, ways, below, beside, across, up, gap, picture):
    """Panels side by side. `panels` has the title of each with its points by way, `ways` the name of each way in the legend with its
    room there."""
    name, title = picture
    width, left = 240, 92
    drawn = legend(left, 24, [(style, *way) for at, (style, way) in enumerate(zip(STYLES, ways)) if any(lines[at] for _, lines in panels)])
    for at, (head, lines) in enumerate(panels):
        panel = Panel(left + at * (width + gap), 82, width, 250, across, up, True)
        drawn += panel.axes(head, below, beside if at == 0 else None)
        for style, points in reversed(list(zip(STYLES, lines))):
            drawn += panel.line(points, style) if points else []
    write(name, left + len(panels) * (width + gap) - gap + 44, 386, title, drawn)


def points_of(rows, x, *columns):
    """The points of a line: the figures of a column, or the sums of some, against x. A row that has no figure has no point."""
    points = []
    for row in rows:
        if "-" in [row[it] for it in columns]:
            continue
        figures = [number(row[it]) for it in columns]
        points.append((number(row[x])[0], sum(it for it, _ in figures), any(passed for _, passed in figures)))
    return points


def groups_of(rows, column):
    return {it: [row for row in rows if row[column] == it] for it in dict.fromkeys(row[column] for row in rows)}


def decades(first, last, name):
    """The powers of ten of an axis, with their names."""
    return [(10.0 ** it, name(10 ** it)) for it in range(first, last + 1)]


def plain(value):
    return f"{value:,}" if value >= 1 else f"{value:g}"


def draw_ranking(text):
    _, rows = table_of(text, "Ranking", "sqlite3")
    columns = [("--engine part",), ("--engine rec",), ("sqlite3",), ("PostgreSQL",), ("PostgreSQL", "its loading")]
    panels = [(shape, [points_of(group, "answers asked for", *it) for it in columns]) for shape, group in groups_of(rows, "query").items()]
    ways = [("anyk, --engine part", 182), ("anyk, --engine rec", 176), ("sqlite3", 112), ("PostgreSQL", 138), ("PostgreSQL with loading", 190)]
    across = [(1, "1"), (10, "10"), (100, "100"), (1000, "1,000"), (10000, ""), (100000, "100,000")]
    draw_panels(panels, ways, "k, the answers asked for (▲: given up)", "processor seconds", across, decades(-2, 2, plain), 62,
                ("ranking.svg", "Processor seconds until the first k answers are written, against k"))


def draw_preparing(text):
    _, rows = table_of(text, "Preparing", "preparing")
    columns = [("preparing",), ("whole",), ("sqlite3",), ("PostgreSQL",), ("PostgreSQL with loading",)]
    panels = [(order, [points_of(group, "rows", *it) for it in columns]) for order, group in groups_of(rows, "order").items()]
    ways = [("anyk, preparing", 158), ("anyk, reading too", 166), ("sqlite3", 112), ("PostgreSQL", 138), ("PostgreSQL with loading", 190)]
    sizes = sorted({number(it["rows"])[0] for it in rows})
    across = [(size, f"{size:,.0f}") for size in sizes]
    figures = [y for _, lines in panels for points in lines for _, y, _ in points]
    up = decades(math.floor(math.log10(min(figures))), math.ceil(math.log10(max(figures))), plain)
    draw_panels(panels, ways, "rows of each table (▲: given up)", "processor nanoseconds for each row", across, up, 76,
                ("preparing.svg", "Processor nanoseconds for each row until the first answer, against the rows of each table"))


def draw_growth(text):
    _, rows = table_of(text, "Growth", "part, ns")
    lines = [points_of(rows, "answers", it) for it in ("part, ns", "rec, ns")]
    ways = [("anyk, --engine part", 182), ("anyk, --engine rec", 176)]
    counts = [number(it["answers"])[0] for it in rows]
    across = decades(round(math.log10(min(counts))), round(math.log10(max(counts))), lambda value: f"{value:,}")
    figures = [y for points in lines for _, y, _ in points]
    up = decades(math.floor(math.log10(min(figures))), math.ceil(math.log10(max(figures))), plain)
    drawn = legend(92, 24, [(style, *way) for style, way in zip(STYLES, ways)])
    panel = Panel(92, 60, 420, 250, across, up, True)
    drawn += panel.axes(None, "k, the answers asked for", "processor nanoseconds for each answer")
    for style, points in reversed(list(zip(STYLES, lines))):
        drawn += panel.line(points, style)
    write("growth.svg", 560, 364, "Processor nanoseconds for each answer, against the answers asked for", drawn)


def main():
    arguments(__doc__)
    with open(f"{HERE}/RESULTS.md", encoding="utf-8") as file:
        text = file.read()
    os.makedirs(f"{HERE}/plots", exist_ok=True)
    draw_ranking(text)
    draw_preparing(text)
    draw_growth(text)


if __name__ == "__main__":
    main()
