#!/usr/bin/env python3
"""Draws the join tree that `plan` of the program reports.

usage: tools/picture.py picture [--dot] QUERYFILE TABLE=FILE ..

The report is read from the standard input. The tree is written as text, the root first and each item below the one that it is joined
to, or, with --dot, in the language of Graphviz. The tables of the items are read from the query; they are left out if it cannot be
read a second time, for example from a pipe. Nothing is written for an empty report, which is that of a query that was refused.
Status 11 says that not all could be written, and status 1 that the report has another form.
"""
import os
import re
import signal
import sys

# An isolated call of python3 does not look for modules in the folder of the script.
sys.path.insert(0, os.path.dirname(os.path.realpath(__file__)))

from ending import ended
from query_text import KEYWORDS, Call, Query

# A quoted name may hold anything but a quote, line ends too.
NODE = re.compile(r'node ([0-9]+) parent ([0-9]+) rows ([0-9]+) item ("[^"]*"|[A-Za-z_][A-Za-z0-9_]*)\n')
TOTAL = re.compile(r"total [0-9]+\n")
BRANCH, LAST, BESIDE, BELOW = "├── ", "└── ", "│   ", "    "


class Fault(Exception):
    """Why nothing can be drawn, as a line for the user, and the status."""


class Node:
    """An item of the query: its alias as a query writes it, how many rows pass, and what is joined to it, in the order of the report."""

    def __init__(self, alias, rows):
        self.alias, self.rows, self.below = alias, int(rows), []


def nodes_of(report):
    """The nodes of a report, the root first, each after the one that it is below."""
    nodes, at = [], 0
    found = NODE.match(report)
    while found:
        number, parent, at = int(found[1]), int(found[2]), found.end()
        if number != len(nodes) + 1 or parent > len(nodes) or (parent == 0) != (number == 1):
            raise Fault("the report of plan has another form than picture can read", 1)
        nodes.append(Node(found[4], found[3]))
        if parent:
            nodes[parent - 1].below.append(nodes[-1])
        found = NODE.match(report, at)
    if not nodes or not TOTAL.fullmatch(report, at):
        raise Fault("the report of plan has another form than picture can read", 1)
    return nodes


def written(name):
    """A name as a query writes it."""
    is_bare = re.fullmatch("[A-Za-z_][A-Za-z0-9_]*", name) and name.lower().encode() not in KEYWORDS
    return name if is_bare else f'"{name}"'


def printable(text):
    """A text on one line, with escapes for what a terminal cannot show."""
    text = text.encode(errors="surrogateescape").decode(errors="backslashreplace")
    return "".join(it if it.isprintable() else repr(it)[1:-1] for it in text)


def tables_of(call):
    """The table of each alias, both as a query writes them, or nothing if the query cannot be read again."""
    return {written(alias): written(table) for _, table, alias in Query(call.query).items()}


def label(node, tables):
    """An item and its table."""
    return printable(node.alias) + (f" ({printable(tables[node.alias])})" if node.alias in tables else "")


def rows(node):
    return f"{node.rows} row{'' if node.rows == 1 else 's'}"


def text_of(node, tables, before="", below=""):
    """The lines of a node and of all that is below it: `before` is put before its own line, and `below` before the others."""
    lines = [f"{before}{label(node, tables)}: {rows(node)}\n"]
    for it in node.below:
        is_last = it is node.below[-1]
        lines += text_of(it, tables, below + (LAST if is_last else BRANCH), below + (BELOW if is_last else BESIDE))
    return lines


def in_dot(text):
    """A text inside a quoted label of Graphviz."""
    return text.replace("\\", "\\\\").replace('"', '\\"').replace("&", "&amp;")


def dot_of(nodes, tables):
    """The lines of a graph: a box for each node, and then a line between each and those below it."""
    numbers = {id(it): number for number, it in enumerate(nodes, 1)}
    lines = [f'    {numbers[id(it)]} [label="{in_dot(label(it, tables))}\\n{rows(it)}"];\n' for it in nodes]
    lines += [f"    {numbers[id(it)]} -- {numbers[id(child)]};\n" for it in nodes for child in it.below]
    return ["graph plan {\n", "    node [shape=box];\n", *lines, "}\n"]


def drawn(report, call):
    nodes, tables = nodes_of(report), tables_of(call)
    return dot_of(nodes, tables) if ("--dot", None) in call.options else text_of(nodes[0], tables)


def write(text):
    rest = text.encode()
    try:
        while rest:
            rest = rest[os.write(1, rest) :]
    except OSError:
        raise Fault("write failed", 11) from None


def main():
    report = sys.stdin.buffer.read().decode(errors="surrogateescape")
    if report:
        write("".join(drawn(report, Call(sys.argv[1:]))))


if __name__ == "__main__":
    signal.signal(signal.SIGINT, signal.SIG_DFL)
    if sys.argv[1:2] in (["-h"], ["--help"]):
        sys.exit(ended("picture", lambda: print(__doc__.strip())))
    try:
        main()
    except Fault as fault:
        why, status = fault.args
        print(f"anyk: {why}", file=sys.stderr)
        sys.exit(status)
