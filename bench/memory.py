#!/usr/bin/env python3
"""Measures what a node row, an answer and a cursor take of memory, with both engines, one order key and eight.

usage: bench/memory.py [ROWS]

ROWS is the number of rows of a table, 20000 if it is not given; runs with twice as many are made too. The queries are a path of four
tables, whose join columns have ROWS / 10 values, and a star of 16 items over one table, which meet in the one column that is a weight
too. Each figure is a difference of two peaks of resident memory, in bytes:

- a node row: between twice as many rows and ROWS, for the first answer, for each node row; the rows of the tables are in it
- an answer: between the first 200,000 answers and the first, over the path
- an answer of a session: the same for one cursor, from which they are read
- a cursor: between 64 cursors and one over the path, each at a place of its own among the first 1,000 answers; the least peaks of five
  runs, since they differ by some pages

A vector that grows takes room for twice what it has, so a figure can be half or twice as much at other sizes. The program is what
`./anyk` has built on its first use, or what ANYK names, and its C library takes small pages, so that the peaks are exact.
"""
import os
import subprocess
import sys
import tempfile

TOP = os.path.dirname(os.path.dirname(os.path.abspath(__file__)))
sys.path.append(os.path.join(TOP, "tests"))
from arguments import MEASURED as PROGRAM, arguments, program_at

ANSWERS = 200000
CURSORS = 64
PATH = ["P%d=P%d.csv" % (it, it) for it in range(1, 5)]


def draws(x):
    while True:
        x = (x * 16807) % 2147483647
        yield x


def keys(columns, count):
    """Order keys that are each the sum of all columns, begun at another one."""
    return ", ".join(" + ".join(columns[it % len(columns):] + columns[:it % len(columns)]) for it in range(count))


def path_query(count, limit):
    columns = ["P%d.w" % it for it in range(1, 5)]
    return "select P1.a, P4.b from P1, P2, P3, P4 where P1.b = P2.a and P2.b = P3.a and P3.b = P4.a order by %s limit %d" % (keys(columns, count), limit)


def star_query(count):
    items = ["i%d" % it for it in range(16)]
    return "select i0.w from %s where %s order by %s limit 1" % (
        ", ".join("T " + it for it in items), " and ".join("i0.w = %s.w" % it for it in items[1:]), keys(["%s.w" % it for it in items], count))


def write_tables(folder, rows):
    draw = draws(7)
    for name in ("P1", "P2", "P3", "P4"):
        with open(os.path.join(folder, name + ".csv"), "w") as file:
            file.write("a,b,w\n")
            file.writelines("%d,%d,%d\n" % (next(draw) % (rows // 10), next(draw) % (rows // 10), next(draw) % 1000000) for _ in range(rows))
    with open(os.path.join(folder, "T.csv"), "w") as file:
        file.write("w\n")
        file.writelines("%d\n" % (next(draw) % (rows // 2)) for _ in range(rows))


def peak(folder, query, words, script=""):
    """The most bytes of memory that a run has at a time."""
    for name, text in (("q.sql", query), ("s.txt", script)):
        with open(os.path.join(folder, name), "w") as file:
            file.write(text + "\n")
    ran = subprocess.Popen([PROGRAM] + words, cwd=folder, stdin=subprocess.DEVNULL, stdout=subprocess.DEVNULL)
    _, status, usage = os.wait4(ran.pid, 0)
    ran.returncode = os.waitstatus_to_exitcode(status)
    if ran.returncode:
        sys.exit("memory: the program ends with status %d" % ran.returncode)
    return usage.ru_maxrss * 1024


def of_node_rows(small, large, rows, engine, count):
    run = ["run", "--engine", engine, "q.sql"]
    path = [peak(it, path_query(count, 1), run + PATH) for it in (small, large)]
    star = [peak(it, star_query(count), run + ["T=T.csv"]) for it in (small, large)]
    return (path[1] - path[0]) / (4 * rows), (star[1] - star[0]) / (16 * rows)


def of_answers(folder, engine, count):
    run = [peak(folder, path_query(count, it), ["run", "--engine", engine, "q.sql"] + PATH) for it in (1, ANSWERS)]
    words = ["session", "--engine", engine, "--script", "s.txt", "q.sql"] + PATH
    session = [peak(folder, path_query(count, ANSWERS), words, "open a\nnext a %d" % it) for it in (1, ANSWERS)]
    first = "open a0\nnext a0 1000\n"
    more = "".join("open a%d\nnext a%d %d\n" % (it, it, it) for it in range(1, CURSORS))
    cursors = [min(peak(folder, path_query(count, 2000), words, it) for _ in range(5)) for it in (first, first + more)]
    return (run[1] - run[0]) / ANSWERS, (session[1] - session[0]) / ANSWERS, (cursors[1] - cursors[0]) / (CURSORS - 1)


def main():
    os.environ["GLIBC_TUNABLES"] = ""
    [rows] = arguments(__doc__, 20000, least=10)
    program_at(PROGRAM)
    kinds = [(engine, count) for engine in ("part", "rec") for count in (1, 8)]
    with tempfile.TemporaryDirectory() as small, tempfile.TemporaryDirectory() as large:
        write_tables(small, rows)
        write_tables(large, 2 * rows)
        found = [of_node_rows(small, large, rows, *it) + of_answers(small, *it) for it in kinds]
    names = ["node row, path of 4", "node row, star of 16", "answer", "answer of a session", "cursor"]
    print("%-22s" % "bytes for each" + "".join("%14s" % ("%s, %d key%s" % (engine, count, "s" * (count > 1))) for engine, count in kinds))
    for name, figures in zip(names, zip(*found)):
        print("%-22s" % name + "".join("%14.0f" % it for it in figures))


if __name__ == "__main__":
    main()
