#!/usr/bin/env python3
"""Runs the program on generated tables that are too large to list their join, and compares the sums of its answers.

usage: tests/generated.py [PROGRAM] [ROWS]

PROGRAM is ./anyk if it is not given, and ROWS is 20000. Four tables in a row are made by a linear congruential generator
(1103515245 x + 12345 modulo 2^31), joined on their shared columns and ranked by the sum of their weights. The first 100 sums are
found here by keeping, for each value of a join column, the 100 least sums of what follows. With both engines `run` and `session`
are to give these over files, in this order, and `load`, which makes the tables itself, the first and the last of them. `run` is also to
give the first 100 sums of a union with the join of the first two tables. A small input whose sums are known is run first.
"""
import heapq
import os
import subprocess
import sys
import tempfile

from arguments import arguments, program_at

COLUMNS = ["a,b,w", "b,c,w", "c,d,w", "d,e,w"]
QUERY = ("select P1.a, P4.e from P1, P2, P3, P4 where P1.b = P2.b and P2.c = P3.c and P3.d = P4.d "
         "order by P1.w + P2.w + P3.w + P4.w limit 100")
UNION = QUERY.replace(" limit 100", " union all select P1.a, P2.c from P1, P2 where P1.b = P2.b order by P1.w + P2.w limit 100")
FIRST = 100


def draws(number):
    x = number
    while True:
        x = (1103515245 * x + 12345) % 2**31
        yield x


def tables_of(number, rows):
    """The rows of the four tables: two join fields and a weight."""
    draw = draws(number)
    values = rows // 100 + 1
    tables = []
    for _ in COLUMNS:
        table = []
        for _ in range(rows):
            v = next(draw) // 128
            table.append((v // 4096 % values, v % 4096 % values, next(draw) // 65536 % 1000))
        tables.append(table)
    return tables


def least_sums(tables):
    """The least sums of the join, in ascending order."""
    after = None
    for table in reversed(tables):
        sums = {}
        for left, right, weight in table:
            rest = [0] if after is None else after.get(right, [])
            sums.setdefault(left, []).extend(weight + it for it in rest)
        after = {key: heapq.nsmallest(FIRST, each) for key, each in sums.items()}
    return heapq.nsmallest(FIRST, [it for each in after.values() for it in each])


def printed(program, folder, words):
    done = subprocess.run([program] + words, cwd=folder, capture_output=True)
    return done.returncode, done.stdout.decode().splitlines()


def calls(engine, number, rows):
    """The arguments of each call, the column of its sums, or none if it prints a summary, and whether it is of the union."""
    files = ["P%d=P%d.csv" % (n, n) for n in range(1, 5)]
    yield ["run", "--engine", engine, "--ranks", "q.sql"] + files, 2, False
    yield ["run", "--engine", engine, "--ranks", "u.sql"] + files, 2, True
    yield ["session", "--engine", engine, "--ranks", "--script", "s.txt", "q.sql"] + files, 3, False
    yield ["load", "--engine", engine, "--number", str(number), "--rows", str(rows)], None, False


def agrees(program, number, rows):
    tables = tables_of(number, rows)
    wanted = least_sums(tables)
    of_union = sorted(wanted + least_sums(tables[:2]))[:FIRST]
    summary = ["rows %d" % (4 * rows), "answers %d" % len(wanted), "first %d" % wanted[0], "last %d" % wanted[-1]]
    with tempfile.TemporaryDirectory() as folder:
        for n, (columns, table) in enumerate(zip(COLUMNS, tables), 1):
            with open(os.path.join(folder, "P%d.csv" % n), "w") as file:
                file.write(columns + "\n" + "".join("%d,%d,%d\n" % row for row in table))
        for name, text in (("q.sql", QUERY + "\n"), ("u.sql", UNION + "\n"), ("s.txt", "open a\nnext a %d\n" % len(wanted))):
            with open(os.path.join(folder, name), "w") as file:
                file.write(text)
        for words, column, is_union in [it for engine in ("part", "rec") for it in calls(engine, number, rows)]:
            status, lines = printed(program, folder, words)
            sums = of_union if is_union else wanted
            same = lines == summary if column is None else [int(it.split(",")[column]) for it in lines[1:]] == sums
            if status != 0 or not same:
                print("generated tables, number %d, %d rows, %s: FAILED, status %d, %d lines" % (number, rows, " ".join(words), status, len(lines)))
                return False
    print("generated tables, number %d, %d rows: passed, %d answers, first %d, last %d" % (number, rows, len(wanted), wanted[0], wanted[-1]))
    return True


def main():
    program, rows = arguments(__doc__, "./anyk", 20000, least=1)
    program = program_at(program)
    small = least_sums(tables_of(1, 2))
    if (len(small), small[0], small[-1]) != (16, 1080, 2695):
        print("generated tables: FAILED, the generator is another")
        return 1
    return 0 if agrees(program, 1, 2) and agrees(program, 1, rows) else 1


if __name__ == "__main__":
    sys.exit(main())
