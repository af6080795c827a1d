#!/usr/bin/env python3
"""Measures the first answers of three queries in one ranking beside three runs of one query each.

usage: bench/union.py [ROWS] [ANSWERS]

ROWS is the number of rows of each of two tables, 100000 if it is not given, and ANSWERS how many answers are asked for, 1000. The
tables are those of bench/preparing.py in each of its orders. The queries join the two tables with each other, and each of them with itself.
`single` is the sum of three runs, each with this limit; `union` is one run of all three queries with `UNION ALL` between them and the same
limit. The figures are instructions, in millions, counted by `valgrind --tool=callgrind`, and what the second is of the first, which
is to be at most 1.3. The union reads each table once, and prepares it for each query. The program is what `./anyk` has built on
its first use, or what ANYK names.
"""
import re
import subprocess
import tempfile

import preparing

BRANCHES = (
    "select R.a, S.c from R, S where R.b = S.b order by R.w + S.w",
    "select x.a, y.a from R x, R y where x.b = y.b order by x.w + y.w",
    "select x.c, y.c from S x, S y where x.b = y.b order by x.w + y.w",
)


def instructions(folder, query):
    """The instructions of a run, in all."""
    words = ["valgrind", "--tool=callgrind", "--callgrind-out-file=/dev/null", *preparing.words(folder, query)]
    told = subprocess.run(words, cwd=folder, capture_output=True, check=True).stderr.decode()
    return int(re.search(r"Collected : (\d+)", told).group(1))


def main():
    rows, answers = preparing.arguments(__doc__, 100000, 1000, least=1)
    preparing.program_at(preparing.PROGRAM)
    print("| order | rows | answers | single | union | ratio |\n|---|---|---|---|---|---|")
    for order in preparing.KEYS:
        with tempfile.TemporaryDirectory() as folder:
            preparing.write_tables(folder, preparing.made_tables(rows, order))
            single = sum(instructions(folder, f"{it} limit {answers}") for it in BRANCHES)
            union = instructions(folder, f"{' union all '.join(BRANCHES)} limit {answers}")
            print(f"| {order} | {rows:,} | {answers:,} | {single / 1e6:,.0f} | {union / 1e6:,.0f} | {union / single:.2f} |", flush=True)


if __name__ == "__main__":
    main()
