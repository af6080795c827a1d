#!/usr/bin/env python3
"""Measures how the time, the instructions and the allocations of preparation grow with the number of rows, beside sqlite3 and PostgreSQL.

usage: bench/preparing.py [ROWS ..]

Each ROWS is the number of rows of each of two tables, 10000 100000 1000000 if none is given. The query joins them on one column and
asks for one answer. There are five pairs of tables: `sorted`, whose rows are in the order of the join column's ROWS / 4 values; `few`,
with 1,000 values at random; `random`, with ROWS / 4 values at random, where each step from a row to its group goes to another place
of memory; `distinct`, where each row meets one other, by ROWS values in order; and `texts`, the same with texts in place of numbers. Preparation is the whole command less one that reads the same tables and prepares nothing (a query that no row passes). Times
are the processor's, in nanoseconds for each row of both tables: the least of several runs, and one run for the databases. The columns:

- preparing, and factor: preparation, and its time for a row against that of the smallest tables
- whole: the whole command, with reading
- sqlite3: the same query alone; the tables are in memory, with indexes on the join column, and analysed; and with that loading: the
  inserts of rows that Python has read already, the indexes and ANALYZE
- PostgreSQL: the query alone, on tables that are loaded, indexed and analysed; and with COPY, the indexes and ANALYZE
- instructions a row: counted by `valgrind --tool=callgrind`, if valgrind is installed
- allocations: counted by `valgrind --tool=memcheck`, if besides a table has at most COUNTED rows

bench/databases.py says how the databases are run. PostgreSQL is left out if it is not installed. A query is given up after 100 seconds.
The program is the one that `./anyk` has built on its first use, or the one that ANYK names. Its C library takes large blocks in huge
pages, as `./anyk` asks it to, unless GLIBC_TUNABLES says something else.
"""
import contextlib
import os
import re
import resource
import shutil
import subprocess
import sys
import tempfile

import databases

TOP = os.path.dirname(os.path.dirname(os.path.abspath(__file__)))
sys.path.append(os.path.join(TOP, "tests"))
from arguments import MEASURED as PROGRAM, arguments, program_at

JOIN = "select R.a, S.c from R, S where R.b = S.b order by R.w + S.w limit 1"
READ = "select R.a, S.c from R, S where R.b = S.b and R.a = '' and S.c = '' order by R.w + S.w limit 1"
COUNTED = 100000
INDEXES = [("R", "b"), ("S", "b")]

# the value of the join column in a row, by a number that is drawn for the row
KEYS = {
    "sorted": lambda rows, row, drawn: row // 4,
    "few": lambda rows, row, drawn: drawn % 1000,
    "random": lambda rows, row, drawn: drawn % max(1, rows // 4),
    "distinct": lambda rows, row, drawn: row,
    "texts": lambda rows, row, drawn: "k%07d" % row,
}


def draws(x):
    while True:
        x = (x * 16807) % 2147483647
        yield x


def made_tables(rows, order):
    draw = draws(7)

    def made(is_first):
        for row in range(rows):
            key = KEYS[order](rows, row, next(draw))
            weight = next(draw) % 1000
            yield (row % 1000, key, weight) if is_first else (key, row % 1000, weight)

    return [("R", ("a", "b", "w"), list(made(True))), ("S", ("b", "c", "w"), list(made(False)))]


def write_tables(folder, tables):
    for name, columns, rows in tables:
        with open(os.path.join(folder, name + ".csv"), "w") as file:
            file.write(",".join(columns) + "\n")
            file.writelines("%s,%s,%s\n" % row for row in rows)


def words(folder, query):
    with open(os.path.join(folder, "query.sql"), "w") as file:
        file.write(query + "\n")
    return [PROGRAM, "run", "query.sql", "R=R.csv", "S=S.csv"]


def seconds(folder, runs):
    """The least processor time of a run that only reads, and of one that prepares too. The two take turns."""
    least = {READ: None, JOIN: None}
    for _ in range(runs):
        for query in least:
            before = resource.getrusage(resource.RUSAGE_CHILDREN)
            subprocess.run(words(folder, query), cwd=folder, capture_output=True, check=True)
            after = resource.getrusage(resource.RUSAGE_CHILDREN)
            took = after.ru_utime + after.ru_stime - before.ru_utime - before.ru_stime
            least[query] = took if least[query] is None else min(least[query], took)
    return least[READ], least[JOIN]


def told_by(tool, pattern, folder, query):
    command = ["valgrind", "--tool=" + tool] + (["--callgrind-out-file=/dev/null"] if tool == "callgrind" else []) + words(folder, query)
    told = subprocess.run(command, cwd=folder, capture_output=True, check=True).stderr.decode()
    return int(re.search(pattern, told).group(1).replace(",", ""))


def difference(tool, pattern, folder):
    return told_by(tool, pattern, folder, JOIN) - told_by(tool, pattern, folder, READ)


def counts(folder, rows):
    """The instructions a row and the allocations, if they are counted."""
    if not shutil.which("valgrind"):
        return "-", "-"
    counted = "%.0f" % (difference("callgrind", r"Collected : (\d+)", folder) / (2 * rows))
    if rows > COUNTED:
        return counted, "-"
    return counted, "%d" % difference("memcheck", r"total heap usage: ([\d,]+) allocs", folder)


def each(seconds, rows):
    """Nanoseconds for each row of both tables, as the page has them. A bound that was passed stays one."""
    return "%.0f" % (seconds / (2 * rows) * 1e9)


def beside(folder, tables, rows, postgres):
    """What sqlite3 takes for each row, and PostgreSQL, each without and with its loading."""
    late = "over " + each(databases.PATIENCE, rows)
    found = databases.by_sqlite(tables, INDEXES, JOIN)
    yield each(found[0], rows) if found else late
    yield each(found[0] + found[2], rows) if found else late
    if not postgres:
        yield from ("-", "-")
        return
    loading = postgres.load(folder, tables, INDEXES)
    found = postgres.query(JOIN)
    yield each(found[0], rows) if found else late
    yield each(found[0] + loading, rows) if found else late


def main():
    os.environ.setdefault("GLIBC_TUNABLES", "glibc.malloc.hugetlb=1")
    sizes = arguments(__doc__, 10000, 100000, 1000000, least=1, takes_more=True)
    sizes = sizes[:len(sys.argv) - 1] or sizes
    program_at(PROGRAM)
    names = ("order", "rows", "preparing", "whole", "sqlite3", "sqlite3 with loading", "PostgreSQL", "PostgreSQL with loading", "factor", "instructions a row", "allocations")
    print("| %s |\n|%s" % (" | ".join(names), "---|" * len(names)))
    with databases.Postgres() if databases.is_installed() else contextlib.nullcontext() as postgres:
        for order in KEYS:
            first = None
            for rows in sizes:
                with tempfile.TemporaryDirectory() as folder:
                    tables = made_tables(rows, order)
                    write_tables(folder, tables)
                    read, whole = seconds(folder, max(11, min(101, 2000000 // rows)))
                    first = first or (whole - read) / rows
                    row = (order, f"{rows:,}", each(whole - read, rows), each(whole, rows), *beside(folder, tables, rows, postgres),
                           "%.1f" % ((whole - read) / rows / first), *counts(folder, rows))
                    print("| %s |" % " | ".join(row), flush=True)


if __name__ == "__main__":
    main()
