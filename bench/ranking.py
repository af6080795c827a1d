#!/usr/bin/env python3
"""Times ranked answers of the program beside ORDER BY .. LIMIT of sqlite3 and of PostgreSQL on the same tables.

usage: bench/ranking.py [ROWS]

ROWS is the number of rows of each table, 10000 if it is not given. There are three queries: a path of 4 tables, a star of 4 and a tree
of 7. Each join column has ROWS / 10 values, so that a row meets ten of the next table. For each query the first answer, the first 1,000
and the first 100,000 are asked for, and the sums of the answers are compared. The rows of the table in RESULTS.md are printed.

All figures are seconds of the processor, so that other processes count little:

- reading: a run of the program with `limit 0`; what ranking takes is what the other runs take above it
- part, rec: the whole run, with each engine: reading the files, ranking and writing to a pipe; the least of three
- writing: what the system took in the run with part, above that in `reading`: each answer is written as soon as it is known
- sqlite3: the query alone; the tables are in memory, with indexes on the join columns, and analysed
- PostgreSQL: the query alone, on tables that are loaded, indexed and analysed
- loading: what PostgreSQL took for COPY from the same files, for the indexes and for ANALYZE

bench/databases.py says how the databases are run. PostgreSQL is left out if it is not installed. A query is given up after 100 seconds.
The program is the one that `./anyk` has built on its first use, or the one that ANYK names. Its C library takes large blocks in huge
pages, as `./anyk` asks it to, unless GLIBC_TUNABLES says something else.
"""
import contextlib
import os
import resource
import subprocess
import sys
import tempfile

import databases

TOP = os.path.dirname(os.path.dirname(os.path.abspath(__file__)))
sys.path.append(os.path.join(TOP, "tests"))
from arguments import MEASURED as PROGRAM, arguments, program_at

[ROWS] = arguments(__doc__, 10000, least=1)

# each table with its columns, and the equalities
SHAPES = {
    "path of 4": ([("P1", "ab"), ("P2", "bc"), ("P3", "cd"), ("P4", "de")], ["P1.b = P2.b", "P2.c = P3.c", "P3.d = P4.d"]),
    "star of 4": ([("S1", "ab"), ("S2", "ac"), ("S3", "ad"), ("S4", "ae")], ["S1.a = S2.a", "S1.a = S3.a", "S1.a = S4.a"]),
    "tree of 7": ([("T1", "ab"), ("T2", "ac"), ("T3", "bd"), ("T4", "ce"), ("T5", "cf"), ("T6", "dg"), ("T7", "dh")],
                  ["T1.a = T2.a", "T1.b = T3.b", "T2.c = T4.c", "T2.c = T5.c", "T3.d = T6.d", "T3.d = T7.d"]),
}


def table(columns, draw):
    values = max(1, ROWS // 10)
    return [tuple(draw() % values for _ in columns) + (draw() % 1000000,) for _ in range(ROWS)]


def draws(x):
    while True:
        x = (x * 16807) % 2147483647
        yield x


def select(tables, equalities, limit):
    names = [name for name, _, _ in tables]
    return "select %s from %s where %s order by %s limit %d" % (
        ", ".join("%s.w" % it for it in names), ", ".join(names), " and ".join(equalities), " + ".join("%s.w" % it for it in names), limit)


def run(folder, tables, query, engine):
    """The least seconds of three runs, those of the system in them, and the sums of the answers."""
    with open(os.path.join(folder, "query.sql"), "w") as file:
        file.write(query + "\n")
    words = [PROGRAM, "run", "--engine", engine, "query.sql"] + ["%s=%s.csv" % (it, it) for it, _, _ in tables]
    best, system, done = None, None, None
    for _ in range(3):
        before = resource.getrusage(resource.RUSAGE_CHILDREN)
        done = subprocess.run(words, cwd=folder, capture_output=True, check=True)
        after = resource.getrusage(resource.RUSAGE_CHILDREN)
        calls = after.ru_stime - before.ru_stime
        took = after.ru_utime - before.ru_utime + calls
        best = took if best is None else min(best, took)
        system = calls if system is None else min(system, calls)
    return best, system, [sum(int(it) for it in line.split(",")) for line in done.stdout.decode().splitlines()[1:]]


class Slow:
    """A database that is asked one query after another, until it gives one up."""

    def __init__(self, name, ask):
        self.name, self.ask, self.gave_up = name, ask, ask is None

    def seconds(self, query, sums):
        found = None if self.gave_up else self.ask(query)
        if found is None:
            self.gave_up = True
            return f"over {databases.PATIENCE}" if self.ask else "-"
        assert [sum(it) for it in found[1]] == sums, "%s answers otherwise" % self.name
        return "%.2f" % found[0]


def measure(shape, tables, equalities, postgres):
    indexes = [(name, column) for name, columns, _ in tables for column in columns if any("%s.%s" % (name, column) in it for it in equalities)]
    with tempfile.TemporaryDirectory() as folder:
        for name, columns, rows in tables:
            with open(os.path.join(folder, name + ".csv"), "w") as file:
                file.write(",".join(columns) + "\n")
                file.writelines(",".join(map(str, row)) + "\n" for row in rows)
        loading = "%.2f" % postgres.load(folder, tables, indexes) if postgres else "-"
        others = [Slow("sqlite3", lambda query: databases.by_sqlite(tables, indexes, query)), Slow("PostgreSQL", postgres and postgres.query)]
        read, opening, _ = run(folder, tables, select(tables, equalities, 0), "part")
        for limit in (1, 1000, 100000):
            query = select(tables, equalities, limit)
            part, calls, sums = run(folder, tables, query, "part")
            rec, _, same = run(folder, tables, query, "rec")
            assert sums == same and len(sums) == limit and sums == sorted(sums), shape
            told = [it.seconds(query, sums) for it in others]
            row = (shape, f"{limit:,}", "%.2f" % read, "%.2f" % part, "%.2f" % max(0, calls - opening), "%.2f" % rec, *told, loading)
            print("| %s |" % " | ".join(row), flush=True)


def main():
    program_at(PROGRAM)
    os.environ.setdefault("GLIBC_TUNABLES", "glibc.malloc.hugetlb=1")
    print("%s rows a table\n" % f"{ROWS:,}")
    names = ("query", "answers asked for", "reading", "`--engine part`", "of it, writing", "`--engine rec`", "sqlite3", "PostgreSQL", "its loading")
    print("| %s |\n|%s" % (" | ".join(names), "---|" * len(names)))
    with databases.Postgres() if databases.is_installed() else contextlib.nullcontext() as postgres:
        for shape, (tables, equalities) in SHAPES.items():
            numbers = draws(20201)
            contents = [(name, (*columns, "w"), table(columns, lambda: next(numbers))) for name, columns in tables]
            measure(shape, contents, equalities, postgres)


if __name__ == "__main__":
    main()
