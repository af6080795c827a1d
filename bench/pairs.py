#!/usr/bin/env python3
"""Compares what an answer takes with this program and with another one, in pairs of runs on one processor.

usage: bench/pairs.py OTHER [PAIRS] [ANSWERS]

OTHER is a program that takes the same words, such as an earlier `anyk`. PAIRS is how many pairs of runs are made for each query and engine,
31 if it is not given, and ANSWERS how many answers are asked for, 100000. The queries are a path and a star of four tables of 10,000 rows:
each row of the path meets about ten of the next table, and each one of the star about three of each other table.

A figure is the median, over all pairs, of what this program takes over what the other takes: the time of a run less that of a run with
`limit 1`, so that reading and preparation are not in it. `user` is the time of the user alone, and `all` that of the system too. Both
programs run in turn on the last of the processors that the script may use, so that a change of the machine's pace meets both, and write
to /dev/null; before that both have to write the same bytes. The program is what `./anyk` has built on its first use, or what ANYK names.
"""
import os
import statistics
import subprocess
import sys
import tempfile

TOP = os.path.dirname(os.path.dirname(os.path.abspath(__file__)))
sys.path.append(os.path.join(TOP, "tests"))
from arguments import MEASURED as PROGRAM, arguments, program_at, refuse

ROWS = 10000
TABLES = ["T%d" % it for it in range(1, 5)]
SELECT = "select T1.w, T2.w, T3.w, T4.w from T1, T2, T3, T4 where %s order by T1.w + T2.w + T3.w + T4.w limit %d\n"
# The conditions of each query, and how many values a column has.
QUERIES = {
    "path of 4": ("T1.b = T2.a and T2.b = T3.a and T3.b = T4.a", ROWS // 10),
    "star of 4": ("T1.a = T2.a and T1.a = T3.a and T1.a = T4.a", ROWS // 3),
}


def draws(x):
    while True:
        x = (x * 16807) % 2147483647
        yield x


def write_tables(folder, values):
    draw = draws(20201)
    for name in TABLES:
        with open(os.path.join(folder, name + ".csv"), "w") as file:
            file.write("a,b,w\n")
            file.writelines("%d,%d,%d\n" % (next(draw) % values, next(draw) % values, next(draw) % 1000000) for _ in range(ROWS))


def words(program, engine, limit):
    return [program, "run", "--ranks", "--engine", engine, "%d.sql" % limit, *["%s=%s.csv" % (it, it) for it in TABLES]]


def times(folder, command):
    """The seconds of the user, and those of the user and of the system, that a run takes."""
    ran = subprocess.Popen(command, cwd=folder, stdin=subprocess.DEVNULL, stdout=subprocess.DEVNULL)
    _, status, used = os.wait4(ran.pid, 0)
    ran.returncode = os.waitstatus_to_exitcode(status)
    if ran.returncode:
        sys.exit("pairs: %s ends with status %d" % (command[0], ran.returncode))
    return used.ru_utime, used.ru_utime + used.ru_stime


def of_answers(folder, program, engine, limit):
    """Both times of the answers after the first."""
    return [whole - first for whole, first in zip(times(folder, words(program, engine, limit)), times(folder, words(program, engine, 1)))]


def ratio(one, other):
    """What one time is of another, which may be too short to be counted."""
    return one / other if other > 0 else float("nan")


def medians(folder, programs, engine, limit, pairs):
    """The median over all pairs of the ratio of both times."""
    written = [subprocess.run(words(it, engine, limit), cwd=folder, stdin=subprocess.DEVNULL, capture_output=True, check=True).stdout for it in programs]
    if written[0] != written[1]:
        sys.exit("pairs: the programs write different answers")
    found = [[of_answers(folder, it, engine, limit) for it in programs] for _ in range(pairs)]
    return [statistics.median(ratio(one[at], other[at]) for one, other in found) for at in (0, 1)]


def main():
    other, pairs, limit = arguments(__doc__, "", 31, 100000, least=1)
    if not other:
        refuse("another program is needed here; --help says more")
    programs = [program_at(PROGRAM), program_at(other)]
    os.environ.setdefault("GLIBC_TUNABLES", "glibc.malloc.hugetlb=1")
    os.sched_setaffinity(0, {max(os.sched_getaffinity(0))})
    print("| query | part, user | part, all | rec, user | rec, all |\n|---|---:|---:|---:|---:|")
    for query, (conditions, values) in QUERIES.items():
        with tempfile.TemporaryDirectory() as folder:
            write_tables(folder, values)
            for it in (1, limit):
                with open(os.path.join(folder, "%d.sql" % it), "w") as file:
                    file.write(SELECT % (conditions, it))
            found = [it for engine in ("part", "rec") for it in medians(folder, programs, engine, limit, pairs)]
        print("| %s | %s |" % (query, " | ".join("%.2f" % it for it in found)), flush=True)


if __name__ == "__main__":
    main()
