#!/usr/bin/env python3
"""Measures what an answer takes as more and more of them are asked for, with both engines.

usage: bench/growth.py [MOST] [ROWS]

The first 10,000 answers of a path of four tables are asked for, and then ten times as many until MOST, 10000000 if it is not given. Each
table has ROWS rows, 20000 if it is not given, whose join columns have ROWS / 10 values: about 1,000 times ROWS answers in all. The
figures of a row are those of a run less those of a run with `limit 1`, for each answer, so that reading and preparation are not in them:

- ns: processor nanoseconds, of the user and of the system; the least of three runs up to 1,000,000 answers, and of one run above
- bytes: the peak of memory

Both engines have to write the same bytes. The rows of the table in RESULTS.md are printed. The program is what `./anyk` has built on its
first use, or what ANYK names. Its C library takes large blocks in huge pages, as `./anyk` asks it to, unless GLIBC_TUNABLES says
something else.
"""
import os
import subprocess
import sys
import tempfile

TOP = os.path.dirname(os.path.dirname(os.path.abspath(__file__)))
sys.path.append(os.path.join(TOP, "tests"))
from arguments import MEASURED as PROGRAM, arguments, program_at

MOST, ROWS = arguments(__doc__, 10000000, 20000, least=10)
TABLES = [("P1", "ab"), ("P2", "bc"), ("P3", "cd"), ("P4", "de")]
QUERY = ("select P1.w, P2.w, P3.w, P4.w from P1, P2, P3, P4 where P1.b = P2.b and P2.c = P3.c and P3.d = P4.d "
         "order by P1.w + P2.w + P3.w + P4.w limit %d\n")

# A small process that calls the command: the peak of a process begins with that of the one that made it.
CALLER = """import hashlib, os, subprocess, sys
child = subprocess.Popen(sys.argv[1:], stdout=subprocess.PIPE)
told = hashlib.sha256()
while piece := child.stdout.read(1 << 16):
    told.update(piece)
_, status, used = os.wait4(child.pid, 0)
print(os.waitstatus_to_exitcode(status), used.ru_utime + used.ru_stime, used.ru_maxrss * 1024, told.hexdigest())"""


def draws(x):
    while True:
        x = (x * 16807) % 2147483647
        yield x


def write_tables(folder):
    draw = draws(20201)
    for name, columns in TABLES:
        with open(os.path.join(folder, name + ".csv"), "w") as file:
            file.write(",".join(columns) + ",w\n")
            file.writelines("%d,%d,%d\n" % (next(draw) % (ROWS // 10), next(draw) % (ROWS // 10), next(draw) % 1000000) for _ in range(ROWS))


def run(folder, engine, limit):
    """The least seconds of some runs, the least peak of memory in bytes, and what tells the bytes that were written."""
    with open(os.path.join(folder, "query.sql"), "w") as file:
        file.write(QUERY % limit)
    words = [PROGRAM, "run", "--engine", engine, "query.sql", *["%s=%s.csv" % (it, it) for it, _ in TABLES]]
    seconds, bytes_, told = [], [], set()
    for _ in range(3 if limit <= 1000000 else 1):
        called = subprocess.run([sys.executable, "-ISc", CALLER, *words], cwd=folder, capture_output=True, check=True, text=True)
        status, took, memory, written = called.stdout.split()
        if status != "0":
            sys.exit(f"growth: the program ended with {status}")
        seconds.append(float(took))
        bytes_.append(int(memory))
        told.add(written)
    return min(seconds), min(bytes_), told


def main():
    program_at(PROGRAM)
    os.environ.setdefault("GLIBC_TUNABLES", "glibc.malloc.hugetlb=1")
    names = ("answers", "part, ns", "rec, ns", "part, bytes", "rec, bytes")
    print("| %s |\n|%s" % (" | ".join(names), "---|" * len(names)))
    with tempfile.TemporaryDirectory() as folder:
        write_tables(folder)
        first = {it: run(folder, it, 1) for it in ("part", "rec")}
        limit = 10000
        while limit <= MOST:
            found = {it: run(folder, it, limit) for it in first}
            if len(found["part"][2] | found["rec"][2]) != 1:
                sys.exit(f"growth: the engines write different answers for limit {limit}")
            times = ["%d" % round((found[it][0] - first[it][0]) / limit * 1e9) for it in first]
            memory = ["%d" % round((found[it][1] - first[it][1]) / limit) for it in first]
            print("| %s |" % " | ".join([f"{limit:,}", *times, *memory]), flush=True)
            limit *= 10


if __name__ == "__main__":
    main()
