#!/usr/bin/env python3
"""Measures making and checking a certificate beside finding the answers.

usage: bench/certificates.py [ROWS] [PATH_ROWS] [ANSWERS]

ROWS is the number of rows of each of two tables, 1000000 if it is not given; the tables and the query are those of bench/preparing.py in
each of its orders, asked for the first answer and for the first ANSWERS, 100000 if that is not given. PATH_ROWS is the number of rows of
each table of the path of 4, the star of 4 and the tree of 7 of bench/ranking.py, 10000, asked for the first 1,000 and the first ANSWERS. For
each there are three whole commands: `run`, `prove`, and `verify` of what `prove` wrote. The figures are instructions, in millions,
counted by `valgrind --tool=callgrind`, what the second and the third are of the first, and the peak of memory of each, in MB, without
valgrind. The program is what `./anyk` has built on its first use, or what ANYK names.
"""
import os
import re
import subprocess
import sys
import tempfile

import preparing

ROWS, PATH_ROWS, ANSWERS = preparing.arguments(__doc__, 1000000, 10000, 100000, least=1)
# (bench/ranking.py reads its own argument when it is loaded)
sys.argv[1:] = [str(PATH_ROWS)]
import ranking


# A small process that calls the command: the peak of a process begins with that of the one that made it.
CALLER = """import os, subprocess, sys
with open("out", "wb") as out:
    child = subprocess.Popen(sys.argv[1:], stdout=out)
    _, status, used = os.wait4(child.pid, 0)
print(os.waitstatus_to_exitcode(status), used.ru_maxrss)"""


def peak(folder, words):
    """The greatest memory of a command, in MB, and what it wrote."""
    called = subprocess.run([sys.executable, "-ISc", CALLER, *words], cwd=folder, capture_output=True, check=True)
    status, memory = map(int, called.stdout.split())
    if status:
        sys.exit(f"certificates: {' '.join(words[1:3])} ended with {status}")
    with open(os.path.join(folder, "out"), "rb") as out:
        return memory // 1024, out.read()


def instructions(folder, words):
    words = ["valgrind", "--tool=callgrind", "--callgrind-out-file=/dev/null", *words]
    told = subprocess.run(words, cwd=folder, capture_output=True, check=True).stderr.decode()
    return int(re.search(r"Collected : (\d+)", told).group(1))


def measured(folder, names):
    """For each of the three commands its instructions and its memory. `verify` has to print what `run` prints."""
    files = ["query.sql", *[f"{it}={it}.csv" for it in names]]
    outputs = []
    for command in (["run"], ["prove"], ["verify", "--proof", "proof.txt"]):
        words = [preparing.PROGRAM, *command, *files]
        memory, output = peak(folder, words)
        if command == ["prove"]:
            with open(os.path.join(folder, "proof.txt"), "wb") as file:
                file.write(output)
        outputs.append(output)
        yield instructions(folder, words), memory
    if outputs[0] != outputs[2]:
        sys.exit("certificates: verify prints something else than run")


def tell(name, rows, answers, folder, names):
    (run, run_mb), (prove, prove_mb), (verify, verify_mb) = measured(folder, names)
    columns = (name, f"{rows:,}", f"{answers:,}", *[f"{it / 1e6:,.0f}" for it in (run, prove, verify)], f"{prove / run:.2f}", f"{verify / run:.2f}",
               *[f"{it:,}" for it in (run_mb, prove_mb, verify_mb)])
    print("| %s |" % " | ".join(columns), flush=True)


def two_tables(order):
    tables = preparing.made_tables(ROWS, order)
    for answers in (1, ANSWERS):
        with tempfile.TemporaryDirectory() as folder:
            preparing.write_tables(folder, tables)
            preparing.words(folder, preparing.JOIN.replace("limit 1", f"limit {answers}"))
            tell(f"two tables, {order}", ROWS, answers, folder, ("R", "S"))


def several(name, shape):
    names, equalities = shape
    draw = ranking.draws(20201)
    tables = [(table, [*columns, "w"], ranking.table(columns, lambda: next(draw))) for table, columns in names]
    for answers in (1000, ANSWERS):
        with tempfile.TemporaryDirectory() as folder:
            for table, columns, rows in tables:
                with open(os.path.join(folder, table + ".csv"), "w") as file:
                    file.write(",".join(columns) + "\n")
                    file.writelines(",".join(map(str, it)) + "\n" for it in rows)
            with open(os.path.join(folder, "query.sql"), "w") as file:
                file.write(ranking.select(tables, equalities, answers) + "\n")
            tell(name, PATH_ROWS, answers, folder, [table for table, _ in names])


def main():
    preparing.program_at(preparing.PROGRAM)
    columns = ("query", "rows", "answers", "run", "prove", "verify", "prove / run", "verify / run", "run MB", "prove MB", "verify MB")
    print("| %s |\n|%s" % (" | ".join(columns), "---|" * len(columns)))
    for order in preparing.KEYS:
        two_tables(order)
    for name, shape in ranking.SHAPES.items():
        several(name, shape)


if __name__ == "__main__":
    main()
