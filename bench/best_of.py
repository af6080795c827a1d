#!/usr/bin/env python3
"""Measures the first best answers of the rows of an item beside the first answers.

usage: bench/best_of.py [ROWS] [ANSWERS]

ROWS is the number of rows of each of two tables, 1000000 if it is not given, and ANSWERS how many answers are asked for, 1000. The
tables and the query are those of bench/preparing.py, whose orders are all measured: `run`, and `run --best-of R` with the same limit.
The figures are instructions, in millions, counted by `valgrind --tool=callgrind`, and what the second is of the first. The program is
what `./anyk` has built on its first use, or what ANYK names.
"""
import re
import subprocess
import tempfile

import preparing

OPTIONS = {"run": [], "--best-of": ["--best-of", "R"]}


def instructions(folder, options, answers):
    """The instructions of a run with these options, in all."""
    program, command, *files = preparing.words(folder, preparing.JOIN.replace("limit 1", f"limit {answers}"))
    words = ["valgrind", "--tool=callgrind", "--callgrind-out-file=/dev/null", program, command, *options, *files]
    told = subprocess.run(words, cwd=folder, capture_output=True, check=True).stderr.decode()
    return int(re.search(r"Collected : (\d+)", told).group(1))


def main():
    rows, answers = preparing.arguments(__doc__, 1000000, 1000, least=1)
    preparing.program_at(preparing.PROGRAM)
    print("| order | rows | answers | run | --best-of R | ratio |\n|---|---|---|---|---|---|")
    for order in preparing.KEYS:
        with tempfile.TemporaryDirectory() as folder:
            preparing.write_tables(folder, preparing.made_tables(rows, order))
            all_of, best_of = (instructions(folder, it, answers) for it in OPTIONS.values())
            print(f"| {order} | {rows:,} | {answers:,} | {all_of / 1e6:,.0f} | {best_of / 1e6:,.0f} | {best_of / all_of:.2f} |", flush=True)


if __name__ == "__main__":
    main()
