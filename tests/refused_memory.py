#!/usr/bin/env python3
"""Refuses the program its memory: the nth request for it, for n = 1, 2 and on, until a run asks for less.

usage: tests/refused_memory.py [PROGRAM]

PROGRAM is ./anyk if it is not given. A join, a star and a session are run with each engine, then each other command, each option
and some refusals. First the nth request alone is refused, then the nth and all after it. Such a run ends with status 12, its line or
nothing on the error output, and a first part of the output; or with the status, the output and the error output of the whole run,
where the program can do without. A small C library is preloaded into the program, and if none can be made this part is not tried.

And a header of 8,388,608 fields too many is refused with at most 35 bytes of memory a field: the fields are counted before they are
copied, which would take 24 bytes more for each.
"""
import os
import subprocess
import sys
import tempfile

from arguments import arguments, program_at
from preloaded import Failing, Skipped, first_inputs, in_turn, other_inputs, real_program

LINES = (b"", b"anyk: out of memory\n")
MOST = 100000
FIELDS, MOST_A_FIELD = 2**23, 35


def wrong(one, status, output, error):
    """What is wrong with a run in which memory was refused, or nothing."""
    if (status, output, error) == (one.status, one.output, one.error):
        return ""
    if status != 12:
        return f"status {status}, {error!r}"
    if error not in LINES:
        return f"status 12 with {error!r}"
    return "" if one.output.startswith(output) else f"its output is no first part of the whole: {output!r}"


def tried(failing, one, count):
    """How many runs of an input there were, how many ended with status 12, and what was wrong with some."""
    folder, runs, refused, faults = failing.put(one), 0, 0, []
    for nth in range(1, MOST):
        has_failed, status, output, error = failing.run(folder, one.words, "memory", nth, count)
        if not has_failed:
            if (status, output, error) != (one.status, one.output, one.error):
                faults.append(f"{one.name}: with all memory: status {status}, {output!r}, {error!r}")
            break
        runs += 1
        refused += status == 12
        fault = wrong(one, status, output, error)
        if fault:
            faults.append(f"{one.name}: request {nth}{'' if count else ' and all after it'}: {fault}")
    return runs, refused, faults


def counts_first(program):
    """Whether a header of too many fields is refused without a copy of each of them."""
    with tempfile.TemporaryDirectory() as folder:
        with open(f"{folder}/q.sql", "w") as file:
            file.write("select R.a from R")
        with open(f"{folder}/R.csv", "wb") as file:
            file.write(b"," * FIELDS)
        ran = subprocess.Popen([program, "run", "q.sql", "R=R.csv"], cwd=folder, stdout=subprocess.DEVNULL, stderr=subprocess.PIPE)
        with ran.stderr:
            error = ran.stderr.read()
        _, waited, used = os.wait4(ran.pid, 0)
        ran.returncode = os.waitstatus_to_exitcode(waited)
    each = used.ru_maxrss * 1024 / FIELDS
    is_right = (ran.returncode, error) == (8, b"anyk: table R: more than 64 columns\n") and each <= MOST_A_FIELD
    print(f"refused memory: a header of {FIELDS} fields: {each:.0f} bytes a field: {'passed' if is_right else 'FAILED'}")
    return is_right


def main():
    program = program_at(*arguments(__doc__, "./anyk"))
    try:
        is_counted = counts_first(real_program(program))
        failing = Failing(program)
    except Skipped as why:
        print(f"refused memory: SKIPPED, {why}")
        return 0
    try:
        inputs = first_inputs() + other_inputs()
        done = in_turn([lambda one=one, count=count: tried(failing, one, count) for one in inputs for count in (1, 0)])
    finally:
        failing.close()
    faults = [it for _, _, each in done for it in each]
    for it in faults[:5]:
        print(f"refused memory: {it}")
    runs, refused = sum(it[0] for it in done), sum(it[1] for it in done)
    verdict = f"FAILED: {len(faults)}" if faults or not runs else "passed"
    print(f"refused memory: {len(inputs)} inputs, {runs} runs, {refused} of them out of memory: {verdict}")
    return 0 if verdict == "passed" and is_counted else 1


if __name__ == "__main__":
    sys.exit(main())
