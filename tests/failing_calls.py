#!/usr/bin/env python3
"""Lets each call of the program to the system fail: the nth `open`, `read` or `write`, for n = 1, 2 and on, until a run makes fewer.

usage: tests/failing_calls.py [PROGRAM]

PROGRAM is ./anyk if it is not given. The inputs are those of tests/refused_memory.py. A file that is not there gives status 9, and
another failure to open or read one gives 10, each with the line that names the file and with no output. A failed write gives 11 with
its line, and the output is the records before it. A failure to write the error output changes no status. What is interrupted is done
again, within a bound, and what moves one byte goes on: the run is the whole one. A read that gives nothing is the end of a file, so
there the status is one of the table, and if it refuses the input nothing is written. A small C library is preloaded into the
program, and if none can be made nothing is tried.
"""
import errno
import os
import sys

from arguments import arguments, program_at
from preloaded import Failing, Skipped, first_inputs, in_turn, other_inputs

MOST = 100000
# The statuses of an input that is cut off.
OF_CUT = (0, 2, 3, 4, 5, 6, 7, 8, 14)


def is_whole(one, output, status, error):
    return (status, output, error) == (one.status, one.output, one.error)


def names_a_file(one, error, what):
    named = [it.split("=")[-1] for it in one.words]
    return error in [f"anyk: file {it}: {what}\n".encode() for it in named]


def is_missing(one, output, status, error):
    return status == 9 and output == b"" and names_a_file(one, error, "not found")


def is_unread(one, output, status, error):
    return status == 10 and output == b"" and names_a_file(one, error, "read failed")


def is_unwritten(one, output, status, error):
    """A first part of the output that ends with a record."""
    ends = output == b"" or output.endswith(b"\n")
    return status == 11 and one.output.startswith(output) and output != one.output and ends and error == b"anyk: write failed\n"


def is_unsaid(one, output, status, error):
    return (status, output) == (one.status, one.output) and one.error.startswith(error)


def is_cut(one, output, status, error):
    is_told = status in OF_CUT and (status == 0) == (error == b"") and (status == 0 or output == b"")
    return is_told or is_whole(one, output, status, error)


# What fails, how, how often from there on (0 is always), and what the run is to be.
WAYS = [
    *[("open", it, 1, is_missing if it == errno.ENOENT else is_unread) for it in (errno.ENOENT, errno.EACCES, errno.EMFILE, errno.ELOOP, errno.EIO)],
    *[("read", it, 1, is_unread) for it in (errno.EIO, errno.EISDIR, errno.EAGAIN, errno.EBADF)],
    *[("output", it, 1, is_unwritten) for it in (errno.EPIPE, errno.ENOSPC, errno.EAGAIN, errno.EIO, errno.EBADF, "none")],
    *[("errors", it, 0, is_unsaid) for it in (errno.EPIPE, errno.EIO, "none")],
    *[(it, errno.EINTR, 1, is_whole) for it in ("open", "read", "output", "errors")],
    *[(it, errno.EINTR, 5, is_whole) for it in ("read", "output")],
    ("read", errno.EINTR, 0, is_unread),
    ("output", errno.EINTR, 0, is_unwritten),
    *[(it, "short", count, is_whole) for it in ("read", "output", "errors") for count in (1, 0)],
    ("read", "none", 1, is_cut),
]


def tried(failing, one, kind, how, count, is_right):
    """How many runs there were in which the call failed, and what was wrong with some."""
    folder, runs, faults = failing.put(one), 0, []
    for nth in range(1, MOST):
        has_failed, status, output, error = failing.run(folder, one.words, kind, nth, count, how)
        if not has_failed:
            if not is_whole(one, output, status, error):
                faults.append(f"{one.name}: without a failure: status {status}, {output!r}, {error!r}")
            break
        runs += 1
        if not is_right(one, output, status, error):
            name = errno.errorcode.get(how, how)
            faults.append(f"{one.name}: {kind} {nth}, {count or 'ever'} times {name}: status {status}, {output!r}, {error!r}")
    return runs, faults


def main():
    program = program_at(*arguments(__doc__, "./anyk"))
    try:
        failing = Failing(program)
    except Skipped as why:
        print(f"failing calls: SKIPPED, {why}")
        return 0
    try:
        inputs = first_inputs() + other_inputs()
        done = in_turn([lambda one=one, way=way: tried(failing, one, *way) for one in inputs for way in WAYS])
    finally:
        failing.close()
    faults = [it for _, each in done for it in each]
    for it in faults[:10]:
        print(f"failing calls: {it}")
    runs = sum(it[0] for it in done)
    verdict = f"FAILED: {len(faults)}" if faults or not runs else "passed"
    print(f"failing calls: {len(inputs)} inputs, {len(WAYS)} ways to fail, {runs} runs: {verdict}")
    return 0 if verdict == "passed" else 1


if __name__ == "__main__":
    sys.exit(main())
