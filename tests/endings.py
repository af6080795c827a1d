#!/usr/bin/env python3
"""Each tool tells that its output is full, by a line and a status of its own, also where what it
printed is short enough to stay in a buffer until the end.

usage: tests/endings.py
"""
import os
import re
import subprocess
import sys

TOP = os.path.dirname(os.path.dirname(os.path.abspath(__file__)))
TOOLS = ("check", "check_proof", "hints", "merge", "notes", "pairs", "picture", "query", "seal",
         "weights")
# Python's own status, where it could not write at its end.
LATE = 120


def ending(tool, output):
    """The status of `--help` of a tool, and what it said of it."""
    call = [sys.executable, "-ISB", f"{TOP}/tools/{tool}.py", "--help"]
    with open(output, "wb") as file:
        # Without PYTHONUNBUFFERED, which would have each line written at once.
        found = subprocess.run(call, stdout=file, stderr=subprocess.PIPE, env={}, check=False)
    return found.returncode, found.stderr.decode()


def main():
    faults = []
    for tool in TOOLS:
        status, said = ending(tool, os.devnull)
        if status or said:
            faults.append(f"{tool} --help: status {status}: {said}")
        status, said = ending(tool, "/dev/full")
        if status in (0, LATE) or not re.fullmatch(r"[a-z-]+: .*\n", said):
            faults.append(f"{tool} --help > /dev/full: status {status}: {said}")
    print(*(it.rstrip() + "\n" for it in faults), sep="", end="")
    print(f"endings: {'FAILED' if faults else 'passed'}: {len(TOOLS)} tools")
    return 1 if faults else 0


if __name__ == "__main__":
    sys.exit(main())
