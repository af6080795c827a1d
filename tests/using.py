#!/usr/bin/env python3
"""Runs every command that a page shows together with what it prints, and compares what it prints with what the page shows.

usage: tests/using.py [PROGRAM [PAGE ..]]

PROGRAM is ./anyk if it is not given. It has to be built, and to be a launcher, since it is also called as `picture`. The pages are
those of PAGES if none is given: README.md, those of docs/, of bench/ and of the examples. Commands stand in
blocks that begin with a line ```console, each after `$ `, with what they print below them. A line that begins with `> ` goes on with
the command above it. Commands that a page names elsewhere are those of tests/documents.py.

- A command is run by bash, and what it prints is its output and then its error output.
- `echo $?` after it shows its status. If that is left out, the status has to be 0.

The commands of a page run in a folder of their own, which has all that the top folder has and takes the files that they write;
`./anyk` is PROGRAM there. A block that names a tool of OPTIONAL which is not installed is skipped with a line that says so, and so is a
block that reads a file which a skipped block would have written.
"""
import glob
import os
import re
import shlex
import shutil
import subprocess
import sys
import tempfile

from arguments import arguments, program_at

TOP = os.path.dirname(os.path.dirname(os.path.abspath(__file__)))
PAGES = ("README.md", "CONTRIBUTING.md", "docs/*.md", "bench/*.md", "examples/*.md", "examples/*/*.md")
OPTIONAL = ("awk", "gzip", "iconv")


def pages():
    """All pages, by their names from the top folder."""
    return [os.path.relpath(it, TOP) for pattern in PAGES for it in sorted(glob.glob(f"{TOP}/{pattern}"))]


def lines_of(page):
    with open(f"{TOP}/{page}", encoding="utf-8") as file:
        return file.read().split("\n")


def commands(page):
    """The commands of each block of the page: the number of the line, the command, and the lines below it."""
    block = None
    for number, line in enumerate(lines_of(page), 1):
        if block is None:
            block = [] if line == "```console" else None
        elif line == "```":
            yield block
            block = None
        elif line.startswith("$ "):
            block.append((number, line[2:], []))
        elif block and line.startswith("> ") and not block[-1][2]:
            block[-1] = (block[-1][0], f"{block[-1][1]}\n{line[2:]}", [])
        elif block:
            block[-1][2].append(line)
        else:
            sys.exit(f"using: {page}:{number}: a block begins with no command")
    if block is not None:
        sys.exit(f"using: {page}: a block has no end")


def folder_of_calls(room, program):
    """Makes the folder where commands run like the top folder, with the program as ./anyk."""
    for name in os.listdir(TOP):
        if name != "anyk" and not name.startswith("."):
            os.symlink(f"{TOP}/{name}", f"{room}/{name}")
    with open(f"{room}/anyk", "w", encoding="utf-8") as file:
        file.write(f'#!/bin/sh\nANYK_NO_BUILD=1 exec {shlex.quote(program)} "$@"\n')
    os.chmod(f"{room}/anyk", 0o755)


def missing_of(block, unwritten):
    """What a block needs and is not there: a tool, or a file that was not written."""
    text = "\n".join(command for _, command, _ in block)
    tools = [it for it in OPTIONAL if re.search(rf"\b{it} ", text) and not shutil.which(it)]
    return tools or [it for it in unwritten - set(written_by(block)) if re.search(rf"(?<![\w./]){re.escape(it)}(?![\w.])", text)]


def written_by(block):
    """The files that the commands of a block write by `>`."""
    return re.findall(r"(?<![<>0-9])> ([\w.]+)", "\n".join(command for _, command, _ in block))


def printed(command, room, status):
    """What a command prints, and the status that is known after it."""
    if command == "echo $?":
        return f"{status}\n", None
    ran = subprocess.run(["bash", "-c", command], cwd=room, stdin=subprocess.DEVNULL, capture_output=True, timeout=60)
    return (ran.stdout + ran.stderr).decode("utf-8", "backslashreplace"), ran.returncode


def run_block(page, block, room):
    """How many commands of a block print something else, or end with a status that the page does not show; and how many ran."""
    status, failed, runs = None, 0, 0
    for place, (number, command, below) in enumerate(block):
        shown = "".join(f"{line}\n" for line in below)
        got, status = printed(command, room, status)
        runs += status is not None
        told = [it[1] for it in block[place + 1 : place + 2]] == ["echo $?"]
        if got != shown or (status not in (None, 0) and not told):
            failed += 1
            print(f"using: {page}:{number}: FAILED\n  {command}\n  shown: {shown!r}\n  got:   {got!r}, status {status}")
    return failed, runs


def run_page(page, program):
    """How many commands of a page failed, how many ran, and how many of its blocks were skipped."""
    runs = failed = skipped = 0
    unwritten = set()
    with tempfile.TemporaryDirectory(prefix="anyk-using-") as room:
        folder_of_calls(room, program)
        for block in commands(page):
            missing = missing_of(block, unwritten)
            if missing:
                skipped += 1
                unwritten.update(written_by(block))
                print(f"using: {page}:{block[0][0]}: SKIPPED, there is no {' and no '.join(sorted(missing))} here")
                continue
            unwritten.difference_update(written_by(block))
            more, ran = run_block(page, block, room)
            failed, runs = failed + more, runs + ran
    return failed, runs, skipped


def main():
    program, *named = arguments(__doc__, f"{TOP}/anyk", takes_more=True)
    program = program_at(program)
    results = [run_page(page, program) for page in named or pages()]
    failed, runs, skipped = (sum(it) for it in zip(*results))
    if runs == 0:
        sys.exit("using: no page shows a command")
    of_skipped = f", {skipped} blocks skipped" if skipped else ""
    print(f"using: {runs} commands that the pages show{of_skipped}: " + (f"FAILED: {failed}" if failed else "passed"))
    return 1 if failed else 0


if __name__ == "__main__":
    sys.exit(main())
