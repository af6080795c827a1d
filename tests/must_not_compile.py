#!/usr/bin/env python3
"""Tries the cases that must not compile: what stands on an arena cannot outlive it.

usage: tests/must_not_compile.py

The cases are the pages `crates/NAME/must-fail/*.md`. A page has blocks of code: its imports, blocks that are refused, each below a sentence
that names the error as `borrow-e0597`, and blocks that compile. All of them become one crate in a temporary folder, over copies of the crates
that it names, and `rt check` reads it. No library is built there, so `rt` says what is wrong before any proof, in seconds. It has to
find the named error in each block that is refused, and no other error.
"""
import glob
import os
import re
import shutil
import signal
import subprocess
import sys
import tempfile

sys.dont_write_bytecode = True
from arguments import TOP, arguments
from borders import lines_of_crates, reached

# The seconds that a page may take. It takes about ten, and more where `rt` first copies what it keeps of other checks, or where the
# machine is busy. If nothing were refused, `rt` would go on to build the libraries.
LIMIT = 240
CASE = "arena_case"


def blocks_of(page):
    """The blocks of a page: the error that each has to meet, or None, and its text."""
    with open(page, encoding="utf-8") as it:
        parts = re.split(r"^```(?:rust)?\n", it.read(), flags=re.M)
    for above, text in zip(parts[::2], parts[1::2]):
        refused = re.search(r"refused as `([^`]+)`:\s*\Z", above)
        yield refused and refused[1], text


def written(blocks):
    """The text of a crate with these blocks, and for each block its first line and the one after it."""
    text, places = "//! Cases that must not compile.\n#![tactic(auto)]\n", []
    for _, block in blocks:
        first = text.count("\n") + 1
        text += block
        places.append((first, text.count("\n") + 1))
    return text, places


def made(room, text):
    """Makes a repository of the case and of the crates below it."""
    lines, names = lines_of_crates(), sorted({*re.findall(r"^use (\w+)", text, re.M)} - {"std"})
    lines[CASE] = names
    below = [it for it in lines if it in reached(CASE, lines)]
    for crate in below:
        for part in ("src", "specs", "proofs"):
            if os.path.isdir(f"{TOP}/crates/{crate}/{part}"):
                shutil.copytree(f"{TOP}/crates/{crate}/{part}", f"{room}/crates/{crate}/{part}")
    os.makedirs(f"{room}/crates/{CASE}/src")
    with open(f"{room}/crates/{CASE}/src/lib.rt", "w", encoding="utf-8") as it:
        it.write(text)
    with open(f"{room}/crates.txt", "w", encoding="utf-8") as it:
        it.writelines(f"{crate}: {' '.join(lines[crate])}\n" for crate in [*below, CASE])
    shutil.copy2(f"{TOP}/HANDLES", f"{room}/HANDLES")
    subprocess.run(["git", "init", "-q", "."], cwd=room, check=True)


def checked(room):
    """What `rt check` says of the case, or None if it went on for too long."""
    how = {"cwd": f"{room}/crates/{CASE}", "stdin": subprocess.DEVNULL, "stdout": subprocess.PIPE, "stderr": subprocess.STDOUT}
    ran = subprocess.Popen(["rt", "check", "--jobs", "1"], start_new_session=True, errors="replace", **how)
    try:
        return ran.communicate(timeout=LIMIT)[0]
    except subprocess.TimeoutExpired:
        return None
    finally:
        if ran.poll() is None:
            os.killpg(ran.pid, signal.SIGKILL)
            ran.communicate()


def why_not(page):
    """Why the blocks of a page are not refused and accepted as it says, or None."""
    blocks = list(blocks_of(page))
    if not any(code for code, _ in blocks):
        return "it has no block that is refused"
    text, places = written(blocks)
    with tempfile.TemporaryDirectory(prefix="anyk-cases-") as room:
        made(room, text)
        said = checked(room)
    if said is None:
        return f"rt found no error in {LIMIT} seconds"
    found = [(int(line), code) for line, code in re.findall(r"^src/lib\.rt:(\d+):\d+: error\[([\w-]+)\]", said, re.M)]
    wanted = [[(code, first)] if code else [] for (code, _), (first, _) in zip(blocks, places)]
    met = [[(code, first) for line, code in found if first <= line < end] for first, end in places]
    wrong = [f"the block at line {it[0][1]} meets {', '.join(code for code, _ in got) or 'no error'}, and not {it[0][0]}" if it
             else f"a block that has to compile meets {', '.join(code for code, _ in got)}" for it, got in zip(wanted, met) if it != got]
    if wrong or len(found) != sum(map(len, wanted)):
        return "; ".join([*wrong, said.strip()])
    return None


def main():
    arguments(__doc__)
    if not shutil.which("rt"):
        print("must_not_compile: rt, which reads the cases, is not found", file=sys.stderr)
        return 2
    failed = 0
    for page in sorted(glob.glob(f"{TOP}/crates/*/must-fail/*.md")):
        why, name = why_not(page), os.path.relpath(page, f"{TOP}/crates")
        failed += why is not None
        print(f"must_not_compile: {name}: {'passed' if why is None else f'FAILED, {why}'}", flush=True)
    return min(failed, 1)


if __name__ == "__main__":
    sys.exit(main())
