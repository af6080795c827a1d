#!/usr/bin/env python3
"""Tries the further wrong bodies, which the gate leaves out for their cost.

    tools/edits.py [CRATE ..]

The wrong bodies that the gate tries are in crates/NAME/must-fail. The first one of a crate costs the gate one more proof of the
crate, so the gate has only those that say most. The others are in tests/wrong_bodies/NAME. This script copies the repository to a
temporary folder, puts these edits beside the gate's own, and runs `rt must-fail` over the crates named, or over all that have some.
It ends with the status of `rt must-fail`: 0 if the prover refused each of them.

Run it for a crate whose contracts have changed.
"""

import shutil
import subprocess
import sys
import tempfile
from pathlib import Path

TOP = Path(__file__).resolve().parent.parent
MORE = TOP / "tests" / "wrong_bodies"


def copied(room):
    """A copy of the crates, with what earlier checks of them kept, and the further edits in their places."""
    for name in ("crates.txt", "HANDLES"):
        shutil.copy2(TOP / name, room / name)
    shutil.copytree(TOP / "crates", room / "crates", symlinks=True)
    for edit in MORE.glob("*/*.edit"):
        folder = room / "crates" / edit.parent.name / "must-fail"
        folder.mkdir(exist_ok=True)
        shutil.copy2(edit, folder / edit.name)
    subprocess.run(["git", "init", "-q", "."], cwd=room, check=True)


def main():
    known = sorted(it.name for it in MORE.iterdir() if it.is_dir())
    names = sys.argv[1:] or known
    if "-h" in names or "--help" in names:
        print(__doc__.strip())
        return 0
    lacking = [it for it in names if it not in known]
    if lacking:
        print(f"edits: tests/wrong_bodies has nothing for {lacking[0]}", file=sys.stderr)
        return 2
    if not shutil.which("rt"):
        print("edits: rt, which proves the crates, is not found", file=sys.stderr)
        return 2
    with tempfile.TemporaryDirectory(prefix="anyk-edits-") as room:
        copied(Path(room))
        return subprocess.run(["rt", "must-fail", *names], cwd=room, check=False).returncode


if __name__ == "__main__":
    try:
        sys.exit(main())
    except KeyboardInterrupt:
        sys.exit("edits: interrupted")
