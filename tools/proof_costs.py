#!/usr/bin/env python3
"""Says what a crate's proof costs, module by module.

    tools/proof_costs.py [--most N] CRATE

It runs `rt check` of the crate with nothing kept from earlier checks of it, and reads two figures of each module from what that check
keeps:

    steps      the prover's own count, in millions. It is the same in each run and on each machine, so two forms of a proof can be compared by
               it whatever else the machine is doing. A second is some 1.2 to 1.9 million steps, by the pace of the machine.
    seconds    by the clock, from one file of the check to the next: they tell something if nothing else is running. The walk of a body takes
               seconds, but hardly any steps.

What the prover takes to load the libraries below, and to write the crate's statements, is in neither. The script prints the sums of each
kind of module, and then the N modules with the most steps and the N with the most seconds, 20 if N is not given. The kinds:

    walks        the prover's walk of a body (F.Lts)
    searches     the goals of a function without an answer (F.Proof)
    answers      the answers and invariants of a function
    drops        what it means to drop a value of a type, once in each crate that drops one
    lemmas       the crate's own files of lemmas
    statements   definitions and contracts
    others       what is made for each function besides: F.Goals, for one, grows with each goal that is answered by itself

At the end the crate's kept modules are those of this check.
"""

import argparse
import contextlib
import json
import re
import shutil
import subprocess
import sys
from collections import Counter
from pathlib import Path

TOP = Path(__file__).resolve().parent.parent
# The list of the declarations of a module begins so in the file that is kept of it.
BEGIN = '[{"aux"'


def kind_of(module, folder):
    """The kind of a module of the crate in this folder, by its name and by whether somebody wrote it."""
    words = module.split(".")
    if "Destruct" in module:
        return "drops"
    if any(it == "Lts" or it.startswith("Lts-") for it in words):
        return "walks"
    if words[-1] in ("Answers", "Invariants"):
        return "answers"
    if "Proof" in words:
        return "searches"
    if words[0] == "specs":
        return "statements"
    return "lemmas" if (folder / f"{'/'.join(words)}.antt").is_file() else "others"


def module_of(name, crate):
    """The module that a kept file is of, by the file's name."""
    return re.sub(rf"^Rattle-{crate}-?|(\.decls)?\.oantt$", "", name) or "the crate itself"


def steps_in(text):
    """The steps of all declarations of a module, from the text of the file that is kept of it."""
    decoder, steps = json.JSONDecoder(), 0
    for found in re.finditer(re.escape(BEGIN), text):
        with contextlib.suppress(ValueError):
            steps += sum(sum(it["steps"]) for it in decoder.raw_decode(text, found.start())[0])
    return steps


def steps_of(kept, crate):
    """The steps of each module of the crate."""
    steps = Counter()
    for file in kept.glob("*/records/*.decls.oantt"):
        steps[module_of(file.name, crate)] += steps_in(file.read_text(encoding="latin-1"))
    return steps


def seconds_of(kept, crate):
    """The seconds that each module took, by the times of the files that the check wrote."""
    files = sorted((it.stat().st_mtime_ns, it.name) for it in kept.rglob("*") if it.is_file())
    seconds = Counter()
    for (before, _), (after, name) in zip(files, files[1:]):
        seconds[module_of(name, crate)] += (after - before) / 1e9
    return seconds


def show(names, steps, seconds):
    for name in names:
        print(f"{steps[name] / 1e6:8.2f} {seconds[name]:8.2f}  {name}")


def report(folder, kept, given):
    steps, seconds = steps_of(kept, given.crate), seconds_of(kept, given.crate)
    kinds = {}
    for module in {**steps, **seconds}:
        kinds.setdefault(kind_of(module, folder), []).append(module)
    sums = [Counter({kind: sum(it[module] for module in kinds[kind]) for kind in kinds}) for it in (steps, seconds)]
    print("   steps  seconds")
    for counts in sums:
        counts["all"] = sum(counts.values())
    show([kind for kind, _ in sums[0].most_common()], *sums)
    for counts in (steps, seconds):
        print()
        show([module for module, _ in counts.most_common(given.most)], steps, seconds)


def main():
    words = argparse.ArgumentParser(description=__doc__, formatter_class=argparse.RawDescriptionHelpFormatter)
    words.add_argument("--most", type=int, default=20, metavar="N")
    words.add_argument("crate", metavar="CRATE")
    given = words.parse_args()
    folder = TOP / "crates" / given.crate
    if not folder.is_dir():
        sys.exit(f"there is no crate {given.crate}")
    kept = folder / "out" / "incremental"
    shutil.rmtree(str(kept), ignore_errors=True)
    said = {"stdout": subprocess.PIPE, "stderr": subprocess.STDOUT, "universal_newlines": True, "errors": "replace"}
    ran = subprocess.run(["rt", "check", "--jobs", "1"], cwd=str(folder), **said)
    if ran.returncode:
        print(ran.stdout[-2000:], file=sys.stderr)
        sys.exit(f"{given.crate} was not proved")
    report(folder, kept, given)


if __name__ == "__main__":
    main()
