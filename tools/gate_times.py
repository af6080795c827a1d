#!/usr/bin/env python3
"""Runs the gate and says where its time goes.

    tools/gate_times.py [--table FILE] [--figures FILE] [-- COMMAND ..]

The command is `rt ci --anew` if none is given, so that every proof and every edit is done. While it runs, the script reads the
processor time and the peak of memory of each process of the prover and of each test from /proc, four times a second, and puts them
down to a crate and to one of its parts:

    proof    the crate itself, from nothing
    tests    the crate with its tests, from nothing
    edits    its edits, each over the work of those before it, and the check after the last one that the crate itself still holds
    running  its tests, or its program

Only what the command started counts, so that other work on the machine is in no figure. At the end the script prints a table
(Markdown), or writes it between the two marker lines of FILE (--table), and writes the proof's seconds of each crate, one a line, for
the launcher's estimate (--figures). The last lines give the whole, which is measured by the system and not sampled, and the longest
chain of crates, each of which waits for the one below.
"""

import argparse
import contextlib
import os
import re
import resource
import shutil
import subprocess
import sys
import threading
import time
from collections import defaultdict
from datetime import date
from pathlib import Path

PARTS = ("proof", "tests", "edits", "running")
BEGIN, END = "<!-- table: begin -->", "<!-- table: end -->"
TICK = os.sysconf("SC_CLK_TCK")
OWN = str(os.getpid())


def value_after(words, flag):
    """The word that follows the flag, or an empty one."""
    return words[words.index(flag) + 1] if flag in words[:-1] else ""


def place_of(words, folder):
    """The crate and the part of it that a process works for, or None if it is none of the prover's."""
    program = os.path.basename(words[0])
    if program == "rattle" and len(words) > 1 and words[1] in ("check", "build"):
        crate = value_after(words, "--crate-name")
        if os.path.basename(folder).startswith("rt-edit-"):
            return crate, "edits"
        return crate, "tests" if "--test" in words else "proof"
    made = next((it for it in words if re.search(r"/rt-run-[^/]*/bin/", it)), "")
    if made:
        return re.sub(r"(_tests)?(\..*)?$", "", os.path.basename(made)), "running"
    return None


class Sampler(threading.Thread):
    """Reads the processes until it is told to stop."""

    def __init__(self, pause=0.25):
        super().__init__(daemon=True)
        self.pause, self.stopped, self.seen = pause, threading.Event(), {}

    def run(self):
        while not self.stopped.wait(self.pause):
            self.look()

    def look(self):
        stats = {}
        for number in filter(str.isdigit, os.listdir("/proc")):
            # (one may end meanwhile)
            with contextlib.suppress(OSError, ValueError):
                text = Path(f"/proc/{number}/stat").read_text(errors="replace")
                stats[number] = text[text.rindex(")") + 2 :].split()
        for number, fields in stats.items():
            if self.is_own(number, stats):
                with contextlib.suppress(OSError, ValueError, IndexError):
                    self.look_at(number, fields)

    def is_own(self, number, stats):
        """Whether the command started the process. One whose parent has ended is known from before."""
        if (number, stats[number][19]) in self.seen:
            return True
        while number in stats and number != OWN:
            number = stats[number][1]
        return number == OWN

    def look_at(self, number, fields):
        found = self.seen.setdefault((number, fields[19]), [None, 0.0, 0])
        if not found[0]:
            # (a process is another program before it becomes the prover)
            words = Path(f"/proc/{number}/cmdline").read_text(errors="replace").split("\0")
            found[0] = place_of(words, os.readlink(f"/proc/{number}/cwd"))
        if found[0]:
            status = Path(f"/proc/{number}/status").read_text(errors="replace")
            peak = re.search(r"VmHWM:\s+(\d+)", status)
            found[1] = (int(fields[11]) + int(fields[12])) / TICK
            found[2] = max(found[2], int(peak[1]) if peak else 0)

    def by_crate(self):
        seconds, memory = defaultdict(lambda: dict.fromkeys(PARTS, 0.0)), defaultdict(int)
        for place, used, peak in self.seen.values():
            if place:
                crate, part = place
                seconds[crate][part] += used
                memory[crate] = max(memory[crate], peak)
        return seconds, memory


def crates_of(root):
    """Each crate with the crates of the repository below it, in the order of crates.txt."""
    found = {}
    for line in Path(root, "crates.txt").read_text().splitlines():
        line = line.partition("#")[0].strip()
        if line:
            name, _, below = line.partition(":")
            found[name.split()[0]] = below.split()
    return {name: [it for it in below if it in found] for name, below in found.items()}


def longest_chain(crates, seconds):
    """The chain of crates whose proofs, one after another, take longest."""
    chains = {}

    def chain(name):
        if name not in chains:
            longest = max((chain(it) for it in crates[name]), default=(0.0, []))
            chains[name] = longest[0] + seconds[name]["proof"], [*longest[1], name]
        return chains[name]

    return max((chain(name) for name in crates), default=(0.0, []))


def edits_of(root, crate):
    return len(list(Path(root, "crates", crate, "must-fail").glob("*.edit")))


def table(root, crates, seconds, memory, whole, minutes):
    lines = [
        f"Taken on {date.today()} with `{version()}` on {len(os.sched_getaffinity(0))} processors. Processor seconds; memory in MB.",
        "",
        "| crate | proof | with tests | edits | number of edits | running | all | memory |",
        "|---|---:|---:|---:|---:|---:|---:|---:|",
    ]
    total = dict.fromkeys(PARTS, 0.0)
    for name in sorted(crates, key=lambda it: -sum(seconds[it].values())):
        used, count = seconds[name], edits_of(root, name)
        for part in PARTS:
            total[part] += used[part]
        shown = [f"{used[part]:.0f}" if used[part] >= 0.5 else "" for part in PARTS]
        lines.append(
            f"| {name} | {shown[0]} | {shown[1]} | {shown[2]} | {count or ''} | {shown[3]} | {sum(used.values()):.0f} | {memory[name] // 1024} |"
        )
    counts = sum(edits_of(root, it) for it in crates)
    shown = " | ".join(f"{total[part]:.0f}" for part in PARTS[:3])
    lines.append(f"| **all** | {shown} | {counts} | {total['running']:.0f} | {sum(total.values()):.0f} | |")
    length, chain = longest_chain(crates, seconds)
    lines += [
        "",
        f"The whole run took {whole / 60:.1f} processor minutes and {minutes:.1f} minutes of wall clock.",
        "",
        f"The longest chain of proofs takes {length / 60:.1f} minutes: {' → '.join(chain)}.",
    ]
    return lines


def version():
    ran = subprocess.run(["rt", "version"], capture_output=True, text=True, check=False)
    return ran.stdout.strip() or "rt"


def write_between(path, lines):
    """Puts the lines between the two marker lines of the file."""
    text = Path(path).read_text()
    before, rest = text.split(BEGIN, 1)
    after = rest.split(END, 1)[1]
    Path(path).write_text("\n".join([before + BEGIN, "", *lines, "", END + after]))


def why_not(root, words, command):
    """What is wrong with the call, if anything: it is said before the command runs, and not after it."""
    if not os.access(Path(root, "crates.txt"), os.R_OK):
        return "this folder has no crates.txt: call it from the top of the repository"
    if not shutil.which(command[0]):
        return f"{command[0]} is not found"
    if words.table:
        try:
            before, _, rest = Path(words.table).read_text().partition(BEGIN)
        except (OSError, ValueError):
            return f"{words.table} cannot be read"
        if END not in rest:
            return f"{words.table} has not both marker lines"
    if words.figures and not os.path.isdir(os.path.dirname(os.path.abspath(words.figures))):
        return f"{words.figures} cannot be written: its folder is not there"
    return None


def main():
    own, command = sys.argv[1:], ["rt", "ci", "--anew"]
    if "--" in own:
        at = own.index("--")
        own, command = own[:at], own[at + 1 :] or command
    parser = argparse.ArgumentParser(description=__doc__, formatter_class=argparse.RawDescriptionHelpFormatter)
    parser.add_argument("--table", help="a file with the two marker lines, which gets the table")
    parser.add_argument("--figures", help="a file that gets each crate's seconds of proof")
    words = parser.parse_args(own)
    root = os.getcwd()
    why = why_not(root, words, command)
    if why:
        parser.error(why)
    crates, sampler, begun = crates_of(root), Sampler(), time.time()
    sampler.start()
    status = subprocess.run(command, check=False).returncode
    sampler.stopped.set()
    sampler.join()
    used = resource.getrusage(resource.RUSAGE_CHILDREN)
    seconds, memory = sampler.by_crate()
    lines = table(root, crates, seconds, memory, used.ru_utime + used.ru_stime, (time.time() - begun) / 60)
    print("\n".join(lines))
    if words.table:
        write_between(words.table, lines)
    if words.figures:
        rows = [f"{name}\t{seconds[name]['proof']:.0f}\n" for name in crates]
        Path(words.figures).write_text("".join(rows))
    return status


if __name__ == "__main__":
    try:
        sys.exit(main())
    except KeyboardInterrupt:
        sys.exit("gate_times: interrupted")
