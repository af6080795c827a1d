#!/usr/bin/env python3
"""Looks at every command that a page names without what it prints, and sees to it that it can be called as it is written.

usage: tests/documents.py [PROGRAM]

PROGRAM is ./anyk if it is not given. It has to be built, and to be a launcher. The pages are those of tests/using.py, which runs the commands that
are in blocks of ```console. Checked here are those in backquotes and in other blocks, if they begin with `./anyk`, with `rt`, or
with the name of a script of the repository:

- A call of `./anyk` is run, and has to end with status 0; `./anyk help` and the like print a page of help. What has the form of a
  call, such as `./anyk install DIR`, has to be one of those that `./anyk help` prints.
- A script has to be there, to be executable, and to take the options that are shown. It is run by .ci/run or tests/all, by a block of a
  page or by this script, or else LONG says why not.
- What is in LONG is named by some page.
"""
import os
import re
import shlex
import subprocess
import sys
import tempfile

sys.dont_write_bytecode = True
from arguments import arguments, program_at
from using import TOP, commands, folder_of_calls, lines_of, pages

# What no test runs, and why.
LONG = {
    ".ci/run": "it is the gate, which runs this script",
    "tests/all": "it runs this script",
    "tests/container.sh": "it makes a Debian for minutes, and needs root and a network",
    "rt": "it is a command of the kit and not of the repository, and proves for minutes; .ci/run calls rt ci",
    "tools/gate_times.py": "it runs the gate from nothing",
    "tools/proof_costs.py": "it proves a crate, for up to minutes",
    "tools/edits.py": "it proves crates with wrong bodies, for minutes each",
    "bench/reading.sh": "it measures reading of 1,000,000 rows, and needs rustc",
    "bench/preparing.py": "it measures for minutes, databases too",
    "bench/ranking.py": "it measures for minutes, databases too",
    "bench/memory.py": "it measures for minutes",
    "bench/best_of.py": "it counts instructions for minutes, by valgrind",
    "bench/growth.py": "it measures for minutes",
    "bench/pairs.py": "it measures for minutes, and needs another program",
    "bench/certificates.py": "it counts instructions for minutes, by valgrind",
    "bench/union.py": "it counts instructions for minutes, by valgrind",
    "examples/airports/make.py": "it needs a file of a package that is not in the repository",
    "examples/timezones/make.py": "what it makes is that of one release of the time zone database",
    "examples/wordnet/make.py": "it needs a file of a package that is not in the repository",
}
SCRIPT = re.compile(r"(?:\.ci/run|tests/all|(?:tools|tests|bench|examples)/[\w/]+\.(?:py|sh)|make\.py)")


def named_in(page):
    """The commands that a page names in backquotes, or in blocks that do not begin with ```console: the number of the line, and the
    command."""
    language = None
    for number, line in enumerate(lines_of(page), 1):
        if line.startswith("```"):
            language = line[3:] or "text" if language is None else None
        elif language is None:
            yield from ((number, it) for it in re.findall("`([^`]+)`", line) if is_command(it))
        elif language != "console" and is_command(line):
            yield number, line


def first_of(text):
    return (text.split() or [""])[0]


def is_command(text):
    first = first_of(text)
    return text.startswith(first) and (first in ("./anyk", "rt") or bool(SCRIPT.fullmatch(first)))


def read(file):
    with open(f"{TOP}/{file}", encoding="utf-8") as it:
        return it.read()


def forms():
    """The forms of a call, as the pages of help begin."""
    heads = [read(f"tools/help/{it}").partition("\n\n")[0] for it in sorted(os.listdir(f"{TOP}/tools/help"))]
    return [line.removeprefix("usage:").strip() for head in heads for line in head.split("\n")]


def why_no_call(text, room):
    """What is wrong with a call of ./anyk, or None."""
    words = shlex.split(text)[1:]
    is_help = words[:1] in (["help"], ["--help"], ["-h"])
    if not words or not is_help and any(f"{it} ".startswith(f"{text[2:]} ") for it in forms()):
        return None
    ran = subprocess.run(["./anyk", *words], cwd=room, stdin=subprocess.DEVNULL, capture_output=True, timeout=60)
    if ran.returncode:
        return f"it ends with status {ran.returncode}: {ran.stderr.decode(errors='replace')!r}"
    if is_help and ran.stdout.decode() != read(f"tools/help/{words[1] if len(words) > 1 else 'anyk'}.txt"):
        return "it prints no page of help"
    return None


def options_of(script):
    """The text that says which options a script takes: what it prints for --help, or else its head."""
    text = read(script)
    if "import argparse" in text:
        return subprocess.run([f"{TOP}/{script}", "--help"], stdin=subprocess.DEVNULL, capture_output=True, text=True, timeout=60).stdout
    return re.split(r'(?m)^(?:import|from|set) ', text)[0]


def why_no_script(script, words, run):
    """What is wrong with a call of a script, or None. `run` are those that are run elsewhere."""
    if not os.access(f"{TOP}/{script}", os.X_OK):
        return "there is no such script that can be run"
    shown = re.findall(r"(?<![\w-])--[a-z][\w-]*", words)
    lacking = [it for it in shown if it not in re.findall(r"--[a-z][\w-]*", options_of(script))]
    if lacking:
        return f"it does not take {' and '.join(lacking)}"
    return None if script in LONG or script in run else "nothing runs it, and LONG does not say why"


def run_by_others():
    """The scripts that .ci/run runs, those that tests/all does, and those that a block of a page does."""
    text = read(".ci/run") + "\n".join(command for page in pages() for block in commands(page) for _, command, _ in block)
    tests = [f"tests/{it}" for it in os.listdir(f"{TOP}/tests") if it.endswith(".py") and os.access(f"{TOP}/tests/{it}", os.X_OK)]
    return {*re.findall(SCRIPT, text), *tests}


def why_no_plots():
    """bench/plots.py draws the plots that are there. It is run here, on a copy."""
    with tempfile.TemporaryDirectory(prefix="anyk-documents-") as room:
        copied = f"{room}/bench"
        subprocess.run(["cp", "-R", f"{TOP}/bench", copied], check=True)
        os.symlink(f"{TOP}/tests", f"{room}/tests")  # It reads its arguments by a module that is there.
        plots = os.listdir(f"{copied}/plots")
        for it in plots:
            os.remove(f"{copied}/plots/{it}")
        ran = subprocess.run([f"{copied}/plots.py"], stdin=subprocess.DEVNULL, capture_output=True, timeout=60)
        same = subprocess.run(["diff", "-r", f"{TOP}/bench/plots", f"{copied}/plots"], capture_output=True)
        return None if plots and ran.returncode == same.returncode == 0 else "it does not draw the plots that are there: call it again"


def faults(room):
    """Each command with its place, and what is wrong with it, if anything."""
    run, named = {*run_by_others(), "bench/plots.py"}, set()
    for page in pages():
        for number, text in named_in(page):
            first = first_of(text)
            name = os.path.join(os.path.dirname(page), first) if first == "make.py" else first
            named.add(name)
            if first == "./anyk":
                yield f"{page}:{number}", text, why_no_call(text, room)
            else:
                yield f"{page}:{number}", text, None if first == "rt" else why_no_script(name, text, run)
    yield "bench/RESULTS.md", "bench/plots.py", why_no_plots()
    for it in sorted(set(LONG) - named):
        yield "tests/documents.py", it, "LONG has it, and no page names it"


def main():
    program = program_at(*arguments(__doc__, f"{TOP}/anyk"))
    looked = failed = 0
    with tempfile.TemporaryDirectory(prefix="anyk-documents-") as room:
        folder_of_calls(room, program)
        for place, text, why in faults(room):
            looked += 1
            if why:
                failed += 1
                print(f"documents: {place}: FAILED\n  {text}\n  {why}")
    print(f"documents: {looked} commands that the pages name: " + (f"FAILED: {failed}" if failed else "passed"))
    return 1 if failed else 0


if __name__ == "__main__":
    sys.exit(main())
