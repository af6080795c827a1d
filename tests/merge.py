#!/usr/bin/env python3
"""Tests of tools/merge.py: generated answers, cut into parts and merged again, and files that it refuses.

usage: tests/merge.py

A word that follows, such as the program's name, plays no part.
"""
import importlib.util
import io
import os
import random
import signal
import subprocess
import sys
import tempfile

from arguments import arguments

TOP = os.path.dirname(os.path.dirname(os.path.abspath(__file__)))
TOOL = f"{TOP}/tools/merge.py"
TEXTS = ["x", "", "a,b", 'q"q', "two\nlines", "\r", "\xe5", "\x85"]

# words after the files' names, the files, status, output, and the error output
CALLS = [
    (["--limit", "3"], ["a,rank1\nx,1\ny,3\n", "a,rank1\nz,1\nu,2\n"], 0, "a,rank1\nx,1\nz,1\nu,2\n", ""),
    (["--limit", "0"], ["a,rank1\nx,1\n"], 0, "a,rank1\n", ""),
    (["--descending", "1"], ["a,rank1\nx,1\ny,-3\n", "a,rank1\n", "a,rank1\nz,9\n"], 0, "a,rank1\nz,9\nx,1\ny,-3\n", ""),
    (["--descending=2"], ["rank1,rank1,rank2,row1\nq,1,5,1\nq,1,4,2\n", "rank1,rank1,rank2,row1\nr,1,5,1\n"], 0,
     "rank1,rank1,rank2,row1\nq,1,5,1\nr,1,5,1\nq,1,4,2\n", ""),
    ([], ["a,rank1\nx,1\ny,0\n"], 1, None, "merge: 0.csv: row 2 comes too late; does an order key descend? see --descending\n"),
    ([], ["a,rank1\nx,1\n", "b,rank1\nx,1\n"], 1, "", "merge: 1.csv: its header is not that of 0.csv\n"),
    ([], ["a\nx\n"], 1, "", "merge: there is no column rank1: call anyk with --ranks\n"),
    ([], ["a,rank1\nx,1\n", ""], 1, "", "merge: 1.csv: there is no header\n"),
    ([], ["a,rank1\nx,one\n"], 1, None, "merge: 0.csv: row 1 has no ranks\n"),
    ([], ["a,rank1\nx,1\n", 'a,rank1\n"x,2\n'], 1, None, "merge: 1.csv: a quote is never closed\n"),
    (["--", "none.csv"], ["a,rank1\n"], 1, "", "merge: none.csv: No such file or directory\n"),
]


def tool():
    sys.dont_write_bytecode = True
    spec = importlib.util.spec_from_file_location("merge", TOOL)
    module = importlib.util.module_from_spec(spec)
    spec.loader.exec_module(module)
    return module


def of_answers(merge):
    """Answers in order of rank and then of number, dealt to parts that ascend in the numbers."""
    for seed in range(1, 201):
        rng = random.Random(seed)
        descending = {it for it in (1, 2) if rng.random() < 0.3}
        answers = [(rng.randint(-2, 2), rng.randint(-(2**100), 2**100) if rng.random() < 0.2 else 0, at) for at in range(rng.randint(0, 30))]
        cuts = sorted(rng.choices(range(31), k=rng.randint(0, 4)))
        in_order = sorted(answers, key=lambda it: [-it[0] if 1 in descending else it[0], -it[1] if 2 in descending else it[1], it[2]])
        lines = {it[2]: merge.record_of([rng.choice(TEXTS), str(it[0]), str(it[1]), str(it[2])]) for it in answers}
        header = "t,rank1,rank2,at\n"
        parts = [
            header + "".join(lines[it[2]] for it in in_order if first <= it[2] < last)
            for first, last in zip([0, *cuts], [*cuts, 31])
        ]
        files = [io.BytesIO(it.encode("latin-1")) for it in parts]
        found, records = merge.merged([f"part {it}" for it in range(len(parts))], files, descending)
        yield f"seed {seed}", header + "".join(lines[it[2]] for it in in_order), "".join(map(merge.record_of, [found, *records]))


def of_calls():
    for words, contents, *wanted in CALLS:
        with tempfile.TemporaryDirectory(prefix="anyk-merge-") as room:
            names = [f"{it}.csv" for it in range(len(contents))]
            for name, content in zip(names, contents):
                with open(f"{room}/{name}", "wb") as file:
                    file.write(content.encode())
            ran = subprocess.run([sys.executable, TOOL, *words, *([] if "--" in words else ["--"]), *names], cwd=room, stdin=subprocess.DEVNULL, capture_output=True, timeout=60)
            output = ran.stdout.decode() if wanted[1] is not None else None
            yield f"call {words} over {contents}", wanted, [ran.returncode, output, ran.stderr.decode()]


def of_streams():
    """Outputs that are closed or full, and an interrupt."""
    with tempfile.TemporaryDirectory(prefix="anyk-merge-") as room:
        with open(f"{room}/0.csv", "wb") as file:
            file.write(b"a,rank1\nx,1\n")
        for to, *wanted in ((">&-", 1, "", "merge: the output is closed\n"), ("> /dev/full", 1, "", "merge: the output: No space left on device\n"),
                            ("2>&-", 0, "a,rank1\nx,1\n", "")):
            ran = subprocess.run(["sh", "-c", f'exec "$@" {to}', "sh", sys.executable, TOOL, "0.csv"], cwd=room, capture_output=True, text=True, timeout=60)
            yield f"call with {to}", wanted, [ran.returncode, ran.stdout, ran.stderr]
        ran = subprocess.run([sys.executable, TOOL, "--help"], cwd=room, stdin=subprocess.DEVNULL, capture_output=True, timeout=60)
        with open(f"{TOP}/tools/help/merge.txt", "rb") as page:
            yield "help", [0, page.read(), b""], [ran.returncode, ran.stdout, ran.stderr]
        ran = subprocess.run(["sh", "-c", 'exec "$@" 2>&-', "sh", sys.executable, TOOL, "none.csv"], cwd=room, capture_output=True, text=True, timeout=60)
        yield "refusal with 2>&-", [1, ""], [ran.returncode, ran.stdout]
        begun = subprocess.Popen([sys.executable, TOOL, "/dev/stdin", "0.csv"], cwd=room, stdin=subprocess.PIPE, stdout=subprocess.PIPE, stderr=subprocess.PIPE)
        # A line that is longer than a pipe is taken once the tool reads.
        begun.stdin.write(b"w" * 1_000_000)
        begun.send_signal(signal.SIGINT)
        yield "an interrupt", [(b"", b""), -signal.SIGINT], [begun.communicate(timeout=60), begun.returncode]


def main():
    arguments(__doc__, "")
    failed = count = 0
    for what, wanted, got in [*of_answers(tool()), *of_calls(), *of_streams()]:
        count += 1
        if wanted != got:
            failed += 1
            print(f"merge: {what}: FAILED\n  wanted: {wanted!r}\n  got:    {got!r}")
    print(f"merge: {count} cases: " + (f"FAILED: {failed}" if failed else "passed"))
    return 1 if failed else 0


if __name__ == "__main__":
    sys.exit(main())
