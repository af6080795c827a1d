#!/usr/bin/env python3
"""Tries to make the program slow by fields that collide in its hash tables, and compares its time with that for harmless fields.

usage: tests/flood.py [PROGRAM]

PROGRAM is ./anyk if it is not given. tests/flood.c finds the fields: short texts, long texts and pairs of numbers, 4,096 of each,
whose hashes are the same in all bits that count. It does so for two hashes whose keys anyone may know: the multiplying hash of the
library with its fixed seed, and SipHash-1-3 with the keys 0 and 0. Each of them is 64 times in a table, so that a program that
hashes with known keys would need ten times the time or more. Keys drawn for each run leave nothing to find.

A file with colliding fields and one with as many random fields of the same length are read in turn, each three times, and the
processor seconds of the fastest run count. The first may take twice as long as the other and 0.05 seconds, and is stopped after 3
seconds. Where there is no C compiler nothing is tried.
"""
import os
import random
import resource
import shutil
import subprocess
import sys
import tempfile
import time

from arguments import arguments, program_at
from preloaded import Skipped, compile_c, in_turn, real_program

DISTINCT = 4096
TIMES = 64
NUMBERS = 65536
LEAST = 1024
SEARCH, LONGEST = 15, 3
FACTOR, SLACK = 2, 0.05
# The hash, what collides in it, and the length of a text.
FLOODS = [("fold", "texts", 8), ("fold", "texts", 40), ("fold", "pairs", 8), ("known", "texts", 8), ("known", "pairs", 8)]


def harmless(keys, length, count):
    """As many random texts or pairs, no two alike."""
    rng, found = random.Random(1), {}
    while len(found) < count:
        if keys == "pairs":
            found[f"{rng.randrange(NUMBERS)},{rng.randrange(NUMBERS)}"] = None
        else:
            found["x" * (length - 8) + "".join(rng.choices("abcdefghijklmnopqrstuvwxyz", k=8))] = None
    return list(found)


def write(folder, name, header, lines):
    with open(f"{folder}/{name}", "w") as file:
        file.write("\n".join([header, *lines]) + "\n")


def put(folder, keys, fields):
    """The files of a query over these fields, and its words. The pairs are a join on two columns, after a table in which each number
    is met for the first time, in ascending order."""
    if keys == "texts":
        write(folder, "q.sql", "select R.k from R limit 1", [])
        write(folder, "R.csv", "k", fields * TIMES)
        return ["run", "q.sql", "R=R.csv"]
    write(folder, "q.sql", "select N.n from N, R, S where R.a = S.a and R.b = S.b limit 1", [])
    write(folder, "N.csv", "n", map(str, range(NUMBERS)))
    write(folder, "R.csv", "a,b", fields * TIMES)
    write(folder, "S.csv", "a,b", fields)
    return ["run", "q.sql", "N=N.csv", "R=R.csv", "S=S.csv"]


def seconds(program, folder, words):
    """The processor seconds of a run that ends with status 0, or None if it is stopped."""
    before = resource.getrusage(resource.RUSAGE_CHILDREN)
    ran = subprocess.Popen([program, *words], cwd=folder, stdin=subprocess.DEVNULL, stdout=subprocess.DEVNULL)
    try:
        status = ran.wait(LONGEST)
    except subprocess.TimeoutExpired:
        ran.kill()
        ran.wait()
        return None
    if status:
        sys.exit(f"flood: the program ends with status {status} on its files")
    after = resource.getrusage(resource.RUSAGE_CHILDREN)
    return after.ru_utime + after.ru_stime - before.ru_utime - before.ru_stime


def fastest(program, calls):
    """The processor seconds of the fastest of three runs of each of two calls, or None if one is stopped."""
    found = [[], []]
    for _ in range(3):
        for one, call in zip(found, calls):
            if None not in one:
                one.append(seconds(program, *call))
    return [None if None in it else min(it) for it in found]


def tried(program, room, flood, fields):
    """Says what was measured, and gives whether it is within bounds."""
    of_hash, keys, length = flood
    calls = []
    for name, each in (("colliding", fields), ("harmless", harmless(keys, length, len(fields)))):
        folder = f"{room}/{of_hash}-{keys}-{length}-{name}"
        os.mkdir(folder)
        calls.append((folder, put(folder, keys, each)))
    slow, quick = fastest(program, calls)
    if quick is None:
        raise Skipped(f"the program takes more than {LONGEST} s on harmless files here, so nothing can be compared")
    is_right = slow is not None and slow <= FACTOR * quick + SLACK
    what = f"{len(fields)} {keys}" + (f" of {length} bytes" if keys == "texts" else "") + f", each {TIMES} times"
    took = f"more than {LONGEST} s" if slow is None else f"{slow:.3f} s"
    print(f"flood: {what}, that collide in {of_hash}: {took}, and {quick:.3f} s where they are random: {'passed' if is_right else 'FAILED'}")
    return is_right


def main():
    program = program_at(*arguments(__doc__, "./anyk"))
    room, began = tempfile.mkdtemp(prefix="anyk-flood-"), time.time()
    try:
        program, search = real_program(program), f"{room}/flood"
        compile_c("flood.c", search)
        words = [[search, of_hash, keys, str(DISTINCT), str(length), str(SEARCH)] for of_hash, keys, length in FLOODS]
        found = in_turn([lambda it=it: subprocess.run(it, capture_output=True, text=True, check=True).stdout.split() for it in words])
        few = [flood for flood, fields in zip(FLOODS, found) if len(fields) < LEAST]
        if few:
            raise Skipped(f"the search for colliding fields is too slow here: {few}")
        right = [tried(program, room, *it) for it in zip(FLOODS, found)]
    except Skipped as why:
        print(f"flood: SKIPPED, {why}")
        return 0
    finally:
        shutil.rmtree(room)
    print(f"flood: {len(right)} floods in {time.time() - began:.0f} s: {'passed' if all(right) else f'FAILED: {right.count(False)}'}")
    return 0 if all(right) else 1


if __name__ == "__main__":
    sys.exit(main())
