#!/usr/bin/env python3
"""Compares tools/pairs.py with a plain look at every two rows, and what a query makes of its
table.

usage: tests/pairs.py [PROGRAM]

PROGRAM is ./anyk if it is not given. Random tables of numbers, times and dates with times are
paired by the tool and by comparing each row of the one with each of the other. A query over both
tables and the pairs has to give the answers that all two rows with such a difference are. The
example that has a table of pairs is made again.
"""
import csv
import io
import os
import random
import subprocess
import sys
import tempfile

from arguments import arguments, program_at

TOP = os.path.dirname(os.path.dirname(os.path.abspath(__file__)))
TOOL = [sys.executable, "-X", "utf8", "-ISB", f"{TOP}/tools/pairs.py"]
TIMEOUT = 120
PLACES = ["x", "", "a,b", 'q"q', "two\nlines", "\xe5"]
DAYS = ["2026-03-14", "2026-03-15", "2024-02-29", "2024-03-01"]
# The number of the first minute of each of them, from that of the first on.
MINUTES = {DAYS[0]: 0, DAYS[1]: 1440, DAYS[2]: -744 * 1440, DAYS[3]: -743 * 1440}


def record(fields):
    if fields == [""]:
        return '""\n'
    return ",".join('"' + it.replace('"', '""') + '"' if any(c in it for c in ',"\r\n') else it
                    for it in fields) + "\n"


def write(file, rows):
    with open(file, "wb") as it:
        it.write("".join(map(record, rows)).encode("latin-1"))


def read(output):
    return list(csv.reader(io.StringIO(output.decode("latin-1"), newline="")))


def environment(room):
    return {"PATH": os.environ.get("PATH", os.defpath), "HOME": room, "TMPDIR": room,
            "LANG": "C.UTF-8", "ANYK_NO_BUILD": "1"}


def called(words, room, given=b""):
    """The status, the output and the last line on the error output."""
    ran = subprocess.run([*TOOL, *words], cwd=room, env=environment(room), input=given,
                         capture_output=True, timeout=TIMEOUT)
    said = ran.stderr.decode("utf-8", "backslashreplace").strip().split("\n")[-1]
    return ran.returncode, ran.stdout, said


class Case:
    """Two random tables with one or two columns that have to be equal, and a range."""

    def __init__(self, seed):
        self.rng = rng = random.Random(seed)
        self.drawn = rng.choice([self.number, self.time, self.date])
        self.places = rng.sample(PLACES, rng.randint(1, 3))
        self.by = rng.choice([[], [1], [1, 2]])
        self.first, self.second = self.table("from"), self.table("to")
        self.least = rng.choice([None, rng.randint(-200, 200)])
        self.most = None
        if self.least is None or rng.random() < 0.8:
            self.most = (-100 if self.least is None else self.least) + rng.randint(0, 300)

    def number(self):
        value = self.rng.randint(-99, 99)
        return self.rng.choice([str(value), f"{value:+d}"]), value

    def time(self):
        hour, minute = self.rng.randint(0, 26), self.rng.randint(0, 59)
        text = self.rng.choice([f"{hour}:{minute:02}", f"{hour:02}:{minute:02}:00"])
        return text, 60 * hour + minute

    def date(self):
        day, hour, minute = self.rng.choice(DAYS), self.rng.randint(0, 23), self.rng.randint(0, 59)
        text = f"{day}{self.rng.choice('T ')}{hour:02}:{minute:02}"
        return text, MINUTES[day] + 60 * hour + minute

    def table(self, name):
        """The header and the rows, and the number of each row's value, or None."""
        rows, numbers = [["id", "place", "day", name, "price"]], []
        for number in range(self.rng.randint(0, 25)):
            text, value = ("", None) if self.rng.random() < 0.1 else self.drawn()
            rows.append([str(number), self.rng.choice(self.places), self.rng.choice("12"), text,
                         str(self.rng.randint(0, 9))])
            numbers.append(value)
        return rows, numbers

    def words(self):
        by = [f"--by={','.join(self.first[0][0][it] for it in self.by)}"] if self.by else []
        options = (("--least", self.least), ("--most", self.most))
        bounds = [f"{option}={bound}" for option, bound in options if bound is not None]
        return [*by, "--from", "from", "--to", "to", *bounds, "first.csv", "second.csv"]

    def matches(self):
        """All two rows that are equal in the columns and whose difference is in the range."""
        (first, numbers), (second, others) = self.first, self.second
        for a, number in zip(first[1:], numbers):
            for b, other in zip(second[1:], others):
                is_near = number is not None and other is not None and (
                    (self.least is None or other - number >= self.least)
                    and (self.most is None or other - number <= self.most))
                if is_near and all(a[it] == b[it] for it in self.by):
                    yield a, b, other - number

    def pairs(self):
        """Each pair once, in the order of the first table, the wait, and the second table."""
        pairs, starts = {}, {}
        for a, b, wait in self.matches():
            start = (*[a[it] for it in self.by], a[3])
            pairs.setdefault((*start, b[3]), wait)
            starts.setdefault(start, len(starts))
        in_order = sorted(pairs.items(), key=lambda it: (starts[it[0][:-1]], it[1]))
        return [[*pair, str(wait)] for pair, wait in in_order]

    def header(self):
        return [*[self.first[0][0][it] for it in self.by], "from", "to", "wait"]

    def query(self):
        """The two tables and the pairs, by their price and the wait."""
        same = [f"a.{name} = p.{name} AND b.{name} = p.{name}" for name in self.header()[:-3]]
        joined = " AND ".join([*same, 'a."from" = p."from"', 'b."to" = p."to"'])
        columns, order = "a.id, b.id, p.wait", "a.price + p.wait + b.price"
        return f"SELECT {columns} FROM a, p, b WHERE {joined} ORDER BY {order}"

    def ranked(self):
        """What the query has to give, in the order of the sums alone."""
        return sorted((int(a[4]) + wait + int(b[4]), a[0], b[0], wait)
                      for a, b, wait in self.matches())


def of_cases(program, count):
    for seed in range(1, count + 1):
        case = Case(seed)
        with tempfile.TemporaryDirectory(prefix="anyk-pairs-") as room:
            write(f"{room}/first.csv", case.first[0])
            write(f"{room}/second.csv", case.second[0])
            status, output, _ = called(case.words(), room)
            wanted = [0, [case.header(), *case.pairs()]]
            yield f"seed {seed}: {case.words()}", wanted, [status, read(output)]
            with open(f"{room}/pairs.csv", "wb") as file:
                file.write(output)
            with open(f"{room}/query.sql", "w", encoding="utf-8") as file:
                file.write(case.query())
            ran = subprocess.run(
                [program, "run", "--ranks", "query.sql", "a=first.csv", "p=pairs.csv",
                 "b=second.csv"], cwd=room, stdin=subprocess.DEVNULL, capture_output=True,
                timeout=TIMEOUT, env=environment(room))
            answers = [(int(it[3]), it[0], it[1], int(it[2])) for it in read(ran.stdout)[1:]]
            is_ascending = [it[0] for it in answers] == sorted(it[0] for it in answers)
            got = [ran.returncode, sorted(answers), is_ascending]
            yield f"seed {seed}: {case.query()}", [0, case.ranked(), True], got


FIRST = "place,arr\nA,09:15\nA,9:15\nB,23:50\nA,\n"
SECOND = "place,dep\nA,09:20\nB,24:10\nA,10:00\nA,09:20\n"
TIMES = ["--from", "arr", "--to", "dep"]

BELOW = [*TIMES, "--most", "5"]
ONE = ["--from", "w", "--to", "w", "--least", "1", "--most", "1"]

# words, the first table, the second one, the status, the output, and a piece of the last line on
# the error output
CALLS = [
    (["--by", "place", *TIMES, "--least", "5", "--most", "30"], FIRST, SECOND, 0,
     "place,arr,dep,wait\nA,09:15,09:20,5\nA,9:15,09:20,5\nB,23:50,24:10,20\n",
     "rows: 4 and 4 read, 3 written, 1 without a value left out"),
    ([*TIMES, "--most=-800"], FIRST, SECOND, 0,
     "arr,dep,wait\n23:50,09:20,-870\n23:50,10:00,-830\n", "2 written"),
    (["--by", "place=stop", *TIMES, "--least", "0"], FIRST, SECOND.replace("place", "stop"), 0,
     "place,arr,dep,wait\nA,09:15,09:20,5\nA,09:15,10:00,45\nA,9:15,09:20,5\nA,9:15,10:00,45\n"
     "B,23:50,24:10,20\n", ""),
    (ONE, "w\n1\n2\n+2\n", "w\n1\n2\n3\n", 0,
     "w,w_2,wait\n1,2,1\n2,3,1\n+2,3,1\n", "3 written"),
    (["--by", '"a,b"', *ONE], '"a,b",w\n"x""",1\n', '"a,b",w\n"x""",2\n', 0,
     '"a,b",w,w_2,wait\n"x""",1,2,1\n', "1 written"),
    (["--from", "wait", "--to", "w", "--most", "0"], "wait\n1\n", "w\n1\n", 0,
     "wait,w,wait_2\n1,1,0\n", ""),
    (["--from", "t", "--to", "t", "--most", "30", "--least", "1"],
     "t\n2026-12-31T23:50\n", "t\n2027-01-01 00:10:00\n", 0,
     "t,t_2,wait\n2026-12-31T23:50,2027-01-01 00:10:00,20\n", ""),
    (ONE, "w\n", "w\n", 0, "w,w_2,wait\n", "rows: 0 and 0 read, 0 written"),
    (BELOW, FIRST.replace("9:15", "915"), SECOND, 1, "",
     "1.csv: row 1 (line 2): '0915' may be a time: write 09:15, or 915"),
    (BELOW, FIRST, SECOND.replace("10:00", "600"), 1, "",
     "2.csv: row 3 (line 4): '600' is a number, and a time came before it"),
    (BELOW, FIRST, SECOND.replace("10:00", "10:00:30"), 1, "",
     "row 3 (line 4): '10:00:30' is no whole number, and no time"),
    (BELOW, FIRST, SECOND.replace("10:00", "2026-02-30 10:00"), 1, "",
     "'2026-02-30 10:00' is no whole number"),
    (BELOW, FIRST, SECOND.replace("10:00", "10:60"), 1, "", "'10:60' is no whole number"),
    (BELOW, FIRST, SECOND.replace("A,10:00", "A"), 1, "",
     "2.csv: row 3 (line 4): 1 field, where the header has 2"),
    (BELOW, FIRST, SECOND.replace("A,10:00", '"A,10:00'), 1, "",
     "2.csv: line 4: a quote is never closed"),
    (BELOW, FIRST, "", 1, "", "2.csv: there is no header"),
    (["--by", "stop", *BELOW], FIRST, SECOND, 1, "",
     "1.csv: the header has no column 'stop', but 'place', 'arr'"),
    (TIMES, FIRST, SECOND, 2, "", "--least or --most is needed"),
    ([*TIMES, "--least", "5", "--most", "4"], FIRST, SECOND, 2, "", "--least is above --most"),
    ([*TIMES, "--least", "1.5"], FIRST, SECOND, 2, "", "'1.5' is no whole number"),
    (["--by", ",x", *BELOW], FIRST, SECOND, 2, "", "names with commas between them are needed"),
    ([*TIMES, "--least", "1", "3.csv"], FIRST, SECOND, 2, "", "one FILE too many"),
    (["--from", "arr", "--least", "1"], FIRST, SECOND, 2, "", "--to"),
]


def of_calls():
    for words, first, second, *wanted in CALLS:
        with tempfile.TemporaryDirectory(prefix="anyk-pairs-") as room:
            for name, content in (("1.csv", first), ("2.csv", second)):
                with open(f"{room}/{name}", "wb") as file:
                    file.write(content.encode())
            status, output, said = called(["1.csv", "2.csv", *words], room)
            got = [status, output.decode(), wanted[2] if wanted[2] in said else said]
            yield f"call {words} over {first!r} and {second!r}", wanted, got


def of_others():
    with tempfile.TemporaryDirectory(prefix="anyk-pairs-") as room:
        got = called([*ONE, "-"], room, b"w\n1\n2\n")
        yield "one table for both", (0, b"w,w_2,wait\n1,2,1\n"), got[:2]
        wanted = (1, b"", "pairs: none.csv: No such file or directory")
        yield "a file that is missing", wanted, called([*ONE, "none.csv"], room)
        with open(f"{TOP}/tools/help/pairs.txt", "rb") as page:
            yield "help", (0, page.read(), ""), called(["--help"], room)
        # A hundred thousand values on each side, which are too many to be compared one with one.
        rows = [["w"], *[[str(it)] for it in range(0, 300_000, 3)]]
        write(f"{room}/large.csv", rows)
        words = ["--from", "w", "--to", "w", "--least", "2", "--most", "4", "large.csv"]
        status, output, said = called(words, room)
        wanted = [0, 100_000, "pairs: rows: 100000 and 100000 read, 99999 written"]
        yield "a large table", wanted, [status, output.count(b"\n"), said]


def of_example():
    folder = f"{TOP}/examples/connections"
    with open(f"{folder}/waits.csv", "rb") as file:
        wanted = file.read()
    with tempfile.TemporaryDirectory(prefix="anyk-pairs-") as room:
        words = ["--by", "destination=origin", "--from", "arrival", "--to", "departure",
                 "--least", "10", "--most", "120"]
        got = called([*words, f"{folder}/trains.csv"], room)
        yield "the example's waits", (0, wanted), got[:2]


def main():
    program = program_at(*arguments(__doc__, f"{TOP}/anyk"))
    failed = count = 0
    for part in (of_cases(program, 100), of_calls(), of_others(), of_example()):
        for what, wanted, got in part:
            count += 1
            if list(wanted) != list(got):
                failed += 1
                print(f"pairs: {what}: FAILED\n  wanted: {wanted!r}\n  got:    {got!r}")
    print(f"pairs: {count} cases: " + (f"FAILED: {failed}" if failed else "passed"))
    return 1 if failed else 0


if __name__ == "__main__":
    sys.exit(main())
