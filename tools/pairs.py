#!/usr/bin/env python3
"""Writes the table of the pairs of two columns whose difference is in a range, such as waits at a
station, so that a query can join by it.

usage: anyk pairs [--by COLUMN[=COLUMN],..] --from COLUMN --to COLUMN [--least N] [--most N]
                  FILE [FILE]

A pair is a value of the column --from in the first file and one of the column --to in the second,
of rows that are equal in the columns --by. It is written if the second value is at least N and at
most N more than the first. If there is one file, it is taken for both. - is the standard input. A
column of --by may have another name in the second file: destination=origin. A name with a comma
is written in double quotes.

The columns of the output are those of --by and --from, with the names that they have in the first
file, then that of --to, and then `wait`, the difference. A name that came before gets _2. Each
pair of values is written once, in the order of the first file and then of the wait. A query joins
the first table with all columns but the last two, and the second with those of --by and --to.

The values are whole numbers, or times such as 09:15, or 2026-03-14 09:15 with a blank or a T;
hours may pass 24, and seconds have to be 00. Times differ in minutes. A row without a value is in
no pair.

The last line on the error output counts the rows. Status 1 says that a value, a table or a file
is not as it has to be, and status 2 that the arguments are not; nothing is written to the output
then.
"""
import argparse
import bisect
import csv
import datetime
import os
import re
import signal
import sys

sys.dont_write_bytecode = True
sys.path.insert(0, os.path.dirname(os.path.realpath(__file__)))
from ending import ended
from weights import (Fault, Parser, Records, content_of, counted, place_of, record_of, text_of,
                     write_output)

NUMBER = re.compile(r"[+-]?[0-9]{1,37}")
CLOCK = re.compile(r"([0-9]{1,3}):([0-5][0-9])(?::00)?")
DATE = re.compile(r"([0-9]{4}-[0-9]{2}-[0-9]{2})[T ]([01][0-9]|2[0-3]):([0-5][0-9])(?::00)?")
# What looks like a number, and is a time in all likelihood.
BARE_CLOCK = re.compile(r"0[0-9][0-5][0-9]")
WAIT = "wait"
MOST_ROWS = 1_048_576
# How many pairs are written at a time.
BATCH = 1000


def value_of(text):
    """The kind of a value and its number, which is in minutes for times."""
    if BARE_CLOCK.fullmatch(text):
        time = f"{text[:2]}:{text[2:]}"
        raise Fault(f"'{text}' may be a time: write {time}, or {int(text)} for a number")
    if NUMBER.fullmatch(text):
        return "a number", int(text)
    found = CLOCK.fullmatch(text)
    if found:
        return "a time", 60 * int(found[1]) + int(found[2])
    found = DATE.fullmatch(text)
    try:
        day = datetime.date.fromisoformat(found[1]).toordinal() if found else None
    except ValueError:
        day = None
    if day is None:
        raise Fault(f"'{text_of(text)}' is no whole number, and no time such as 09:15")
    return "a date with a time", 1440 * day + 60 * int(found[2]) + int(found[3])


class Values:
    """The values of a column with those of the columns --by beside it, each once."""

    def __init__(self, by, column):
        self.by, self.column = by, column
        # The number of each field of the column, by the fields of the columns --by and itself.
        self.numbers = {}
        self.rows = self.without = 0

    def take(self, name, content, kinds):
        """Takes the values of a table. `kinds` has the kinds of values that were met so far."""
        records = Records(content)
        try:
            rows = iter(records)
            header = next(rows, None)
            if header is None:
                raise Fault("there is no header")
            places, place = [place_of(it, header) for it in self.by], place_of(self.column, header)
            for fields in rows:
                self.rows += 1
                why = self.take_row(fields, len(header), places, place, kinds)
                if why:
                    raise Fault(f"row {self.rows} (line {records.line}): {why}")
        except Fault as fault:
            raise Fault(f"{name}: {fault}") from None

    def take_row(self, fields, width, places, place, kinds):
        """What is wrong with a row, or None if its value was taken."""
        if len(fields) != width:
            return f"{counted(len(fields))}, where the header has {width}"
        field = fields[place]
        if not field:
            self.without += 1
            return None
        key = tuple([fields[it] for it in places]), field
        if key in self.numbers:
            return None
        try:
            kind, self.numbers[key] = value_of(field)
        except Fault as fault:
            return fault
        others = kinds - {kind}
        kinds.add(kind)
        return f"'{field}' is {kind}, and {min(others)} came before it" if others else None


def pairs_of(first, second, least, most):
    """The pairs, as the fields that a record begins with, and the second fields that follow them,
    each with the difference."""
    groups = {}
    for (group, field), number in second.numbers.items():
        groups.setdefault(group, []).append((number, field))
    for group, known in groups.items():
        known.sort(key=lambda it: it[0])
        groups[group] = [number for number, _ in known], [field for _, field in known]
    for (group, field), number in first.numbers.items():
        numbers, fields = groups.get(group, ([], []))
        begin = 0 if least is None else bisect.bisect_left(numbers, number + least)
        end = len(numbers) if most is None else bisect.bisect_right(numbers, number + most)
        if begin < end:
            yield [*group, field], [(fields[it], numbers[it] - number) for it in range(begin, end)]


class Output:
    """The bytes of the output, and how many pairs they have."""

    def __init__(self, header, pairs):
        self.header, self.pairs, self.count = header, pairs, 0

    def __iter__(self):
        lines = [record_of(self.header)]
        for start, ends in self.pairs:
            begun = record_of(start)[:-1]
            lines += [f"{begun},{it},{wait}\n" for it, wait in ends]
            self.count += len(ends)
            if len(lines) >= BATCH:
                yield "".join(lines).encode("latin-1")
                lines = []
        yield "".join(lines).encode("latin-1")


def names_of(columns):
    """The names of the columns of the output: one that came before gets _2, _3 and so on."""
    names = []
    for it in columns:
        free = [it, *[f"{it}_{number}" for number in range(2, len(columns) + 2)]]
        names.append(next(name for name in free if name not in names))
    return names


def columns_argument(text):
    """The columns of the first table and those of the second."""
    names = [it.partition("=") for it in next(csv.reader([text], strict=True), [])]
    if not all(it[0] for it in names):
        raise argparse.ArgumentTypeError("names with commas between them are needed")
    return [it[0] for it in names], [it[2] if it[1] else it[0] for it in names]


def number_argument(text):
    if not NUMBER.fullmatch(text):
        raise argparse.ArgumentTypeError(f"'{text}' is no whole number")
    return int(text)


def arguments():
    parser = Parser("pairs", __doc__)
    parser.add_argument("files", metavar="FILE", nargs="+")
    parser.add_argument("--by", metavar="COLUMNS", type=columns_argument, default=([], []))
    parser.add_argument("--from", metavar="COLUMN", dest="first", required=True)
    parser.add_argument("--to", metavar="COLUMN", dest="second", required=True)
    parser.add_argument("--least", metavar="N", type=number_argument)
    parser.add_argument("--most", metavar="N", type=number_argument)
    given = parser.parse_intermixed_args()
    if len(given.files) > 2:
        parser.error(f"one FILE too many: {given.files[2]}")
    if given.least is None and given.most is None:
        parser.error("--least or --most is needed")
    if None not in (given.least, given.most) and given.least > given.most:
        parser.error("--least is above --most")
    return given


def values_of(given):
    """The values of the first file and those of the second."""
    first, second = Values(given.by[0], given.first), Values(given.by[1], given.second)
    kinds, contents = set(), {}
    for values, name in zip((first, second), (given.files[0], given.files[-1])):
        if name not in contents:
            contents[name] = content_of(name)[1]
        values.take(name, contents[name], kinds)
    return first, second


def main():
    if sys.stderr is None:
        # Else what is said would go to the output.
        sys.stderr = open(os.devnull, "w", encoding="utf-8")
    given = arguments()
    try:
        first, second = values_of(given)
    except Fault as fault:
        print(f"pairs: {fault}", file=sys.stderr)
        return 1
    columns = [*given.by[0], given.first, given.second, WAIT]
    header = names_of([os.fsencode(it).decode("latin-1") for it in columns])
    output = Output(header, pairs_of(first, second, given.least, given.most))
    status = write_output("pairs", output)
    if status == 0:
        without = first.without + second.without
        print(f"pairs: rows: {first.rows} and {second.rows} read, {output.count} written"
              + (f", {without} without a value left out" if without else ""), file=sys.stderr)
        if output.count > MOST_ROWS:
            print(f"pairs: a table of a query has at most {MOST_ROWS} rows", file=sys.stderr)
    return status


if __name__ == "__main__":
    signal.signal(signal.SIGINT, signal.SIG_DFL)
    sys.exit(ended("pairs", main))
