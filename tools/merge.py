#!/usr/bin/env python3
"""Merges the outputs of `anyk run --ranks` for parts of a table into one, best first.

usage: anyk merge [--limit N] [--descending K ..] FILE ..

Each FILE is the output of the same query over other parts of its tables, with the columns rank1,
rank2 and so on. K is the number of an order key that descends. The merged answers are written to
the standard output, the first N of them if --limit says so. Equal ranks stay in the order of the
files. Files are read as far as they are needed. Status 1 says that the files are no such outputs,
and status 2 that the arguments are not as above.
"""
import argparse
import csv
import heapq
import itertools
import os
import re
import signal
import sys

# An isolated call of python3 does not look for modules in the folder of the script.
HERE = os.path.dirname(os.path.realpath(__file__))
sys.path.insert(0, HERE)

from ending import ended


class Fault(Exception):
    """What is wrong with the files, as a line for the user."""


def quoted(field):
    return '"' + field.replace('"', '""') + '"'


def record_of(fields):
    """A record, with quotes only if a field needs them, or if it is the empty only one."""
    if fields == [""]:
        return '""\n'
    return ",".join(quoted(it) if re.search('[,"\r\n]', it) else it for it in fields) + "\n"


def lines_of(file):
    """The lines of a file with their ends, which are line feeds. What else ends a line is between
    quotes in an output."""
    return (it.decode("latin-1") for it in file)


def places_of(header):
    """The places of rank1, rank2 and so on, which are side by side. They begin at the last rank1,
    since columns of a table may have the same name."""
    starts = [it for it, name in enumerate(header) if name == "rank1"]
    if not starts:
        raise Fault("there is no column rank1: call anyk with --ranks")
    first = starts[-1]
    count = next(it for it in itertools.count(1) if header[first + it :][:1] != [f"rank{it + 1}"])
    return range(first, first + count)


def ranked(name, records, places, descending):
    """The records of a file, each after its sums, those of descending keys negated."""
    last = None
    signs = [(place, -1 if it in descending else 1) for it, place in enumerate(places, 1)]
    for number, fields in enumerate(records, 1):
        try:
            sums = [sign * int(fields[place]) for place, sign in signs]
        except (IndexError, ValueError):
            raise Fault(f"{name}: row {number} has no ranks") from None
        if last is not None and sums < last:
            remedy = "does an order key descend? see --descending"
            raise Fault(f"{name}: row {number} comes too late; {remedy}")
        last = sums
        yield sums, fields


def records_of(name, file):
    """The records of a file."""
    try:
        yield from csv.reader(lines_of(file), strict=True)
    except csv.Error as error:
        is_open = "unexpected end" in str(error)
        raise Fault(f"{name}: " + ("a quote is never closed" if is_open else str(error))) from None


def merged(names, files, descending):
    """The header, and the records of all files, best first."""
    csv.field_size_limit(2**31 - 1)
    readers = [records_of(*it) for it in zip(names, files)]
    headers = [next(it, None) for it in readers]
    for name, header in zip(names, headers):
        if header is None or header != headers[0]:
            is_other = f"its header is not that of {names[0]}"
            raise Fault(f"{name}: {is_other if header else 'there is no header'}")
    places = places_of(headers[0])
    lists = [ranked(name, records, places, descending) for name, records in zip(names, readers)]
    return headers[0], (fields for _, fields in heapq.merge(*lists, key=lambda it: it[0]))


def natural(text):
    if not re.fullmatch("[0-9]{1,18}", text):
        raise argparse.ArgumentTypeError(f"'{text}' is no number from 0 on")
    return int(text)


class Parser(argparse.ArgumentParser):
    """A parser whose help is a page of the folder beside this file, if it is there."""

    def format_help(self):
        page = f"{HERE}/help/merge.txt"
        if not os.path.isfile(page):
            return __doc__.strip() + "\n"
        with open(page, encoding="utf-8") as file:
            return file.read()


def arguments():
    parser = Parser(prog="anyk merge", allow_abbrev=False)
    parser.add_argument("files", metavar="FILE", nargs="+")
    parser.add_argument("--limit", metavar="N", type=natural)
    parser.add_argument("--descending", metavar="K", type=natural, action="append", default=[])
    return parser.parse_intermixed_args()


def main():
    if sys.stderr is None:
        # Else what is said would go to the output.
        sys.stderr = open(os.devnull, "w", encoding="utf-8")
    given = arguments()
    try:
        if sys.stdout is None:
            raise Fault("the output is closed")
        files = [open(it, "rb") for it in given.files]
        header, records = merged(given.files, files, set(given.descending))
        for fields in itertools.chain([header], itertools.islice(records, given.limit)):
            sys.stdout.buffer.write(record_of(fields).encode("latin-1"))
        sys.stdout.buffer.flush()
    except Fault as fault:
        print(f"merge: {fault}", file=sys.stderr)
        return 1
    except OSError as error:
        print(f"merge: {error.filename or 'the output'}: {error.strerror}", file=sys.stderr)
        return 1
    return 0


if __name__ == "__main__":
    signal.signal(signal.SIGINT, signal.SIG_DFL)
    sys.exit(ended("merge", main))
