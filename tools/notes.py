#!/usr/bin/env python3
"""Says what an accepted call may have answered otherwise than it was meant: one line that begins
with `note: ` for each.

usage: tools/notes.py ARGUMENT ..

The arguments are those of the call. There is a note for an outer, cross or natural join, whose
word is taken for an alias; for a file that is packed or binary, and is read as a table all the
same; for a table whose file ends inside quotes, which take in the rest of
it; and for a column of an order key with empty fields, which count as 0. The query and the tables
are read once more, if they are files: a pipe gives its bytes once. That takes two seconds at most,
after which no more is said. Whatever goes wrong here is not said either, and the status is 0.
"""
import itertools
import os
import sys
import time

# An isolated call of python3 does not look for modules in the folder of the script.
sys.path.insert(0, os.path.dirname(os.path.realpath(__file__)))

from ending import ended
from query_text import Call, Query, selects_of, written
from screen import shown
from syntax_hints import JOINS
from table_files import (
    bytes_of,
    count_lines,
    header_of,
    kind_of_bytes,
    lines_at,
    quotes_of,
    reader_of,
    text_lines,
    without_mark,
)

SECONDS = 2.0
RANKED = ("run", "session", "prove", "verify")
COMMANDS = RANKED + ("plan", "picture")
# How many records are read between two looks at the clock.
STRIDE = 4096
# A record after the last one. It is read as it is only if the file did not end inside quotes.
END = ["end", "end"]
# Without one of these no field of a file is empty.
EMPTY = (b",,", b",\n", b",\r", b"\n,", b"\r,", b'""')


class TooLate(Exception):
    """There is no more time."""


class Clock:
    """The time that is left."""

    def __init__(self, seconds):
        self.end = time.monotonic() + seconds

    def look(self):
        if time.monotonic() > self.end:
            raise TooLate


def join_notes(query, selects):
    """The words for other joins that are taken for aliases. One that is used as an alias is meant
    as one."""
    for select in selects:
        for table, alias, place in select.items:
            word = query.words[place + 1 : place + 2]
            is_join = (
                alias.lower() in JOINS
                and word == [alias.encode()]
                and query.words[place + 2 : place + 3] in ([b"join"], [b"inner"])
            )
            if is_join and (alias.encode(), b".") not in zip(query.words, query.words[1:]):
                yield (
                    f"{alias} is taken as the alias of {shown(written(table))}: this is an "
                    "inner join"
                )


def weights_of(call, selects):
    """The columns of the order keys, by table."""
    found = {}
    for select in selects:
        headers = {table: header_of(call.file_of(table)) for table, _, _ in select.items}
        for terms, _ in select.keys:
            for _, (alias, name) in terms:
                having = [
                    table
                    for table, called, _ in select.items
                    if (alias == called if alias is not None else name in headers[table])
                ]
                if having and name in headers[having[0]]:
                    found.setdefault(having[0], {})[name] = headers[having[0]].index(name)
    return found


class Reading:
    """One reading of a table: how many fields of some columns are empty and where the first is,
    and the row that is open at the end."""

    def __init__(self, content, columns, clock):
        self.counts, self.first = dict.fromkeys(columns, 0), {}
        self.open_row, self.open_lines = None, None
        reader = reader_of(itertools.chain(text_lines(content), [",".join(END)]))
        self.read(reader, columns, clock)

    def read(self, reader, columns, clock):
        line, row = 1, -1
        for number, fields in enumerate(reader):
            if number % STRIDE == 0:
                clock.look()
            if fields:
                row += 1
                for name, place in columns.items() if row else ():
                    if place < len(fields) and not fields[place]:
                        self.counts[name] += 1
                        self.first.setdefault(name, line)
                last = line, fields
            line = reader.line_num + 1
        if last[1] != END:
            self.open_row, self.open_lines = row, (last[0], reader.line_num - 1)


def open_note(file, content, reading):
    """What is said of a quote that is never closed."""
    raw = lines_at(content, *reading.open_lines)
    at = [at for at, close in quotes_of(raw) if close is None][-1]
    line = reading.open_lines[0] + count_lines(raw[:at])
    more = count_lines(raw[at:].rstrip(b"\r\n"))
    row = f"row {reading.open_row}" if reading.open_row else "the header"
    said = f"{shown(file)}: the quote of line {line} ({row}) is never closed"
    if more > 1:
        return f"{said}, so the {more} lines after it are part of its field"
    return f"{said}, so the line after it is part of its field" if more else said


def table_notes(call, selects, clock):
    """What the tables of the query have: bytes of another kind, quotes that are never closed, and
    empty weights."""
    weights = weights_of(call, selects) if call.command in RANKED else {}
    told = set()
    for table in dict.fromkeys(table for select in selects for table, _, _ in select.items):
        file = call.file_of(table)
        clock.look()
        content = without_mark(bytes_of(file) or b"")
        kind = kind_of_bytes(content[:65_536])
        # What is packed or binary has bytes 0, and a table that only begins like it has none.
        if kind and b"\0" in content[:65_536]:
            if file not in told:
                told.add(file)
                yield f"{shown(file)}: {kind}"
            continue
        has_empty = content.endswith(b",") or any(it in content for it in EMPTY)
        columns = weights.get(table, {}) if has_empty else {}
        if not columns and b'"' not in content:
            continue
        reading = Reading(content, columns, clock)
        if reading.open_row is not None and file not in told:
            told.add(file)
            yield open_note(file, content, reading)
        for name, count in reading.counts.items():
            if count:
                what = f"{count} empty weights count" if count > 1 else "1 empty weight counts"
                where = f"line {reading.first[name]} of {shown(file)}"
                yield (
                    f"table {shown(written(table))}, column {shown(written(name))}: {what} as "
                    f"0 ({'the first in ' if count > 1 else ''}{where})"
                )


def notes(words, seconds=SECONDS):
    """The notes of a call."""
    call, clock = Call(words), Clock(seconds)
    if call.command not in COMMANDS:
        return
    query = Query(call.query)
    selects = selects_of(query)
    yield from dict.fromkeys(join_notes(query, selects))
    yield from table_notes(call, selects, clock)


def main(words):
    try:
        sys.stdout.reconfigure(errors="backslashreplace")
        for it in notes(words):
            print(f"note: {it}", flush=True)
    except (Exception, KeyboardInterrupt):
        # The answers are there: nothing that fails here may look as if they were not.
        os.dup2(os.open(os.devnull, os.O_WRONLY), 1)


if __name__ == "__main__":
    if sys.argv[1:2] in (["-h"], ["--help"]):
        sys.exit(ended("notes", lambda: print(__doc__.strip())))
    main(sys.argv[1:])
