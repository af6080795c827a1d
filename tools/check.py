#!/usr/bin/env python3
"""Says what a table's file has that may surprise, before a query reads it.

usage: tools/check.py [TABLE=]FILE ..

A FILE without a table's name is the table of its own name without the ending. The page
tools/help/check.txt lists what is looked at. Status 0 says that there is nothing to say, 1 that
there is, and 2 that the arguments are wrong.
"""
import gzip
import io
import os
import re
import signal
import sys
import zlib

# An isolated call of python3 does not look for modules in the folder of the script.
HERE = os.path.dirname(os.path.realpath(__file__))
sys.path.insert(0, HERE)

from query_text import written
from screen import shown
from table_files import (
    COLUMNS,
    FIELD_END,
    GZIP_START,
    LARGEST,
    ORDER_MARK,
    ROWS,
    count_lines,
    is_weight,
    kind_of_bytes,
    kind_of_text,
    quotes_of,
    records,
    without_mark,
)

PAGE = f"{HERE}/help/check.txt"
FORM = "usage: anyk check [TABLE=]FILE .."
# A quoted field, of bytes in which each pair of quotes is left out.
QUOTED = re.compile(rb'"(?<=[,\r\n]")[^"]*"')
TEXT_AFTER = re.compile(rb'"(?<=[,\r\n]")[^"]*"[^,\r\n]')
BLANKS = " \t\u00a0"
PACKED = (
    "it is compressed: anyk query reads it if its name ends in .gz, and for other commands it is "
    "unpacked first, as by gzip -dc"
)


class Fault(Exception):
    """What is wrong with the arguments, as a line for the user."""


def many(count, what):
    return f"{count} {what}{'' if count == 1 else 's'}"


class Column:
    """What the fields of a column are, by their numbers and the first of each kind."""

    def __init__(self, name):
        self.name, self.whole, self.empty, self.bad, self.blank = name, 0, 0, 0, 0
        self.first_empty = self.first_bad = self.first_blank = None

    def take(self, field, line):
        if field.isdigit() and field.isascii() and len(field) < 39:
            # Most fields of such a column, so that they take the least time.
            self.whole += 1
            return
        if not field:
            self.empty += 1
            self.first_empty = self.first_empty or line
            return
        if field[0] in BLANKS or field[-1] in BLANKS:
            self.blank += 1
            self.first_blank = self.first_blank or line
        if field[-1].isdigit() and is_weight(field):
            self.whole += 1
        else:
            self.bad += 1
            self.first_bad = self.first_bad or (line, field)

    def findings(self):
        called = f"column {shown(written(self.name)) or '(empty)'}"
        if self.blank:
            yield (
                f"{called}: {many(self.blank, 'field')} with a blank at the beginning or the "
                f"end, the first in line {self.first_blank}"
            )
        # Nearly all whole numbers: a column that may be meant to be ranked by.
        if self.whole < 3 * self.bad or not self.whole:
            return
        if self.bad:
            line, field = self.first_bad
            yield (
                f"{called}: {many(self.bad, 'field')} among whole numbers that ORDER BY "
                f"refuses, the first in line {line}: {shown(repr(field))}"
            )
        if self.empty:
            yield (
                f"{called}: {many(self.empty, 'empty field')} among whole numbers, which "
                f"ORDER BY counts as 0, the first in line {self.first_empty}"
            )


class Table:
    """The records of a file: how many rows and columns there are, and what is to be said of them.
    That the last one is open at the end is said elsewhere."""

    def __init__(self, content, is_open):
        self.header, self.columns, self.rows = [], [], 0
        self.ragged, self.first_ragged, self.swallowed = 0, None, None
        for record in records(content):
            if not self.columns:
                self.header = record.fields
                self.columns = [Column(it) for it in self.header]
            else:
                self.take(record)
        if is_open and self.swallowed and self.swallowed[1] == record.last:
            self.swallowed = None

    def take(self, record):
        self.rows += 1
        fields, line = record.fields, record.line
        if len(fields) != len(self.columns):
            self.ragged += 1
            self.first_ragged = self.first_ragged or (line, len(fields))
            return
        for column, field in zip(self.columns, fields):
            column.take(field, line)
        if record.last > line and self.swallowed is None and has_rows(fields, len(self.columns)):
            self.swallowed = line, record.last

    def findings(self):
        if len(self.columns) > COLUMNS:
            yield f"{many(len(self.columns), 'column')}, and a table has at most {COLUMNS}"
        if self.rows > ROWS:
            yield f"{many(self.rows, 'row')}, and a table has at most {ROWS}"
        yield from name_findings(self.header)
        if self.ragged:
            line, count = self.first_ragged
            what = (
                "1 row has another number of fields"
                if self.ragged == 1
                else f"{self.ragged} rows have another number of fields"
            )
            yield (
                f"{what} than the header with {len(self.columns)}, the first in line {line} "
                f"with {count}"
            )
        if self.swallowed:
            first, last = self.swallowed
            yield (
                f"the quoted field of line {first} goes on to line {last}, "
                "over what looks like rows: perhaps a quote is missing"
            )
        for it in self.columns:
            yield from it.findings()


def has_rows(fields, width):
    """Whether a field has lines that look like rows of so many fields."""
    return width > 1 and any(
        line.count(",") >= width - 1
        for field in fields
        if "\n" in field or "\r" in field
        for line in field.splitlines()[1:]
    )


def name_findings(names):
    """What is to be said of the names of columns."""
    for place, name in enumerate(names, 1):
        first = names.index(name) + 1
        if first < place:
            yield (
                f"columns {first} and {place} have "
                f"{f'the name {shown(written(name))}' if name else 'an empty name'}, which is "
                "refused"
            )
        elif not name:
            yield f"column {place} has an empty name"
        elif '"' in name:
            yield f"the name {shown(name)} has a double quote, so that no query can write it"
        elif name != name.strip():
            yield (
                f"the name {shown(written(name))} has a blank at the beginning or the end, "
                "which a query has to write"
            )
        elif not name.isprintable() and not re.search("[\udc80-\udcff]", name):
            yield f"the name {shown(name)} has a character that is not seen"


class Quotes:
    """The quotes of a file without its byte order mark, and what is outside of quoted fields."""

    def __init__(self, content):
        self.content, self.outside = content, content
        self.open = self.after = self.stray = None
        if b'"' not in content:
            return
        reduced = b"\n" + content.replace(b'""', b"")
        self.outside = QUOTED.sub(b"", reduced)[1:]
        # A file whose quotes are as they have to be is not looked at one by one, which takes
        # longer.
        if b'"' in self.outside or TEXT_AFTER.search(reduced):
            self.look()

    def look(self):
        """Finds the quote that is never closed, and the first that is otherwise not as it has to
        be."""
        content, end = self.content, 0
        for at, close in quotes_of(content):
            if self.stray is None and content.find(b'"', end, at) >= 0:
                self.stray = content.find(b'"', end, at)
            if close is None:
                self.open = at
                return
            end = FIELD_END.search(content, close).start()
            if self.after is None and end > close + 1:
                self.after = close
        if self.stray is None and content.find(b'"', end) >= 0:
            self.stray = content.find(b'"', end)

    def findings(self):
        if self.open is not None:
            more = count_lines(self.content[self.open :].rstrip(b"\r\n"))
            yield f"the quote of line {line_of(self.content, self.open)} is never closed" + (
                f", so it takes in {many(more, 'more line')}" if more else ""
            )
        if self.after is not None:
            yield (
                f"line {line_of(self.content, self.after)} has text after a closing quote, "
                "which is read as part of the field"
            )
        if self.stray is not None:
            yield (
                f"line {line_of(self.content, self.stray)} has a quote inside a field that "
                "does not begin with one, which is read as it is"
            )


def line_of(content, at):
    return count_lines(content[:at]) + 1


def end_findings(outside):
    """What is to be said of the ends of lines, outside of quoted fields."""
    pairs = outside.count(b"\r\n")
    counts = {
        "CR LF": pairs,
        "LF": outside.count(b"\n") - pairs,
        "CR": outside.count(b"\r") - pairs,
    }
    found = [f"{count} in {name}" for name, count in counts.items() if count]
    if len(found) > 1:
        yield f"the lines have different ends: {', '.join(found)}"
    elif counts["CR"]:
        yield "the lines end in CR alone, which other programs may not take for an end"


def byte_findings(content):
    """What is to be said of the bytes: marks, and what is no UTF-8."""
    if content.startswith(ORDER_MARK):
        yield "it begins with a byte order mark, which is passed over"
        if content.startswith(ORDER_MARK, len(ORDER_MARK)):
            yield "it begins with a second byte order mark, which is part of the first name"
    try:
        content.decode()
    except UnicodeDecodeError as error:
        byte = content[error.start]
        yield (
            f"line {line_of(content, error.start)} is not UTF-8 (byte {byte:#04x}), as in a "
            "file that is Latin-1: iconv -f latin1 -t utf8 converts that"
        )


def findings(content, size):
    """How many rows and columns the file has, or None, None if it is no table at all, and what is
    to be said of it."""
    if size > LARGEST:
        return None, None, [f"it has {size} bytes, and a file may have {LARGEST}"]
    if content.startswith(GZIP_START):
        return packed_findings(content)
    kind = kind_of_bytes(content[:65_536]) or kind_of_text(content[:65_536])
    if kind:
        return None, None, [kind]
    quotes = Quotes(without_mark(content))
    table = Table(content, quotes.open is not None)
    if not table.columns:
        return None, None, ["it has only empty lines" if content else "it is empty"]
    said = [f"line {line_of(content, content.index(0))} has a byte 0"] if b"\0" in content else []
    said += [
        *byte_findings(content),
        *end_findings(quotes.outside),
        *quotes.findings(),
        *table.findings(),
    ]
    return table.rows, len(table.columns), said


def packed_findings(packed):
    """The same of a file that is packed by gzip, with what is to be said of its table."""
    try:
        with gzip.GzipFile(fileobj=io.BytesIO(packed)) as stream:
            content = stream.read(LARGEST + 1)
    except EOFError:
        return None, None, ["it is compressed, and its packed bytes break off"]
    except (OSError, zlib.error):
        return None, None, ["it is compressed, and its bytes are damaged"]
    if len(content) > LARGEST:
        more = f"it has more than {LARGEST} bytes when it is unpacked, and a file may have no more"
        return None, None, [more]
    if content.startswith(GZIP_START):
        return None, None, ["it is compressed twice: unpack it first, as by gzip -dc"]
    rows, columns, said = findings(content, len(content))
    return rows, columns, [PACKED, *said]


def name_of(file):
    """The table's name that a file suggests: its own, without the ending."""
    name = os.path.basename(file)
    return os.path.splitext(name[: -len(".gz")] if name.endswith(".gz") else name)[0]


def lines_about(name, file):
    """The lines about a file, and whether there is something to say."""
    try:
        with open(file, "rb") as it:
            content = it.read(LARGEST + 1)
            size = max(len(content), os.fstat(it.fileno()).st_size)
    except (OSError, ValueError) as error:
        return [f"{shown(file)}: {getattr(error, 'strerror', None) or error}"], True
    rows, columns, said = findings(content, size)
    if rows is None:
        return said, True
    counts = f"{many(rows, 'row')}, {many(columns, 'column')}"
    return [counts, *said] if said else [f"{counts}, nothing to say"], bool(said)


def table_of(word):
    """The table and the file that an argument names."""
    name, equals, file = word.partition("=")
    if word.startswith("-"):
        raise Fault(f"{shown(word)} is no option")
    if equals and not (name and file) or not word:
        raise Fault(f"{shown(word) or 'an empty argument'} is not of the form TABLE=FILE")
    return (name, file) if equals else (name_of(word), word)


def main(words):
    if sys.stdout is None:
        raise OSError("the output is closed")
    sys.stdout.reconfigure(errors="backslashreplace")
    if words[:1] in (["-h"], ["--help"]):
        if os.path.isfile(PAGE):
            with open(PAGE, encoding="utf-8") as page:
                print(page.read(), end="", flush=True)
        else:
            print(__doc__.strip(), flush=True)
        return 0
    try:
        if not words:
            raise Fault("FILE is missing")
        tables = [table_of(it) for it in words]
    except Fault as fault:
        print(f"check: {fault}\n{FORM}", file=sys.stderr)
        return 2
    status = 0
    for name, file in tables:
        lines, is_said = lines_about(name, file)
        print(*(f"{shown(name)}: {it}" for it in lines), sep="\n", flush=True)
        status = status or int(is_said)
    return status


if __name__ == "__main__":
    signal.signal(signal.SIGPIPE, signal.SIG_DFL)
    signal.signal(signal.SIGINT, signal.SIG_DFL)
    try:
        sys.exit(main(sys.argv[1:]))
    except OSError:
        # The output is closed, or the disk is full. What is left would be tried again at the end.
        os.dup2(os.open(os.devnull, os.O_WRONLY), 1)
        print("anyk: write failed", file=sys.stderr)
        sys.exit(11)
