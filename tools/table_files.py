"""Reads the files of tables as the program reads them, and tells what else than a table a file is.

Nothing to run: tools/hints.py, tools/notes.py and tools/check.py import it.
"""
import collections
import csv
import io
import os
import re
import stat
import sys

# The most bytes of a file that the program reads, and the most rows and columns of a table.
LARGEST, ROWS, COLUMNS = 67_108_864, 1_048_576, 64
ORDER_MARK = b"\xef\xbb\xbf"
LINE_END = re.compile(rb"\r\n|\r|\n")
FIELD_END = re.compile(rb"[,\r\n]|\Z")
LEAST, GREATEST = -(2**127), 2**127 - 1
WHOLE = re.compile("[+-]?[0-9]{1,39}")
SPREADSHEET = "save it as CSV in the program that made it"
GZIP_START = b"\x1f\x8b"
UNPACK = "it is compressed: unpack it first, as by {} -dc"
# What files begin with that are no text, and what to do with them.
KINDS = (
    (b"PAR1", "it is a Parquet file: write it as CSV first"),
    (
        b"SQLite format 3\0",
        "it is an SQLite database: export a table first, as by sqlite3 -header -csv FILE "
        "'SELECT * FROM ..'",
    ),
    (b"\x28\xb5\x2f\xfd", UNPACK.format("zstd")),
    (
        GZIP_START,
        UNPACK.format("gzip") + ", or use anyk query, which reads files whose names end in .gz",
    ),
    (b"BZh", UNPACK.format("bzip2")),
    (b"\xfd7zXZ\0", UNPACK.format("xz")),
    (b"\xd0\xcf\x11\xe0", f"it is an Excel file (xls): {SPREADSHEET}"),
    (b"%PDF-", "it is a PDF file, and no table"),
    (b"ARROW1", "it is an Arrow file: write it as CSV first"),
)
UTF_16 = "it is UTF-16: convert it first, as by iconv -f utf16{} -t utf8"
SEPARATORS = ((";", "semicolons"), ("\t", "tabs"), ("|", "vertical bars"))

# A record: the numbers of its first and last line, and its fields.
Record = collections.namedtuple("Record", "line last fields")


def is_file(name):
    """Whether a file can be read a second time: no pipe, and no device."""
    try:
        return stat.S_ISREG(os.stat(name).st_mode)
    except (OSError, ValueError, TypeError):
        return False


def bytes_of(name, most=LARGEST):
    """The bytes of a file, or None if it cannot be read a second time."""
    if not is_file(name):
        return None
    with open(name, "rb") as file:
        return file.read(most)


def without_mark(content):
    """The bytes after one byte order mark."""
    return content[len(ORDER_MARK) :] if content.startswith(ORDER_MARK) else content


def text_lines(content):
    """The lines of these bytes as text, with their ends, without the byte order mark."""
    content = without_mark(content)
    if sys.version_info < (3, 11):
        # The module csv refused this byte before.
        content = content.replace(b"\0", b"\x7f")
    return io.TextIOWrapper(io.BytesIO(content), "utf-8", "surrogateescape", newline="")


def reader_of(lines):
    """What reads the records of lines, with quotes as the program reads them. Empty lines give
    empty records."""
    csv.field_size_limit(2 * LARGEST)
    return csv.reader(lines)


def records(content):
    """The records of these bytes, the header first. Empty lines are no records."""
    reader, line = reader_of(text_lines(content)), 1
    for fields in reader:
        if fields:
            yield Record(line, reader.line_num, fields)
        line = reader.line_num + 1


def record_of(name, row):
    """The record of a row, or None. The header is row 0."""
    for number, record in enumerate(records(bytes_of(name) or b"")):
        if number == row:
            return record
    return None


def header_of(name):
    """The names of the columns of a file, or none if it cannot be read a second time."""
    head = bytes_of(name, 65_536) or b""
    record = next(records(head), None)
    if len(head) == 65_536 and (record is None or record.last > count_lines(head)):
        # It goes on after these bytes.
        record = record_of(name, 0)
    return record.fields if record else []


def lines_at(content, first, last):
    """The bytes of the lines with these numbers, with their ends."""
    start, number = 0, 1
    for end in LINE_END.finditer(content):
        if number == first - 1:
            start = end.end()
        if number == last:
            return content[start : end.end()]
        number += 1
    return content[start:] if number >= first else b""


def quotes_of(part):
    """The quoted fields of some records: the offset of the quote that opens each, and that of the
    one that closes it, or None."""
    at = part.find(b'"')
    while at >= 0:
        end = at + 1
        if at == 0 or part[at - 1] in b",\r\n":
            close = part.find(b'"', at + 1)
            while close >= 0 and part[close + 1 : close + 2] == b'"':
                close = part.find(b'"', close + 2)
            yield at, close if close >= 0 else None
            if close < 0:
                return
            end = FIELD_END.search(part, close).start()
        at = part.find(b'"', end)


def count_lines(part):
    """How many line ends some bytes have."""
    return part.count(b"\n") + part.count(b"\r") - part.count(b"\r\n")


def is_weight(field):
    """Whether a field that is not empty is a weight."""
    return WHOLE.fullmatch(field) is not None and (
        len(field) < 39 or LEAST <= int(field) <= GREATEST
    )


def kind_of_bytes(head):
    """What else than text the bytes at the beginning of a file show it to be, or None."""
    for start, what in KINDS:
        if head.startswith(start):
            return what
    if head.startswith(b"PK\x03\x04"):
        if b"opendocument.spreadsheet" in head[:200]:
            return f"it is an OpenDocument spreadsheet (ods): {SPREADSHEET}"
        if any(it in head for it in (b"[Content_Types].xml", b"_rels/", b"docProps/", b"xl/")):
            return f"it is an Excel file (xlsx): {SPREADSHEET}"
        return (
            "it is a zip archive: save it as CSV if it is a spreadsheet, and otherwise unpack it "
            "first, as by unzip -p"
        )
    if head[:2] in (b"\xff\xfe", b"\xfe\xff"):
        return UTF_16.format("")
    sample = head[:400]
    if len(sample) > 3 and sample[1::2].count(0) > len(sample) // 3:
        return UTF_16.format("le")
    if len(sample) > 3 and sample[::2].count(0) > len(sample) // 3:
        return UTF_16.format("be")
    return None


def kind_of_zero(head):
    """What is said of a byte 0, which the fields of a table may have, but seldom do, or None."""
    if b"\0" not in head:
        return None
    return f"it has a byte 0 in line {count_lines(head[: head.index(0)]) + 1}: it may be no text"


def kind_of_text(head):
    """What else than a table with commas a text shows itself to be by its first lines, or None."""
    begin = head.lstrip(ORDER_MARK + b" \t\r\n").lower()
    if begin.startswith((b"<!doctype", b"<html", b"<?xml")):
        return "it is a web page or XML, and no table"
    if begin.startswith((b"{", b"[{", b"[\n")):
        return "it is JSON: write it as CSV first"
    header = next(records(head), Record(1, 1, [])).fields
    for sign, called in SEPARATORS:
        if len(header) == 1 and sign in header[0]:
            option = "--tsv" if sign == "\t" else f"--delimiter '{sign}'"
            return (
                f"its fields are separated by {called}, and commas are needed: anyk query "
                f"{option} reads it"
            )
    return None


def kind_of(name):
    """What else than a table with commas a file seems to be, or None. Its first bytes are looked
    at before its separators."""
    head = bytes_of(name, 65_536) or b""
    return kind_of_bytes(head) or kind_of_zero(head) or kind_of_text(head)
