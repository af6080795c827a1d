#!/usr/bin/env python3
"""Tests of tools/check.py: what it says of files, one by one and at random, and how it ends.

usage: tests/check.py

A word that follows, such as the program's name, plays no part.
"""
import csv
import gzip
import io
import os
import random
import shutil
import subprocess
import sys
import tempfile

from arguments import arguments

TOP = os.path.dirname(os.path.dirname(os.path.abspath(__file__)))
SEED, GARBAGE = 11, 400
GREAT = 2**127
PACKED = "it is compressed: anyk query reads it if its name ends in .gz, and for other commands it is unpacked first, as by gzip -dc"
SAME_NAME = "columns 1 and 3 have the name a, which is refused"
BAD = "fields among whole numbers that ORDER BY refuses, the first in line"

# What a file holds, the lines about it without its name, and the status.
FILES = [
    ("a,b\n1,x\n2,y\n", ["2 rows, 2 columns, nothing to say"]),
    ("a\r\n1\r\n", ["1 row, 1 column, nothing to say"]),
    ("a", ["0 rows, 1 column, nothing to say"]),
    ('a,"b, c"\n1,"x ""y"""\n2,"two\r\nlines"\n\n3,""\n', ["3 rows, 2 columns, nothing to say"]),
    ('a\n"5"" disk"\n', ["1 row, 1 column, nothing to say"]),
    ("price,note\n1.5,\n2.5,x\n", ["2 rows, 2 columns, nothing to say"]),
    # What is no table.
    ("", ["it is empty"]),
    ("\n\r\n", ["it has only empty lines"]),
    (b"PK\x03\x04....[Content_Types].xml", ["it is an Excel file (xlsx): save it as CSV in the program that made it"]),
    (b"PAR1\x15;", ["it is a Parquet file: write it as CSV first"]),
    (b"SQLite format 3\0;", ["it is an SQLite database: export a table first, as by sqlite3 -header -csv FILE 'SELECT * FROM ..'"]),
    (b"PK\x03\x04....docProps/app.xml", ["it is an Excel file (xlsx): save it as CSV in the program that made it"]),
    (b"PK\x03\x04....t.csv", ["it is a zip archive: save it as CSV if it is a spreadsheet, and otherwise unpack it first, as by unzip -p"]),
    # What gzip packed.
    (gzip.compress(b"a,b\n1,x\n"), ["1 row, 2 columns", PACKED]),
    (gzip.compress(b"a,b\n1,x\n2\n"),
     ["2 rows, 2 columns", PACKED, "1 row has another number of fields than the header with 2, the first in line 3 with 1"]),
    (gzip.compress(b"a;b\n1;2\n"), [PACKED, "its fields are separated by semicolons, and commas are needed: anyk query --delimiter ';' reads it"]),
    (gzip.compress(b""), [PACKED, "it is empty"]),
    (gzip.compress(b"a,b\n1,x\n")[:-3], ["it is compressed, and its packed bytes break off"]),
    (gzip.compress(b"a,b\n1,x\n")[:-8] + bytes(8), ["it is compressed, and its bytes are damaged"]),
    (b"\x1f\x8b;,\n 0123456789 0123456789", ["it is compressed, and its bytes are damaged"]),
    (gzip.compress(gzip.compress(b"a\n1\n")), ["it is compressed twice: unpack it first, as by gzip -dc"]),
    (b"\x28\xb5\x2f\xfd;", ["it is compressed: unpack it first, as by zstd -dc"]),
    ("\ufeffa,b\n1,2\n".encode("utf-16-le"), ["it is UTF-16: convert it first, as by iconv -f utf16 -t utf8"]),
    ("a,b\n1,2\n".encode("utf-16-be"), ["it is UTF-16: convert it first, as by iconv -f utf16be -t utf8"]),
    ("a;b\n1;2\n", ["its fields are separated by semicolons, and commas are needed: anyk query --delimiter ';' reads it"]),
    ("a\tb\n1\t2\n", ["its fields are separated by tabs, and commas are needed: anyk query --tsv reads it"]),
    ("a|b\n1|2\n", ["its fields are separated by vertical bars, and commas are needed: anyk query --delimiter '|' reads it"]),
    ('{"a": 1}\n', ["it is JSON: write it as CSV first"]),
    # Bytes and ends of lines.
    ("\ufeffa,b\n1,x\n", ["1 row, 2 columns", "it begins with a byte order mark, which is passed over"]),
    ("a,b\r\n1,x\n2,y\r3,z\n", ["3 rows, 2 columns", "the lines have different ends: 1 in CR LF, 2 in LF, 1 in CR"]),
    ("a,b\r1,x\r", ["1 row, 2 columns", "the lines end in CR alone, which other programs may not take for an end"]),
    ('a,b\r\n1,"x\ny"\r\n', ["1 row, 2 columns, nothing to say"]),
    (b"a,b\n1,\xe5\n", ["1 row, 2 columns",
                       "line 2 is not UTF-8 (byte 0xe5), as in a file that is Latin-1: iconv -f latin1 -t utf8 converts that"]),
    (b"a,b\n1,x\n2,\0\n", ["2 rows, 2 columns", "line 3 has a byte 0"]),
    # Quotes.
    ('a,b\n1,"x\n2,y\n3,z\n', ["1 row, 2 columns", "the quote of line 2 is never closed, so it takes in 2 more lines"]),
    ('\ufeffa,b\n1,"x\n2,y', ["1 row, 2 columns", "it begins with a byte order mark, which is passed over",
                              "the quote of line 2 is never closed, so it takes in 1 more line"]),
    ('a,b\n1,"x', ["1 row, 2 columns", "the quote of line 2 is never closed"]),
    ('a,b\n1,x\n2,"y"z\n', ["2 rows, 2 columns", "line 3 has text after a closing quote, which is read as part of the field"]),
    ('a,b\n1,5" disk\n2,"x"\n', ["2 rows, 2 columns", "line 2 has a quote inside a field that does not begin with one, which is read as it is"]),
    ('a,b\n1,12"\n2,x\n', ["2 rows, 2 columns", "line 2 has a quote inside a field that does not begin with one, which is read as it is"]),
    ('a,b,c\n1,"x,1\n2,y,2\n3,z",3\n', ["1 row, 3 columns",
                                         "the quoted field of line 2 goes on to line 4, over what looks like rows: perhaps a quote is missing"]),
    # Names.
    ("a,b,a\n1,x,2\n", ["1 row, 3 columns", SAME_NAME]),
    ("a,,\n1,x,y\n", ["1 row, 3 columns", "column 2 has an empty name", "columns 2 and 3 have an empty name, which is refused"]),
    ('a,"b""c"\n1,x\n', ["1 row, 2 columns", 'the name b"c has a double quote, so that no query can write it']),
    ("a, b\n1,x\n", ["1 row, 2 columns", 'the name " b" has a blank at the beginning or the end, which a query has to write']),
    ("a,b\u200b\n1,x\n", ["1 row, 2 columns", "the name b\\u200b has a character that is not seen"]),
    # Rows and fields.
    ("a,b\n1,x\n2\n3,y,z\n", ["3 rows, 2 columns", "2 rows have another number of fields than the header with 2, the first in line 3 with 1"]),
    ("a,b\n1,x\n2,y,z\n", ["2 rows, 2 columns", "1 row has another number of fields than the header with 2, the first in line 3 with 3"]),
    ("a,b\n1,x\n2, y\n3,z \n", ["3 rows, 2 columns", "column b: 2 fields with a blank at the beginning or the end, the first in line 3"]),
    # Weights.
    ("a,w\nx,1\ny,\nz,3\n", ["3 rows, 2 columns", "column w: 1 empty field among whole numbers, which ORDER BY counts as 0, the first in line 3"]),
    ("a,w\nx,1\ny,2\nz,3\nu,NA\n", ["4 rows, 2 columns", "column w: 1 field among whole numbers that ORDER BY refuses, the first in line 5: 'NA'"]),
    (f"w\n1\n2\n3\n4\n5\n6\n{GREAT}\n+{GREAT - 1}\n-{GREAT}\n-{GREAT + 1}\n", ["10 rows, 1 column", f"column w: 2 {BAD} 8: '{GREAT}'"]),
    ("w,x\n1,y\n2,y\n3,y\n 4,y\n", ["4 rows, 2 columns", "column w: 1 field with a blank at the beginning or the end, the first in line 5",
                                    "column w: 1 field among whole numbers that ORDER BY refuses, the first in line 5: ' 4'"]),
    ("id,price\nx,\ny,5\nz,\n", ["3 rows, 2 columns", "column price: 2 empty fields among whole numbers, which ORDER BY counts as 0, the first in line 2"]),
    ("a,b\nx,\ny,\n", ["2 rows, 2 columns, nothing to say"]),
    ("w,x\n1,y\nNA,y\n,y\n", ["3 rows, 2 columns, nothing to say"]),
    # Limits.
    (",".join(f"a{it}" for it in range(65)) + "\n", ["0 rows, 65 columns", "65 columns, and a table has at most 64"]),
]

# The words of a call, its status, and what it has to print.
CALLS = [
    (["good=good.csv"], 0, "good: 1 row, 1 column, nothing to say\n"),
    (["good.csv", "folder/other.csv.gz", "x=good.csv"], 1,
     "good: 1 row, 1 column, nothing to say\nother: it is compressed, and its packed bytes break off\nx: 1 row, 1 column, nothing to say\n"),
    (["gone.csv"], 1, "gone: gone.csv: No such file or directory\n"),
    (["t=folder"], 1, "t: folder: Is a directory\n"),
    (["t=a=b.csv"], 0, "t: 1 row, 1 column, nothing to say\n"),
    (["t\x1b[31m=good.csv"], 0, "t\\x1b[31m: 1 row, 1 column, nothing to say\n"),
]
REFUSED = [([], "FILE is missing"), (["--x"], "--x is no option"), (["t="], "t= is not of the form TABLE=FILE"), (["=f"], "=f is not of the form"),
           ([""], "an empty argument is not of the form")]


class Failed(Exception):
    pass


def same(got, wanted):
    if got != wanted:
        raise Failed(f"\n  got:    {got!r}\n  wanted: {wanted!r}")


def write(file, content):
    with open(file, "wb") as it:
        it.write(content if isinstance(content, bytes) else content.encode())


def called(room, *words, **how):
    """The status, the output and the error output of a call."""
    env = {"PATH": os.environ.get("PATH", os.defpath), "HOME": room, "TMPDIR": room, "LANG": "C"}
    how = {"cwd": room, "env": env, "stdin": subprocess.DEVNULL, "timeout": 300, **how}
    ran = subprocess.run([sys.executable, "-X", "utf8", "-ISB", f"{TOP}/tools/check.py", *words], stdout=subprocess.PIPE, stderr=subprocess.PIPE, **how)
    return ran.returncode, ran.stdout.decode(), ran.stderr.decode()


def test_files(room):
    names = []
    for number, (content, _) in enumerate(FILES):
        write(f"{room}/{number}.csv", content)
        names.append(f"t{number}={number}.csv")
    status, output, error = called(room, *names)
    same((status, error), (1, ""))
    for number, (content, lines) in enumerate(FILES):
        got = [it.partition(": ")[2] for it in output.splitlines() if it.startswith(f"t{number}: ")]
        same((content, got), (content, lines))
    # A call for those alone of which there is nothing to say.
    good = [it for it, (_, lines) in zip(names, FILES) if lines[0].endswith("nothing to say")]
    same(called(room, *good)[0], 0)


def test_calls(room):
    write(f"{room}/good.csv", "a\nx\n")
    write(f"{room}/a=b.csv", "a\nx\n")
    os.mkdir(f"{room}/folder")
    write(f"{room}/folder/other.csv.gz", b"\x1f\x8b\x08\0")
    for words, status, output in CALLS:
        same((words, called(room, *words)), (words, (status, output, "")))
    for words, line in REFUSED:
        status, output, error = called(room, *words)
        same((words, status, output, error.startswith(f"check: {line}"), error.endswith("\nusage: anyk check [TABLE=]FILE ..\n")), (words, 2, "", True, True))
    with open(f"{TOP}/tools/help/check.txt", encoding="utf-8") as page:
        same(called(room, "--help"), (0, page.read(), ""))


def test_output_that_fails(room):
    write(f"{room}/good.csv", "a\nx\n")
    for to in (">&-", "> /dev/full"):
        line = f'"$0" -X utf8 -ISB "$1" good.csv {to}'
        ran = subprocess.run(["sh", "-c", line, sys.executable, f"{TOP}/tools/check.py"], cwd=room, stderr=subprocess.PIPE, timeout=100)
        same((to, ran.returncode, ran.stderr), (to, 11, b"anyk: write failed\n"))


def test_pipe(room):
    read, write_end = os.pipe()
    os.write(write_end, b"a,b\n1,\n")
    os.close(write_end)
    status, output, _ = called(room, "t=/dev/stdin", stdin=read)
    os.close(read)
    same((status, output.splitlines()[0]), (0, "t: 1 row, 2 columns, nothing to say"))


def test_limits(room):
    """A file of one row more than a table may have, and one that is longer than a file may be, which has no blocks on the disk."""
    write(f"{room}/rows.csv", b"a\n" + b"x\n" * 1048577)
    same(called(room, "rows.csv"), (1, "rows: 1048577 rows, 1 column\nrows: 1048577 rows, and a table has at most 1048576\n", ""))
    with open(f"{room}/long.csv", "wb") as file:
        file.write(b"a\n")
        file.truncate(67108865)
    same(called(room, "long.csv"), (1, "long: it has 67108865 bytes, and a file may have 67108864\n", ""))
    write(f"{room}/long.csv.gz", gzip.compress(b"a\n" + bytes(67108863), 1))
    same(called(room, "long.csv.gz"), (1, "long: it has more than 67108864 bytes when it is unpacked, and a file may have no more\n", ""))


def test_time_of_quotes(room):
    """Files of many quotes do not take time that grows with the square of their length."""
    for content in (b'a,"' + b'""' * 1000000, b"a,b\n" + b'1,5"\n' * 200000, b"a,b\n" + b'"x"y,"z"\n' * 100000):
        write(f"{room}/q.csv", content)
        status, output, error = called(room, "q.csv", timeout=120)
        same((status, error), (1, ""))


def test_garbage(room):
    """No file makes it fail, and the rows are those that a reader of CSV finds. It is called in this process, since there are many."""
    rnd = random.Random(SEED)
    pieces = [b",", b'"', b"\n", b"\r", b"\r\n", b"1", b"x", b" ", b'""', b"\xc3\xa5", b"\xff", b"\0", b"12.5", b"\xef\xbb\xbf", b";", b"\t", b"{", b"a,b\n"]
    for number in range(GARBAGE):
        content = b"".join(rnd.choice(pieces) for _ in range(rnd.randrange(60)))
        rows, columns, said = CHECK.findings(content, len(content))
        for it in said:
            same((number, it.isprintable()), (number, True))
        if rows is not None and b"\0" not in content:
            text = content[3:] if content.startswith(b"\xef\xbb\xbf") else content
            records = [it for it in csv.reader(io.StringIO(text.decode("latin-1"), newline="")) if it]
            same((content, rows, columns), (content, len(records) - 1, len(records[0])))
            try:
                list(csv.reader(io.StringIO(text.decode("latin-1"), newline=""), strict=True))
                is_open = False
            except csv.Error as error:
                is_open = "unexpected end" in str(error)
            if is_open:
                same((content, any("never closed" in it for it in said)), (content, True))


def module(name):
    sys.path.insert(0, f"{TOP}/tools")
    return __import__(name)


CHECK = module("check")


def tried(name):
    """How a test ends: what is to be said of it, and whether it failed."""
    room = tempfile.mkdtemp(prefix="anyk-check-")
    try:
        globals()[name](room)
        return "", False
    except Exception as why:
        return f"check: {name}: FAILED, {type(why).__name__}: {why}\n", True
    finally:
        shutil.rmtree(room, ignore_errors=True)


def main():
    arguments(__doc__, "", takes_more=True)
    tests = [it for it in globals() if it.startswith("test_")]
    results = [tried(it) for it in tests]
    print(*(said for said, _ in results), sep="", end="")
    failed = sum(is_failed for _, is_failed in results)
    print(f"check: {len(tests)} tests: " + (f"FAILED: {failed}" if failed else "passed"))
    return 1 if failed else 0


if __name__ == "__main__":
    sys.exit(main())
