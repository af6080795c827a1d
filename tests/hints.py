#!/usr/bin/env python3
"""Tests of tools/hints.py and tools/notes.py: what they say of refusals and of accepted calls, and that no input makes them fail.

usage: tests/hints.py [PROGRAM]

Each case has the arguments of a call and the line with which the program refuses it. If PROGRAM is given, or ./anyk has built one, it is
called too, and has to write that line. The tools are called as the launcher calls them.
"""
import contextlib
import io
import os
import pty
import random
import re
import shutil
import sqlite3
import struct
import subprocess
import sys
import tempfile
import time

from arguments import arguments

TOP = os.path.dirname(os.path.dirname(os.path.abspath(__file__)))
BUILT = f"{TOP}/crates/anyk_cli/out/anyk_cli"
SEED, GARBAGE = 7, 300


class Failed(Exception):
    pass


def check(holds, *said):
    if not holds:
        raise Failed(" ".join(map(str, said)))


def same(got, wanted):
    check(got == wanted, f"\n  got:    {got!r}\n  wanted: {wanted!r}")


def has(text, *parts):
    for part in parts:
        check(part in text, f"\n  {part!r}\n  is not in\n{text}")


def read(file):
    with open(file, encoding="utf-8") as it:
        return it.read()


def write(file, content):
    os.makedirs(os.path.dirname(file), exist_ok=True)
    with open(file, "wb") as it:
        it.write(content if isinstance(content, bytes) else content.encode(errors="surrogateescape"))


TRAINS = read(f"{TOP}/docs/using/trains.csv")
HOTELS = read(f"{TOP}/docs/using/hotels.csv")
# The bounds of a certificate for stay.sql.
BOUNDS = "anyk-proof 1\nbound 1 6 1\nbound 2 1\nbound 2 3\nbound 2 4\nbound 2 5\n"
NUMBERS = "".join(f"{it},{it}\n" for it in range(40))
FILES = {
    "t.csv": TRAINS, "h.csv": HOTELS, "none.csv": "", "blank.csv": "\n\n", "twice.csv": "a,b,a\n1,2,3\n", "empty_twice.csv": "a,,\n1,2,3\n",
    "cut.csv": "a,b\n1,2\n\n1\n", "bad.csv": 'city,"a\nb",n\nx,y,1\n"x\nx",y,2\nx,\x1b[31my,12.5\n', "semi.csv": "city;price\nOslo;3\n",
    "big.csv": f"n\n{2**127 - 1}\n", "spaced.csv": "id , price\n1, 2\n", "keys.csv": 'from,order,id ,q"n\n1,2,3,4\n',
    "open.csv": 'id,city\n1,Oslo\n2,"Oslo\n3,Otta\n', "wide.csv": 'a,b\n1,x, y\n', "late.csv": 'a,b\n1,"x\ny",z\n', "tail.csv": "a,b\n1,x,\n",
    "blank_quote.csv": 'a,b\n1, "x, y"\n', "raw.csv": 'a,b\n"1","2","3"\n',
    "p.xlsx": b"PK\x03\x04\x14\0\x06\0\x08\0!\0" + b"[Content_Types].xml |xl/" + bytes(range(256)), "p.zip": b"PK\x03\x04\x14\0|,\n",
    "p.parquet": b"PAR1\x15\t\0\x15;|,\n\xff\n", "p.db": b"SQLite format 3\0\x10\0;\n", "p.zst": b"\x28\xb5\x2f\xfd\x04;\n", "p.gz": b"\x1f\x8b\x08\0;\n",
    "p16.csv": "\ufeffa;b\n1;2\n".encode("utf-16-le"), "p16be.csv": "a;b\n1;2\n".encode("utf-16-be"), "p0.csv": b"a;b\n1;\0x\n",
    "p.json": '[{"a": 1}]\n', "p.html": "<!DOCTYPE html>\n<html></html>\n", "f.csv": "a\n1\n",
    "stay.sql": "SELECT t.train, h.hotel\nFROM trains AS t, hotels AS h\nWHERE t.destination = h.city\n\tAND t.origin = 'Oslo'\nORDER BY t.price + h.price\n",
    "two.sql": "SELECT t.train, h.hotel\nFROM trains AS t, hotels AS h\nWHERE t.destination = h.city\n\tAND t.origin = 'Oslo'\nORDER BY t.price + h.price LIMIT 2\n",
    "table.sql": "SELECT * FROM train", "alias.sql": "SELECT * FROM trains t, trains t", "named.sql": "SELECT trains.train FROM trains t",
    "column.sql": "select\n  t.prise from trains t", "bare.sql": "select prise from trains, hotels", "both.sql": "SELECT price FROM trains, hotels h",
    "weight.sql": 'select n from "bad" b order by n', "circle.sql": read(f"{TOP}/docs/using/circle.sql"),
    "range.sql": "select n from big order by n ,\n n - n desc limit 3;", "limit.sql": "select n from big limit 99999999999999999999",
    "full.sql": "select trains.train from trains as full", "left.sql": "select trains.train from trains left join hotels on trains.destination = city",
    "semi.sql": "select price from semi", "one.sql": "select * from x", "many.sql": "select * from " + ", ".join(f"t a{it}" for it in range(17)),
    "beside.sql": 'SELECT trains.train FROM "trains""t"', "union.sql": "select n from bad order by n union all select n from bad",
    "uneven.sql": "select train from trains union all select city, hotel from hotels",
    "unkeyed.sql": "select train from trains order by price union all select train from trains",
    "turned.sql": "select train from trains order by price union all select train from trains order by price asc"
                  " union all select train from trains order by price desc",
    "starred.sql": "select train from trains union all select * from hotels",
    "even.sql": "select train from trains union all select hotel from hotels",
    "second.sql": "select train from trains order by price union all select n from bad order by n",
    "round.sql": "select train from trains union all select a.train from trains a, trains b, trains c where a.destination = b.origin"
                 " and b.destination = c.origin and c.destination = a.origin",
    "p0.txt": "", "p1.txt": "anyk-proof 1\nbound 1 6 1\nbound  2 1\nend\n", "p2.txt": "anyk-proof 1\nbound 3 1\nend\n", "p3.txt": "anyk-proof 1\nend\n",
    "p4.txt": "anyk-proof 1\nbound 2 1\nbound 2 2\nend\n", "p5.txt": f"{BOUNDS}answer 6 3\nend\n", "p6.txt": f"{BOUNDS}answer 1 1\nanswer 6 1\nend\n",
    "p7.txt": f"{BOUNDS}answer 6 1\nmore\n", "p8.txt": f"{BOUNDS}answer 6 1\nend\n", "p9.txt": f"{BOUNDS}answer 16 1\nmore\n",
    "p10.txt": f"{BOUNDS}answer 6\nmore\n", "p11.txt": "anyk-proof 1\nbound 2 99\nmore\n", "p12.txt": "train,hotel\n",
    "s0.txt": "open a\n", "s1.txt": "open a\nnext a 1\nnext  a 1\n", "s2.txt": "open first\nopen second\nclose second\nnext frist 1\n", "s3.txt": "# one\nopen a\nopen a\n",
}
WORDS = ["stay.sql", "trains=t.csv", "hotels=h.csv"]
TWO = ["two.sql", "trains=t.csv", "hotels=h.csv"]


def at(text, column):
    """How a hint shows a line of the query, with a caret below a column, from 0."""
    return f"\n      {text}\n{' ' * (6 + column)}^\n"


# The arguments of a call, its status, what the program says of it, and what the hint has to hold. The program is called for those that need
# no large file.
REFUSALS = [
    # What a newcomer calls first.
    (["stay.sql", "t.csv", "h.csv"], 2, "usage", ["the command is missing before stay.sql; perhaps anyk run stay.sql t=t.csv h=h.csv is meant"]),
    (["run", "stay.sql", "t.csv", "h.csv"], 2, "usage", ["t.csv is not of the form TABLE=FILE; perhaps t=t.csv is meant", "perhaps h=h.csv is meant"]),
    (["run", "SELECT train FROM trains"], 2, "usage", ["anyk query 'SELECT ..' TABLE=FILE .. takes the query itself"]),
    (["SELECT train FROM trains"], 2, "usage", ["is not a command; anyk query 'SELECT ..'"]),
    (["run", "SELECT train FROM trains", "trains=t.csv"], 9, "file SELECT train FROM trains: not found", ["anyk query 'SELECT ..'"]),
    (["run", "-"], 2, "usage", ["the standard input is /dev/stdin", "TABLE=FILE is missing"]),
    (["run", "-", "trains=t.csv"], 9, "file -: not found", ["the standard input is /dev/stdin"]),
    (["run", "stay.sql", "trains", "=", "t.csv"], 2, "usage", ["no blank stands beside the ="]),
    (["run", "stay.sql"], 2, "usage", ["TABLE=FILE is missing", "usage: anyk run [--engine"]),
    (["run", "trains=t.csv"], 2, "usage", ["QUERYFILE is missing"]),
    (["run", "wide.csv", "trains=t.csv"], 3, "syntax error at byte 0", ["a query begins with SELECT; is wide.csv the file of the query?"]),
    (["help", "cycle"], 2, "usage", ["there is no page of help for these arguments"]),
    (["rnu", *WORDS], 2, "usage", ["rnu is not a command; perhaps run is meant"]),
    (["qqqqqq", *WORDS], 2, "usage", ["qqqqqq is not a command\n", "usage: anyk run", "anyk plan QUERYFILE"]),
    (["chekc", "t.csv"], 2, "usage", ["chekc is not a command; perhaps check is meant"]),
    # Options and arguments.
    (["run", "--rank", *WORDS], 2, "usage", ["--rank is not an option of run; perhaps --ranks is meant"]),
    (["run", "--ranks", "--ranks", *WORDS], 2, "usage", ["--ranks is given twice"]),
    (["run", "--engine", "best", *WORDS], 2, "usage", ["--engine takes part or rec"]),
    (["run", *WORDS, "--best-of"], 2, "usage", ["--best-of takes the alias of an item"]),
    (["run", "--best-of", *WORDS[:2]], 2, "usage", ["QUERYFILE is missing", "[--best-of ALIAS]"]),
    (["plan", "--best-of", "t", *WORDS], 2, "usage", ["--best-of is not an option of plan"]),
    (["run", *WORDS, "trains=h.csv", "x"], 2, "usage", ["the table trains is given twice", "x is not of the form TABLE=FILE"]),
    (["session", *WORDS], 2, "usage", ["--script is missing", "usage: anyk session"]),
    (["verify", *WORDS], 2, "usage", ["--proof is missing", "usage: anyk verify"]),
    (["prove", "--rank", *WORDS], 2, "usage", ["--rank is not an option of prove", "usage: anyk prove"]),
    (["load", "--rows", "3"], 2, "usage", ["--number is missing", "usage: anyk load"]),
    (["run", "--ranks=yes", *WORDS], 2, "usage", ["--ranks takes no value"]),
    (["load", "--number", "x", "--rows", "0"], 2, "usage",
     ["--number takes a whole number from 0 to 2147483647", "--rows takes a whole number from 1 to 100000"]),
    (["load", "--number=01", "--rows"], 2, "usage", ["--number takes a whole number", "--rows takes a whole number"]),
    (["load", "--number=2147483647", "--rows=100001"], 2, "usage", ["  --rows takes a whole number"]),
    (["plan", "--rows", *WORDS], 2, "usage", ["--rows is not an option of plan"]),
    (["run", "--json", *WORDS], 2, "usage", ["--json is not an option of run, but of query: anyk help query prints its page\n"]),
    (["run", *WORDS, "--limit", "3"], 2, "usage", ["--limit is not an option of run, but of query", "usage: anyk run"]),
    (["plan", "--json", *WORDS], 2, "usage", ["--json is not an option of plan\n"]),
    # Certificates.
    (["verify", "--proof", "p1.txt", *WORDS], 14, "proof line 3: bad line", ["line 3 of p1.txt:\n", "    bound  2 1\n"]),
    (["verify", "--proof=p2.txt", *WORDS], 14, "proof line 2: no solution",
     ["line 2 of p2.txt:\n", "    bound 3 1\n", "has 2 items and so no node 3: the certificate was made for another query\n"]),
    (["verify", *WORDS, "--proof", "p0.txt"], 14, "proof: bad header", ["p0.txt is empty; was anyk prove refused?"]),
    (["verify", *WORDS, "--proof", "p12.txt"], 14, "proof: bad header", ["line 1 of p12.txt:\n      train,hotel\n", "Check that it is the right file"]),
    (["verify", *WORDS, "--proof", "p3.txt"], 14, "proof node 2: bound missing or too high", ["made from other tables or for another query"]),
    (["verify", *WORDS, "--proof", "p4.txt"], 14, "proof line 3: bound twice", ["line 3 of p4.txt:\n", "    bound 2 2\n"]),
    (["verify", *WORDS, "--proof", "p5.txt"], 14, "proof line 7: no answer",
     ["line 7 of p5.txt:\n", "    answer 6 3\n", "it may be made from other tables or for another query\n"]),
    (["verify", *WORDS, "--proof", "p6.txt"], 14, "proof line 8: not in order", ["line 8 of p6.txt:\n", "    answer 6 1\n"]),
    (["verify", *WORDS, "--proof", "p7.txt"], 14, "proof: wrong number of answers", ["p7.txt has 1 answers, and the query has no LIMIT"]),
    (["verify", *WORDS, "--proof", "p8.txt"], 14, "proof: unlisted answer", ["made from other tables or for another query"]),
    (["verify", *TWO, "--proof", "p9.txt"], 14, "proof line 7: no answer",
     ["the table trains has no row 16, but 8 rows: the certificate was made from another file\n"]),
    (["verify", *TWO, "--proof", "p10.txt"], 14, "proof line 7: no answer", ["has 2 items, and the line has 1 rows: the certificate was made for another query\n"]),
    (["verify", *TWO, "--proof", "p11.txt"], 14, "proof line 2: no solution", ["no table has a row 99: the certificate was made from other files\n"]),
    # Scripts.
    (["session", "--script", "s1.txt", *WORDS], 3, "script line 3: bad line",
     ["line 3 of s1.txt:\n", "    next  a 1\n", "rewind NAME", "there is one blank between its parts\n"]),
    (["session", "--script=s2.txt", *WORDS], 3, "script line 4: unknown cursor", ["next frist 1", "open there: first; perhaps first is meant"]),
    (["session", *WORDS, "--script", "s3.txt"], 3, "script line 3: cursor exists", ["a was opened in line 2"]),
    # Names.
    (["run", "beside.sql", "trains=t.csv"], 4, "byte 7: unknown alias", ["the items are t; the table trains is called t there"]),
    (["run", "full.sql", "trains=t.csv"], 4, "byte 7: unknown alias", ["the items are full; the table trains is called full there\n"]),
    (["run", "left.sql", "trains=t.csv", "hotels=h.csv"], 4, "byte 7: unknown alias", ["there is no outer join: left is taken for an alias\n"]),
    (["run", "table.sql", "trains=t.csv"], 4, "byte 14: unknown table",
     [at("SELECT * FROM train", 14), "the table trains; perhaps trains is meant"]),
    (["run", "one.sql", "trains=t.csv"], 4, "byte 14: unknown table", ["the arguments name the table trains\n  an argument x=FILE is missing\n"]),
    (["run", "alias.sql", "trains=t.csv"], 4, "item 2: alias used twice", [at("SELECT * FROM trains t, trains t", 24), "item 1 has the alias t too"]),
    (["run", "named.sql", "trains=t.csv"], 4, "byte 7: unknown alias",
     [at("SELECT trains.train FROM trains t", 7), "the items are t; the table trains is called t there"]),
    (["run", "column.sql", "trains=t.csv"], 4, "byte 9: unknown column",
     ["line 2 of column.sql", at("  t.prise from trains t", 2), "(t.csv) has the columns train, origin, destination, price", "perhaps price is meant"]),
    (["run", "bare.sql", "trains=t.csv", "hotels=h.csv"], 4, "byte 7: unknown column",
     ["trains (t.csv)", "hotels (h.csv)", "perhaps price is meant"]),
    (["run", "semi.sql", "semi=semi.csv"], 4, "byte 7: unknown column", ["separated by semicolons"]),
    (["run", "both.sql", "trains=t.csv", "hotels=h.csv"], 4, "byte 7: ambiguous column", ["write trains.price or h.price"]),
    (["run", "--best-of", "hotels", *WORDS], 4, "unknown alias in --best-of", ["the items are t, h; the table hotels is called h there"]),
    (["session", "--script", "s0.txt", "--best-of=T", *WORDS], 4, "unknown alias in --best-of", ["the items are t, h; perhaps t is meant"]),
    # Tables.
    (["run", "one.sql", "x=none.csv"], 5, "table x: no header", ["the file is none.csv, which is empty"]),
    (["run", "one.sql", "x=blank.csv"], 5, "table x: no header", ["the file is blank.csv, which has only empty lines"]),
    (["run", "one.sql", "x=twice.csv"], 5, "table x: column 3: name used twice", ["columns 1 and 3 of twice.csv have the name a"]),
    (["run", "one.sql", "x=empty_twice.csv"], 5, "table x: column 3: name used twice", ["columns 2 and 3 of empty_twice.csv have an empty name"]),
    (["run", "one.sql", "x=cut.csv"], 5, "table x: row 2: wrong number of fields", ["line 4 of cut.csv, with 1 where the header has 2:\n      1\n", "Look for"]),
    (["run", "one.sql", "x=raw.csv"], 5, "table x: row 1: wrong number of fields", ['line 2 of raw.csv, with 3 where the header has 2:\n      "1","2","3"\n']),
    (["run", "one.sql", "x=wide.csv"], 5, "table x: row 1: wrong number of fields", ["      1,x, y\n  a field with a comma in it needs double quotes round it\n"]),
    (["run", "one.sql", "x=tail.csv"], 5, "table x: row 1: wrong number of fields", ["      1,x,\n  the line ends with a comma too many\n"]),
    (["run", "one.sql", "x=blank_quote.csv"], 5, "table x: row 1: wrong number of fields",
     ['      1, "x, y"\n  a quote counts only at the beginning of a field: leave out the blank']),
    (["run", "one.sql", "x=late.csv"], 5, "table x: row 1: wrong number of fields",
     ['      1,"x\n  the quote of line 2 is closed in line 3: what is between is one field\n']),
    (["run", "weight.sql", "bad=bad.csv"], 5, "item 1: row 3: column 3: not a weight",
     ["  bad.csv line 6, column n: '12.5' is not a whole number\n"
      "  a fraction; anyk weights --scale 100 bad.csv n > ready.csv makes it whole, as amounts in cents\n"]),
    (["run", "second.sql", "trains=t.csv", "bad=bad.csv"], 5, "branch 2: item 1: row 3: column 3: not a weight",
     ["  bad.csv line 6, column n: '12.5' is not a whole number\n"]),
    # Other reasons.
    (["run", "circle.sql", "trains=t.csv"], 6, "cyclic query: items 1 2 3",
     ["item 1 is a (table trains)", "item 3 is c (table trains)", "docs/COOKBOOK.md", "a and b may be joined first, into a table a_b"]),
    (["run", "round.sql", "trains=t.csv"], 6, "branch 2: cyclic query: items 1 2 3", ["item 3 is c (table trains)", "a and b may be joined first"]),
    (["run", "range.sql", "big=big.csv"], 7, "order key 2: rank may pass 128 bits", ["order key 2 is n - n desc\n", "Use smaller numbers"]),
    (["run", "many.sql", "t=t.csv"], 8, "more than 16 items", ["there are 17\n", "Join fewer tables"]),
    (["run", "limit.sql", "big=big.csv"], 8, "limit at byte 24 out of range", [at("select n from big limit 99999999999999999999", 24)]),
    (["run", "stay.sql", "trains=tt.csv", "hotels=h.csv"], 9, "file tt.csv: not found", ["perhaps t.csv is meant"]),
    (["run", "trains=t.csv", "hotels=h.csv"], 9, "file trains=t.csv: not found", ["QUERYFILE is missing"]),
    (["run", "stay.sql", "trains=~/t.csv", "hotels=h.csv"], 9, "file ~/t.csv: not found", ["the shell left ~ as it is there: write $HOME"]),
    (["run", "none/q.sql", "trains=t.csv"], 9, "file none/q.sql: not found", ["no folder none"]),
    (["run", "stay.sql", "trains=.", "hotels=h.csv"], 10, "file .: read failed", ["it is a folder"]),
    (["run", "stay.sql", "trains=t.csv/x", "hotels=h.csv"], 10, "file t.csv/x: read failed", ["the system says: Not a directory\n"]),
    (["run", "uneven.sql", "trains=t.csv", "hotels=h.csv"], 15, "branch 2: shape differs", ["  branch 1 selects 1 column, and branch 2 2\n"]),
    (["run", "unkeyed.sql", "trains=t.csv"], 15, "branch 2: shape differs", ["  branch 1 has 1 order key, and branch 2 0\n"]),
    (["run", "turned.sql", "trains=t.csv"], 15, "branch 3: shape differs", ["  order key 1 is ASC in branch 1 and DESC in branch 3\n"]),
    (["run", "starred.sql", "trains=t.csv", "hotels=h.csv"], 15, "branch 2: shape differs", ["Select as many columns"]),
    (["run", "--best-of", "t", "even.sql", "trains=t.csv", "hotels=h.csv"], 15, "several branches with --best-of", ["file of its own"]),
]
# What the launcher answers by itself, and what needs large files: the program is not called for them.
LARGE = [
    (["run", "--help"], 2, "usage", ["  anyk help run prints the page of run\n  usage: anyk run"]),
    (["plan", "-h"], 2, "usage", ["  anyk help plan prints the page of plan\n  usage: anyk plan"]),
    (["--version"], 2, "usage", ["  --version is not a command\n"]),
    (["version", "x"], 2, "usage", ["  version takes no arguments\n"]),
    (["install", "to"], 2, "usage", ["  only ./anyk in a checkout has the command install\n"]),
    (["build"], 2, "usage", ["  only ./anyk in a checkout has the command build\n"]),
    (["release", "a.tar.gz"], 2, "usage", ["  only ./anyk in a checkout has the command release\n"]),
    (["picture", "--dot=svg", *WORDS], 2, "usage", ["--dot takes no value"]),
    (["picture", "--dots", *WORDS], 2, "usage", ["--dots is not an option of picture; perhaps --dot is meant", "usage: anyk picture"]),
    (["picture", "--dot", *WORDS, "--dot"], 2, "usage", ["--dot is given twice"]),
    (["picture", "circle.sql", "trains=t.csv"], 6, "cyclic query: items 1 2 3", ["item 1 is a (table trains)", "docs/COOKBOOK.md"]),
    (["picture", "--dot", *WORDS[:2]], 4, "byte 42: unknown table", ["the arguments name the table trains"]),
    (["run", *WORDS], 11, "write failed", ["a reader that stops early, such as head, does no harm"]),
    (["run", *WORDS], 12, "out of memory", ["Set a lower LIMIT"]),
    (["run", "stay.sql"], 8, "query longer than 65536 bytes", ["stay.sql has"]),
    (["run", "union.sql", "bad=bad.csv"], 8, "more than 8 branches", ["Put fewer"]),
    (["run", "range.sql", "big=big.csv"], 8, "more than 8 order keys", ["there are 2"]),
    (["run", *WORDS], 8, "file t.csv longer than 67108864 bytes", ["it has"]),
    (["run", *WORDS], 8, "table trains: more than 64 columns", ["the header of t.csv has 4"]),
    (["run", *WORDS], 8, "table trains: more than 1048576 rows", ["Leave out rows"]),
    (["run", *WORDS], 8, "more than 4194304 node rows", ["Add constants"]),
    (["session", "--script", "s1.txt", *WORDS], 8, "script: more than 10000 lines", ["Shorten it"]),
    (["session", "--script", "s1.txt", *WORDS], 8, "script line 1: more than 64 cursors", ["open a"]),
    (["run", "union.sql", "bad=bad.csv"], 4, "byte 46: unknown column", [at(FILES["union.sql"], 46), '(bad.csv) has the columns city, "a\\nb", n']),
    # What the files do not hold is left out, and the sentences stay.
    (["run", *WORDS], 4, "byte 99999: unknown column", ["Look at the headers"]),
    (["run", *WORDS], 5, "item 9: row 99: column 99: not a weight", ["Mend the field"]),
    (["run", *WORDS], 3, "script line 77: bad line", ["Look for a second space"]),
    (["run", *WORDS], 5, "table q: no header", ["Check that it is the right file"]),
    (["verify", "--proof", "gone.txt", *WORDS], 14, "proof line 7: no answer", ["or it is wrong"]),
]

# Queries over the tables t, h and k (of keys.csv) with a § where the program finds the token that cannot be there; what is said of it; and
# the text at which the caret is, if it is not at the §.
SYNTAX = [
    ("select train from t where price §< 200", "there is no inequality: leave the other rows out of the table before the query", None),
    ("select train from t, h where t.price §<= h.price", "there is no inequality; a table of the allowed pairs", None),
    ("select train from t, h where t.price §< h.price", "there is no inequality; a table of the allowed pairs", None),
    ("select train from t where price = 22§.50", "a number with a point is written as a string", None),
    ("select train from t order by §2 * price", "there is no multiplication: name the column as often as it counts", None),
    ("select train from t order by price §* 2", "there is no multiplication: name the column as often as it counts", None),
    ("select asking §price from t", "a comma is missing, or the double quotes of a name with a blank", None),
    ('select "train" §"x" from t', "a comma is missing, or the double quotes of a name with a blank", None),
    ("select train from t asking §price", "a name with a blank is written in double quotes", None),
    ("select train §as x from t", "there is no other name for a column", None),
    ("select train §form t", "perhaps from is meant", None),
    ("select train from t §-- all of them", "there is no comment", None),
    ("select train from t order by price -§- the cheapest", "there is no comment", None),
    ("select distinct §train from t", "there is no DISTINCT", "distinct"),
    ("select train from t where not §origin = 'Oslo'", "there is no NOT", "not"),
    ("select train from t group §by origin", "there is no GROUP BY", "group"),
    ("select train from t where price §is null", "there is no IS: an empty field is equal to ''", None),
    ("select t.§* from t", "there is no * for one item: name its columns", None),
    ("select train, §* from t", "* stands alone: it selects all columns", None),
    ("select train from t union §select city from h", "there is no UNION without ALL", None),
    ("select train from t limit 5 §union all select train from t", "LIMIT is that of all branches: it comes once, at the end", None),
    ("select train from t a §cross join h", "there is no CROSS JOIN: a comma takes its place", None),
    ("select train from t cross join h§", "there is no CROSS JOIN: a comma takes its place", "cross"),
    ("select train from t natural join h §where origin = 'Oslo'", "there is no NATURAL JOIN", "natural"),
    ("select train from t left §outer join h on destination = city", "there is no outer join", None),
    ("select train from t inner join h §order by t.price", "JOIN has an ON with a condition", "join"),
    ("select train from t join h using §(city)", "there is no USING", "using"),
    ("select k.§from from k", 'from is a keyword: as a name it is written k."from"', None),
    ("select k.§Order from k", 'Order is a keyword: as a name it is written k."Order"', None),
    ("select §from, k.order from k", 'from is a keyword: as a name it is written "from"', None),
    ("select train from k order by §order limit 3", 'order is a keyword: as a name it is written "order"', None),
    ("select train from k where §limit = 3", 'limit is a keyword: as a name it is written "limit"', None),
    ("select train from t where origin = §'Oslo", "the string that begins here is never closed", None),
    ("select train from t where origin = 'it'§'s", "the string that begins here is never closed", None),
    ("select §\"train from t", "the quoted name that begins here is never closed", None),
    ("select train from t where origin = 'Oslo and destination = '§Otta'", "the closing ' of this seems to be missing", "'Oslo"),
    ("select train from t where origin = §\u2018Oslo\u2019", "a typographic quote", None),
    ("select train from t limit 5§,10", "LIMIT takes one number, and there is no offset: LIMIT 15 gives", None),
    ("select train from t limit 5 §offset 10", "there is no OFFSET", None),
    ("select train from t limit §-1", "LIMIT takes a number of digits; leave it out for all answers", None),
    ("select train from t limit §all", "LIMIT takes a number of digits; leave it out for all answers", None),
    ("select train from t order by §1", "ORDER BY takes columns: neither their numbers nor strings", None),
    ("select train from t order by price + §1", "an order key is a sum of columns", None),
    ("select §1 from t", "only columns can be selected", None),
    ("§SELEC train from t", "perhaps SELECT is meant", None),
    ("select train from t wher §origin = 'Oslo'", "perhaps where is meant", "wher"),
    ("select train from t oder §by price", "perhaps order is meant", "oder"),
    ("select train from t limt §5", "perhaps limit is meant", "limt"),
    ("§with x as (select train from t) select train from x", "there is no WITH", None),
    ("§update t set price = 1", "there is no UPDATE: a query is a SELECT", None),
    ("§explain select train from t", "anyk plan shows", None),
    ("select train from §'f.csv'", "a table's name has its place here, and the call names the file: FROM f, and f=f.csv", None),
    ("select §`order` from k", 'a name has double quotes, if it needs any: "order"', None),
    ("select §[id] from k", "a name has double quotes, if it needs any: id", None),
    ("select train from t; §select city from h", "nothing may come after ;", None),
    ("select train, §from t", "nothing follows this comma: leave it out", ","),
    ("select train from t, §where origin = 'Oslo'", "nothing follows this comma: leave it out", ","),
    ("select train from t order by price,§", "nothing follows this comma: leave it out", ",§"),
    ("select train from t where origin = 'Oslo' and§", "a condition is missing after AND", "and§"),
    ("select train from t where origin = 'Oslo' and §order by price", "a condition is missing after AND", "and "),
    ("select train from t where §order by price", "a condition is missing after WHERE", "where"),
    ("select train from t where origin§", "a condition has the form a = b", None),
    ("select train from t where origin =§", "a column or a constant is missing after =", "=§"),
    ("select train§", "FROM is missing", None),
    ("select train from§", "a table is missing after FROM", "from§"),
    ("select §from t", "the list of columns is missing", "select"),
    ("select count§(*) from t", "there is no function, such as count", "count"),
    ("select train from t where origin = §(select city from h)", "there is no subquery", None),
    ("select train from t where origin §in ('Oslo')", "there is no IN", None),
    ("select train from t where origin =§= 'Oslo'", "equality is written with one =", None),
    ("select train from t where origin = §?", "there is no parameter", None),
    ("select train from t where origin = §:city", "there is no parameter", None),
    ("select price §+ price from t", "--ranks prints the sums of ORDER BY", None),
    ("select train from t where price §+ 1 = 3", "a condition compares columns and constants", None),
    ("select train from t where origin = 'Oslo' §or origin = 'Otta'", "there is no OR: ask once for each side", None),
    ("select §all train from t", "ALL is left out", None),
    ("select train from t order by price §descending", "it is written DESC", None),
    ("select train from t limit 5 §5", "nothing comes after the number of LIMIT", None),
    ("select train from t limit 5 §order by price", "ORDER comes before LIMIT", None),
    ("select train from t order by price §where origin = 'Oslo'", "WHERE comes before ORDER", None),
    ("select train from t where origin = 'Oslo' §join h on origin = city", "JOIN comes before WHERE", None),
    ("select train from t where origin = 'O'§slo'", "a ' inside a string is written twice", "'O'"),
    ("select train from t where 'Oslo' = §'Oslo'", "one side of a condition is a column", None),
    ("select train from t where origin = price §= 3", "conditions have AND between them", None),
    ("select train from t where origin = 2026§-01-01", "a date or a time is written as a string", "2026"),
    ("select train from t where §(origin = 'Oslo')", "conditions have no parentheses", None),
    ("select train from t§.csv", "the call names the file: FROM t, and t=t.csv", "t§.csv"),
    ("select train from data§/t.csv", "the call names the file: FROM t, and t=data/t.csv", "data"),
    ("select train from t §/* all */ where origin = 'Oslo'", "there is no division and no comment", None),
    ("select case §when price from t", "there is no CASE", "case"),
    ("select train from t except §select city from h", "there is no EXCEPT", "except"),
    ("select train from t where origin = 'Oslo' §adn price = 3", "perhaps and is meant", None),
    ("select train from t where origin = 'Oslo' §orderby price", "perhaps order by is meant", None),
    ("§-- all trains\nselect train from t", "there is no comment", None),
    ("§(select train from t)", "there is no parenthesis", None),
    ('select "q"§"n" from k', "a name cannot have a double quote in it", None),
    ("§", "the file is empty", None),
    ("§\ufeffselect train from t", "a byte order mark stands before the query", None),
    ("select train from t order by price - §-price", None, None),
    ("select " + "a" * 300 + ", §? from t", "there is no parameter", None),
]
# The same for names: the rest of the program's line, and what is said.
NAMES = [
    ("select train from t where origin = §Oslo", "unknown column", "a string is written in single quotes: 'Oslo'"),
    ('select train from t where origin = §"Oslo"', "unknown column", "a string is written in single quotes: 'Oslo'"),
    ("select train from t where origin = §null", "unknown column", "there is no NULL"),
    ("select §id from k", "unknown column", 'perhaps "id " is meant'),
    ("select §k.orders from k", "unknown column", 'perhaps "order" is meant'),
    ("select §k.id from k", "unknown column", 'has the columns "from", "order", "id ", q"n'),
    ("select §qn from k", "unknown column", 'the name q"n has a double quote, so that no query can write it'),
    ('select a from §"f.csv"', "unknown table", "the call names the file: FROM f, and f=f.csv"),
    ("select §train from t a, t b", "ambiguous column", "write a.train or b.train"),
    ('select §"a b".train from t "a  b"', "unknown alias", 'perhaps "a  b" is meant'),
]
# What files are by their first bytes, with the lines of which the program makes them a table or not.
KINDS = [
    ("p.xlsx", "it is an Excel file (xlsx)"), ("p.zip", "it is a zip archive"), ("p.parquet", "it is a Parquet file"),
    ("p.db", "it is an SQLite database: export a table first"), ("p.zst", "it is compressed: unpack it first, as by zstd -dc"),
    ("p.gz", "it is compressed: unpack it first, as by gzip -dc, or use anyk query, which reads files whose names end in .gz"), ("p16.csv", "it is UTF-16: convert it first"), ("p16be.csv", "it is UTF-16"), ("p0.csv", "it has a byte 0 in line 2"),
    ("p.json", "it is JSON"), ("p.html", "it is a web page"), ("semi.csv", "its fields are separated by semicolons"),
]
# A query over tables, their files, and the notes on an accepted call.
NOTED = [
    ("select train, hotel from trains LEFT join hotels on destination = city", {"trains": TRAINS, "hotels": HOTELS},
     ["LEFT is taken as the alias of trains: this is an inner join"]),
    ('select train from "all trains" Natural inner join hotels on destination = city', {"all trains": TRAINS, "hotels": HOTELS},
     ['Natural is taken as the alias of "all trains": this is an inner join']),
    *((f"select train from trains {it} join hotels on destination = city", {"trains": TRAINS, "hotels": HOTELS},
       [f"{it} is taken as the alias of trains: this is an inner join"]) for it in ("right", "FULL", "cross", "Outer")),
    ("select train from trains union all select a.train from trains a, trains left join trains b on a.train = b.train",
     {"trains": TRAINS}, ["left is taken as the alias of trains: this is an inner join"]),
    # What is written as an alias is meant as one.
    ("select train from trains as left join hotels on destination = city", {"trains": TRAINS, "hotels": HOTELS}, []),
    ('select train from trains "left" join hotels on destination = city', {"trains": TRAINS, "hotels": HOTELS}, []),
    ("select left.train from trains left join hotels right on left.destination = right.city", {"trains": TRAINS, "hotels": HOTELS}, []),
    ("select train from trains right, hotels full where destination = city", {"trains": TRAINS, "hotels": HOTELS}, []),
    # Quotes.
    ("select id from t order by price", {"t": 'id,city,price,name\n1,Oslo,5,a\n2,Oslo,6,"b\n3,Oslo,1,c\n4,Oslo,2,d\n'},
     ["t.csv: the quote of line 3 (row 2) is never closed, so the 2 lines after it are part of its field"]),
    ("select id from t", {"t": '\ufeffid,n\r\n\r\n1,"x\r\n"\r\n2,"""y\r\nz'},
     ["t.csv: the quote of line 5 (row 2) is never closed, so the line after it is part of its field"]),
    ("select id from t", {"t": 'id\n1\n"'}, ["t.csv: the quote of line 3 (row 2) is never closed"]),
    ("select id from t", {"t": 'id,"n'}, ["t.csv: the quote of line 1 (the header) is never closed"]),
    ("select * from t", {"t": '\ufeff"id,n\n1,x\n'}, ["t.csv: the quote of line 1 (the header) is never closed, so the line after it is part of its field"]),
    ("select id from t", {"t": 'id,n\n1,"a\nb"\n2,5"\n3,"x""y"z"\n4,"end,end"'}, []),
    ("select id from t", {"t": 'id,n\nend,end\n"end","end"'}, []),
    ("select a.id from t a, t b where a.id = b.id", {"t": 'id,n\n1,"x'}, ["t.csv: the quote of line 2 (row 1) is never closed"]),
    # Empty weights, by table and column, of the columns of order keys alone.
    ("select id from t order by price", {"t": "id,price,tax\n1,5,\n\n2,,\n3,,1\n"},
     ["table t, column price: 2 empty weights count as 0 (the first in line 4 of t.csv)"]),
    ("select a.id from t a, t b, u where a.id = b.id and b.id = u.id order by a.price - b.tax, u.\"a b\" desc",
     {"t": 'id,price,tax\n1,"",1\n', "u": "id,a b\r1,"},
     ["table t, column price: 1 empty weight counts as 0 (line 2 of t.csv)", 'table u, column "a b": 1 empty weight counts as 0 (line 2 of u.csv)',
      ]),
    ("select n from t order by n", {"t": 'n\n""\n\n7\n""\n'}, ["table t, column n: 2 empty weights count as 0 (the first in line 2 of t.csv)"]),
    ("select n from t order by n union all select m from u order by m", {"t": "n,m\n1,2\n", "u": "m,n\n,1\n"},
     ["table u, column m: 1 empty weight counts as 0 (line 2 of u.csv)"]),
    ("select id from t", {"t": "id,price\n1,\n"}, []),
    ("select id from t order by id", {"t": 'id,price\n1,\n2,""\n'}, []),
]


class Room:
    """A folder with the files of the cases, and calls in it."""

    def __init__(self, program):
        self.room = tempfile.mkdtemp(prefix="anyk-hints-")
        self.program = program
        for name, content in FILES.items():
            write(f"{self.room}/{name}", content)
        # A certificate is newer than what it was made from.
        for name in os.listdir(self.room):
            if re.fullmatch(r"p[0-9]+\.txt", name):
                os.utime(f"{self.room}/{name}", (time.time() + 60,) * 2)
        self.env = {"PATH": os.environ.get("PATH", os.defpath), "HOME": self.room, "TMPDIR": self.room, "LANG": "C", "COLUMNS": "400",
                    "ANYK_NO_BUILD": "1"}

    def how(self, **more):
        return {"cwd": self.room, "env": self.env, "stdin": subprocess.DEVNULL, "stdout": subprocess.PIPE, "stderr": subprocess.PIPE,
                "timeout": 120, **more}

    def tool(self, name, *words, **more):
        """What a tool prints, which has to end with status 0 and without a word on the error output."""
        ran = subprocess.run([sys.executable, "-X", "utf8", "-ISB", f"{TOP}/tools/{name}.py", *words], **self.how(**more))
        said = ran.stdout.decode(errors="surrogateescape")
        same((words, ran.returncode, ran.stderr), (words, 0, b""))
        return said

    def hint(self, line, words, width=400):
        """What is said of a refusal, in this process, since there are many."""
        with in_room(self, width):
            said = "".join(f"{it}\n" for it in HINTS.hint_lines(f"anyk: {line}", words))
        check(all(it.isprintable() for it in said.splitlines()), repr(said))
        check(not said or said.startswith("  ") and said.endswith("\n"), said)
        return said

    def refused(self, words, status, line):
        """Sees to it that the program refuses the call with this line, if there is one."""
        if self.program:
            ran = subprocess.run([self.program, *words], **self.how())
            same((words, ran.returncode, ran.stdout, ran.stderr.decode(errors="surrogateescape")), (words, status, b"", f"anyk: {line}\n"))

    def end(self):
        shutil.rmtree(self.room, ignore_errors=True)


@contextlib.contextmanager
def in_room(room, width):
    """Lets this process stand in the folder of a room, with a terminal of this width."""
    here, before = os.getcwd(), os.environ.get("COLUMNS")
    os.chdir(room.room)
    os.environ["COLUMNS"] = str(width)
    try:
        yield
    finally:
        os.chdir(here)
        if before is None:
            del os.environ["COLUMNS"]
        else:
            os.environ["COLUMNS"] = before


def sentences_of(line):
    """What the page says of a line of the program."""
    text = HINTS.without_branch(line)
    return [f"{HINTS.sentence(meaning)} {HINTS.sentence(remedy)}" for form, meaning, remedy in PAGE if HINTS.pattern_of(form).fullmatch(text)]


def module(name):
    sys.path.insert(0, f"{TOP}/tools")
    return __import__(name)


HINTS = module("hints")
NOTES = module("notes")
HINTS_UNREAD = module("query_text").Unread
PAGE = HINTS.refusals(read(f"{TOP}/docs/MESSAGES.md"))


def test_refusals(room):
    for words, status, line, parts in REFUSALS + LARGE:
        if (words, status, line, parts) in REFUSALS:
            room.refused(words, status, line)
        has(room.hint(line, words), *parts)
    for line in ("a line that no page has", "byte x: unknown table"):
        same(room.hint(line, ["run"]), "")
    # A few as the launcher calls the tool.
    for words, status, line, parts in REFUSALS[::10]:
        has(room.tool("hints", str(status), f"anyk: {line}", *words), *parts)


def test_list_of_commands(room):
    # The list follows only if nothing better is said of a wrong command.
    for words in (["rnu", *WORDS], ["stay.sql", "t.csv"], ["SELECT train FROM trains"]):
        said = room.hint("usage", words)
        check(said and "usage: " not in said, words, said)
    for words in (["qqqqqq"], [""], ["help", "cycle"], ["run"]):
        has(room.hint("usage", words), "usage: anyk")


def marked(query):
    """A query without its mark, and the offset of the mark."""
    return query.replace("§", ""), len(query.partition("§")[0].encode())


def test_syntax(room):
    for query, sentence, piece in SYNTAX:
        text, place = marked(query)
        line = f"syntax error at byte {place}"
        write(f"{room.room}/q.sql", text)
        words = ["run", "q.sql", "t=t.csv", "h=h.csv", "k=keys.csv"]
        room.refused(words, 3, line)
        said = room.hint(line, words)
        where = said.partition("^")[0].rpartition("\n")[2]
        caret = query.index(piece) if piece else query.index("§")
        check(not text or "aaaa" in text or len(where) == 6 + caret, query, said)
        if sentence:
            has(said, sentence)
        # The sentences of the page come only where nothing particular was found.
        same((query, [it in said for it in sentences_of(line)]), (query, [sentence is None]))


def test_names(room):
    for query, what, sentence in NAMES:
        text, place = marked(query)
        line = f"byte {place}: {what}"
        write(f"{room.room}/q.sql", text)
        words = ["run", "q.sql", "t=t.csv", "h=h.csv", "k=keys.csv"]
        room.refused(words, 4, line)
        has(room.hint(line, words), sentence)


def test_kinds(room):
    write(f"{room.room}/q.sql", "select x.nothing from x")
    for file, what in KINDS:
        for line in ("byte 7: unknown column", "table x: row 1: wrong number of fields"):
            said = room.hint(line, ["run", "q.sql", f"x={file}"])
            has(said, f"{file}: {what}")
            check("separated" not in said or "separated" in what, said)


def test_open_quote(room):
    write(f"{room.room}/q.sql", "select * from x")
    write(f"{room.room}/o.csv", 'id,city,price\n1,Oslo,5\n2,"a,Oslo,5\n3,b,6\n')
    line = "table x: row 2: wrong number of fields"
    room.refused(["run", "q.sql", "x=o.csv"], 5, line)
    said = room.hint(line, ["run", "q.sql", "x=o.csv"])
    has(said, 'line 3 of o.csv, with 2 where the header has 3:\n      2,"a,Oslo,5\n  the quote of line 3 is never closed\n')
    same([it in said for it in sentences_of(line)], [False])


def test_fields_that_are_no_weights(room):
    """A usual mistake has a sentence, and a call that mends it; another has the sentences of the page."""
    write(f"{room.room}/q.sql", 'select * from x order by "a price"')
    line, words = "item 1: row 1: column 2: not a weight", ["run", "q.sql", "x=x y.csv"]
    for field, what, options in (("12.505", "a fraction", " --scale 1000"), (".5", "a fraction", " --scale 100"), ('"1,5"', "a decimal comma", " --decimal-comma --scale 100"),
                                 (" 7", "a space beside the number", ""), ("7 ", "a space beside the number", ""), ('"1,200,300"', "commas between its digits", ""),
                                 ("1e5", "a number with an exponent", ""), ("$99", "a sign of a currency", ""), ("NA", "no number", " --drop"),
                                 ("1.200.300", "another character between its digits", None), ("12:30", None, None), ("9" * 40, "it is not within 128 bits", None)):
        write(f"{room.room}/x y.csv", f"id,a price\n1,{field}\n")
        room.refused(words, 5, line)
        said = room.hint(line, words)
        plain = field.strip('"')
        has(said, f"  x y.csv line 2, column \"a price\": '{plain}' is not a whole number\n")
        if options is not None:
            has(said, f"  {what}; anyk weights{options} 'x y.csv' 'a price' > ready.csv ")
        has(said, what or "Mend the field")
        same((field, [it in said for it in sentences_of(line)]), (field, [what is None]))


def test_later_tables(room):
    """A table that was written after the certificate."""
    os.utime(f"{room.room}/h.csv", (time.time() + 1000,) * 2)
    said = room.hint("proof: unlisted answer", ["verify", *WORDS, "--proof", "p8.txt"])
    has(said, "h.csv was written after p8.txt, which may be made from an earlier one\n")
    os.utime(f"{room.room}/h.csv", None)


def test_status_11(room):
    """The mark of the table is not printed."""
    for _, meaning, remedy in PAGE:
        check("\\" not in HINTS.sentence(meaning) + HINTS.sentence(remedy), meaning, remedy)


def test_first_pair(room):
    """The queries and the call of a hint are as they have to be, and answer what was asked."""
    words = ["run", "circle.sql", "trains=t.csv"]
    said = room.hint("cyclic query: items 1 2 3", words)
    has(said, "      SELECT a.train, b.train, b.destination, a.origin, a.price, b.price\n", "      WHERE a.destination = b.origin\n",
        "      anyk run pair.sql trains=t.csv | sed '1s/.*/a_train,b_train,b_destination,a_origin,a_price,b_price/' > a_b.csv\n",
        "      FROM a_b, trains AS c\n", "      ORDER BY a_b.a_price + a_b.b_price + c.price\n")
    if not room.program:
        return
    pair, rest = re.findall(r"(?m)((?:^      (?!anyk).*\n)+)", said)
    write(f"{room.room}/pair.sql", pair)
    write(f"{room.room}/rest.sql", rest)
    shell = re.search("(?m)^ +anyk (.*)$", said)[1]
    ran = subprocess.run(["bash", "-c", f'"$0" {shell}', room.program], **room.how())
    same((ran.returncode, ran.stderr), (0, b""))
    ran = subprocess.run([room.program, "run", "--ranks", "rest.sql", "a_b=a_b.csv", "trains=t.csv"], **room.how())
    same((ran.returncode, ran.stderr), (0, b""))
    same(ran.stdout.decode().splitlines()[1:4], ["RE11,RE14,RE17,547", "RE14,RE17,RE11,547", "RE17,RE11,RE14,547"])


def random_cycle(rnd):
    """A query over three or four items with a cycle, mostly, and with constants and other columns."""
    count = rnd.choice([3, 3, 4])
    items = [f"{rnd.choice('rs')} {name}" for name in "abcd"[:count]]
    ties = [(it, (it + 1) % count) for it in range(count)] + [rnd.sample(range(count), 2) for _ in range(rnd.randrange(2))]
    columns = "xy" if rnd.random() < 0.7 else "xyz"
    where = [f"{'abcd'[one]}.{rnd.choice(columns[0] + columns[2:])} = {'abcd'[other]}.{rnd.choice(columns[1:])}" for one, other in ties]
    where += [f"{rnd.choice('abcd'[:count])}.x = '1'"] if rnd.random() < 0.3 else []
    chosen = ", ".join(f"{rnd.choice('abcd'[:count])}.{rnd.choice(['x', 'y', 'w'])}" for _ in range(rnd.randrange(1, 4)))
    key = " + ".join(f"{it}.w" for it in "abcd"[:count])
    return f"select {rnd.choice([chosen, '*'])} from {', '.join(items)} where {' and '.join(where)} order by {key}{rnd.choice(['', ' desc'])}"


def answers_by_sqlite(query, tables):
    """The answers of a query by sqlite3, with their sums, in no order."""
    base = sqlite3.connect(":memory:")
    for name, rows in tables.items():
        base.execute(f"create table {name} (x text, y text, z text, w integer)")
        base.executemany(f"insert into {name} values (?, ?, ?, ?)", rows)
    key = re.search("order by (.*?)(?: desc)?$", query)[1]
    found = base.execute(query.replace(" from ", f", {key} from ", 1))
    return sorted(tuple(map(str, it)) for it in found)


def test_random_pairs(room):
    """What a hint on a cyclic query proposes gives the answers of sqlite3."""
    rnd, tried = random.Random(SEED), 0
    for number in range(60 if room.program else 0):
        tables = {it: [(*(rnd.choice("12") for _ in "xyz"), rnd.randrange(100)) for _ in range(6)] for it in "rs"}
        for name, rows in tables.items():
            write(f"{room.room}/{name}.csv", "x,y,z,w\n" + "".join(f"{a},{b},{c},{w}\n" for a, b, c, w in rows))
        query = random_cycle(rnd)
        write(f"{room.room}/q.sql", query)
        words = ["run", "q.sql", "r=r.csv", "s=s.csv"]
        refusal = subprocess.run([room.program, *words], **room.how())
        if refusal.returncode != 6:
            continue
        said = room.hint(refusal.stderr.decode()[6:-1], words)
        if "a table " not in said or "cyclic still" in said:
            continue
        shell = re.search("(?m)^ +anyk (.*)$", said)[1]
        made = re.search("a table ([a-z_]+)[.]", said)[1]
        pair, rest = re.findall(r"(?m)((?:^      (?!anyk).*\n)+)", said)
        write(f"{room.room}/pair.sql", pair)
        write(f"{room.room}/rest.sql", rest)
        same((query, subprocess.run(["bash", "-c", f'"$0" {shell}', room.program], **room.how()).returncode), (query, 0))
        ran = subprocess.run([room.program, "run", "--ranks", "rest.sql", f"{made}={made}.csv", *words[2:]], **room.how())
        same((query, ran.returncode, ran.stderr), (query, 0, b""))
        got = [tuple(it.split(",")) for it in ran.stdout.decode().splitlines()[1:]]
        same((query, sorted(got)), (query, answers_by_sqlite(query, tables)))
        sums = [int(it[-1]) for it in got]
        same((query, sums), (query, sorted(sums, reverse=query.endswith("desc"))))
        tried += 1
    check(tried >= 20 or not room.program, tried)


def test_fold(room):
    """Lines fit the terminal, but for those that show a file and for words that are longer than it."""
    for width in (40, 80, 120):
        for words, _, line, _ in REFUSALS:
            longest = [it for it in room.hint(line, words, width).splitlines()
                       if len(it) >= width and " " in it.strip() and not it.startswith(("      ", "  (the section is in "))]
            same((width, line, longest), (width, line, []))
    said = room.hint("out of memory", ["run", *WORDS], 40)
    same(said, "  The tables, or what is kept for the\n    answers so far, did not fit. Set a\n    lower LIMIT, add constants, use\n"
               "    fewer order keys, or use smaller\n    tables.\n")


def test_narrow(room):
    for width, before, after in (("40", "...  d.name ", "< 3 from trains  ..."), ("10", "...  d.name ", "< 3 from trains  ..."),
                                 ("60", "... t d.number, d.price, d.name ", "< 3 from trains  ..."),
                                 ("80", "select d.number, d.price, d.name ", "< 3 from trains d, x, y, z, zz")):
        write(f"{room.room}/q.sql", "select d.number, d.price, d.name < 3 from trains d, x, y, z, zz")
        said = room.hint("syntax error at byte 33", ["run", "q.sql"], width=int(width))
        has(said, at(before + after, len(before)))
        check(width == "10" or len(before + after) + 6 <= int(width), width)


def test_wide_signs(room):
    # A sign of two columns, and one that is put on the sign before it.
    for text, wide in (('select "日本", x < 3', 2), ('select "e\u0301", x < 3', -1), ("select '日', \"\" < 3", 1)):
        write(f"{room.room}/q.sql", text)
        place = len(text.partition("<")[0].encode())
        has(room.hint(f"syntax error at byte {place}", ["run", "q.sql"]), at(text, text.index("<") + wide))
    write(f"{room.room}/q.sql", "select '" + "日" * 90 + "' < 3, '" + "日" * 90 + "'")
    said = room.hint("syntax error at byte 280", ["run", "q.sql"])
    has(said, at("... " + "日" * 23 + "' < 3, '" + "日" * 5 + " ...", 52))


def test_terminal(room):
    """The width is that of the terminal if COLUMNS is not set."""
    master, slave = pty.openpty()
    with contextlib.suppress(ImportError, OSError):
        import fcntl
        import termios
        fcntl.ioctl(slave, termios.TIOCSWINSZ, struct.pack("4H", 24, 40, 0, 0))
    env = {it: value for it, value in room.env.items() if it != "COLUMNS"}
    line = [sys.executable, "-X", "utf8", "-ISB", f"{TOP}/tools/hints.py", "12", "anyk: out of memory", "run"]
    ran = subprocess.run(line, **room.how(env=env, stderr=slave))
    os.close(slave)
    os.close(master)
    check(max(map(len, ran.stdout.decode().splitlines())) < 40, ran.stdout)
    ran = subprocess.run(line, **room.how(env=env))
    check(40 < max(map(len, ran.stdout.decode().splitlines())) < 80, ran.stdout)


def test_other_locale(room):
    write(f"{room.room}/q.sql", 'select å from "bo"')
    for locale in ("C", "C.UTF-8", "en_US.ISO-8859-1"):
        said = room.tool("hints", "4", "anyk: byte 15: unknown table", "run", "q.sql", "bø=t.csv", env={**room.env, "LC_ALL": locale})
        has(said, at('select å from "bo"', 14), 'the table "bø"')


def test_no_text(room):
    said = room.tool("hints", "16", "", "run", "\udcff.sql", "å", "t=\x1b[\udcc3")
    same(said, "  argument 2 is \\xff.sql\n  argument 4 is t=\\x1b[\\xc3\n")


def test_pipes(room):
    """A pipe is not read: its bytes would be lost to who reads it next."""
    os.mkfifo(f"{room.room}/pipe")
    for line in ("byte 7: unknown column", "table trains: row 1: wrong number of fields", "cyclic query: items 1 2", "proof line 1: no answer"):
        room.hint(line, ["run", "pipe", "trains=pipe", "hotels=pipe", "--proof=pipe"])


def noted(room, words, wanted):
    """Sees to it that a call, which the program accepts, has these notes."""
    if room.program:
        ran = subprocess.run([room.program, *words], **room.how())
        same((words, ran.returncode, ran.stderr), (words, 0, b""))
    same((words, room.tool("notes", *words)), (words, "".join(f"note: {it}\n" for it in wanted)))


def test_notes(room):
    for query, tables, wanted in NOTED:
        write(f"{room.room}/q.sql", query)
        for name, content in tables.items():
            write(f"{room.room}/{name}.csv", content)
        noted(room, ["run", "q.sql", *(f"{it}={it}.csv" for it in tables)], wanted)


def test_notes_of_kinds(room):
    """A file that is packed, but is taken for a table, and one whose header only begins like it."""
    write(f"{room.room}/q.sql", "select * from t a, t b")
    said = "it is compressed: unpack it first, as by gzip -dc, or use anyk query, which reads files whose names end in .gz"
    for content, wanted in ((b"\x1f\x8b\x08\0K\xe2", [f"t.csv: {said}"]), (b"BZh,w\nx,1\n", [])):
        write(f"{room.room}/t.csv", content)
        noted(room, ["run", "q.sql", "t=t.csv"], wanted)


def test_notes_of_other_commands(room):
    write(f"{room.room}/q.sql", "select m from t left join u on k = m order by m")
    write(f"{room.room}/t.csv", "k\n1\n")
    write(f"{room.room}/u.csv", "m,x\n1,2\n,2\n")
    join = "left is taken as the alias of t: this is an inner join"
    weight = "table u, column m: 1 empty weight counts as 0 (line 3 of u.csv)"
    write(f"{room.room}/s.txt", "open a\nnext a 1\n")
    tables = ["q.sql", "t=t.csv", "u=u.csv"]
    for words, wanted in ((["run", "--rows", "--best-of", "u", *tables], [join, weight]), (["session", "--script=s.txt", *tables], [join, weight]),
                          (["prove", *tables], [join, weight]), (["plan", *tables], [join]), (["load", "--number=1", "--rows=1"], [])):
        noted(room, words, wanted)
    same(room.tool("notes", "picture", "--dot", *tables), f"note: {join}\n")
    for words in ([], ["x"], ["help", "run"], ["run"], ["run", "gone.sql", "t=t.csv"], ["run", "q.sql", "t=gone.csv", "u=/dev/null"]):
        check("empty" not in room.tool("notes", *words), words)


def test_notes_of_pipes(room):
    """A pipe is not opened: that would wait for a writer, or take its bytes."""
    os.mkfifo(f"{room.room}/pipe")
    write(f"{room.room}/q.sql", "select n from t left join u on n = m order by n")
    same(room.tool("notes", "run", "pipe", "t=pipe", "u=pipe"), "")
    write(f"{room.room}/u.csv", "m\n1\n")
    same(room.tool("notes", "run", "q.sql", "t=pipe", "u=u.csv"), "note: left is taken as the alias of t: this is an inner join\n")


def test_notes_end_in_time(room):
    """If there is no time left, no table is read."""
    write(f"{room.room}/q.sql", "select n from t left join u on n = m order by n")
    write(f"{room.room}/t.csv", 'n\n""\n' * 10)
    with in_room(room, 80):
        words, said = ["run", "q.sql", "t=t.csv"], []
        try:
            said.extend(NOTES.notes(words, 0))
        except NOTES.TooLate:
            pass
        same([it for it in NOTES.notes(words, 600)][-1:], ["table t, column n: 10 empty weights count as 0 (the first in line 2 of t.csv)"])
    same(said, ["left is taken as the alias of t: this is an inner join"])


def test_notes_to_nobody(room):
    """An output that cannot be written changes nothing."""
    write(f"{room.room}/q.sql", "select n from t left join u on n = m")
    line = '"$0" -X utf8 -ISB "$1" run q.sql t=t.csv'
    for to in (">&-", "> /dev/full"):
        ran = subprocess.run(["sh", "-c", f"{line} {to}", sys.executable, f"{TOP}/tools/notes.py"], **room.how())
        same((to, ran.returncode, ran.stdout, ran.stderr), (to, 0, b"", b""))


def test_each_refusal_has_a_sentence(room):
    same([it for it in HINTS.TELLERS if it not in [form for form, _, _ in PAGE]], [])
    lines = [line for _, _, line, _ in REFUSALS + LARGE]
    lacking = [form for form, _, _ in PAGE if not any(HINTS.pattern_of(form).fullmatch(it) for it in lines)]
    same(lacking, [])
    for line in lines:
        # A line has one form, with the number of its branch or without it.
        whole = [form for form, _, _ in PAGE if HINTS.pattern_of(form).fullmatch(line)]
        same((line, len(whole or sentences_of(line))), (line, 1))


def garbage(rnd):
    """A text of pieces of queries, tables and other things."""
    pieces = ["select", "from", "where", "order by", "limit", "union all", "join", "on", "and", "as", "t", "k", '"', "'", '"a b"', "'x'", ",", ".", "=",
              "*", "(", ")", ";", "+", "-", "\n", "\r", "\0", "å", "\udcff", "12", "3.5", "`x`", "[y]", "--", "left", "cross", "distinct", "\x1b[31m", "\t",
              "\u2019", "a", "price", "bound", "answer", "1 2", "anyk-proof 1", "open", "next", "\ufeff"]
    return "".join(rnd.choice(pieces) + rnd.choice(["", " "]) for _ in range(rnd.randrange(40)))


def lines_to_try(rnd, length):
    """Lines of the program of every form, with numbers at random."""
    for form, _, _ in PAGE:
        line = form.replace("{name}", rnd.choice(["t", "k", "g.csv", "pipe", "none", ""]))
        line = re.sub(r"\{\w+\}( \{\w+\} \.\.)?", lambda _: str(rnd.choice([0, 1, 2, 3, rnd.randrange(length + 2), 99999])), line)
        yield rnd.choice(["", "branch 2: "]) + line


def test_garbage(room):
    """No query, table, script or certificate makes the tools fail. They are called in this process, since there are many."""
    rnd = random.Random(SEED)
    os.mkfifo(f"{room.room}/fifo")
    with in_room(room, 80):
        for _ in range(GARBAGE):
            text = garbage(rnd)
            write(f"{room.room}/g.sql", text)
            for it in ("g.csv", "g.txt"):
                write(f"{room.room}/{it}", garbage(rnd))
            words = [rnd.choice(["run", "verify", "session", "plan", "x", ""]), "g.sql", "t=g.csv", "k=fifo", "--script=g.txt", "--proof=g.txt", "--best-of=x"]
            for line in rnd.sample(list(lines_to_try(rnd, len(text.encode(errors="surrogateescape")))), 12):
                for it in HINTS.hint_lines(f"anyk: {line}", words):
                    check(it.isprintable(), repr(it))
            noted_in_peace(words)
            write(f"{room.room}/g.sql", "select a from t left join k on a = b order by a, t.price")
            noted_in_peace(words)


def noted_in_peace(words):
    """Calls for the notes as main does, but with the failures that are foreseen alone."""
    with contextlib.suppress(HINTS_UNREAD, NOTES.TooLate):
        for it in NOTES.notes(["run", *words[1:]]):
            check(it.isprintable(), repr(it))


def tried(name, program):
    """How a test ends: what is to be said of it, and whether it failed."""
    room = Room(program)
    try:
        globals()[name](room)
        return "", False
    except Exception as why:
        return f"hints: {name}: FAILED, {type(why).__name__}: {why}\n", True
    finally:
        room.end()


def program_of(given):
    """The program to be called: the one that is named, or the built one, or none."""
    place = given or (BUILT if os.access(BUILT, os.X_OK) else "")
    place = os.path.abspath(shutil.which(place) or place) if place else ""
    return place if os.access(place, os.X_OK) else ""


def main():
    program = program_of(arguments(__doc__, "")[0])
    tests = [it for it in globals() if it.startswith("test_")]
    results = [tried(it, program) for it in tests]
    print(*(said for said, _ in results), sep="", end="")
    failed = sum(is_failed for _, is_failed in results)
    over = "" if program else ", over lines that the program is said to write"
    print(f"hints: {len(tests)} tests{over}: " + (f"FAILED: {failed}" if failed else "passed"))
    return 1 if failed else 0


if __name__ == "__main__":
    sys.exit(main())
