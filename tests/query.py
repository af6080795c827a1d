#!/usr/bin/env python3
"""Compares tools/query.py with `run` over plain files, and tries what may go wrong between them.

usage: tests/query.py [PROGRAM]

PROGRAM is ./anyk if it is not given. Random queries over small random tables are asked by `run`,
and by the tool with tables that are packed, have other separators, or come through the standard
input: the output, the line and the status have to be the same, to the byte. What --json writes,
read again, has to be the fields of the CSV, and --table has to show them. Stand-ins for the
program show what the tool does with a file that breaks off, with an output that nobody reads, and
with signals.
"""
import csv
import gzip
import io
import json
import os
import random
import re
import signal
import socket
import subprocess
import sys
import tempfile
import time

from arguments import arguments, program_at

TOP = os.path.dirname(os.path.dirname(os.path.abspath(__file__)))
TOOL = [sys.executable, "-X", "utf8", "-ISB", f"{TOP}/tools/query.py"]
TIMEOUT = 120
TEXTS = ["x", "", "a,b", 'q"q', "two\nlines", "\r", "tab\there", "semi;colon", "\xc3\xa5", "\xe5",
         "\xff", "%s", "\x1b", "\xe6\x97\xa5\xe6\x9c\xac"]
SEPARATORS = [",", "\t", ";", "|", " "]
HOTELS = b"city,hotel\nHamar,Astoria\nHamar,\xe5\n"


def environment(room, **more):
    return {"PATH": os.environ.get("PATH", os.defpath), "HOME": room, "TMPDIR": room,
            "LANG": "C.UTF-8", "ANYK_NO_BUILD": "1", **more}


def ended(words, room, given=None, **more):
    """The status, the output and the error output of a call, with bytes or a stream as input."""
    if isinstance(given, bytes):
        source = {"input": given}
    else:
        source = {"stdin": subprocess.DEVNULL if given is None else given}
    ran = subprocess.run(words, cwd=room, env=environment(room, **more), capture_output=True,
                         timeout=TIMEOUT, **source)
    return ran.returncode, ran.stdout, ran.stderr


def called(words, room, program, given=None, **more):
    """The same of a call of the tool."""
    return ended([*TOOL, *words], room, given, ANYK_PROGRAM=program, **more)


def record(fields, separator=","):
    """A record as a file has it, with quotes where they are needed."""
    if fields == [""]:
        return '""\n'
    signs = f'{separator}"\r\n'
    quoted = ['"' + it.replace('"', '""') + '"' if any(sign in it for sign in signs) else it
              for it in fields]
    return separator.join(quoted) + "\n"


def rows_of(output):
    text = output.decode("utf-8", "surrogateescape")
    return list(csv.reader(io.StringIO(text, newline="")))


def write(file, content):
    with open(file, "wb") as it:
        it.write(content)


class Case:
    """A random query over two or three tables in a row, and the form of each table's file."""

    def __init__(self, seed):
        self.rng = rng = random.Random(seed)
        self.names = ["first", "second", "third"][: rng.randint(2, 3)]
        self.tables = {it: self.drawn_table() for it in self.names}
        self.separator = rng.choice(SEPARATORS)
        self.query = self.drawn_query()
        options = ["--ranks", "--rows", "--engine=rec"]
        if "UNION" not in self.query:
            options.append("--best-of=first")
        self.options = [it for it in options if rng.random() < 0.4]
        self.piped = rng.choice([*self.names, None])

    def drawn_table(self):
        rows = [["key", "next", "note", "w"]]
        for _ in range(self.rng.randint(0, 6)):
            keys = self.rng.choices("ab", k=2)
            rows.append([*keys, self.rng.choice(TEXTS), str(self.rng.randint(-9, 9))])
        return rows

    def drawn_query(self):
        rng, names = self.rng, self.names
        known = [f"{it}.{column}" for it in names for column in ("key", "note", "w")]
        columns = rng.choice(["*", ", ".join(rng.choices(known, k=3))])
        joined = " AND ".join(f"{a}.next = {b}.key" for a, b in zip(names, names[1:]))
        text = f"SELECT {columns} FROM {', '.join(names)} WHERE {joined}"
        if rng.random() < 0.1:
            text = text.replace("next", "nix")
        if rng.random() < 0.8:
            text += f" ORDER BY {' + '.join(f'{it}.w' for it in names)}"
        if columns != "*" and rng.random() < 0.2:
            text += f" UNION ALL {text}"
        return text + (f" LIMIT {rng.randint(0, 9)}" if rng.random() < 0.5 else "")

    def content(self, name, separator):
        return "".join(record(it, separator) for it in self.tables[name]).encode("latin-1")

    def run(self, program, room):
        """What `run` gives over plain files."""
        for name in self.names:
            write(f"{room}/{name}.csv", self.content(name, ","))
        write(f"{room}/query.sql", self.query.encode())
        files = [f"{it}={it}.csv" for it in self.names]
        return ended([program, "run", *self.options, "query.sql", *files], room)

    def table_words(self, room):
        """The tables in forms that are not ready, and what comes through the standard input."""
        words, given = [], None
        for name in self.names:
            kind = self.rng.choice(["csv", "csv.gz", "tsv", "tsv.gz"])
            content = self.content(name, "\t" if kind.startswith("tsv") else self.separator)
            if self.rng.random() < 0.2:
                content = b"\xef\xbb\xbf" + content
            if name == self.piped:
                given = self.content(name, self.separator)
                words.append(f"{name}=-")
                continue
            content = gzip.compress(content) if kind.endswith("gz") else content
            write(f"{room}/{name}.{kind}", content)
            words.append(self.rng.choice([f"{name}.{kind}", f"{name}={name}.{kind}"]))
        return words, given


def of_cases(program, count):
    """The tool against `run`, in each form of the output."""
    for seed in range(1, count + 1):
        case = Case(seed)
        with tempfile.TemporaryDirectory(prefix="anyk-query-") as room:
            wanted = case.run(program, room)
            what = f"seed {seed}: {case.query}"
            forms = [(case.query, "{0}.csv"), ("@query.sql", "{0}={0}.csv")]
            query, form = case.rng.choice(forms)
            words = [query, *case.options, *map(form.format, case.names)]
            yield f"{what}, {words}", wanted, called(words, room, program)
            tables, given = case.table_words(room)
            words = [case.query, *tables, *case.options, "--delimiter", case.separator]
            yield f"{what}, {words}", wanted, called(words, room, program, given)
            if wanted[0] == 0:
                form = case.rng.choice([of_json, of_table, of_limit])
                more, *pair = form(case, wanted[1])
                got = called([*words, *more], room, program, given)
                yield f"{what}, {more}", pair[0], pair[1](got)


def of_json(case, output):
    """The option, what it has to give, and how that is read from what the tool gave."""
    header, *rows = rows_of(output)

    def read(got):
        return got[0], [list(json.loads(it).items()) for it in got[1].split(b"\n")[:-1]]

    return ["--json"], (0, [as_object(header, it) for it in rows]), read


def of_table(case, output):
    def read(got):
        first, _, *others = got[1].decode().split("\n")[:-1]
        return got[0], [squeezed([it]) for it in (first, *others)]

    return ["--table"], (0, [squeezed(it) for it in rows_of(output)]), read


def of_limit(case, output):
    most = case.rng.randint(0, 5)
    wanted = (2, b"", b"query: the query has a LIMIT\n")
    if "LIMIT" not in case.query:
        rows = list(csv.reader(io.StringIO(output.decode("latin-1"), newline="")))
        wanted = (0, "".join(map(record, rows[: most + 1])).encode("latin-1"), b"")
    return ["--limit", str(most)], wanted, lambda got: got


def as_object(header, row):
    """The fields of an answer with their names, as --json has to write them."""
    pairs = []
    for place, (name, field) in enumerate(zip(header, row)):
        same = header[:place].count(name)
        is_number = re.fullmatch("rank[0-9]+|row[0-9]+|branch", name)
        value = (int(field) if field else None) if is_number else field
        pairs.append((f"{name}_{same + 1}" if same else name, value))
    return pairs


def squeezed(fields):
    """The signs of a line of the table that are no blanks."""
    text = "".join(fields).encode(errors="surrogateescape").decode(errors="backslashreplace")
    signs = [it if it.isprintable() else repr(it)[1:-1] for it in text if it != " "]
    return "".join(signs)


# words, the status, the output, and the error output, which is None if it may be anything
CALLS = [
    (["SELECT hotel FROM hotels", "hotels.csv"], 0, b"hotel\nAstoria\n\xe5\n", b""),
    (["SELECT hotel FROM hotels", "--", "hotels.csv"], 0, b"hotel\nAstoria\n\xe5\n", b""),
    (["SELECT hotel FROM x", "x=hotels.csv", "--json"],
     0, b'{"hotel": "Astoria"}\n{"hotel": "\\udce5"}\n', b""),
    (["SELECT hotel, hotel FROM x", "x=hotels.csv", "--json", "--limit=1"],
     0, b'{"hotel": "Astoria", "hotel_2": "Astoria"}\n', b""),
    (["SELECT a, b, a, a_2, a FROM same", "same.csv", "--json", "--limit=1"],
     0, b'{"a": "1", "b": "2", "a_3": "1", "a_2": "3", "a_4": "1"}\n', b""),
    (["SELECT rank1, row1 FROM same ORDER BY rank1", "same.csv", "--json", "--ranks", "--rows"],
     0, b'{"rank1": "007", "row1": "x", "rank1_2": 7, "row1_2": 1}\n', b""),
    (["SELECT hotel FROM x", "x=hotels.csv", "--table"],
     0, b"hotel\n-------\nAstoria\n\\xe5\n", b""),
    (["SELECT hotel FROM x;", "x=hotels.csv", "--limit", "1"], 0, b"hotel\nAstoria\n", b""),
    (["SELECT hotel FROM x", "x=hotels.csv", "--limit", "99999999999999999999"],
     0, b"hotel\nAstoria\n\xe5\n", b""),
    (["SELECT hotl FROM hotels", "hotels.csv"], 4, b"", b"anyk: byte 7: unknown column\n"),
    (["SELECT hotel FROM hotels", "hotels.csv.gz"],
     9, b"", b"anyk: file hotels.csv.gz: not found\n"),
    (["SELECT hotel FROM hotels", "hotels=."], 10, b"", b"anyk: file .: read failed\n"),
    (["@none.sql", "hotels.csv"], 9, b"", b"anyk: file none.sql: not found\n"),
    (["@.", "hotels.csv"], 10, b"", b"anyk: file .: read failed\n"),
    (["SELECT city FROM hotels", "hotels.csv", "none.csv"], 0, b"city\nHamar\nHamar\n", b""),
    (["SELECT city FROM hotels", "hotels.csv", "broken.csv.gz"], 0, b"city\nHamar\nHamar\n", b""),
    (["SELECT city FROM broken", "broken.csv.gz"],
     1, b"", b"query: broken.csv.gz: its packed bytes break off\n"),
    (["SELECT city FROM broken", "broken.csv.gz", "--json"],
     1, b"", b"query: broken.csv.gz: its packed bytes break off\n"),
    (["SELECT city FROM hotels", "hotels=other.gz"],
     1, b"", b"query: other.gz: its bytes are not those of gzip, or they are damaged\n"),
    (["SELECT city FROM hotels", "hotels=changed.gz"],
     1, b"", b"query: changed.gz: its bytes are not those of gzip, or they are damaged\n"),
    (["SELECT city FROM hotels", "hotels.csv", "--tsv"],
     4, b"", b"anyk: byte 7: unknown column\n"),
    (["SELECT a FROM open", "open.tsv"],
     1, b"", b"query: open.tsv: line 2: a quote is never closed\n"),
    (["SELECT a FROM wide", "wide.tsv"],
     1, b"", b"query: wide.tsv: it is in UTF-16: iconv -f UTF-16 -t UTF-8 first\n"),
    (["SELECT a FROM t limit 1", "t=hotels.csv", "--limit", "1"],
     2, b"", b"query: the query has a LIMIT\n"),
    (["""SELECT "limit" FROM hotels WHERE city = ' LIMIT '""", "hotels.csv", "--limit", "1"],
     4, b"", b"anyk: byte 7: unknown column\n"),
    (["SELECT a FROM t", "a/t.csv", "t.tsv"],
     2, b"", b"query: two tables have the name 't': write NAME=FILE for one of them\n"),
    (["-", "-"], 2, b"", b"query: the standard input is asked for twice\n"),
    (["SELECT a FROM t", "t="], 2, b"", b"query: 't=': a table is FILE or NAME=FILE\n"),
    (["SELECT a FROM t"], 2, b"", b"query: the following arguments are required: TABLE; "
                                  b"anyk query --help says more\n"),
    (["SELECT a FROM t", "t.csv", "--limit", "-1"], 2, b"", None),
    (["SELECT a FROM t", "t.csv", "--json", "--table"], 2, b"", None),
    (["SELECT a FROM t", "t.csv", "--delimiter", "ab"], 2, b"", None),
    (["SELECT a FROM t", "t.csv", "--delimiter", '"'], 2, b"", None),
    (["SELECT a FROM t", "t.csv", "--engine", "fast"], 2, b"", None),
    (["SELECT a FROM t", "t.csv", b"--best-of=\xff"],
     16, b"", b"query: the argument \\xff is not UTF-8\n"),
    (["SELECT a FROM t", b"\xff.csv"], 16, b"", b"query: the argument \\xff.csv is not UTF-8\n"),
]


def of_calls(program):
    packed = gzip.compress(HOTELS * 50)
    changed = packed[:-6] + bytes([packed[-6] ^ 1]) + packed[-5:]
    files = {"hotels.csv": HOTELS, "broken.csv.gz": packed[:-9], "changed.gz": changed,
             "other.gz": HOTELS, "open.tsv": b'a\tb\n1\t"x\n2\ty\n',
             "wide.tsv": "a\tb\n".encode("utf-16"),
             "same.csv": b"a,b,a_2,rank1,row1\n1,2,3,007,x\n"}
    for words, *wanted in CALLS:
        with tempfile.TemporaryDirectory(prefix="anyk-query-") as room:
            for name, content in files.items():
                write(f"{room}/{name}", content)
            got = list(called(words, room, program))
            yield f"call {words}", wanted, [*got[:2], None if wanted[2] is None else got[2]]


def of_lengths(program):
    """Queries as long as they may be, and longer ones, in each of the three ways."""
    refused = (8, b"", b"anyk: query longer than 65536 bytes\n")
    for length in (65_535, 65_536, 65_537, 100_000, 300_000):
        text = b"SELECT city FROM hotels".ljust(length)
        wanted = (0, b"city\nHamar\n", b"") if length <= 65_536 else refused
        ways = [("@q.sql", None), ("-", text), (text, None)]
        with tempfile.TemporaryDirectory(prefix="anyk-query-") as room:
            write(f"{room}/q.sql", text)
            write(f"{room}/hotels.csv", HOTELS)
            # (no argument can be longer than 131,071 bytes)
            for word, given in ways if length < 131_072 else ways[:2]:
                got = called([word, "hotels.csv", "--limit", "1"], room, program, given)
                yield f"a query of {length} bytes as {word[:6]!r}", wanted, got


def of_names(program):
    """The names of tables that come from their files, and the name of a file in a refusal."""
    with tempfile.TemporaryDirectory(prefix="anyk-query-") as room:
        os.mkdir(f"{room}/data.d")
        for file, name in (("data.d/a b.csv", '"a b"'), ("data.d/x.2024.tsv", '"x.2024"'),
                           ("data.d/plain", "plain"), ("X.CSV.GZ", "X"), ("t.tab.gz", "t")):
            content = b"c\n1\n"
            is_packed = file.lower().endswith("gz")
            write(f"{room}/{file}", gzip.compress(content) if is_packed else content)
            got = called([f"SELECT c FROM {name}", file], room, program)
            yield f"the name of {file}", (0, content, b""), got
        with gzip.open(f"{room}/long.csv.gz", "wb", compresslevel=1) as packed:
            for _ in range(70):
                packed.write(b"c\n".ljust(2**20, b"1"))
        wanted = (8, b"", b"anyk: file long.csv.gz longer than 67108864 bytes\n")
        got = called(["SELECT c FROM long", "long.csv.gz"], room, program)
        yield "a file that is too long", wanted, got


def of_inputs(program):
    """The standard input as a pipe, as a file that was read in part, and as a socket."""
    with tempfile.TemporaryDirectory(prefix="anyk-query-") as room:
        wanted, words = (0, b"c\n1\n", b""), ["SELECT c FROM stdin", "-"]
        yield "a pipe", wanted, called(words, room, program, b"c\n1\n")
        write(f"{room}/file", b"other\n5\nc\n1\n")
        with open(f"{room}/file", "rb", buffering=0) as file:
            yield "a whole file", (4, b""), called(words, room, program, file)[:2]
            os.lseek(file.fileno(), len(b"other\n5\n"), os.SEEK_SET)
            yield "a part of a file", wanted, called(words, room, program, file)
        ours, theirs = socket.socketpair()
        with ours, theirs:
            ours.sendall(b"c\n1\n")
            ours.shutdown(socket.SHUT_WR)
            yield "a socket", wanted, called(words, room, program, theirs)
        write(f"{room}/stdin.csv", b"c\n1\n")
        got = called(["-", "stdin.csv"], room, program, b"SELECT c FROM stdin")
        yield "the query", wanted, got


def of_hints(program):
    """What a person is told after a refusal, over a query and a table that are in no file."""
    with tempfile.TemporaryDirectory(prefix="anyk-query-") as room:
        write(f"{room}/hotels.csv.gz", gzip.compress(HOTELS))
        words = ["SELECT hotl FROM hotels", "hotels.csv.gz"]
        status, output, said = called(words, room, program, ANYK_HINTS="1")
        line, _, hint = said.decode().partition("\n")
        yield "a line", (4, b"", "anyk: byte 7: unknown column"), (status, output, line)
        for it in ("of the query", "SELECT hotl", "hotels.csv.gz", "perhaps hotel is meant"):
            yield "a hint", it, it if it in hint else hint
        yield "no pipe is named", False, "/dev/fd" in hint
        yield "no file is left", ["hotels.csv.gz"], os.listdir(room)


# Stand-ins for the program: their names, and what they do.
TABLES = "[open(word.partition('=')[2], 'rb').read() for word in words[1:]]"
STANDINS = {
    "writes": f"{TABLES}\nwhile True: out.write(b'a\\n' * 1000)",
    "waits": f"{TABLES}\nwhile True: time.sleep(1)",
    "dies": "os.kill(os.getpid(), 9)",
    "reads": f"print('size')\nprint(sum(map(len, {TABLES})))",
}
STANDIN = """#!{python} -ISB
import os, signal, sys, time
signal.signal(signal.SIGPIPE, signal.SIG_IGN)
with open("pid.new", "w") as file: file.write(str(os.getpid()))
os.rename("pid.new", "pid")
words, out = sys.argv[sys.argv.index("--") + 1:], sys.stdout.buffer
try:
    {body}
except BrokenPipeError:
    os._exit(11)
"""


def standin(room, name):
    body = STANDINS[name].replace("\n", "\n    ")
    write(f"{room}/{name}", STANDIN.format(python=sys.executable, body=body).encode())
    os.chmod(f"{room}/{name}", 0o755)
    return f"{room}/{name}"


def until(condition):
    """Whether the condition holds within a minute."""
    for _ in range(1200):
        if condition():
            return True
        time.sleep(0.05)
    return False


def is_gone(room):
    """Whether the stand-in that wrote its number has ended."""
    with open(f"{room}/pid", encoding="ascii") as file:
        number = file.read()

    def has_ended():
        try:
            with open(f"/proc/{number}/stat", encoding="latin-1") as file:
                return file.read().rpartition(")")[2].split()[0] == "Z"
        except OSError:
            return True

    return until(has_ended)


# A stand-in, how it is called, and how the call ends. (One that neither reads nor writes cannot
# see that the tool was killed.)
ENDS = [
    *[("waits", words, it) for words in ([], ["--json"])
      for it in (signal.SIGINT, signal.SIGTERM, signal.SIGHUP)],
    *[("writes", words, it) for words in ([], ["--table"])
      for it in (signal.SIGTERM, signal.SIGPIPE, signal.SIGKILL)],
]


def of_ends():
    """The tool ends quietly with its program if it is stopped, or if nobody reads its output."""
    for name, words, number in ENDS:
        with tempfile.TemporaryDirectory(prefix="anyk-query-") as room:
            write(f"{room}/t.csv.gz", gzip.compress(HOTELS))
            tool = subprocess.Popen(
                [*TOOL, "SELECT t", "t.csv.gz", *words], cwd=room, stdin=subprocess.DEVNULL,
                stdout=subprocess.PIPE, stderr=subprocess.PIPE,
                env=environment(room, ANYK_PROGRAM=standin(room, name)))
            is_begun = until(lambda: os.path.exists(f"{room}/pid"))
            if number == signal.SIGPIPE:
                tool.stdout.close()
                tool.stdout = None
            else:
                tool.send_signal(number)
            said = tool.communicate(timeout=TIMEOUT)[1]
            wanted = (True, -number, b"", True)
            got = (is_begun, tool.returncode, said, is_gone(room))
            yield f"{name} {words} and {number.name}", wanted, got


# A stand-in, words, and what comes of them.
FAULTS = [
    ("dies", ["SELECT t", "t.csv.gz"], 137, b"", b""),
    ("dies", ["SELECT t", "t.csv.gz", "--json"], 137, b"", b""),
    ("reads", ["SELECT t", "t.csv.gz"], 0, b"size\n%d\n" % len(HOTELS), b""),
    ("reads", ["SELECT big", "big.gz"],
     1, b"", b"query: big.gz: its packed bytes break off\n"),
    ("none", ["SELECT t", "t.csv.gz"], 1, b"", b"query: ./none: Permission denied\n"),
    ("none", ["SELECT t", "t=t.csv.gz"], 1, b"", b"query: ./none: Permission denied\n"),
    ("nowhere", ["SELECT t", "t.csv.gz"], 1, b"", b"query: ./nowhere: there is no such program\n"),
]
OUTPUTS = [("> /dev/full", 11, b"anyk: write failed\n"),
           (">&-", 11, b"query: the output is closed\n"), ("2>&-", 0, b"")]


def of_faults():
    """Programs that cannot be run or die, files that break off, outputs that fail."""
    with tempfile.TemporaryDirectory(prefix="anyk-query-") as room:
        write(f"{room}/t.csv.gz", gzip.compress(HOTELS))
        write(f"{room}/big.gz", gzip.compress(os.urandom(3_000_000))[:-1])
        write(f"{room}/none", b"")
        for name, words, *wanted in FAULTS:
            program = standin(room, name) if name in STANDINS else f"./{name}"
            yield f"{name} {words}", wanted, called(words, room, program)
        program = standin(room, "reads")
        for to, *wanted in OUTPUTS:
            for form in (["--json"], []):
                words = ["sh", "-c", f'exec "$@" {to}', "sh", *TOOL, "SELECT t", "t.csv.gz", *form]
                status, _, said = ended(words, room, ANYK_PROGRAM=program)
                yield f"call with {to} {form}", wanted, (status, said)


def main():
    program = program_at(*arguments(__doc__, f"{TOP}/anyk"))
    for it in (signal.SIGINT, signal.SIGTERM, signal.SIGHUP):
        # (whoever started this script may have left it without them)
        signal.signal(it, signal.SIG_DFL)
    failed = count = 0
    over_program = (of_calls, of_lengths, of_names, of_inputs, of_hints)
    parts = [of_cases(program, 100), *[it(program) for it in over_program], of_ends(), of_faults()]
    for part in parts:
        for what, wanted, got in part:
            count += 1
            if wanted != got and not (isinstance(got, tuple) and list(wanted) == list(got)):
                failed += 1
                print(f"query: {what}: FAILED\n  wanted: {wanted!r}\n  got:    {got!r}")
    print(f"query: {count} cases: " + (f"FAILED: {failed}" if failed else "passed"))
    return 1 if failed else 0


if __name__ == "__main__":
    sys.exit(main())
