#!/usr/bin/env python3
"""Runs a query that is a word of the command line, over tables that are named by their files.

usage: anyk query QUERY TABLE .. [--ranks] [--rows] [--engine part|rec] [--best-of ALIAS]
                  [--limit K] [--json | --table] [--delimiter C | --tsv]

The page tools/help/query.txt says what each of them does. The program, which the variable
ANYK_PROGRAM names, is called as `run OPTIONS QUERYFILE TABLE=FILE ..`, with the query in a pipe.
Files that it reads itself are handed to it by their names. What is packed, or has other
separators than commas, goes to it through a pipe while it is made ready. Nothing is written to a
file.

A file that turns out to be broken ends the program before its pipe is closed, since to the
program the end of the pipe would be the end of the table. The program reads all tables before it
writes, so there is no answer then.
"""
import argparse
import contextlib
import csv
import gzip
import io
import itertools
import json
import os
import re
import signal
import stat
import subprocess
import sys
import tempfile
import threading
import unicodedata
import zlib

# An isolated call of python3 does not look for modules in the folder of the script.
HERE = os.path.dirname(os.path.realpath(__file__))
sys.path.insert(0, HERE)

from ending import ended

PAGE = f"{HERE}/help/query.txt"
# Where the program is, in a checkout and where it is installed.
PROGRAMS = (f"{HERE}/../crates/anyk_cli/out/anyk_cli", f"{HERE}/../../libexec/anyk/anyk_cli")
# The parts of a query: names, strings, numbers, signs.
TOKEN = re.compile(rb"""[A-Za-z_][A-Za-z0-9_]*|"[^"]*"|'(?:[^']|'')*'|[0-9]+|\S""")
LONGEST_QUERY = 65_536
LARGEST_TABLE = 67_108_864
# How many bytes are read, and how many records are written anew, at a time.
BLOCK, BATCH = 65_536, 100
# From how many records a table for people takes its widths, and the most that a column is widened.
MEASURED, WIDEST = 1000, 60
FILE_FAULT, USAGE, WRITE_FAULT, NOT_TEXT = 1, 2, 11, 16


class Fault(Exception):
    """What is wrong with the call or with a file, as a line for the user, and the status that it
    ends with."""

    def __init__(self, line, status=FILE_FAULT):
        super().__init__(line)
        self.line, self.status = line, status


class Stopped(Exception):
    """A signal that ends the call."""


def say(line):
    with contextlib.suppress(OSError):
        os.write(2, line if isinstance(line, bytes) else line.encode("utf-8", "backslashreplace"))


def shown(text):
    """A text as a line may show it: what is no text by its bytes, and no sign that moves a
    terminal's place."""
    text = text.encode(errors="surrogateescape").decode(errors="backslashreplace")
    return "".join(it if it.isprintable() else repr(it)[1:-1] for it in text)


# The command line.


class Parser(argparse.ArgumentParser):
    def error(self, message):
        raise Fault(f"query: {message}; anyk query --help says more", USAGE)

    def format_help(self):
        if not os.path.isfile(PAGE):
            return __doc__.strip() + "\n"
        with open(PAGE, encoding="utf-8") as file:
            return file.read()


def separator(text):
    text = {"\\t": "\t", "tab": "\t"}.get(text, text)
    if len(text) != 1 or not text.isascii() or text in '"\r\n':
        raise argparse.ArgumentTypeError("one ASCII character is needed, and no quote or line end")
    return text


def natural(text):
    if not re.fullmatch("[0-9]{1,20}", text):
        raise argparse.ArgumentTypeError(f"'{text}' is no number from 0 on")
    return int(text)


def arguments():
    parser = Parser(prog="anyk query", allow_abbrev=False)
    parser.add_argument("query", metavar="QUERY")
    parser.add_argument("tables", metavar="TABLE", nargs="+")
    parser.add_argument("--engine", choices=("part", "rec"))
    parser.add_argument("--best-of", metavar="ALIAS")
    parser.add_argument("--ranks", action="store_true")
    parser.add_argument("--rows", action="store_true")
    parser.add_argument("--limit", metavar="K", type=natural)
    form = parser.add_mutually_exclusive_group()
    form.add_argument("--json", action="store_true")
    form.add_argument("--table", action="store_true")
    separators = parser.add_mutually_exclusive_group()
    separators.add_argument("--delimiter", metavar="C", type=separator)
    separators.add_argument("--tsv", dest="delimiter", action="store_const", const="\t")
    return parser.parse_intermixed_args()


def check_text(word):
    """A word of the program is text, and else it ends without a line."""
    if re.search("[\ud800-\udfff]", word):
        raise Fault(f"query: the argument {shown(word)} is not UTF-8", NOT_TEXT)


def options_of(given):
    """The options that are the program's own."""
    words = ["--ranks"] * given.ranks + ["--rows"] * given.rows
    if given.engine is not None:
        words.append(f"--engine={given.engine}")
    if given.best_of is not None:
        check_text(given.best_of)
        words.append(f"--best-of={given.best_of}")
    return words


# The query.


class Query:
    """The text of the query, or the name of a file that cannot be read, so that the program says
    why."""

    def __init__(self, word):
        self.text, self.file, self.is_input = None, None, word == "-"
        if self.is_input:
            self.text = read_first(0)
        elif word.startswith("@"):
            self.file = word[1:]
            with contextlib.suppress(OSError, ValueError), open(self.file, "rb") as file:
                self.text = read_first(file.fileno())
        else:
            self.text = os.fsencode(word)
        self.tokens = TOKEN.findall(self.text or b"")

    def has(self, keyword):
        return any(it.lower() == keyword for it in self.tokens)

    def may_name(self, table):
        """Whether the query has this name in any place; if it has not, the table is not read."""
        return self.text is None or os.fsencode(table) in self.text


def read_first(descriptor):
    """The bytes of a query, and if it is too long, so many that the program sees it."""
    with open(descriptor, "rb", closefd=False) as file:
        return file.read(LONGEST_QUERY + 1)


# The tables.


class Table:
    """A table of the call: its name, its file, and what separates its fields."""

    def __init__(self, word, delimiter):
        self.name, equals, self.file = word.partition("=")
        if not equals:
            self.file, self.name = word, name_of(word)
        if not self.name or not self.file:
            raise Fault(f"query: '{shown(word)}': a table is FILE or NAME=FILE", USAGE)
        check_text(word)
        bare = without(self.file, (".gz",))
        self.is_packed = bare != self.file
        self.delimiter = "\t" if without(bare, (".tsv", ".tab")) != bare else delimiter or ","

    def is_ready(self):
        """Whether the program can read the file as it is."""
        if self.is_packed or self.delimiter != ",":
            return False
        return self.file != "-" or is_opened_anew(0)

    def word(self):
        """The word for a file that the program reads itself."""
        return f"{self.name}={'/dev/stdin' if self.file == '-' else self.file}"

    def opened(self):
        """The file, or None if the program can say best what is wrong with it."""
        try:
            is_input = self.file == "-"
            return open(0 if is_input else self.file, "rb", closefd=not is_input)
        except (OSError, ValueError):
            return None

    def blocks(self, file):
        """The bytes of the table, as CSV that the program reads."""
        stream = gzip.GzipFile(fileobj=file) if self.is_packed else file
        if self.delimiter != ",":
            return rewritten(stream, self.delimiter)
        return iter(lambda: stream.read1(BLOCK), b"")


def without(name, endings):
    """The name without the ending, if it has one of these."""
    ending = next((it for it in endings if name.lower().endswith(it)), "")
    return name[: len(name) - len(ending)]


def name_of(file):
    """The name of a table that is given as a file alone."""
    if file == "-":
        return "stdin"
    return os.path.splitext(without(os.path.basename(file), (".gz",)))[0]


def is_opened_anew(descriptor):
    """Whether who opens the descriptor by its name reads what it would give. A socket cannot be
    opened, and a file begins anew."""
    try:
        mode = os.fstat(descriptor).st_mode
        is_behind = stat.S_ISREG(mode) and os.lseek(descriptor, 0, os.SEEK_CUR) != 0
        return not stat.S_ISSOCK(mode) and not is_behind
    except OSError:
        return True


def rewritten(stream, delimiter):
    """The records of a stream with commas between their fields. Quotes are those of CSV."""
    csv.field_size_limit(LARGEST_TABLE)
    lines = io.TextIOWrapper(stream, encoding="latin-1", newline="")
    first = next(lines, "")
    if first[:2] in ("\xff\xfe", "\xfe\xff"):
        raise Fault("it is in UTF-16: iconv -f UTF-16 -t UTF-8 first")
    if first.startswith("\xef\xbb\xbf"):
        first = first[3:]
    lines = itertools.chain([first], lines)
    reader = csv.reader(lines, delimiter=delimiter, strict=True)
    begun, batch = 1, []
    try:
        for fields in reader:
            begun = reader.line_num + 1
            batch.append(fields)
            if len(batch) == BATCH:
                yield as_csv(batch)
                batch = []
    except csv.Error as error:
        is_open = "unexpected end" in str(error)
        what = "a quote is never closed" if is_open else str(error)
        raise Fault(f"line {begun}: {what}") from None
    yield as_csv(batch)


def as_csv(records):
    text = io.StringIO(newline="")
    # With these line ends the writer puts quotes round any of the two.
    csv.writer(text, lineterminator="\r\n").writerows(records)
    return text.getvalue().encode("latin-1")


# The pipes to the program.


class Feeder(threading.Thread):
    """Writes bytes to a pipe that the program reads them from."""

    def __init__(self, name, blocks, target):
        super().__init__(daemon=True)
        self.of, self.blocks, self.target = name, blocks, target
        self.program = self.fault = None

    def run(self):
        try:
            for block in self.blocks:
                write_all(self.target, block)
        except BrokenPipeError:
            pass  # The program has ended, or does not need the rest.
        except Exception as error:
            self.fault = f"query: {shown(self.of)}: {reason(error)}"
            # The pipe stays open, so that the program never sees an end that is not the table's.
            self.program.kill()
            return
        os.close(self.target)


def reason(error):
    """What is wrong with a file, in a few words."""
    if isinstance(error, Fault):
        return error.line
    if isinstance(error, EOFError):
        return "its packed bytes break off"
    if isinstance(error, zlib.error) or isinstance(error, OSError) and not error.errno:
        return "its bytes are not those of gzip, or they are damaged"
    if isinstance(error, OSError):
        return error.strerror
    return str(error) or type(error).__name__


def write_all(descriptor, block):
    view = memoryview(block)
    while view:
        view = view[os.write(descriptor, view) :]


class Call:
    """The words of a call of the program, and the pipes that belong to it."""

    def __init__(self, given, query, tables):
        self.query, self.tables, self.options = query, tables, options_of(given)
        # The ends of pipes that the program reads, the tables behind them, and what writes them.
        self.sources, self.piped, self.feeders = [], {}, []
        words = [self.query_word(), *map(self.table_word, tables)]
        self.words = ["run", *self.options, "--", *words]
        is_formed = given.json or given.table or given.limit is not None
        self.is_changed = bool(self.feeders) or is_formed

    def pipe(self):
        source, target = os.pipe()
        self.sources.append(source)
        return source, target

    def query_word(self):
        if self.query.text is None:
            return self.query.file
        source, target = self.pipe()
        written = written_at_once(target, self.query.text)
        if written < len(self.query.text):
            self.feeders.append(Feeder("the query", [self.query.text[written:]], target))
        else:
            os.close(target)
        return f"/dev/fd/{source}"

    def table_word(self, table):
        if table.is_ready() or not self.query.may_name(table.name):
            return table.word()
        file = table.opened()
        if file is None:
            return table.word()
        source, target = self.pipe()
        self.feeders.append(Feeder(table.file, table.blocks(file), target))
        self.piped[source] = table
        return f"{table.name}=/dev/fd/{source}"

    def takes_input(self):
        """Whether the standard input is read here, and not by the program."""
        return self.query.is_input or any(it.file == "-" for it in self.piped.values())

    def named(self, line):
        """The program's line with the name of a file in place of that of its pipe."""
        found = re.match(rb"anyk: file /dev/fd/([0-9]+)(?=[: ])", line)
        table = self.piped.get(int(found[1])) if found else None
        if table is None:
            return line
        return b"anyk: file " + os.fsencode(table.file) + line[found.end() :]


def written_at_once(target, text):
    """How many bytes of the text the pipe takes before it is read."""
    os.set_blocking(target, False)
    try:
        return os.write(target, text)
    except BlockingIOError:
        return 0
    finally:
        os.set_blocking(target, True)


# The output.


class Records:
    """The records of the program's output in batches, the header and at most so many answers.
    `is_full` says that there are as many."""

    def __init__(self, blocks, most):
        self.blocks, self.left = blocks, None if most is None else most + 1
        self.is_full = False

    def __iter__(self):
        pieces, is_open = [], False
        for block in self.blocks:
            ends, is_open = ends_of(block, is_open)
            if self.left is not None and len(ends) >= self.left:
                self.is_full = True
                yield b"".join(pieces) + block[: ends[self.left - 1]]
                return
            if self.left is not None:
                self.left -= len(ends)
            if ends:
                yield b"".join(pieces) + block[: ends[-1]]
                pieces = []
            pieces.append(block[ends[-1] :] if ends else block)


def ends_of(block, is_open):
    """Where the records of a block end, and whether its end is between quotes; its beginning is if
    is_open says so."""
    ends, place = [], 0
    *lines, last = block.split(b"\n")
    for line in lines:
        place += len(line) + 1
        is_open ^= line.count(b'"') & 1
        if not is_open:
            ends.append(place)
    return ends, bool(is_open ^ (last.count(b'"') & 1))


def rows_of(batches):
    """The fields of the records of each batch, with what is no UTF-8 as surrogates."""
    csv.field_size_limit(2**31 - 1)
    for batch in batches:
        text = batch.decode("utf-8", "surrogateescape")
        try:
            yield list(csv.reader(io.StringIO(text, newline="")))
        except csv.Error as error:
            # As of a byte 0, which Python reads from 3.11 on.
            raise Fault(f"query: the output cannot be read: {error}") from None


def places_of_numbers(header, given, query):
    """The places of the columns that the options add, which come last and hold numbers: sums, the
    branch, row numbers."""
    place = len(header)
    if given.rows:
        place -= int(header[place - 1][len("row") :])
        place -= query.has(b"union")
    if given.ranks and query.has(b"order"):
        place -= int(header[place - 1][len("rank") :])
    return set(range(place, len(header)))


def names_of(header):
    """The names of an object's fields. A name that came before gets _2, _3 and so on, the first
    that no column has."""
    names = []
    for name in header:
        others = (f"{name}_{number}" for number in itertools.count(2))
        is_new = name not in names
        names.append(name if is_new else next(it for it in others if it not in [*names, *header]))
    return names


def objects(groups, given, query):
    """The answers as JSON, an object on a line. Bytes that are no UTF-8 are written as those of
    Python's surrogateescape."""
    text_of = json.encoder.encode_basestring
    template, numbers = None, set()
    for rows in groups:
        if template is None and rows:
            header = rows.pop(0)
            numbers = places_of_numbers(header, given, query)
            fields = [text_of(it).replace("%", "%%") + ": %s" for it in names_of(header)]
            template = "{" + ", ".join(fields) + "}\n"
        lines = []
        for row in rows:
            values = [(it or "null") if place in numbers else text_of(it)
                      for place, it in enumerate(row)]
            lines.append(template % tuple(values))
        yield "".join(lines).encode("utf-8", "backslashreplace")


def width_of(text):
    """How many columns of a terminal a text takes."""
    if text.isascii():
        return len(text)
    return sum(0 if unicodedata.combining(it) else
               2 if unicodedata.east_asian_width(it) in "WF" else 1 for it in text)


def aligned(groups, given, query):
    """The answers as a table for people. Its columns are as wide as the first answers need."""
    first = []
    for rows in groups:
        first += rows
        if len(first) > MEASURED:
            break
    if not first:
        return
    numbers = places_of_numbers(first[0], given, query)
    first = [[shown(it) for it in row] for row in first]
    widths = [min(max(map(width_of, column)), WIDEST) for column in zip(*first)]

    def line(row):
        cells = []
        for place, (it, width) in enumerate(zip(row, widths)):
            blanks = " " * (width - width_of(it))
            cells.append(blanks + it if place in numbers else it + blanks)
        return "  ".join(cells).rstrip() + "\n"

    ruled = [first[0], ["-" * it for it in widths], *first[1:]]
    yield "".join(map(line, ruled)).encode()
    for rows in groups:
        yield "".join(line([shown(it) for it in row]) for row in rows).encode()


# The run.


def program_file():
    named = os.environ.get("ANYK_PROGRAM")
    for it in [named] if named else PROGRAMS:
        if os.path.isfile(it):
            return it
    if named:
        raise Fault(f"query: {shown(named)}: there is no such program")
    raise Fault("query: there is no program: ./anyk builds it")


class Run:
    """A run of the program whose output or whose tables go through this tool."""

    def __init__(self, program, call, is_heard):
        # (the launcher, if it is named as the program, would give hints too)
        environment = {name: it for name, it in os.environ.items() if name != "ANYK_HINTS"}
        self.process = subprocess.Popen(
            [program, *call.words], env=environment, bufsize=0, pass_fds=call.sources,
            stdin=subprocess.DEVNULL if call.takes_input() else None,
            stdout=subprocess.PIPE, stderr=subprocess.PIPE if is_heard else None)
        self.line = b""
        self.listener = threading.Thread(target=self.listen, daemon=True)
        for it in call.sources:
            os.close(it)
        try:
            self.listener.start()
            for it in call.feeders:
                it.program = self.process
                it.start()
        except RuntimeError as error:
            self.stop()
            raise Fault(f"query: {error}") from None

    def listen(self):
        """Takes the line of a refusal."""
        if self.process.stderr:
            self.line = self.process.stderr.read()

    def blocks(self):
        return iter(lambda: os.read(self.process.stdout.fileno(), BLOCK), b"")

    def end(self):
        """The status of the program, after its line is read."""
        status = self.process.wait()
        self.listener.join()
        return status

    def stop(self):
        self.process.kill()
        self.process.wait()


def write_output(blocks):
    for block in blocks:
        try:
            write_all(1, block)
        except BrokenPipeError:
            raise Stopped(signal.SIGPIPE) from None
        except OSError:
            raise Fault("anyk: write failed", WRITE_FAULT) from None


def relay(run, given, query):
    """Writes the output in the form that is wanted. The answer says whether there are as many
    answers as --limit says."""
    blocks, records = run.blocks(), None
    if given.limit is not None or given.json or given.table:
        blocks = records = Records(blocks, given.limit)
    if given.json:
        blocks = objects(rows_of(blocks), given, query)
    elif given.table:
        blocks = aligned(rows_of(blocks), given, query)
    write_output(blocks)
    return records is not None and records.is_full


def is_explained():
    """Whether more is to be said than the program's line."""
    return os.isatty(2) or os.environ.get("ANYK_HINTS") == "1"


def answer(program, given, call):
    """Runs the program beside this process, and gives the status of the call."""
    run = Run(program, call, is_explained() or bool(call.piped))
    try:
        status = 0 if relay(run, given, call.query) else run.end()
    finally:
        run.stop()
    fault = next((it.fault for it in call.feeders if it.fault), None)
    if status != 0 and fault:
        raise Fault(fault)
    if status != 0:
        say(call.named(run.line))
    if is_explained():
        explain(status, call.named(run.line), call)
    return status if status >= 0 else 128 - status


# What is said to a person after the program's line, by the tools that do so for the launcher.


def explain(status, line, call):
    tool, first = f"{HERE}/notes.py", []
    if status != 0:
        tool = f"{HERE}/hints.py"
        first = [str(status), line.decode("utf-8", "surrogateescape").rstrip("\n")]
    if not os.path.isfile(tool) or status in (1, 13) or not 0 <= status <= NOT_TEXT:
        return
    with contextlib.ExitStack() as files:
        with contextlib.suppress(OSError, Fault, subprocess.TimeoutExpired):
            names, words = copies(call, files)
            ran = subprocess.run(
                [sys.executable, "-X", "utf8", "-ISB", tool, *first, *words],
                stdin=subprocess.DEVNULL, stdout=subprocess.PIPE, stderr=subprocess.DEVNULL,
                pass_fds=list(names), timeout=60,
                env={**os.environ, "COLUMNS": str(terminal_columns())})
            say(re.sub(rb"/dev/fd/([0-9]+)", lambda it: names.get(int(it[1]), it[0]), ran.stdout))


def terminal_columns():
    if os.environ.get("COLUMNS", "").isdecimal():
        return int(os.environ["COLUMNS"])
    with contextlib.suppress(OSError):
        return os.get_terminal_size(2).columns or 80
    return 80


def copies(call, files):
    """What the descriptors of copies stand for, and the words of a call that can be read again.
    What came through a pipe is copied to files that have no name, and are gone with this
    process."""
    names, query = {}, call.query.file
    if query is None or not os.path.isfile(query):
        query = copy([call.query.text or b""], b"the query", names, files)
    words = []
    for table in call.tables:
        is_piped = table in call.piped.values()
        file = "/dev/null" if is_piped else table.word().partition("=")[2]
        if is_piped and os.path.isfile(table.file):
            with open(table.file, "rb") as packed, contextlib.suppress(Exception):
                file = copy(table.blocks(packed), os.fsencode(table.file), names, files)
        words.append(f"{table.name}={file}")
    return names, ["run", *call.options, query, *words]


def copy(blocks, name, names, files):
    """The name by which the bytes can be read from a file that has none."""
    file = files.enter_context(tempfile.TemporaryFile())
    for block in blocks:
        file.write(block)
        if file.tell() > LARGEST_TABLE:
            raise Fault("too long to be looked at again")
    file.flush()
    names[file.fileno()] = name
    return f"/dev/fd/{file.fileno()}"


# The call.


def tables_of(given):
    """The tables of the call, no two of one name."""
    tables = [Table(it, given.delimiter) for it in given.tables]
    names = [it.name for it in tables]
    twice = next((it for it in names if names.count(it) > 1), None)
    if twice is not None:
        remedy = "write NAME=FILE for one of them"
        raise Fault(f"query: two tables have the name '{shown(twice)}': {remedy}", USAGE)
    if [given.query, *[it.file for it in tables]].count("-") > 1:
        raise Fault("query: the standard input is asked for twice", USAGE)
    return tables


def begin(given):
    """Reads the words, and runs the program, in place of this process if nothing has to be done
    beside it."""
    tables, query = tables_of(given), Query(given.query)
    if given.limit is not None and query.has(b"limit"):
        raise Fault("query: the query has a LIMIT", USAGE)
    program = program_file()
    call = Call(given, query, tables)
    if call.is_changed or is_explained():
        return answer(program, given, call)
    for it in call.sources:
        os.set_inheritable(it, True)
    # What Python leaves out for itself is as it was for the program.
    for it in (signal.SIGPIPE, signal.SIGXFSZ):
        signal.signal(it, signal.SIG_DFL)
    os.execv(program, [program, *call.words])


def stop(number, _):
    raise Stopped(number)


def fill_streams():
    """What is opened later must not take the place of the input or of the error output, if they
    are closed."""
    for descriptor in (0, 1, 2):
        try:
            os.fstat(descriptor)
        except OSError:
            if descriptor == 1:
                raise Fault("query: the output is closed", WRITE_FAULT) from None
            os.open(os.devnull, os.O_RDWR)


def main():
    for it in (signal.SIGINT, signal.SIGTERM, signal.SIGHUP):
        if signal.getsignal(it) != signal.SIG_IGN:
            signal.signal(it, stop)
    try:
        fill_streams()
        return begin(arguments())
    except Fault as fault:
        say(fault.line + "\n")
        return fault.status
    except OSError as error:
        say(f"query: {shown(error.filename or 'the system')}: {error.strerror}\n")
        return FILE_FAULT
    except Stopped as stopped:
        number = stopped.args[0]
        signal.signal(number, signal.SIG_DFL)
        os.kill(os.getpid(), number)
        return 128 + number


if __name__ == "__main__":
    # At once: a thread may still wait for the standard input.
    os._exit(ended("query", main))
