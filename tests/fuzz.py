#!/usr/bin/env python3
"""Changes bytes of valid inputs, and makes large random queries, and looks at what the program says of each.

usage: tests/fuzz.py [PROGRAM] [SECONDS] [SEED]

PROGRAM is ./anyk if it is not given, SECONDS is 60 and SEED is 1. Inputs are those of tests/differential.py, each from a seed of its
own that is printed if a test fails. Half of the time goes to each of two parts.

Changed bytes: a few bytes of the query, of the tables or of the script are changed, left out, put in or doubled. A third of the inputs are
unions. Each status is one of the table. Where the status is not 0, there is no output and one line on the error output. Both engines say
the same. `plan` refuses what `run` refuses, in the same words, except for a union, which is no query to it. The query and the tables are
also read here, by the grammar and the rules of docs/REFERENCE.md: the program accepts what is accepted here and nothing else, and its output
is that of the plain evaluation.

Large queries: tables of up to 200 rows, with up to 1,000 answers, a third of them unions. The output of both engines is that of sqlite3, to
the byte. Where Python has no sqlite3, this part is passed over.
"""
import os
import random
import re
import sys
import time
from concurrent.futures import ThreadPoolExecutor

try:
    import sqlite3
except ImportError:
    sqlite3 = None

from arguments import arguments, program_at
from differential import KEYWORDS, TEXTS, WEIGHT_NAMES, COLUMN_NAMES, Case, DrawnUnion, Union, output_record, run, told, weight, with_other_engine

STATUSES = (0, 3, 4, 5, 6, 7, 8, 15)
PIECES = [b'"', b"'", b",", b"\n", b"\r", b"\r\n", b"\xef\xbb\xbf", b"\0", b"\xff", b"\xc3\xa9", b"-", b"+", b"0", b"1", b"9" * 40, b"=", b".", b";", b"*",
          b" ", b" and ", b" where ", b" order by ", b" limit ", b" limit 3", b" desc", b" asc", b" join ", b" inner join ", b" on ", b" as ",
          b"select", b"from", b" union all ", b" union ", b" a", b"x", b'""', b"''", b",,", b"\n\n", b"open a\n", b"next a 1\n", b"#"]
GREATEST = 2**127 - 1
MOST_WITNESSES, MOST_STEPS = 20000, 2000


class Refused(Exception):
    pass


# ---- reading, by the rules of docs/REFERENCE.md

def text_of(data):
    """Bytes as text, from which they can be had again."""
    return data.decode("utf-8", "surrogateescape")


def bytes_of(text):
    return text.encode("utf-8", "surrogateescape")


def records_of(text):
    """The records of a CSV file."""
    records, fields, field, state = [], [], "", "record"
    for it in text.removeprefix("\ufeff"):
        ends = it in "\r\n"
        if state == "record" and ends:
            continue
        if state == "quoted":
            if it == '"':
                state = "quote"
            else:
                field += it
        elif it == '"' and state in ("record", "start", "quote"):
            field += '"' if state == "quote" else ""
            state = "quoted"
        elif it == ",":
            fields, field, state = [*fields, field], "", "start"
        elif ends:
            records.append([*fields, field])
            fields, field, state = [], "", "record"
        else:
            field, state = field + it, "field"
    return records if state == "record" else [*records, [*fields, field]]


def table_of(text):
    """The names and the rows of a table's file."""
    records = records_of(text)
    if not records or len(records[0]) > 64 or len(set(records[0])) < len(records[0]):
        raise Refused("header")
    if any(len(it) != len(records[0]) for it in records[1:]):
        raise Refused("fields")
    return records[0], records[1:], []


def is_weight(field):
    return field == "" or bool(re.fullmatch("[+-]?[0-9]{1,39}", field)) and -GREATEST - 1 <= int(field) <= GREATEST


TOKEN = re.compile(r"""[ \t\r\n]*(?:(?P<name>[A-Za-z_][A-Za-z0-9_]*)|"(?P<quoted>[^"]*)"|'(?P<string>(?:[^']|'')*)'|(?P<digits>[0-9]+)|(?P<sign>[*,.=+;-]))""")


def tokens_of(text):
    """Each token as its kind and what it says."""
    tokens, at = [], 0
    while text[at:].strip(" \t\r\n"):
        found = TOKEN.match(text, at)
        if not found:
            raise Refused("token")
        kind = found.lastgroup
        word = found[kind]
        if kind == "name" and word.lower() in KEYWORDS:
            kind, word = "keyword", word.lower()
        tokens.append(("name" if kind == "quoted" else kind, word.replace("''", "'") if kind == "string" else word))
        at = found.end()
    return tokens


def read_all(text, files, options):
    """The queries of a text and its limit, over tables that were read from their files. One query alone is a union too."""
    if len(bytes_of(text)) > 65536:
        raise Refused("length")
    tokens = tokens_of(text)
    branches = [Read(tokens, files, options)]
    while branches[-1].may("union"):
        branches[-1].keyword("all")
        branches.append(Read(tokens, files, options))
    last = branches[-1]
    limit = int(last.take("digits")) if last.may("limit") else None
    last.sign(";")
    items = sum(len(it.items) for it in branches)
    if tokens or (limit or 0) >= 2**64 or len(branches) > 8 or items > 16 or any(len(it.keys_read) > 8 for it in branches):
        raise Refused("query")
    for it in branches:
        it.bind()
    return Union(branches, limit)


class Read(Case):
    """A query that is read from tokens up to its limit, which are taken off the list; and bound to its tables."""

    def __init__(self, tokens, files, options):
        self.tokens_left = tokens
        self.tables, self.files_read = {}, files
        self.ranks, self.rows = "--ranks" in options, "--rows" in options
        self.keyword("select")
        listed = None if self.sign("*") else self.several(self.name_of_column)
        self.keyword("from")
        self.items, on = [self.item()], [[]]
        while self.is_sign(",") or self.is_keyword("join", "inner"):
            is_join = not self.sign(",")
            if is_join and self.is_keyword("inner"):
                self.keyword("inner")
            if is_join:
                self.keyword("join")
            self.items.append(self.item())
            on.append(self.conditions() if is_join and (self.keyword("on") or True) else [])
        where = self.conditions() if self.may("where") else []
        self.keys_read = []
        if self.may("order"):
            self.keyword("by")
            self.keys_read = self.several(self.order_key)
        self.list_read, self.where_read, self.on_read = listed, where, on

    # -- the grammar

    def is_next(self, kind, *words):
        return bool(self.tokens_left) and self.tokens_left[0][0] == kind and (not words or self.tokens_left[0][1] in words)

    def is_sign(self, sign):
        return self.is_next("sign", sign)

    def is_keyword(self, *words):
        return self.is_next("keyword", *words)

    def take(self, kind, *words):
        if not self.is_next(kind, *words):
            raise Refused("syntax")
        return self.tokens_left.pop(0)[1]

    def keyword(self, word):
        self.take("keyword", word)

    def may(self, word):
        return bool(self.is_keyword(word) and self.take("keyword", word))

    def sign(self, *signs):
        return self.take("sign") if any(self.is_sign(it) for it in signs) else ""

    def several(self, one):
        found = [one()]
        while self.sign(","):
            found.append(one())
        return found

    def item(self):
        table = self.take("name")
        if self.may("as") or self.is_next("name"):
            return table, self.take("name")
        return table, table

    def name_of_column(self):
        name = self.take("name")
        return (name, self.take("name")) if self.sign(".") else (None, name)

    def conditions(self):
        found = [self.condition()]
        while self.may("and"):
            found.append(self.condition())
        return found

    def condition(self):
        left = self.side()
        if not self.sign("="):
            raise Refused("syntax")
        right = self.side()
        if isinstance(left, str) and isinstance(right, str):
            raise Refused("syntax")
        return left, right

    def side(self):
        """A column as a pair, or a constant as its text."""
        if self.is_next("name"):
            return self.name_of_column()
        if self.is_next("string"):
            return self.take("string")
        return ("-" if self.sign("-") else "") + self.take("digits")

    def order_key(self):
        terms = [(-1 if self.sign("+", "-") == "-" else 1, self.name_of_column())]
        while self.is_sign("+") or self.is_sign("-"):
            terms.append((-1 if self.sign("+", "-") == "-" else 1, self.name_of_column()))
        return terms, bool(self.is_keyword("asc", "desc") and self.take("keyword") == "desc")

    # -- names and weights

    def bind(self):
        if len({alias for _, alias in self.items}) < len(self.items):
            raise Refused("aliases")
        for table, _ in self.items:
            if table not in self.files_read:
                raise Refused("table")
            self.tables[table] = table_of(self.files_read[table])
        self.list = None if self.list_read is None else [self.place_of(it) for it in self.list_read]
        self.where = [self.bound(it) for it in self.where_read]
        self.on = [[self.bound(it) for it in each] for each in self.on_read]
        self.keys = [([(sign, self.place_of(it)) for sign, it in terms], descends) for terms, descends in self.keys_read]
        for terms, _ in self.keys:
            self.check(terms)

    def place_of(self, column):
        alias, name = column
        found = [(item, names.index(name)) for item, (table, of_item) in enumerate(self.items)
                 for names in [self.tables[table][0]] if alias in (None, of_item) and name in names]
        if len(found) != 1:
            raise Refused("column")
        return found[0]

    def bound(self, condition):
        return tuple(self.place_of(it) if isinstance(it, tuple) else it for it in condition)

    def check(self, terms):
        """All fields of the columns are weights, and no sum can pass 128 bits."""
        sum_of_greatest = 0
        for _, (item, place) in terms:
            fields = [row[place] for row in self.tables[self.items[item][0]][1]]
            if not all(is_weight(it) for it in fields):
                raise Refused("weight")
            sum_of_greatest += max((abs(weight(it)) for it in fields), default=0)
        if sum_of_greatest > GREATEST:
            raise Refused("sum")


def is_large(case):
    """Whether there are too many combinations of rows to go through them here."""
    count = 1
    for table, _ in case.items:
        count *= max(1, len(case.tables[table][1]))
    return count > MOST_WITNESSES


def is_refused_by_plan(got, of_run, text):
    """Whether `plan` refuses what `run` refuses, by what they gave; a union is no query to it."""
    if "union" not in text.lower():
        return (got[0] and got) == (of_run[0] and of_run)
    try:
        is_union = ("keyword", "union") in tokens_of(text)
    except Refused:
        # (both stop at a token, but a union may come first)
        return got[0] in (3, 8)
    return got[0] in (3, 8) if is_union else (got[0] and got) == (of_run[0] and of_run)


# ---- changed bytes

def changed(rng, data):
    """The bytes with one to three changes."""
    data = bytearray(data)
    for _ in range(rng.choice([1, 1, 1, 2, 3])):
        at, end = rng.randint(0, len(data)), 0
        end = min(len(data), at + rng.choice([1, 1, 2, 5, 20]))
        how = rng.random()
        if how < 0.25 and at < len(data):
            data[at] = rng.choice([rng.randrange(256), data[at] ^ 1 << rng.randrange(8)])
        elif how < 0.45:
            del data[at:end]
        elif how < 0.75:
            data[at:at] = rng.choice(PIECES)
        elif how < 0.85:
            data[at:at] = data[at:end]
        elif how < 0.95:
            other = rng.randint(0, len(data))
            data[at:end] = data[other : other + end - at]
        else:
            del data[at:]
    return bytes(data)


def why_not(got):
    """What is wrong with a status, an output and an error output in themselves, or nothing."""
    status, output, error = got
    if status not in STATUSES:
        return "its status is none of an input"
    if (status == 0) != (error == b"") or status != 0 and output:
        return "its status does not go with its output"
    is_line = error.startswith(b"anyk: ") and error.endswith(b"\n")
    return "" if status == 0 or is_line else "its error output is no line of the program"


def wanted_of(case, files, words):
    """What the evaluation here gives: status, output and error output; a refusal is none of these, and too large an input is None."""
    named = dict(it.split("=", 1) for it in words if it.startswith(tuple(f"{name}=" for name in case.tables)))
    try:
        read = read_all(text_of(files["q.sql"]), {name: text_of(files[file]) for name, file in named.items() if file in files}, words)
    except Refused:
        return "refused"
    refused = read.refusal()
    if refused:
        return refused[0], b"", f"anyk: {refused[1]}\n".encode()
    if any(is_large(it) for it in read.branches):
        return None
    return 0, bytes_of("".join(map(output_record, [read.header(), *read.listed()[0]]))), b""


def try_changed(program, seed):
    """Nothing, or what went wrong: what, files, words, what was wanted and what was got."""
    rng, case = random.Random(f"changed {seed}"), Case(seed)
    # (--best-of is left to the comparison on generated queries)
    case.best = None
    made = DrawnUnion(case).files()[0] if seed % 3 == 0 else case.files()
    files, words = {name: bytes_of(text) for name, text in made.items()}, case.words()
    script, session, plan = case.script()[0], case.session_words(), case.plan_words()
    files["s.txt"] = bytes_of(script)
    touched = rng.choice([["q.sql"], [it for it in files if it.startswith("t")], ["q.sql"], ["s.txt"], list(files)])
    for name in rng.sample(touched, rng.randint(1, len(touched))):
        files[name] = changed(rng, files[name])
    results = {}
    for name, each in (("run", words), ("run", with_other_engine(words)), ("session", session), ("session", with_other_engine(session)), ("plan", plan)):
        got = run(program, files, each)
        if why_not(got):
            return f"seed {seed}: {why_not(got)}", files, each, ("", "", ""), got
        if name in results and results[name] != got:
            return f"seed {seed}: the engines differ", files, each, results[name], got
        results[name] = got
    if not is_refused_by_plan(results["plan"], results["run"], text_of(files["q.sql"])):
        return f"seed {seed}: plan does not refuse what run refuses", files, plan, results["run"], results["plan"]
    wanted = wanted_of(case, files, words)
    is_refusal = results["run"][0] not in (0, 6, 15)
    if wanted is not None and (is_refusal if wanted != "refused" else not is_refusal) or isinstance(wanted, tuple) and wanted != results["run"]:
        return f"seed {seed}: the evaluation gives another result", files, words, wanted if wanted != "refused" else ("refused", "", ""), results["run"]
    return None


# ---- large queries

class Large(Case):
    """A query over larger tables, with small weights and with more values."""

    def table(self):
        rng = self.rng
        if len(self.few) <= 3:
            self.few = [str(it) for it in range(rng.choice([3, 10, 40]))] + rng.sample(TEXTS, 3)
        texts = rng.sample(COLUMN_NAMES, rng.randint(1, 4))
        weights = rng.sample(WEIGHT_NAMES, rng.randint(1, 2))
        names = texts + weights
        rng.shuffle(names)
        some = [*map(str, range(-9, rng.choice([10, 100]))), "", "007", "-0", "+2"]
        rows = [[rng.choice(some if it in weights else self.few) for it in names] for _ in range(rng.randint(0, rng.choice([20, 200])))]
        return names, rows, [it in weights for it in names]


def sqlite_query(case, at, longest, values):
    """What sqlite3 is asked for a query with this number in its union: columns, sums, the number and the rows. Constants go to the values."""

    def side(it):
        if isinstance(it, tuple):
            return f"i{it[0]}.c{it[1]}"
        values.append(it)
        return "?"

    numbers = {name: number for number, name in enumerate(case.tables)}
    sums = [" ".join(f"{'+' if sign > 0 else '-'} cast(i{item}.c{place} as integer)" for sign, (item, place) in terms) for terms, _ in case.keys]
    rows = [f"i{it}.rowid" for it in range(len(case.items))] + ["null"] * (longest - len(case.items))
    asked = [f"i{item}.c{place}" for item, place in case.shown()] + sums + [str(at)] + rows
    conditions = " and ".join(["1"] + [f"{side(left)} = {side(right)}" for left, right in case.equalities()])
    tables = ", ".join(f"t{numbers[table]} i{number}" for number, (table, _) in enumerate(case.items))
    return f"select {', '.join(asked)} from {tables} where {conditions}"


def sqlite_rows(union):
    """What sqlite3 finds for all queries together, in order, or None if it takes too long."""
    steps = [0]

    def is_enough():
        steps[0] += 1
        return steps[0] > MOST_STEPS

    first, longest, values = union.branches[0], union.longest(), []
    base = sqlite3.connect(":memory:")
    base.set_progress_handler(is_enough, 10000)
    for at, (names, rows, _) in enumerate(first.tables.values()):
        base.execute(f"create table t{at} ({', '.join(f'c{it} text' for it in range(len(names)))})")
        base.executemany(f"insert into t{at} values ({', '.join('?' * len(names))})", rows)
    queries = " union all ".join(sqlite_query(it, at + 1, longest, values) for at, it in enumerate(union.branches))
    place = len(first.shown()) + 1
    order = [f"{place + it} {'desc' if descends else 'asc'}" for it, (_, descends) in enumerate(first.keys)]
    order += [str(place + len(first.keys) + it) for it in range(longest + 1)]
    try:
        return base.execute(f"{queries} order by {', '.join(order)} limit {union.limit}", values).fetchall()
    except sqlite3.OperationalError as error:
        if "interrupted" in str(error):
            return None
        raise
    finally:
        base.close()


def sqlite_output(union):
    """The output by sqlite3, or None if it takes too long."""
    first, found = union.branches[0], sqlite_rows(union)
    if found is None:
        return None
    columns = len(first.shown())
    is_shown = [True] * columns + [first.ranks] * len(first.keys) + [first.rows and len(union.branches) > 1] + [first.rows] * union.longest()
    records = [["" if it is None else str(it) for it, is_in in zip(row, is_shown) if is_in] for row in found]
    return "".join(map(output_record, [union.header(), *records]))


def try_large(program, seed):
    case = Large(f"large {seed}")
    case.best = None
    limit = case.rng.choice([0, 1, 10, 100, 1000, 1000]) if case.limit is None else min(case.limit, 1000)
    if seed % 3 == 0:
        union = DrawnUnion(case)
        union.limit = limit
        files = union.files()[0]
    else:
        case.limit = limit
        union, files = Union([case], limit), case.files()
    words, refused = case.words(), union.refusal()
    if refused:
        wanted = refused[0], b"", f"anyk: {refused[1]}\n".encode()
    else:
        output = sqlite_output(union)
        wanted = None if output is None else (0, output.encode(), b"")
    for each in (words, with_other_engine(words)):
        got = run(program, files, each)
        if wanted and got != wanted:
            return f"large seed {seed}: sqlite3 gives another result", files, each, wanted, got
    return None


# ---- running

def tried_for(seconds, one, program, first):
    """Tries seeds from the first on, until the time is over. Gives how many were tried, and the failures."""
    end, seeds, failures = time.time() + seconds, iter(range(first, first + 10**9)), []
    count = [0]

    def work():
        while time.time() < end and len(failures) < 5:
            count[0] += 1
            failure = one(program, next(seeds))
            if failure:
                failures.append(failure)

    with ThreadPoolExecutor(os.cpu_count()) as pool:
        for it in [pool.submit(work) for _ in range(os.cpu_count())]:
            it.result()
    return count[0], failures


def main():
    program, seconds, first = arguments(__doc__, "./anyk", 60.0, 1)
    program = program_at(program)
    parts = [("changed inputs", try_changed)] + ([("large queries", try_large)] if sqlite3 else [])
    failed, said = [], []
    for name, one in parts:
        count, failures = tried_for(seconds / 2, one, program, first * 1000000)
        failed += failures
        said.append(f"{count} {name}")
    for it in failed[:5]:
        told(*it)
    said += [] if sqlite3 else ["large queries SKIPPED, Python has no sqlite3 here"]
    print(f"fuzz: seed {first}, {', '.join(said)}: " + (f"FAILED: {len(failed)}" if failed else "passed"))
    return 1 if failed else 0


if __name__ == "__main__":
    sys.exit(main())
