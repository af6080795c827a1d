#!/usr/bin/env python3
"""Compares the program with a plain evaluation, written apart from it, on generated tables and queries.

usage: tests/differential.py [PROGRAM] [COUNT]

PROGRAM is ./anyk if it is not given, and COUNT is 300. Each case has a seed of its own, from 1 on, so that a case that
fails is the same in the next run. Tables and queries are small and their values few, so that rows join and sums tie. The
evaluation here goes through all combinations of rows, keeps those for which every equality holds on bytes, sorts by the sums
(negated if a key descends) and then by the row numbers, keeps of these, in half of the cases, the first for each row of an item, and
cuts at the limit. A query is cyclic if ears are removed,
the greatest first, until none is left, and more than one item is left; it is refused with these items. `plan` is called on the
same input, and its report is made from the same removal. So is `session`, with a script of its own. `run` and `session` are called
with each engine. Output, error output and status are compared to the byte.

Each seed also gives a union of one to three queries over the same tables. Its answers are those of all its queries, sorted by the sums,
then by the number of the query, and then by the row numbers. `run` is called on it with each engine. `plan` and `session` take no union,
and refuse it at the word. After that come inputs with their output, and inputs that are refused, each with its line and status.
"""
import itertools
import os
import random
import subprocess
import sys
import tempfile

from arguments import arguments, program_at

KEYWORDS = set("select from where and order by limit asc desc as join inner on union all".split())
TABLE_NAMES = ["R", "S", "T", "u_2", "Big Table", "order", "Ab"]
ALIASES = ["a", "b", "c", "x1", "Q", "left side", "from", "_"]
COLUMN_NAMES = ["a", "b", "c", "k", "A", "two words", "limit", "søk", "x,y", ""]
WEIGHT_NAMES = ["w", "v", "price", "W", "by"]
TEXTS = ["x", "y", "x", "z", "", "1", "01", "-1", "a,b", 'q"q', "it's", "two\nlines", "é", "x "]
WEIGHTS = ["0", "1", "2", "2", "3", "-1", "-3", "+2", "007", "-0", "", "10" + "0" * 36, "-1" + "0" * 36]
LIMITS = [None, None, 0, 1, 2, 5, 20, 18446744073709551615]


# ---- csv

def needs_quotes(field):
    return any(it in field for it in ',"\r\n')


def quoted(field):
    return '"' + field.replace('"', '""') + '"'


def output_record(fields):
    """A record as it is expected: quotes only if a field needs them, or if it is the empty only one."""
    if fields == [""]:
        return '""\n'
    return ",".join(quoted(it) if needs_quotes(it) else it for it in fields) + "\n"


def weight(field):
    """The weight that a field of an order key writes: an empty one counts 0."""
    return int(field) if field else 0


def table_file(rng, names, rows):
    """A table's file, with quotes that are needed and some that are not."""
    end = rng.choice(["\n", "\n", "\r\n"])
    lines = []
    for fields in [names, *rows]:
        must = fields == [""]
        lines.append(",".join(quoted(it) if must or needs_quotes(it) or rng.random() < 0.1 else it for it in fields))
    text = end.join(lines) + (end if rng.random() < 0.8 else "")
    return ("\ufeff" if rng.random() < 0.05 else "") + text


# ---- cyclic queries

def classes_of(equalities):
    """The columns that equalities lead to from each other, each class with the constants among what it equals."""
    classes = []
    for left, right in equalities:
        columns = {it for it in (left, right) if isinstance(it, tuple)}
        constants = {it for it in (left, right) if not isinstance(it, tuple)}
        met = [it for it in classes if it[0] & columns]
        classes = [it for it in classes if not it[0] & columns]
        for others, more in met:
            columns, constants = columns | others, constants | more
        classes.append((columns, constants))
    return classes


def variables_of(equalities):
    """Each variable as the set of its items: a class without a constant that has columns in at least two items."""
    sets = [{item for item, _ in columns} for columns, constants in classes_of(equalities) if not constants]
    return [it for it in sets if len(it) > 1]


def covers_of(variables, live, e):
    """The other live items that have every variable that e shares with any other live item."""
    shared = [it for it in variables if e in it and it & live != {e}]
    return [f for f in live - {e} if all(f in it for it in shared)]


def removal_of(variables, items):
    """The items that are left after ears are removed, the greatest first, and the ears in the order of their removal, each with the
    least item that covers it. One item is left if the query is not cyclic."""
    live, removed = set(range(items)), []
    while len(live) > 1:
        ears = [it for it in live if covers_of(variables, live, it)]
        if not ears:
            break
        ear = max(ears)
        removed.append((ear, min(covers_of(variables, live, ear))))
        live.remove(ear)
    return sorted(live), removed


# ---- queries

def canonical_name(name):
    """The name bare if it can be, else between quotes."""
    is_bare = name != "" and name.isascii() and (name[0].isalpha() or name[0] == "_") and all(it.isalnum() or it == "_" for it in name)
    return name if is_bare and name.lower() not in KEYWORDS else f'"{name}"'


class Case:
    """A query with its tables, as its text, its words and its expected output."""

    # the item of which each row's best answer is asked for, if one is named
    best, best_joined = None, False

    def __init__(self, seed):
        self.rng = rng = random.Random(seed)
        # (all tables draw from the same few texts, so that rows join)
        self.few = rng.sample(TEXTS, rng.randint(1, 3))
        self.tables = {}
        for name in rng.sample(TABLE_NAMES, rng.randint(1, 3)):
            self.tables[name] = self.table()
        self.draw_query()
        self.limit = rng.choice(LIMITS)
        self.ranks, self.rows = rng.random() < 0.5, rng.random() < 0.5
        # (the item of which each row's best answer is asked for, drawn apart)
        apart = random.Random(f"best of {seed}")
        self.best = apart.randrange(len(self.items)) if apart.random() < 0.5 else None
        self.best_joined = apart.random() < 0.3

    def draw_query(self):
        """The items, columns, equalities and order keys."""
        rng = self.rng
        self.items = []
        for _ in range(rng.choice([1, 2, 2, 2, 3, 3, 4])):
            self.items.append(self.item())
        self.list = None if rng.random() < 0.15 else [self.column() for _ in range(rng.randint(1, 4))]
        self.where, self.on = [], [None] + [[] for _ in self.items[1:]]
        for at in range(1, len(self.items)):
            if rng.random() < 0.4:
                self.on[at] = [self.equality(at) for _ in range(rng.randint(1, 2))]
            else:
                self.on[at] = None
                if rng.random() < 0.7:
                    self.where.append(self.equality(at))
        if len(self.items) > 2 and rng.random() < 0.7:
            self.where = self.ring() or self.where
        for _ in range(rng.choice([0, 0, 1, 1, 2])):
            self.where.append(self.equality(None))
        self.keys = [it for it in (self.key() for _ in range(rng.choice([0, 1, 1, 1, 2, 3]))) if it]

    def table(self):
        rng = self.rng
        texts = rng.sample(COLUMN_NAMES, rng.randint(1, 3))
        weights = rng.sample(WEIGHT_NAMES, rng.randint(0, 2))
        names = texts + weights
        rng.shuffle(names)
        few = self.few
        some = rng.sample(WEIGHTS, rng.randint(2, 5))
        rows = [[rng.choice(some if it in weights else few) for it in names] for _ in range(rng.choice([0, 1, 2, 3, 3, 4, 4, 5, 5, 6, 6, 6]))]
        if rng.random() < 0.3 and 0 < len(rows) < 6:
            rows.append(list(rows[0]))
        return names, rows, [it in weights for it in names]

    def item(self):
        """A table and its alias, which no item has yet."""
        rng = self.rng
        table = rng.choice(list(self.tables))
        taken = {alias for _, alias in self.items}
        if table not in taken and rng.random() < 0.5:
            return table, table
        return table, rng.choice([it for it in ALIASES if it not in taken])

    def names(self, item):
        return self.tables[self.items[item][0]][0]

    def column(self, item=None):
        item = self.rng.randrange(len(self.items)) if item is None else item
        return item, self.rng.randrange(len(self.names(item)))

    def text_column(self, item=None):
        """A column of texts, or now and then any."""
        item, place = self.column(item)
        texts = [it for it, is_weight in enumerate(self.tables[self.items[item][0]][2]) if not is_weight]
        return item, place if self.rng.random() < 0.1 else self.rng.choice(texts)

    def equality(self, item):
        """Two sides: columns as pairs of numbers, constants as what they mean."""
        rng = self.rng
        left = self.text_column(item)
        if item is None and rng.random() < 0.5:
            return left, rng.choice([*self.few, *self.few, rng.choice(["x", "", "1", "01", "-1", "it's"])])
        other = rng.randrange(item) if item and rng.random() < 0.9 else None
        return left, self.text_column(other)

    def two_columns(self, item):
        """Two columns of an item, of texts if it has two of them."""
        is_weight = self.tables[self.items[item][0]][2]
        texts = [it for it, weighs in enumerate(is_weight) if not weighs]
        return [(item, it) for it in self.rng.sample(texts if len(texts) > 1 else range(len(is_weight)), 2)]

    def ring(self):
        """Equalities round three items or more, each left by another column than it is entered by: many are cyclic."""
        able = [it for it in range(len(self.items)) if len(self.names(it)) > 1]
        if len(able) < 3:
            return []
        sides = [self.two_columns(it) for it in self.rng.sample(able, self.rng.randint(3, len(able)))]
        return [(one[1], other[0]) for one, other in zip(sides, sides[1:] + sides[:1])]

    def key(self):
        rng = self.rng
        weights = [(i, c) for i, (table, _) in enumerate(self.items) for c, it in enumerate(self.tables[table][2]) if it]
        if not weights:
            return None
        terms = [(rng.choice([1, 1, 1, -1]), rng.choice(weights)) for _ in range(rng.randint(1, 3))]
        return terms, rng.random() < 0.4

    # -- the text

    def word(self, keyword):
        return self.rng.choice([keyword, keyword.upper(), keyword.capitalize()])

    def name_text(self, name):
        return name if canonical_name(name) == name and self.rng.random() < 0.85 else f'"{name}"'

    def column_tokens(self, column):
        item, place = column
        name = self.names(item)[place]
        is_only = sum(self.names(it).count(name) for it in range(len(self.items))) == 1
        if is_only and self.rng.random() < 0.6:
            return [self.name_text(name)]
        return [self.name_text(self.items[item][1]), ".", self.name_text(name)]

    def side_tokens(self, side):
        if isinstance(side, tuple):
            return self.column_tokens(side)
        digits = side[1:] if side.startswith("-") else side
        if digits.isascii() and digits.isdigit() and self.rng.random() < 0.6:
            return ["-"] * side.startswith("-") + [digits]
        return ["'" + side.replace("'", "''") + "'"]

    def equality_tokens(self, equality):
        left, right = equality
        if self.rng.random() < 0.3:
            left, right = right, left
        return self.side_tokens(left) + ["="] + self.side_tokens(right)

    def equalities_tokens(self, equalities):
        tokens = []
        for at, it in enumerate(equalities):
            tokens += [self.word("and")] * (at > 0) + self.equality_tokens(it)
        return tokens

    def query_tokens(self):
        """The tokens up to the limit."""
        rng = self.rng
        tokens = [self.word("select")]
        if self.list is None:
            tokens.append("*")
        for at, it in enumerate(self.list or []):
            tokens += [","] * (at > 0) + self.column_tokens(it)
        tokens.append(self.word("from"))
        for at, (table, alias) in enumerate(self.items):
            if at and self.on[at] is None:
                tokens.append(",")
            elif at:
                tokens += [self.word("inner")] * (rng.random() < 0.3) + [self.word("join")]
            tokens.append(self.name_text(table))
            if alias != table or rng.random() < 0.2:
                tokens += [self.word("as")] * (rng.random() < 0.5) + [self.name_text(alias)]
            if at and self.on[at]:
                tokens += [self.word("on")] + self.equalities_tokens(self.on[at])
        if self.where:
            tokens += [self.word("where")] + self.equalities_tokens(self.where)
        for at, (terms, descending) in enumerate(self.keys):
            tokens += [","] if at else [self.word("order"), self.word("by")]
            for number, (sign, column) in enumerate(terms):
                if number or sign < 0 or rng.random() < 0.1:
                    tokens.append("+" if sign > 0 else "-")
                tokens += self.column_tokens(column)
            if descending:
                tokens.append(self.word("desc"))
            elif rng.random() < 0.3:
                tokens.append(self.word("asc"))
        return tokens

    def end_tokens(self, limit):
        rng = self.rng
        tokens = [] if limit is None else [self.word("limit"), "0" * rng.randint(0, 1) + str(limit)]
        return tokens + [";"] * (rng.random() < 0.3)

    def text(self):
        return self.spaced(self.query_tokens() + self.end_tokens(self.limit))[0]

    def spaced(self, tokens):
        """The tokens with blanks between them, at least one where two words would run together; and the offset of each, in bytes."""
        joined, last, offsets = self.blanks(0), "", []
        for token in tokens:
            runs_on = last != "" and (last[-1].isalnum() or last[-1] == "_") and (token[0].isalnum() or token[0] == "_")
            # (two quotes of one kind beside each other would read as another token)
            meets = last != "" and last[-1] in "'\"" and token[0] == last[-1]
            joined += self.blanks(1 if runs_on or meets or self.rng.random() < 0.8 else 0)
            offsets.append(len(joined.encode()))
            joined, last = joined + token, token
        return joined + self.blanks(0), offsets

    def blanks(self, least):
        rng = self.rng
        count = least if rng.random() < 0.9 else least + rng.randint(0, 2)
        return "".join(rng.choice("    \n\t\r") for _ in range(count))

    def best_option(self):
        if self.best is None:
            return []
        alias = self.items[self.best][1]
        return [f"--best-of={alias}"] if self.best_joined else ["--best-of", alias]

    def words(self):
        rng = self.rng
        named = [f"{name}=t{at}.csv" for at, name in enumerate(self.tables)]
        if rng.random() < 0.1:
            # (a table that no item uses is not read)
            named.append("unused=missing.csv")
        rng.shuffle(named)
        options = ["--ranks"] * self.ranks + ["--rows"] * self.rows
        engine = rng.choice([None, None, ["--engine", "part"], ["--engine", "rec"], ["--engine=rec"]])
        options = [[it] for it in options] + ([engine] if engine else [])
        rng.shuffle(options)
        flat = self.best_option() + [it for option in options for it in option]
        return ["run", *flat, "q.sql", *named] if rng.random() < 0.7 else ["run", "q.sql", *named, *flat]

    def files(self):
        return {"q.sql": self.text(), **self.table_files()}

    def table_files(self):
        return {f"t{at}.csv": table_file(self.rng, names, rows) for at, (names, rows, _) in enumerate(self.tables.values())}

    # -- the evaluation

    def equalities(self):
        return self.where + [it for on in self.on for it in on or []]

    def core(self):
        return removal_of(variables_of(self.equalities()), len(self.items))[0]

    def passing(self, item):
        """How many rows of an item have one text in all columns of a class, which is each constant of the class too."""
        classes = [([place for it, place in columns if it == item], constants) for columns, constants in classes_of(self.equalities())]
        rows = self.tables[self.items[item][0]][1]
        return sum(all(len({row[it] for it in places} | constants) == 1 for places, constants in classes if places) for row in rows)

    def plan_words(self):
        return ["plan", "q.sql", *[f"{name}=t{at}.csv" for at, name in enumerate(self.tables)]]

    def planned(self):
        """Status, output and error output of `plan`."""
        core, removed = removal_of(variables_of(self.equalities()), len(self.items))
        if len(core) > 1:
            return 6, b"", f"anyk: {cyclic(*[it + 1 for it in core])}\n".encode()
        nodes = [(core[0], None), *reversed(removed)]
        numbers = {item: at + 1 for at, (item, _) in enumerate(nodes)}
        lines = [
            f"node {numbers[item]} parent {numbers.get(parent, 0)} rows {self.passing(item)} item {canonical_name(self.items[item][1])}\n"
            for item, parent in nodes
        ]
        total = sum(len(self.tables[table][1]) for table, _ in self.items) + sum(self.passing(it) for it in range(len(self.items)))
        return 0, ("".join(lines) + f"total {total}\n").encode(), b""

    def expected(self):
        """Status, output and error output, and how many witnesses there are."""
        core = self.core()
        if len(core) > 1:
            return (6, b"", f"anyk: {cyclic(*[it + 1 for it in core])}\n".encode()), 0
        text, found = self.answered()
        return (0, text.encode(), b""), found

    def script(self):
        """Lines of a script with what they do: the command, the names and the number."""
        rng = self.rng
        open_names, lines = [], []
        for _ in range(rng.randint(0, 14)):
            word = rng.choice(["open", "next", "next", "next", "next", "fork", "rewind", "close"])
            new = rng.choice([it for it in ["a", "b", "c1", "Q_", "_", "9", "a" * 32] if it not in open_names] or [None])
            name = rng.choice(open_names or [None])
            if rng.random() < 0.15:
                lines.append((rng.choice(["", "# a comment", "#"]), None))
            elif word == "open" and new:
                open_names.append(new)
                lines.append((f"open {new}", ("open", new)))
            elif word == "fork" and name and new:
                open_names.append(new)
                lines.append((f"fork {name} {new}", ("fork", name, new)))
            elif word == "next" and name:
                count = rng.choice([0, 1, 1, 2, 3, 7, 100, 999999999])
                lines.append((f"next {name} {'0' * rng.randint(0, 9 - len(str(count)))}{count}", ("next", name, count)))
            elif word in ("rewind", "close") and name:
                if word == "close":
                    open_names.remove(name)
                lines.append((f"{word} {name}", (word, name)))
        end = rng.choice(["\n", "\n", "\r\n"])
        text = end.join(line for line, _ in lines) + (end if lines and rng.random() < 0.8 else "")
        return text, [it for _, it in lines if it]

    def session_words(self):
        flags = ["--ranks"] * self.ranks + ["--rows"] * self.rows + self.best_option()
        return ["session", *flags, "--script", "s.txt", "q.sql", *[f"{name}=t{at}.csv" for at, name in enumerate(self.tables)]]

    def told_by(self, steps):
        """Status, output and error output of `session` with these steps."""
        core = self.core()
        if len(core) > 1:
            return 6, b"", f"anyk: {cyclic(*[it + 1 for it in core])}\n".encode()
        header, records, _ = self.listed()
        text, places = output_record(["cursor", *header]), {}
        for word, name, *more in steps:
            if word == "open":
                places[name] = 0
            elif word == "next":
                given = records[places[name] : places[name] + more[0]]
                places[name] += len(given)
                text += "".join(output_record([name, *it]) for it in given) + (f"{name}\n" if len(given) < more[0] else "")
            elif word == "fork":
                places[more[0]] = places[name]
            elif word == "rewind":
                places[name] = 0
            else:
                del places[name]
        return 0, text.encode(), b""

    def answered(self):
        """The output, and how many witnesses there are."""
        header, records, found = self.listed()
        return output_record(header) + "".join(output_record(it) for it in records), found

    def listed(self):
        """The header, the records, and how many witnesses there are."""
        found = self.witnesses()
        asked = found if self.best is None else self.first_of_rows(found)
        records = []
        for _, rows, sums in asked[: self.limit]:
            record = self.fields(rows)
            record += [str(it) for it in sums] if self.ranks else []
            record += [str(it) for it in rows] if self.rows else []
            records.append(record)
        return self.header(), records, len(found)

    def value(self, rows, column):
        """The field of a column in these rows, which count from 1."""
        item, place = column
        return self.tables[self.items[item][0]][1][rows[item] - 1][place]

    def fields(self, rows):
        return [self.value(rows, it) for it in self.shown()]

    def witnesses(self):
        """All in their order: the sums as they are compared, the row numbers, and the sums."""

        def side(rows, it):
            return self.value(rows, it) if isinstance(it, tuple) else it

        equalities = self.equalities()
        found = []
        for rows in itertools.product(*[range(1, len(self.tables[table][1]) + 1) for table, _ in self.items]):
            if all(side(rows, left) == side(rows, right) for left, right in equalities):
                sums = [sum(sign * weight(self.value(rows, column)) for sign, column in terms) for terms, _ in self.keys]
                compared = [-it if descending else it for it, (_, descending) in zip(sums, self.keys)]
                found.append((compared, rows, sums))
        found.sort()
        return found

    def first_of_rows(self, found):
        """Those before which none has the same row of the item."""
        seen, first = set(), []
        for it in found:
            row = it[1][self.best]
            if row not in seen:
                seen.add(row)
                first.append(it)
        return first

    def shown(self):
        """The columns of the output, without those of the options."""
        return self.list or [(item, place) for item in range(len(self.items)) for place in range(len(self.names(item)))]

    def header(self):
        return self.titles() + ([f"row{it + 1}" for it in range(len(self.items))] if self.rows else [])

    def titles(self):
        """The header without the titles of row numbers."""
        names = [self.names(item)[place] for item, place in self.shown()]
        return names + ([f"rank{it + 1}" for it in range(len(self.keys))] if self.ranks else [])


# ---- unions

class Branch(Case):
    """One more query over the tables of another."""

    def __init__(self, first):
        self.rng, self.few, self.tables = first.rng, first.few, first.tables
        self.draw_query()

    def take_shape(self, first):
        """Takes as many columns and keys as another query has, and the directions of its keys. Gives whether that can be done."""
        if len(self.shown()) != len(first.shown()):
            self.list = [self.column() for _ in first.shown()]
        keys = [self.key() for _ in first.keys]
        if not all(keys):
            return False
        self.keys = [(terms, descending) for (terms, _), (_, descending) in zip(keys, first.keys)]
        return True


class Union:
    """Queries over the same tables, whose answers come in one order. One query alone is as if it were no union."""

    # whether an item is named for the best answer of each of its rows
    has_best = False

    def __init__(self, branches, limit):
        self.branches, self.limit = branches, limit

    def shape(self, branch):
        return len(branch.shown()), [descending for _, descending in branch.keys]

    def refusal(self):
        """The status and the line if the union is refused for its shape or its structure, and else nothing."""
        several = len(self.branches) > 1
        for number, branch in enumerate(self.branches, 1):
            if self.shape(branch) != self.shape(self.branches[0]):
                return 15, f"branch {number}: shape differs"
        if several and self.has_best:
            return 15, "several branches with --best-of"
        for number, branch in enumerate(self.branches, 1):
            core = branch.core()
            if len(core) > 1:
                return 6, (f"branch {number}: " if several else "") + cyclic(*[it + 1 for it in core])
        return None

    def expected(self):
        """Status, output and error output, and how many answers there are in all."""
        refused = self.refusal()
        if refused:
            return (refused[0], b"", f"anyk: {refused[1]}\n".encode()), 0
        records, found = self.listed()
        return (0, "".join(map(output_record, [self.header(), *records])).encode(), b""), found

    def longest(self):
        return max(len(it.items) for it in self.branches)

    def header(self):
        first = self.branches[0]
        if len(self.branches) == 1:
            return first.header()
        return first.titles() + (["branch", *[f"row{it + 1}" for it in range(self.longest())]] if first.rows else [])

    def listed(self):
        """The records, and how many answers there are in all."""
        first, longest = self.branches[0], self.longest()
        if len(self.branches) == 1:
            first.limit = self.limit
            return first.listed()[1:]
        found = sorted((compared, at, rows, sums) for at, it in enumerate(self.branches) for compared, rows, sums in it.witnesses())
        records = []
        for _, at, rows, sums in found[: self.limit]:
            record = self.branches[at].fields(rows)
            record += [str(it) for it in sums] if first.ranks else []
            record += [str(at + 1), *map(str, rows), *[""] * (longest - len(rows))] if first.rows else []
            records.append(record)
        return records, len(found)


class DrawnUnion(Union):
    """A query, and in most cases one or two more over its tables, as their text and their words. Most are of one shape."""

    def __init__(self, first):
        self.case, self.rng = first, first.rng
        branches = [first]
        for _ in range(self.rng.choice([0, 1, 1, 1, 2, 2])):
            branches.append(self.branch(first))
        super().__init__(branches, self.rng.choice(LIMITS))
        if len(branches) > 1 and self.rng.random() < 0.9:
            first.best = None
        self.has_best = first.best is not None

    def branch(self, first):
        """Another query of the same shape, in most cases; or now and then the first one again."""
        if self.rng.random() < 0.05:
            return first
        for _ in range(20):
            made = Branch(first)
            if self.rng.random() < 0.08 or made.take_shape(first):
                return made
        return first

    def files(self):
        """The files, and the offset of the first word `union`, if there is one."""
        tokens, first_union = [], None
        for at, branch in enumerate(self.branches):
            if at == 1:
                first_union = len(tokens)
            tokens += ([self.case.word("union"), self.case.word("all")] if at else []) + branch.query_tokens()
        text, offsets = self.case.spaced(tokens + self.case.end_tokens(self.limit))
        return {"q.sql": text, **self.case.table_files()}, None if first_union is None else offsets[first_union]

    def words(self):
        return self.case.words()

    def other_words(self):
        """Those of the commands that take no union."""
        session = self.case.session_words()
        return [self.case.plan_words(), session, with_other_engine(session)]


# ---- fixed inputs: files, words, status, and the output or the line on the error output

R = "a,b,w\n1,x,3\n2,y,1\n3,x,1\n"
S = "b,c,w\nx,p,5\ny,q,2\nx,q,4\n"
JOIN = "select R.a, S.c from R, S where R.b = S.b order by R.w + S.w"
GREATEST = 2**127 - 1

E = "a,b,w\n1,1,1\n1,2,2\n2,1,3\n"
TRIANGLE = "A.b = B.a and B.b = C.a and C.b = A.a"
FIVE = "i1.a = i2.a and i2.a = i4.a and i2.b = i3.a and i3.b = i1.b and i1.b = i5.a and i4.b = i5.b"

# (14 items of MANY and two rows of one item more are as many node rows as there may be)
MANY = "a\n" + "x\n" * 299593
NODES = "select N.a from N, " + ", ".join(f"M m{it}" for it in range(14)) + ", L where L.a = 'x'"
NODE_WORDS = ["run", "q.sql", "N=N.csv", "M=M.csv", "L=L.csv"]


def over(query, status, line, words=None, **files):
    """A refusal of a query over R and S, or other files."""
    made = {"q.sql": query, "R.csv": R, "S.csv": S, **{f"{name}.csv": text for name, text in files.items()}}
    return {it: text for it, text in made.items() if text is not None}, words or ["run", "q.sql", "R=R.csv", "S=S.csv"], status, line


def edges(query, status, line, *options, **files):
    """A query over E, or other files too: its refusal, or its output if the status is 0."""
    made = {"q.sql": query, "E.csv": E, **{f"{name}.csv": text for name, text in files.items()}}
    return made, ["run", *options, "q.sql", "E=E.csv", *[f"{it}={it}.csv" for it in files if it != "E"]], status, line


def cyclic(*items):
    return " ".join(["cyclic query: items", *map(str, items)])


SESSION_WORDS = ["session", "--script", "s.txt", "q.sql", "R=R.csv", "S=S.csv"]

# ---- unions over R and S

OF_R, OF_S = "select R.a from R order by R.w", "select S.c from S order by S.w"
PLAIN = "select R.a from R"


def union(*queries):
    return " union all ".join(queries)


def united(query, status, line, *options, **files):
    return over(query, status, line, ["run", *options, "q.sql", "R=R.csv", "S=S.csv", *[f"{it}={it}.csv" for it in files if it not in ("R", "S")]], **files)


def crossed(table, count):
    """A query over a table as often."""
    return f"select {table.lower()}1.w from " + ", ".join(f"{table} {table.lower()}{it + 1}" for it in range(count))


OF_TRIANGLE = f"select A.a from E A, E B, E C where {TRIANGLE}"

# each is answered with this output
ANSWERS = [
    ({"q.sql": JOIN, "R.csv": R, "S.csv": S, "s.txt": "open a\nnext a 2\nfork a b\nnext b 1\nnext a 2\nrewind b\nnext b 3\nnext a 2\n"}, SESSION_WORDS, 0,
     "cursor,a,c\na,2,q\na,3,q\nb,3,p\na,3,p\na,1,q\nb,2,q\nb,3,q\nb,3,p\na,1,p\na\n"),
    over(JOIN, 0, "node 1 parent 0 rows 3 item R\nnode 2 parent 1 rows 3 item S\ntotal 12\n", ["plan", "q.sql", "R=R.csv", "S=S.csv"]),
    # (a constant on one of the three classes of a triangle leaves a path)
    edges(f"select A.b from E A, E B, E C where {TRIANGLE} and A.a = '1'", 0, "b,row1,row2,row3\n1,1,1,1\n1,1,2,3\n2,2,3,1\n", "--rows"),
    edges(f"select B.b from E A, E B, E C where {TRIANGLE} and '1' = C.a order by B.w desc", 0, "b\n1\n1\n1\n"),
    # (an item that has all three variables, last and first)
    edges(f"select A.a from E A, E B, E C, D where {TRIANGLE} and D.x = A.a and D.y = A.b and D.z = B.b", 0,
          "a,row1,row2,row3,row4\n1,1,2,3,1\n", "--rows", D="x,y,z\n1,1,2\n2,2,2\n"),
    edges(f"select A.a from D, E A, E B, E C where {TRIANGLE} and D.x = A.a and D.y = A.b and D.z = B.b", 0,
          "a,row1,row2,row3,row4\n1,1,1,2,3\n", "--rows", D="x,y,z\n1,1,2\n2,2,2\n"),
    # (one class for all three: a star)
    edges("select A.b, B.b, C.b from E A, E B, E C where A.a = B.a and B.a = C.a and C.a = A.a and A.b = '2' limit 2", 0,
          "b,b,b\n2,1,1\n2,1,2\n"),
    # (no row of the first item, so there is no combination)
    over(NODES, 0, "a\n", NODE_WORDS, N="a\n", M=MANY, L="a\nx\ny\nx\ny\n"),
    # (the best answer of each row, and not of each value)
    over(JOIN, 0, "a,c\n2,q\n3,q\n1,q\n", ["run", "--best-of", "R", "q.sql", "R=R.csv", "S=S.csv"]),
    over(JOIN, 0, "a,c\n2,q\n3,q\n3,p\n", ["run", "--best-of", "S", "q.sql", "R=R.csv", "S=S.csv"]),
    over(JOIN, 0, "a,c,row1,row2\n3,p,3,1\n3,p,3,2\n", ["run", "--rows", "--best-of", "S", "q.sql", "R=R.csv", "S=S.csv"], S="b,c,w\nx,p,5\nx,p,5\n"),
    over('select "".a from R as "" order by "".w', 0, "a\n2\n3\n1\n", ["run", "--best-of=", "q.sql", "R=R.csv"]),
    # (an empty weight counts 0)
    over(JOIN, 0, "a,c\n3,p\n1,p\n", S="b,c,w\nx,p,\n"),
    # (at equal sums the query that comes first, and only then the row numbers)
    united(f"{union(OF_R, OF_S)} limit 4", 0, "a,rank1,branch,row1\n2,1,1,2\n3,1,1,3\nq,2,2,2\n1,3,1,1\n", "--ranks", "--rows"),
    united(union(OF_R, OF_R), 0, "a,rank1,branch,row1\n2,1,1,2\n3,1,1,3\n2,1,2,2\n3,1,2,3\n1,3,1,1\n1,3,2,1\n", "--ranks", "--rows"),
    # (a query of fewer items has empty fields in the place of the row numbers that it lacks)
    united(union(JOIN, "select R.a, R.b from R order by R.w"), 0,
           "a,c,rank1,branch,row1,row2\n2,y,1,2,2,\n3,x,1,2,3,\n2,q,3,1,2,2\n1,x,3,2,1,\n3,q,5,1,3,3\n3,p,6,1,3,1\n1,q,7,1,1,3\n1,p,8,1,1,1\n",
           "--ranks", "--rows"),
    # (the sums are shown as they are, also those of a key that descends)
    united(union(f"{OF_R} desc", f"{OF_S} desc"), 0, "a,rank1\np,5\nq,4\n1,3\nq,2\n2,1\n3,1\n", "--ranks"),
    # (no keys: query by query)
    united(union("select S.c from S", PLAIN), 0, "c,branch,row1\np,1,1\nq,1,2\nq,1,3\n1,2,1\n2,2,2\n3,2,3\n", "--rows"),
    united(union("select S.c from S where S.c = 'z'", PLAIN), 0, "c\n1\n2\n3\n"),
    united(f"{union(JOIN, JOIN)} limit 0", 0, "a,c,rank1,branch,row1,row2\n", "--ranks", "--rows"),
    # (one query has no column for its number)
    united(f"{OF_R} limit 2", 0, "a,row1\n2,2\n3,3\n", "--rows"),
    united(f"{union(*[PLAIN] * 8)} limit 4;", 0, "a,branch,row1\n1,1,1\n2,1,2\n3,1,3\n1,2,1\n", "--rows"),
    united(f"{union(crossed('R', 8), crossed('S', 8))} limit 1", 0, "w\n3\n"),
]


def scripted(script, status, line, query=JOIN):
    """A session with this script over R and S, and its refusal or its output."""
    files = {"q.sql": query, "R.csv": R, "S.csv": S, "s.txt": script}
    return {it: text for it, text in files.items() if text is not None}, SESSION_WORDS, status, line


REFUSALS = [
    over(JOIN, 2, "usage", ["run"]),
    over(JOIN, 2, "usage", ["go", "q.sql", "R=R.csv"]),
    over(JOIN, 2, "usage", ["run", "q.sql"]),
    over(JOIN, 2, "usage", ["run", "q.sql", "R.csv"]),
    over(JOIN, 2, "usage", ["run", "q.sql", "=R.csv"]),
    over(JOIN, 2, "usage", ["run", "q.sql", "R="]),
    over(JOIN, 2, "usage", ["run", "q.sql", "R=R.csv", "R=R.csv"]),
    over(JOIN, 2, "usage", ["run", "--engine", "best", "q.sql", "R=R.csv"]),
    over(JOIN, 2, "usage", ["run", "--help", "q.sql"]),
    over(JOIN, 2, "usage", ["run", "--ranks", "--ranks", "q.sql", "R=R.csv"]),
    over(JOIN, 2, "usage", ["plan", "--ranks", "q.sql", "R=R.csv", "S=S.csv"]),
    over(JOIN, 2, "usage", ["plan", "--best-of", "R", "q.sql", "R=R.csv", "S=S.csv"]),
    over(JOIN, 2, "usage", ["run", "--best-of", "R", "--best-of", "S", "q.sql", "R=R.csv", "S=S.csv"]),
    # (the alias takes the word, and the query's file is the next one)
    over(JOIN, 9, "file R=R.csv: not found", ["run", "--best-of", "q.sql", "R=R.csv", "S=S.csv"]),
    over(JOIN, 2, "usage", ["load", "--number", "1", "--rows", "0"]),
    over("select R.a from R where R.a < 1", 3, "syntax error at byte 28"),
    over("select R.a R.b from R", 3, "syntax error at byte 11"),
    over("select R.a from", 3, "syntax error at byte 15"),
    over("select R.a from R where R.a = 'x", 3, "syntax error at byte 30"),
    over("select a.* from R a", 3, "syntax error at byte 9"),
    over("", 3, "syntax error at byte 0"),
    over("select w from R, S", 4, "byte 7: ambiguous column"),
    over("select R.a from R, R", 4, "item 2: alias used twice"),
    over("select X.a from R", 4, "byte 7: unknown alias"),
    over("select R.a from R r", 4, "byte 7: unknown alias"),
    over("select R.zz from R", 4, "byte 7: unknown column"),
    over("select zz from R, S", 4, "byte 7: unknown column"),
    over(JOIN, 4, "byte 24: unknown table", ["run", "q.sql", "R=R.csv"]),
    over(JOIN, 5, "table S: no header", S=""),
    over(JOIN, 5, "table S: column 3: name used twice", S="b,c,b\n"),
    over(JOIN, 5, "table R: row 2: wrong number of fields", R="a,b,w\n1,x,3\n2,y\n"),
    over(JOIN, 5, "item 1: row 2: column 3: not a weight", R="a,b,w\n1,x,3\n2,y,12x\n"),
    over(JOIN, 5, "item 2: row 1: column 3: not a weight", S="b,c,w\nx,p,+\n"),
    over(JOIN, 5, "item 1: row 1: column 3: not a weight", R=f"a,b,w\n1,x,{GREATEST + 1}\n"),
    edges(f"select A.a from E A, E B, E C where {TRIANGLE}", 6, cyclic(1, 2, 3)),
    edges(f"select A.a from E A, E B, E C where {TRIANGLE}", 6, cyclic(1, 2, 3), "--best-of", "C"),
    # (an alias that no item has, after the weights and before the structure)
    edges(f"select A.a from E A, E B, E C where {TRIANGLE}", 4, "unknown alias in --best-of", "--best-of", "X"),
    over(JOIN, 4, "unknown alias in --best-of", ["run", "--best-of", "X", "q.sql", "R=R.csv", "S=S.csv"]),
    over("select r.a from R r", 4, "unknown alias in --best-of", ["run", "--best-of", "R", "q.sql", "R=R.csv"]),
    over(JOIN, 5, "item 1: row 2: column 3: not a weight", ["run", "--best-of", "X", "q.sql", "R=R.csv", "S=S.csv"], R="a,b,w\n1,x,3\n2,y,12x\n"),
    edges("select A.a from E A join E B on A.b = B.a join E C on C.b = A.a and B.b = C.a order by A.w + B.w limit 0", 6,
          cyclic(1, 2, 3), "--ranks"),
    edges(f"select A.a from E A, E B, E C where {TRIANGLE}", 6, cyclic(1, 2, 3), "--engine", "rec", E="a,b\n"),
    # (a constant on the class of another column changes nothing)
    edges(f"select A.a from E A, E B, E C where {TRIANGLE} and A.w = '1'", 6, cyclic(1, 2, 3)),
    over("select x.a from R x, R y, R z where x.a = y.b and y.a = z.b and z.a = x.b", 6, cyclic(1, 2, 3), ["plan", "q.sql", "R=R.csv"]),
    # (tails of a triangle are no part of the core: after it, and before and in it)
    edges(f"select A.a from E A, E B, E C, E D, E F where {TRIANGLE} and D.a = B.b and D.b = F.a", 6, cyclic(1, 2, 3)),
    edges(f"select A.a from E D, E A, E B, E F, E C where {TRIANGLE} and D.a = B.b and D.b = F.a", 6, cyclic(2, 3, 5)),
    edges(f"select i1.a from E i1, E i2, E i3, E i4, E i5 where {FIVE}", 6, cyclic(1, 2, 3, 4, 5)),
    edges("select A.a from E A, E B, E C, E D where A.b = B.a and B.b = C.a and C.b = D.a and D.b = A.a", 6, cyclic(1, 2, 3, 4)),
    # (of two alike items the one with the greater number is removed)
    edges(f"select A.a from E A, E B, E X, E C where {TRIANGLE} and X.a = B.a and X.b = B.b", 6, cyclic(1, 2, 4)),
    # (two triangles apart: 4 3 2 and 7 6 5, and an item beside them)
    edges(f"select A.a from R, E A, E B, E C, E X, E Y, E Z where {TRIANGLE} and X.b = Y.a and Y.b = Z.a and Z.b = X.a", 6,
          cyclic(2, 3, 4, 5, 6, 7), R=R),
    # (names, weights and ranges come first)
    edges(f"select A.zz from E A, E B, E C where {TRIANGLE}", 4, "byte 7: unknown column"),
    edges(f"select A.a from E A, E B, E C where {TRIANGLE} order by B.w", 5, "item 2: row 1: column 3: not a weight",
          E="a,b,w\n1,1,x\n"),
    edges(f"select A.a from E A, E B, E C where {TRIANGLE} order by A.w, B.w + C.w", 7, "order key 2: rank may pass 128 bits",
          E=f"a,b,w\n1,1,{GREATEST}\n"),
    over(JOIN, 7, "order key 1: rank may pass 128 bits", R=f"a,b,w\n1,x,{GREATEST}\n", S="b,c,w\nx,p,1\n"),
    over("select R.a from R order by R.w, R.w + R.w", 7, "order key 2: rank may pass 128 bits", R=f"a,b,w\n1,x,-{GREATEST}\n"),
    over("select R.a from R" + " " * 65536, 8, "query longer than 65536 bytes"),
    over("select a1.a from " + ", ".join(f"R a{it}" for it in range(1, 18)), 8, "more than 16 items"),
    over("select R.a from R order by " + ", ".join(["R.w"] * 9), 8, "more than 8 order keys"),
    over("select R.a from R limit 18446744073709551616", 8, "limit at byte 24 out of range"),
    over(JOIN, 8, "table R: more than 64 columns", R=",".join(f"c{it}" for it in range(65)) + "\n"),
    over(JOIN, 8, "table R: more than 1048576 rows", R="a\n" + "x\n" * 1048577),
    over(JOIN, 8, "file R.csv longer than 67108864 bytes", R="x" * 67108865),
    over(NODES, 8, "more than 4194304 node rows", NODE_WORDS, N="a\n", M=MANY, L="a\nx\ny\nx\nx\n"),
    over(None, 9, "file q.sql: not found", ["run", "q.sql", "R=R.csv"]),
    over(JOIN, 9, "file S.csv: not found", S=None),
    over(JOIN, 2, "usage", ["session", "q.sql", "R=R.csv", "S=S.csv"]),
    scripted("open a\nnext a\n", 3, "script line 2: bad line"),
    scripted("\n# x\nnext a 1\n", 3, "script line 3: unknown cursor"),
    scripted("open a\nopen a\n", 3, "script line 2: cursor exists"),
    scripted("".join(f"open c{it}\n" for it in range(65)), 8, "script line 65: more than 64 cursors"),
    scripted("\n" * 10001, 8, "script: more than 10000 lines"),
    scripted(None, 9, "file s.txt: not found"),
    # (the query before the script, and the script before the tables)
    scripted("open", 3, "syntax error at byte 0", ""),
    scripted("open", 3, "script line 1: bad line", "select X.a from X"),
    # (unions: the words, and where they may be)
    united(f"{PLAIN} union", 3, "syntax error at byte 23"),
    united(f"{PLAIN} union all", 3, "syntax error at byte 27"),
    united(f"{PLAIN} union select S.c from S", 3, "syntax error at byte 24"),
    united(f"{PLAIN} limit 1 union all {OF_S}", 3, "syntax error at byte 26"),
    united(f"{PLAIN}; union all {OF_S}", 3, "syntax error at byte 19"),
    scripted("open a\n", 3, "syntax error at byte 18", union(PLAIN, "select S.c from S")),
    over(union(PLAIN, "select S.c from S"), 3, "syntax error at byte 18", ["plan", "q.sql", "R=R.csv", "S=S.csv"]),
    # (a text with a byte names no branch)
    united(union(PLAIN, "select X.c from S"), 4, "byte 35: unknown alias"),
    united(union(PLAIN, "select S.zz from S"), 4, "byte 35: unknown column"),
    united(union(PLAIN, "select T.c from T"), 4, "byte 44: unknown table"),
    united(union(PLAIN, "select w from R, S"), 4, "byte 35: ambiguous column"),
    united(f"{union(PLAIN, PLAIN)} limit 18446744073709551616", 8, "limit at byte 52 out of range"),
    # (limits of the whole, and of each query)
    united(union(*[PLAIN] * 9), 8, "more than 8 branches"),
    united(union(*[crossed("R", 2)] * 9), 8, "more than 8 branches"),
    united(union(crossed("R", 9), crossed("S", 8)), 8, "more than 16 items"),
    united(union(PLAIN, f"{PLAIN} order by " + ", ".join(["R.w"] * 9)), 8, "more than 8 order keys"),
    # (those that name the branch)
    united(union(PLAIN, "select S.c from S, S"), 4, "branch 2: item 2: alias used twice"),
    united(union(OF_R, "select S.c from S order by S.c"), 5, "branch 2: item 1: row 1: column 2: not a weight"),
    united(union(OF_R, OF_S), 7, "branch 2: order key 1: rank may pass 128 bits", S=f"b,c,w\nx,p,-{GREATEST + 1}\n"),
    united(union(PLAIN, OF_TRIANGLE), 6, f"branch 2: {cyclic(1, 2, 3)}", E=E),
    # (names, weights and ranges branch by branch; and all tables before them)
    united(union("select R.a from R order by R.b", "select S.zz from S order by S.w"), 5, "branch 1: item 1: row 1: column 2: not a weight"),
    united(union("select R.zz from R", "select T.c from T"), 5, "table T: no header", T=""),
    # (then the shape, and then the structure)
    united(union("select R.a, R.b from R", "select S.c from S"), 15, "branch 2: shape differs"),
    united(union("select * from R, S", "select * from R"), 15, "branch 2: shape differs"),
    united(union(OF_R, f"{OF_S} desc"), 15, "branch 2: shape differs"),
    united(union(OF_R, "select S.c from S"), 15, "branch 2: shape differs"),
    united(union(OF_R, OF_S, f"{OF_S}, S.w"), 15, "branch 3: shape differs"),
    united(union(OF_TRIANGLE, "select R.a, R.b from R"), 15, "branch 2: shape differs", E=E),
    united(union("select R.a, R.b from R", "select S.c from S order by S.c"), 5, "branch 2: item 1: row 1: column 2: not a weight"),
    # (--best-of comes after the shape and before the structure)
    united(union(OF_R, OF_S), 15, "several branches with --best-of", "--best-of", "R"),
    united(union(PLAIN, OF_TRIANGLE), 15, "several branches with --best-of", "--best-of=R", E=E),
    united(union(OF_R, f"{OF_S} desc"), 15, "branch 2: shape differs", "--best-of", "R"),
    united(OF_R, 4, "unknown alias in --best-of", "--best-of", "S"),
]


# ---- running

def run(program, files, words):
    """Status, output and error output of the program in a folder with these files."""
    with tempfile.TemporaryDirectory(prefix="anyk-differential-") as room:
        for name, text in files.items():
            with open(f"{room}/{name}", "wb") as it:
                it.write(text if isinstance(text, bytes) else text.encode())
        ran = subprocess.run([program, *words], cwd=room, stdin=subprocess.DEVNULL, capture_output=True, timeout=60)
        return ran.returncode, ran.stdout, ran.stderr


def with_other_engine(words):
    """The words with the engine that they do not choose."""
    other = "part" if "rec" in words or "--engine=rec" in words else "rec"
    bare = [it for at, it in enumerate(words) if not it.startswith("--engine") and words[at - 1] != "--engine"]
    return [bare[0], "--engine", other, *bare[1:]]


def told(what, files, words, wanted, got):
    """Says what went wrong, with all that one needs to run it again."""
    print(f"differential: {what}: FAILED\n  words: {words}")
    for name, text in files.items():
        print(f"  {name}: {text[:2000]!r}")
    for name, one, other in zip(("status", "output", "errors"), wanted, got):
        if one != other:
            print(f"  {name} wanted: {one!r}\n  {name} got:    {other!r}")


def failures(program, what, files, words, wanted, shown):
    """How many of these calls come out otherwise; the first few of all are told."""
    failed = 0
    for each in words:
        got = run(program, files, each)
        if got != wanted:
            failed += 1
            if shown + failed <= 5:
                told(what, files, each, wanted, got)
    return failed


def main():
    program, count = arguments(__doc__, "./anyk", 300)
    program = program_at(program)
    failed = answers = cycles = of_unions = uneven = 0
    for seed in range(1, count + 1):
        case = Case(seed)
        files, words = case.files(), case.words()
        wanted, found = case.expected()
        answers += found
        cycles += wanted[0] == 6
        failed += failures(program, f"seed {seed}", files, (words, with_other_engine(words)), wanted, failed)
        failed += failures(program, f"plan of seed {seed}", files, (case.plan_words(),), case.planned(), failed)
        script, steps = case.script()
        files["s.txt"], wanted, words = script, case.told_by(steps), case.session_words()
        failed += failures(program, f"session of seed {seed}", files, (words, with_other_engine(words)), wanted, failed)
        drawn = DrawnUnion(Case(f"union {seed}"))
        (files, place), words = drawn.files(), drawn.words()
        wanted, found = drawn.expected()
        of_unions += found
        uneven += wanted[0] == 15
        failed += failures(program, f"union of seed {seed}", files, (words, with_other_engine(words)), wanted, failed)
        if place is not None:
            files["s.txt"], wanted = "open a\n", (3, b"", f"anyk: syntax error at byte {place}\n".encode())
            failed += failures(program, f"other commands on the union of seed {seed}", files, drawn.other_words(), wanted, failed)
    fixed = [(files, words, (0, text.encode(), b"")) for files, words, _, text in ANSWERS]
    fixed += [(files, words, (status, b"", f"anyk: {line}\n".encode())) for files, words, status, line in REFUSALS]
    answered = refused = 0
    for files, words, wanted in fixed:
        got = run(program, files, words)
        answered += got == wanted and wanted[0] == 0
        refused += got == wanted and wanted[0] != 0
        if got != wanted:
            failed += 1
            if failed <= 5:
                told(f"fixed input of status {wanted[0]}", files, words, wanted, got)
    # (words that are no text end the program before all else; it says nothing, and the launcher says which)
    got = run(program, {}, [b"run", b"\xff"])
    if got not in ((16, b"", b""), (16, b"", b"anyk: argument 2 is not UTF-8\n")):
        failed += 1
        told("a word that is no text", {}, ["run", "0xff"], (16, b"", b""), got)
    verdict = f"FAILED: {failed}" if failed else "passed"
    of_fixed = f"{answered} of {len(ANSWERS)} fixed answers, {refused} of {len(REFUSALS)} refusals"
    unions = f"as many unions, {uneven} of them of status 15, with {of_unions} answers"
    print(f"differential: {count} queries, {cycles} of them cyclic, with {answers} witnesses, {unions}, {of_fixed}: {verdict}")
    return 1 if failed else 0


if __name__ == "__main__":
    sys.exit(main())
