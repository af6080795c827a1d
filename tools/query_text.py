"""Reads the arguments of a call of the program, and the text of its query.

Nothing to run: tools/hints.py, tools/notes.py and tools/picture.py import it.
"""
import re

from screen import columns, first_of, last_of, plain, room, shown
from table_files import bytes_of

KEYWORDS = {
    b"select",
    b"from",
    b"where",
    b"and",
    b"order",
    b"by",
    b"limit",
    b"asc",
    b"desc",
    b"as",
    b"join",
    b"inner",
    b"on",
    b"union",
    b"all",
}
BARE = re.compile(rb"[A-Za-z_][A-Za-z0-9_]*")
# The parts of a query: names, strings, numbers, signs.
TOKEN = re.compile(rb"""\s+|[A-Za-z_][A-Za-z0-9_]*|"[^"]*"|'(?:[^']|'')*'|[0-9]+|.""", re.S)
# The most bytes of a query.
LONGEST = 65_536
# The options that take a value.
WITH_VALUE = ("--engine", "--script", "--proof", "--best-of", "--number")


def written(name):
    """A name as a query writes it. One with a double quote cannot be, and stays as it is."""
    data = name.encode(errors="surrogateescape")
    is_bare = BARE.fullmatch(data) and data.lower() not in KEYWORDS
    return name if is_bare or '"' in name else f'"{name}"'


class Call:
    """The arguments of a call, with its options read as the program reads them."""

    def __init__(self, words):
        self.command, self.options, self.plain = words[0] if words else "", [], []
        rest = list(words[1:])
        while rest:
            word = rest.pop(0)
            if word == "--":
                self.plain += rest
                break
            name, equals, value = word.partition("=")
            if not word.startswith("--"):
                self.plain.append(word)
            elif equals:
                self.options.append((name, value))
            elif name in WITH_VALUE or (name == "--rows" and self.command == "load"):
                self.options.append((name, rest.pop(0) if rest else None))
            else:
                self.options.append((name, None))
        self.query = self.plain[0] if self.plain else None
        self.tables = [tuple(it.partition("=")[::2]) for it in self.plain[1:] if "=" in it]
        self.script = dict(self.options).get("--script")
        self.proof = dict(self.options).get("--proof")

    def file_of(self, table):
        return next((file for name, file in self.tables if name == table), None)


class Query:
    """The text of a query, and its items and order keys as far as they can be read. A branch is
    its number, from 1: items and keys are those of that select then."""

    def __init__(self, file, branch=None):
        self.file, self.text = file, (bytes_of(file, LONGEST) if file else None) or b""
        self.tokens = [
            (it.start(), it[0]) for it in TOKEN.finditer(self.text) if not it[0].isspace()
        ]
        self.words = [it.lower() if it.lower() in KEYWORDS else it for _, it in self.tokens]
        self.branch = branch
        # With several selects the numbers of items are those of one of them.
        self.is_one = b"union" not in self.words or branch is not None

    def name_at(self, place):
        """The name that a token stands for, or None."""
        if place is None or not 0 <= place < len(self.words) or self.words[place] in KEYWORDS:
            return None
        token = self.words[place]
        if token[:1] == b'"' and len(token) > 1:
            token = token[1:-1]
        elif not BARE.fullmatch(token):
            return None
        return token.decode(errors="surrogateescape")

    def place_of(self, at):
        return next((place for place, (start, _) in enumerate(self.tokens) if start == at), None)

    def span(self, at=None):
        """The places of the tokens of a select: of the one with this offset, else that of the
        branch, else the first."""
        cuts = [
            0,
            *(place for place, word in enumerate(self.words) if word == b"union"),
            len(self.words),
        ]
        if at is not None:
            number = max(
                it for it, place in enumerate(cuts[:-1]) if it == 0 or self.tokens[place][0] <= at
            )
        else:
            number = min(self.branch or 1, len(cuts) - 1) - 1
        return cuts[number], cuts[number + 1]

    def items(self, at=None):
        """The items of a select: the offset of each, its table and its alias."""
        first, last = self.span(at)
        found, place = [], first + (self.words[first:last] + [b"from"]).index(b"from") + 1
        while place < last and self.name_at(place) is not None:
            start, table = self.tokens[place][0], self.name_at(place)
            place += 1
            place += self.words[place : place + 1] == [b"as"]
            alias = self.name_at(place)
            place += alias is not None
            found.append((start, table, table if alias is None else alias))
            while place < last and self.words[place] not in (
                b",",
                b"join",
                b"where",
                b"order",
                b"limit",
                b";",
            ):
                place += 1
            if self.words[place : place + 1] not in ([b","], [b"join"]):
                break
            place += 1
        return found

    def keys(self):
        """The texts of the order keys."""
        first, last = self.span()
        if b"order" not in self.words[first:last]:
            return []
        place = self.words.index(b"order", first) + 2
        end = next((it for it in range(place, last) if self.words[it] in (b"limit", b";")), last)
        stop = self.tokens[end][0] if end < len(self.tokens) else len(self.text)
        cuts = [self.tokens[it][0] for it in range(place, end) if self.words[it] == b","]
        starts = [self.tokens[place][0], *[it + 1 for it in cuts]]
        return [
            self.text[a:b].decode(errors="surrogateescape").strip()
            for a, b in zip(starts, [*cuts, stop])
        ]

    def caret(self, at):
        """The line of the query with the byte at the offset, and a caret below it."""
        if not self.text or at > len(self.text):
            return []
        is_end = at == len(self.text.rstrip()) or at == len(self.text)
        at = min(at, len(self.text.rstrip())) if is_end else at
        start = self.text.rfind(b"\n", 0, at) + 1
        end = (self.text.find(b"\n", at) + 1 or len(self.text) + 1) - 1
        before, after = plain(self.text[start:at]), plain(self.text[at:end].rstrip(b"\r"))
        width = room()
        if columns(before) > width - 20:
            before = "... " + last_of(before, width - 24)
        left = width - columns(before)
        after = after if columns(after) <= left else first_of(after, left - 4) + " ..."
        number = self.text.count(b"\n", 0, at) + 1
        what = " (the end of the query)" if is_end else ""
        return [
            f"line {number} of {shown(self.file)}{what}:",
            f"    {before}{after}",
            f"    {' ' * columns(before)}^",
        ]


class Unread(Exception):
    """The text does not follow the grammar."""


class Select:
    """One select of a query: what it selects (None for all), its items, conditions, order keys and
    limit.

    A column is a pair of an alias, or None, and a name. A constant is its text. An item is its
    table, its alias and the place of its first token. An order key is a list of pairs of a sign
    and a column, and whether it is descending.
    """

    def __init__(self):
        self.columns, self.items, self.conditions, self.keys, self.limit = None, [], [], [], None


class Reader:
    """Reads a query that follows the grammar, token by token."""

    def __init__(self, query):
        self.query, self.place = query, 0

    def word(self):
        return self.query.words[self.place] if self.place < len(self.query.words) else b""

    def takes(self, *words):
        """Whether the next token is one of these, which is passed then."""
        found = self.word() in words
        self.place += found
        return found

    def needs(self, word):
        if not self.takes(word):
            raise Unread

    def name(self):
        name = self.query.name_at(self.place)
        if name is None:
            raise Unread
        self.place += 1
        return name

    def column(self):
        first = self.name()
        return (first, self.name()) if self.takes(b".") else (None, first)

    def side(self):
        """A column, or the text of a constant."""
        minus = b"-" if self.takes(b"-") else b""
        word = self.word()
        if word[:1] == b"'" and len(word) > 1 and not minus or word.isdigit():
            self.place += 1
            return (minus + word).decode(errors="surrogateescape")
        if minus:
            raise Unread
        return self.column()

    def conditions(self):
        found = []
        while not found or self.takes(b"and"):
            left = self.side()
            self.needs(b"=")
            found.append((left, self.side()))
        return found

    def item(self, select):
        place, table = self.place, self.name()
        is_named = self.takes(b"as") or self.query.name_at(self.place) is not None
        select.items.append((table, self.name() if is_named else table, place))

    def items(self, select):
        self.item(select)
        while True:
            if self.takes(b","):
                self.item(select)
            elif self.takes(b"inner", b"join"):
                if self.query.words[self.place - 1] == b"inner":
                    self.needs(b"join")
                self.item(select)
                self.needs(b"on")
                select.conditions += self.conditions()
            else:
                return

    def key(self):
        terms, sign = [], "-" if self.word() == b"-" else "+"
        self.takes(b"+", b"-")
        while True:
            terms.append((sign, self.column()))
            sign = self.word().decode(errors="replace")
            if not self.takes(b"+", b"-"):
                break
        return terms, not self.takes(b"asc") and self.takes(b"desc")

    def select(self):
        select = Select()
        self.needs(b"select")
        if not self.takes(b"*"):
            select.columns = [self.column()]
            while self.takes(b","):
                select.columns.append(self.column())
        self.needs(b"from")
        self.items(select)
        if self.takes(b"where"):
            select.conditions += self.conditions()
        if self.takes(b"order"):
            self.needs(b"by")
            select.keys = [self.key()]
            while self.takes(b","):
                select.keys.append(self.key())
        return select


def selects_of(query):
    """The selects of a query that follows the grammar, one for each branch."""
    reader = Reader(query)
    selects = [reader.select()]
    while reader.takes(b"union"):
        reader.needs(b"all")
        selects.append(reader.select())
    if reader.takes(b"limit"):
        selects[-1].limit = reader.word().decode(errors="replace")
        reader.place += 1
    reader.takes(b";")
    if reader.word():
        raise Unread
    return selects
