"""What may be meant by the token at which a query cannot go on, as far as the tokens around it
show.

Nothing to run: tools/hints.py imports it. Each rule below looks at one usual mistake. It returns
what is to be said and the place of the token that it is about, or None. The first rule that
returns something is taken.
"""
import difflib
import os
import re

from query_text import BARE, KEYWORDS, written
from screen import shown
from table_files import ORDER_MARK, kind_of_bytes

# Words of other dialects. Those of the first list are taken for a name where they stand, so that
# it shows at the token after them.
HIDDEN = tuple(
    "distinct not having offset fetch using top exists except intersect minus case group".split()
)
ABSENT = tuple("like ilike in between nulls".split())
# What other dialects have and this one has not, by the token where it shows.
MISSING = {
    **dict.fromkeys("<>!", "no inequality"),
    **dict.fromkeys(("left", "right", "full", "outer"), "no outer join"),
    **{it: f"no {it.upper()}" for it in HIDDEN + ABSENT},
    "cross": "no CROSS JOIN: a comma takes its place",
    "natural": "no NATURAL JOIN: JOIN has an ON with the columns that are equal",
    "is": "no IS: an empty field is equal to ''",
    "or": "no OR: ask once for each side",
    "group": "no GROUP BY",
    "*": "no multiplication: name the column as often as it counts",
    "as": "no other name for a column",
    "/": "no division and no comment",
    "#": "no comment",
    "%": "no remainder",
    "|": "no OR and no joining of strings",
    **dict.fromkeys(
        "?:$@", "no parameter: the value is written into the query, a string in single quotes"
    ),
}
# Those of them that are taken for the alias of the item before them.
JOINS = ("left", "right", "full", "outer", "cross", "natural")
# Those of them that choose rows.
CHOOSING = ("<", ">", "!", "like", "ilike", "in", "between", "not")
# The keywords that begin a part of a query.
PARTS = (b"select", b"from", b"where", b"on", b"order", b"limit")
# The parts that come one after another at the end.
LATER = (b"join", b"inner", b"where", b"order", b"limit")
# After these a column, a table or a condition has to come.
OPEN = {
    "select": "the list of columns is missing; * selects all",
    "from": "a table is missing after FROM",
    "join": "a table is missing after JOIN",
    "where": "a condition is missing after WHERE",
    "and": "a condition is missing after AND",
    "on": "a condition is missing after ON",
    "order": "BY is missing after ORDER",
    "by": "a column is missing after BY",
    "limit": "a number is missing after LIMIT",
    "as": "a name is missing after AS",
    "=": "a column or a constant is missing after =",
    ".": "a name is missing after the dot",
    "+": "a column is missing after +",
    "-": "a column is missing after -",
    "inner": "JOIN is missing after INNER",
}
# What other statements begin with.
STATEMENTS = tuple(
    "insert update delete create copy drop alter load set use values pragma begin".split()
)
QUOTE_SIGNS = re.compile(b"\xe2\x80[\x98-\x9f]|\xc2[\xab\xbb\xb4]|\xef\xbc[\x82\x87]")
# What shows that a string holds a part of a query, since its closing quote is missing.
SWALLOWED = re.compile(rb"(?i)\s(?:and|or|from|where|order\s+by|limit|join)\s|[\r\n]")


class Spot:
    """The token at which a query cannot go on, and those around it. At the end of the query it is
    empty."""

    def __init__(self, query, at):
        self.query, self.words = query, query.words
        place = query.place_of(at)
        self.place = len(self.words) if place is None else place
        self.at, self.token = at, self.word(0)
        self.text = self.token.decode(errors="replace").lower()
        self.before, self.after = self.word(-1), self.word(1)
        self.hidden = self.before.decode(errors="replace").lower()

    def word(self, more):
        place = self.place + more
        return self.words[place] if 0 <= place < len(self.words) else b""

    def here(self, sentence):
        """What a rule returns that speaks of the token."""
        return sentence, self.place

    def back(self, sentence):
        """What a rule returns that speaks of the token before it."""
        return sentence, self.place - 1

    def part(self):
        """The keyword of the part of the query that the token is in."""
        return next((it for it in reversed(self.words[: self.place]) if it in PARTS), b"")


def is_name(word):
    return bool(BARE.fullmatch(word)) and word not in KEYWORDS


def is_number(word):
    return word.isdigit()


def is_string(word):
    return word[:1] == b"'" and len(word) > 1


def is_constant(word):
    return is_string(word) or is_number(word)


def nearest(name, known, least=0.6):
    """The known name that is most like the name, or None if none is at least so much like it."""
    same = [it for it in known if it.strip().lower() == name.strip().lower()]
    like = same or difflib.get_close_matches(name, known, 1, least)
    return like[0] if like else None


def of_begin(spot):
    """A text that does not begin as a query does."""
    text = spot.query.text
    if spot.at > 0 and not (text.startswith(ORDER_MARK) and spot.at <= 3):
        return None
    if not text.strip():
        return spot.here("the file is empty")
    if text.startswith(ORDER_MARK):
        return spot.here("a byte order mark stands before the query: save the file without it")
    kind = kind_of_bytes(text[:4096])
    if kind:
        return spot.here(kind)
    if spot.token in (b"(", b"#", b"/") or text.startswith(b"--", spot.at):
        return None
    if spot.text == "with":
        return spot.here(
            "there is no WITH: call the inner query first, and use its output as a table"
        )
    if spot.text == "explain":
        return spot.here("anyk plan shows how the tables are joined: leave EXPLAIN out")
    if spot.text in STATEMENTS:
        return spot.here(f"there is no {spot.text.upper()}: a query is a SELECT")
    if is_name(spot.token) and nearest(spot.text, ["select"]):
        return spot.here("perhaps SELECT is meant")
    return spot.here(
        f"a query begins with SELECT; is {shown(spot.query.file)} the file of the query?"
    )


def of_open_quote(spot):
    """A quote that is never closed, or one that is missing after a string."""
    if spot.token == b"'":
        return spot.here("the string that begins here is never closed")
    if spot.token == b'"':
        return spot.here("the quoted name that begins here is never closed")
    quotes = (b"'", b'"')
    if spot.before[:1] not in quotes or len(spot.before) < 2:
        return None
    if not is_name(spot.token) and spot.token[:1] not in quotes:
        return None
    is_adjacent = spot.query.tokens[spot.place - 1][0] + len(spot.before) == spot.at
    if is_adjacent and spot.before[:1] == spot.token[:1] == b'"':
        return spot.here(
            "a name cannot have a double quote in it: a column whose header has one is to be "
            "renamed there"
        )
    if SWALLOWED.search(spot.before):
        return spot.back(f"the closing {spot.before[:1].decode()} of this seems to be missing")
    if is_adjacent and is_string(spot.before):
        return spot.back("a ' inside a string is written twice")
    return None


def of_other_quotes(spot):
    """Quotes of other dialects, and those that a text program puts."""
    text, at = spot.query.text, spot.at
    if QUOTE_SIGNS.match(text, at):
        return spot.here("a typographic quote: strings have ' and names have \"")
    if text[at : at + 2] == b"\xc2\xa0":
        return spot.here("a no-break space: write a plain one")
    found = re.compile(rb"`([^`\"]*)`|\[([^\]\"]*)\]").match(text, at)
    if found:
        name = (found[1] or found[2] or b"").decode(errors="replace")
        return f"a name has double quotes, if it needs any: {shown(written(name))}", spot.place
    return None


def file_for_table(file):
    """What is said of a file's name in the place of a table's."""
    name = os.path.basename(file).partition(".")[0] or "t"
    return (
        "a table's name has its place here, and the call names the file: FROM "
        f"{shown(written(name))}, and {shown(f'{name}={file}')}"
    )


def of_file(spot):
    """A file's name in the place of a table's: a string, or a name with a dot or a slash."""
    is_item = spot.before in (b"from", b"join") or spot.before == b"," and spot.part() == b"from"
    if is_string(spot.token) and is_item:
        return spot.here(file_for_table(spot.token[1:-1].decode(errors="replace")))
    if spot.part() != b"from" or spot.token not in (b".", b"/"):
        return None
    start = spot.query.tokens[spot.place - 1][0]
    if spot.query.name_at(spot.place - 1) is None or start + len(spot.before) != spot.at:
        return None
    file = re.match(rb"[^\s,;]*", spot.query.text[start:])[0]
    return spot.back(file_for_table(file.decode(errors="replace")))


def of_constant(spot):
    """A string or a number where a column has its place."""
    part = spot.part()
    if not is_constant(spot.token) or spot.after == b"*":
        return None
    if spot.before == b"=" and part in (b"where", b"on") and is_constant(spot.word(-2)):
        return spot.here("one side of a condition is a column")
    if part == b"select" and spot.before in (b"select", b","):
        return spot.here("only columns can be selected, and no constants")
    if part == b"order" and spot.before in (b"by", b","):
        return spot.here("ORDER BY takes columns: neither their numbers nor strings")
    if part == b"order" and spot.before in (b"+", b"-"):
        return spot.here("an order key is a sum of columns; a constant would not change the order")
    return None


def of_limit(spot):
    """What a LIMIT cannot have."""
    if spot.before == b"limit" and spot.token:
        if spot.token in (b"-", b"all") or is_name(spot.token):
            return spot.here("LIMIT takes a number of digits; leave it out for all answers")
        return spot.here("LIMIT takes a number of digits")
    if spot.word(-2) != b"limit" or not is_number(spot.before):
        return None
    if spot.token == b"," and is_number(spot.after):
        both = int(spot.before[:40]) + int(spot.after[:40])
        return spot.here(
            f"LIMIT takes one number, and there is no offset: LIMIT {both} gives the answers "
            "before them too"
        )
    if spot.token == b"union":
        return spot.here("LIMIT is that of all branches: it comes once, at the end")
    if spot.token == b".":
        return spot.here("LIMIT takes a whole number")
    if spot.token in LATER or spot.text in MISSING:
        return None
    return spot.here("nothing comes after the number of LIMIT")


def of_star(spot):
    """A * that is neither the whole list nor a product."""
    part = spot.part()
    if spot.token == b"*" and spot.before == b".":
        return spot.here("there is no * for one item: name its columns")
    if part == b"select" and (
        spot.token == b"*" and spot.before == b"," or spot.token == b"," and spot.before == b"*"
    ):
        return spot.here("* stands alone: it selects all columns")
    if is_number(spot.token) and spot.after == b"*":
        return spot.here(f"there is {MISSING['*']}")
    return None


def of_sign(spot):
    """A sign at a place where this language has none."""
    text, part = spot.query.text, spot.part()
    if spot.token == b"." and is_number(spot.before):
        return spot.here("a number with a point is written as a string, in single quotes")
    if b"--" in text[max(spot.at - 1, 0) : spot.at + 2]:
        return spot.here("there is no comment")
    if spot.before == b";":
        return spot.here(
            "a file has one query, or several with UNION ALL between them: nothing may come "
            "after ;"
        )
    if spot.token == b"=" and spot.before == b"=":
        return spot.here("equality is written with one =")
    if spot.token == b"=" and spot.word(-2) == b"=":
        return spot.here("conditions have AND between them")
    if spot.token in (b"-", b":") and is_number(spot.before) and part in (b"where", b"on"):
        return spot.back("a date or a time is written as a string, in single quotes")
    if spot.token == b"&":
        return spot.here("AND is written as a word")
    if spot.token in (b"+", b"-") and part in (b"where", b"on"):
        return spot.here("a condition compares columns and constants, and no sums")
    if spot.token in (b"+", b"-") and part == b"select":
        return spot.here("the list has columns only: --ranks prints the sums of ORDER BY")
    if spot.token == b"(":
        return of_parenthesis(spot)
    return None


def of_parenthesis(spot):
    """A function, a subquery, or another parenthesis."""
    if spot.hidden in HIDDEN + ("in",):
        return None
    if spot.after == b"select" and spot.place:
        return spot.here("there is no subquery: call it first, and use its output as a table")
    if is_name(spot.before) and spot.part() in (b"select", b"where", b"on", b"order"):
        return spot.back(f"there is no function, such as {shown(spot.before.decode())}")
    if spot.part() in (b"where", b"on"):
        return spot.here("conditions have no parentheses: there is only AND between them")
    return spot.here("there is no parenthesis, no function and no subquery")


def is_used_as_name(spot):
    """Whether a keyword stands where a name is needed, and what follows it follows names."""
    if spot.token not in KEYWORDS:
        return False
    after = spot.after
    if spot.before == b".":
        return True
    if (
        spot.before == b"as"
        or spot.before in (b"from", b"join")
        and spot.token not in (b"where", b"on")
    ):
        return after != b"by" and not is_number(after)
    if spot.before not in (b"select", b",", b"where", b"and", b"on", b"by", b"=", b"+", b"-"):
        return False
    return after in (
        b"",
        b",",
        b"=",
        b"+",
        b"-",
        b".",
        b"asc",
        b"desc",
        b"from",
        b"where",
        b"and",
        b"order",
        b"limit",
    )


def of_keyword(spot):
    """A keyword in the place of a name."""
    if is_used_as_name(spot):
        start = spot.query.tokens[spot.place][0]
        name = spot.query.text[start : start + len(spot.token)].decode()
        item = f"{shown(spot.word(-2).decode(errors='replace'))}." if spot.before == b"." else ""
        return spot.here(f'{name} is a keyword: as a name it is written {item}"{name}"')
    if spot.before == b"order" and spot.token != b"by":
        return spot.back('BY is missing after ORDER; as a name it is written "order"')
    return None


def of_open_part(spot):
    """A comma, an AND or another word after which something is missing."""
    if spot.token not in KEYWORDS and spot.token not in (b"", b";", b","):
        return None
    if spot.before == b",":
        return spot.back("nothing follows this comma: leave it out")
    if spot.token == b"," and spot.before in KEYWORDS:
        return spot.here("nothing comes before this comma")
    if spot.hidden in OPEN:
        return spot.back(OPEN[spot.hidden])
    return None


def of_order(spot):
    """A part of the query that comes too late, or a word that only other dialects have there."""
    part = spot.part()
    if spot.token in LATER and part in LATER and LATER.index(part) > LATER.index(spot.token):
        return spot.here(f"{spot.text.upper()} comes before {part.decode().upper()}")
    if spot.token == b"all" and spot.before == b"select":
        return spot.here("ALL is left out")
    if part == b"order" and spot.text in ("descending", "ascending"):
        return spot.here(f"it is written {spot.text[:-6].upper()}")
    return None


def of_join(spot):
    """A JOIN without its ON."""
    joins = [it for it in range(max(spot.place - 4, 0), spot.place) if spot.words[it] == b"join"]
    if not joins or spot.token == b"on" or spot.text == "using" or spot.hidden == "using":
        return None
    between = spot.words[joins[-1] + 1 : spot.place]
    if not between or not all(
        it == b"as" or spot.query.name_at(joins[-1] + 1 + place) is not None
        for place, it in enumerate(between)
    ):
        return None
    kind = spot.words[joins[-1] - 1].decode(errors="replace").lower()
    if kind in JOINS:
        return f"there is {MISSING[kind]}", joins[-1] - 1
    return "JOIN has an ON with a condition; without one a comma takes its place", joins[-1]


def of_part(spot):
    """A condition without =, or a query without FROM."""
    if spot.token not in (b"", b";", b"and", b"where", b"order", b"limit", b"union"):
        return None
    if spot.part() == b"select" and (
        spot.before == b"*" or spot.query.name_at(spot.place - 1) is not None
    ):
        return spot.here("FROM is missing")
    if spot.part() in (b"where", b"on"):
        last = max(it for it in range(spot.place) if spot.words[it] in (b"where", b"on", b"and"))
        if b"=" not in spot.words[last : spot.place]:
            return spot.here("a condition has the form a = b")
    return None


def of_missing(spot):
    """What other dialects have."""
    if spot.before == b"union":
        return spot.here("there is no UNION without ALL")
    if spot.hidden in HIDDEN:
        return spot.back(f"there is {MISSING[spot.hidden]}")
    if spot.text not in MISSING or not spot.token:
        return None
    what = f"there is {MISSING[spot.text]}"
    if spot.text in CHOOSING:
        is_pair = spot.query.name_at(spot.place + 1 + (spot.after in (b"=", b">"))) is not None
        what += (
            "; a table of the allowed pairs can take its place"
            if is_pair
            else ": leave the other rows out of the table before the query"
        )
    return spot.here(what)


def of_spelling(spot):
    """A misspelt keyword: the token, or the name before it, which was taken for an alias."""
    words = [*(it.decode() for it in sorted(KEYWORDS)), "order by"]
    is_after_name = spot.query.name_at(spot.place - 1) is not None if spot.place else False
    if is_name(spot.token) and (is_after_name or is_constant(spot.before)):
        guess = nearest(spot.text, words, 0.66) if len(spot.text) > 1 else None
        if guess:
            return spot.here(f"perhaps {guess} is meant")
    if is_name(spot.before) and spot.place > 1:
        guess = nearest(spot.hidden, words, 0.66) if len(spot.hidden) > 2 else None
        if guess and guess != spot.hidden:
            return spot.back(f"perhaps {guess} is meant")
    if not is_after_name or spot.query.name_at(spot.place) is None:
        return None
    if spot.part() == b"select":
        return spot.here(
            "a comma is missing, or the double quotes of a name with a blank: a column has "
            "no other name"
        )
    if spot.part() in (b"where", b"on"):
        return spot.here("AND is missing, or the double quotes of a name with a blank")
    return spot.here("a name with a blank is written in double quotes")


RULES = (
    of_begin,
    of_other_quotes,
    of_open_quote,
    of_limit,
    of_file,
    of_constant,
    of_star,
    of_sign,
    of_order,
    of_keyword,
    of_open_part,
    of_join,
    of_missing,
    of_part,
    of_spelling,
)


def meant(query, at):
    """What may be meant, as a sentence, or None; and the offset of the token that it is about."""
    spot = Spot(query, at)
    if spot.place == len(query.words) and at < len(query.text):
        # The query is another one by now.
        return None, at
    for rule in RULES:
        found = rule(spot)
        if found:
            sentence, place = found
            return sentence, query.tokens[place][0] if place < len(query.tokens) else at
    return None, at
