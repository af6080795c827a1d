#!/usr/bin/env python3
"""Checks a certificate of `anyk prove` by its definition alone, and prints the answers it shows.

usage: check_proof.py [--ranks] [--rows] [--seal FILE] --proof FILE QUERYFILE TABLE=FILE .."""
import argparse, csv, io, pathlib, re, sys
from hashlib import sha256

TEXT = "utf-8", "surrogateescape"
LINE = re.compile("(?:bound(?=(?: [0-9]+){2})|answer)(?: (?:0|[1-9][0-9]{0,6}))+|more|end")
# The grammar of queries. A space stands for blanks, if any, and each token is followed by one.
KEYWORD = r"(?:select|from|where|and|order|by|limit|asc|desc|as|join|inner|on|union|all)\b"
NAME = rf'(?:"[^"]*"|\b(?!{KEYWORD})[a-z_]\w*\b) '
COLUMN = rf"{NAME}(?:\. {NAME})?"
CONSTANT = "(?:'[^']*(?:''[^']*)*' |(?:- )?[0-9]+ )"
EQUAL = rf"(?:{COLUMN}= (?:{COLUMN}|{CONSTANT})|{CONSTANT}= {COLUMN})"
EQUALS = rf"{EQUAL}(?:and\b {EQUAL})*"
ITEM = rf"{NAME}(?:(?:as\b )?{NAME})?"
TERMS = rf"(?:[+-] )?{COLUMN}(?:[+-] {COLUMN})*"
KEY = rf"{TERMS}(?:asc\b |desc\b )?"
QUERY = (rf"\A select\b (\* |{COLUMN}(?:, {COLUMN})*)from\b "
         rf"({ITEM}(?:, {ITEM}|(?:inner\b )?join\b {ITEM}on\b {EQUALS})*)(?:where\b ({EQUALS}))?"
         rf"(?:order\b by\b ({KEY}(?:, {KEY})*))?(?:limit\b ([0-9]+) )?(?:; )?\Z")

def need(fact, line):
    return fact or sys.exit(f"check-proof: {line}")

class Files(dict):
    """The bytes of files. Each is read once, so that what is sealed is what is checked."""
    def __missing__(self, name):
        with open(name, "rb") as file:
            self[name] = file.read(67108865)
        need(len(self[name]) <= 67108864, f"file {name!r} longer than 67108864 bytes")
        return self[name]

def table_of(name, text):
    """The names of a table's columns, and its rows."""
    lines = io.StringIO(text[text.startswith("\ufeff"):], newline="")
    header, *rows = [it for it in csv.reader(lines) if it] or [[]]
    is_table = 0 < len(header) == len(set(header)) <= 64 and len(rows) <= 1048576
    need(is_table and all(len(it) == len(header) for it in rows), f"table {name!r} is refused")
    return header, rows

def record(row):
    made = ['"' + it.replace('"', '""') + '"' if re.search('[,"\r\n]', it) else it for it in row]
    return (",".join(made) if row != [""] else '""') + "\n"

def parts(pattern, text):
    """The parts of a query, side by side, that are of this form."""
    return re.findall(pattern.replace(" ", "[ \t\r\n]*"), text, re.ASCII | re.IGNORECASE)

def side_of(text):
    """A column as its alias, or None, and its name; a constant as -1 and its text."""
    if text[0] in "'-0123456789":
        return -1, text.rstrip()[1:-1].replace("''", "'") if text[0] == "'" else "".join(text.split())
    return (None, *(it.strip('"') for it in re.findall(r'"[^"]*"|\w+', text, re.ASCII)))[-2:]

class Query:
    """A query over its tables. Items, columns and nodes count from 0, and rows from 1."""
    def __init__(self, text):
        found = len(text.encode(*TEXT)) <= 65536 and parts(QUERY, text)
        need(found, "query: syntax error, or longer than 65536 bytes")
        columns, items, where, keys, limit = found[0]
        self.list = [side_of(it) for it in parts(COLUMN, columns)]
        items = parts(rf"(?:, |(?:inner\b )?join\b )?({ITEM})(?:on\b ({EQUALS}))?", items)
        self.items = [[side_of(name)[1] for name in parts(NAME, it)] for it, _ in items]
        texts, sides = [*(it for _, it in items), where], rf"({COLUMN}|{CONSTANT})"
        self.equal = [map(side_of, it) for one in texts for it in parts(f"{sides}= {sides}", one)]
        keys = parts(rf"(?:, )?({TERMS})(?:asc\b |(desc\b )|)", keys)
        self.keys = [([({"-": -1}.get(sign, 1), side_of(it)) for sign, it in
                       parts(rf"([+-]?) ({COLUMN})", terms)], down) for terms, down in keys]
        self.limit = int(limit.lstrip("0")[:21] or "0") if limit else float("inf")
        need(len(self.items) <= 16 and len(self.keys) <= 8, "query: more than 16 items or 8 keys")
        need(not limit or self.limit < 2**64, "query: limit out of range")

    def bind(self, tables):
        """Looks columns up, joins those that are equal to classes, and looks at the weights."""
        need(len({it[-1] for it in self.items}) == len(self.items), "query: alias used twice")
        self.tables, self.classes, most = [tables[it[0]] for it in self.items], [], {}
        every = [(item[-1], it) for item, table in zip(self.items, self.tables) for it in table[0]]
        self.list = [self.place(it) for it in self.list or every]
        for sides in self.equal:
            sides = {it if it[0] == -1 else self.place(it) for it in sides}
            met = [it for it in self.classes if any(item >= 0 for item, _ in it & sides)]
            self.classes = [it for it in self.classes if it not in met] + [sides.union(*met)]
        self.keys = [([(n, self.place(it)) for n, it in one], down) for one, down in self.keys]
        for item, place in {it for terms, _ in self.keys for _, it in terms}:
            found = [fields[place] for fields in self.tables[item][1]]
            need(all(re.fullmatch("[+-]?[0-9]{1,39}|", it) for it in found), "query: not a weight")
            most[item, place] = max((abs(int(it or "0")) for it in found), default=0)
        need(all(sum(most[it] for _, it in one) < 2**127 for one, _ in self.keys), "query: rank")

    def place(self, column):
        found = [(item, header.index(column[1])) for item, (header, _) in enumerate(self.tables)
                 if column[1] in header and column[0] in (None, self.items[item][-1])]
        need(len(found) == 1, f"query: {column[1]!r} is not one column")
        return found[0]

    def join(self):
        """Removes ears, and finds the rows of each node that pass, with their keys and groups."""
        joined = [it for it in map(dict, self.classes) if -1 not in it and len(it) > 1]
        live, nodes = set(range(len(self.items))), []
        while len(live) > 1:
            uses = {e: [it for it in joined if e in it and it.keys() & live != {e}] for e in live}
            covers = {e: [f for f in live - {e} if all(f in it for it in uses[e])] for e in live}
            ears = sorted(it for it in live if covers[it])
            need(ears, "cyclic query: items " + " ".join(str(it + 1) for it in sorted(live)))
            nodes.insert(0, (ears[-1], min(covers[ears[-1]])))
            live.remove(ears[-1])
        items = [*live, *(item for item, _ in nodes)]
        self.parents = [None, *(items.index(above) for _, above in nodes)]
        self.own, self.link, self.keys_of, paths = [], [], {}, []
        for v, (item, above) in enumerate([(items[0], None), *nodes]):
            shared = [(it[item], it[above]) for it in joined if item in it and above in it]
            tests = [it for it in self.classes if any(one == item for one, _ in it)]
            rows = [(row, fields) for row, fields in enumerate(self.tables[item][1], 1) if all(
                len({at if one < 0 else fields[at] for one, at in it if one in (item, -1)}) == 1
                for it in tests)]
            others = enumerate(self.tables[above][1] if v else [], 1)
            self.keys_of.update({(v, row): self.key(item, row) for row, _ in rows})
            self.own.append({row: (v, *(it[place] for place, _ in shared)) for row, it in rows})
            self.link.append({row: (v, *(it[place] for _, place in shared)) for row, it in others})
            paths.append([v] + (paths[self.parents[v]] if v else []))
        self.paths = {q: paths[q] for q in sorted(range(len(items)), key=items.__getitem__)}

    def sums(self, item, row):
        """What a row adds to the sums of the order keys."""
        fields = self.tables[item][1][row - 1]
        return [sum(sign * int(fields[place] or "0") for sign, (of, place) in terms if of == item)
                for terms, _ in self.keys]

    def key(self, item, row):
        """The sums as they are compared, and the number of the row at the place of its item. Sums
        stay in 128 bits, so that such lists are added and compared as numbers in base 2**128."""
        digits = [-it if down else it for it, (_, down) in zip(self.sums(item, row), self.keys)]
        digits += [row if it == item else 0 for it in range(len(self.items))]
        return sum(it << 128 * at for at, it in enumerate(reversed(digits)))

    def solution(self, v, rows):
        """The rows of a subtree by their nodes, if they are a solution there, and else nothing."""
        nodes = [q for q, path in self.paths.items() if v in path]
        at = dict(zip(nodes, rows)) if len(nodes) == len(rows) else {}
        named = {q: self.link[q].get(at[self.parents[q]]) for q in at if q != v}
        own = {q: self.own[q].get(row) for q, row in at.items()}
        return at if None not in own.values() and own == {**own, **named} else {}

def certificate_of(text):
    """The numbers of the bounds and of the answers, and whether the last line is `end`."""
    lines, bounds, answers = re.split("\r?\n", text), [], []
    need(lines[0] == "anyk-proof 1", "proof: bad header")
    for at, it in enumerate(lines[1:] + [""], 2):
        word, *numbers = it.split(" ")
        need(LINE.fullmatch(it) and (word != "bound" or not answers), f"proof line {at}: bad line")
        if not numbers:
            need(lines[at:] in ([], [""]), f"proof line {at + 1}: bad line")
            return bounds, answers, word == "end"
        (bounds if word == "bound" else answers).append([int(it) for it in numbers])

def check(tree, bounds, answers, ended):
    """Looks for the first flaw of a certificate over the join tree of a query."""
    need(sum(map(len, tree.own)) <= 4194304, "more than 4194304 node rows")
    found = [tree.solution(node - 1, rows) for node, *rows in bounds]
    for line, it in enumerate(found, 2):
        need(it, f"proof line {line}: no solution")
    best, offers = {}, [{} for _ in tree.own]
    for line, ((node, *_), rows) in enumerate(zip(bounds, found), 2):
        group = tree.own[node - 1][rows[node - 1]]
        need(group not in best, f"proof line {line}: bound twice")
        best[group] = sum(map(tree.keys_of.get, rows.items()))
    for v, own in enumerate(tree.own):
        for row, at in own.items():
            below = [best.get(tree.link[q][row]) for q, it in enumerate(tree.parents) if it == v]
            if None not in below:
                offers[v][row] = it = tree.keys_of[v, row] + sum(below)
                need(best.get(at, it + 1) <= it, f"proof node {v + 1}: bound missing or too high")
    found = [tree.solution(0, rows) for rows in answers]
    for line, it in enumerate(found, len(bounds) + 2):
        need(it, f"proof line {line}: no answer")
    keys, count = [sum(map(tree.keys_of.get, it.items())) for it in found], len(found)
    for line, (one, other) in enumerate(zip(keys, keys[1:]), len(bounds) + 3):
        need(one < other, f"proof line {line}: not in order")
    need(count == tree.limit or ended and count < tree.limit, "proof: wrong number of answers")
    for v, offer in enumerate(offers):
        for it in open_choices(tree, best, offer, v, found):
            need(not ended and (not keys or it > keys[-1]), "proof: unlisted answer")

def open_choices(tree, best, offer, v, answers):
    """For each list of rows that begins an answer, the key of the least open choice at a node."""
    ranked, taken = {}, {} if v else {(): set()}
    for row in sorted(offer, key=offer.get):
        ranked.setdefault(tree.own[v][row], []).append(row)
    for it in answers:
        taken.setdefault(tuple(it[q] for q in range(v)), set()).add(it[v])
    later = [q for q in range(v + 1, len(tree.own)) if tree.parents[q] < v]
    for rows, others in taken.items():
        group = tree.link[v][rows[tree.parents[v]]] if v else (0,)
        bounds = [best.get(tree.link[q][rows[tree.parents[q]]]) for q in later]
        row = next((it for it in ranked.get(group, []) if it not in others), None)
        if row is not None and None not in bounds:
            yield sum(map(tree.keys_of.get, enumerate(rows))) + offer[row] + sum(bounds)

def check_seal(given, names, files):
    """A seal has a line for each file, and for no other."""
    named = {**names, "query": given.query, "proof": given.proof}
    made = ["anyk-seal 1"] + [f"{sha256(files[named[it]]).hexdigest()} {it}" for it in named]
    lines = re.split("\r?\n", files[given.seal].decode(*TEXT).rstrip("\r\n"))
    for it in lines:
        need(it in made, f"seal: not the same: {it[65:] or 'header'}")
    need(set(made) == set(lines), "seal: not all that is given is in it")

def main(words):
    parser = argparse.ArgumentParser(prog="check-proof", allow_abbrev=False)
    page = pathlib.Path(__file__).absolute().with_name("help") / "check-proof.txt"
    text = page.read_text() if page.is_file() else __doc__ + "\n"
    parser.print_help = lambda: print(text, end="", flush=True)
    for it in ("--ranks", "--rows"):
        parser.add_argument(it, action="store_true")
    parser.add_argument("--proof", metavar="FILE", required=True)
    parser.add_argument("--seal", metavar="FILE")
    parser.add_argument("query", metavar="QUERYFILE")
    parser.add_argument("tables", metavar="TABLE=FILE", nargs="+")
    given, files = parser.parse_intermixed_args(words), Files()
    csv.field_size_limit(67108864)
    names = dict(f"table {it}".partition("=")[::2] for it in given.tables)
    if len(names) < len(given.tables) or "table " in names or "" in names.values():
        parser.error("each table needs one argument TABLE=FILE")
    if given.seal:
        check_seal(given, names, files)
    query = Query(files[given.query].decode(*TEXT))
    bounds, answers, ended = certificate_of(files[given.proof].decode(*TEXT))
    tables = sorted({it[0] for it in query.items})
    need(all(f"table {it}" in names for it in tables), "query: unknown table")
    query.bind({it: table_of(it, files[names[f"table {it}"]].decode(*TEXT)) for it in tables})
    query.join()
    check(query, bounds, answers, ended)
    titles = [query.tables[item][0][place] for item, place in query.list]
    titles += [f"rank{it + 1}" for it in range(len(query.keys))] * given.ranks
    records = [titles + [f"row{it + 1}" for it in range(len(query.items))] * given.rows]
    for rows in answers:
        fields = [query.tables[item][1][rows[item] - 1][place] for item, place in query.list]
        sums = map(sum, zip(*(query.sums(*it) for it in enumerate(rows))))
        records.append(fields + [*map(str, sums)] * given.ranks + [*map(str, rows)] * given.rows)
    sys.stdout.buffer.write("".join(map(record, records)).encode(*TEXT))
    sys.stdout.flush()

if __name__ == "__main__":
    try:
        main(sys.argv[1:])
    except (OSError, csv.Error) as error:
        sys.stdout = None  # what is left would be tried again at the end
        need(False, error)
