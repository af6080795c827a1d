#!/usr/bin/env python3
"""Compares `prove` and `verify` with a reading of their definition of its own, on generated queries and on spoilt certificates.

usage: tests/certificates.py [PROGRAM] [COUNT]

PROGRAM is ./anyk if it is not given, and COUNT is 150. Tables and queries are those of tests/differential.py. The certificate of a query is
formed here by going through all solutions of each subtree; `prove` has to write the same bytes, with each engine. `verify` has to
print what `run` prints. Then the certificate is spoilt, in most cases by a line that is left out, doubled, moved or changed, and in some by
a change of its form. Whether what comes out is still valid, or which fault is the first, is decided here from the definition: every row is
compared with the bounds, and every open choice is formed. Last, the queries of examples/ are proved and verified.
"""
import glob
import os
import random
import sys

from arguments import arguments, program_at
from differential import JOIN, R, S, Case, classes_of, cyclic, output_record, removal_of, run, told, weight, with_other_engine

TOP = os.path.dirname(os.path.dirname(os.path.abspath(__file__)))
SPOILT = 12


# ---- the tree problem of a query

class Problem:
    """The nodes of a query's join tree from 0, with their items and parents, and the rows of each, by their numbers from 1."""

    def __init__(self, case):
        self.case = case
        classes = classes_of(case.equalities())
        variables = [columns for columns, constants in classes if not constants and len({item for item, _ in columns}) > 1]
        core, removed = removal_of([{item for item, _ in it} for it in variables], len(case.items))
        order = [(core[0], None), *reversed(removed)]
        at = {item: node for node, (item, _) in enumerate(order)}
        self.items = [item for item, _ in order]
        self.parents = [at.get(parent) for _, parent in order]
        self.variables, self.classes = variables, classes
        self.subtrees = [[q for q in range(len(order)) if self.is_below(v, q)] for v in range(len(order))]
        self.rows = [[row for row in range(1, len(self.table(v)) + 1) if self.passes(v, row)] for v in range(len(order))]
        self.fitting = {}

    def is_below(self, v, q):
        while q is not None and q != v:
            q = self.parents[q]
        return q == v

    def table(self, v):
        return self.case.tables[self.case.items[self.items[v]][0]][1]

    def passes(self, v, row):
        fields = self.table(v)[row - 1]
        for columns, constants in self.classes:
            places = [place for item, place in columns if item == self.items[v]]
            if places and len({fields[it] for it in places} | constants) != 1:
                return False
        return True

    def shared(self, v, row, other):
        """The texts of a row of node v in the variables that another node's item has too."""
        fields = self.table(v)[row - 1]
        found = []
        for columns in self.variables:
            own = sorted(place for item, place in columns if item == self.items[v])
            if own and any(item == self.items[other] for item, _ in columns):
                found.append(fields[own[0]])
        return tuple(found)

    def group(self, v, row):
        """What tells the group of a row of node v: two rows are in one group if it is the same."""
        return () if v == 0 else self.shared(v, row, self.parents[v])

    def named(self, q, above):
        """What tells the group of node q that a row of its parent names."""
        return self.shared(self.parents[q], above, q)

    def fits(self, q, above, row):
        return row in self.rows[q] and self.group(q, row) == self.named(q, above)

    def key(self, v, row):
        """The sums of a row as they are compared, and its number in the slot of its item."""
        item, fields = self.items[v], self.table(v)[row - 1]
        sums = []
        for terms, descending in self.case.keys:
            part = sum(sign * weight(fields[place]) for sign, (of, place) in terms if of == item)
            sums.append(-part if descending else part)
        return tuple(sums) + tuple(row if it == item else 0 for it in range(16))

    def none(self):
        return (0,) * (len(self.case.keys) + 16)

    def order_of(self, v):
        """The nodes of a subtree in the order of their items."""
        return sorted(self.subtrees[v], key=lambda q: self.items[q])

    def row_in(self, v, rows, q):
        return rows[self.order_of(v).index(q)]

    def is_solution(self, v, rows):
        if len(rows) != len(self.subtrees[v]) or self.row_in(v, rows, v) not in self.rows[v]:
            return False
        return all(self.fits(q, self.row_in(v, rows, self.parents[q]), self.row_in(v, rows, q)) for q in self.subtrees[v] if q != v)

    def key_of(self, v, rows):
        return added([self.key(q, self.row_in(v, rows, q)) for q in self.subtrees[v]], self.none())

    def solutions(self, v, row):
        """Those of a subtree with this row of its node, each as its rows by node."""
        found = [{v: row}]
        for q in self.subtrees[v]:
            if q != v and self.parents[q] == v:
                below = [it for other in self.rows[q] if self.fits(q, row, other) for it in self.solutions(q, other)]
                found = [{**one, **it} for one in found for it in below]
        return found


def added(keys, none):
    total = none
    for it in keys:
        total = tuple(a + b for a, b in zip(total, it))
    return total


# ---- certificates

class Certificate:
    """Bounds as pairs of a node from 1 and rows, answers as rows, and whether it says `end`."""

    def __init__(self, bounds, answers, ended):
        self.bounds, self.answers, self.ended = bounds, answers, ended

    def lines(self):
        numbers = [["bound", node, *rows] for node, rows in self.bounds] + [["answer", *rows] for rows in self.answers]
        return ["anyk-proof 1", *(" ".join(map(str, it)) for it in numbers), "end" if self.ended else "more"]

    def text(self):
        return "".join(f"{it}\n" for it in self.lines())


def written(problem):
    """The certificate that is to be written for a query."""
    case, bounds = problem.case, []
    for v in range(len(problem.items)):
        firsts = {}
        for row in problem.rows[v]:
            for found in problem.solutions(v, row):
                rows = [found[q] for q in problem.order_of(v)]
                at, key = problem.group(v, row), problem.key_of(v, rows)
                if at not in firsts or key < firsts[at][0]:
                    firsts[at] = (key, rows)
        bounds += [(v + 1, rows) for rows in sorted(rows for _, rows in firsts.values())]
    found = [rows for _, rows, _ in case.witnesses()]
    reached = case.limit is not None and case.limit <= len(found)
    return Certificate(bounds, [list(it) for it in found[: case.limit]], not reached)


class Fault(Exception):
    def __init__(self, status, line):
        super().__init__(line)
        self.status, self.line = status, line


def form_fault(number):
    return Fault(14, f"proof line {number}: bad line")


def read(text):
    """The certificate that a text is, or its first fault."""
    lines = text.split("\n")
    if lines[-1] == "":
        lines.pop()
        lines = [it.removesuffix("\r") for it in lines]
    else:
        lines = [it.removesuffix("\r") for it in lines[:-1]] + lines[-1:]
    if not lines or lines[0] != "anyk-proof 1":
        raise Fault(14, "proof: bad header")
    bounds, answers = [], []
    for number, line in enumerate(lines[1:], 2):
        word, *parts = line.split(" ")
        if word in ("more", "end") and not parts:
            if number != len(lines):
                raise form_fault(number + 1)
            return Certificate(bounds, answers, word == "end")
        if not all(it.isascii() and it.isdigit() and len(it) < 8 and (it == "0" or it[0] != "0") for it in parts):
            raise form_fault(number)
        numbers = [int(it) for it in parts]
        if word == "bound" and len(numbers) > 1 and not answers:
            bounds.append((numbers[0], numbers[1:]))
        elif word == "answer" and numbers:
            answers.append(numbers)
        else:
            raise form_fault(number)
    raise form_fault(len(lines) + 1)


def check(problem, proof):
    """Raises the first fault of a certificate, if it has one."""
    m, none, limit = len(problem.items), problem.none(), problem.case.limit
    for number, (node, rows) in enumerate(proof.bounds, 2):
        if not 1 <= node <= m or not problem.is_solution(node - 1, rows):
            raise Fault(14, f"proof line {number}: no solution")
    bounds = [{} for _ in range(m)]
    for number, (node, rows) in enumerate(proof.bounds, 2):
        group = problem.group(node - 1, problem.row_in(node - 1, rows, node - 1))
        if group in bounds[node - 1]:
            raise Fault(14, f"proof line {number}: bound twice")
        bounds[node - 1][group] = problem.key_of(node - 1, rows)

    def open_bounds(rows, at):
        """The keys of the bounds of the groups that the rows of nodes 0 to `at` name and choose no row from, or None if one is missing."""
        keys = [bounds[q].get(problem.named(q, rows[problem.parents[q]])) for q in range(at + 1, m) if problem.parents[q] <= at]
        return None if None in keys else keys

    for v in range(m):
        for row in problem.rows[v]:
            below = [bounds[q].get(problem.named(q, row)) for q in range(v + 1, m) if problem.parents[q] == v]
            if None not in below:
                own = bounds[v].get(problem.group(v, row))
                if own is None or own > added([problem.key(v, row), *below], none):
                    raise Fault(14, f"proof node {v + 1}: bound missing or too high")
    first = len(proof.bounds) + 2
    for number, rows in enumerate(proof.answers, first):
        if not problem.is_solution(0, rows):
            raise Fault(14, f"proof line {number}: no answer")
    keys = [problem.key_of(0, rows) for rows in proof.answers]
    for number, (one, other) in enumerate(zip(keys, keys[1:]), first + 1):
        if one >= other:
            raise Fault(14, f"proof line {number}: not in order")
    if (limit is not None and len(keys) > limit) if proof.ended else limit != len(keys):
        raise Fault(14, "proof: wrong number of answers")
    answers = [[problem.row_in(0, rows, q) for q in range(m)] for rows in proof.answers]
    for at in range(m):
        begun = {tuple(it[:at]) for it in answers} if at else {()}
        for chosen in begun:
            taken = {it[at] for it in answers if tuple(it[:at]) == chosen}
            for row in problem.rows[at]:
                rows = [*chosen, row]
                if row in taken or (at and not problem.fits(at, rows[problem.parents[at]], row)):
                    continue
                below = open_bounds(rows, at)
                if below is None:
                    continue
                offered = added([problem.key(q, rows[q]) for q in range(at + 1)] + below, none)
                if proof.ended or (keys and offered <= keys[-1]):
                    raise Fault(14, "proof: unlisted answer")


# ---- spoiling

def spoilt_numbers(rng, line):
    """The line with one number changed."""
    parts = line.split(" ")
    if len(parts) == 1:
        return line
    at = rng.randrange(1, len(parts))
    parts[at] = str(rng.choice([0, 1, 2, 3, 4, 5, 6, 7, int(parts[at]) + 1, 1048577, 9999999]))
    return " ".join(parts)


def spoilt_lines(rng, problem, lines):
    """The lines with a change that keeps their form, in most cases."""
    lines, kind = list(lines), rng.random()
    at = rng.randrange(1, len(lines))
    if kind < 0.25 and at < len(lines) - 1:
        del lines[at]
    elif kind < 0.35:
        lines.insert(at, lines[at])
    elif kind < 0.45 and at > 1:
        lines[at - 1], lines[at] = lines[at], lines[at - 1]
    elif kind < 0.55:
        lines[-1] = rng.choice(["more", "end"])
    elif kind < 0.75 and at < len(lines) - 1:
        lines[at] = spoilt_numbers(rng, lines[at])
    elif lines[at].startswith("bound"):
        # (another solution of the same subtree)
        v = int(lines[at].split(" ")[1]) - 1
        if 0 <= v < len(problem.items) and problem.rows[v]:
            others = problem.solutions(v, rng.choice(problem.rows[v]))
            if others:
                found = rng.choice(others)
                lines[at] = " ".join(map(str, ["bound", v + 1, *(found[q] for q in problem.order_of(v))]))
    elif lines[at].startswith("answer"):
        found = problem.case.witnesses()
        lines[at] = " ".join(map(str, ["answer", *rng.choice(found)[1]]))
    return lines


def spoilt_text(rng, lines):
    """The text of the lines, with a change of its form."""
    text = "".join(f"{it}\n" for it in lines)
    kind = rng.randrange(9)
    at = rng.randrange(len(text))
    if kind == 0:
        return text.replace("\n", "\r\n")
    if kind == 1:
        return text[:-1] + rng.choice(["", "\r", "\r\n", " \n", "\n\n", "\nmore\n"])
    if kind == 2:
        return text.replace("anyk-proof 1", rng.choice(["anyk-proof 2", "anyk-proof  1", "Anyk-proof 1", ""]), 1)
    if kind == 3:
        return text[:at] + rng.choice(["\n", " ", "0", "# x\n", "\r"]) + text[at:]
    if kind == 4:
        return text[:at] + text[at + 1 :]
    if kind == 5:
        return text.replace(" ", rng.choice(["  ", "\t", " 0"]), rng.randint(1, 3))
    if kind == 6:
        return text[: rng.randint(0, len(text))]
    if kind == 7:
        return rng.choice(["", "\n", "anyk-proof 1", "anyk-proof 1\n", "anyk-proof 1\nend\n", "anyk-proof 1\nmore"])
    return text.replace("answer", rng.choice(["bound", "Answer", "answer 1"]), 1)


# ---- running

def commands(case):
    """The words of `prove` and of `verify`, without the query and the tables."""
    flags = ["--ranks"] * case.ranks + ["--rows"] * case.rows
    tables = [f"{name}=t{at}.csv" for at, name in enumerate(case.tables)]
    return ["prove", "q.sql", *tables], ["verify", *flags, "--proof", "p.txt", "q.sql", *tables], ["run", *flags, "q.sql", *tables]


def outcome(problem, text, output):
    """Status, output and error output of `verify` over this text, where `run` prints that output."""
    try:
        check(problem, read(text))
    except Fault as fault:
        return fault.status, b"", f"anyk: {fault.line}\n".encode()
    return 0, output, b""


class Count:
    """What was tried, and how much of it came out otherwise."""

    def __init__(self, program):
        self.program, self.failed, self.valid, self.faults = program, 0, 0, {}

    def compare(self, what, files, words, wanted):
        got = run(self.program, files, words)
        if got != wanted:
            self.failed += 1
            if self.failed <= 5:
                told(what, files, words, wanted, got)

    def verified(self, what, files, words, wanted):
        self.compare(what, files, words, wanted)
        line = wanted[2].decode().split(":")[-1].strip()
        if wanted[0] == 0:
            self.valid += 1
        else:
            self.faults[line] = self.faults.get(line, 0) + 1


def try_query(count, seed):
    """One generated query: its certificate, and what comes of spoiling it."""
    case = Case(seed)
    case.best = None
    files = case.files()
    prove, verify, _ = commands(case)
    core = case.core()
    if len(core) > 1:
        line = (6, b"", f"anyk: {cyclic(*[it + 1 for it in core])}\n".encode())
        count.compare(f"seed {seed}", files, prove, line)
        count.compare(f"seed {seed}", {**files, "p.txt": "anyk-proof 1\nend\n"}, verify, line)
        count.compare(f"seed {seed}", {**files, "p.txt": "anyk-proof 1\nends\n"}, verify, (14, b"", b"anyk: proof line 2: bad line\n"))
        return
    problem = Problem(case)
    proof, output = written(problem), case.expected()[0][1]
    for words in (prove, with_other_engine(prove)):
        count.compare(f"seed {seed}", files, words, (0, proof.text().encode(), b""))
    rng = random.Random(f"spoilt {seed}")
    texts = [proof.text()]
    for _ in range(SPOILT):
        lines = proof.lines()
        for _ in range(rng.choice([1, 1, 1, 2, 3])):
            lines = spoilt_lines(rng, problem, lines)
        texts.append("".join(f"{it}\n" for it in lines) if rng.random() < 0.8 else spoilt_text(rng, lines))
    for text in texts:
        count.verified(f"certificate of seed {seed}", {**files, "p.txt": text}, verify, outcome(problem, text, output))


# ---- the order of refusals

def fixed(count):
    """Inputs whose refusal comes before or after that of the certificate."""
    good = "anyk-proof 1\nbound 1 2 2\nbound 2 2\nbound 2 3\nanswer 2 2\nanswer 3 3\nmore\n"
    words = ["verify", "--proof", "p.txt", "q.sql", "R=R.csv", "S=S.csv"]
    made = {"q.sql": f"{JOIN} limit 2", "R.csv": R, "S.csv": S, "p.txt": good}

    def verify(status, line, changed, words=words):
        files = {name: text for name, text in {**made, **changed}.items() if text is not None}
        out = line.encode() if status == 0 else b""
        count.verified("fixed certificate", files, words, (status, out, b"" if status == 0 else f"anyk: {line}\n".encode()))

    verify(0, "a,c\n2,q\n3,q\n", {})
    verify(0, "a,c,rank1,row1,row2\n2,q,3,2,2\n3,q,5,3,3\n", {}, ["verify", "--rows", "--ranks", *words[1:]])
    verify(14, "proof: unlisted answer", {"p.txt": good.replace("answer 3 3", "answer 3 1")})
    verify(14, "proof line 6: not in order", {"p.txt": good.replace("answer 2 2\nanswer 3 3", "answer 3 3\nanswer 2 2")})
    verify(14, "proof node 2: bound missing or too high", {"p.txt": good.replace("bound 2 3\n", "")})
    verify(2, "usage", {}, ["verify", "q.sql", "R=R.csv", "S=S.csv"])
    verify(2, "usage", {}, ["verify", "--engine", "part", *words[1:]])
    verify(2, "usage", {}, ["prove", "--ranks", *words[3:]])
    verify(2, "usage", {}, ["prove", *words[1:]])
    verify(2, "usage", {}, ["run", *words[1:]])
    # (the query before the certificate, and the certificate before the tables)
    verify(3, "syntax error at byte 0", {"q.sql": "", "p.txt": None})
    verify(9, "file p.txt: not found", {"p.txt": None, "S.csv": None})
    verify(8, "file p.txt longer than 67108864 bytes", {"p.txt": "x" * 67108865, "S.csv": None})
    verify(14, "proof: bad header", {"p.txt": "", "S.csv": None})
    verify(14, "proof line 2: bad line", {"p.txt": "anyk-proof 1\n", "q.sql": "select X.a from X"})
    verify(4, "byte 16: unknown table", {"q.sql": "select X.a from X"})
    verify(9, "file S.csv: not found", {"p.txt": "anyk-proof 1\nend\n", "S.csv": None})
    verify(5, "item 2: row 1: column 3: not a weight", {"p.txt": "anyk-proof 1\nend\n", "S.csv": "b,c,w\nx,p,+\n"})
    # (a query of several parts is no query to either)
    several = "select R.a from R union all select S.c from S"
    verify(3, "syntax error at byte 18", {"q.sql": several})
    verify(3, "syntax error at byte 18", {"q.sql": several}, ["prove", "q.sql", "R=R.csv", "S=S.csv"])


def small(count):
    """A query without a row that passes, and two rows of one weight, of which only the first may be the bound."""
    files = {"A.csv": "x,w\n1,1\n2,5\n3,0\n", "B.csv": "x,y,w\n1,a,2\n1,b,1\n2,a,1\n9,a,0\n3,c,0\n",
             "q.sql": "select A.x from A, B where A.x = B.x and A.x = '5' order by A.w"}
    count.compare("no row", files, ["prove", "q.sql", "A=A.csv", "B=B.csv"], (0, b"anyk-proof 1\nend\n", b""))
    count.verified("no row", {**files, "p.txt": "anyk-proof 1\nend\n"}, ["verify", "--proof", "p.txt", "q.sql", "A=A.csv", "B=B.csv"], (0, b"x\n", b""))
    files = {"T.csv": "g,w\n1,2\n1,2\n", "U.csv": "g\n1\n", "q.sql": "select U.g from U, T where U.g = T.g order by T.w limit 1"}
    text = "anyk-proof 1\nbound 1 1 1\nbound 2 1\nanswer 1 1\nmore\n"
    verify = ["verify", "--proof", "p.txt", "q.sql", "T=T.csv", "U=U.csv"]
    count.compare("equal weights", files, ["prove", "q.sql", "T=T.csv", "U=U.csv"], (0, text.encode(), b""))
    count.verified("equal weights", {**files, "p.txt": text}, verify, (0, b"g\n1\n", b""))
    line = b"anyk: proof node 2: bound missing or too high\n"
    count.verified("equal weights", {**files, "p.txt": text.replace("bound 2 1", "bound 2 2")}, verify, (14, b"", line))


# ---- examples

def words_of(folder):
    with open(f"{folder}/words", encoding="utf-8") as file:
        return file.read().split("\n")[:-1]


def without_best(words):
    return [it for at, it in enumerate(words) if it != "--best-of" and words[at - 1] != "--best-of"]


def try_example(count, folder):
    """Proves and verifies the query of an example: `verify` prints what `run` prints. Gives whether the example has a certificate."""
    command, *words = without_best(words_of(folder))
    flags = [it for it in words if it in ("--ranks", "--rows")]
    rest = [f"{TOP}/{it}" if it.endswith(".sql") else it.replace("=", f"={TOP}/") for it in words if not it.startswith("--")]
    with open(next(it for it in rest if it.endswith(".sql")), encoding="utf-8") as file:
        if "union all" in file.read().lower() or command != "run":
            return False
    wanted = run(count.program, {}, ["run", *flags, *rest])
    for engine in ("part", "rec"):
        status, proof, errors = run(count.program, {}, ["prove", "--engine", engine, *rest])
        if (status, errors) != (0, b""):
            count.failed += 1
            print(f"certificates: {folder}: FAILED, prove ends with {status}: {errors!r}")
        count.verified(folder, {"p.txt": proof}, ["verify", *flags, "--proof", "p.txt", *rest], wanted)
    return True


def main():
    program, queries = arguments(__doc__, "./anyk", 150)
    count = Count(program_at(program))
    for seed in range(1, queries + 1):
        try_query(count, seed)
    fixed(count)
    small(count)
    examples = sum(try_example(count, it) for it in sorted(glob.glob(f"{TOP}/examples/*/")) if os.path.exists(f"{it}words"))
    kinds = ", ".join(f"{number} {line}" for line, number in sorted(count.faults.items()))
    verdict = f"FAILED: {count.failed}" if count.failed else "passed"
    print(f"certificates: {queries} queries, {count.valid} certificates accepted, refused: {kinds}; {examples} examples: {verdict}")
    return 1 if count.failed else 0


if __name__ == "__main__":
    sys.exit(main())
