#!/usr/bin/env python3
"""Compares tools/check_proof.py with `verify`, and tests the seals of tools/seal.py.

usage: tests/check_proof.py [PROGRAM] [COUNT]

PROGRAM is ./anyk if it is not given, and COUNT is 150. The certificates are those of
tests/certificates.py, right and spoilt: of COUNT generated queries, of fixed inputs and of the
examples. After them come the fixed inputs of tests/differential.py, tables with odd bytes and
queries over many items, each with the certificate that `prove` writes, or with an empty one if it
refuses the input. Over each, both programs have to accept or both to refuse, with the same bytes;
and what they say of the certificate itself has to be the same line. check_proof.py is called in
this process, since thousands of starts would take minutes, and as a command for some tests.
"""
import ast
import contextlib
import hashlib
import importlib.util
import io
import os
import random
import subprocess
import sys
import tempfile

sys.dont_write_bytecode = True
from arguments import arguments, program_at
from certificates import Count, fixed, small, try_example, try_query
from differential import ANSWERS, JOIN, NODE_WORDS, R, REFUSALS, S

TOP = os.path.dirname(os.path.dirname(os.path.abspath(__file__)))
CHECK, SEAL = f"{TOP}/tools/check_proof.py", f"{TOP}/tools/seal.py"
LIBRARIES = {"argparse", "csv", "hashlib", "io", "pathlib", "re", "sys"}
EMPTY = "anyk-proof 1\nend\n"
GOOD = "anyk-proof 1\nbound 1 2 2\nbound 2 2\nbound 2 3\nanswer 2 2\nanswer 3 3\nmore\n"
FILES = {"q.sql": f"{JOIN} limit 2", "R.csv": R, "S.csv": S, "p.txt": GOOD}
WORDS = ["--proof", "p.txt", "q.sql", "R=R.csv", "S=S.csv"]


def loaded(path):
    """The module that a file is."""
    spec = importlib.util.spec_from_file_location("check_proof", path)
    module = importlib.util.module_from_spec(spec)
    spec.loader.exec_module(module)
    return module


# ---- calls

def put(room, files):
    for name, text in files.items():
        with open(f"{room}/{name}", "wb") as file:
            file.write(text if isinstance(text, bytes) else text.encode())


def ran(command, room):
    """Status, output and error output of a command in a folder."""
    path = os.environ.get("PATH", os.defpath)
    how = {"cwd": room, "env": {"PATH": path, "HOME": room, "TMPDIR": room, "LANG": "C.UTF-8"}}
    it = subprocess.run(command, stdin=subprocess.DEVNULL, capture_output=True, timeout=120, **how)
    return it.returncode, it.stdout, it.stderr


def tool(script, words, room):
    return ran([sys.executable, "-X", "utf8", "-ISB", script, *words], room)


def called(main, words, room):
    """Status, output and error output of check_proof.py in a folder, by a call in this process."""
    output, errors = io.TextIOWrapper(io.BytesIO()), io.StringIO()
    before = os.getcwd()
    os.chdir(room)
    try:
        with contextlib.redirect_stdout(output), contextlib.redirect_stderr(errors):
            main(words)
        status = 0
    except SystemExit as end:
        status, line = (1, f"{end.code}\n") if isinstance(end.code, str) else (end.code, "")
        errors.write(line)
    except OSError as error:
        status = 1
        errors.write(f"check-proof: {error.filename}: {error.strerror}\n")
    finally:
        os.chdir(before)
    output.flush()
    return status, output.buffer.getvalue(), errors.getvalue().encode("utf-8", "backslashreplace")


# ---- agreement

def lines_differ(one, other):
    """Whether what `verify` says of a certificate is not what check_proof.py says of it."""
    return one.startswith(b"anyk: proof") and one.partition(b" ")[2] != other.partition(b" ")[2]


class Agreement(Count):
    """Calls of `verify`, each compared with check_proof.py in place of what is expected of it."""

    def __init__(self, program):
        super().__init__(program)
        self.main, self.compared, self.accepted = loaded(CHECK).main, 0, 0

    def compare(self, what, files, words, wanted):
        if words[0] == "verify":
            with tempfile.TemporaryDirectory(prefix="anyk-check-proof-") as room:
                put(room, files)
                self.agree(what, words[1:], room)

    def agree(self, what, words, room):
        one, other = ran([self.program, "verify", *words], room), called(self.main, words, room)
        self.compared += 1
        self.accepted += one[0] == 0
        statuses = {0: (0,), 2: (1, 2)}.get(one[0], (1,))
        if other[0] not in statuses or one[1] != other[1] or lines_differ(one[2], other[2]):
            self.failed += 1
            if self.failed <= 5:
                print(f"check_proof: {what}: FAILED\n  words: {words}")
                print(f"  verify:      {one}\n  check_proof: {other}")


def fixed_inputs(count):
    """The inputs of `run` that tests/differential.py has. Those at the limit of node rows, which
    take gigabytes here, are left out."""
    for at, (files, words, *_) in enumerate([*ANSWERS, *REFUSALS]):
        command, *words = words
        rest = [it for it in words if it not in ("--ranks", "--rows")]
        is_plain = len(rest) > 1 and not any(it.startswith("--") for it in rest)
        if command != "run" or words == NODE_WORDS[1:] or not is_plain:
            continue
        with tempfile.TemporaryDirectory(prefix="anyk-check-proof-") as room:
            put(room, files)
            status, proof, _ = ran([count.program, "prove", *rest], room)
            put(room, {"p.txt": proof if status == 0 else EMPTY})
            count.agree(f"fixed input {at}", ["--proof", "p.txt", *words], room)


ODD_TABLES = [
    b'\xef\xbb\xbfa,w\r1,"2"\r\n\r\n"x""y",1\n"p\rq\n",3', b"\xef\xbb\xbf\xef\xbb\xbfa,w\n1,1\n",
    b'a,w\n"x"y"z,1\nx"y",2\n"open ""q,5\n\n', b"a,w\n\xff\xc3,1\n\xc3\xa5,0\n", b"a,w\n,\n,-1\n",
    b'w\n1\n""\n\n2\n', b"a,w\n1\n", b"a,w,a\n", b"", b"\n\r\n", b'"', b"a,w\n1, 1\n",
    b"a,w\n" + b"x" * 200000 + b",1\n", b"a,w\n1,\xd9\xa1\n", b"a,w\n1,1_0\n", b"a,w\n1,+\n",
    b'a,"w"\n"",-007\n,,\n',
]
if sys.version_info >= (3, 11):
    # (before, the csv reader of Python takes no NUL, and check_proof.py refuses it)
    ODD_TABLES.append(b"a,w\n\x00,2\nx\x00,1\n")


def odd_tables(count):
    """Tables with bytes that two readers may take otherwise, each joined with itself."""
    query = "select * from T x, T y where x.w = y.w order by x.w - y.w, y.w desc"
    for at, text in enumerate(ODD_TABLES):
        with tempfile.TemporaryDirectory(prefix="anyk-check-proof-") as room:
            put(room, {"q.sql": query, "T.csv": text})
            proof = ran([count.program, "prove", "q.sql", "T=T.csv"], room)[1]
            put(room, {"p.txt": proof or EMPTY})
            words = ["--rows", "--proof", "p.txt", "q.sql", "T=T.csv"]
            count.agree(f"odd table {at}", words, room)


def wide_query(rng):
    """A query over 4 to 12 items of one table, which is cyclic now and then, and the table."""
    rows = [[*rng.choices("xy", k=4), str(rng.randint(-3, 9))] for _ in range(rng.randint(1, 4))]
    items = range(rng.randint(4, 12))
    conditions = [(it, rng.randrange(it)) for it in [*items, *rng.sample(items, 2)] if it]
    conditions += [(rng.choice(items), rng.choice(items)) for _ in range(rng.choice([0, 1]))]
    sides = [[f"i{it}.{rng.choice('abcd')}" for it in pair] for pair in conditions]
    count = rng.randint(1, 3)
    sums = [" + ".join(f"i{rng.choice(items)}.w" for _ in range(3)) for _ in range(count)]
    query = "select " + ", ".join(f"i{it}.a" for it in items)
    query += " from " + ", ".join(f"T i{it}" for it in items)
    query += " where " + " and ".join(" = ".join(it) for it in sides)
    query += f" order by {' desc, '.join(sums)} limit {rng.choice([1, 20, 1000])}"
    return query, "".join(",".join(it) + "\n" for it in [[*"abcdw"], *rows])


def wide_queries(count):
    """Queries over many items, with the certificates that `prove` writes."""
    for seed in range(40):
        query, table = wide_query(random.Random(f"wide {seed}"))
        with tempfile.TemporaryDirectory(prefix="anyk-check-proof-") as room:
            put(room, {"q.sql": query, "T.csv": table})
            proof = ran([count.program, "prove", "q.sql", "T=T.csv"], room)[1]
            put(room, {"p.txt": proof or EMPTY})
            words = ["--ranks", "--rows", "--proof", "p.txt", "q.sql", "T=T.csv"]
            count.agree(f"wide query {seed}", words, room)


def agreement(program, queries):
    """How many comparisons failed, and what was compared."""
    count = Agreement(program)
    for seed in range(1, queries + 1):
        try_query(count, seed)
    fixed(count)
    small(count)
    for name in sorted(os.listdir(f"{TOP}/examples")):
        if os.path.exists(f"{TOP}/examples/{name}/words"):
            try_example(count, f"{TOP}/examples/{name}")
    fixed_inputs(count)
    odd_tables(count)
    wide_queries(count)
    compared = f"{count.compared} certificates compared with verify"
    return count.failed, f"{compared}, {count.accepted} of them accepted by both"


# ---- the command

def expect(found, status, output, told):
    """What is wrong with the status, the output and the line of a call, or None. With status 2,
    the usage has to have what is told."""
    got = found[0], found[1].decode(), found[2].decode()
    if got[:2] == (status, output) and (told in got[2] if status == 2 else told == got[2]):
        return None
    return f"expected {(status, output, told)}, and got {got}"


def commands(room):
    """Calls of the command: what is tested, and what is wrong with it."""
    put(room, {**FILES, "late.txt": GOOD.replace("answer 3 3", "answer 3 1")})
    yield "answers", expect(tool(CHECK, WORDS, room), 0, "a,c\n2,q\n3,q\n", "")
    both = tool(CHECK, ["q.sql", "R=R.csv", "--ranks", "S=S.csv", "--rows", "--proof=p.txt"], room)
    yield "ranks and rows", expect(both, 0, "a,c,rank1,row1,row2\n2,q,3,2,2\n3,q,5,3,3\n", "")
    late = tool(CHECK, ["--proof", "late.txt", *WORDS[2:]], room)
    yield "a flaw", expect(late, 1, "", "check-proof: proof: unlisted answer\n")
    lost = tool(CHECK, ["--proof", "lost.txt", *WORDS[2:]], room)
    told = "No such file or directory"
    yield "no file", expect(lost, 1, "", f"check-proof: [Errno 2] {told}: 'lost.txt'\n")
    wrong = [([], "--proof"), (WORDS[2:], "--proof"), (WORDS[:3], "TABLE=FILE")]
    wrong += [([*WORDS, it], "TABLE=FILE") for it in ("R=S.csv", "=S.csv", "T=", "T")]
    for words, told in [*wrong, ([*WORDS, "--rank"], "--rank")]:
        yield f"usage {words}", expect(tool(CHECK, words, room), 2, "", told)


def page(script, name, room):
    """What is wrong with the page that --help prints, or None."""
    with open(f"{TOP}/tools/help/{name}.txt", encoding="utf-8") as file:
        return expect(tool(script, ["--help"], room), 0, file.read(), "")


def size_and_imports():
    """What is wrong with the size of check_proof.py or with what it imports, or None."""
    with open(CHECK, encoding="utf-8") as file:
        text = file.read()
    lines, named = text.count("\n"), set()
    for it in ast.walk(ast.parse(text)):
        if isinstance(it, ast.Import):
            named.update(one.name for one in it.names)
        elif isinstance(it, ast.ImportFrom):
            named.add(it.module)
    calls = [it for it in ("__import__", "importlib", "exec(", "eval(", "os.") if it in text]
    if lines > 250 or not named <= LIBRARIES or calls:
        return f"it has {lines} lines, imports {sorted(named)}, and names {calls}"
    return None


def alone(room):
    """The file works where nothing else of the repository is."""
    with open(CHECK, "rb") as file:
        put(room, {**FILES, "alone.py": file.read()})
    return expect(tool(f"{room}/alone.py", WORDS, room), 0, "a,c\n2,q\n3,q\n", "")


def large(program, room):
    """10,000 answers over tables of 10,000 rows: within the time of `ran`."""
    rng = random.Random("large")
    query = "select A.k, A.w, B.w from A, B where A.k = B.k order by A.w + B.w limit 10000"
    put(room, {"l.sql": query})
    for name in "AB":
        rows = [f"{rng.randrange(2000)},{rng.randrange(1000)}\n" for _ in range(10000)]
        put(room, {f"{name}.csv": "k,w\n" + "".join(rows)})
    words = ["l.sql", "A=A.csv", "B=B.csv"]
    put(room, {"l.txt": ran([program, "prove", *words], room)[1]})
    checked = tool(CHECK, ["--proof", "l.txt", *words], room)
    if checked[:2] != ran([program, "run", *words], room)[:2]:
        return "it does not print what run prints"
    return None


# ---- seals

def sealed(files, tables):
    """The seal that is expected of these files."""
    named = [(f"table {name}", file) for name, file in tables]
    lines = ["anyk-seal 1\n"]
    for what, file in [("query", "q.sql"), *named, ("proof", "p.txt")]:
        lines.append(f"{hashlib.sha256(files[file].encode()).hexdigest()} {what}\n")
    return "".join(lines)


def seals(room):
    """Seals, right and wrong: what is tested, and what is wrong with it."""
    put(room, FILES)
    seal = sealed(FILES, [("R", "R.csv"), ("S", "S.csv")])
    yield "a seal", expect(tool(SEAL, WORDS, room), 0, seal, "")
    other = ["q.sql", "--proof=p.txt", "S=S.csv", "R=R.csv"]
    yield "its order", expect(tool(SEAL, other, room), 0, seal, "")
    names = ["søk", "b b", "Z", "a"]
    many = sealed(FILES, [(it, "R.csv") for it in sorted(names, key=str.encode)])
    words = [*WORDS[:3], *(f"{it}=R.csv" for it in names)]
    yield "other names", expect(tool(SEAL, words, room), 0, many, "")
    yield from checked_seals(seal, room)


def checked_seals(seal, room):
    """Seals that check_proof.py reads: what is tested, and what is wrong with it."""
    right = "a,c\n2,q\n3,q\n"
    rows, told = seal.split("\n"), "check-proof: seal: not the same: {}\n"
    lacking = "check-proof: seal: not all that is given is in it\n"
    lines = seal.replace("\n", "\r\n")
    for what, text in [("right", seal), ("CR LF", lines), ("no last line end", seal[:-1])]:
        put(room, {"seal.txt": text})
        found = tool(CHECK, ["--seal", "seal.txt", *WORDS], room)
        yield f"seal: {what}", expect(found, 0, right, "")
    changed = seal.replace(rows[3][:4], "0000", 1)
    exchanged = [*WORDS[:3], "R=S.csv", "S=R.csv"]
    cases = [("tables exchanged", seal, exchanged, told.format("table R")),
             ("another query", seal, [*WORDS[:2], "p.txt", *WORDS[3:]], told.format("query")),
             ("another proof", seal, ["--proof", "q.sql", *WORDS[2:]], told.format("proof")),
             ("a table too few", seal, WORDS[:4], told.format("table S")),
             ("a table too many", seal, [*WORDS, "T=R.csv"], lacking),
             ("a line too few", "\n".join(rows[:2] + rows[3:]), WORDS, lacking),
             ("a changed digest", changed, WORDS, told.format("table S")),
             ("no header", "\n".join(rows[1:]), WORDS, lacking),
             ("another header", seal.replace("seal 1", "seal 2"), WORDS, told.format("header")),
             ("nothing", "", WORDS, told.format("header"))]
    for what, text, words, line in cases:
        put(room, {"seal.txt": text})
        found = tool(CHECK, ["--seal", "seal.txt", *words], room)
        yield f"seal: {what}", expect(found, 1, "", line)


def refused_seals(room):
    """Calls that write no seal: what is tested, and what is wrong with it."""
    lost = tool(SEAL, ["--proof", "lost.txt", *WORDS[2:]], room)
    yield "seal: no file", expect(lost, 1, "", "seal: lost.txt: No such file or directory\n")
    wrong = [([], "--proof"), (WORDS[:3], "TABLE=FILE"), (WORDS[2:], "--proof")]
    wrong += [([*WORDS, it], "TABLE=FILE") for it in ("=S.csv", "T=", "T")]
    wrong += [([*WORDS, "R=S.csv"], "two files"), ([*WORDS, "a\nb=R.csv"], "line end")]
    for words, told in wrong:
        yield f"seal: usage {words}", expect(tool(SEAL, words, room), 2, "", told)


def tests(program, room):
    """All tests but those of agreement: what is tested, and what is wrong with it."""
    yield "size and imports", size_and_imports()
    yield "help of check-proof", page(CHECK, "check-proof", room)
    yield "help of seal", page(SEAL, "seal", room)
    yield "alone", alone(room)
    yield from commands(room)
    yield from seals(room)
    yield from refused_seals(room)
    yield "large", large(program, room)


def main():
    program, queries = arguments(__doc__, f"{TOP}/anyk", 150)
    program = program_at(program)
    failed = looked = 0
    with tempfile.TemporaryDirectory(prefix="anyk-check-proof-") as room:
        for what, why in tests(program, room):
            looked += 1
            if why:
                failed += 1
                print(f"check_proof: {what}: FAILED\n  {why}")
    more, compared = agreement(program, queries)
    verdict = f"FAILED: {failed + more}" if failed + more else "passed"
    print(f"check_proof: {compared}; {looked} tests of the command and of seals: {verdict}")
    return 1 if failed + more else 0


if __name__ == "__main__":
    sys.exit(main())
