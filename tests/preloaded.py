"""Runs the program with calls that fail, by the small C library tests/faults.c, which is preloaded into it.

Nothing to run: tests/refused_memory.py and tests/failing_calls.py import it. The inputs of both are here too: each with its
files, its words, and what it gives if nothing fails.
"""
import os
import shutil
import subprocess
import tempfile
from concurrent.futures import ThreadPoolExecutor

HERE = os.path.dirname(os.path.abspath(__file__))
R = "a,b,w\n1,x,3\n2,y,1\n3,x,1\n"
S = "b,c,w\nx,p,5\ny,q,2\nx,q,4\n"
JOIN = "select R.a, S.c from R, S where R.b = S.b order by R.w + S.w"
STAR = ("select L1.v, L2.v, L3.v from C, L1, L2, L3 where C.k = L1.k and C.k = L2.k and C.k = L3.k "
        "order by L1.w + L2.w + L3.w")
SCRIPT = "open a\nnext a 2\nfork a b\nnext b 1\nnext a 2\nrewind b\nnext b 3\nnext a 2\n"

TWO = {"q.sql": JOIN + "\n", "R.csv": R, "S.csv": S}
STARRED = {"q.sql": STAR + "\n", "C.csv": "k\nz\n", "L1.csv": "k,v,w\nz,1,0\nz,2,0\n", "L2.csv": "k,v,w\nz,3,0\nz,4,0\n", "L3.csv": "k,v,w\nz,5,0\n"}
OVER_TWO = ["q.sql", "R=R.csv", "S=S.csv"]
OVER_STAR = ["q.sql", "C=C.csv", "L1=L1.csv", "L2=L2.csv", "L3=L3.csv"]
JOINED = "a,c\n2,q\n3,q\n3,p\n1,q\n1,p\n"
PROVED = "anyk-proof 1\nbound 1 2 2\nbound 2 2\nbound 2 3\nanswer 2 2\nanswer 3 3\nanswer 3 1\nanswer 1 3\nanswer 1 1\nend\n"
TOLD = "cursor,a,c\na,2,q\na,3,q\nb,3,p\na,3,p\na,1,q\nb,2,q\nb,3,q\nb,3,p\na,1,p\na\n"


class Input:
    """Files and words, with the output if nothing fails, and the status and error output."""

    def __init__(self, name, files, words, output, status=0, error=""):
        self.name, self.files, self.words = name, files, words
        self.output, self.status, self.error = output.encode(), status, error.encode()


def both(name, files, before, after, output):
    """The same input for each engine."""
    return [Input(f"{name}, {it}", files, [*before, "--engine", it, *after], output) for it in ("part", "rec")]


def first_inputs():
    """A join of two tables, a star, and a session."""
    return [
        *both("join", TWO, ["run"], OVER_TWO, JOINED),
        *both("star", STARRED, ["run"], OVER_STAR, "v,v,v\n1,3,5\n1,4,5\n2,3,5\n2,4,5\n"),
        *both("session", {**TWO, "s.txt": SCRIPT}, ["session", "--script", "s.txt"], OVER_TWO, TOLD),
    ]


def other_inputs():
    """Each other command and option, two queries in one ranking, certificates, keys of both directions, constants, quotes, and refusals."""
    two_keys = {**TWO, "q.sql": "select * from R join S on R.b = S.b where S.c = 'q' order by R.w desc, S.w limit 2;\n"}
    quoted = {"q.sql": 'SELECT a."to", b."to" FROM f a JOIN f b ON a."to" = b.src WHERE a.src = \'Oslo\' ORDER BY a.p + b.p LIMIT 2;',
              "f.csv": 'src,to,p\r\nOslo,Paris,120\r\nParis,Lima,700\r\nParis,"New York, ""NY""",350\r\n'}
    union = {**TWO, "q.sql": JOIN + " union all select R.a, R.b from R order by R.w"}
    merged = ("a,c,rank1,branch,row1,row2\n2,y,1,2,2,\n3,x,1,2,3,\n2,q,3,1,2,2\n1,x,3,2,1,\n3,q,5,1,3,3\n3,p,6,1,3,1\n"
              "1,q,7,1,1,3\n1,p,8,1,1,1\n")
    shown = "a,c,rank1,row1,row2\n2,q,3,2,2\n3,q,5,3,3\n3,p,6,3,1\n1,q,7,1,3\n1,p,8,1,1\n"
    inputs = [
        *both("ranks and rows", TWO, ["run", "--ranks", "--rows"], OVER_TWO, shown),
        *both("two queries", union, ["run", "--ranks", "--rows"], OVER_TWO, merged),
        *both("two keys", two_keys, ["run"], OVER_TWO, "a,b,w,b,c,w\n1,x,3,x,q,4\n2,y,1,y,q,2\n"),
        *both("quotes", quoted, ["run"], ["q.sql", "f=f.csv"], 'to,to\nParis,"New York, ""NY"""\nParis,Lima\n'),
        *both("session with ranks", {**TWO, "s.txt": "open a\nnext a 1\nclose a\n"}, ["session", "--ranks", "--rows", "--script=s.txt"],
              OVER_TWO, "cursor,a,c,rank1,row1,row2\na,2,q,3,2,2\n"),
        *both("load", {}, ["load", "--number", "1", "--rows", "2"], [], "rows 8\nanswers 16\nfirst 1080\nlast 2695\n"),
        *both("prove", TWO, ["prove"], OVER_TWO, PROVED),
        Input("verify", {**TWO, "p.txt": PROVED}, ["verify", "--proof", "p.txt", "--ranks", "--rows", *OVER_TWO], shown),
        Input("plan", TWO, ["plan", *OVER_TWO], "node 1 parent 0 rows 3 item R\nnode 2 parent 1 rows 3 item S\ntotal 12\n"),
    ]
    triangle = {"q.sql": "select x.a from R x, R y, R z where x.a = y.b and y.a = z.b and z.a = x.b", "R.csv": R}
    inputs += [
        Input("no command", {}, ["go"], "", 2, "anyk: usage\n"),
        Input("bad query", {**TWO, "q.sql": "select R.a from"}, ["run", *OVER_TWO], "", 3, "anyk: syntax error at byte 15\n"),
        Input("unknown column", {**TWO, "q.sql": "select R.zz from R"}, ["run", *OVER_TWO], "", 4, "anyk: byte 7: unknown column\n"),
        Input("no header", {**TWO, "S.csv": ""}, ["run", *OVER_TWO], "", 5, "anyk: table S: no header\n"),
        Input("cyclic", triangle, ["run", "q.sql", "R=R.csv"], "", 6, "anyk: cyclic query: items 1 2 3\n"),
        Input("another shape", {**TWO, "q.sql": JOIN + " union all select R.a from R order by R.w"}, ["run", *OVER_TWO], "", 15,
              "anyk: branch 2: shape differs\n"),
        Input("no certificate", {**TWO, "p.txt": "anyk-proof 1\nends\n"}, ["verify", "--proof", "p.txt", *OVER_TWO], "", 14,
              "anyk: proof line 2: bad line\n"),
        Input("unlisted answer", {**TWO, "p.txt": PROVED.replace("answer 3 3\n", "")}, ["verify", "--proof", "p.txt", *OVER_TWO], "", 14,
              "anyk: proof: unlisted answer\n"),
        Input("no file", TWO, ["run", "q.sql", "R=R.csv", "S=none.csv"], "", 9, "anyk: file none.csv: not found\n"),
    ]
    return inputs


class Skipped(Exception):
    pass


def compile_c(source, to, *options):
    """Makes a program or a library of a C file of this folder."""
    compiler = next((it for it in ("cc", "gcc", "clang") if shutil.which(it)), None)
    if compiler is None:
        raise Skipped("there is no C compiler here")
    made = subprocess.run([compiler, "-O2", "-w", *options, "-o", to, f"{HERE}/{source}"], capture_output=True)
    if made.returncode:
        raise Skipped(f"{source} cannot be compiled here")


class Failing:
    """The program and the library, in a folder of their own."""

    def __init__(self, program):
        self.room = tempfile.mkdtemp(prefix="anyk-faults-")
        self.program = real_program(program)
        self.library = f"{self.room}/faults.so"
        compile_c("faults.c", self.library, "-shared", "-fPIC", "-fno-builtin")
        if subprocess.run(["true"], env={**os.environ, "LD_PRELOAD": self.library}, capture_output=True).stderr:
            raise Skipped("no library can be preloaded here")

    def close(self):
        shutil.rmtree(self.room)

    def put(self, one):
        """A folder with the files of an input."""
        folder = tempfile.mkdtemp(dir=self.room)
        for name, text in one.files.items():
            with open(f"{folder}/{name}", "wb") as file:
                file.write(text.encode())
        return folder

    def run(self, folder, words, kind, nth, count=1, how="0"):
        """Whether a call failed; and the status, the output and the error output."""
        seen = f"{folder}/failed-{kind}-{nth}-{count}-{how}"
        env = {"PATH": os.environ["PATH"], "LD_PRELOAD": self.library, "FAULTS_KIND": kind, "FAULTS_NTH": str(nth), "FAULTS_COUNT": str(count),
               "FAULTS_HOW": str(how), "FAULTS_SEEN": seen}
        ran = subprocess.run([self.program, *words], cwd=folder, env=env, stdin=subprocess.DEVNULL, capture_output=True, timeout=60)
        has_failed = os.path.exists(seen)
        if has_failed:
            os.remove(seen)
        return has_failed, ran.returncode, ran.stdout, ran.stderr


def real_program(program):
    """The program itself: what a launcher starts, and not the launcher, which is a script and calls other programs."""
    program = os.path.abspath(program)
    with open(program, "rb") as file:
        if file.read(4) == b"\x7fELF":
            return program
    how = {"env": {**os.environ, "ANYK_NO_BUILD": "1"}, "stdin": subprocess.DEVNULL, "stdout": subprocess.PIPE}
    told = subprocess.run([program, "version"], **how).stdout.decode().splitlines()
    place = next((it[len("program "):] for it in told if it.startswith("program /")), None)
    if place is None:
        raise Skipped("there is no program here")
    return place


def in_turn(tries, workers=None):
    """Runs all of these in threads, and gives what each returns."""
    with ThreadPoolExecutor(workers or os.cpu_count()) as pool:
        return list(pool.map(lambda it: it(), tries))
