#!/usr/bin/env python3
"""Tests of tools/weights.py: fields one by one, generated decimals against the decimal module, and whole calls.

usage: tests/weights.py

A word that follows, such as the program's name, plays no part.
"""
import decimal
import fractions
import importlib.util
import math
import os
import random
import signal
import subprocess
import sys
import tempfile
import types

from arguments import arguments

TOP = os.path.dirname(os.path.dirname(os.path.abspath(__file__)))
TOOL = f"{TOP}/tools/weights.py"
GREATEST = 2**127 - 1

# a field, the scale, and what is written; None if the field is no number
FIELDS = [
    ("", 1, ""), ("", 100, ""), ("7", 1, "7"), ("007", 1, "007"), ("+2", 1, "+2"), ("-0", 1, "-0"), ("007", 10, "70"),
    ("12.5", 100, "1250"), ("12.50", 10, "125"), (".5", 2, "1"), ("5.", 1, "5"), ("3.0", 1, "3"), ("-.25", 4, "-1"),
    ("1e+05", 1, "100000"), ("1E5", 1, "100000"), ("1.5e3", 1, "1500"), ("12e-1", 10, "12"), ("1e38", 1, "1" + "0" * 38),
    ("1,200", 1, "1200"), ("1,234,567.89", 100, "123456789"), ("-1,200", 1, "-1200"), ("1,20", 1, None), ("1,2000", 1, None),
    (",200", 1, None), ("12,5", 1, None), ("1,200,", 1, None), ("$12", 1, "12"), ("-$12", 1, "-12"), ("$-12", 1, "-12"),
    ("--12", 1, None), ("+-12", 1, None), ("-$-12", 1, None), ("$ 1,200.50", 10, "12005"), ("12 €", 1, "12"), ("£.5", 2, "1"),
    (" 7", 1, "7"), ("7\t", 1, "7"), ("\u00a07", 1, "7"), ("\u22123", 1, "-3"), ("\u22121.5", 2, "-3"), ("- 5", 1, "-5"),
    ("NA", 1, None), ("-", 1, None), (" ", 1, None), ("$", 1, None), (".", 1, None), ("n/a", 1, None), ("nan", 1, None), ("inf", 1, None),
    ("1_000", 1, None), ("0x10", 1, None), ("1/2", 2, None), ("1e", 1, None), ("1e5.5", 1, None), ("2026-03-14", 1, None),
    ("12:30", 1, None), ("\u0661", 1, None), ("1e99999", 1, None), ("9" * 2000, 1, None),
    (str(GREATEST), 1, str(GREATEST)), (f" {-GREATEST - 1}", 1, str(-GREATEST - 1)), (f"{GREATEST}.0", 1, str(GREATEST)),
    (str(-GREATEST - 1), 1, str(-GREATEST - 1)), ("0" * 38 + "7", 1, "0" * 38 + "7"), ("0" * 39 + "7", 1, "7"),
]

# a field, the scale, and the whole number that is nearest to it, the greater of two
ROUNDED = [
    ("2.5", 1, "3"), ("-2.5", 1, "-2"), ("2.4999", 1, "2"), ("-2.51", 1, "-3"), ("0.5", 1, "1"), ("-0.5", 1, "0"), ("-0.4", 1, "0"),
    ("1.005", 100, "101"), ("1.004", 100, "100"), ("12", "1.1", "13"), ("7", 1, "7"), ("", 1, ""), ("1e-300", 1, "0"), ("NA", 1, None),
    (f"{GREATEST}.4", 1, str(GREATEST)), (f"{-GREATEST - 1}.5", 1, str(-GREATEST - 1)),
]

# the same of fields with a comma before their fraction
WITH_COMMAS = [
    ("12,5", 10, "125"), ("1.090,50", 100, "109050"), ("1.090", 1, "1090"), ("1,5", 2, "3"), ("1,090.50", 100, None), ("7", 1, "7"),
    ("\u20ac 1,20", 10, "12"), (",5", 2, "1"), ("1.09", 1, None),
]

# a field, the scale, and what the fault says
FAULTS = [
    ("12.5", 1, "no whole number"), ("0.001", 100, "no whole number after the scaling"), ("1e-300", 1, "no whole number"),
    (str(GREATEST + 1), 1, "not within 128 bits"), ("1e39", 1, "not within 128 bits"), ("1e999", 1, "not within 128 bits"),
    (str(-GREATEST - 2), 1, "not within 128 bits"), ("1e37", 1000, "not within 128 bits"),
]

TABLE = 'id,"unit, price",note\r\n1,12.5,"a ""b"""\r\n\r\n2,NA,"two\nlines"\r3,,\xe5\n4,"1,200",\x85\n'

# words after the file's name, what the file holds, status, output, and a piece of the last line on the error output
CALLS = [
    (["unit, price", "--scale", "10", "--drop"], TABLE, 0, 'id,"unit, price",note\n1,125,"a ""b"""\n3,,\xe5\n4,12000,\x85\n', "4 read, 2 changed, 1 dropped, 0 filled"),
    (["unit, price", "--scale=10", "--fill", "-1"], TABLE, 0, 'id,"unit, price",note\n1,125,"a ""b"""\n2,-1,"two\nlines"\n3,,\xe5\n4,12000,\x85\n', "4 read, 2 changed, 0 dropped, 1 filled"),
    (["unit, price", "--scale", "10"], TABLE, 1, "", "row 2 (line 5): 'NA' is no number"),
    (["unit, price"], TABLE, 1, "", "row 1 (line 2): '12.5' is no whole number"),
    (["price"], TABLE, 1, "", "no column 'price', but 'id', 'unit, price', 'note'"),
    (["a"], "a,a\n1,2\n", 1, "", "more than one column 'a'"),
    (["w"], "id;w\n1;2\n", 1, "", "no column 'w', but 'id;w'"),
    (["w"], "a,w\n1,2\n3\n", 1, "", "row 2 (line 3): 1 field, where the header has 2"),
    (["w"], 'a,w\n1,2\n"3,4\n5,6\n', 1, "", "line 3: a quote is never closed"),
    (["w"], 'a,w\n1,"2"3\n', 1, "", "line 2: ',' expected after '\"'"),
    (["w"], "", 1, "", "there is no header"),
    (["w"], "\xff\xfea\x00", 1, "", "is in UTF-16"),
    (["w"], "\x1f\x8b\x08", 1, "", "is compressed"),
    (["w"], "\xef\xbb\xbfw\n 7\n", 0, "\xef\xbb\xbfw\n7\n", "1 read, 1 changed"),
    (["w"], 'w\n""\n', 0, 'w\n""\n', "1 read, 0 changed"),
    (["w"], "w\n", 0, "w\n", "0 read, 0 changed"),
    (["p\xe6ris".encode("latin-1")], "p\xe6ris\n1e3\n", 0, "p\xe6ris\n1000\n", "1 read, 1 changed"),
    (["w", "--drop", "--fill", "0"], "w\n1\n", 2, "", "not allowed with"),
    (["w", "--fill", "x"], "w\n1\n", 2, "", "no whole number within 128 bits"),
    (["w", "--scale", "x"], "w\n1\n", 2, "", "'x' is no number"),
    ([], "w\n1\n", 2, "", "COLUMN"),
    (["v", "w", "--scale", "10"], "v,w,x\n1.5,2,3\n,7,8\n", 0, "v,w,x\n15,20,3\n,70,8\n", "2 read, 2 changed, 0 dropped, 0 filled"),
    (["--scale=10", "w", "--drop", "v"], "v,w,x\nNA,2,3\n1,-,8\n1,1,NA\n", 0, "v,w,x\n10,10,NA\n", "3 read, 1 changed, 2 dropped, 0 filled"),
    (["v", "w"], "v,w\n1,2\n3,x\n", 1, "", "row 2 (line 3): 'x' is no number"),
    (["w", "v", "w"], "v,w\n1,2\n", 2, "", "the column 'w' is named twice"),
    (["w", "--round"], "w\n1.5\n-1.5\n2\n 4\n", 0, "w\n2\n-1\n2\n4\n", "4 read, 3 changed, 0 dropped, 0 filled, 2 rounded half up"),
    (["w", "--round"], f"w\n{GREATEST}.5\n", 1, "", "is not within 128 bits"),
    (["v", "w", "--drop-empty"], 'v,w\n1,2\n,3\n4,\n5,6\n', 0, "v,w\n1,2\n5,6\n", "4 read, 0 changed, 2 dropped, 0 filled"),
    (["v", "w", "--empty", "99", "--scale", "2"], 'v,w\n1,2\n,\n4,\n', 0, "v,w\n2,4\n99,99\n8,99\n", "3 read, 2 changed, 0 dropped, 2 filled"),
    (["w", "--drop", "--empty", "0"], 'v,w\n1,NA\n,\n', 0, "v,w\n,0\n", "2 read, 0 changed, 1 dropped, 1 filled"),
    (["w", "--fill", "7", "--drop-empty"], 'v,w\n1,NA\n,\n', 0, "v,w\n1,7\n", "2 read, 0 changed, 1 dropped, 1 filled"),
    (["w", "--drop-empty", "--empty", "0"], "w\n1\n", 2, "", "not allowed with"),
    (["w", "--delimiter", ";", "--decimal-comma", "--scale", "100"], 'v;w\na,b;1.090,50\n"x;y";2,5\n', 0, 'v,w\n"a,b",109050\nx;y,250\n',
     "2 read, 2 changed, 0 dropped, 0 filled"),
    (["w", "--delimiter", "\\t"], "v\tw\na\t1\n", 0, "v,w\na,1\n", "1 read, 0 changed"),
    (["w", "--delimiter", "ab"], "w\n1\n", 2, "", "one ASCII character"),
]


def tool():
    sys.dont_write_bytecode = True
    spec = importlib.util.spec_from_file_location("weights", TOOL)
    module = importlib.util.module_from_spec(spec)
    spec.loader.exec_module(module)
    return module


def given(scale=(1, 0), **options):
    """The arguments of a call, as far as they say what a field becomes."""
    options = {"round": False, "drop": False, "fill": None, "drop_empty": False, "empty": None, "decimal_comma": False, **options}
    return types.SimpleNamespace(scale=scale, **options)


def weight_of(weights, field, scale, **options):
    """What a field becomes, or None if it is no number."""
    scale = weights.number_of(scale) if isinstance(scale, str) else scale
    return weights.Weights(given(scale, **{"drop": True, **options}))[field][0]


def as_read(text):
    """A field as the tool reads it: the bytes of UTF-8 as Latin-1."""
    return text.encode().decode("latin-1")


def of_fields(weights):
    for field, scale, wanted in FIELDS:
        got = weight_of(weights, as_read(field), str(scale))
        yield f"field {field[:50]!r} times {scale}", wanted, got
    for field, scale, wanted in ROUNDED:
        yield f"field {field[:50]!r} times {scale}, rounded", wanted, weight_of(weights, as_read(field), str(scale), round=True)
    for field, scale, wanted in WITH_COMMAS:
        yield f"field {field[:50]!r} times {scale}, with a comma", wanted, weight_of(weights, as_read(field), str(scale), decimal_comma=True)
    for field, scale, wanted in FAULTS:
        try:
            got = weight_of(weights, as_read(field), str(scale))
        except weights.Fault as fault:
            got = str(fault)
        yield f"field {field[:50]!r} times {scale}", wanted, wanted if got and wanted in got else got


def of_decimals(weights):
    """Decimals that were made from whole numbers, scaled back to them."""
    rng = random.Random(1)
    decimal.getcontext().prec = 60
    for _ in range(2000):
        whole, places = rng.randint(-(10 ** rng.randint(1, 30)), 10 ** rng.randint(1, 30)), rng.randint(0, 6)
        number = decimal.Decimal(whole).scaleb(-places)
        text = rng.choice([f"{number:f}", f"{number:,f}", f"{number:E}"])
        other = rng.randint(-(10**5), 10**5)
        yield f"decimal {text}", str(whole), weight_of(weights, text, (10**places, 0)).lstrip("+")
        # Halves go up, so the nearest whole number is what is not above a half more.
        nearest = str(math.floor(fractions.Fraction(whole * other, 10**places) + fractions.Fraction(1, 2)))
        yield f"decimal {text} times {other}, rounded", nearest, weight_of(weights, text, str(other), round=True).lstrip("+")
        yield f"decimal {text} times {other}", str(whole * other), weight_of(weights, text, f"{other}e{places}")


def of_calls():
    with tempfile.TemporaryDirectory(prefix="anyk-weights-") as room:
        for words, content, *wanted in CALLS:
            with open(f"{room}/t.csv", "wb") as file:
                file.write(content.encode("latin-1"))
            ran = subprocess.run([sys.executable, TOOL, "t.csv", *words], cwd=room, stdin=subprocess.DEVNULL, capture_output=True, timeout=60)
            last = ran.stderr.decode("utf-8", "backslashreplace").strip().split("\n")[-1]
            got = [ran.returncode, ran.stdout.decode("latin-1"), wanted[2] if wanted[2] in last else last]
            yield f"call {words} over {content!r}", wanted, got
        ran = subprocess.run([sys.executable, TOOL, "-", "w"], input=b"w\n1.0\n", cwd=room, capture_output=True, timeout=60)
        yield "the standard input", (0, b"w\n1\n"), (ran.returncode, ran.stdout)
        ran = subprocess.run([sys.executable, TOOL, "--help"], cwd=room, stdin=subprocess.DEVNULL, capture_output=True, timeout=60)
        with open(f"{TOP}/tools/help/weights.txt", "rb") as page:
            yield "help", (0, page.read(), b""), (ran.returncode, ran.stdout, ran.stderr)
        ran = subprocess.run([sys.executable, TOOL, "none.csv", "w"], cwd=room, capture_output=True, timeout=60)
        yield "a file that is missing", (1, b"", b"weights: none.csv: No such file or directory\n"), (ran.returncode, ran.stdout, ran.stderr)


def of_streams():
    """Outputs that are closed or full, and an interrupt."""
    with tempfile.TemporaryDirectory(prefix="anyk-weights-") as room:
        with open(f"{room}/t.csv", "wb") as file:
            file.write(b"w\n1\n")
        for to, *wanted in ((">&-", 1, "", "weights: the output is closed\n"), ("> /dev/full", 1, "", "weights: the output: No space left on device\n"),
                            ("2>&-", 0, "w\n1\n", "")):
            ran = subprocess.run(["sh", "-c", f'exec "$@" {to}', "sh", sys.executable, TOOL, "t.csv", "w"], cwd=room, capture_output=True, text=True, timeout=60)
            yield f"call with {to}", wanted, [ran.returncode, ran.stdout, ran.stderr]
        begun = subprocess.Popen([sys.executable, TOOL, "/dev/stdin", "w"], cwd=room, stdin=subprocess.PIPE, stdout=subprocess.PIPE, stderr=subprocess.PIPE)
        # A line that is longer than a pipe is taken once the tool reads.
        begun.stdin.write(b"w" * 1_000_000)
        begun.send_signal(signal.SIGINT)
        yield "an interrupt", [(b"", b""), -signal.SIGINT], [begun.communicate(timeout=60), begun.returncode]


def main():
    arguments(__doc__, "")
    weights = tool()
    failed = count = 0
    for what, wanted, got in [*of_fields(weights), *of_decimals(weights), *of_calls(), *of_streams()]:
        count += 1
        if wanted != got:
            failed += 1
            print(f"weights: {what}: FAILED\n  wanted: {wanted!r}\n  got:    {got!r}")
    print(f"weights: {count} cases: " + (f"FAILED: {failed}" if failed else "passed"))
    return 1 if failed else 0


if __name__ == "__main__":
    sys.exit(main())
