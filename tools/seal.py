#!/usr/bin/env python3
"""Writes the seal of a certificate: the SHA-256 of its query, of its tables and of itself.

usage: tools/seal.py --proof FILE QUERYFILE TABLE=FILE ..

The seal has the line `anyk-seal 1`, and then one line for each file: its SHA-256, a space, and
what it is. That is `query`, then `table NAME` for each table in the order of the names' bytes,
then `proof`. So the same files give the same bytes. tools/check_proof.py checks a seal by --seal.
Status 1 says that a file cannot be read, and status 2 that the arguments are not as above.
"""
import argparse
import hashlib
import os
import signal
import sys

# An isolated call of python3 does not look for modules in the folder of the script.
sys.path.insert(0, os.path.dirname(os.path.realpath(__file__)))

from ending import ended

class Fault(Exception):
    """What is wrong, as a line for the user."""


def digest_of(name):
    """The SHA-256 of a file's bytes."""
    sha = hashlib.sha256()
    with open(name, "rb") as file:
        for piece in iter(lambda: file.read(1 << 20), b""):
            sha.update(piece)
    return sha.hexdigest()


def table_of(word):
    """The name of a table and its file, from TABLE=FILE."""
    name, _, file = word.partition("=")
    if not name or not file:
        raise argparse.ArgumentTypeError(f"'{word}' is not TABLE=FILE")
    if "\n" in name or "\r" in name:
        raise argparse.ArgumentTypeError("a seal cannot have the name of a table with a line end")
    return name, file


def lines_of(query, tables, proof):
    """The lines of a seal."""
    named = sorted((b"table " + os.fsencode(name), file) for name, file in tables)
    yield b"anyk-seal 1\n"
    for what, file in [(b"query", query), *named, (b"proof", proof)]:
        yield digest_of(file).encode() + b" " + what + b"\n"


def arguments():
    does = "Writes the SHA-256 of a certificate, of its query and of its tables."
    parser = argparse.ArgumentParser(prog="anyk seal", description=does, allow_abbrev=False)
    parser.add_argument("--proof", metavar="FILE", required=True, help="the certificate")
    parser.add_argument("query", metavar="QUERYFILE", help="the file of the query")
    tables = {"nargs": "+", "type": table_of, "help": "a table and its file"}
    parser.add_argument("tables", metavar="TABLE=FILE", **tables)
    page = os.path.join(os.path.dirname(os.path.abspath(__file__)), "help", "seal.txt")
    if os.path.isfile(page):
        parser.format_help = lambda: read(page)
    given = parser.parse_intermixed_args()
    names = [name for name, _ in given.tables]
    if len(set(names)) < len(names):
        parser.error("a table has two files")
    return given


def read(page):
    with open(page, encoding="utf-8") as file:
        return file.read()


def main():
    if sys.stderr is None:
        # Else what is said would go to the output.
        sys.stderr = open(os.devnull, "w", encoding="utf-8")
    given = arguments()
    try:
        if sys.stdout is None:
            raise Fault("the output is closed")
        # (nothing is written if a file cannot be read)
        sys.stdout.buffer.write(b"".join(lines_of(given.query, given.tables, given.proof)))
        sys.stdout.buffer.flush()
    except Fault as fault:
        print(f"seal: {fault}", file=sys.stderr)
        return 1
    except OSError as error:
        print(f"seal: {error.filename or 'the output'}: {error.strerror}", file=sys.stderr)
        return 1
    return 0


if __name__ == "__main__":
    signal.signal(signal.SIGINT, signal.SIG_DFL)
    sys.exit(ended("seal", main))
