#!/usr/bin/env python3
"""Holds what docs/ARCHITECTURE.md says of the crates, row by row, against crates.txt and the heads of the crates.

usage: tests/borders.py

A crate can name only the libraries that its line of crates.txt lists: `rt` refuses any other name. So a border between crates holds if
that file has it. These are looked at:

- crates.txt lists each folder of crates/, lowest first: what a crate names comes before it.
- The picture of the layers has each crate but those of tests, and none on its right reaches one on its left.
- The table 'The crates' has the same crates in the same order, and each head lib.rt hands out the names that its row has.
- Each row of the table 'What a crate must never know' holds. Its last column has one of the forms

      not over A B ..           none of these is reached from a crate of the row, through others too
      do not name A B ..        no line of a crate of the row has one of these
      names A B .. alone        the line of each crate of the row has these and no others
      named by A B .. alone     each crate of the row stands in the lines of these and of no others
      named by none

  The crates of tests, which only have tests, and the example of the library may name all that they use.
"""
import os
import re
import sys

sys.dont_write_bytecode = True
from arguments import TOP, arguments

PAGE = "docs/ARCHITECTURE.md"
TESTS = re.compile(r"\w+_tests|library_example")


def read(file):
    with open(f"{TOP}/{file}", encoding="utf-8") as it:
        return it.read()


def lines_of_crates():
    """What each crate of crates.txt names, in its order."""
    found = {}
    for line in read("crates.txt").split("\n"):
        crate, colon, names = line.partition("#")[0].partition(":")
        if colon:
            found[crate.split()[0]] = names.split()
    return found


def rows_of(page, title):
    """The rows of the table below a title, each as the texts of its columns."""
    section = page.partition(f"\n## {title}\n")[2].partition("\n## ")[0]
    rows = [[it.strip() for it in line.strip("|").split("|")] for line in section.split("\n") if line.startswith("|")]
    return rows[2:] or sys.exit(f"borders: FAILED: {PAGE} has no table below '{title}'")


def picture(page, named):
    """The two sides of the picture of the layers, and why they are not as it says, or None."""
    block = page.partition("\n## The layers\n")[2].partition("```\n")[2].partition("```")[0].split("\n")
    middle, side = block[0].find("of any tree"), {}
    for line in block:
        side.update({it[0]: it.start() >= middle for it in re.finditer(r"\w+", line) if it[0] in named})
    wrong = [f"{it} is not in it" for it in named if it not in side and not TESTS.fullmatch(it)]
    for crate in (it for it in named if side.get(it)):
        wrong += [f"{crate} is over {it}" for it in sorted(reached(crate, named)) if side.get(it) is False]
    yield "The right side of the picture knows nothing of the left", "; ".join(wrong) or None


def words(text):
    return re.findall(r"`([^`]+)`", text)


def reached(crate, named):
    """All that a crate stands on, through others too."""
    found, left = set(), [crate]
    while left:
        for it in named.get(left.pop(), []):
            if it not in found:
                found.add(it)
                left.append(it)
    return found


def why_not(crate, form, others, named):
    """Why a crate of a row does not keep what the row says, or None."""
    users = {it for it, names in named.items() if crate in names and not TESTS.fullmatch(it)}
    if form == "not over":
        wrong = reached(crate, named) & others
        return f"{crate} is over {' '.join(sorted(wrong))}" if wrong else None
    if form == "do not name":
        wrong = others & set(named[crate])
        return f"{crate} names {' '.join(sorted(wrong))}" if wrong else None
    if form == "names .. alone":
        return None if others == set(named[crate]) else f"{crate} names {' '.join(named[crate])}"
    if form in ("named by .. alone", "named by none"):
        return None if others == users else f"{crate} is named by {' '.join(sorted(users)) or 'none'}"
    return f"'{form}' is none of the forms"


def borders(page, named):
    """Each border with the sentence of its row, and why it does not hold, or None."""
    rule, libraries = "", {it for names in named.values() for it in names}
    for sentence, crates, by in rows_of(page, "What a crate must never know"):
        rule = sentence or rule
        form, others = " ".join(re.sub(r"(`[^`]+`\s*)+", " .. ", by).split()), set(words(by))
        form = form.removesuffix(" ..") if form.startswith(("not over", "do not")) else form
        unknown = {*words(crates), *others} - set(named) - libraries
        whys = [f"there is no {it}" for it in sorted(unknown)] or [why_not(it, form, others, named) for it in words(crates)]
        yield f"{rule} {crates}: {by}", "; ".join(filter(None, whys)) or None


def heads(page, named):
    """Each crate with the names of its row, and why its head does not hand them out, or None."""
    rows = {words(crate)[0]: words(names) for crate, _, names in rows_of(page, "The crates")}
    whys = None if list(rows) == list(named) else "the table has not the crates of crates.txt in their order"
    yield "The table of the crates", whys
    for crate, names in rows.items():
        file = f"crates/{crate}/src/lib.rt"
        text = read(file) if names else ""
        handed = {it for found in re.findall(r"^pub use ([^;]+);", text, re.M) for it in re.findall(r"\w+", found)}
        lacking = [it for it in names if it not in handed]
        yield f"{crate} hands out {', '.join(names)}", f"{file} has no {' '.join(lacking)}" if lacking else None


def order(named):
    """The order of crates.txt, and why it is another, or None."""
    before, wrong = set(), []
    for crate, names in named.items():
        wrong += [f"{crate} names {it}, which comes after it" for it in names if it in named and it not in before]
        before.add(crate)
    wrong += [f"{it} is on one side alone" for it in sorted(set(named) ^ set(os.listdir(f"{TOP}/crates")))]
    yield "crates.txt lists all crates, lowest first", "; ".join(wrong) or None


def main():
    arguments(__doc__)
    named, page = lines_of_crates(), read(PAGE)
    looked = failed = 0
    for what, why in [*order(named), *picture(page, named), *heads(page, named), *borders(page, named)]:
        looked += 1
        if why:
            failed += 1
            print(f"borders: FAILED: {what}\n  {why}")
    print(f"borders: {looked} rows: " + (f"FAILED: {failed}" if failed else "passed"))
    return 1 if failed else 0


if __name__ == "__main__":
    sys.exit(main())
