#!/usr/bin/env python3
"""Makes meanings.csv, postings.csv and kinds.csv of this folder.

usage: examples/wordnet/make.py FILE

FILE is data.noun of WordNet 3.0. The meanings of its lexicographer file noun.food are kept. A posting is a word of a definition with
its score: a thousand, divided by the number of words in the definition and rounded down, once for each time that the word stands there.
A kind is a broader meaning of a meaning.
"""
import collections
import csv
import os
import re
import sys

HERE = os.path.dirname(os.path.abspath(__file__))
FOOD = "13"


def write(name, rows):
    with open(f"{HERE}/{name}", "w", encoding="utf-8", newline="") as file:
        csv.writer(file, lineterminator="\n").writerows(rows)


def main():
    meanings, postings, kinds = [("meaning", "words", "definition")], [("word", "meaning", "score")], [("meaning", "kind")]
    with open(sys.argv[1], encoding="latin-1") as file:
        lines = [it for it in file if not it.startswith(" ")]
    for line in lines:
        data, gloss = line.split(" | ", 1)
        fields = data.split()
        if fields[1] != FOOD:
            continue
        count = int(fields[3], 16)
        words = [it.replace("_", " ") for it in fields[4 : 4 + 2 * count : 2]]
        definition = gloss.split('; "')[0].strip()
        meanings.append((fields[0], ", ".join(words), definition))
        found = re.findall("[a-z]+", definition.lower())
        postings += [(word, fields[0], times * (1000 // len(found))) for word, times in sorted(collections.Counter(found).items())]
        pointers = fields[5 + 2 * count :]
        starts = range(0, 4 * int(fields[4 + 2 * count]), 4)
        kinds += [(fields[0], pointers[it + 1]) for it in starts if pointers[it] in ("@", "@i") and pointers[it + 2] == "n"]
    write("meanings.csv", meanings)
    write("postings.csv", postings)
    write("kinds.csv", kinds)


if __name__ == "__main__":
    main()
