"""What is particular about a refusal of a certificate: whether it was made for another query or
from other tables.

Nothing to run: tools/hints.py imports it. Each function returns where the refusal is, and what is
particular about it.
"""
import os

from query_text import selects_of, written
from screen import shown
from table_files import bytes_of, is_file, kind_of_bytes, records


def lines_of_proof(call):
    return (bytes_of(call.proof) or b"").decode(errors="surrogateescape").split("\n")


def place(call, number):
    """What shows a line of the certificate."""
    return [
        f"line {number} of {shown(call.proof)}:",
        f"    {shown(lines_of_proof(call)[number - 1])}",
    ]


def changed_later(call):
    """The files that were written after the certificate, which may not be those that it was made
    from."""
    if not is_file(call.proof):
        return []
    made = os.stat(call.proof).st_mtime
    names = dict.fromkeys([call.query, *(file for _, file in call.tables)])
    later = [it for it in names if is_file(it) and os.stat(it).st_mtime > made]
    return [
        f"{shown(it)} was written after {shown(call.proof)}, which may be made from an earlier one"
        for it in later
    ]


def rows_of(call, table):
    """How many rows a table has, or None."""
    content = bytes_of(call.file_of(table))
    return None if content is None else max(sum(1 for _ in records(content)) - 1, 0)


def misfit(call, query, words):
    """What a line of a certificate has that this query or these tables cannot have."""
    items, kind, numbers = query.items(), words[0], [int(it) for it in words[1:] if it.isdigit()]
    if kind == "bound" and numbers and numbers[0] > len(items):
        return [
            f"the query has {len(items)} items and so no node {numbers[0]}: the certificate "
            "was made for another query"
        ]
    if kind == "answer" and len(numbers) != len(items):
        return [
            f"the query has {len(items)} items, and the line has {len(numbers)} rows: the "
            "certificate was made for another query"
        ]
    counts = {table: rows_of(call, table) for _, table, _ in items}
    if None in counts.values():
        return []
    if kind == "answer":
        for number, (_, table, _) in zip(numbers, items):
            if number > counts[table]:
                return [
                    f"the table {shown(written(table))} has no row {number}, but "
                    f"{counts[table]} rows: the certificate was made from another file"
                ]
    most = max(counts.values(), default=0)
    past = [it for it in numbers[1:] if it > most] if kind == "bound" else []
    return (
        [f"no table has a row {past[0]}: the certificate was made from other files"]
        if past
        else []
    )


def on_proof_line(call, query, number):
    if not is_file(call.proof):
        return [], []
    words = (lines_of_proof(call)[number - 1]).split(" ")
    return place(call, number), misfit(call, query, words) or [
        *changed_later(call),
        *other_input(words),
    ]


def other_input(words):
    """What is said of a line that has a form of a certificate, and does not fit."""
    return (
        ["it may be made from other tables or for another query"]
        if words[0] in ("bound", "answer") and len(words) > 1
        else []
    )


def on_unlisted(call, query, *numbers):
    return [], [
        *changed_later(call),
        "it may be made from other tables or for another query, or be changed since",
    ]


def on_proof_count(call, query):
    answers = sum(it.startswith("answer ") for it in lines_of_proof(call))
    limit = selects_of(query)[-1].limit
    what = f"has LIMIT {shown(limit)}" if limit else "has no LIMIT"
    return [f"{shown(call.proof)} has {answers} answers, and the query {what}"], changed_later(
        call
    )


def on_bad_proof(call, query):
    if not is_file(call.proof):
        return [], []
    head = bytes_of(call.proof, 4096)
    kind = kind_of_bytes(head)
    if kind or not head:
        return [], [
            f"{shown(call.proof)}: {kind}"
            if kind
            else f"{shown(call.proof)} is empty; was anyk prove refused?"
        ]
    return place(call, 1), []
