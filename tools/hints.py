#!/usr/bin/env python3
"""Tells a person what a refusal of the program means: where it is in the query, what the numbers
in it name, and what to do.

usage: tools/hints.py STATUS LINE ARGUMENT ..

STATUS and LINE are what the program ended with and wrote, and the rest are the arguments of its
call. A hint comes after the program's line, and repeats nothing of it. With status 16 the launcher
writes one, and the hint has each argument that is not text. If nothing particular is found, the
hint has the sentences of the tables in 'Refusals' of docs/MESSAGES.md, which are only there. What
cannot be found, for example since a file has changed, is left out.
"""
import os
import re
import shlex
import sys

# An isolated call of python3 does not look for modules in the folder of the script.
HERE = os.path.dirname(os.path.realpath(__file__))
sys.path.insert(0, HERE)

from cyclic_hints import first_pair
from ending import ended
from proof_hints import on_bad_proof, on_proof_count, on_proof_line, on_unlisted
from query_text import Call, Query, selects_of, written
from screen import folded, listed, shown
from syntax_hints import JOINS, MISSING, file_for_table, meant, nearest
from table_files import bytes_of, header_of, is_file, kind_of, record_of
from table_hints import on_many_columns, on_name_twice, on_no_header, on_no_weight, on_ragged
from usage_hints import (
    MISPLACED,
    QUERY_COMMAND,
    STANDARD_INPUT,
    is_guessed,
    is_select,
    wrong_words,
)

PLACE = "(the section is in "
# Beside the sources, and where the program is installed.
PAGES = (f"{HERE}/../docs/MESSAGES.md", f"{HERE}/../doc/anyk/MESSAGES.md")


def perhaps(name, known, least=0.6, form=written):
    """What ends a sentence about an unknown name: the known one that may be meant, in the form in
    which it is written."""
    found = nearest(name, [it for it in known if it != name], least) if name is not None else None
    return f"; perhaps {shown(form(found))} is meant" if found else ""


def item_named(query, number):
    """What an item is: its alias and its table."""
    if not query.is_one:
        return None
    items = query.items()
    if not 1 <= number <= len(items):
        return None
    _, table, alias = items[number - 1]
    alias, table = shown(written(alias)), shown(written(table))
    return alias if alias == table else f"{alias} (table {table})"


def on_syntax(call, query, at):
    place = query.place_of(at)
    if place is not None and query.words[place] == b"union" and call.command != "run":
        return query.caret(at), [
            f"{call.command} takes one query: put each branch into a file of its own"
        ]
    sentence, at = meant(query, at)
    return query.caret(at), [sentence] if sentence else []


def on_limit(call, query, at):
    return query.caret(at), []


def on_unknown_table(call, query, at):
    name, known = query.name_at(query.place_of(at)), [it for it, _ in call.tables]
    if name is not None and (
        os.path.splitext(name)[1] in (".csv", ".tsv", ".txt", ".gz") or os.sep in name
    ):
        return query.caret(at), [file_for_table(name)]
    tables, guess = "table" if len(known) == 1 else "tables", perhaps(name, known)
    missing = (
        []
        if guess or name is None
        else [f"an argument {shown(shlex.quote(f'{name}=FILE'))} is missing"]
    )
    return query.caret(at), [
        f"the arguments name the {tables} {listed(map(written, known))}{guess}",
        *missing,
    ]


def on_alias_twice(call, query, number):
    at, _, alias = query.items()[number - 1]
    first = [it for _, _, it in query.items()].index(alias) + 1
    return query.caret(at), [
        f"item {first} has the alias {shown(written(alias))} too: give this one another"
    ]


def items_like(query, items, name, form=written):
    """The aliases of the items, and which of them a name that is none may mean."""
    aliases = [alias for _, _, alias in items]
    tables = [alias for _, table, alias in items if table == name]
    joins = [
        it
        for it in aliases
        if it.lower() in JOINS and (it.encode(), b"join") in zip(query.words, query.words[1:])
    ]
    if joins:
        return [f"there is {MISSING[joins[0].lower()]}: {joins[0]} is taken for an alias"]
    called = (
        f"; the table {shown(form(name))} is called {listed(map(form, tables))} there"
        if tables
        else ""
    )
    return (
        [
            "the items are "
            f"{listed(map(form, aliases))}{called or perhaps(name, aliases, form=form)}"
        ]
        if items
        else []
    )


def on_unknown_alias(call, query, at):
    return query.caret(at), items_like(query, query.items(at), query.name_at(query.place_of(at)))


def on_unknown_best(call, query):
    # The option has the name itself, and the shell takes its quotes.
    return (
        [],
        items_like(query, query.items(), dict(call.options).get("--best-of"), shlex.quote)
        if query.is_one
        else [],
    )


def on_unknown_column(call, query, at):
    place, where = query.place_of(at), query.caret(at)
    if place is None:
        return where, []
    first, items = query.name_at(place), query.items(at)
    has_alias = query.words[place + 1 : place + 2] == [b"."]
    name = query.name_at(place + 2) if has_alias else first
    files = {
        table: call.file_of(table) for _, table, alias in items if not has_alias or alias == first
    }
    known = {table: header_of(file) for table, file in files.items() if file}
    kinds = {table: kind_of(files[table]) for table in known}
    for table, names in known.items():
        if not kinds[table]:
            where.append(
                f"the table {shown(written(table))} ({shown(files[table])}) has the columns "
                f"{listed(map(written, names))}"
            )
    why = [f"{shown(files[table])}: {kinds[table]}" for table in known if kinds[table]]
    every = list(
        dict.fromkeys(it for table, names in known.items() if not kinds[table] for it in names)
    )
    return where, why or column_meant(query, place, name, every, has_alias)


def column_meant(query, place, name, known, has_alias):
    """What may be meant by a name that is no column of these."""
    if name is None:
        return []
    guess = nearest(name, [it for it in known if it != name])
    if guess is not None and '"' in guess:
        return [
            f"the name {shown(guess)} has a double quote, so that no query can write it: "
            "rename the column in the header"
        ]
    is_same = guess is not None and guess.strip().lower() == name.strip().lower()
    is_quoted = query.words[place][:1] == b'"'
    is_value = query.words[place - 1 : place] == [b"="] and not has_alias
    if not is_same and not has_alias and name.lower() in ("null", "true", "false"):
        return [
            f"there is no {name.upper()}: a field is equal to a string in single quotes, and "
            "an empty one to ''"
        ]
    if not is_same and is_value and (is_quoted or guess is None):
        return [f"a string is written in single quotes: {shown(quoted(name))}"]
    return [perhaps(name, known)[2:]] if guess is not None else []


def quoted(text):
    """A text as a string of a query."""
    return "'" + text.replace("'", "''") + "'"


def on_ambiguous(call, query, at):
    name = query.name_at(query.place_of(at))
    having = [
        alias
        for _, table, alias in query.items(at)
        if name in header_of(call.file_of(table) or "")
    ]
    ways = " or ".join(f"{shown(written(it))}.{shown(written(name))}" for it in having)
    return query.caret(at), [f"write {ways}"] if having else []


def on_cyclic(call, query, *numbers):
    named = [item_named(query, it) for it in numbers]
    lines = [f"item {number} is {it}" for number, it in zip(numbers, named) if it]
    try:
        return lines + first_pair(call, query, numbers), []
    except Exception:
        # As when a table comes from a pipe.
        return lines, []


def on_shape(call, query, number):
    """What the first select and another one have of each, as far as they differ."""
    first, other = (selects_of(query)[it] for it in (0, number - 1))
    counts = [None if it.columns is None else len(it.columns) for it in (first, other)]
    if None not in counts and counts[0] != counts[1]:
        return [], [
            f"branch 1 selects {many(counts[0], 'column')}, and branch {number} {counts[1]}"
        ]
    if len(first.keys) != len(other.keys):
        return [], [
            f"branch 1 has {many(len(first.keys), 'order key')}, and branch {number} "
            f"{len(other.keys)}"
        ]
    for place, (one, another) in enumerate(zip(first.keys, other.keys), 1):
        if one[1] != another[1]:
            ways = ["DESC" if it[1] else "ASC" for it in (one, another)]
            return [], [
                f"order key {place} is {ways[0]} in branch 1 and {ways[1]} in branch {number}"
            ]
    return [], []


def many(count, what):
    return f"{count} {what}{'' if count == 1 else 's'}"


def on_range(call, query, number):
    return [f"order key {number} is {shown(query.keys()[number - 1])}"] if query.is_one else [], []


def on_many_items(call, query):
    return [f"there are {len(query.items())}"] if query.is_one else [], []


def on_many_keys(call, query):
    return [f"there are {len(query.keys())}"] if query.is_one else [], []


def on_long_query(call, query):
    return [f"{shown(query.file)} has {os.path.getsize(query.file)} bytes"] if is_file(
        query.file
    ) else [], []


def on_long_file(call, query, name):
    kind = kind_of(name)
    return [f"it has {os.path.getsize(name)} bytes"] if is_file(name) else [], [
        f"{shown(name)}: {kind}"
    ] if kind else []


def line_of(file, number):
    """The lines of a script up to the number, and what shows the last of them."""
    rows = (bytes_of(file) or b"").decode(errors="surrogateescape").split("\n")
    rows = [it[:-1] if it.endswith("\r") else it for it in rows[:number]]
    return rows, [f"line {number} of {shown(file)}:", f"    {shown(rows[number - 1])}"]


def cursors_before(rows):
    """The cursors that are open at the end of the lines, each with the number of the line that
    opened it."""
    is_open = {}
    for number, row in enumerate(rows, 1):
        verb, *names = row.split(" ")
        if verb in ("open", "fork") and names:
            is_open[names[-1]] = number
        elif verb == "close" and names:
            is_open.pop(names[0], None)
    return is_open


def on_bad_line(call, query, number):
    rows, lines = line_of(call.script, number)
    form = (
        "a line is open NAME, next NAME M, fork NAME NEW, rewind NAME, close NAME, empty, or "
        "# and anything"
    )
    return [*lines, form], ["there is one blank between its parts"] if "  " in rows[-1] or rows[
        -1
    ] != rows[-1].strip() else []


def on_unknown_cursor(call, query, number):
    rows, lines = line_of(call.script, number)
    known = list(cursors_before(rows[:-1]))
    name = (rows[-1].split(" ") + [""])[1]
    return lines, [
        (f"open there: {listed(known)}" if known else "no cursor is open there")
        + perhaps(name, known, form=str)
    ]


def on_cursor_exists(call, query, number):
    rows, lines = line_of(call.script, number)
    name = rows[-1].split(" ")[-1]
    opened = cursors_before(rows[:-1]).get(name)
    return lines, [f"{shown(name)} was opened in line {opened}"] if opened else []


def on_many_cursors(call, query, number):
    return line_of(call.script, number)[1], []


def on_not_found(call, query, name):
    if name == call.query and is_select(name):
        return [], [QUERY_COMMAND]
    if name == "-":
        return [], [STANDARD_INPUT]
    if name == call.query and "=" in name:
        return [], [MISPLACED]
    if name.startswith("~"):
        return [], ["the shell left ~ as it is there: write $HOME in its place"]
    folder, last = os.path.split(name)
    try:
        found = nearest(last, os.listdir(folder or "."))
    except OSError:
        return [], [f"there is no folder {shown(folder)}"]
    return [], [f"perhaps {shown(os.path.join(folder, found))} is meant"] if found else []


def on_read_failed(call, query, name):
    if os.path.isdir(name):
        return [], ["it is a folder"]
    try:
        os.stat(name)
    except OSError as error:
        return [], [f"the system says: {error.strerror}"]
    return [], [] if os.access(name, os.R_OK) else ["this user may not read it"]


def on_write_failed(call, query):
    return [], [
        "a reader that stops early, such as head, does no harm: what it read is right. LIMIT "
        "asks for fewer answers"
    ]


def on_usage(call, query):
    return [], wrong_words(call)


def form_of_call(call):
    """The forms of a call, as the page of help of the command begins with them."""
    command = (
        call.command
        if os.path.isfile(f"{HERE}/help/{call.command}.txt") and call.command.isalpha()
        else "anyk"
    )
    with open(f"{HERE}/help/{command}.txt", encoding="utf-8") as page:
        text = page.read().partition("\n\n")[0]
    return [line for row in text.split("\n") for line in folded(f"  {row.rstrip()}", 13)]


# What says more about a refusal, by its line in the page: where it is, and what is particular
# about it. The sentences of the page follow if nothing is.
TELLERS = {
    "usage": on_usage,
    "syntax error at byte {at}": on_syntax,
    "script line {n}: bad line": on_bad_line,
    "script line {n}: unknown cursor": on_unknown_cursor,
    "script line {n}: cursor exists": on_cursor_exists,
    "script line {n}: more than 64 cursors": on_many_cursors,
    "proof: bad header": on_bad_proof,
    **{
        f"proof line {{n}}: {it}": on_proof_line
        for it in ("bad line", "no solution", "bound twice", "no answer", "not in order")
    },
    "proof node {n}: bound missing or too high": on_unlisted,
    "proof: wrong number of answers": on_proof_count,
    "proof: unlisted answer": on_unlisted,
    "byte {at}: unknown table": on_unknown_table,
    "item {i}: alias used twice": on_alias_twice,
    "byte {at}: unknown alias": on_unknown_alias,
    "byte {at}: unknown column": on_unknown_column,
    "byte {at}: ambiguous column": on_ambiguous,
    "unknown alias in --best-of": on_unknown_best,
    "table {name}: no header": on_no_header,
    "table {name}: column {c}: name used twice": on_name_twice,
    "table {name}: row {r}: wrong number of fields": on_ragged,
    "item {i}: row {r}: column {c}: not a weight": on_no_weight,
    "cyclic query: items {i} {i} ..": on_cyclic,
    "order key {k}: rank may pass 128 bits": on_range,
    "branch {b}: shape differs": on_shape,
    "query longer than 65536 bytes": on_long_query,
    "more than 16 items": on_many_items,
    "more than 8 order keys": on_many_keys,
    "limit at byte {at} out of range": on_limit,
    "file {name} longer than 67108864 bytes": on_long_file,
    "table {name}: more than 64 columns": on_many_columns,
    "file {name}: not found": on_not_found,
    "file {name}: read failed": on_read_failed,
    "write failed": on_write_failed,
}


def refusals(page):
    """The refusals that the page lists: the form of the line, what it means and what to do."""
    section = page.partition("\n## Refusals\n")[2].partition("\n## ")[0]
    return re.findall(r"(?m)^\| (?:\d+ \| )?`([^`]+)` \| (.+?) \| (.+?) \|$", section)


def pattern_of(form):
    """What takes the numbers and names out of a line of this form."""
    if form.endswith(" .."):
        form = form.partition(" {")[0] + " {list}"
    escaped = re.sub(
        r"\\\{(\w+)\\\}",
        lambda it: {"name": "(.*)", "list": "([0-9 ]+)"}.get(it[1], "([0-9]+)"),
        re.escape(form),
    )
    return re.compile(escaped, re.S)


def told(form, values, call, branch=None):
    """Where a refusal is, and what is particular about it. The values are the name in its line, if
    it has one, and numbers."""
    names = values[:1] if "{name}" in form else ()
    numbers = [int(it) for value in values[len(names) :] for it in value.split()]
    try:
        return (
            TELLERS[form](call, Query(call.query, branch), *names, *numbers)
            if form in TELLERS
            else ([], [])
        )
    except Exception:
        # As when a file was changed meanwhile.
        return [], []


def without_branch(line):
    """What a line says after the number of a branch, if it begins with one."""
    return re.sub(r"^branch [0-9]+: ", "", line)


def branch_of(line):
    found = re.match(r"branch ([0-9]{1,9}): ", line)
    return int(found[1]) if found else None


def sentence(text):
    """A cell of a table of the page as a sentence."""
    text = text.replace("`", "").replace("\\|", "|").strip()
    return text[:1].upper() + text[1:] + ("" if text.endswith((".", ":")) else ".")


def general(meaning, remedy, page):
    """The sentences of the page about a refusal."""
    yield f"{sentence(meaning)} {sentence(remedy)}"
    named = re.search("'[A-Z][^']*' (?:in|of) ([A-Z]+[.]md)", f"{meaning} {remedy}")
    if named:
        yield f"{PLACE}{os.path.normpath(f'{os.path.dirname(page)}/{named[1]}')})"


def hint_lines(line, words):
    """The lines of a hint for a line of the program."""
    said, call = line[len("anyk: ") :], Call(words)
    page = next((it for it in PAGES if os.path.isfile(it)), None)
    if not line.startswith("anyk: ") or not page:
        return
    with open(page, encoding="utf-8") as it:
        known = refusals(it.read())
    for form, meaning, remedy in known:
        whole = pattern_of(form).fullmatch(said)
        found = whole or pattern_of(form).fullmatch(without_branch(said))
        if found:
            where, why = told(form, found.groups(), call, None if whole else branch_of(said))
            for it in [*where, *(why or general(meaning, remedy, page))]:
                # What is shown of a file stays in one line, and so does the name of one.
                is_whole = it.startswith(("    ", PLACE))
                yield from [f"  {it}"] if is_whole else folded(f"  {it}", 4)
            if form == "usage" and not is_guessed(call):
                yield from form_of_call(call)
            return


def main(status, line, *words):
    sys.stdout.reconfigure(errors="backslashreplace")
    if status == "16":
        for number, it in enumerate(words, 1):
            if re.search("[\udc80-\udcff]", it):
                print(f"  argument {number} is {shown(it)}")
        return
    for it in hint_lines(line, words):
        print(it)


if __name__ == "__main__":
    if sys.argv[1:2] in (["-h"], ["--help"]):
        sys.exit(ended("hints", lambda: print(__doc__.strip())))
    if len(sys.argv) < 3:
        sys.exit("hints: a status and a line are needed")
    sys.exit(ended("hints", lambda: main(*sys.argv[1:])))
