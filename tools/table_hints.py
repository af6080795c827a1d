"""What is particular about a refusal of a table.

Nothing to run: tools/hints.py imports it. Each function returns where the refusal is, and what is
particular about it.
"""
import re
import shlex

from query_text import written
from screen import listed, plain, shown
from table_files import bytes_of, count_lines, header_of, kind_of, lines_at, quotes_of, record_of


# The forms of fields that are usual where a weight is needed; what is said of them, and what mends
# them: the options of anyk weights, and what it does.
FLAWS = (
    (
        r"[+-]?[0-9]*\.(?P<part>[0-9]{1,9})",
        "a fraction",
        " --scale {}",
        "makes it whole, as amounts in cents",
    ),
    (
        r"[+-]?[0-9.]+,(?P<part>[0-9]{1,2})",
        "a decimal comma",
        " --decimal-comma --scale {}",
        "makes it whole",
    ),
    (r"\s*[+-]?[0-9]+\s*", "a space beside the number", "", "takes it away"),
    (r"[+-]?[0-9]{1,3}(,[0-9]{3})+", "commas between its digits", "", "takes them away"),
    (
        r"[+-]?[0-9]{1,3}([ .'_][0-9]{3})+",
        "another character between its digits",
        None,
        None,
    ),
    (r"[+-]?[0-9.]+[eE][+-]?[0-9]+", "a number with an exponent", "", "writes its digits"),
    (r"[$€£¥] ?[0-9,]+|[0-9,]+ ?[$€£¥]", "a sign of a currency", "", "takes it away"),
    (r"[^0-9]{1,20}", "no number", " --drop", "leaves such rows out"),
)


def kind_lines(file):
    """What else than a table a file is, as the lines of a hint."""
    kind = kind_of(file)
    return [f"{shown(file)}: {kind}"] if kind else []


def on_no_header(call, query, name):
    file = call.file_of(name)
    content = bytes_of(file)
    if content is None:
        return [f"the file is {shown(file)}"], []
    return [], kind_lines(file) or [
        f"the file is {shown(file)}, which {'has only empty lines' if content else 'is empty'}"
    ]


def on_name_twice(call, query, name, column):
    file = call.file_of(name)
    names = header_of(file)
    called = names[column - 1]
    what = f"the name {shown(written(called))}" if called else "an empty name"
    return [], kind_lines(file) or [
        f"columns {names.index(called) + 1} and {column} of {shown(file)} have {what}: rename "
        "one in the header"
    ]


def on_many_columns(call, query, name):
    file = call.file_of(name)
    return [f"the header of {shown(file)} has {len(header_of(file))}"], kind_lines(file)


def on_ragged(call, query, name, row):
    file = call.file_of(name)
    kind = kind_lines(file)
    if kind:
        return [], kind
    record, width = record_of(file, row), len(header_of(file))
    if record is None:
        return [], []
    raw = lines_at(bytes_of(file), record.line, record.last)
    first = raw.splitlines()[0] if raw.strip() else b""
    where = [
        f"line {record.line} of {shown(file)}, with {len(record.fields)} where the header has "
        f"{width}:",
        f"    {shown(plain(first))}",
    ]
    return where, quote_flaw(raw, record) or comma_flaw(record.fields, width)


def quote_flaw(raw, record):
    """What the quotes of a record have to do with its wrong number of fields."""
    for at, close in quotes_of(raw):
        line = record.line + count_lines(raw[:at])
        if close is None:
            return [f"the quote of line {line} is never closed"]
        last = line + count_lines(raw[at:close])
        if last > line:
            return [
                f"the quote of line {line} is closed in line {last}: what is between is one field"
            ]
    return []


def comma_flaw(fields, width):
    """What a field or a comma too many may come from."""
    if any(re.match(r'[ \t]+"', it) for it in fields):
        return ["a quote counts only at the beginning of a field: leave out the blank before it"]
    if len(fields) == width + 1 and fields[-1] == "":
        return ["the line ends with a comma too many"]
    if len(fields) > width:
        return ["a field with a comma in it needs double quotes round it"]
    return []


def on_no_weight(call, query, number, row, column):
    _, table, _ = query.items()[number - 1]
    file = call.file_of(table)
    record = record_of(file, row) if query.is_one else None
    if record is None:
        return [], []
    name, field = header_of(file)[column - 1], record.fields[column - 1]
    what = (
        f"{shown(file)} line {record.line}, column {shown(written(name))}: "
        f"{shown(repr(field))} is not a whole number"
    )
    return [what], why_no_weight(field, f"{shlex.quote(file)} {shlex.quote(name)} > ready.csv")


def why_no_weight(field, rest):
    """What is wrong with a field that is no weight, if it is usual, and the call that mends it."""
    if re.fullmatch(r"[+-]?[0-9]+", field):
        return ["it is not within 128 bits or has more than 39 digits"]
    for form, what, options, deed in FLAWS:
        found = re.fullmatch(form, field)
        if found and options is None:
            return [what]
        if found:
            # Two digits after the point are what most amounts have.
            scale = 10 ** max(len(found["part"]), 2) if "part" in found.groupdict() else None
            options = options.format(scale)
            # The call is shown whole, so that it can be copied.
            call = f"anyk weights{options} {rest if rest.isprintable() else shown(rest)}"
            return [f"{what}; {call} {deed}"]
    return []
