"""What is wrong with the arguments of a call, as far as that is plain.

Nothing to run: tools/hints.py imports it.
"""
import os
import re
import shlex

from screen import shown
from syntax_hints import nearest

COMMANDS = ("run", "session", "plan", "picture", "prove", "verify", "load")
# What the launcher does without the program.
TOOLS = ("query", "check", "weights", "merge", "pairs", "seal", "check-proof")
# What the launcher of a checkout does, and no installed one.
OF_CHECKOUTS = ("build", "install", "release")
OTHERS = (*TOOLS, "help", "version", "build", "install", "uninstall", "release")
# What `query` takes and `run` does not.
OPTIONS_OF_QUERY = ("--limit", "--json", "--table", "--delimiter", "--tsv")
OPTIONS = {
    "run": ("--engine", "--ranks", "--rows", "--best-of"),
    "session": ("--engine", "--ranks", "--rows", "--best-of", "--script"),
    "plan": (),
    "picture": ("--dot",),
    "prove": ("--engine",),
    "verify": ("--ranks", "--rows", "--proof"),
    "load": ("--engine", "--number", "--rows"),
}
NEEDED = {"session": ("--script",), "verify": ("--proof",), "load": ("--number", "--rows")}
# The numbers that `load` takes.
RANGES = {"--number": (0, 2147483647), "--rows": (1, 100000)}
MISPLACED = "QUERYFILE is missing: it comes before the first TABLE=FILE"
QUERY_COMMAND = (
    "QUERYFILE is the name of a file; anyk query 'SELECT ..' TABLE=FILE .. takes the query itself"
)
STANDARD_INPUT = "- is no file: the standard input is /dev/stdin"


def is_select(word):
    """Whether an argument is a query itself."""
    return bool(re.match(r"(?i)\s*select\s", word))


def perhaps(name, known):
    found = nearest(name, [it for it in known if it != name])
    return f"; perhaps {found} is meant" if found else ""


def is_within(value, least, most):
    """Whether an argument is a whole number in this range, as `load` reads it."""
    return bool(re.fullmatch("0|[1-9][0-9]{0,9}", value or "")) and least <= int(value) <= most


def table_of(file):
    """The name of a table that a file suggests: its own, without the ending."""
    return os.path.basename(file).partition(".")[0]


def is_table_file(word):
    return (
        "=" not in word
        and bool(table_of(word))
        and (os.path.isfile(word) or word.endswith((".csv", ".tsv")))
    )


def wrong_words(call):
    """What is wrong with the arguments."""
    if call.command in ("help", "--help", "-h"):
        return [
            "there is no page of help for these arguments: call help alone, or with the name "
            "of one command"
        ]
    if call.command not in COMMANDS:
        return [wrong_command(call)]
    if ("--help", None) in call.options or "-h" in call.plain:
        return [f"anyk help {call.command} prints the page of {call.command}"]
    lines = wrong_options(call)
    if call.command == "load":
        return lines + ([f"{shown(call.plain[0])}: load reads no files"] if call.plain else [])
    return lines + wrong_files(call)


def wrong_command(call):
    """What is said of a first argument that is no command."""
    word = call.command
    if word in OF_CHECKOUTS:
        return f"only ./anyk in a checkout has the command {word}"
    if word in ("version", "--version", "-V") and call.plain:
        return f"{word} takes no arguments"
    if is_select(word):
        return QUERY_COMMAND.replace(
            "QUERYFILE is the name of a file", f"{shown(word)} is not a command"
        )
    if word.endswith(".sql") or os.path.isfile(word) and not word.endswith(".csv"):
        files = [f"{table_of(it)}={it}" if is_table_file(it) else it for it in call.plain] or [
            "TABLE=FILE",
            "..",
        ]
        whole = " ".join(
            shlex.quote(it) if it != ".." else it for it in ("anyk", "run", word, *files)
        )
        return f"the command is missing before {shown(word)}; perhaps {shown(whole)} is meant"
    guess = "" if word.startswith("-") else perhaps(word, COMMANDS + OTHERS)
    return f"{shown(word) or 'an empty argument'} is not a command{guess}"


def is_guessed(call):
    """Whether the command is wrong and a better one is said: the list of all is not needed then."""
    is_help = call.command in ("help", "--help", "-h")
    return (
        not is_help
        and call.command not in COMMANDS
        and not wrong_command(call).endswith(" is not a command")
    )


def wrong_value(call, name, value):
    """What is wrong with the value of an option that the command has, or None."""
    if name == "--engine" and value not in ("part", "rec"):
        return "--engine takes part or rec"
    if name == "--best-of" and value is None:
        return "--best-of takes the alias of an item"
    if value is not None and (
        name in ("--ranks", "--dot") or name == "--rows" and call.command != "load"
    ):
        return f"{name} takes no value"
    if call.command == "load" and name in RANGES and not is_within(value, *RANGES[name]):
        return f"{name} takes a whole number from {RANGES[name][0]} to {RANGES[name][1]}"
    return None


def wrong_options(call):
    known, lines, seen = OPTIONS[call.command], [], set()
    for name, value in call.options:
        if name not in known:
            guess = perhaps(name, known)
            if call.command == "run" and name in OPTIONS_OF_QUERY:
                guess = ", but of query: anyk help query prints its page"
            lines.append(f"{shown(name)} is not an option of {call.command}{guess}")
        elif name in seen:
            lines.append(f"{name} is given twice")
        else:
            lines += [it for it in [wrong_value(call, name, value)] if it]
        seen.add(name)
    return lines + [f"{it} is missing" for it in NEEDED.get(call.command, ()) if it not in seen]


def wrong_files(call):
    """What is wrong with QUERYFILE and the arguments after it."""
    lines = [
        f"{shown(it)} is not an option" for it in call.plain if it.startswith("-") and len(it) > 1
    ]
    if not call.plain:
        return [*lines, "QUERYFILE and TABLE=FILE are missing"]
    if is_select(call.query):
        lines.append(QUERY_COMMAND)
    elif call.query == "-":
        lines.append(STANDARD_INPUT)
    if len(call.plain) == 1:
        is_table = (
            "=" in call.query and not is_select(call.query) and not os.path.exists(call.query)
        )
        lines.append(
            MISPLACED if is_table else "TABLE=FILE is missing: each table of the query needs one"
        )
    if call.plain.count("=") and len(call.plain) > 3:
        lines.append("no blank stands beside the = of TABLE=FILE")
    lines += [wrong_form(it) for it in call.plain[1:] if not re.match("[^=]+=.", it, re.S)]
    names = [name for name, _ in call.tables]
    return lines + [
        f"the table {shown(it)} is given twice"
        for it in dict.fromkeys(names)
        if it and names.count(it) > 1
    ]


def wrong_form(word):
    """What is said of an argument that is not of the form TABLE=FILE."""
    guess = (
        f"; perhaps {shown(shlex.quote(f'{table_of(word)}={word}'))} is meant"
        if is_table_file(word)
        else ""
    )
    return f"{shown(word) or 'an empty argument'} is not of the form TABLE=FILE{guess}"
