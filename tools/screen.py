"""How tools show names and lines on a terminal.

Nothing to run: tools/hints.py and others import it.
"""
import os
import unicodedata

# The most characters of a name, and of a line of a file.
WIDTH = 72
SHOWN = 16


def shown(text):
    """A text as a terminal may show it: nothing that moves or colours, and not too long. What is
    no text is shown by its bytes."""
    text = text.encode(errors="surrogateescape").decode(errors="backslashreplace")
    text = "".join(it if it.isprintable() else repr(it)[1:-1] for it in text)
    return text if len(text) <= WIDTH else text[: WIDTH - 4] + " ..."


def plain(part):
    """A part of a line without characters that move a terminal's place otherwise than by their
    width."""
    return "".join(
        it if it.isprintable() else " " if it == "\t" else "?"
        for it in part.decode(errors="replace")
    )


def listed(names):
    """Names with commas between them, as they are handed in, and how many more there are."""
    names = [shown(it) or "(empty)" for it in names]
    return ", ".join(names[:SHOWN]) + (
        f" and {len(names) - SHOWN} more" if len(names) > SHOWN else ""
    )


def width_of_terminal():
    """How many columns the terminal has: what COLUMNS says, else the terminal itself, else 80."""
    given = os.environ.get("COLUMNS", "")
    if given.isdigit() and int(given):
        return int(given)
    for stream in (2, 1):
        try:
            here = os.get_terminal_size(stream).columns
        except OSError:
            here = 0
        # A terminal may say that it has none.
        if here:
            return here
    return 80


def room():
    """How many columns a line of a query may take, so that the terminal does not break it above
    its caret."""
    return min(max(width_of_terminal() - 8, 32), WIDTH)


def columns(text):
    """How many columns of a terminal a text takes."""
    return sum(
        0 if unicodedata.combining(it) else 2 if unicodedata.east_asian_width(it) in "WF" else 1
        for it in text
    )


def first_of(text, most):
    """As much of the beginning of a text as has room in so many columns."""
    text = text[:most]
    while columns(text) > most:
        text = text[:-1]
    return text


def last_of(text, most):
    """As much of the end of a text as has room in so many columns."""
    text = text[-most:]
    while columns(text) > most:
        text = text[1:]
    return text


def folded(text, hang):
    """A text in lines that fit the terminal, broken at blanks, with this indentation from the
    second line on. A longer word stays whole."""
    most, lines = width_of_terminal() - 1, []
    start = len(text) - len(text.lstrip(" "))
    first, *rest = text[start:].split(" ")
    line = text[:start] + first
    for word in rest:
        if columns(line) + 1 + columns(word) > most:
            lines.append(line)
            line = " " * hang + word
        else:
            line += " " + word
    return [*lines, line]
