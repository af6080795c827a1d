#!/usr/bin/env python3
"""Makes columns of a CSV table ready as weights of an order key, and writes the table to the
standard output.

usage: anyk weights [--scale N] [--round] [--drop | --fill N] [--drop-empty | --empty N]
                    [--delimiter C] [--decimal-comma] FILE COLUMN ..

FILE is a CSV file, or - for the standard input, and each COLUMN is a name in its header. A number
in such a column may have blanks or one of the signs $ € £ ¥ around it, commas between its
thousands, a fraction after a point, an exponent, and U+2212 for its minus: ` 7`, `$12`, `1,200`,
`12.5`, `1e+05`. It is multiplied by the number after --scale, exactly, and is written as a whole
number. A field that is a whole number already stays as it is if nothing is scaled, and an empty
field stays empty.

--round takes the nearest whole number after the scaling, and of two the greater: 2.5 becomes 3,
and -2.5 becomes -2. Without it a number that is not whole then is an error, as one that passes
128 bits always is. --drop leaves out the rows in which such a field is no number (`NA`, `-`,
`n/a`), and --fill N writes the whole number N instead, which is not scaled; without these it is
an error. --drop-empty and --empty N do the same with fields that are empty.

--delimiter C says which character separates the fields of FILE; they are written with commas.
--decimal-comma reads 1.090,50 where 1,090.50 is read otherwise.

All other fields keep their bytes. Lines end in a line feed, and a field has quotes only if it
needs them. The last line on the error output counts the rows. Status 1 says that a field, the
table or the file is not as it has to be, and status 2 that the arguments are not; nothing is
written to the output then.
"""
import argparse
import csv
import io
import os
import re
import signal
import sys

# An isolated call of python3 does not look for modules in the folder of the script.
HERE = os.path.dirname(os.path.realpath(__file__))
sys.path.insert(0, HERE)

from ending import ended

ORDER_MARK = b"\xef\xbb\xbf"
LEAST, GREATEST = -(2**127), 2**127 - 1
READY = re.compile(r"[+-]?[0-9]{1,39}")
NUMBER = re.compile(
    r"(?P<sign>[+-]?)(?P<digits>[0-9]+|[0-9]{1,3}(?:,[0-9]{3})+|(?=\.[0-9]))"
    r"(?P<fraction>\.[0-9]*)?(?P<exponent>[eE][+-]?0*[0-9]{1,3})?"
)
NEEDS_QUOTES = re.compile('[,"\r\n]').search
CURRENCY = "$€£¥"
LONGEST = 1000
ONE = (1, 0)
SWAPPED = {ord(","): ".", ord("."): ","}
# What became of a field, as bits, so that those of a row can be put together.
CHANGED, FILLED, ROUNDED = 1, 2, 4
# How many fields are remembered with what they become.
REMEMBERED = 100_000


class Fault(Exception):
    """What is wrong with the file or with a row of it, as a line for the user."""


def text_of(field):
    """The characters of a field whose bytes were read as Latin-1: those of UTF-8 if they are."""
    try:
        return field.encode("latin-1").decode("utf-8")
    except UnicodeDecodeError:
        return field


def number_of(field, has_decimal_comma=False):
    """The number that a field writes, as a whole number and the power of ten that it is multiplied
    by; None if it writes none."""
    if len(field) > LONGEST:
        return None
    text = text_of(field).replace("\u2212", "-").strip()
    if has_decimal_comma:
        text = text.translate(SWAPPED)
    sign = text[:1] if text[:1] in ("+", "-") else ""
    bare = text[len(sign) :].strip().strip(CURRENCY).strip()
    found = NUMBER.fullmatch(sign + bare) or (None if sign else NUMBER.fullmatch(bare))
    if found is None:
        return None
    sign, digits, fraction, exponent = found.groups("")
    digits, fraction, exponent = digits.replace(",", ""), fraction[1:], int(exponent[1:] or "0")
    return int(sign + digits + fraction), exponent - len(fraction)


def scaled_by(number, scale):
    """The product of a number and a scale, which is another, as two whole numbers, the first to be
    divided by the second."""
    whole, power = number[0] * scale[0], number[1] + scale[1]
    return (whole * 10**power, 1) if power >= 0 else (whole, 10**-power)


class Weights(dict):
    """What the fields become: the weight, or None if the row is left out, and what became of the
    field. It is worked out once for each field."""

    def __init__(self, given):
        super().__init__()
        self.scale, self.is_rounded = given.scale, given.round
        self.has_decimal_comma = given.decimal_comma
        # What takes the place of a field that is no number, if one of the options says so.
        self.has_other, self.other = given.drop or given.fill is not None, given.fill
        self.empty = None if given.drop_empty else given.empty or ""

    def __missing__(self, field):
        found = self.read(field)
        if len(self) < REMEMBERED:
            self[field] = found
        return found

    def read(self, field):
        if field == "":
            return self.empty, FILLED if self.empty else 0
        if self.scale == ONE and READY.fullmatch(field) and LEAST <= int(field) <= GREATEST:
            return field, 0
        number = number_of(field, self.has_decimal_comma)
        if number is None:
            if self.has_other:
                return self.other, FILLED
            raise Fault(f"'{text_of(field)}' is no number; "
                        "--drop leaves such rows out, and --fill N writes N")
        return self.whole(field, *scaled_by(number, self.scale))

    def whole(self, field, dividend, divisor):
        """The quotient as a weight, if it is whole or is rounded."""
        quotient, rest = divmod(dividend, divisor)
        if rest and not self.is_rounded:
            is_scaled = self.scale != ONE
            remedy = " after the scaling; --round makes it one" if is_scaled else (
                "; scale it by 10, 100 or more, or --round it")
            raise Fault(f"'{text_of(field)}' is no whole number{remedy}")
        quotient += 2 * rest >= divisor
        if not LEAST <= quotient <= GREATEST:
            raise Fault(f"'{text_of(field)}' is not within 128 bits")
        text = str(quotient)
        return text, (ROUNDED if rest else 0) | (CHANGED if text != field else 0)


def quoted(field):
    return '"' + field.replace('"', '""') + '"'


def record_of(fields):
    """A record, with quotes only if a field needs them, or if it is the empty only one."""
    line = ",".join(fields)
    if not line:
        return '""\n'
    # Most records need none, which this tells sooner than a look at each field.
    if '"' in line or line.count(",") >= len(fields) or "\n" in line or "\r" in line:
        line = ",".join([quoted(it) if NEEDS_QUOTES(it) else it for it in fields])
    return line + "\n"


def content_of(name):
    """The file's byte order mark, which may be missing, and the bytes after it."""
    try:
        with open(0 if name == "-" else name, "rb", closefd=name != "-") as file:
            content = file.read()
    except OSError as error:
        raise Fault(f"{name}: {error.strerror}") from None
    if content[:2] in (b"\xff\xfe", b"\xfe\xff"):
        raise Fault(f"{name} is in UTF-16: iconv -f UTF-16 -t UTF-8 first")
    if content[:2] == b"\x1f\x8b":
        raise Fault(f"{name} is compressed: gzip -dc first")
    mark = ORDER_MARK if content.startswith(ORDER_MARK) else b""
    return mark, content[len(mark) :]


class Records:
    """The records of a table, an empty line being none, with the number of the line that the last
    one ended in. (Only CR LF, LF and CR end a line; others are part of fields.)"""

    def __init__(self, content, delimiter=","):
        csv.field_size_limit(len(content) + 1)
        lines = io.StringIO(content.decode("latin-1"), newline="")
        self.reader = csv.reader(lines, delimiter=delimiter, strict=True)

    @property
    def line(self):
        return self.reader.line_num

    def __iter__(self):
        last = 0
        try:
            for fields in self.reader:
                last = self.reader.line_num
                if fields:
                    yield fields
        except csv.Error as error:
            what = "a quote is never closed" if "unexpected end" in str(error) else str(error)
            raise Fault(f"line {last + 1}: {what}") from None


def place_of(column, header):
    """The place of the column in the header."""
    wanted = os.fsencode(column).decode("latin-1")
    if header.count(wanted) == 1:
        return header.index(wanted)
    names = ", ".join(f"'{text_of(it)}'" for it in header)
    count = "no" if wanted not in header else "more than one"
    raise Fault(f"the header has {count} column '{column}', but {names}")


def counted(fields):
    return f"{fields} field{'' if fields == 1 else 's'}"


class Table:
    """The records that are written, and how many rows were met."""

    def __init__(self, given):
        self.columns, self.weights, self.delimiter = given.columns, Weights(given), given.delimiter
        self.written = []
        self.read = self.dropped = 0
        # How many rows have fields of which this became, by the bits of it.
        self.met = [0] * (CHANGED | FILLED | ROUNDED) + [0]

    def take(self, content):
        records = Records(content, self.delimiter)
        rows = iter(records)
        header = next(rows, None)
        if header is None:
            raise Fault("there is no header")
        places = [place_of(it, header) for it in self.columns]
        self.written.append(record_of(header))
        for fields in rows:
            self.read += 1
            try:
                self.take_row(fields, len(header), places)
            except Fault as fault:
                raise Fault(f"row {self.read} (line {records.line}): {fault}") from None

    def take_row(self, fields, width, places):
        if len(fields) != width:
            raise Fault(f"{counted(len(fields))}, where the header has {width}")
        met = 0
        for place in places:
            fields[place], became = self.weights[fields[place]]
            if fields[place] is None:
                self.dropped += 1
                return
            met |= became
        self.met[met] += 1
        self.written.append(record_of(fields))

    def count(self, bit):
        """How many rows have a field of which this became."""
        return sum(count for met, count in enumerate(self.met) if met & bit)

    def told(self):
        text = (f"{self.read} read, {self.count(CHANGED)} changed, {self.dropped} dropped, "
                f"{self.count(FILLED)} filled")
        is_rounded = self.weights.is_rounded
        return text + (f", {self.count(ROUNDED)} rounded half up" if is_rounded else "")


def scale_argument(text):
    number = number_of(text)
    if number is None:
        raise argparse.ArgumentTypeError(f"'{text}' is no number")
    return number


def fill_argument(text):
    if not READY.fullmatch(text) or not LEAST <= int(text) <= GREATEST:
        raise argparse.ArgumentTypeError(f"'{text}' is no whole number within 128 bits")
    return text


def separator(text):
    text = {"\\t": "\t", "tab": "\t"}.get(text, text)
    if len(text) != 1 or ord(text) > 127 or text in '"\r\n':
        raise argparse.ArgumentTypeError("one ASCII character is needed, and no quote or line end")
    return text


class Parser(argparse.ArgumentParser):
    """A parser whose help is a page of the folder beside this file, if it is there."""

    def __init__(self, name, page):
        super().__init__(prog=f"anyk {name}", allow_abbrev=False)
        self.page, self.file = page, f"{HERE}/help/{name}.txt"

    def format_help(self):
        if not os.path.isfile(self.file):
            return self.page.strip() + "\n"
        with open(self.file, encoding="utf-8") as file:
            return file.read()


def arguments():
    parser = Parser("weights", __doc__)
    parser.add_argument("file", metavar="FILE")
    parser.add_argument("columns", metavar="COLUMN", nargs="+")
    parser.add_argument("--scale", metavar="N", type=scale_argument, default=ONE)
    parser.add_argument("--round", action="store_true")
    others = parser.add_mutually_exclusive_group()
    others.add_argument("--drop", action="store_true")
    others.add_argument("--fill", metavar="N", type=fill_argument)
    empties = parser.add_mutually_exclusive_group()
    empties.add_argument("--drop-empty", action="store_true")
    empties.add_argument("--empty", metavar="N", type=fill_argument)
    parser.add_argument("--delimiter", metavar="C", type=separator, default=",")
    parser.add_argument("--decimal-comma", action="store_true")
    given = parser.parse_intermixed_args()
    twice = next((it for it in given.columns if given.columns.count(it) > 1), None)
    if twice is not None:
        parser.error(f"the column '{twice}' is named twice")
    return given


def write_output(name, pieces):
    """Writes all pieces to the output, and returns the status. The name is that of the tool."""
    if sys.stdout is None:
        print(f"{name}: the output is closed", file=sys.stderr)
        return 1
    try:
        for it in pieces:
            sys.stdout.buffer.write(it)
        sys.stdout.buffer.flush()
    except OSError as error:
        # (what is left in the buffer would be tried again at the end)
        os.dup2(os.open(os.devnull, os.O_WRONLY), sys.stdout.fileno())
        print(f"{name}: the output: {error.strerror}", file=sys.stderr)
        return 1
    return 0


def main():
    if sys.stderr is None:
        # Else what is said would go to the output.
        sys.stderr = open(os.devnull, "w", encoding="utf-8")
    given = arguments()
    table = Table(given)
    try:
        mark, content = content_of(given.file)
        table.take(content)
    except Fault as fault:
        print(f"weights: {fault}", file=sys.stderr)
        return 1
    status = write_output("weights", [mark, "".join(table.written).encode("latin-1")])
    if status == 0:
        print(f"weights: rows: {table.told()}", file=sys.stderr)
    return status


if __name__ == "__main__":
    signal.signal(signal.SIGINT, signal.SIG_DFL)
    sys.exit(ended("weights", main))
