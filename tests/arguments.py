"""Reads the arguments of a script of tests/ or bench/, and says in one line what is wrong with them.

Nothing to run: the scripts import it. `-h` and `--help` print the script's own page.
"""
import os
import shutil
import sys

NAME = os.path.splitext(os.path.basename(sys.argv[0]))[0]
TOP = os.path.dirname(os.path.dirname(os.path.abspath(__file__)))
# What bench/ measures: the program that ./anyk has built, or what ANYK names.
MEASURED = os.environ.get("ANYK", os.path.join(TOP, "crates/anyk_cli/out/anyk_cli"))
MEASURED = os.path.abspath(shutil.which(MEASURED) or MEASURED)


def refuse(why):
    print(f"{NAME}: {why}", file=sys.stderr)
    sys.exit(2)


def say_uncaught(kind, fault, trace):
    """An interrupt and a file that cannot be had are no faults of the script, so that no one needs its lines."""
    if issubclass(kind, KeyboardInterrupt):
        print(f"{NAME}: interrupted", file=sys.stderr)
    elif issubclass(kind, (FileNotFoundError, PermissionError, IsADirectoryError)) and fault.filename is not None:
        print(f"{NAME}: {fault.filename}: {fault.strerror}", file=sys.stderr)
    else:
        sys.__excepthook__(kind, fault, trace)


def number(text, kind, least):
    """The number of this kind that a text writes."""
    try:
        value = kind(text)
    except ValueError:
        value = None
    if value is None or not value >= least:
        refuse(f"{text}: {'a whole number' if kind is int else 'a number'} from {least} on is needed here")
    return value


def arguments(page, *defaults, least=0, takes_more=False):
    """What each argument is, or its default if it is not given: a number if that is one, and a text else. Those after them come last,
    each as the last default is."""
    sys.excepthook = say_uncaught
    given = sys.argv[1:]
    if "-h" in given or "--help" in given:
        print(page.strip())
        sys.exit()
    option = next((it for it in given if it.startswith("-")), None)
    if option is not None:
        refuse(f"there is no option {option}")
    if len(given) > len(defaults) and not takes_more:
        refuse(f"one argument too many: {given[len(defaults)]}")
    kinds = [type(it) for it in defaults]
    kinds += kinds[-1:] * (len(given) - len(kinds))
    values = [text if kind is str else number(text, kind, least) for text, kind in zip(given, kinds)]
    return [*values, *defaults[len(values):]]


def program_at(place):
    """The whole path of a program, which has to be there."""
    if not os.path.isfile(place) or not os.access(place, os.X_OK):
        refuse(f"{place}: there is no such program; is it built?")
    return os.path.abspath(place)
