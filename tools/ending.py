"""How a tool ends: what it printed is written out while a fault of the output can still be told.

Nothing to run: the other tools import it.
"""
import os
import sys


def ended(name, run):
    """Calls run, and returns its status, or 1, after a line, if the output takes no more. The name
    is that of the tool."""
    try:
        status = run()
    except SystemExit as asked:
        status = asked.code
    try:
        if sys.stdout is not None:
            sys.stdout.flush()
    except OSError as error:
        # What is left in the buffer would be tried again at the end.
        os.dup2(os.open(os.devnull, os.O_WRONLY), sys.stdout.fileno())
        if not status:
            print(f"{name}: the output: {error.strerror}", file=sys.stderr)
            return 1
    return status
