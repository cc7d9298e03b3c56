"""The independent program as a program: standard input to standard output.

    python3 tests/independent/play.py listing < FILE
    python3 tests/independent/play.py trace < FILE
    python3 tests/independent/play.py console < LINES
    python3 tests/independent/play.py sheets
    python3 tests/independent/play.py panel FILE

Each takes the place of a program of the cabinet's software: to try the
comparison itself, and to have something to measure against.
"""

import sys
from pathlib import Path

if not __package__:
    sys.dont_write_bytecode = True
    sys.path[0] = str(Path(__file__).resolve().parents[1])
    __package__ = "independent"

from .console import Console
from .listing import listing
from .panel_listing import panel_listing
from .sheet_lines import sheet_lines
from .trace import trace


def lines_of(data):
    """The lines of the bytes; a last one without a line feed counts too."""
    lines = data.decode("latin-1").split("\n")
    return lines[:-1] if lines[-1] == "" else lines


def play_console(data):
    """The console's answers to the lines."""
    console = Console()
    return "".join(console.answer(line) + "\n" for line in lines_of(data)).encode("ascii")


def play_listing(data):
    """The listing of the schedule."""
    return listing(data).encode("ascii")


def play_trace(data):
    """The trace of the schedule."""
    return trace(data).encode("ascii")


def play_sheets(_data=b""):
    """The lines of all sheets."""
    return "".join(line + "\n" for line in sheet_lines()).encode("ascii")


def play_panel(data):
    """The panel program's status and text for the design."""
    status, text = panel_listing(data)
    return status, text.encode("ascii")


PLAYS = {"console": play_console, "listing": play_listing, "trace": play_trace,
         "sheets": play_sheets}


def main(arguments):
    """Run the one that is named; 2 for bad usage."""
    if len(arguments) == 2 and arguments[0] == "panel":
        status, text = play_panel(Path(arguments[1]).read_bytes())
        sys.stdout.buffer.write(text)
        return status
    if len(arguments) != 1 or arguments[0] not in PLAYS:
        print(__doc__, file=sys.stderr)
        return 2
    data = b"" if arguments[0] == "sheets" else sys.stdin.buffer.read()
    sys.stdout.buffer.write(PLAYS[arguments[0]](data))
    return 0


if __name__ == "__main__":
    sys.exit(main(sys.argv[1:]))
