"""Compare the cabinet's software with the independent program.

    facts      the paper's small facts, over the independent program itself
    sheets     all sheets, from the text in a file (--text) or printed by a program (--program)
    listing    the listing program on seeded schedule files, whole and damaged; of bin/listing
               the exit statuses too, and what it says of a cut file
    trace      the trace program on the same files, of bin/trace the exit statuses too
    console    the console program on seeded lines, given to one program
    promises   the promises by random play and by schedules cut at every byte, over the
               independent program itself
    panels     the console program on seeded lines about designs and runs over feed sheets
    panel_text the panel program on seeded design files, whole and damaged
    feeds      what holds of every feed sheet by random play, over the independent program itself
    dials      the console program on seeded lines about the small cabinet
    polls      what the dials tell by random play, over the independent program itself

The end is 0 when all is equal, 1 at the first difference, 2 for bad usage.
"""

import argparse
import sys
from pathlib import Path

if not __package__:
    sys.dont_write_bytecode = True
    sys.path[0] = str(Path(__file__).resolve().parents[1])
    __package__ = "independent"

from . import comparisons, makers, panel_comparisons
from .cuts import check_cuts
from .differences import Difference
from .facts import check_facts
from .feed_promises import check_feed_promises
from .maker_checks import check_makers
from .panel_facts import check_panel_facts
from .promises import check_promises
from .small_facts import check_small_facts
from .small_promises import check_small_promises

ROOT = Path(__file__).resolve().parents[2]
SIZES = {"facts": 1, "sheets": 1, "listing": 300, "trace": 300, "console": 10_000,
         "promises": 2_800, "panels": 10_000, "panel_text": 300, "feeds": 1_000,
         "dials": 10_000, "polls": 280}
PROGRAMS = {"panels": "console", "panel_text": "panel", "dials": "console"}
FILES = {"listing": makers.schedule_files, "trace": makers.traced_files}


def arguments():
    """The command line."""
    parser = argparse.ArgumentParser(description=__doc__,
                                     formatter_class=argparse.RawDescriptionHelpFormatter)
    parser.add_argument("what", choices=tuple(SIZES), metavar="WHAT", help=", ".join(SIZES))
    parser.add_argument("--seed", type=int, default=1, help="the makers' seed (1)")
    parser.add_argument("--size", type=int,
                        help="how many files (300), lines (10000) or plays (2800, feeds 1000, "
                             "polls 280)")
    parser.add_argument("--text", type=Path, help="for sheets: a file with the text")
    parser.add_argument("--program", nargs=argparse.REMAINDER, metavar="PATH",
                        help="the program and its arguments, last of all on the line "
                             "(bin/listing, bin/trace, bin/console, bin/panel)")
    given = parser.parse_args()
    if given.size is not None and given.size < 1:
        parser.error("--size is at least 1")
    if given.program == []:
        parser.error("--program needs a PATH")
    if given.what == "sheets" and (given.text is None) == (given.program is None):
        parser.error("sheets needs one of --text FILE and --program PATH")
    if given.what != "sheets" and given.text is not None:
        parser.error("--text is for sheets")
    return given


def compare(given):
    """The comparison that is asked for; in words, what was found equal."""
    size = given.size or SIZES[given.what]
    if given.what == "facts":
        return f"{check_facts()}; {check_makers()}; {check_panel_facts()}; {check_small_facts()}"
    if given.what == "promises":
        return f"{check_promises(given.seed, size)}; {check_cuts(given.seed)}"
    if given.what == "feeds":
        return check_feed_promises(given.seed, size)
    if given.what == "polls":
        return check_small_promises(given.seed, size)
    if given.what == "sheets":
        text = given.text.read_bytes() if given.text else comparisons.Program(given.program)(b"")
        return comparisons.compare_sheets(text)
    command = given.program or [str(ROOT / "bin" / PROGRAMS.get(given.what, given.what))]
    if given.what == "panel_text":
        if given.program is None:
            comparisons.check_unreadable(given.what, command)
        program = panel_comparisons.FileProgram(command)
        return panel_comparisons.compare_panel_text(program, makers.design_files(given.seed, size))
    program = comparisons.Program(command)
    if given.what == "panels":
        lines = makers.panel_lines(given.seed, size)
        return comparisons.compare_console(program, lines, "panels")
    if given.what == "dials":
        lines = makers.small_lines(given.seed, size)
        return comparisons.compare_console(program, lines, "dials")
    if given.what in FILES:
        ours = given.program is None  # another program's exit status is its own affair
        if ours:
            comparisons.check_unreadable(given.what, program.command)
            comparisons.check_cut_case(given.what, program)
        files = FILES[given.what](given.seed, size)
        return comparisons.compare_listing(program, files, ours, given.what)
    return comparisons.compare_console(program, makers.console_lines(given.seed, size))


def main():
    """Compare, and say what came of it."""
    given = arguments()
    try:
        print(f"{given.what}: {compare(given)}")
    except Difference as found:
        print(found)
        return 1
    except OSError as trouble:
        print(f"{given.what}: {trouble}", file=sys.stderr)
        return 2
    return 0


if __name__ == "__main__":
    sys.exit(main())
