"""The seeded makers: the same seed and size give the same files and lines.

Schedules whole and damaged are in `schedule_makers` and `damages`, run records
reached, unreached and unsound in `record_makers`, single calls in `call_makers`.
Designs whole and damaged are in `design_makers` and `design_damages`, feed sheets
and the records of runs over them in `feed_record_makers`, lines on the dials in
`small_line_makers`.
"""

import random

from . import (design_file_makers, feed_line_makers, file_makers, line_makers,
               small_line_makers)
from .listing import listing
from .panel_listing import panel_listing
from .trace import trace


def schedule_files(seed, size):
    """So many schedule files: (name, parts, the text of their listing)."""
    rng = random.Random(f"files {seed}")
    return [(name, parts, listing(b"".join(parts))) for name, parts in file_makers.files(rng, size)]


def traced_files(seed, size):
    """The same files: (name, parts, the text of their trace)."""
    rng = random.Random(f"files {seed}")
    return [(name, parts, trace(b"".join(parts))) for name, parts in file_makers.files(rng, size)]


def console_lines(seed, size):
    """So many console lines: (line, answer)."""
    return line_makers.lines(random.Random(f"lines {seed}"), size)


def panel_lines(seed, size):
    """So many console lines on panels and runs over feed sheets: (line, answer)."""
    return feed_line_makers.lines(random.Random(f"panel lines {seed}"), size)


def small_lines(seed, size):
    """So many console lines on the small cabinet: (line, answer)."""
    return small_line_makers.lines(random.Random(f"small lines {seed}"), size)


def design_files(seed, size):
    """So many design files: (name, bytes, the panel program's status, its text)."""
    rng = random.Random(f"designs {seed}")
    made = design_file_makers.files(rng, size)
    return [(name, data, *panel_listing(data)) for name, data in made]
