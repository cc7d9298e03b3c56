"""Facts about the small cabinet, checked over the independent program and its makers."""

import random
from collections import Counter

from . import small
from .comparisons import refusal_of
from .console import Console
from .differences import must_equal
from .makers import small_lines
from .record_makers import UNSOUND, reached, sound_unreached
from .run import Run
from .small_calls import small_text
from .small_line_makers import dials

REFUSALS = {0, 1, 2, 4, 5, 6, 7, 8, 9}


def readings():
    """Where the document leaves something open."""
    must_equal("none is no number", (0, None), small.highest(4, [0] * 64))
    must_equal("number 0", (0, 0), small.highest(4, [1] + [0] * 63))
    must_equal("exits beyond the width", (0, None), small.highest(4, [0] * 4 + [9] * 60))
    must_equal("more than 32 bits", (0, 63 + 64 * (2**32 - 2)), small.highest(64, [2**32 - 1] * 64))
    must_equal("a width not allowed", (1, None), small.highest(3, [1] * 64))
    record = small.Small(Run(2, 1, 1), [small.Dial(9, 5, 7) for _ in range(64)])
    must_equal("9 before 5", (9, 0), small.poll(record, 2))
    record.run.entered = 0
    must_equal("5", (5, 0), small.poll(record, 2))
    must_equal("dials are not judged", (0, 4), small.poll(record, 1))
    must_equal("a poll of one exit", [small.Dial(9, 5, 7), small.Dial(9, 9, 11)], record.dials[:2])


def made():
    """Lines meet every refusal; yields go round the zero; a record's words give it back."""
    met, rounds = Counter(), 0
    for line, answer in small_lines(1, 3000):
        met.update(refusal_of(line, answer))
        rounds += line.startswith("poll") and answer.startswith("0 655")
    must_equal("refusals that lines meet", REFUSALS, set(met))
    must_equal("yields near 65,536", True, rounds > 5)
    rng = random.Random("small records as text")
    for make in (reached, sound_unreached, *UNSOUND.values()):
        record, console = small.Small(make(rng), dials(rng)), Console()
        console.answer("dset " + small_text(record))
        must_equal("a record set from its words", record, console.small)


def check_small_facts():
    """All of them; in words, what was done."""
    readings()
    made()
    return "the readings of the small cabinet hold"
