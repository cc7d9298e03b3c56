"""That the makers make what they say: every refusal, and records unsound in one part alone."""

import random
from collections import Counter

from .comparisons import refusal_of
from .console import Console
from .differences import must_equal
from .makers import console_lines, schedule_files
from .record_makers import UNSOUND, reached, sound_unreached
from .run import broken
from .words import record_text

OF_FILES = {1, 2, 4, 5, 6, 8, 11, 12, 13, 14, 15, 16, 23}


def refusals_met():
    """Lines meet 1 to 17 and 23; files meet every refusal that a file can meet."""
    met = Counter()
    for line, answer in console_lines(1, 3000):
        met.update(refusal_of(line, answer))
    must_equal("refusals that lines meet", {*range(18), 23}, set(met))
    met = Counter(text.split()[1] for _, _, text in schedule_files(1, 300)
                  if text.startswith("refused"))
    must_equal("refusals that files meet", OF_FILES, {int(number) for number in met})


def records_made():
    """Reached and unreached records are sound; each unsound one is broken in its part alone."""
    rng = random.Random("records made")
    for _ in range(100):
        must_equal("broken in a reached record", [], broken(reached(rng)))
        must_equal("broken in a sound record", [], broken(sound_unreached(rng)))
        for part, make in UNSOUND.items():
            must_equal("broken in an unsound record", [part], broken(make(rng)))


def records_as_text():
    """The words of a record give the record back."""
    rng = random.Random("records as text")
    for make in (reached, sound_unreached, *UNSOUND.values()):
        run, console = make(rng), Console()
        console.answer("set " + record_text(run))
        must_equal("a record set from its words", run, console.run)


def check_makers():
    """All of them; in words, what was done."""
    refusals_met()
    records_made()
    records_as_text()
    return "the makers meet every refusal"
