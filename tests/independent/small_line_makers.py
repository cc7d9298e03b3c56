"""Seeded console lines on the small cabinet: plays with polls, records with dials near the zero."""

from . import edges
from .call_makers import spoiled
from .console import Console
from .record_makers import UNSOUND, reached, sound_unreached
from .run import LARGEST_WIDTH
from .small import ROUND, SUM_ROUND, Dial, Small
from .small_calls import small_text
from .small_fixed_lines import FIXED
from .words import list_text


def reading(rng):
    """A reading, as often as not near 65,535 or 0."""
    if rng.random() < 0.3:
        return rng.randrange(ROUND)
    return rng.choice((0, 1, 2, 3, ROUND - 1, ROUND - 2, ROUND - 3, ROUND // 2))


def total(rng):
    """A sum of yields, as often as not near 2^32, 65,536 or 0."""
    if rng.random() < 0.3:
        return rng.randrange(SUM_ROUND)
    return rng.choice((0, 1, ROUND - 1, ROUND, ROUND + 1, SUM_ROUND - 1, SUM_ROUND - ROUND))


def dials(rng):
    """Dials of any readings and sums at all."""
    density = rng.choice((0.05, 0.5, 1))
    return [Dial(reading(rng), reading(rng), total(rng)) if rng.random() < density else Dial()
            for _ in range(LARGEST_WIDTH)]


def denter_line(rng, small):
    """`denter T V`, the token free, inside or none, the wire near the width."""
    run = small.run
    return f"denter {edges.token(rng, run.inside())} {edges.wire(rng, max(run.width, 1))}"


def dturn_line(rng, small):
    """`dturn T`, most often of a token inside."""
    return f"dturn {edges.token(rng, small.run.inside() * 2)}"


def poll_line(rng, small):
    """`poll E`, now and then of an exit not below the width."""
    return f"poll {edges.wire(rng, max(small.run.width, 1))}"


def highest_line(rng):
    """`highest W SUMS`, any sums at all, a few exits or all of them."""
    share = rng.choice((0, 0.03, 0.5, 1))
    sums = list_text(f"{exit_}={total(rng)}" for exit_ in range(LARGEST_WIDTH)
                     if rng.random() < share)
    return f"highest {edges.any_width(rng)} {sums}"


class SmallLines:
    """Lines and their answers, made against the record that the console then holds."""

    def __init__(self, rng):
        self.rng = rng
        self.console = Console()
        self.made = []

    def add(self, line):
        """One more line."""
        self.made.append((line, self.console.answer(line)))

    def any_call(self):
        """A call of any kind, whether it is refused or not."""
        make = self.rng.choice((denter_line, dturn_line, poll_line, poll_line))
        self.add(make(self.rng, self.console.small))

    def moves(self, count, tokens):
        """Requests come and go, and exits are polled."""
        rng = self.rng
        for _ in range(count):
            run, token = self.console.small.run, rng.choice(tokens)
            if rng.random() < 0.1:
                self.any_call()
            elif run.places[token][0]:
                self.add(f"dturn {token}")
            else:
                self.add(f"denter {token} {rng.randrange(max(run.width, 1))}")

    def desk(self):
        """The desk polls every exit and works out the highest number."""
        small = self.console.small
        for exit_ in range(min(small.run.width, LARGEST_WIDTH)):
            self.add(f"poll {exit_}")
        sums = list_text(f"{exit_}={dial.sum}" for exit_, dial in enumerate(small.dials) if dial.sum)
        self.add(f"highest {small.run.width} {sums}")
        self.add("drecord")

    def play(self):
        """Calls from an opening."""
        rng = self.rng
        self.add(f"dopen {edges.any_width(rng)} {edges.any_construction(rng)}")
        count = rng.choice((5, 20, 60)) if self.console.small.run.width else 3
        self.moves(count, rng.sample(range(256), rng.choice((1, 2, 5))))
        self.desk()

    def on_record(self, make):
        """Calls on a record that is set outright, its dials near the zero."""
        rng = self.rng
        self.add("dset " + small_text(Small(make(rng), dials(rng))))
        inside = self.console.small.run.inside()
        if inside and rng.random() < 0.5:
            self.moves(rng.choice((5, 40)), rng.sample(inside, min(len(inside), 3)))
        for _ in range(rng.choice((2, 4, 8))):
            self.any_call()
        self.add("drecord")

    def others(self):
        """The desk's working out, and lines that are no calls."""
        for _ in range(6):
            self.add(highest_line(self.rng))
        near = [line for line, _ in self.made[-30:] if len(line) < 2000]
        for _ in range(3):
            self.add(spoiled(self.rng, self.rng.choice(near)))
        self.add("drecord")


def lines(rng, size):
    """So many lines with their answers."""
    made = SmallLines(rng)
    for line in FIXED:
        made.add(line)
    while len(made.made) < size:
        made.play()
        made.on_record(reached)
        for _ in range(3):
            made.on_record(sound_unreached)
        made.on_record(rng.choice(tuple(UNSOUND.values())))
        made.others()
    return made.made[:size]
