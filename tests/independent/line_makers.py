"""Seeded console lines: plays from an opening, calls on records set outright, single calls."""

from . import edges
from .call_makers import (enter_line, gaps_line, read_line, run_line, sheet_line, spoiled,
                          turn_line, view_line, write_line)
from .console import Console
from .cuts import small
from .file_makers import CASE
from .fixed_lines import FIXED
from .networks import BITONIC
from .record_makers import UNSOUND, reached, sound_unreached
from .schedule_makers import whole
from .words import hex_text, record_text


class Lines:
    """Lines and their answers, made against the record that the console then holds."""

    def __init__(self, rng):
        self.rng = rng
        self.console = Console()
        self.made = []

    def add(self, line):
        """One more line."""
        self.made.append((line, self.console.answer(line)))

    def fixed(self):
        """The lines that are always there, and a schedule of exactly 65,536 bytes."""
        for line in FIXED:
            self.add(line)
        largest = b"".join(whole(self.rng, 1, BITONIC, 4680)).hex()
        for line in (f"run 56160 {largest}", f"run 56159 {largest}", f"run 65536 {largest}00"):
            self.add(line)
        self.add("record")
        self.cut(CASE)

    def cut(self, records):
        """A schedule that is accepted, cut at every byte."""
        data = b"".join(records)
        for end in range(len(data) + 1):
            self.add(f"run 24 {hex_text(data[:end])}")

    def play(self):
        """Calls from an opening."""
        rng = self.rng
        self.add(f"open {edges.any_width(rng)} {edges.any_construction(rng)}")
        tokens = rng.sample(range(256), rng.choice((1, 2, 5)))
        for _ in range(rng.choice((5, 20, 60)) if self.console.run.width else 3):
            run = self.console.run
            token = rng.choice(tokens)
            if rng.random() < 0.08:
                self.add(rng.choice((enter_line, turn_line, gaps_line))(rng, run))
            elif run.places[token][0]:
                self.add(f"turn {token}")
            else:
                self.add(f"enter {token} {rng.randrange(max(run.width, 1))}")
        self.add(gaps_line(rng, self.console.run))
        self.add("record")

    def on_record(self, make):
        """Calls on a record that is set outright."""
        rng = self.rng
        self.add("set " + record_text(make(rng)))
        for _ in range(rng.choice((2, 4, 8))):
            call = rng.choice((enter_line, turn_line, turn_line, gaps_line))
            self.add(call(rng, self.console.run))
            if rng.random() < 0.25:
                self.add("record")
        self.add("record")

    def others(self):
        """Calls that have no part in the record, and lines that are no calls."""
        rng = self.rng
        for make in (sheet_line, view_line, view_line, read_line, write_line, run_line):
            self.add(make(rng))
        short = [line for line, _ in self.made[-30:] if len(line) < 2000]
        for _ in range(3):
            self.add(spoiled(rng, rng.choice(short)))
        self.add("record")


def lines(rng, size):
    """So many lines with their answers."""
    made = Lines(rng)
    made.fixed()
    while len(made.made) < size:
        made.play()
        made.on_record(reached)
        for _ in range(3):
            made.on_record(sound_unreached)
        made.on_record(rng.choice(tuple(UNSOUND.values())))
        for _ in range(2):
            made.others()
        if rng.random() < 0.25:
            made.cut(small(rng))
    return made.made[:size]
