"""The small cabinet: a run with a dial at each exit, its polls, and the highest number dealt.

The calls change the record they are given; a refused call leaves it equal.
"""

from copy import deepcopy
from dataclasses import dataclass, field

from . import run as runs
from .networks import WIDTHS
from .run import LARGEST_WIDTH, Run, sound

ROUND = 2**16
SUM_ROUND = 2**32


@dataclass
class Dial:
    """A dial, its last reading and the sum of its yields."""

    now: int = 0
    last: int = 0
    sum: int = 0

    def goes_on(self):
        """A number is dealt at its exit."""
        self.now = 0 if self.now == ROUND - 1 else self.now + 1

    def poll(self):
        """The numbers dealt since the last poll, taken round the zero."""
        dealt = self.now - self.last if self.last <= self.now else ROUND - self.last + self.now
        self.last = self.now
        self.sum = (self.sum + dealt) % SUM_ROUND
        return dealt


@dataclass
class Small:
    """The small cabinet's record."""

    run: Run = field(default_factory=Run)
    dials: list = field(default_factory=lambda: [Dial() for _ in range(LARGEST_WIDTH)])

    def copy(self):
        """A record of its own with the same contents."""
        return deepcopy(self)


def opening(width, construction):
    """The refusal (order 1, 2) and the record."""
    refusal, opened = runs.opening(width, construction)
    return refusal, Small(opened)


def enter(small, token, wire):
    """As in a run. Order 9, 4, 5, 6, 7."""
    return runs.enter(small.run, token, wire)


def turn(small, token):
    """As in a run; the dial of an exit that deals goes on. Order 9, 4, 8."""
    answer = runs.turn(small.run, token)
    if answer[1:2] == ("dealt",):
        small.dials[answer[2]].goes_on()
    return answer


def poll(small, exit_):
    """The refusal and the yield of an exit. Order 9, 5."""
    if not sound(small.run):
        return 9, 0
    if exit_ >= small.run.width:
        return 5, 0
    return 0, small.dials[exit_].poll()


def highest(width, sums):
    """The refusal (1) and the highest number dealt, None where there is none.

    The sums are those of the yields of all 64 exits; those below the width are read.
    """
    if width not in WIDTHS:
        return 1, None
    dealt = [exit_ + width * (times - 1) for exit_, times in enumerate(sums[:width]) if times]
    return 0, max(dealt, default=None)
