"""What the dials tell, checked by random play from an opening at every width and both builds.

Each number dealt is kept in a list of its own, and yields, sums and the highest number are held
to that list. A play is too short to go round the zero; a dial by itself goes round.
"""

import random

from . import small
from .differences import Difference, must_equal
from .networks import NAMES
from .promises import NETWORKS
from .run import sound


class Desk:
    """A small cabinet and what its desk knows."""

    def __init__(self, width, construction):
        refusal, self.small = small.opening(width, construction)
        must_equal("opening", 0, refusal)
        self.width = width
        self.dealt = []
        self.since = [0] * width
        self.sums = [0] * width

    def enter(self, token, wire):
        """A request enters; the dials stay."""
        before = [dial.now for dial in self.small.dials]
        must_equal("enter", 0, small.enter(self.small, token, wire))
        must_equal("dials after an entry", before, [dial.now for dial in self.small.dials])

    def turn(self, token):
        """A turn; a dial goes on where a number is dealt and nowhere else."""
        before = [dial.now for dial in self.small.dials]
        answer = small.turn(self.small, token)
        if answer[1] == "dealt":
            before[answer[2]] = (before[answer[2]] + 1) % small.ROUND
            self.dealt.append(answer[3])
            self.since[answer[2]] += 1
        must_equal("dials after a turn", before, [dial.now for dial in self.small.dials])

    def poll(self, exit_):
        """A poll: the numbers dealt there since the last, and the sums since opening."""
        counts = list(self.small.run.counts)
        must_equal("yield", (0, self.since[exit_]), small.poll(self.small, exit_))
        self.sums[exit_] += self.since[exit_]
        self.since[exit_] = 0
        must_equal("sum of the yields", sum(v % self.width == exit_ for v in self.dealt),
                   self.sums[exit_])
        must_equal("sum kept", self.sums[exit_], self.small.dials[exit_].sum)
        must_equal("the exit's count", self.small.run.counts[exit_], self.sums[exit_])
        must_equal("counts after a poll", counts, self.small.run.counts)

    def work_out(self):
        """All exits are polled, and the highest number worked out of the sums."""
        for exit_ in range(self.width):
            self.poll(exit_)
        sums = [dial.sum for dial in self.small.dials]
        must_equal("the highest number", (0, max(self.dealt, default=None)),
                   small.highest(self.width, sums))


def play(rng, width, construction):
    """Requests come and go, exits are polled now and then; how often the desk worked it out."""
    desk = Desk(width, construction)
    desk.work_out()
    tokens = rng.sample(range(256), rng.choice((1, 2, 5, 20)))
    worked_out = 1
    for _ in range(rng.choice((10, 60, 300))):
        token, chance = rng.choice(tokens), rng.random()
        if chance < 0.1:
            desk.poll(rng.randrange(width))
        elif chance < 0.12:
            desk.work_out()
            worked_out += 1
        elif desk.small.run.places[token][0]:
            desk.turn(token)
        else:
            desk.enter(token, rng.randrange(width))
    desk.work_out()
    if not sound(desk.small.run):
        raise Difference("a record reached is not sound")
    return worked_out + 1


def rounds(rng):
    """So many numbers between two polls read as what is left of them by 65,536."""
    dial = small.Dial()
    read = 0
    for dealt in (small.ROUND, small.ROUND - 1, rng.randrange(3 * small.ROUND)):
        for _ in range(dealt):
            dial.goes_on()
        must_equal(f"{dealt} numbers between polls", dealt % small.ROUND, dial.poll())
        read += dealt % small.ROUND
        must_equal("sum of the yields", read, dial.sum)


def check_small_promises(seed, size):
    """So many plays; in words, what was done."""
    rng = random.Random(f"small promises {seed}")
    worked_out = 0
    rounds(rng)
    for number in range(size):
        width, construction = NETWORKS[number % len(NETWORKS)]
        try:
            worked_out += play(rng, width, construction)
        except Difference as found:
            raise Difference(f"polls: play {number} of seed {seed}, width {width} "
                             f"{NAMES[construction]}: {found}") from None
    return (f"{size} plays over {len(NETWORKS)} networks, every yield the numbers dealt since the "
            f"last poll; the highest number worked out {worked_out} times")
