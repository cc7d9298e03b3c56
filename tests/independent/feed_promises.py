"""What holds of every feed sheet, checked by random play over designs and any rows at all.

At rest the count at each exit depends only on how many entered at each wire.
The numbers need not be 0 to m - 1: nothing is said here of shares or gaps.
"""

import random

from .design_makers import whole
from .designs import read_design
from .differences import Difference, must_equal
from .feed_record_makers import good_sheet
from .feeds import Feed, enter_sound, opening, sheet_rows, sound, turn_sound
from .panel_walks import Walk
from .panels import feed_sheet
from .promises import chooser


def flow(width, rows, entries):
    """The counts at the exits when so many as `entries` says have passed each entry wire.

    Of n tokens a cell sends n/2 rounded up by its top outlet, the others by its
    bottom one; the last row names the exits.
    """
    counts = list(entries)
    for row in rows[:-1]:
        inlets = dict(zip(row, counts))
        counts = []
        for c in range(width // 2):
            n = inlets[2 * c] + inlets[2 * c + 1]
            counts += [n - n // 2, n // 2]
    exits = [0] * width
    for wire, n in enumerate(counts):
        exits[rows[-1][wire]] = n
    return exits


class FeedPlay:
    """A run from an opening over one sheet, and what each request in it has been through."""

    def __init__(self, width, depth, sheet):
        refusal, self.feed = opening(width, depth, sheet)
        must_equal("opening", 0, refusal)
        self.rows = sheet_rows(width, depth, sheet)
        self.entries = [0] * width
        self.turns = {}
        self.dealt = set()

    def enter(self, token, wire):
        """A request enters."""
        must_equal("enter", 0, enter_sound(self.feed, token, wire))
        self.entries[wire] += 1
        self.turns[token] = 0

    def turn(self, token):
        """A turn; its number comes on the request's own turn depth + 1 and on none before."""
        answer = turn_sound(self.feed, self.rows, token)
        self.turns[token] += 1
        if self.turns[token] <= self.feed.depth:
            must_equal("before its last turn", (0, "passed", self.turns[token]), answer[:3])
            return answer
        must_equal("on its own turn depth + 1", (0, "dealt"), answer[:2])
        must_equal("its exit", answer[3] % self.feed.width, answer[2])
        if answer[3] in self.dealt:
            raise Difference(f"number {answer[3]} is dealt twice")
        self.dealt.add(answer[3])
        del self.turns[token]
        if not self.turns:
            self.at_rest()
        return answer

    def at_rest(self):
        """The counts are the flow of the entries through the rows, and no token is lost."""
        feed = self.feed
        must_equal("counts at rest", flow(feed.width, self.rows, self.entries),
                   feed.counts[:feed.width])
        must_equal("the counts add up to entered", feed.entered, sum(feed.counts))
        must_equal("places at rest", Feed().places, feed.places)
        must_equal("soundness at rest", True, sound(feed))


def ordered(rng, width, depth, sheet, wires):
    """The counts at rest after requests on these wires, which enter and move in any order."""
    play = FeedPlay(width, depth, sheet)
    wires = rng.sample(wires, len(wires))
    crowd, pick = rng.choice((1, 2, 5, 20, 256)), chooser(rng)
    while wires or play.turns:
        free = rng.randrange(256)
        if wires and free not in play.turns and (
                not play.turns or len(play.turns) < crowd and rng.random() < 0.5):
            play.enter(free, wires.pop())
        elif play.turns:
            play.turn(pick(list(play.turns)))
    return play.feed.counts


def two_orders(rng):
    """Two runs over one sheet, as many entries at each wire; whether the counts are shares."""
    width, depth, sheet = good_sheet(rng)
    wires = rng.choices(range(min(width, rng.choice((1, 2, width)))), k=rng.randrange(40))
    counts = ordered(rng, width, depth, sheet, wires)
    must_equal("counts in another order", counts, ordered(rng, width, depth, sheet, wires))
    return counts[:width] == [(len(wires) + width - 1 - i) // width for i in range(width)]


def as_built(rng):
    """One after another, requests over the sheet leave where they leave the panel as built."""
    tree = read_design(whole(rng).data())
    play, walk = FeedPlay(tree.width, tree.depth, feed_sheet(tree)), Walk(tree)
    for _ in range(rng.randrange(20)):
        wire = rng.randrange(tree.width)
        play.enter(0, wire)
        for _ in range(tree.depth + 1):
            answer = play.turn(0)
        must_equal("the exit in the panel as built", walk.request(wire), answer[2])


def check_feed_promises(seed, size):
    """So many plays; in words, what was done."""
    rng = random.Random(f"feed promises {seed}")
    counting = 0
    for number in range(size):
        try:
            counting += two_orders(rng)
            as_built(rng)
        except Difference as found:
            raise Difference(f"feeds: play {number} of seed {seed}: {found}") from None
    return (f"{size} plays in two orders come to the same counts, the flow of their entries; "
            f"{size - counting} of them show a panel that does not count; {size} designs walked "
            "through as built")
