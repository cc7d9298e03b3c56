"""The promises, checked by random play at every width and both builds.

m is the number of requests entered; the share of exit i is (m - i)/w rounded up.
"""

import random

from .differences import Difference, must_equal
from .networks import BITONIC, NAMES, PERIODIC, WIDTHS, depth, rows
from .run import Run, enter_sound, missing_numbers, opening, sound, turn_sound

NETWORKS = [(width, construction) for width in WIDTHS for construction in (BITONIC, PERIODIC)]


def share(m, i, width):
    """What exit i has dealt when m requests have entered and none is inside."""
    return max(0, -((i - m) // width))


class Play:
    """A run from an opening, and what each request in it has been through."""

    def __init__(self, width, construction):
        refusal, self.run = opening(width, construction)
        must_equal("opening", 0, refusal)
        self.own_turns = depth(width, construction) + 1
        self.turns = {}
        self.wires = {}
        self.dealt = set()
        self.checked = None

    def free(self):
        """The tokens that are free."""
        return [token for token in range(256) if token not in self.turns]

    def enter(self, token, wire):
        """A request enters; then every promise is checked."""
        must_equal("enter", 0, enter_sound(self.run, token, wire))
        self.turns[token] = 0
        self.wires[token] = wire
        self.check()

    def turn(self, token):
        """A turn; its number comes on the request's own turn depth + 1 and on none before."""
        answer = turn_sound(self.run, token)
        self.turns[token] += 1
        if self.turns[token] < self.own_turns:
            must_equal("before its last turn", "passed", answer[1])
            self.check_pass(token, *answer[2:])
        else:
            must_equal("on its own turn depth + 1", "dealt", answer[1])
            must_equal("its exit", answer[3] % self.run.width, answer[2])
            if answer[3] in self.dealt:
                raise Difference(f"number {answer[3]} is dealt twice")
            self.dealt.add(answer[3])
            del self.turns[token]
        self.check()
        return answer

    def check_pass(self, token, level, wire, layer, cell, outlet):
        """The passes name the layers in order, and each the cell that its wire feeds."""
        row = rows(self.run.width, self.run.construction)[layer]
        must_equal("the layers in order", self.turns[token] - 1, layer)
        must_equal("the cell that its wire feeds", row[self.wires[token]] // 2, cell)
        must_equal("the new level and wire", (layer + 1, 2 * cell + outlet), (level, wire))
        self.wires[token] = wire

    def check(self):
        """Every promise about the counts, unless nothing in them has changed."""
        run, inside, m = self.run, len(self.turns), self.run.entered
        if self.checked == (m, inside, run.counts):
            return
        self.checked = (m, inside, list(run.counts))
        shortfalls = [share(m, i, run.width) - run.counts[i] for i in range(run.width)]
        if min(shortfalls) < 0:
            raise Difference(f"an exit has dealt more than its share: {run.counts} of {m}")
        must_equal("the shortfalls add up to the requests inside", inside, sum(shortfalls))
        top, gaps = max(self.dealt, default=-1), missing_numbers(run)
        if top >= m:
            raise Difference(f"number {top} is dealt when {m} have entered")
        must_equal("how long the gap list is", inside, len(gaps))
        must_equal("the gap list", [v for v in range(m) if v not in self.dealt], gaps)
        if gaps and gaps[0] < top - run.width * inside:
            raise Difference(f"{inside} inside, {top} is dealt, but missing are {gaps}")
        if not inside:
            must_equal("numbers at rest", set(range(m)), self.dealt)

    def drain(self, rng, stalled=()):
        """Turns in any order until only the stalled requests are inside.

        What they deal stands in the gap list, and is all of it where none is left inside.
        """
        listed, before = set(missing_numbers(self.run)), set(self.dealt)
        while moving := [token for token in self.turns if token not in stalled]:
            self.turn(rng.choice(moving))
        dealt = self.dealt - before
        must_equal("dealt from the gap list", dealt & listed if self.turns else listed, dealt)


def chooser(rng):
    """How a play picks the next token inside: any, the oldest, the newest, or one of two."""
    return rng.choice((rng.choice, lambda tokens: tokens[0], lambda tokens: tokens[-1],
                       lambda tokens: rng.choice(tokens[:2])))


def interleaving(rng, width, construction):
    """Requests enter and take turns in any order, come to rest, and go on from there."""
    play = Play(width, construction)
    crowd = rng.choice((1, 2, 3, 5, 8, 20, 256 if rng.random() < 0.2 else 10))
    requests = rng.randrange(1, max(4, 600 // play.own_turns)) + (crowd if crowd > 20 else 0)
    pick, wires = chooser(rng), min(width, rng.choice((1, 2, width)))
    rests = rng.choice((0, 0, 1 / requests))
    for _ in range(requests):
        play.enter(rng.choice(play.free()), rng.randrange(wires))
        while len(play.turns) >= crowd or rng.random() < 0.5 * len(play.turns) / crowd:
            play.turn(pick(list(play.turns)))
        if rng.random() < rests:
            play.drain(rng)
    return play


def stalled_requests(rng, width, construction):
    """Requests that never move again keep no other from its number; whether there were any."""
    play = interleaving(rng, width, construction)
    stalled = rng.sample(sorted(play.turns), rng.randrange(len(play.turns) + 1))
    free = play.free()
    for token in rng.sample(free, min(5, len(free))):
        play.enter(token, rng.randrange(width))
    play.drain(rng, stalled)
    must_equal("inside when the others are done", sorted(stalled), sorted(play.turns))
    must_equal("numbers dealt to the others", play.run.entered - len(stalled), len(play.dealt))
    if not sound(play.run):
        raise Difference("a record reached is not sound")
    play.drain(rng)
    must_equal("places at rest", Run().places, play.run.places)
    return bool(stalled)


def one_after_another(rng, width, construction):
    """One after another they come out on exits 0, 1, 2 .. and are dealt 0, 1, 2 ..; none stalls."""
    play = Play(width, construction)
    for m in range(rng.randrange(1, 2 * width + 4)):
        token = rng.randrange(256)
        play.enter(token, rng.randrange(width))
        for _ in range(play.own_turns):
            answer = play.turn(token)
        must_equal(f"request {m}, one after another", (0, "dealt", m % width, m), answer)
    return False


def check_promises(seed, size):
    """So many plays, spread over all networks; in words, what was done."""
    rng = random.Random(f"promises {seed}")
    stalled = 0
    for number in range(size):
        width, construction = NETWORKS[number % len(NETWORKS)]
        play = one_after_another if number // len(NETWORKS) % 8 == 7 else stalled_requests
        try:
            stalled += play(rng, width, construction)
        except Difference as found:
            raise Difference(f"promises: play {number} of seed {seed}, width {width} "
                             f"{NAMES[construction]}: {found}") from None
    return (f"{size} plays over {len(NETWORKS)} networks, {stalled} of them with requests that "
            "stall, every promise kept after every move")
