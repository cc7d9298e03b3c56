"""Seeded designs that are accepted, in the dress of their records.

A record in its dress can be spoiled in any part before it is put into bytes;
the lengths of the records around it follow.
"""

from dataclasses import dataclass, field

from . import edges
from .designs import BESIDE, CELL, CROSS, DEEPEST, HEAD, NAMED, NESTING, SERIES, WIDEST
from .networks import BITONIC, PERIODIC, WIDTHS, depth

PLAIN_WIDTHS = (1, 1, 2, 2, 3, 4, 4, 5, 6, 6, 8, 8, 10, 12)
ODD_WIDTHS = (7, 9, 14, 18, 31, 32, 33, 48, 62, 63, 64)


@dataclass
class Dress:
    """A record: its kind, members, other bytes, and the length it gives where not the true one."""

    kind: int
    members: list = field(default_factory=list)
    body: bytes = b""
    length: int = None

    def data(self):
        """The record as bytes."""
        inner = b"".join(member.data() for member in self.members) + self.body
        length = HEAD + len(inner) if self.length is None else self.length
        return (length % 65536).to_bytes(2, "little") + self.kind.to_bytes(2, "little") + inner

    def records(self):
        """All records in it, itself first."""
        return [self] + [record for member in self.members for record in member.records()]

    def is_box(self):
        """Whether it holds members."""
        return self.kind in (SERIES, BESIDE)


def series(*members):
    """Members one after another."""
    return Dress(SERIES, list(members))


def beside(*members):
    """Members side by side."""
    return Dress(BESIDE, list(members))


def cell():
    """One cell."""
    return Dress(CELL)


def named(width, construction):
    """A named network."""
    return Dress(NAMED, body=width.to_bytes(2, "little") + construction.to_bytes(2, "little"))


def cross(*places):
    """A cross, each wire's new place."""
    return Dress(CROSS, body=bytes([len(places), *places]))


def boxes(count, inner, kinds=(SERIES, BESIDE)):
    """So many boxes around the record, each in the one before, of the kinds in turn."""
    for at in reversed(range(count)):
        inner = Dress(kinds[at % len(kinds)], [inner])
    return inner


def shuffled(rng, width):
    """Any order of the wires, now and then the plain one."""
    places = list(range(width))
    if rng.random() < 0.9:
        rng.shuffle(places)
    return places


def names_of(width, layers):
    """The constructions whose network has that width and depth."""
    return [construction for construction in (BITONIC, PERIODIC)
            if width in WIDTHS and depth(width, construction) == layers]


def leaf(rng, width, layers):
    """A record without members of that width and depth, or None where there is none."""
    found = [named(width, construction) for construction in names_of(width, layers)]
    if layers == 0:
        found += [cross(*shuffled(rng, width))] * 2
    if (width, layers) == (2, 1):
        found += [cell()] * 4
    return rng.choice(found) if found else None


def plain(rng, width, layers):
    """The plainest design of that width and depth."""
    found = leaf(rng, width, layers)
    if found:
        return found
    if width == 2:
        return series(*[cell() for _ in range(layers)])
    return beside(*[plain(rng, 2, layers) for _ in range(width // 2)])


def needs(width, layers):
    """How many records one in another the plainest design has."""
    if layers == 0 or (width, layers) == (2, 1) or names_of(width, layers):
        return 1
    return 2 if layers == 1 or width == 2 else 3


def parts_of(rng, total, count, step=1):
    """The total in so many parts, each at least the step and a multiple of it."""
    cuts = sorted(rng.sample(range(1, total // step), count - 1))
    return [step * (one - other) for one, other in zip(cuts + [total // step], [0] + cuts)]


def series_parts(rng, width, layers):
    """Widths and depths of members one after another; crosses stand between."""
    depths = parts_of(rng, layers, rng.randrange(1, min(layers, 5) + 1)) if layers else []
    for _ in range(rng.choice((0, 1, 1, 2) if layers else (1, 2, 3))):
        depths.insert(rng.randrange(len(depths) + 1), 0)
    return [(width, part) for part in depths]


def beside_parts(rng, width, layers):
    """Widths and depths of members side by side."""
    step = 2 if layers else 1
    count = rng.randrange(1, min(width // step, 6) + 1)
    return [(part, layers) for part in parts_of(rng, width, count, step)]


def design(rng, width, layers, left=NESTING):
    """A design of that width and depth, of at most `left` records one in another."""
    if left == 1 or rng.random() < 0.25:
        return plain(rng, width, layers)
    kind, parts = rng.choice(((SERIES, series_parts), (BESIDE, beside_parts)))
    members = parts(rng, width, layers)
    if max(needs(*part) for part in members) >= left:
        return plain(rng, width, layers)
    return Dress(kind, [design(rng, *part, left - 1) for part in members])


def any_size(rng):
    """A width and a depth that a panel can have, small as a rule."""
    width = rng.choice(PLAIN_WIDTHS if rng.random() < 0.8 else ODD_WIDTHS)
    if width % 2:
        return width, 0
    return width, rng.choice((0, 1, 1, 2, 2, 3, 4, 6) if rng.random() < 0.9 else (9, 21, 35, 36))


def whole(rng):
    """A design that is accepted."""
    if rng.random() < 0.05:
        return named(edges.width(rng), edges.construction(rng))
    width, layers = any_size(rng)
    left = rng.choice((3, 4, 6, NESTING))
    made = design(rng, width, layers, left)
    if rng.random() < 0.1:
        made = boxes(NESTING - left, made, rng.choice(((SERIES,), (BESIDE,), (SERIES, BESIDE))))
    return made


def largest(rng):
    """A design near the limits: width 64, depth 36, or a length of 65,535 bytes."""
    return rng.choice((
        lambda: design(rng, WIDEST, DEEPEST, 3),
        lambda: design(rng, WIDEST, DEEPEST),
        lambda: series(*[beside(*[cell() for _ in range(32)]) for _ in range(DEEPEST)]),
        lambda: longest(rng),
    ))()


def longest(rng):
    """A series of crosses of exactly 65,535 bytes."""
    return series(*[cross(*shuffled(rng, 14)) for _ in range(3449)])
