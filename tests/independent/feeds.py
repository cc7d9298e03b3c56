"""Runs over a feed sheet: the record, the judge of a sheet, opening, enter, turn, gap list.

They keep the rules of a run, with the depth in place of the construction. The
calls change the record they are given; a refused call leaves it equal.
"""

from dataclasses import dataclass, field

from .designs import DEEPEST, WIDEST
from .run import ENTRIES, FREE, LARGEST_WIDTH, TOGGLES, TOKENS, enter_sound


@dataclass
class Feed:
    """The record of a run over a feed sheet, in its other parts as that of a run."""

    width: int = 0
    depth: int = 0
    entered: int = 0
    counts: list = field(default_factory=lambda: [0] * LARGEST_WIDTH)
    toggles: list = field(default_factory=lambda: [False] * TOGGLES)
    places: list = field(default_factory=lambda: [FREE] * TOKENS)

    def inside(self):
        """The tokens inside, rising."""
        return [t for t in range(TOKENS) if self.places[t][0]]


def sheet_rows(width, depth, sheet):
    """The rows of the sheet, that of the exits last."""
    return [sheet[level * width:(level + 1) * width] for level in range(depth + 1)]


def judged(width, depth, sheet):
    """The sheet's refusal: 22, 20 (odd width with depth above 0), 3, 21 (a row no permutation)."""
    if not 1 <= width <= WIDEST or depth > DEEPEST:
        return 22
    if width % 2 == 1 and depth > 0:
        return 20
    if len(sheet) < (depth + 1) * width:
        return 3
    if any(sorted(row) != list(range(width)) for row in sheet_rows(width, depth, sheet)):
        return 21
    return 0


def opening(width, depth, sheet):
    """The refusal and the record; a refused opening gives width 0 and depth 0."""
    refusal = judged(width, depth, sheet)
    return (refusal, Feed()) if refusal else (0, Feed(width, depth))


def broken(feed):
    """The parts of soundness that do not hold, by name. None: the record is sound."""
    inside = [place for place in feed.places if place[0]]
    parts = {
        "width": 1 <= feed.width <= WIDEST,
        "depth": feed.depth <= DEEPEST,
        "odd": feed.width % 2 == 0 or feed.depth == 0,
        "entered": feed.entered <= ENTRIES,
        "free place": all(place == FREE for place in feed.places if not place[0]),
        "sum": feed.entered == sum(feed.counts) + len(inside),
        "level": all(level <= feed.depth for _, level, _ in inside),
        "wire": all(wire < feed.width for _, _, wire in inside),
        "counts beyond": not any(feed.counts[feed.width:]),
        "toggles beyond": not any(feed.toggles[feed.depth * (feed.width // 2):]),
    }
    return [name for name, holds in parts.items() if not holds]


def sound(feed):
    """Whether every part of soundness holds."""
    return not broken(feed)


def enter(feed, sheet, token, wire):
    """Put a free token on a level 0 wire. The sheet's refusal, then 9, 4, 5, 6, 7."""
    refusal = judged(feed.width, feed.depth, sheet)
    if refusal:
        return refusal
    if not sound(feed):
        return 9
    return enter_sound(feed, token, wire)


def turn(feed, sheet, token):
    """A turn of a token inside. The sheet's refusal, then 9, 4, 8.

    The answer is (refusal,), (0, "passed", new level, new wire, layer, cell,
    outlet) or (0, "dealt", exit, number).
    """
    refusal = judged(feed.width, feed.depth, sheet)
    if refusal:
        return (refusal,)
    if not sound(feed):
        return (9,)
    return turn_sound(feed, sheet_rows(feed.width, feed.depth, sheet), token)


def turn_sound(feed, rows, token):
    """A turn on a record known to be sound, over rows known to be good."""
    if token >= TOKENS:
        return (4,)
    inside, level, wire = feed.places[token]
    if not inside:
        return (8,)
    if level < feed.depth:
        return pass_cell(feed, token, level, rows[level][wire] // 2)
    exit_wire = rows[feed.depth][wire]
    number = exit_wire + feed.width * feed.counts[exit_wire]
    feed.counts[exit_wire] += 1
    feed.places[token] = FREE
    return (0, "dealt", exit_wire, number)


def pass_cell(feed, token, level, cell):
    """Leave by the top when the toggle is up, by the bottom when down, and flip it."""
    toggle = level * (feed.width // 2) + cell
    outlet = 1 if feed.toggles[toggle] else 0
    feed.toggles[toggle] = not feed.toggles[toggle]
    feed.places[token] = (True, level + 1, 2 * cell + outlet)
    return (0, "passed", level + 1, 2 * cell + outlet, level, cell, outlet)


def missing_by_exit(feed):
    """For each exit its numbers i + w * c below entered, from the first it has not dealt."""
    return [range(i + feed.width * feed.counts[i], feed.entered, feed.width)
            for i in range(feed.width)]


def missing_count(feed):
    """How many numbers below entered are not dealt."""
    return sum(len(numbers) for numbers in missing_by_exit(feed))


def missing_numbers(feed):
    """The numbers below entered that are not dealt, rising."""
    return sorted(v for numbers in missing_by_exit(feed) for v in numbers)


def gap_list(feed, lent):
    """Write the gap list into the lent numbers; give the refusal and how many. Order 9, 17.

    It is lent no sheet. The count comes first, for a record never reached can
    miss many.
    """
    if not sound(feed):
        return 9, 0
    count = missing_count(feed)
    if count > len(lent):
        return 17, 0
    lent[:count] = missing_numbers(feed)
    return 0, count
