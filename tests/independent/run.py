"""A run: the record, opening, soundness, enter, turn and the gap list.

The calls change the record they are given; a refused call leaves it equal.
"""

from copy import deepcopy
from dataclasses import dataclass, field

from .networks import BITONIC, PERIODIC, WIDTHS, depth, refused, rows

LARGEST_WIDTH = 64
TOGGLES = 1152
TOKENS = 256
ENTRIES = 1_000_000
FREE = (False, 0, 0)


@dataclass
class Run:
    """The run record.

    The toggle of cell c in layer L stands at L * (w/2) + c; False is up. A
    token's place is (inside, level, wire).
    """

    width: int = 0
    construction: int = 0
    entered: int = 0
    counts: list = field(default_factory=lambda: [0] * LARGEST_WIDTH)
    toggles: list = field(default_factory=lambda: [False] * TOGGLES)
    places: list = field(default_factory=lambda: [FREE] * TOKENS)

    def copy(self):
        """A record of its own with the same contents."""
        return deepcopy(self)

    def inside(self):
        """The tokens inside, rising."""
        return [t for t in range(TOKENS) if self.places[t][0]]


def opening(width, construction):
    """The refusal (order 1, 2) and the record.

    A refused opening gives width 0 and construction 0, the rest as at opening.
    """
    refusal = refused(width, construction)
    return (refusal, Run()) if refusal else (0, Run(width, construction))


def broken(run):
    """The parts of soundness that do not hold, by name. None: the record is sound."""
    parts = {
        "width": run.width in WIDTHS,
        "construction": run.construction in (BITONIC, PERIODIC),
        "entered": run.entered <= ENTRIES,
        "free place": all(place == FREE for place in run.places if not place[0]),
        "sum": run.entered == sum(run.counts) + sum(place[0] for place in run.places),
    }
    if parts["width"] and parts["construction"]:
        layers = depth(run.width, run.construction)
        inside = [place for place in run.places if place[0]]
        parts["level"] = all(level <= layers for _, level, _ in inside)
        parts["wire"] = all(wire < run.width for _, _, wire in inside)
        parts["counts beyond"] = not any(run.counts[run.width:])
        parts["toggles beyond"] = not any(run.toggles[layers * (run.width // 2):])
    return [name for name, holds in parts.items() if not holds]


def sound(run):
    """Whether every part of soundness holds."""
    return not broken(run)


def enter(run, token, wire):
    """Put a free token on a level 0 wire. Order 9, 4, 5, 6, 7."""
    if not sound(run):
        return 9
    return enter_sound(run, token, wire)


def enter_sound(run, token, wire):
    """Enter on a record known to be sound."""
    if token >= TOKENS:
        return 4
    if wire >= run.width:
        return 5
    if run.places[token][0]:
        return 6
    if run.entered == ENTRIES:
        return 7
    run.places[token] = (True, 0, wire)
    run.entered += 1
    return 0


def turn(run, token):
    """A turn of a token inside. Order 9, 4, 8.

    The answer is (refusal,), (0, "passed", new level, new wire, layer, cell,
    outlet) or (0, "dealt", exit, number).
    """
    if not sound(run):
        return (9,)
    return turn_sound(run, token)


def turn_sound(run, token):
    """A turn on a record known to be sound."""
    if token >= TOKENS:
        return (4,)
    inside, level, wire = run.places[token]
    if not inside:
        return (8,)
    if level < depth(run.width, run.construction):
        return pass_cell(run, token, level, wire)
    number = wire + run.width * run.counts[wire]
    run.counts[wire] += 1
    run.places[token] = FREE
    return (0, "dealt", wire, number)


def pass_cell(run, token, level, wire):
    """Leave by the top when the toggle is up, by the bottom when down, and flip it."""
    cell = rows(run.width, run.construction)[level][wire] // 2
    toggle = level * (run.width // 2) + cell
    outlet = 1 if run.toggles[toggle] else 0
    run.toggles[toggle] = not run.toggles[toggle]
    run.places[token] = (True, level + 1, 2 * cell + outlet)
    return (0, "passed", level + 1, 2 * cell + outlet, level, cell, outlet)


def missing_at(run, i):
    """The missing numbers of exit i below entered, rising."""
    return range(i + run.width * run.counts[i], run.entered, run.width)


def missing_count(run):
    """How many numbers below entered are missing."""
    return sum(len(missing_at(run, i)) for i in range(min(run.width, LARGEST_WIDTH)))


def missing_numbers(run):
    """The missing numbers below entered, rising."""
    numbers = []
    for i in range(run.width):
        numbers.extend(missing_at(run, i))
    return sorted(numbers)


def gap_list(run, lent):
    """Write the gap list into the lent numbers; give the refusal and how many. Order 9, 17.

    The count comes first, for a record never reached can miss nearly a million.
    """
    if not sound(run):
        return 9, 0
    count = missing_count(run)
    if count > len(lent):
        return 17, 0
    lent[:count] = missing_numbers(run)
    return 0, count
