"""Seeded schedules that are accepted, as the list of their records' bytes."""

from . import edges
from .networks import depth
from .records import CLOSE, ENTER, OPEN, TURN, read_record, record_bytes


def whole(rng, width=None, construction=None, entries=None):
    """A schedule that is accepted: tokens enter and take turns in any order."""
    width = width or edges.width(rng)
    construction = construction or edges.construction(rng)
    own_turns = depth(width, construction) + 1
    if entries is None:
        entries = rng.choice((0, 1, 2, 3, rng.randrange(40), 2 + rng.randrange(400) // own_turns))
    crowd = rng.choice((1, 2, 5, 16, 256))
    free, inside, left = list(range(256)), [], {}
    rng.shuffle(free)
    made = [record_bytes(OPEN, width, construction)]
    for _ in range(entries * (own_turns + 1)):
        if entries and free and (not inside or len(inside) < crowd and rng.random() < 0.5):
            token = free.pop(rng.randrange(len(free)))
            made.append(record_bytes(ENTER, token, rng.randrange(width)))
            inside.append(token)
            left[token] = own_turns
            entries -= 1
        else:
            at = rng.randrange(len(inside))
            made.append(record_bytes(TURN, inside[at]))
            left[inside[at]] -= 1
            if not left[inside[at]]:
                free.append(inside.pop(at))
    return made + [record_bytes(CLOSE, sum(record[2] == ENTER for record in made))]


def width_of(records):
    """The width in the open record."""
    return read_record(records[0])[3][0]


def tokens_at(records, place):
    """The tokens inside, and those free, before the record at the place."""
    own_turns = depth(*read_record(records[0])[3]) + 1
    left = {}
    for record in records[1:place]:
        _, kind, _, fields = read_record(record)
        if kind == ENTER:
            left[fields[0]] = own_turns
        elif kind == TURN:
            left[fields[0]] -= 1
    inside = [token for token, turns in left.items() if turns]
    return inside, [token for token in range(256) if token not in inside]


def busy_place(rng, records):
    """A place before which a token is inside, or None where none is found."""
    for _ in range(10):
        place = rng.randrange(1, len(records))
        if tokens_at(records, place)[0]:
            return place
    return None
