"""The words of a console line: numbers, hex and the parts of a run record."""

import re

from .run import FREE, LARGEST_WIDTH, TOGGLES, TOKENS

LARGEST_ROOM = 65_536


class NoCall(Exception):
    """The line is no call; its answer is `?`."""


def number(word, largest):
    """A decimal number: one to ten digits and nothing else, at most the largest."""
    if not re.fullmatch("[0-9]{1,10}", word) or int(word) > largest:
        raise NoCall
    return int(word)


def u16(word):
    """A number of 16 bits."""
    return number(word, 2**16 - 1)


def u32(word):
    """A number of 32 bits."""
    return number(word, 2**32 - 1)


def room(word):
    """The length of something lent."""
    return number(word, LARGEST_ROOM)


def hex_bytes(word):
    """Bytes as lower-case hex digits, two for each; `-` is no bytes."""
    if word == "-":
        return b""
    if not re.fullmatch("([0-9a-f]{2})+", word):
        raise NoCall
    return bytes.fromhex(word)


def hex_text(data):
    """The word for the bytes."""
    return bytes(data).hex() or "-"


def list_text(items):
    """The word for a list."""
    return ",".join(str(item) for item in items) or "-"


def split(item, mark, count):
    """The parts of an item, exactly so many, parted by the mark."""
    parts = item.split(mark)
    if len(parts) != count:
        raise NoCall
    return parts


def entries(word, size, entry):
    """The entries of a list, their indexes strictly rising and below the size."""
    found = []
    for item in [] if word == "-" else word.split(","):
        index, value = entry(item)
        if index >= size or found and found[-1][0] >= index:
            raise NoCall
        found.append((index, value))
    return found


def count_entry(item):
    """`i=n`"""
    index, value = split(item, "=", 2)
    return u32(index), u32(value)


def toggle_entry(item):
    """`i`, a toggle that is down."""
    return u32(item), True


def place_entry(item):
    """`t=INSIDE/LEVEL/WIRE`"""
    token, place = split(item, "=", 2)
    inside, level, wire = split(place, "/", 3)
    return u32(token), (number(inside, 1) == 1, u16(level), u16(wire))


def counts(word):
    """Exit counts that are not zero."""
    return entries(word, LARGEST_WIDTH, count_entry)


def toggles(word):
    """Toggles that are down."""
    return entries(word, TOGGLES, toggle_entry)


def places(word):
    """Places of tokens."""
    return entries(word, TOKENS, place_entry)


def put(run, given_counts, given_toggles, given_places):
    """Put what was read into the record's counts, toggles and places."""
    for held, given in ((run.counts, given_counts), (run.toggles, given_toggles),
                        (run.places, given_places)):
        for index, value in given:
            held[index] = value


def record_text(run):
    """The six words of a run record: only what differs from an opening is listed."""
    return f"{run.width} {run.construction} {run.entered} {board_text(run)}"


def feed_text(feed):
    """The six words of the record of a run over a feed sheet."""
    return f"{feed.width} {feed.depth} {feed.entered} {board_text(feed)}"


def board_text(run):
    """Counts, toggles and places, in three words."""
    return " ".join((
        list_text(f"{i}={n}" for i, n in enumerate(run.counts) if n),
        list_text(i for i, down in enumerate(run.toggles) if down),
        list_text(f"{t}={inside:d}/{level}/{wire}"
                  for t, (inside, level, wire) in enumerate(run.places)
                  if (inside, level, wire) != FREE),
    ))
