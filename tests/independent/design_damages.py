"""Seeded damage to designs.

Each damage is named after what is done to a whole design, most often to a
record deep inside; the records around it stay true. Together they meet every
refusal that a design can meet.
"""

from . import edges
from .design_makers import (any_size, beside, boxes, cell, cross, design, named, series, shuffled,
                            whole)
from .designs import BESIDE, CELL, CROSS, DEEPEST, HEAD, KINDS, NAMED, SERIES, WIDEST

UNKNOWN = (0, 1, 2, 3, 4, 5, 6, 7, 15, 21, 255, 256, 272, 273, 274, 275, 276, 4096, 65535)


def any_record(rng, made, kinds=KINDS):
    """Some record of these kinds in the design, or any one where there is none."""
    records = made.records()
    return rng.choice([record for record in records if record.kind in kinds] or records)


def become(record, other):
    """Put the other record in the place of this one."""
    record.kind, record.members = other.kind, other.members
    record.body, record.length = other.body, other.length


def wrong_length(rng, made):
    """The length of one record is not the true one."""
    record = any_record(rng, made)
    true = len(record.data())
    record.length = rng.choice((0, 1, 2, 3, 4, 5, 6, 8, true - 1, true + 1, true + 4, true + 256,
                                65535))
    return made


def unknown_kind(rng, made):
    """A kind that no design has, at times with a length that is none."""
    record = any_record(rng, made)
    record.kind = rng.choice(UNKNOWN)
    if rng.random() < 0.3:
        record.length = rng.choice((0, 3, 4, 65535))
    return made


def other_kind(rng, made):
    """A record of another of the five kinds."""
    any_record(rng, made).kind = rng.choice(KINDS)
    return made


def swapped_boxes(rng, made):
    """A series is read as a beside, or a beside as a series."""
    record = any_record(rng, made, (SERIES, BESIDE))
    record.kind = SERIES if record.kind == BESIDE else BESIDE
    return made


def bad_named(rng, made):
    """A named network whose width, construction or both are not allowed."""
    bad_width, bad_construction = rng.choice(((1, 0), (0, 1), (1, 1)))
    width = rng.choice(edges.BAD_WIDTHS) if bad_width else edges.width(rng)
    construction = (rng.choice(edges.BAD_CONSTRUCTIONS) if bad_construction
                    else edges.construction(rng))
    become(any_record(rng, made, (NAMED, CELL)), named(width, construction))
    return made


def bad_places(rng, width):
    """Places that are no permutation: one twice, or one too high."""
    places = shuffled(rng, width)
    at = rng.randrange(width)
    others = places[:at] + places[at + 1:]
    places[at] = rng.choice([width, min(255, width + 1), 255] + others)
    return places


def bad_cross(rng, made):
    """A cross that is no permutation, of any width at all."""
    width = rng.choice((1, 2, 3, 4, 8, 63, 64, 65, 66, 128, 254, 255))
    become(any_record(rng, made, (CROSS, CELL)), cross(*bad_places(rng, width)))
    return made


def wide_cross(rng, made):
    """A cross of width 0, or one that is a permutation wider than 64."""
    width = rng.choice((0, 0, 63, 64, 65, 65, 66, 100, 128, 255))
    become(any_record(rng, made, (CROSS, CELL)), cross(*shuffled(rng, width)))
    return made


def width_byte(rng, made):
    """The width byte of a cross does not agree with its length."""
    record = any_record(rng, made, (CROSS,))
    if record.kind == CROSS and record.body:
        width = rng.choice((0, 1, record.body[0] - 1, record.body[0] + 1, 64, 255)) % 256
        record.body = bytes([width]) + record.body[1:]
    return made


def cut_cross(rng, made):
    """A cross without its width byte, or without its last places; its length may say so or not."""
    record = any_record(rng, made, (CROSS,))
    if record.kind != CROSS:
        become(record, cross(*shuffled(rng, 3)))
    record.length = rng.choice((None, HEAD + len(record.body), HEAD + 1, HEAD))
    record.body = record.body[:rng.choice((0, 0, 1, len(record.body) // 2))]
    return made


def emptied(rng, made):
    """A box without members, in the place of a record or among the members of another."""
    empty = rng.choice((series(), beside()))
    box = any_record(rng, made, (SERIES, BESIDE))
    if rng.random() < 0.5:
        become(box, empty)
    else:
        box.members.insert(rng.randrange(len(box.members) + 1), empty)
    return made


def other_member(rng, made):
    """A member is dropped, doubled, or another one put beside it."""
    box = any_record(rng, made, (SERIES, BESIDE))
    at = rng.randrange(len(box.members) + 1)
    what = rng.randrange(3)
    if what == 0 and box.members:
        del box.members[min(at, len(box.members) - 1)]
    elif what == 1 and box.members:
        box.members.insert(at, rng.choice(box.members))
    else:
        other = rng.choice((cell(), cross(*shuffled(rng, rng.choice((1, 2, 3, 4)))),
                            named(rng.choice((1, 2, 4)), edges.construction(rng))))
        box.members.insert(at, other)
    return made


def loose_bytes(rng, made):
    """Bytes behind a box's last member: too few for a head, or a record of any kind at all."""
    box = any_record(rng, made, (SERIES, BESIDE))
    box.body = rng.choice((b"\0", b"\4\0", b"\4\0\x12", rng.randbytes(4), b"\4\0\x12\0\4",
                           b"\5\0\x14\0", b"\7\0\x14\0\2", b"\x08\0\x13\0\2\0\1"))
    return made


def past_parent(rng, made):
    """A member's length passes its parent's end, though the file goes on."""
    box = any_record(rng, made, (SERIES, BESIDE))
    if not box.members:
        return made
    last = rng.choice(box.members[-2:])
    if last.is_box():
        last.length = len(last.data()) + rng.choice((1, 2, 4, 100))
    else:
        become(last, rng.choice((named(4, 1), cross(*shuffled(rng, 6)))))
        last.length = len(last.data())
        last.body = last.body[:rng.randrange(len(last.body))]
    return made


def deeper(rng, made):
    """Boxes around a record, some seven to nine of them."""
    record = any_record(rng, made)
    inner = type(record)(record.kind, record.members, record.body, record.length)
    kinds = rng.choice(((SERIES,), (BESIDE,), (SERIES, BESIDE), (BESIDE, SERIES)))
    become(record, boxes(rng.choice((1, 2, 4, 6, 7, 7, 8, 9)), inner, kinds))
    return made


def near_depth(rng, made):
    """A part of depth 35 to 38 in the place of the design or of one record."""
    width = rng.choice((2, 4, 64))
    layers = rng.choice((DEEPEST - 1, DEEPEST, DEEPEST + 1, DEEPEST + 1, DEEPEST + 2))
    part = design(rng, width, layers, rng.choice((3, 4)))
    become(made if rng.random() < 0.5 else any_record(rng, made), part)
    return made


def near_width(rng, made):
    """A part of width 63 to 66 in the place of the design or of one record."""
    width = rng.choice((WIDEST - 1, WIDEST, WIDEST + 1, WIDEST + 1, WIDEST + 2))
    layers = rng.choice((0, 1, 2)) if width % 2 == 0 else 0
    parts = [design(rng, 2, layers, 3) for _ in range(width // 2)]
    part = beside(*parts, *[cross(0)] * (width % 2))
    become(made if rng.random() < 0.5 else any_record(rng, made), part)
    return made


def uneven(rng, made):
    """Two designs of any size, one after another or side by side."""
    parts = [design(rng, *any_size(rng), 4) for _ in range(2)]
    return rng.choice((series, beside))(*parts)


DAMAGES = (wrong_length, unknown_kind, other_kind, swapped_boxes, bad_named, bad_cross, wide_cross,
           width_byte, cut_cross, emptied, other_member, loose_bytes, past_parent, deeper,
           near_depth, near_width, uneven)


def cut(rng, data):
    """The file ends early."""
    return data[:rng.choice((0, 1, 2, 3, 4, len(data) - 1, rng.randrange(len(data) + 1)))]


def behind(rng, data):
    """Bytes after the outermost record."""
    return data + rng.choice((b"\0", b"\4\0\x12\0", rng.randbytes(3), data))


def flipped(rng, data):
    """Some bits are flipped."""
    data = bytearray(data or b"\0")
    for _ in range(rng.choice((1, 1, 2, 5))):
        data[rng.randrange(len(data))] ^= 1 << rng.randrange(8)
    return bytes(data)


FILE_DAMAGES = (cut, behind, flipped)


def damaged(rng, turn):
    """A design with the damage whose turn it is, at times with a second one: (name, bytes)."""
    at = turn % (len(DAMAGES) + len(FILE_DAMAGES) + 3)
    if at < len(DAMAGES):
        return DAMAGES[at].__name__, DAMAGES[at](rng, whole(rng)).data()
    if at < len(DAMAGES) + len(FILE_DAMAGES):
        damage = FILE_DAMAGES[at - len(DAMAGES)]
        return damage.__name__, damage(rng, whole(rng).data())
    first, second = rng.choice(DAMAGES), rng.choice(DAMAGES)
    data = second(rng, first(rng, whole(rng))).data()
    if rng.random() < 0.3:
        data = rng.choice(FILE_DAMAGES)(rng, data)
    return f"{first.__name__} and {second.__name__}", data
