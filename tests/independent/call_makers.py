"""Seeded console lines for single calls, near every boundary."""

import re

from . import edges
from .damages import DAMAGES
from .networks import depth, refused
from .records import FIELDS, LENGTHS, record_bytes
from .run import missing_count
from .schedule import run_schedule
from .schedule_makers import whole
from .words import LARGEST_ROOM, hex_text


def sheet_size(width, construction):
    """depth * w, or something in its place where the two are not allowed."""
    return 16 if refused(width, construction) else depth(width, construction) * width


def sheet_line(rng):
    """`sheet W C LEN`, the length near the sheet's."""
    width, construction = edges.any_width(rng), edges.any_construction(rng)
    size = sheet_size(width, construction)
    length = rng.choice((0, max(size - 1, 0), size, size, size + 1, size + 5))
    if rng.random() < 0.01:
        length = rng.choice((LARGEST_ROOM - 1, LARGEST_ROOM))
    return f"sheet {width} {construction} {length}"


def view_line(rng):
    """`view W C LAYER LEN LEN`, the layer near the depth, either sheet long enough or not."""
    width, construction = edges.any_width(rng), edges.any_construction(rng)
    size = sheet_size(width, construction)
    layers = size // width if width else 0
    last = max(layers - 1, 0)
    layer = rng.choice((0, last, last, layers, rng.randrange(layers + 1), edges.u16(rng)))
    lengths = (0, max(size - 1, 0), size, size, size, size + 1, 2304)
    return f"view {width} {construction} {layer} {rng.choice(lengths)} {rng.choice(lengths)}"


def fields(rng, kind):
    """Field values of a record, of any size that fits."""
    return [edges.u16(rng) if size == 2 else edges.u32(rng) for size in FIELDS[kind]]


def read_line(rng):
    """`read HEX`: a record whole, cut, with bytes behind it, or with another head."""
    kind = rng.choice(tuple(FIELDS))
    data = bytearray(record_bytes(kind, *fields(rng, kind)))
    what = rng.randrange(6)
    if what == 1:
        data = data[:rng.randrange(len(data))]
    elif what == 2:
        data += rng.randbytes(rng.choice((1, 2, 40)))
    elif what == 3:
        data[0:2] = rng.choice((0, 3, 4, 6, 8, 12, len(data) + 256, 65535)).to_bytes(2, "little")
    elif what == 4:
        data[2:4] = rng.choice((0, 1, 2, 3, 4, 5, 6, 7, 256 + kind, 65535)).to_bytes(2, "little")
    elif what == 5:
        data = rng.randbytes(rng.randrange(14))
    return f"read {hex_text(data)}"


def write_line(rng):
    """`write ROOM KIND FIELD ..`, the room near the length."""
    kind = rng.choice(tuple(FIELDS))
    room = rng.choice((0, LENGTHS[kind] - 1, LENGTHS[kind], LENGTHS[kind], LENGTHS[kind] + 1, 20))
    return " ".join(str(word) for word in ("write", room, kind, *fields(rng, kind)))


def run_line(rng):
    """`run ROOM HEX`: a schedule whole or damaged, the room near what its numbers take."""
    records = whole(rng)
    while len(records) > 400:
        records = whole(rng)
    dealt = run_schedule(b"".join(records), bytearray(LARGEST_ROOM)).filled
    if rng.random() < 0.7:
        records = rng.choice(DAMAGES)(rng, records)
    room = rng.choice((0, 11, 12, max(dealt - 1, 0), dealt, dealt + 1, dealt + 30))
    return f"run {room} {hex_text(b''.join(records))}"


def gaps_line(rng, run):
    """`gaps ROOM`, the room near the length of the list; seldom a very long one."""
    count = missing_count(run)
    small = count <= 300 or count < LARGEST_ROOM and rng.random() < 0.01
    return f"gaps {edges.around(rng, count) if small else rng.choice((0, 1, 9, 100))}"


def enter_line(rng, run):
    """`enter T V`, the token free, inside or none, the wire near the width."""
    return f"enter {edges.token(rng, run.inside())} {edges.wire(rng, max(run.width, 1))}"


def turn_line(rng, run):
    """`turn T`, most often of a token inside."""
    return f"turn {edges.token(rng, run.inside() * 2)}"


def spoiled(rng, line):
    """The line with one character dropped, doubled, added or changed."""
    at = rng.randrange(len(line))
    mark = rng.choice(" 0159,=/-+afAF\tx\xff")
    return rng.choice((
        line[:at] + line[at + 1:],
        line[:at] + line[at] + line[at:],
        line[:at] + mark + line[at:],
        line[:at] + mark + line[at + 1:],
        re.sub("[0-9]+", lambda found: "000" + found[0], line, count=1),
        re.sub("[0-9]+(?=[^0-9]*$)", str(rng.choice((65536, 65537, 2**32, 10**10))), line),
        line + rng.choice((" ", " 0", " -", "\r")),
        " " + line,
    ))
