"""Designs worked out by hand, each with what the panel program prints for it.

The smallest of each refusal, each pair of refusals that stand beside each other
in the order, and panels small enough to be drawn on a page.
"""

from .design_makers import Dress, beside, boxes, cell, cross, named, series
from .designs import BESIDE, CELL, CROSS, SERIES
from .records import CUT_BODY, CUT_HEAD

UNKNOWN = Dress(21)
EMPTY = series()
SHORT_BOX = Dress(SERIES, length=3)
NOT_ALLOWED = named(3, 1)


def cells(count):
    """So many cells."""
    return [cell() for _ in range(count)]


def wires(count):
    """So many plain wires."""
    return [named(1, 1) for _ in range(count)]


def longer(count):
    """A series of so many cells."""
    return series(*cells(count))


def refused(number, offset):
    """The line of a refusal."""
    return f"refused {number} {offset}\n"


def panel(width, *rows):
    """The lines of a panel, its rows as words."""
    return "".join(line + "\n" for line in (f"panel {width} {len(rows) - 1}", *rows))


DRAWN = [
    ("a cell", cell(), panel(2, "0 1", "0 1")),
    ("width 1", named(1, 1), panel(1, "0")),
    ("width 1 periodic", named(1, 2), panel(1, "0")),
    ("each wire's new place", cross(1, 2, 0), panel(3, "1 2 0")),
    ("two crosses", series(cross(1, 2, 0), cross(1, 2, 0)), panel(3, "2 0 1")),
    ("a cross and a swap", series(cross(1, 2, 0), cross(1, 0, 2)), panel(3, "0 2 1")),
    ("width 3 side by side", beside(named(1, 1), cross(1, 0)), panel(3, "0 2 1")),
    ("a cross before a cell", series(cross(1, 0), cell()), panel(2, "1 0", "0 1")),
    ("a cross behind a cell", series(cell(), cross(1, 0)), panel(2, "0 1", "1 0")),
    ("two cells side by side", beside(cell(), cell()), panel(4, "0 1 2 3", "0 1 2 3")),
    ("two cells one after another", series(cell(), cell()), panel(2, "0 1", "0 1", "0 1")),
    ("BITONIC[4] by name", named(4, 1), panel(4, "0 1 2 3", "0 2 3 1", "0 2 1 3", "0 1 2 3")),
    ("PERIODIC[4] by name", named(4, 2),
     panel(4, "0 2 3 1", "0 2 1 3", "0 2 3 1", "0 2 1 3", "0 1 2 3")),
    ("BITONIC[4] spelt out",
     series(beside(cell(), cell()), cross(0, 2, 3, 1), beside(cell(), cell()), cross(0, 2, 1, 3),
            beside(cell(), cell())),
     panel(4, "0 1 2 3", "0 2 3 1", "0 2 1 3", "0 1 2 3")),
    ("width 6", series(beside(*cells(3)), cross(1, 2, 3, 4, 5, 0), beside(*cells(3)),
                       cross(0, 2, 4, 1, 3, 5)),
     panel(6, "0 1 2 3 4 5", "1 2 3 4 5 0", "0 2 4 1 3 5")),
    ("columns side by side",
     beside(series(cell(), cross(1, 0), cell()), series(cross(1, 0), cell(), cell(), cross(1, 0))),
     panel(4, "0 1 3 2", "1 0 2 3", "0 1 3 2")),
    ("a part of two layers before another", series(series(cell(), cell()), cross(1, 0), cell()),
     panel(2, "0 1", "0 1", "1 0", "0 1")),
    ("crosses side by side before a network",
     series(beside(cross(1, 0), cross(0, 1)), named(4, 1), cross(3, 2, 1, 0)),
     panel(4, "1 0 2 3", "0 2 3 1", "0 2 1 3", "3 2 1 0")),
    ("eight records one in another", boxes(7, cell()), panel(2, "0 1", "0 1")),
    ("depth 36", longer(36), panel(2, *["0 1"] * 37)),
    ("width 64", beside(*wires(64)), panel(64, " ".join(str(i) for i in range(64)))),
    ("a series directly in a series", series(series(cell()), cross(1, 0)), panel(2, "0 1", "1 0")),
]

REFUSED = [
    ("no bytes", b"", CUT_HEAD, 0),
    ("one byte", b"\4", CUT_HEAD, 0),
    ("three bytes", b"\4\0\x12", CUT_HEAD, 0),
    ("an unknown kind of length 0", bytes(4), 13, 0),
    ("a kind of a schedule", b"\x08\0\1\0\2\0\1\0", 13, 0),
    ("an unknown kind past the end", b"\xff\xff\x15\0", 13, 0),
    ("an unknown kind and a byte", b"\4\0\x15\0\0", 13, 0),
    ("kind 274", b"\4\0\x12\1", 13, 0),
    ("a cell of length 3", Dress(CELL, length=3), 12, 0),
    ("a cell of length 5", b"\5\0\x12\0\0", 12, 0),
    ("a cell of length 65,535", Dress(CELL, length=65535), 12, 0),
    ("a cell and a byte", cell().data() + b"\0", 12, 0),
    ("two cells and no box", cell().data() * 2, 12, 0),
    ("a series of length 3", SHORT_BOX, 12, 0),
    ("a beside of length 0", Dress(BESIDE, length=0), 12, 0),
    ("an empty series", series(), 19, 0),
    ("an empty beside", beside(), 19, 0),
    ("an empty series and a byte", series().data() + b"\0", 12, 0),
    ("a box's faulty member and a byte behind", series(UNKNOWN).data() + b"\0", 12, 0),
    ("a series that is cut", series(cell()).data()[:-1], CUT_BODY, 0),
    ("a head alone", series(cell()).data()[:4], CUT_BODY, 0),
    ("a named network that is cut", named(4, 1).data()[:-1], CUT_BODY, 0),
    ("a named network of length 7", b"\7\0\x13\0\4\0\1", 12, 0),
    ("a byte behind a member", Dress(SERIES, [cell()], b"\4"), CUT_HEAD, 8),
    ("three bytes behind a member", Dress(BESIDE, [cell()], b"\4\0\x12"), CUT_HEAD, 8),
    ("a byte behind a member, and the file goes on",
     beside(Dress(SERIES, [cell()], b"\4"), cell()), CUT_HEAD, 12),
    ("a member past its parent",
     beside(Dress(SERIES, body=b"\x08\0\x13\0\2\0"), cell()), CUT_BODY, 8),
    ("a box past its parent",
     beside(series(Dress(BESIDE, cells(1), length=12)), cell()), CUT_BODY, 8),
    ("a member of length 0", series(Dress(CELL, length=0)), 12, 4),
    ("width 3", named(3, 1), 1, 0),
    ("construction 3", named(4, 3), 2, 0),
    ("width 128, construction 0", named(128, 0), 1, 0),
    ("width 260", named(260, 1), 1, 0),
    ("construction 257", named(4, 257), 2, 0),
    ("a cross of length 4", Dress(CROSS), 12, 0),
    ("a cross of length 5 and no width byte", Dress(CROSS, length=5), CUT_BODY, 0),
    ("a cross of length 65,535 and no width byte", Dress(CROSS, length=65535), CUT_BODY, 0),
    ("a cross of length 65,535 and a width byte", Dress(CROSS, body=b"\2", length=65535), 12, 0),
    ("a cross of width 0", cross(), 22, 0),
    ("a cross of width 0 and a byte", cross().data() + b"\0", 12, 0),
    ("a cross of width 0 and length 6", b"\6\0\x14\0\0\0", 12, 0),
    ("a cross of width 1 and length 5", b"\5\0\x14\0\1", 12, 0),
    ("a cross that is cut", b"\7\0\x14\0\2\0", CUT_BODY, 0),
    ("a cross whose width byte is its parent's end",
     beside(series(Dress(CROSS, length=5)), cell()), CUT_BODY, 8),
    ("place 1 at width 1", cross(1), 21, 0),
    ("a place twice", cross(0, 2, 2), 21, 0),
    ("width 65", cross(*range(65)), 22, 0),
    ("width 255", cross(*reversed(range(255))), 22, 0),
    ("width 65, a place twice", cross(*range(64), 0), 21, 0),
    ("width 255, a place too high", cross(*range(1, 256)), 21, 0),
    ("nine records one in another", boxes(8, cell()), 18, 32),
    ("nine boxes", boxes(9, cell()), 18, 32),
    ("nine series", boxes(9, cell(), (SERIES,)), 18, 32),
    ("the ninth is empty", boxes(8, series()), 18, 32),
    ("the eighth is empty", boxes(7, series()), 19, 28),
    ("the ninth is too short", boxes(8, SHORT_BOX), 12, 32),
    ("the ninth is unknown", boxes(8, UNKNOWN), 13, 32),
    ("the ninth is cut", boxes(8, Dress(SERIES, length=5)), CUT_BODY, 32),
    ("the ninth is not allowed", boxes(8, NOT_ALLOWED), 18, 32),
    ("an empty member", series(cell(), beside()), 19, 8),
    ("members from the left", beside(NOT_ALLOWED, EMPTY), 1, 4),
    ("members from the left, deep first", beside(series(cell(), UNKNOWN), EMPTY), 13, 12),
    ("unequal widths in a series", series(cell(), named(4, 1)), 20, 0),
    ("unequal depths in a beside", beside(cell(), cross(0, 1)), 20, 0),
    ("unequal widths in a beside", beside(cross(0), cross(0, 1), cell()), 20, 0),
    ("unequal inside", series(beside(cell(), named(1, 1)), named(3, 1)), 20, 4),
    ("a faulty member before 20", series(cell(), cross(0), UNKNOWN), 13, 14),
    ("depth 37", longer(37), 22, 0),
    ("depth 37 and unequal widths", series(*cells(37), cross(0)), 20, 0),
    ("depth 37 in a member, a faulty one beside it", beside(longer(37), UNKNOWN), 22, 4),
    ("depth 72", series(named(64, 2), named(64, 2)), 22, 0),
    ("width 66", beside(*cells(33)), 22, 0),
    ("width 65 by wires", beside(*wires(65)), 22, 0),
    ("width 66 and unequal depths", beside(*cells(33), cross(0)), 20, 0),
    ("width 65 in a member", series(cross(*range(65)), UNKNOWN), 22, 4),
]


def data_of(made):
    """The bytes of a design, given as bytes or in its dress."""
    return made if isinstance(made, bytes) else made.data()


CASES = ([(name, data_of(made), text) for name, made, text in DRAWN]
         + [(name, data_of(made), refused(number, offset))
            for name, made, number, offset in REFUSED])
