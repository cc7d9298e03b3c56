"""Designs: nested records in the length-first dress, read into a tree and a feed sheet.

16 series, 17 beside, 18 one cell, 19 a named network (width, construction),
20 cross (a width byte and that many bytes, each wire's new place).
"""

from dataclasses import dataclass

from . import networks
from .panels import Beside, Cell, Cross, Named, Series, feed_sheet
from .records import CUT_BODY, CUT_HEAD, little

SERIES, BESIDE, CELL, NAMED, CROSS = 16, 17, 18, 19, 20
KINDS = (SERIES, BESIDE, CELL, NAMED, CROSS)
HEAD = 4
NESTING = 8
WIDEST = 64
DEEPEST = 36


class Refused(Exception):
    """A record of the design is refused: the number, its offset, and how many bytes of it are there."""

    def __init__(self, number, offset, present=0):
        super().__init__(number, offset, present)
        self.number, self.offset, self.present = number, offset, present


@dataclass
class Outcome:
    """What reading a design answers; on a refusal the other results are 0."""

    refusal: int = 0
    offset: int = 0
    present: int = 0
    width: int = 0
    depth: int = 0
    filled: int = 0


def read_panel(data, lent):
    """Read the design; write its feed sheet into the lent bytes. Room 3 is last of all."""
    try:
        tree = read_design(data)
    except Refused as refused:
        return Outcome(refused.number, refused.offset, refused.present)
    sheet = feed_sheet(tree)
    if len(lent) < len(sheet):
        return Outcome(refusal=3)
    lent[:len(sheet)] = sheet
    return Outcome(0, 0, 0, tree.width, tree.depth, len(sheet))


def read_design(data):
    """The tree that the bytes spell; the first refusal is raised."""
    tree, _ = read_part(data, 0, len(data), 1)
    return tree


def read_part(data, at, end, nesting):
    """The record at the offset, inside a parent that ends at `end`: its tree, and where it ends.

    Judged by 11 (head), 13, 12, 23 (body), 18, 19, then its members from the
    left, then 1, 2, 21, 20, 22. The outermost record has nesting 1.
    """
    kind, length = judge_dress(data, at, end, nesting)
    if kind in (SERIES, BESIDE):
        part = read_box(data, at, at + length, kind, nesting)
    else:
        part = read_leaf(data[at + HEAD:at + length], at, kind)
    if not 1 <= part.width <= WIDEST or part.depth > DEEPEST:
        raise Refused(22, at)
    return part, at + length


def judge_dress(data, at, end, nesting):
    """The record's kind and length: 11 (head), 13, 12, 23 (body), 18.

    A member's end is its parent's, and the bytes of a cut one are counted up to
    there; bytes after the outermost record are its 12.
    """
    if end - at < HEAD:
        raise Refused(CUT_HEAD, at, end - at)
    length, kind = little(data[at:at + 2]), little(data[at + 2:at + 4])
    if kind not in KINDS:
        raise Refused(13, at)
    judge_length(data, at, end, kind, length)
    if nesting == 1 and at + length < end:
        raise Refused(12, at)
    if at + length > end:
        raise Refused(CUT_BODY, at, end - at)
    if nesting > NESTING:
        raise Refused(18, at)
    return kind, length


def judge_length(data, at, end, kind, length):
    """12 where the length is not that of the kind; a cross's width byte past the end is 23."""
    if kind in (SERIES, BESIDE):
        if length < HEAD:
            raise Refused(12, at)
    elif kind == CELL:
        if length != HEAD:
            raise Refused(12, at)
    elif kind == NAMED:
        if length != HEAD + 4:
            raise Refused(12, at)
    else:
        if length < HEAD + 1:
            raise Refused(12, at)
        if end - at == HEAD:
            raise Refused(CUT_BODY, at, end - at)
        if length != HEAD + 1 + data[at + HEAD]:
            raise Refused(12, at)


def read_box(data, at, end, kind, nesting):
    """A series or a beside: 19 where it is empty, its members from the left, then 20."""
    if at + HEAD == end:
        raise Refused(19, at)
    members, place = [], at + HEAD
    while place < end:
        member, place = read_part(data, place, end, nesting + 1)
        members.append(member)
    if kind == SERIES:
        if len({member.width for member in members}) > 1:
            raise Refused(20, at)
        return Series(members)
    if len({member.depth for member in members}) > 1:
        raise Refused(20, at)
    return Beside(members)


def read_leaf(body, at, kind):
    """A cell, a named network (1, 2) or a cross (21)."""
    if kind == CELL:
        return Cell()
    if kind == NAMED:
        width, construction = little(body[0:2]), little(body[2:4])
        refusal = networks.refused(width, construction)
        if refusal:
            raise Refused(refusal, at)
        return Named(width, construction)
    places = list(body[1:])
    if sorted(places) != list(range(len(places))):
        raise Refused(21, at)
    return Cross(places)
