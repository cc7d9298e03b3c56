"""Seeded schedule files, each with a name that says what it is."""

from .damages import DAMAGES
from .networks import BITONIC, PERIODIC, WIDTHS
from .records import CLOSE, ENTER, LENGTHS, OPEN, TURN, record_bytes
from .schedule import LARGEST
from .schedule_makers import whole

# Width, construction and entries of schedules that are exactly 65,536 bytes long.
EXACT = ((1, BITONIC, 4680), (1, PERIODIC, 4680), (2, BITONIC, 3276), (2, PERIODIC, 3276),
         (32, BITONIC, 630), (64, BITONIC, 468))
CASE = [bytes.fromhex(record) for record in (
    "0800010002000100", "0800020005000000", "0800020009000100", "060003000900",
    "060003000500", "060003000500", "060003000900", "0800040002000000")]


def fixed_files():
    """Files that are always there: the paper's case, and the smallest of each refusal."""
    opened = record_bytes(OPEN, 4, BITONIC)
    entered = opened + record_bytes(ENTER, 7, 3)
    closed = record_bytes(CLOSE, 0)
    return [
        ("the paper's case", CASE),
        ("empty", []),
        ("three bytes", [b"\x08\x00\x01"]),
        ("open alone", [opened]),
        ("open and close", [opened, closed]),
        ("width 3", [record_bytes(OPEN, 3, 0), closed]),
        ("construction 3", [record_bytes(OPEN, 1, 3), closed]),
        ("token 256 on wire 4", [opened, record_bytes(ENTER, 256, 4), closed]),
        ("wire 4 at width 4", [opened, record_bytes(ENTER, 0, 4), closed]),
        ("token already inside", [entered, record_bytes(ENTER, 7, 0), closed]),
        ("token not inside", [entered, record_bytes(TURN, 6), closed]),
        ("body cut", [opened, closed[:7]]),
        ("length 65,535", [opened, b"\xff\xff" + closed[2:]]),
        ("length 0 of an unknown kind", [opened, bytes(4)]),
        ("kind 257", [opened, b"\x08\0\x01\1" + bytes(4), closed]),
        ("kind 259", [opened, b"\x06\0\x03\1" + bytes(2), closed]),
        ("kind 5", [opened, LENGTHS[5].to_bytes(2, "little") + b"\x05\0" + bytes(8), closed]),
        ("kind 5 cut", [opened, b"\x0c\0\x05\0"]),
        ("one byte after close", [opened, closed, b"\0"]),
        ("wrong close and a byte", [opened, record_bytes(CLOSE, 1), b"\0"]),
        ("close with a token inside", [entered, record_bytes(CLOSE, 1)]),
        ("65,537 bytes of nothing", [bytes(LARGEST + 1)]),
        ("65,536 bytes of nothing", [bytes(LARGEST)]),
        ("200,000 bytes that begin well", [opened, closed, bytes(200_000)]),
    ]


def large_file(rng):
    """A file of exactly 65,536 bytes that is accepted, or one with something added or damaged."""
    records = whole(rng, *rng.choice(EXACT))
    return rng.choice((
        ("65,536 bytes", records),
        ("65,537 bytes", records + [b"\0"]),
        ("65,535 bytes", records[:-1] + [records[-1][:-1]]),
        ("65,536 bytes with a wrong close", records[:-1] + [record_bytes(CLOSE, 1)]),
    ))


def small_file(rng, damage):
    """A whole file, or one with the damage."""
    records = whole(rng)
    return ("whole", records) if damage is None else (damage.__name__, damage(rng, records))


def files(rng, size):
    """So many files, as (name, list of parts): the fixed ones, some large, every damage in turn."""
    made = fixed_files()
    made += [(f"accepted, width {width}", whole(rng, width, construction))
             for width in WIDTHS for construction in (BITONIC, PERIODIC)]
    made += [("accepted, 65,536 bytes", whole(rng, *EXACT[-1]))]
    choices = (None, None, None, *DAMAGES)
    for turn in range(size - len(made)):
        if turn % 37 == 36:
            made.append(large_file(rng))
        else:
            made.append(small_file(rng, choices[turn % len(choices)]))
    return made[:size]
