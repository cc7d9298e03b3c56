"""Seeded design files, each with a name that says what it is."""

from .design_cases import CASES
from .design_damages import damaged
from .design_makers import longest, named, whole
from .networks import BITONIC, PERIODIC, WIDTHS


def fixed_files(rng):
    """The designs worked out by hand, every named network, and very long files."""
    full = longest(rng).data()
    return [(name, data) for name, data, _ in CASES] + [
        (f"width {width} construction {construction}", named(width, construction).data())
        for width in WIDTHS for construction in (BITONIC, PERIODIC)] + [
        ("65,535 bytes", full),
        ("65,536 bytes", full + b"\0"),
        ("65,537 bytes", full + b"\0\0"),
        ("65,534 bytes", full[:-1]),
        ("200,000 bytes that begin well", full + bytes(134_465)),
        ("200,000 bytes of nothing", bytes(200_000)),
    ]


def files(rng, size):
    """So many files, as (name, bytes): the fixed ones, then every damage in turn."""
    made = fixed_files(rng)
    for turn in range(size - len(made)):
        made.append(("whole", whole(rng).data()) if turn % 4 == 0 else damaged(rng, turn))
    return made[:size]
