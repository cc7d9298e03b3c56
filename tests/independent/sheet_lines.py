"""The lines of all sheets: `sheet W C R N HEX`, R the refusal, N the bytes filled.

HEX is the whole lent buffer after the call, each byte aa before it.
"""

from .networks import BITONIC, PERIODIC, WIDTHS, depth, sheet
from .words import hex_text

SPARE = 3
BAD_ARGUMENTS = ((0, 1), (3, 1), (128, 1), (260, 1), (65535, 2), (4, 0), (4, 3),
                 (64, 65535), (1, 0))
BAD_LENGTH = 16
TOO_SHORT = ((4, 1), (64, 2), (2, 2))


def sheet_lines():
    """Every sheet with three bytes to spare, then the refusals."""
    cases = [(width, construction, depth(width, construction) * width + SPARE)
             for construction in (BITONIC, PERIODIC) for width in WIDTHS]
    cases += [(width, construction, BAD_LENGTH) for width, construction in BAD_ARGUMENTS]
    cases += [(width, construction, depth(width, construction) * width - 1)
              for width, construction in TOO_SHORT]
    return [sheet_line(*case) for case in cases]


def sheet_line(width, construction, length):
    """The line of one call."""
    lent = bytearray(b"\xaa") * length
    refusal, filled = sheet(width, construction, lent)
    return f"sheet {width} {construction} {refusal} {filled} {hex_text(lent)}"
