"""The panel program's text, and the status it ends with."""

from .designs import read_panel

ROOM = 37 * 64


def panel_listing(data):
    """The text for the bytes of a design: its rows, the exit row last, or the refusal."""
    lent = bytearray(ROOM)
    outcome = read_panel(data, lent)
    if outcome.refusal:
        return 1, f"refused {outcome.refusal} {outcome.offset}\n"
    lines = [f"panel {outcome.width} {outcome.depth}"]
    for at in range(0, outcome.filled, outcome.width):
        lines.append(" ".join(str(byte) for byte in lent[at:at + outcome.width]))
    return 0, "\n".join(lines) + "\n"
