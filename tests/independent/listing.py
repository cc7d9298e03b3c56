"""The listing program's text."""

from .networks import NAMES
from .records import read_record
from .schedule import run_schedule

ROOM = 65_536


def listing(data):
    """The text for the bytes of a schedule, each line ended by one line feed."""
    lent = bytearray(ROOM)
    outcome = run_schedule(data, lent)
    return text_of(outcome, report_lines(lent[:outcome.filled]))


def report_lines(reports):
    """Token, exit and number of each report."""
    for at in range(0, len(reports), 12):
        _, _, _, (token, wire, number) = read_record(reports[at:at + 12])
        yield f"{token} {wire} {number}"


def text_of(outcome, lines):
    """One line for a refusal; else the network, the lines and how many entered."""
    if outcome.refusal:
        return f"refused {outcome.refusal} {outcome.record} {outcome.offset}\n"
    lines = [f"network {outcome.width} {NAMES[outcome.construction]}", *lines]
    lines.append(f"rest {outcome.entries}")
    return "\n".join(lines) + "\n"
