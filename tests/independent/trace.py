"""The trace program's text."""

from .listing import ROOM, text_of
from .records import ENTER, OPEN, TURN, read_record
from .run import enter_sound, opening, turn_sound
from .schedule import run_schedule


def trace(data):
    """The text for the bytes of a schedule: as the listing, with a line for each turn."""
    outcome = run_schedule(data, bytearray(ROOM))
    return text_of(outcome, turn_lines(data))


def turn_lines(data):
    """A line for each turn of a schedule that is accepted, in its order."""
    run, offset = None, 0
    while offset < len(data):
        _, kind, length, fields = read_record(data[offset:offset + 12])
        if kind == OPEN:
            _, run = opening(*fields)
        elif kind == ENTER:
            enter_sound(run, *fields)
        elif kind == TURN:
            yield turn_line(fields[0], turn_sound(run, fields[0]))
        offset += length


def turn_line(token, answer):
    """What a turn that is carried out did: it passed a cell, or dealt a number."""
    _, what, *values = answer
    if what == "dealt":
        exit_wire, number = values
        return f"{token} exit {exit_wire} number {number}"
    _, wire, layer, cell, outlet = values
    return f"{token} layer {layer} cell {cell} outlet {outlet} wire {wire}"
