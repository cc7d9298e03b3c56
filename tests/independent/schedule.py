"""Running a schedule: one open, then enters and turns, then one close, then the end."""

from dataclasses import dataclass

from .records import CLOSE, ENTER, NUMBER, OPEN, TURN, present, read_record, record_bytes
from .run import enter_sound, opening, turn_sound

LARGEST = 65_536
SCHEDULE_KINDS = (OPEN, ENTER, TURN, CLOSE)


@dataclass
class Outcome:
    """What running a schedule answers; on a refusal the other results are 0."""

    refusal: int = 0
    record: int = 0
    offset: int = 0
    present: int = 0
    width: int = 0
    construction: int = 0
    entries: int = 0
    filled: int = 0


def run_schedule(data, lent):
    """Run the schedule; write a kind 5 record for each number dealt into the lent bytes.

    16 first, then the faults of each record, last of all 17. Nothing is
    written before the whole is judged.
    """
    if len(data) > LARGEST:
        return Outcome(refusal=16)
    reports = bytearray()
    run, closed, record, offset = None, False, 0, 0
    while not (closed and offset == len(data)):
        rest = data[offset:offset + 12]
        refusal, length, run, closed = step(rest, run, closed, reports)
        if refusal:
            return Outcome(refusal, record, offset, present(refusal, rest))
        record += 1
        offset += length
    if len(reports) > len(lent):
        return Outcome(refusal=17)
    lent[:len(reports)] = reports
    return Outcome(0, 0, 0, 0, run.width, run.construction, run.entered, len(reports))


def step(rest, run, closed, reports):
    """Serve the record at the front of the rest: (refusal, length, run, closed).

    The order: 14 if no bytes are left before close (and for any byte after it),
    11 for the head, 13, 12, 23 for the body, 14, the call's own order, 15. No
    record is longer than 12 bytes, so that much of the rest is enough.
    """
    if closed or not rest:
        return 14, 0, run, closed
    refusal, kind, length, fields = read_record(rest, SCHEDULE_KINDS)
    if refusal:
        return refusal, 0, run, closed
    if (kind == OPEN) != (run is None):
        return 14, 0, run, closed
    if kind == OPEN:
        refusal, run = opening(*fields)
    elif kind == ENTER:
        refusal = enter_sound(run, *fields)
    elif kind == TURN:
        refusal = turn_and_report(run, fields[0], reports)
    else:
        refusal = close(run, fields[0])
    return refusal, length, run, kind == CLOSE


def turn_and_report(run, token, reports):
    """A turn; a number dealt is reported as token, wire, number."""
    refusal, *answer = turn_sound(run, token)
    if answer and answer[0] == "dealt":
        reports += record_bytes(NUMBER, token, answer[1], answer[2])
    return refusal


def close(run, entered):
    """At close no token is inside and the field equals the entries; else 15."""
    return 15 if run.inside() or entered != run.entered else 0
