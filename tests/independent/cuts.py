"""Cut anywhere: an accepted schedule of which only the first bytes are there, at every byte."""

import random

from .differences import must_equal
from .file_makers import CASE
from .schedule import run_schedule
from .schedule_makers import whole


def small(rng):
    """A schedule that is accepted, small enough to be cut at every byte."""
    return whole(rng, rng.choice((1, 2, 4)), entries=rng.choice((0, 1, 2)))


def told(records, end):
    """The refusal, record, offset and bytes present, off the lengths of the records alone."""
    start = 0
    for number, record in enumerate(records):
        there = end - start
        if there < len(record):
            return (14 if there == 0 else 11 if there < 4 else 23), number, start, there
        start += len(record)
    return 0, 0, 0, 0


def check_cuts(seed):
    """The paper's case and seeded schedules, cut at every byte; in words, how many there were."""
    rng = random.Random(f"cuts {seed}")
    count = 0
    for records in [CASE] + [small(rng) for _ in range(60)]:
        data = b"".join(records)
        for end in range(len(data) + 1):
            found = run_schedule(data[:end], bytearray(24))
            must_equal(f"cut: the first {end} bytes of {data.hex()}", told(records, end),
                       (found.refusal, found.record, found.offset, found.present))
            count += end < len(data)
    return f"{count} cuts told at the record that was cut"
