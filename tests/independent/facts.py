"""The paper's small facts, and some readings, checked over the independent program."""

import random

from . import networks, run
from .differences import must_equal
from .file_makers import CASE as CASE_RECORDS
from .listing import listing
from .networks import BITONIC, PERIODIC, WIDTHS, depth, rows
from .promises import share
from .record_makers import sound_unreached
from .records import FIELDS, LENGTHS, read_record, record_bytes

CASE = b"".join(CASE_RECORDS)
LISTED = "network 2 bitonic\n5 1 1\n9 0 0\nrest 2\n"


def row(width, construction, layer):
    """The row of one layer."""
    return list(rows(width, construction)[layer])


def facts_of_wiring():
    """Facts 1 to 6."""
    must_equal("fact 1", [[0, 1, 2, 3], [0, 2, 3, 1], [0, 2, 1, 3]],
               [row(4, BITONIC, layer) for layer in range(3)])
    must_equal("fact 2", [[0, 2, 3, 1], [0, 2, 1, 3]] * 2,
               [row(4, PERIODIC, layer) for layer in range(4)])
    must_equal("fact 3", [0, 4, 2, 6, 7, 3, 5, 1], row(8, BITONIC, 3))
    must_equal("fact 4", [0, 2, 4, 6, 1, 3, 5, 7], row(8, BITONIC, 5))
    must_equal("fact 5", [0, 4, 6, 2, 3, 7, 5, 1], row(8, PERIODIC, 0))
    must_equal("fact 6", [21, 36, 0, 0], [depth(64, 1), depth(64, 2), depth(1, 1), depth(1, 2)])


def facts_of_runs():
    """Facts 7, 9, and of 11 the parts about openings and wires."""
    _, record = run.opening(4, BITONIC)
    exits = []
    for wire in (2, 0, 0, 3):
        run.enter(record, 0, wire)
        answer = (0, "passed")
        while answer[1] == "passed":
            answer = run.turn(record, 0)
        exits.append(answer[2])
    must_equal("fact 7", [0, 1, 2, 3], exits)
    must_equal("fact 9, m = 0", {0}, {share(0, i, w) for w in WIDTHS for i in range(w)})
    must_equal("fact 9, m = 5", [2, 1, 1, 1], [share(5, i, 4) for i in range(4)])
    must_equal("fact 11, width 3", (1, run.Run()), run.opening(3, BITONIC))
    must_equal("fact 11, width 128", (1, run.Run()), run.opening(128, BITONIC))
    must_equal("fact 11, wire 4 at width 4", 5, run.enter(run.opening(4, BITONIC)[1], 0, 4))


def facts_of_schedules():
    """Facts 8 and 10, and readings about records out of place."""
    must_equal("fact 8", LISTED, listing(CASE))
    must_equal("fact 10, empty", "refused 14 0 0\n", listing(b""))
    must_equal("fact 10, three bytes", "refused 11 0 0\n", listing(b"\x08\x00\x01"))
    must_equal("an open alone", "refused 14 1 8\n", listing(CASE[:8]))
    must_equal("a byte after close", f"refused 14 8 {len(CASE)}\n", listing(CASE + b"\0"))
    must_equal("a wrong close and a byte", "refused 15 7 48\n",
               listing(CASE[:-4] + b"\3\0\0\0" + b"\0"))
    must_equal("a body cut", "refused 23 2 16\n", listing(CASE[:21]))
    must_equal("length 65,535", "refused 12 1 8\n", listing(CASE[:8] + b"\xff\xff\x03\0"))
    must_equal("65,537 bytes", "refused 16 0 0\n", listing(bytes(65_537)))
    must_equal("no entries", "network 64 periodic\nrest 0\n",
               listing(record_bytes(1, 64, 2) + record_bytes(4, 0)))


def widths_and_depths():
    """Each network has as many layers as its depth, each row every number once, exits in order."""
    for width in WIDTHS:
        for construction in (BITONIC, PERIODIC):
            found = rows(width, construction)
            must_equal(f"layers at width {width}", depth(width, construction), len(found))
            must_equal(f"rows at width {width}", [list(range(width))] * len(found),
                       [sorted(row_found) for row_found in found])
            drawing = networks.Drawing()
            build = drawing.bitonic if construction == BITONIC else drawing.periodic
            must_equal(f"exits at width {width}", (len(found), list(range(width))),
                       build(0, list(range(width))))
    cells = [len(rows(64, construction)) * 32 for construction in (BITONIC, PERIODIC)]
    must_equal("cells at width 64", [672, 1152], cells)


def unsound_records():
    """A refused opening is not sound; sums are exact; the gap list of a record never reached."""
    must_equal("soundness of a refused opening", False, run.sound(run.opening(3, 1)[1]))
    record = run.Run(4, BITONIC, 0)
    record.counts[:2] = [2**32 - 1, 1]
    must_equal("a sum of 2^32", ["sum"], run.broken(record))
    record = run.Run(4, BITONIC, 5)
    record.counts[3] = 5
    must_equal("missing below 5", [0, 1, 2, 4], run.missing_numbers(record))
    must_equal("how many", 4, run.missing_count(record))
    record = run.Run(64, PERIODIC, 1_000_000)
    record.counts[63] = 1_000_000
    must_equal("nearly a million missing", 984_375, run.missing_count(record))


def gap_lists():
    """The gap list by its words: v is missing when exit v mod w has dealt at most v div w."""
    rng = random.Random("gap lists")
    for _ in range(200):
        record = sound_unreached(rng, total=rng.randrange(600))
        listed = [v for v in range(record.entered)
                  if record.counts[v % record.width] <= v // record.width]
        must_equal("the gap list", listed, run.missing_numbers(record))
        lent = [7] * (len(listed) + 2)
        must_equal("the gap list's answer", (0, len(listed)), run.gap_list(record, lent))
        must_equal("the gap list as lent", listed + [7, 7], lent)
        if listed:
            lent = [7] * (len(listed) - 1)
            must_equal("room too small", (17, 0), run.gap_list(record, lent))
            must_equal("room too small, as lent", [7] * (len(listed) - 1), lent)
    record = run.Run(2, BITONIC)
    must_equal("the only request enters", 0, run.enter(record, 5, 0))
    must_equal("and number 0 is outstanding", [0], run.missing_numbers(record))


def round_trips():
    """A record written reads back as itself, also with other bytes behind it."""
    for kind, sizes in FIELDS.items():
        for value in (0, 1, 255, 256, 65535):
            fields = (value,) * len(sizes)
            data = record_bytes(kind, *fields)
            must_equal("length of a record", LENGTHS[kind], len(data))
            must_equal("a record read back", (0, kind, len(data), fields),
                       read_record(data + b"\xff"))


def check_facts():
    """All of them; in words, what was done."""
    for check in (facts_of_wiring, facts_of_runs, facts_of_schedules, widths_and_depths,
                  unsound_records, gap_lists, round_trips):
        check()
    return "the eleven facts of the paper and the readings hold"
