"""Seeded damage to schedules.

Each damage is named after what is done to a whole schedule. Several lead to
the same refusal; together they meet every refusal that a file can meet.
"""

from . import edges
from .records import CLOSE, ENTER, NUMBER, OPEN, TURN, read_record, record_bytes
from .schedule_makers import busy_place, tokens_at, width_of


def insert(rng, records, record, place=None):
    """The schedule with one more record somewhere between open and close."""
    place = place or rng.randrange(1, len(records))
    return records[:place] + [record] + records[place:]


def bad_open(rng, records):
    """Width, construction or both are not allowed."""
    width, construction = read_record(records[0])[3]
    bad_width, bad_construction = rng.choice(((1, 0), (0, 1), (1, 1)))
    fields = (rng.choice(edges.BAD_WIDTHS) if bad_width else width,
              rng.choice(edges.BAD_CONSTRUCTIONS) if bad_construction else construction)
    return [record_bytes(OPEN, *fields)] + records[1:]


def bad_token(rng, records):
    """A token above 255 enters, on any wire, or takes a turn."""
    token = rng.choice((256, 257, 511, 32768, 65535))
    if rng.random() < 0.5:
        return insert(rng, records, record_bytes(TURN, token))
    return insert(rng, records, record_bytes(ENTER, token, edges.wire(rng, width_of(records))))


def bad_wire(rng, records):
    """A wire not below w, for a token inside or free."""
    width = width_of(records)
    wire = rng.choice((width, width + 1, 64, 256, 256 + width - 1, 65535))
    return insert(rng, records, record_bytes(ENTER, rng.randrange(256), wire))


def enter_twice(rng, records):
    """A token already inside enters, at times on a bad wire."""
    place = busy_place(rng, records)
    if place is None:
        records, place = insert(rng, records, record_bytes(ENTER, 255, 0), 1), 2
    token = rng.choice(tokens_at(records, place)[0])
    wire = rng.choice((0, width_of(records) - 1, width_of(records)))
    return insert(rng, records, record_bytes(ENTER, token, wire), place)


def turn_free(rng, records):
    """A token not inside takes a turn."""
    place = rng.randrange(1, len(records))
    token = rng.choice(tokens_at(records, place)[1])
    return insert(rng, records, record_bytes(TURN, token), place)


def wrong_length(rng, records):
    """The length of one record is not that of its kind."""
    at = rng.randrange(len(records))
    length = rng.choice((0, 1, 2, 3, 4, 5, 7, 9, 12, len(records[at]) + 256, 65535))
    record = length.to_bytes(2, "little") + records[at][2:]
    return records[:at] + [record] + records[at + 1:]


def unknown_kind(rng, records):
    """A record of a kind that is unknown, of any length, at times in the place of the open."""
    kind = rng.choice((0, 5, 6, 7, 16, 255, 256, 257, 258, 259, 260, 65535))
    length = rng.choice((0, 3, 4, 6, 8, 12, 13, 65535))
    record = length.to_bytes(2, "little") + kind.to_bytes(2, "little") + rng.randbytes(4)
    if rng.random() < 0.2:
        return [record] + records[1:]
    return insert(rng, records, record)


def number_record(rng, records):
    """A kind 5 record inside the schedule."""
    record = record_bytes(NUMBER, edges.u16(rng), edges.u16(rng), edges.u32(rng))
    return insert(rng, records, record)


def no_open(rng, records):
    """The first record is not an open, and may have faults of its own."""
    first = rng.choice((record_bytes(TURN, 999), record_bytes(ENTER, 1, 0), record_bytes(CLOSE, 0),
                        b"\x07\0" + record_bytes(TURN, 1)[2:]))
    return rng.choice((records[1:], [first] + records[1:], [first] + records))


def second_open(rng, records):
    """A second open, good or bad."""
    record = record_bytes(OPEN, edges.any_width(rng), edges.any_construction(rng))
    return insert(rng, records, rng.choice((record, record, b"\x06\0" + record[2:])))


def cut_head(rng, records):
    """One to three bytes left for a head."""
    at = rng.randrange(len(records))
    return records[:at] + [records[at][:rng.randrange(1, 4)]]


def cut_body(rng, records):
    """The head is whole, the length passes the end."""
    at = rng.randrange(len(records))
    return records[:at] + [records[at][:rng.randrange(4, len(records[at]))]]


def end_early(rng, records):
    """The end before close."""
    return records[:rng.randrange(len(records))]


def after_close(rng, records):
    """Bytes after close, whatever they are."""
    more = (b"\0", b"\x08\0\1", b"\x06\0\x03\0\0", b"\x04\0\xff\xff", rng.randbytes(9), records[-1],
            record_bytes(TURN, 0), record_bytes(CLOSE, 0), record_bytes(NUMBER, 0, 0, 0))
    return records + [rng.choice(more)]


def wrong_count(rng, records):
    """The close has a wrong count, at times with bytes behind it."""
    count = read_record(records[-1])[3][0]
    wrong = [count + 1, count + 65536, count + 2**24, 2**32 - 1] + [count - 1] * (count > 0)
    close = record_bytes(CLOSE, rng.choice(wrong))
    return records[:-1] + [close] + rng.choice(([], [b"\0"], [records[-1]]))


def close_inside(rng, records):
    """A close with a token inside: too early, or one turn is left out."""
    place = busy_place(rng, records)
    if place is None:
        return records[:-1] + [record_bytes(ENTER, 0, 0), record_bytes(CLOSE, 1)]
    if rng.random() < 0.5:
        entered = sum(record[2] == ENTER for record in records[:place])
        return insert(rng, records, record_bytes(CLOSE, entered), place)
    last = max(at for at, record in enumerate(records) if record[2] == TURN)
    return records[:last] + records[last + 1:]


def moved(rng, records):
    """A record is dropped, doubled or swapped with another."""
    records = list(records)
    one, other = rng.randrange(len(records)), rng.randrange(len(records))
    what = rng.randrange(3)
    if what == 0:
        del records[one]
    elif what == 1:
        records.insert(other, records[one])
    else:
        records[one], records[other] = records[other], records[one]
    return records


def flipped(rng, records):
    """Some bits are flipped."""
    data = bytearray(b"".join(records))
    for _ in range(rng.choice((1, 1, 2, 5))):
        data[rng.randrange(len(data))] ^= 1 << rng.randrange(8)
    return [bytes(data)]


def two_faults(rng, records):
    """Two damages in one file, for the order in which they are met."""
    first = rng.choice((turn_free, enter_twice, wrong_count, close_inside, after_close))
    second = rng.choice((bad_token, bad_wire, unknown_kind, number_record, second_open))
    return second(rng, first(rng, records))


DAMAGES = (bad_open, bad_token, bad_wire, enter_twice, turn_free, wrong_length, unknown_kind,
           number_record, no_open, second_open, cut_head, cut_body, end_early, after_close,
           wrong_count, close_inside, moved, flipped, two_faults)
