"""Schedule bytes: reading one record and writing one.

Each record: length (2 bytes, little-endian, the whole record), kind (2 bytes),
fields. A record carries any field values; only running judges them.
"""

OPEN, ENTER, TURN, CLOSE, NUMBER = 1, 2, 3, 4, 5

FIELDS = {
    OPEN: (2, 2),
    ENTER: (2, 2),
    TURN: (2,),
    CLOSE: (4,),
    NUMBER: (2, 2, 4),
}
LENGTHS = {OPEN: 8, ENTER: 8, TURN: 6, CLOSE: 8, NUMBER: 12}
CUT_HEAD, CUT_BODY = 11, 23


def little(data):
    """The number that the bytes give, lowest first."""
    return sum(byte << (8 * i) for i, byte in enumerate(data))


def read_record(data, known=tuple(LENGTHS)):
    """Read the record at the front of the bytes: (refusal, kind, length, fields).

    Order: 11 for the head (no bytes counts here too), 13, 12, 23 for the body.
    Bytes behind the record are not looked at.
    """
    if len(data) < 4:
        return CUT_HEAD, 0, 0, ()
    length, kind = little(data[0:2]), little(data[2:4])
    if kind not in known:
        return 13, 0, 0, ()
    if length != LENGTHS[kind]:
        return 12, 0, 0, ()
    if length > len(data):
        return CUT_BODY, 0, 0, ()
    fields, at = [], 4
    for size in FIELDS[kind]:
        fields.append(little(data[at:at + size]))
        at += size
    return 0, kind, length, tuple(fields)


def present(refusal, data):
    """How many bytes are there of the record at the front, its head too, where it is cut; else 0."""
    return len(data) if refusal in (CUT_HEAD, CUT_BODY) else 0


def record_bytes(kind, *fields):
    """The whole record as bytes."""
    data = LENGTHS[kind].to_bytes(2, "little") + kind.to_bytes(2, "little")
    for size, value in zip(FIELDS[kind], fields):
        data += value.to_bytes(size, "little")
    return data


def write_record(kind, fields, lent):
    """Write one record into the lent bytes; give the refusal (17) and the bytes filled."""
    data = record_bytes(kind, *fields)
    if len(data) > len(lent):
        return 17, 0
    lent[:len(data)] = data
    return 0, len(data)
