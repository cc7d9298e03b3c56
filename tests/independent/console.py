"""A model of the console program: each line of text has one line for an answer.

It holds one run record, at first that of a refused opening, and what the lines
of `feed_calls` and `small_calls` hold. A line that is no call, or has a number that does not fit
its type, is answered `?` and changes nothing.
"""

from . import feed_calls, networks, records, run, schedule, small_calls, words
from .lent import untouched, untouched_numbers
from .words import NoCall, hex_text, list_text, u16, u32

HELP = ("open W C; record; set W C ENTERED COUNTS TOGGLES PLACES; enter T V; turn T; "
        "gaps ROOM; sheet W C LEN; view W C LAYER LEN LEN; read HEX; "
        "write ROOM KIND FIELD ..; run ROOM HEX; " + feed_calls.HELP + "; "
        + small_calls.HELP + "; help")


class Console(feed_calls.FeedCalls, small_calls.SmallCalls):
    """The console and the run record it holds."""

    def __init__(self):
        super().__init__()
        self.run = run.Run()

    def answer(self, line):
        """The answer to the line."""
        call, *given = line.split(" ")
        try:
            if call == "write":
                return write_call(given)
            if call not in CALLS:
                raise NoCall
            method, types = CALLS[call]
            if len(given) != len(types):
                raise NoCall
            return method(self, *[read(word) for read, word in zip(types, given)])
        except NoCall:
            return "?"

    def open(self, width, construction):
        """`open W C`: the record is then the call's, also that of a refused opening."""
        refusal, self.run = run.opening(width, construction)
        return str(refusal)

    def record(self):
        """`record`"""
        return words.record_text(self.run)

    def set(self, width, construction, entered, counts, toggles, places):
        """`set ..`: the record is then this one, sound or not."""
        self.run = run.Run(width, construction, entered)
        words.put(self.run, counts, toggles, places)
        return "1" if run.sound(self.run) else "0"

    def enter(self, token, wire):
        """`enter T V`"""
        return str(run.enter(self.run, token, wire))

    def turn(self, token):
        """`turn T`"""
        return " ".join(str(part) for part in run.turn(self.run, token))

    def gaps(self, room):
        """`gaps ROOM`: the whole lent slice after the call."""
        lent = untouched_numbers(room)
        refusal, filled = run.gap_list(self.run, lent)
        return f"{refusal} {filled} {list_text(lent)}"

    def sheet(self, width, construction, length):
        """`sheet W C LEN`: the whole lent buffer after the call."""
        lent = untouched(length)
        refusal, filled = networks.sheet(width, construction, lent)
        return f"{refusal} {filled} {hex_text(lent)}"

    def view(self, width, construction, layer, length, other_length):
        """`view W C LAYER LEN LEN`: two lent sheets with bytes of their own."""
        bitonic_sheet = bytes(i % 251 for i in range(length))
        periodic_sheet = bytes((i + 100) % 251 for i in range(other_length))
        refusal, row = networks.view(width, construction, layer, bitonic_sheet, periodic_sheet)
        return f"{refusal} {hex_text(row)}"

    def read(self, data):
        """`read HEX`"""
        refusal, kind, length, fields = records.read_record(data)
        if refusal:
            return f"{refusal} {records.present(refusal, data)}"
        return " ".join(str(part) for part in (0, kind, length, *fields))

    def run_schedule(self, room, data):
        """`run ROOM HEX`: the record that the console holds has no part in it."""
        lent = untouched(room)
        outcome = schedule.run_schedule(data, lent)
        return (f"{outcome.refusal} {outcome.record} {outcome.offset} {outcome.present} "
                f"{outcome.filled} {hex_text(lent)}")

    def help(self):
        """`help`"""
        return HELP


def write_call(given):
    """`write ROOM KIND FIELD ..`, with as many fields as the kind has."""
    if len(given) < 2:
        raise NoCall
    room, kind = words.room(given[0]), u16(given[1])
    if kind not in records.FIELDS or len(given) - 2 != len(records.FIELDS[kind]):
        raise NoCall
    fields = [u16(word) if size == 2 else u32(word)
              for size, word in zip(records.FIELDS[kind], given[2:])]
    lent = untouched(room)
    refusal, filled = records.write_record(kind, fields, lent)
    return f"{refusal} {filled} {hex_text(lent)}"


CALLS = {
    "open": (Console.open, (u16, u16)),
    "record": (Console.record, ()),
    "set": (Console.set, (u16, u16, u32, words.counts, words.toggles, words.places)),
    "enter": (Console.enter, (u16, u16)),
    "turn": (Console.turn, (u16,)),
    "gaps": (Console.gaps, (words.room,)),
    "sheet": (Console.sheet, (u16, u16, words.room)),
    "view": (Console.view, (u16, u16, u16, words.room, words.room)),
    "read": (Console.read, (words.hex_bytes,)),
    "run": (Console.run_schedule, (words.room, words.hex_bytes)),
    "help": (Console.help, ()),
    **feed_calls.CALLS,
    **small_calls.CALLS,
}
