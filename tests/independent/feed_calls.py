"""The console's lines for designs and for runs over a feed sheet."""

from . import designs, feeds, words
from .lent import untouched, untouched_numbers
from .words import NoCall, hex_text, list_text, u16, u32

LARGEST_FEED = 65_536
HELP = ("panel ROOM HEX; feed HEX; fopen W D; fenter T V; fturn T; fgaps ROOM; frecord; "
        "fset W D ENTERED COUNTS TOGGLES PLACES")


class FeedCalls:
    """The record that the console holds, at first of a refused opening, and its feed sheet."""

    def __init__(self):
        super().__init__()
        self.feed_record = feeds.Feed()
        self.feed_sheet = b""

    def panel(self, room, data):
        """`panel ROOM HEX`: the whole lent buffer after the call."""
        lent = untouched(room)
        outcome = designs.read_panel(data, lent)
        return (f"{outcome.refusal} {outcome.offset} {outcome.present} {outcome.width} "
                f"{outcome.depth} {outcome.filled} {hex_text(lent)}")

    def feed(self, data):
        """`feed HEX`: the sheet that is lent from now on, good or not."""
        self.feed_sheet = data
        return str(len(data))

    def fopen(self, width, depth):
        """`fopen W D`: the record is then the call's, also that of a refused opening."""
        refusal, self.feed_record = feeds.opening(width, depth, self.feed_sheet)
        return str(refusal)

    def fenter(self, token, wire):
        """`fenter T V`"""
        return str(feeds.enter(self.feed_record, self.feed_sheet, token, wire))

    def fturn(self, token):
        """`fturn T`"""
        return " ".join(str(part) for part in feeds.turn(self.feed_record, self.feed_sheet, token))

    def fgaps(self, room):
        """`fgaps ROOM`: the whole lent slice after the call."""
        lent = untouched_numbers(room)
        refusal, filled = feeds.gap_list(self.feed_record, lent)
        return f"{refusal} {filled} {list_text(lent)}"

    def frecord(self):
        """`frecord`"""
        return words.feed_text(self.feed_record)

    def fset(self, width, depth, entered, counts, toggles, places):
        """`fset ..`: the record is then this one, sound or not."""
        self.feed_record = feeds.Feed(width, depth, entered)
        words.put(self.feed_record, counts, toggles, places)
        return "1" if feeds.sound(self.feed_record) else "0"


def sheet_bytes(word):
    """The bytes of a feed sheet, up to 65,536."""
    data = words.hex_bytes(word)
    if len(data) > LARGEST_FEED:
        raise NoCall
    return data


CALLS = {
    "panel": (FeedCalls.panel, (words.room, words.hex_bytes)),
    "feed": (FeedCalls.feed, (sheet_bytes,)),
    "fopen": (FeedCalls.fopen, (u16, u16)),
    "fenter": (FeedCalls.fenter, (u16, u16)),
    "fturn": (FeedCalls.fturn, (u16,)),
    "fgaps": (FeedCalls.fgaps, (words.room,)),
    "frecord": (FeedCalls.frecord, ()),
    "fset": (FeedCalls.fset, (u16, u16, u32, words.counts, words.toggles, words.places)),
}
