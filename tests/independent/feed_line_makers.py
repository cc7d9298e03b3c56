"""Seeded console lines on panels: designs, runs over feed sheets, records set outright."""

from . import edges
from .call_makers import spoiled
from .console import Console
from .design_cases import CASES
from .design_damages import cut, damaged
from .design_makers import largest, whole
from .designs import read_panel
from .feed_fixed_lines import FIXED
from .feed_record_makers import UNSOUND, good_sheet, reached, sound_unreached, spoiled_sheet
from .feeds import missing_count
from .words import LARGEST_ROOM, feed_text, hex_text

LARGEST_SHEET = 2368


def panel_line(rng, data):
    """`panel ROOM HEX`, the room near the sheet's size where the design is accepted."""
    size = read_panel(data, bytearray(LARGEST_SHEET)).filled
    room = rng.choice((0, max(size - 1, 0), size, size, size, size + 1, size + 5))
    return f"panel {room} {hex_text(data)}"


def fenter_line(rng, feed):
    """`fenter T V`, the token free, inside or none, the wire near the width."""
    return f"fenter {edges.token(rng, feed.inside())} {edges.wire(rng, max(feed.width, 1))}"


def fturn_line(rng, feed):
    """`fturn T`, most often of a token inside."""
    return f"fturn {edges.token(rng, feed.inside() * 2)}"


def fgaps_line(rng, feed):
    """`fgaps ROOM`, the room near the length of the list; seldom a very long one."""
    count = missing_count(feed) if feed.width <= 64 else 0
    small = count <= 300 or count < LARGEST_ROOM and rng.random() < 0.01
    return f"fgaps {edges.around(rng, count) if small else rng.choice((0, 1, 9, 100))}"


class FeedLines:
    """Lines and their answers, made against the record and the sheet that the console holds."""

    def __init__(self, rng):
        self.rng = rng
        self.console = Console()
        self.made = []
        self.designs = 0

    def add(self, line):
        """One more line."""
        self.made.append((line, self.console.answer(line)))

    def fixed(self):
        """The lines that are always there, the designs worked out by hand, and large ones."""
        for line in FIXED:
            self.add(line)
        for _, data, _ in CASES:
            self.add(f"panel 300 {hex_text(data)}")
        for _ in range(6):
            data = largest(self.rng).data()
            self.add(panel_line(self.rng, data))
            self.add(panel_line(self.rng, self.rng.choice((cut(self.rng, data), data + b"\0"))))

    def design(self):
        """A design, whole or with the damage whose turn it is."""
        self.designs += 1
        if self.designs % 4 == 0:
            self.add(panel_line(self.rng, whole(self.rng).data()))
        else:
            self.add(panel_line(self.rng, damaged(self.rng, self.designs)[1]))

    def opened(self, width, depth):
        """`fopen W D`, now and then of a width or a depth that the sheet is not for."""
        rng = self.rng
        if rng.random() < 0.15:
            width = rng.choice((0, width - 1, width + 1, 2 * width, 63, 64, 65, 256 + width, 65535))
            depth = rng.choice((depth, depth, 0, depth + 1, 36, 37, 256 + depth, 65535))
        self.add(f"fopen {max(width, 0)} {depth}")

    def play(self):
        """Calls from an opening, over one sheet."""
        rng = self.rng
        width, depth, sheet = good_sheet(rng)
        behind_it = rng.choice((b"", b"", rng.randbytes(3), rng.randbytes(width)))
        self.add(f"feed {hex_text(sheet + behind_it)}")
        self.opened(width, depth)
        tokens = rng.sample(range(256), rng.choice((1, 2, 5)))
        for _ in range(rng.choice((5, 20, 40)) if self.console.feed_record.width else 3):
            feed = self.console.feed_record
            token = rng.choice(tokens)
            if rng.random() < 0.08:
                self.add(rng.choice((fenter_line, fturn_line, fgaps_line))(rng, feed))
            elif feed.places[token][0]:
                self.add(f"fturn {token}")
            else:
                self.add(f"fenter {token} {rng.randrange(max(feed.width, 1))}")
        self.add(fgaps_line(rng, self.console.feed_record))
        self.add("frecord")

    def calls(self, count):
        """Calls on the record and the sheet as they are."""
        for _ in range(count):
            call = self.rng.choice((fenter_line, fturn_line, fturn_line, fgaps_line))
            self.add(call(self.rng, self.console.feed_record))
            if self.rng.random() < 0.2:
                self.add("frecord")

    def sheets(self):
        """A record reached, then sheets that are bad, and another good one, under it."""
        rng = self.rng
        feed, sheet = reached(rng)
        width, depth = feed.width, feed.depth
        self.add(f"feed {hex_text(sheet)}")
        self.add("fset " + feed_text(feed))
        self.calls(2)
        for _ in range(2):
            self.add(f"feed {hex_text(spoiled_sheet(rng, width, depth, sheet))}")
            self.calls(2)
        if rng.random() < 0.3:
            self.add(f"fopen {width} {depth}")
            self.add("frecord")
        self.add(f"feed {hex_text(good_sheet(rng)[2])}")
        self.calls(2)

    def on_record(self, make):
        """Calls on a record that is set outright, over a sheet good for it or not."""
        rng = self.rng
        feed = make(rng)
        width, depth = feed.width, feed.depth
        sheet = good_sheet(rng)[2]
        if 1 <= width <= 64 and depth <= 36 and rng.random() < 0.9:
            sheet = b"".join(bytes(rng.sample(range(width), width)) for _ in range(depth + 1))
            if rng.random() < 0.15:
                sheet = spoiled_sheet(rng, width, depth, sheet)
        self.add(f"feed {hex_text(sheet)}")
        self.add("fset " + feed_text(feed))
        self.calls(rng.choice((2, 4, 8)))
        self.add("frecord")

    def no_calls(self):
        """Lines that are no calls, or other calls than they were."""
        short = [line for line, _ in self.made[-30:] if len(line) < 2000]
        for _ in range(2):
            self.add(spoiled(self.rng, self.rng.choice(short)))
        self.add("frecord")


def lines(rng, size):
    """So many lines with their answers."""
    made = FeedLines(rng)
    made.fixed()
    while len(made.made) < size:
        made.play()
        made.sheets()
        for _ in range(2):
            made.on_record(sound_unreached)
        made.on_record(rng.choice(tuple(UNSOUND.values())))
        for _ in range(70):
            made.design()
        made.no_calls()
    return made.made[:size]
