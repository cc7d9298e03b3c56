"""Facts about panels and runs over a feed sheet, checked over the independent program."""

import random
from collections import Counter

from . import feeds
from .comparisons import refusal_of
from .console import Console
from .design_cases import CASES
from .design_makers import beside, cell, named, whole
from .designs import read_design, read_panel
from .differences import must_equal
from .feed_record_makers import UNSOUND, reached, sound_unreached
from .makers import design_files, panel_lines
from .networks import BITONIC, PERIODIC, WIDTHS, rows
from .panel_listing import panel_listing
from .panels import feed_sheet
from .words import feed_text

OF_DESIGNS = {1, 2, 11, 12, 13, 18, 19, 20, 21, 22, 23}
OF_RUNS = {4, 5, 6, 7, 8, 9, 17}


def worked_cases():
    """The designs worked out by hand."""
    for name, data, text in CASES:
        must_equal(f"panel: {name}", (text.startswith("refused") * 1, text), panel_listing(data))


def named_networks():
    """The feed sheet of a named network is its sheet and a row 0 .. w - 1."""
    for width in WIDTHS:
        for construction in (BITONIC, PERIODIC):
            sheet = b"".join(rows(width, construction)) + bytes(range(width))
            found = feed_sheet(read_design(named(width, construction).data()))
            must_equal(f"feed sheet of width {width}", sheet, found)


def room():
    """Room 3 is last of all; further bytes stay; a refusal changes nothing."""
    for size, refusal, lent in ((3, 3, "aaaaaa"), (4, 0, "00010001"), (5, 0, "00010001aa")):
        bytes_lent = bytearray(b"\xaa" * size)
        outcome = read_panel(cell().data(), bytes_lent)
        must_equal("room for a cell", (refusal, 0, lent),
                   (outcome.refusal, outcome.offset, bytes_lent.hex()))
    must_equal("room 0 and a fault", 19, read_panel(beside().data(), bytearray()).refusal)


def cut_members():
    """How much of a cut record is there is counted up to its parent's end."""
    for data, told in (("", (11, 0, 0)), ("040012", (11, 0, 3)), ("06001400", (23, 0, 4)),
                       ("0800100008001300", (23, 4, 4)), ("060010000400", (11, 4, 2)),
                       ("1000100008001000080013000400" "1200", (23, 8, 4)),
                       ("0600110000" "00", (11, 4, 2)), ("05001200", (12, 0, 0))):
        found = read_panel(bytes.fromhex(data), bytearray())
        must_equal(f"cut: {data}", told, (found.refusal, found.offset, found.present))


def designs_made():
    """Every sheet that is read is one that a run takes."""
    rng = random.Random("designs made")
    for _ in range(200):
        tree = read_design(whole(rng).data())
        must_equal("a sheet read and judged", 0,
                   feeds.judged(tree.width, tree.depth, feed_sheet(tree)))


def sheets_judged():
    """The judge's order: 22, 20, 3, 21, the exit row too."""
    good = bytes((0, 1, 0, 1))
    for width, depth, sheet, refusal in (
            (2, 1, good, 0), (2, 1, good + b"\xff", 0), (2, 1, good[:3], 3),
            (2, 1, b"\0\0\0", 3), (2, 1, b"\0\0\0\1", 21), (2, 1, b"\0\1\1\1", 21),
            (2, 1, b"\0\1\0\2", 21), (2, 0, b"\1\0\7\7", 0), (1, 0, b"\0", 0), (1, 0, b"\1", 21),
            (1, 0, b"", 3), (3, 0, bytes((2, 0, 1)), 0), (3, 1, b"", 20), (1, 36, bytes(37), 20),
            (1, 37, b"", 22), (0, 0, b"", 22), (65, 1, b"", 22), (64, 37, b"", 22),
            (64, 36, bytes(range(64)) * 37, 0), (64, 36, bytes(range(64)) * 36 + bytes(63), 3)):
        must_equal(f"a sheet of {len(sheet)} bytes judged as {width} by {depth}", refusal,
                   feeds.judged(width, depth, sheet))


def does_not_count():
    """Two cells side by side, three requests on wire 0: no shares, numbers 0, 1 and 4."""
    sheet = feed_sheet(read_design(beside(cell(), cell()).data()))
    _, feed = feeds.opening(4, 1, sheet)
    dealt = []
    for token in range(3):
        must_equal("enter", 0, feeds.enter(feed, sheet, token, 0))
        feeds.turn(feed, sheet, token)
        dealt.append(feeds.turn(feed, sheet, token))
    must_equal("numbers dealt", [(0, "dealt", 0, 0), (0, "dealt", 1, 1), (0, "dealt", 0, 4)], dealt)
    must_equal("counts at rest", [2, 1, 0, 0], feed.counts[:4])
    must_equal("missing, and none inside", ([2], []), (feeds.missing_numbers(feed), feed.inside()))


def exit_row():
    """A token leaves by the exit that the exit row names."""
    sheet = bytes((2, 0, 1))
    _, feed = feeds.opening(3, 0, sheet)
    must_equal("enter", 0, feeds.enter(feed, sheet, 9, 0))
    must_equal("gap list", [0], feeds.missing_numbers(feed))
    must_equal("the first turn", (0, "dealt", 2, 2), feeds.turn(feed, sheet, 9))
    must_equal("gap list at rest", [0], feeds.missing_numbers(feed))


def records_made():
    """Reached and unreached records are sound; each unsound one is broken in its part alone."""
    rng = random.Random("feed records made")
    for _ in range(60):
        must_equal("broken in a reached record", [], feeds.broken(reached(rng)[0]))
        must_equal("broken in a sound record", [], feeds.broken(sound_unreached(rng)))
        for part, make in UNSOUND.items():
            must_equal("broken in an unsound record", [part], feeds.broken(make(rng)))


def records_as_text():
    """The words of a record give the record back."""
    rng = random.Random("feed records as text")
    for make in (lambda rng: reached(rng)[0], sound_unreached, *UNSOUND.values()):
        feed, console = make(rng), Console()
        console.answer("fset " + feed_text(feed))
        must_equal("a record set from its words", feed, console.feed_record)


def refusals_met():
    """Lines and files meet every refusal of a design; lines those of a run over a sheet too."""
    met = Counter()
    for line, answer in panel_lines(1, 2000):
        met.update(refusal_of(line, answer))
    must_equal("refusals that lines on panels meet", {0, 3} | OF_DESIGNS | OF_RUNS, set(met))
    met = Counter(int(text.split()[1]) for _, _, status, text in design_files(1, 250) if status)
    must_equal("refusals that design files meet", OF_DESIGNS, set(met))


def gap_lists():
    """The gap list by its words: below entered, exit v mod w has dealt at most v div w."""
    rng = random.Random("feed gap lists")
    for _ in range(200):
        feed = sound_unreached(rng, total=rng.randrange(600))
        listed = [v for v in range(feed.entered)
                  if feed.counts[v % feed.width] <= v // feed.width]
        for size, answer in ((len(listed) + 2, (0, len(listed))), (len(listed), (0, len(listed))),
                             (len(listed) - 1, (17, 0))):
            lent = [7] * size
            if size >= 0:
                must_equal("the gap list's answer", answer, feeds.gap_list(feed, lent))
                must_equal("the gap list as lent", ([7] * size if answer[0] else
                                                    listed + [7] * (size - len(listed))), lent)


def check_panel_facts():
    """All of them; in words, what was done."""
    for check in (worked_cases, named_networks, room, cut_members, designs_made, sheets_judged, does_not_count,
                  exit_row, records_made, records_as_text, refusals_met, gap_lists):
        check()
    return f"{len(CASES)} designs worked out by hand and the facts of panels hold"
