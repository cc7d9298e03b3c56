"""Seeded feed sheets, and records of runs over them: reached, unreached, unsound in one part."""

from .design_makers import any_size, whole
from .designs import read_design
from .feeds import Feed, opening, sheet_rows, turn_sound
from .panels import feed_sheet
from .record_makers import BIG, split
from .run import ENTRIES, LARGEST_WIDTH, TOGGLES, enter_sound


def any_rows(rng, width, depth):
    """A sheet of any rows at all, each a permutation; no design need have it."""
    sheet = b""
    for _ in range(depth + 1):
        row = list(range(width))
        rng.shuffle(row)
        sheet += bytes(row)
    return sheet


def good_sheet(rng):
    """A width, a depth and a sheet that is good for them."""
    if rng.random() < 0.3:
        width, depth = any_size(rng)
        return width, depth, any_rows(rng, width, depth)
    tree = read_design(whole(rng).data())
    return tree.width, tree.depth, feed_sheet(tree)


def spoiled_sheet(rng, width, depth, sheet):
    """The sheet with one byte too few, or a row that is no permutation, the exit row as often."""
    if rng.random() < 0.25:
        return sheet[:rng.choice((0, len(sheet) - 1, depth * width, rng.randrange(len(sheet))))]
    level = rng.choice((0, depth, depth, rng.randrange(depth + 1)))
    row = sheet[level * width:(level + 1) * width]
    at = level * width + rng.randrange(width)
    byte = rng.choice((row[0], row[-1], width, width - 1, 255, sheet[at] ^ 128))
    spoiled = sheet[:at] + bytes([byte]) + sheet[at + 1:]
    return spoiled if rng.random() < 0.8 else spoiled[:-1]


def reached(rng):
    """A record reached from an opening by some calls, and the sheet it ran over."""
    width, depth, sheet = good_sheet(rng)
    _, feed = opening(width, depth, sheet)
    rows = sheet_rows(width, depth, sheet)
    tokens = rng.sample(range(256), rng.choice((1, 3, 12, 60)))
    eager = rng.random()
    for _ in range(rng.choice((5, 40, 200))):
        token = rng.choice(tokens)
        if not feed.places[token][0]:
            enter_sound(feed, token, rng.randrange(width))
        elif rng.random() < eager:
            turn_sound(feed, rows, token)
    return feed, sheet


def sound_unreached(rng, size=None, total=None, crowd=None):
    """A sound record with any toggles, counts and places at all."""
    width, depth = size or any_size(rng)
    feed = Feed(width, depth)
    cells = depth * (width // 2)
    density = rng.choice((0, 0, 0.02, 0.5, 1))
    feed.toggles[:cells] = [rng.random() < density for _ in range(cells)]
    crowd = rng.choice((0, 1, 2, 5, 40, 256)) if crowd is None else crowd
    for token in rng.sample(range(256), crowd) + [0, 255] * (crowd > 2):
        level = rng.choice((0, depth, depth, rng.randrange(depth + 1)))
        feed.places[token] = (True, level, rng.choice((0, width - 1, rng.randrange(width))))
    inside = len(feed.inside())
    if total is None:
        total = rng.choice((0, 1, 7, rng.randrange(300), rng.randrange(ENTRIES), 999_999, ENTRIES))
    feed.entered = max(total, inside)
    feed.counts[:width] = split(rng, width, feed.entered - inside)
    return feed


def bad_width(rng):
    """The width is 0 or above 64; a token inside would be on no wire at width 0."""
    feed = Feed(rng.choice((0, 0, 66, 128, 256, 65534)), rng.choice((0, 0, 1, 36)))
    if feed.width:
        feed.entered = feed.counts[0] = rng.choice((0, 3))
    return feed


def bad_depth(rng):
    """The depth is above 36."""
    feed = sound_unreached(rng, size=(rng.choice((2, 4, 64)), rng.choice((1, 36))))
    feed.depth = rng.choice((37, 38, 256, 65535))
    return feed


def odd_width(rng):
    """The width is odd, the depth above 0."""
    return sound_unreached(rng, size=(rng.choice((1, 3, 5, 63)), rng.choice((1, 2, 36))))


def too_many_entered(rng):
    """Entered is above 1,000,000, and the sum agrees."""
    return sound_unreached(rng, total=rng.choice((ENTRIES + 1, ENTRIES + 65536, BIG - 1)))


def bad_level(rng):
    """A token inside is at a level above the depth."""
    feed = sound_unreached(rng, crowd=rng.choice((1, 5)))
    level = feed.depth + 1
    feed.places[rng.choice(feed.inside())] = (True, rng.choice((level, level + 255, 65535)), 0)
    return feed


def bad_wire(rng):
    """A token inside is on a wire not below w."""
    feed = sound_unreached(rng, crowd=rng.choice((1, 5)))
    token = rng.choice(feed.inside())
    wire = rng.choice((feed.width, feed.width + 1, 64, 256, 65535))
    feed.places[token] = (True, feed.places[token][1], wire)
    return feed


def bad_free_place(rng):
    """A free token's place is not level 0, wire 0."""
    feed = sound_unreached(rng, crowd=rng.choice((0, 5)))
    free = [t for t in range(256) if not feed.places[t][0]]
    feed.places[rng.choice((free[0], free[-1], rng.choice(free)))] = (
        False, *rng.choice(((1, 0), (0, 1), (65535, 65535), (0, 65535), (256, 0))))
    return feed


def bad_count_beyond(rng):
    """A count beyond the width is not zero; it is in the sum."""
    size = rng.choice(((1, 0), (2, 3), (3, 0), (6, 2), (63, 0), (62, 1)))
    feed = sound_unreached(rng, size=size, total=rng.randrange(900_000))
    extra = rng.choice((1, 1, 65536))
    feed.counts[rng.choice((feed.width, LARGEST_WIDTH - 1))] = extra
    feed.entered += extra
    return feed


def bad_toggle_beyond(rng):
    """A toggle beyond the cells is down."""
    feed = sound_unreached(rng)
    cells = feed.depth * (feed.width // 2)
    if cells == TOGGLES:
        return bad_toggle_beyond(rng)
    feed.toggles[rng.choice((cells, TOGGLES - 1, rng.randrange(cells, TOGGLES)))] = True
    return feed


def bad_sum(rng):
    """Exit counts plus tokens inside do not add up to entered, at times by 2^32 exactly."""
    feed = sound_unreached(rng, size=rng.choice(((3, 0), (4, 3), (6, 2), (64, 36))),
                           total=rng.choice((256, 300, 70_000, 999_999)))
    if rng.random() < 0.6:
        feed.entered += rng.choice((1, -1))
        return feed
    feed.counts[0], feed.counts[1:] = sum(feed.counts) + 1, [0] * (LARGEST_WIDTH - 1)
    feed.counts[rng.randrange(1, feed.width)] = BIG - 1
    return feed


UNSOUND = {
    "width": bad_width,
    "depth": bad_depth,
    "odd": odd_width,
    "entered": too_many_entered,
    "level": bad_level,
    "wire": bad_wire,
    "free place": bad_free_place,
    "counts beyond": bad_count_beyond,
    "toggles beyond": bad_toggle_beyond,
    "sum": bad_sum,
}
