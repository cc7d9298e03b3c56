"""Seeded run records: reached, sound but never reached, and unsound in one part alone."""

from . import edges
from .networks import depth
from .run import ENTRIES, LARGEST_WIDTH, Run, TOGGLES, enter_sound, opening, turn_sound

BIG = 2**32


def reached(rng):
    """A record reached from an opening by some calls."""
    _, run = opening(edges.width(rng), edges.construction(rng))
    tokens = rng.sample(range(256), rng.choice((1, 3, 12, 60)))
    eager = rng.random()
    for _ in range(rng.choice((5, 40, 300))):
        token = rng.choice(tokens)
        if run.places[token][0]:
            if rng.random() < eager:
                turn_sound(run, token)
        else:
            enter_sound(run, token, rng.randrange(run.width))
    return run


def split(rng, width, total):
    """Exit counts that add up to the total: even, nearly even, at a few exits, or at one."""
    form = rng.randrange(4)
    if form < 2:
        counts = [total // width + (i < total % width) for i in range(width)]
        for _ in range(form * rng.randrange(1, 6)):
            giver, taker = rng.randrange(width), rng.randrange(width)
            some = min(counts[giver], rng.randrange(4))
            counts[giver] -= some
            counts[taker] += some
        return counts
    counts = [0] * width
    left = total
    for _ in range(1 if form == 3 else 4):
        some = rng.randrange(left + 1)
        counts[rng.randrange(width)] += some
        left -= some
    counts[rng.randrange(width)] += left
    return counts


def sound_unreached(rng, width=None, total=None, crowd=None):
    """A sound record with any toggles, counts and places at all."""
    run = Run(width or edges.width(rng), edges.construction(rng))
    layers = depth(run.width, run.construction)
    cells = layers * (run.width // 2)
    density = rng.choice((0, 0, 0.02, 0.5, 1))
    run.toggles[:cells] = [rng.random() < density for _ in range(cells)]
    crowd = rng.choice((0, 1, 2, 5, 40, 256)) if crowd is None else crowd
    for token in rng.sample(range(256), crowd) + [0, 255] * (crowd > 2):
        level = rng.choice((0, layers, rng.randrange(layers + 1)))
        wire = rng.choice((0, run.width - 1, rng.randrange(run.width)))
        run.places[token] = (True, level, wire)
    inside = len(run.inside())
    if total is None:
        total = rng.choice((0, 1, 7, rng.randrange(300), rng.randrange(ENTRIES),
                            999_999, ENTRIES, ENTRIES))
    run.entered = max(total, inside)
    run.counts[:run.width] = split(rng, run.width, run.entered - inside)
    return run


def bad_width(rng):
    """The width is not allowed."""
    run = Run(rng.choice(edges.BAD_WIDTHS), edges.construction(rng))
    run.entered = run.counts[0] = rng.choice((0, 3))
    return run


def bad_construction(rng):
    """The construction is neither 1 nor 2."""
    run = reached(rng)
    run.construction = rng.choice(edges.BAD_CONSTRUCTIONS)
    return run


def too_many_entered(rng):
    """Entered is above 1,000,000, and the sum agrees."""
    return sound_unreached(rng, total=rng.choice((ENTRIES + 1, ENTRIES + 65536, BIG - 1)))


def bad_level(rng):
    """A token inside is at a level above the depth."""
    run = sound_unreached(rng, crowd=rng.choice((1, 5)))
    token = rng.choice(run.inside())
    level = depth(run.width, run.construction) + 1
    run.places[token] = (True, rng.choice((level, level + 255, 256, 65535)), 0)
    return run


def bad_wire(rng):
    """A token inside is on a wire not below w."""
    run = sound_unreached(rng, crowd=rng.choice((1, 5)))
    token = rng.choice(run.inside())
    wire = rng.choice((run.width, run.width + 1, 64, 256, 65535))
    run.places[token] = (True, run.places[token][1], wire)
    return run


def bad_free_place(rng):
    """A free token's place is not level 0, wire 0."""
    run = rng.choice((reached, sound_unreached))(rng)
    free = [t for t in range(256) if not run.places[t][0]]
    if not free:
        return bad_free_place(rng)
    run.places[rng.choice((free[0], free[-1], rng.choice(free)))] = (
        False, *rng.choice(((1, 0), (0, 1), (65535, 65535), (0, 65535), (256, 0))))
    return run


def bad_count_beyond(rng):
    """A count beyond the width is not zero; it is in the sum."""
    run = sound_unreached(rng, width=rng.choice((1, 2, 4, 8, 16, 32)), total=rng.randrange(900_000))
    extra = rng.choice((1, 1, 65536))
    run.counts[rng.choice((run.width, LARGEST_WIDTH - 1, rng.randrange(run.width, 64)))] = extra
    run.entered += extra
    return run


def bad_toggle_beyond(rng):
    """A toggle beyond the cells is down."""
    run = rng.choice((reached, sound_unreached))(rng)
    cells = depth(run.width, run.construction) * (run.width // 2)
    if cells == TOGGLES:
        return bad_toggle_beyond(rng)
    run.toggles[rng.choice((cells, TOGGLES - 1, rng.randrange(cells, TOGGLES)))] = True
    return run


def bad_sum(rng):
    """Exit counts plus tokens inside do not add up to entered, at times by 2^32 exactly."""
    run = sound_unreached(rng, width=rng.choice((4, 8, 16, 32, 64)),
                          total=rng.choice((256, 300, 70_000, 999_999)))
    wraps = rng.choice((0, 0, 1, 2))
    if not wraps:
        run.entered += rng.choice((1, -1))
        return run
    run.counts[0], run.counts[1:] = sum(run.counts) + wraps, [0] * (LARGEST_WIDTH - 1)
    for i in rng.sample(range(1, run.width), wraps):
        run.counts[i] = BIG - 1
    return run


UNSOUND = {
    "width": bad_width,
    "construction": bad_construction,
    "entered": too_many_entered,
    "level": bad_level,
    "wire": bad_wire,
    "free place": bad_free_place,
    "counts beyond": bad_count_beyond,
    "toggles beyond": bad_toggle_beyond,
    "sum": bad_sum,
}
