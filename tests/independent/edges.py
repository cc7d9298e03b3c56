"""Values near boundaries, for the seeded makers."""

from .networks import BITONIC, PERIODIC, WIDTHS

U16 = (0, 1, 2, 3, 63, 64, 65, 127, 128, 254, 255, 256, 257, 260, 32767, 32768, 65534, 65535)
U32 = (0, 1, 2, 255, 256, 65535, 65536, 999_999, 1_000_000, 1_000_001,
       2**31 - 1, 2**31, 2**32 - 2, 2**32 - 1)
BAD_WIDTHS = (0, 3, 5, 6, 7, 12, 24, 48, 63, 65, 96, 128, 255, 256, 257, 258, 260, 320,
              512, 32768, 65535)
BAD_CONSTRUCTIONS = (0, 3, 4, 255, 256, 257, 258, 65535)


def around(rng, value, least=0):
    """The value, or one beside it, not below the least."""
    return max(least, value + rng.choice((-1, 0, 0, 1)))


def u16(rng):
    """A number of 16 bits, near a boundary as often as not."""
    return rng.choice(U16) if rng.random() < 0.6 else rng.randrange(2**16)


def u32(rng):
    """A number of 32 bits, near a boundary as often as not."""
    return rng.choice(U32) if rng.random() < 0.6 else rng.randrange(2**32)


def width(rng):
    """An allowed width."""
    return rng.choice(WIDTHS)


def construction(rng):
    """An allowed construction."""
    return rng.choice((BITONIC, PERIODIC))


def any_width(rng):
    """A width, now and then one that is not allowed."""
    return width(rng) if rng.random() < 0.85 else rng.choice(BAD_WIDTHS)


def any_construction(rng):
    """A construction, now and then one that is neither 1 nor 2."""
    return construction(rng) if rng.random() < 0.85 else rng.choice(BAD_CONSTRUCTIONS)


def wire(rng, network_width):
    """A wire, now and then one that is not below the width."""
    if rng.random() < 0.8:
        return rng.randrange(network_width)
    return rng.choice((network_width - 1, network_width, network_width + 1, 63, 64, 256, 65535))


def token(rng, likely=()):
    """A token, one of the likely ones as often as not, now and then above 255."""
    chance = rng.random()
    if likely and chance < 0.6:
        return rng.choice(likely)
    if chance < 0.8:
        return rng.randrange(256)
    return rng.choice((0, 1, 254, 255, 256, 257, 511, 65535))
