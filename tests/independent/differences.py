"""What a comparison finds, and how it is made short."""

TRIES = 30
LONGEST = 4000


class Difference(Exception):
    """Two answers that should be equal are not; the message says which."""


def must_equal(what, expected, found):
    """Raise a difference unless the two are equal."""
    if expected != found:
        raise Difference(f"{what}: expected {expected}, found {found}")


def short(text):
    """The text, cut where it is too long to be read."""
    if len(text) <= LONGEST:
        return text
    return f"{text[:LONGEST]} .. ({len(text)} characters)"


def first_unequal(expected, found):
    """The words that say where two texts part, for texts too long to be read."""
    at = next((i for i, (one, other) in enumerate(zip(expected, found)) if one != other),
              min(len(expected), len(found)))
    if max(len(expected), len(found)) <= 100:
        return ""
    near = slice(max(0, at - 20), at + 40)
    return f"\n  they part at character {at}: ..{expected[near]}.. and ..{found[near]}.."


def shrink(parts, differs, tries=TRIES):
    """Drop parts, many at a time and then few, as long as the difference stays.

    It gives up after so many tries and gives the shortest list it has found.
    """
    size = max(1, len(parts) // 2)
    while parts and tries > 0:
        at, dropped = 0, False
        while at < len(parts) and tries > 0:
            fewer = parts[:at] + parts[at + size:]
            tries -= 1
            if differs(fewer):
                parts, dropped = fewer, True
            else:
                at += size
        if size == 1 and not dropped:
            break
        size = max(1, size // 2)
    return parts
