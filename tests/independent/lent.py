"""What the console lends: bytes each aa and numbers each 4294967295 before the call."""

UNTOUCHED_BYTE = 0xAA
UNTOUCHED_NUMBER = 2**32 - 1


def untouched(length):
    """Bytes to lend."""
    return bytearray([UNTOUCHED_BYTE]) * length


def untouched_numbers(length):
    """Numbers to lend."""
    return [UNTOUCHED_NUMBER] * length
