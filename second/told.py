"""How the programs that take cases tell a buffer or a state in one number, and what a buffer holds before the call."""

PATTERN = bytes((7 * at + 3) % 256 for at in range(256))


def buffer_before(length):
    """A buffer before the call: byte i is 7 i + 3, mod 256."""
    return bytearray((PATTERN * (length // 256 + 1))[:length])


def hash_of(numbers):
    """1, and for each number this times 31 plus the number, mod 4294967291."""
    told = 1
    for number in numbers:
        told = (told * 31 + number) % 4294967291
    return told
