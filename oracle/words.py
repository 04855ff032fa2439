"""Words of 32 bits."""

M = 0xffffffff


def signed(n):
    """The int of a word; any whole number is taken modulo 2^32."""
    n &= M
    return n - (1 << 32) if n >> 31 else n


def little(words):
    """The bytes of words, the low one first."""
    return b''.join((w & M).to_bytes(4, 'little') for w in words)


def of_bytes(data):
    """The words of bytes, whose number is a multiple of 4."""
    return [int.from_bytes(data[at:at + 4], 'little') for at in range(0, len(data), 4)]
