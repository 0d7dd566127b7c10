"""The stream of ChaCha20 (RFC 8439, 2.3) with 64 bits of counter and 64 of stream number, both from 0."""

import struct

MASK = 0xFFFFFFFF


def turned(word, bits):
    return (word << bits | word >> 32 - bits) & MASK


def quarter(words, a, b, c, d):
    for x, y, z, bits in [(a, b, d, 16), (c, d, b, 12), (a, b, d, 8), (c, d, b, 7)]:
        words[x] = (words[x] + words[y]) & MASK
        words[z] = turned(words[z] ^ words[x], bits)


def block(key, counter):
    """The 64 bytes of one block."""
    start = [*struct.unpack("<4I", b"expand 32-byte k"), *struct.unpack("<8I", key)]
    start += [counter & MASK, counter >> 32, 0, 0]
    words = list(start)
    for _ in range(10):
        for at in range(4):
            quarter(words, at, at + 4, at + 8, at + 12)
        for at in range(4):
            quarter(words, at, (at + 1) % 4 + 4, (at + 2) % 4 + 8, (at + 3) % 4 + 12)
    return struct.pack("<16I", *((x + y) & MASK for x, y in zip(words, start)))


class ChaCha:
    """Draws from the stream under a key: what the program draws where /dev/urandom begins with the
    key. Each draw begins with a whole word of 4 bytes, and each has a multiple of 4 bytes here."""

    def __init__(self, key):
        self.key = key
        self.counter = 0
        self.left = b""

    def draw(self, count):
        if count % 4:
            raise ValueError(f"{count} bytes leave a part of a word")
        while len(self.left) < count:
            self.left += block(self.key, self.counter)
            self.counter += 1
        drawn, self.left = self.left[:count], self.left[count:]
        return drawn


def check():
    """RFC 8439, A.1: the first two blocks under a key of zeros."""
    first, second = block(bytes(32), 0), block(bytes(32), 1)
    assert first[:16].hex() == "76b8e0ada0f13d90405d6ae55386bd28", first.hex()
    assert second[:16].hex() == "9f07e7be5551387a98ba977c732d080d", second.hex()
