"""Turns bytes in few places, from a random source."""
from random import Random
from typing import Sequence

# What readers of texts are likely to stumble over.
PIECES = (
    b"\x00", b"\xff", b"\xc3", b"\xc3\xa9", b"\xed\xa0\x80", b"\xf0\x9d\x84\x9e", b"\xef\xbb\xbf", b"\xe2\x80\xa8",
    b"\r", b"\n", b"\r\n", b"\n\n", b"\t", b" ", b'"', b'""', b",", b",,", b"'", b"''", b":", b"/", b"\\", b"{", b"}",
    b"[", b"]", b"*", b"**", b"%", b".", b"#", b"$", b"@", b"-", b"+", b"0", b"9", b"99999999999999999999", b"A", b"a",
    b"\x1b[2J", b"\x7f", b"\x85", b"\x1a",
)
LENGTHS = (2, 3, 8, 9, 39, 40, 64, 65, 126, 127, 255, 256, 1_023, 1_024, 1_025, 8_192, 8_193, 65_536, 70_000)


def turned(chance: Random, data: bytes, pieces: Sequence[bytes] = PIECES, most: int = 4) -> bytes:
    """These bytes after one change or some, mostly few."""
    for _ in range(chance.choice([1] * 4 + list(range(1, most + 1)))):
        data = once(chance, data, pieces)
    return data


def once(chance: Random, data: bytes, pieces: Sequence[bytes] = PIECES) -> bytes:
    at = chance.randint(0, len(data))
    end = min(len(data), at + chance.choice((1, 1, 2, 3, 8, 64)))
    way = chance.randrange(10)
    if way <= 1 and at < len(data):
        return data[:at] + bytes([data[at] ^ (1 << chance.randrange(8))]) + data[at + 1:]
    if way == 2 and at < len(data):
        return data[:at] + bytes([chance.randrange(256)]) + data[at + 1:]
    if way <= 5:
        return data[:at] + chance.choice(pieces) + data[at:]
    if way == 6:
        return data[:at] + data[end:]
    if way == 7:
        return data[:end] + data[at:end] + data[end:]
    if way == 8:
        other = chance.randint(0, len(data))
        return data[:at] + data[other:other + end - at] + data[end:]
    return long(chance, data, at, pieces) if chance.randrange(4) == 0 else data[:at]


def long(chance: Random, data: bytes, at: int, pieces: Sequence[bytes]) -> bytes:
    """These bytes with a piece in them again and again."""
    return data[:at] + chance.choice((b"x", b"A", chance.choice(pieces))) * chance.choice(LENGTHS) + data[at:]
