"""Digests of keys, without the program: RIPEMD-160, which not every Python has."""
from __future__ import annotations

import struct

WORD = 0xFFFFFFFF
# The byte between the name of a set and a key that is text.
OF_TEXT = b"\x03"
FIRST = (0x67452301, 0xEFCDAB89, 0x98BADCFE, 0x10325476, 0xC3D2E1F0)
# Of each of the five rounds: the constants of both lines, and by which function each line mixes.
CONSTANTS = (0x00000000, 0x5A827999, 0x6ED9EBA1, 0x8F1BBCDC, 0xA953FD4E)
CONSTANTS_BESIDE = (0x50A28BE6, 0x5C4DD124, 0x6D703EF3, 0x7A6D76E9, 0x00000000)
MIXES = (
    lambda x, y, z: x ^ y ^ z,
    lambda x, y, z: (x & y) | (~x & z),
    lambda x, y, z: (x | ~y) ^ z,
    lambda x, y, z: (x & z) | (y & ~z),
    lambda x, y, z: x ^ (y | ~z),
)
# Which word of a block each step takes, and by how much it turns, a round a row, of both lines.
TAKES = (
    "0 1 2 3 4 5 6 7 8 9 10 11 12 13 14 15", "7 4 13 1 10 6 15 3 12 0 9 5 2 14 11 8",
    "3 10 14 4 9 15 8 1 2 7 0 6 13 11 5 12", "1 9 11 10 0 8 12 4 13 3 7 15 14 5 6 2",
    "4 0 5 9 7 12 2 10 14 1 3 8 11 6 15 13",
)
TAKES_BESIDE = (
    "5 14 7 0 9 2 11 4 13 6 15 8 1 10 3 12", "6 11 3 7 0 13 5 10 14 15 8 12 4 9 1 2",
    "15 5 1 3 7 14 6 9 11 8 12 2 10 0 4 13", "8 6 4 1 3 11 15 0 5 12 2 13 9 7 10 14",
    "12 15 10 4 1 5 8 7 6 2 13 14 0 3 9 11",
)
TURNS = (
    "11 14 15 12 5 8 7 9 11 13 14 15 6 7 9 8", "7 6 8 13 11 9 7 15 7 12 15 9 11 7 13 12",
    "11 13 6 7 14 9 13 15 14 8 13 6 5 12 7 5", "11 12 14 15 14 15 9 8 9 14 5 6 8 6 5 12",
    "9 15 5 11 6 8 13 12 5 12 13 14 11 8 5 6",
)
TURNS_BESIDE = (
    "8 9 9 11 13 15 15 5 7 7 8 11 14 14 12 6", "9 13 15 7 12 8 9 11 7 7 12 7 6 15 13 11",
    "9 7 15 11 8 6 6 14 12 13 5 14 13 13 7 5", "15 5 8 11 14 14 6 14 6 9 12 9 12 5 15 8",
    "8 5 12 9 12 5 14 6 8 13 6 5 15 13 11 11",
)


def turned(word: int, by: int) -> int:
    word &= WORD
    return (word << by | word >> (32 - by)) & WORD


def line_of(state: tuple[int, ...], block: tuple[int, ...], mixes, constants, takes, turns) -> tuple[int, ...]:
    """What one of the two lines of steps makes of the state."""
    a, b, c, d, e = state
    for mix, constant, take_row, turn_row in zip(mixes, constants, takes, turns):
        for take, turn in zip(map(int, take_row.split()), map(int, turn_row.split())):
            new = turned(a + mix(b, c, d) + block[take] + constant, turn) + e
            a, b, c, d, e = e, new & WORD, b, turned(c, 10), d
    return a, b, c, d, e


def ripemd160(message: bytes) -> bytes:
    padded = message + b"\x80" + bytes((119 - len(message) % 64) % 64) + struct.pack("<Q", 8 * len(message))
    state = FIRST
    for at in range(0, len(padded), 64):
        block = struct.unpack("<16I", padded[at : at + 64])
        one = line_of(state, block, MIXES, CONSTANTS, TAKES, TURNS)
        two = line_of(state, block, MIXES[::-1], CONSTANTS_BESIDE, TAKES_BESIDE, TURNS_BESIDE)
        olds = state[1:] + state[:1]
        state = tuple(
            (old + one[(place + 2) % 5] + two[(place + 3) % 5]) & WORD for place, old in enumerate(olds)
        )
    return struct.pack("<5I", *state)


def digest_of(key: bytes) -> str:
    """The digest of a key as a script writes it: `SET/KEY`, a key of no set, or a digest behind a `#`."""
    if key.startswith(b"#"):
        return key[1:].decode().lower()
    set_name, slash, name = key.partition(b"/")
    return ripemd160((set_name if slash else b"") + OF_TEXT + (name if slash else key)).hex()
