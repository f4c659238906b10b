"""DES as FIPS 46-3 prints it, triple DES with two keys, and the code (MAC) of ISO/IEC 9797-1 algorithm 3."""
from functools import lru_cache

INITIAL = [start - 8 * step for start in (58, 60, 62, 64, 57, 59, 61, 63) for step in range(8)]
EXPANSION = [(4 * group + step - 1) % 32 + 1 for group in range(8) for step in range(6)]
AFTER_BOXES = [16, 7, 20, 21, 29, 12, 28, 17, 1, 15, 23, 26, 5, 18, 31, 10, 2, 8, 24, 14, 32, 27, 3, 9, 19, 13, 30, 6, 22, 11, 4, 25]
FROM_KEY = [57, 49, 41, 33, 25, 17, 9, 1, 58, 50, 42, 34, 26, 18, 10, 2, 59, 51, 43, 35, 27, 19, 11, 3, 60, 52, 44, 36,
            63, 55, 47, 39, 31, 23, 15, 7, 62, 54, 46, 38, 30, 22, 14, 6, 61, 53, 45, 37, 29, 21, 13, 5, 28, 20, 12, 4]
FROM_HALVES = [14, 17, 11, 24, 1, 5, 3, 28, 15, 6, 21, 10, 23, 19, 12, 4, 26, 8, 16, 7, 27, 20, 13, 2,
               41, 52, 31, 37, 47, 55, 30, 40, 51, 45, 33, 48, 44, 49, 39, 56, 34, 53, 46, 42, 50, 36, 29, 32]
SHIFTS = [1, 1, 2, 2, 2, 2, 2, 2, 1, 2, 2, 2, 2, 2, 2, 1]
BOXES = [list(map(int, rows.split())) for rows in (
    "14 4 13 1 2 15 11 8 3 10 6 12 5 9 0 7 0 15 7 4 14 2 13 1 10 6 12 11 9 5 3 8 "
    "4 1 14 8 13 6 2 11 15 12 9 7 3 10 5 0 15 12 8 2 4 9 1 7 5 11 3 14 10 0 6 13",
    "15 1 8 14 6 11 3 4 9 7 2 13 12 0 5 10 3 13 4 7 15 2 8 14 12 0 1 10 6 9 11 5 "
    "0 14 7 11 10 4 13 1 5 8 12 6 9 3 2 15 13 8 10 1 3 15 4 2 11 6 7 12 0 5 14 9",
    "10 0 9 14 6 3 15 5 1 13 12 7 11 4 2 8 13 7 0 9 3 4 6 10 2 8 5 14 12 11 15 1 "
    "13 6 4 9 8 15 3 0 11 1 2 12 5 10 14 7 1 10 13 0 6 9 8 7 4 15 14 3 11 5 2 12",
    "7 13 14 3 0 6 9 10 1 2 8 5 11 12 4 15 13 8 11 5 6 15 0 3 4 7 2 12 1 10 14 9 "
    "10 6 9 0 12 11 7 13 15 1 3 14 5 2 8 4 3 15 0 6 10 1 13 8 9 4 5 11 12 7 2 14",
    "2 12 4 1 7 10 11 6 8 5 3 15 13 0 14 9 14 11 2 12 4 7 13 1 5 0 15 10 3 9 8 6 "
    "4 2 1 11 10 13 7 8 15 9 12 5 6 3 0 14 11 8 12 7 1 14 2 13 6 15 0 9 10 4 5 3",
    "12 1 10 15 9 2 6 8 0 13 3 4 14 7 5 11 10 15 4 2 7 12 9 5 6 1 13 14 0 11 3 8 "
    "9 14 15 5 2 8 12 3 7 0 4 10 1 13 11 6 4 3 2 12 9 5 15 10 11 14 1 7 6 0 8 13",
    "4 11 2 14 15 0 8 13 3 12 9 7 5 10 6 1 13 0 11 7 4 9 1 10 14 3 5 12 2 15 8 6 "
    "1 4 11 13 12 3 7 14 10 15 6 8 0 5 9 2 6 11 13 8 1 4 10 7 9 5 0 15 14 2 3 12",
    "13 2 8 4 6 15 11 1 10 9 3 14 5 0 12 7 1 15 13 8 10 3 7 4 12 5 6 11 0 14 9 2 "
    "7 11 4 1 9 12 14 2 0 6 10 13 15 3 5 8 2 1 14 7 4 10 8 13 15 12 9 0 3 5 6 11",
)]


def permuted(number, width, places):
    """The bits of a number of so many bits at these places, counted from 1 on the left."""
    result = 0
    for place in places:
        result = result * 2 + (number >> width - place) % 2
    return result


def behind_box(box, bits):
    """What a box makes of six bits, where the permutation behind the boxes puts it."""
    row, column = bits >> 4 & 2 | bits & 1, bits >> 1 & 15
    return permuted(BOXES[box][16 * row + column] << 28 - 4 * box, 32, AFTER_BOXES)


BEHIND = [[behind_box(box, bits) for bits in range(64)] for box in range(8)]
EXPANDED = [[permuted(byte << 24 - 8 * at, 32, EXPANSION) for byte in range(256)] for at in range(4)]
LAST = [INITIAL.index(place) + 1 for place in range(1, 65)]


@lru_cache(4096)
def schedule(key):
    """The sixteen keys of the rounds."""
    halves, keys = permuted(int.from_bytes(key), 64, FROM_KEY), []
    left, right = divmod(halves, 1 << 28)
    for shift in SHIFTS:
        left, right = ((half << shift | half >> 28 - shift) % (1 << 28) for half in (left, right))
        keys.append(permuted(left << 28 | right, 56, FROM_HALVES))
    return keys


def des(key, block, deciphers=False):
    """A block through DES."""
    left, right = divmod(permuted(int.from_bytes(block), 64, INITIAL), 1 << 32)
    for one in reversed(schedule(key)) if deciphers else schedule(key):
        mixed, boxes = one, 0
        for at in range(4):
            mixed ^= EXPANDED[at][right >> 24 - 8 * at & 255]
        for box in range(8):
            boxes |= BEHIND[box][mixed >> 42 - 6 * box & 63]
        left, right = right, left ^ boxes
    return permuted(right << 32 | left, 64, LAST).to_bytes(8)


def triple(key, block, deciphers=False):
    """A block through triple DES with a key of sixteen bytes."""
    return des(key[:8], des(key[8:], des(key[:8], block, deciphers), not deciphers), deciphers)


def xor(one, other):
    """Bytes added bit by bit."""
    return bytes(a ^ b for a, b in zip(one, other))


def mac(key, text):
    """The code of a text: eight bytes."""
    text += b"\x80" + bytes(-(len(text) + 1) % 8)
    chained = bytes(8)
    for at in range(0, len(text), 8):
        chained = des(key[:8], xor(chained, text[at : at + 8]))
    return des(key[:8], des(key[8:], chained, True))
