"""DES (FIPS 46-3), authentication codes (ISO/IEC 9797-1), keys and cryptograms (EMV 4.3 Book 2), PIN blocks (ISO 9564-1)."""
from functools import lru_cache
from hashlib import sha1

INITIAL = [at - 8 * row for at in (58, 60, 62, 64, 57, 59, 61, 63) for row in range(8)]
PERMUTATION = [16, 7, 20, 21, 29, 12, 28, 17, 1, 15, 23, 26, 5, 18, 31, 10,
               2, 8, 24, 14, 32, 27, 3, 9, 19, 13, 30, 6, 22, 11, 4, 25]
CHOICE_1 = [57, 49, 41, 33, 25, 17, 9, 1, 58, 50, 42, 34, 26, 18, 10, 2, 59, 51, 43, 35, 27, 19, 11, 3, 60, 52, 44, 36,
            63, 55, 47, 39, 31, 23, 15, 7, 62, 54, 46, 38, 30, 22, 14, 6, 61, 53, 45, 37, 29, 21, 13, 5, 28, 20, 12, 4]
CHOICE_2 = [14, 17, 11, 24, 1, 5, 3, 28, 15, 6, 21, 10, 23, 19, 12, 4, 26, 8, 16, 7, 27, 20, 13, 2,
            41, 52, 31, 37, 47, 55, 30, 40, 51, 45, 33, 48, 44, 49, 39, 56, 34, 53, 46, 42, 50, 36, 29, 32]
ROTATIONS = [1, 1, 2, 2, 2, 2, 2, 2, 1, 2, 2, 2, 2, 2, 2, 1]
BOXES = [
    "E4D12FB83A6C5907 0F74E2D1A6CB9538 41E8D62BFC973A50 FC8249175B3EA06D",
    "F18E6B34972DC05A 3D47F28EC01A69B5 0E7BA4D158C6932F D8A13F42B67C05E9",
    "A09E63F51DC7B428 D709346A285ECBF1 D6498F30B12C5AE7 1AD069874FE3B52C",
    "7DE3069A1285BC4F D8B56F03472C1AE9 A690CB7DF13E5284 3F06A1D8945BC72E",
    "2C417AB6853FD0E9 EB2C47D150FA3986 421BAD78F9C5630E B8C71E2D6F09A453",
    "C1AF92680D34E75B AF427C9561DE0B38 9EF528C3704A1DB6 432C95FABE17608D",
    "4B2EF08D3C975A61 D0B7491AE35C2F86 14BDC37EAF680592 6BD814A7950FE23C",
    "D2846FB1A93E50C7 1FD8A374C56B0E92 7B419CE206ADF358 21E74A8DFC90356B",
]


def moved(word, size, places):
    """The bits of a word of this size at these places, which count from 1 at the left."""
    out = 0
    for place in places:
        out = out << 1 | word >> (size - place) & 1
    return out


def replaced(box, six):
    """What a box gives for six bits: its row is the outer two, its column the inner four."""
    return int(BOXES[box].split()[six >> 4 & 2 | six & 1][six >> 1 & 15], 16)


# Each box with the permutation behind it.
MERGED = [[moved(replaced(box, six) << 28 - 4 * box, 32, PERMUTATION) for six in range(64)] for box in range(8)]
# The initial permutation and its inverse, a byte of the block at a time.
FINAL = [INITIAL.index(place) + 1 for place in range(1, 65)]
IN = [[moved(byte << 56 - 8 * at, 64, INITIAL) for byte in range(256)] for at in range(8)]
OUT = [[moved(byte << 56 - 8 * at, 64, FINAL) for byte in range(256)] for at in range(8)]


@lru_cache(maxsize=10_000)
def round_keys(key):
    """The sixteen round keys of a key of eight bytes, each as eight groups of six bits."""
    bits = moved(int.from_bytes(key, "big"), 64, CHOICE_1)
    left, right, keys = bits >> 28, bits & 0xFFFFFFF, []
    for by in ROTATIONS:
        left, right = (left << by | left >> 28 - by) & 0xFFFFFFF, (right << by | right >> 28 - by) & 0xFFFFFFF
        word = moved(left << 28 | right, 56, CHOICE_2)
        keys.append(tuple(word >> 42 - 6 * box & 63 for box in range(8)))
    return tuple(keys)


def through(block, keys):
    """Sixteen rounds with these keys, between the initial permutation and its inverse."""
    word = 0
    for at, byte in enumerate(block):
        word |= IN[at][byte]
    left, right = word >> 32, word & 0xFFFFFFFF
    for key in keys:
        wide = (right & 1) << 33 | right << 1 | right >> 31
        mixed = 0
        for box in range(8):
            mixed |= MERGED[box][wide >> 28 - 4 * box & 63 ^ key[box]]
        left, right = right, left ^ mixed
    word, out = right << 32 | left, 0
    for at, byte in enumerate(word.to_bytes(8, "big")):
        out |= OUT[at][byte]
    return out.to_bytes(8, "big")


def encipher(key, block):
    """Single DES under a key of eight bytes."""
    return through(block, round_keys(key))


def decipher(key, block):
    """Its inverse."""
    return through(block, round_keys(key)[::-1])


def encipher_two(key, block):
    """Triple DES under a key of sixteen bytes."""
    return encipher(key[:8], decipher(key[8:], encipher(key[:8], block)))


def decipher_two(key, block):
    """Its inverse."""
    return decipher(key[:8], encipher(key[8:], decipher(key[:8], block)))


def xor(one, other):
    """The bits in which two byte strings differ."""
    return bytes(a ^ b for a, b in zip(one, other))


def code_of(key, text):
    """The authentication code of a text: algorithm 3, padding method 2."""
    state = bytes(8)
    padded = text + b"\x80" + bytes(-(len(text) + 1) % 8)
    for at in range(0, len(padded), 8):
        state = encipher(key[:8], xor(state, padded[at : at + 8]))
    return encipher(key[:8], decipher(key[8:], state))


def odd(byte):
    """The byte with odd parity in its lowest bit."""
    return byte & 0xFE | (byte >> 1).bit_count() % 2 ^ 1


@lru_cache(maxsize=10_000)
def master_key(issuer, pan, sequence):
    """A card's key from the issuer's: option A up to 16 digits of the account number, else option B (Book 2 Annex A1.4)."""
    digits = f"{pan}{sequence:02x}"
    if len(pan) <= 16:
        data = bytes.fromhex(digits[-16:].rjust(16, "0"))
    else:
        hexadecimal = sha1(bytes.fromhex("0" * (len(digits) % 2) + digits)).hexdigest()
        letters = [str("abcdef".index(letter)) for letter in hexadecimal if letter.isalpha()]
        data = bytes.fromhex("".join([*filter(str.isdigit, hexadecimal), *letters][:16]))
    return bytes(map(odd, encipher_two(issuer, data) + encipher_two(issuer, xor(data, b"\xff" * 8))))


@lru_cache(maxsize=10_000)
def session_key(master, diversifier):
    """A session key (Book 2 Annex A1.3.1): the third byte of the diversifier tells the halves apart."""
    head, rest = diversifier[:2], diversifier[3:]
    return encipher_two(master, head + b"\xf0" + rest) + encipher_two(master, head + b"\x0f" + rest)


def counted_key(master, counter):
    """The session key of a transaction counter of two bytes."""
    return session_key(master, counter + bytes(6))


def response_one(key, cryptogram, code):
    """The response cryptogram of method 1 (Book 2 section 8.2.1)."""
    return encipher_two(key, xor(cryptogram, code + bytes(6)))


def response_two(key, cryptogram, behind):
    """That of method 2 (Book 2 section 8.2.2), over the status and what follows it."""
    return code_of(key, cryptogram + behind)[:4]


def block_of(kind, pin):
    """A PIN with its kind and length before it and filler behind it."""
    return bytes.fromhex(f"{kind}{len(pin):x}{pin}".ljust(16, "f"))


def pin_in(kind, block):
    """The PIN of four to twelve digits whose block this is, or None."""
    text = block.hex()
    length = int(text[1], 16)
    pin = text[2 : 2 + length]
    return pin if 4 <= length <= 12 and pin.isdigit() and block_of(kind, pin) == block else None


def account_part(pan):
    """The twelve rightmost digits of an account number without the last one, behind four zeros."""
    return bytes.fromhex("0000" + pan[-13:-1])


def online_block(key, pin, pan):
    """A PIN for the issuer: a block of format 0, enciphered."""
    return encipher_two(key, xor(block_of(0, pin), account_part(pan)))


def online_pin(key, block, pan):
    """The PIN in such a block, or None."""
    return pin_in(0, xor(decipher_two(key, block), account_part(pan)))
