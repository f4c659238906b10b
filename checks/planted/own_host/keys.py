"""Keys, cryptograms and PIN blocks (docs/proof/formats.md, sections 6 and 7)."""
from functools import lru_cache
from hashlib import sha1

from own_host.des import mac, triple, xor

COVERED = ["9f02", "9f03", "9f1a", "95", "5f2a", "9a", "9c", "9f37", "82", "9f36", "9f10"]


def odd(byte):
    """A byte with odd parity in its lowest bit."""
    return byte & 0xFE | (byte >> 1).bit_count() % 2 ^ 1


def y_of(pan, sequence):
    """The eight bytes that are enciphered to a master key."""
    digits = f"{pan}{sequence:02}"
    if len(pan) <= 16:
        return bytes.fromhex(digits[-16:].zfill(16))
    halves = sha1(bytes.fromhex("0" * (len(digits) % 2) + digits)).hexdigest()
    numbers = [one for one in halves if one.isdigit()] + [str("abcdef".index(one)) for one in halves if one.isalpha()]
    return bytes.fromhex("".join(numbers[:16]))


@lru_cache(4096)
def master(issuer, pan, sequence):
    """A card's master key under one of the issuer's."""
    y = y_of(pan, sequence)
    return bytes(map(odd, triple(issuer, y) + triple(issuer, xor(y, b"\xff" * 8))))


@lru_cache(4096)
def session(key, r):
    """The session key of eight bytes R."""
    return b"".join(triple(key, r[:2] + bytes([third]) + r[3:]) for third in (0xF0, 0x0F))


def cryptogram(key, fields):
    """The application cryptogram over a message's fields."""
    return mac(key, b"".join(fields[tag] for tag in COVERED))


def response(key, request, code, account):
    """Issuer authentication data by the account's method."""
    if account.get("arpc", 1) == 1:
        return triple(key, xor(request, code + bytes(6))) + code
    approves = 0x80 if code == b"00" else 0
    status = bytes([approves, approves | account.get("status", 0), 0, 0])
    return mac(key, request + status)[:4] + status


def filled(nibbles):
    """Half-bytes with F up to sixteen."""
    return bytes.fromhex(nibbles.ljust(16, "f"))


def plain_pin(pin):
    """A plain PIN block, format 2."""
    return filled(f"2{len(pin):x}{pin}")


def is_pin(key, block, pan, pin):
    """Whether an enciphered block is that of a PIN."""
    field = bytes.fromhex("0000" + pan[:-1][-12:])
    return xor(triple(key, block, True), field) == filled(f"0{len(pin):x}{pin}")
