"""Data objects (EMV 4.3 Book 3 Annex B), object lists (Book 3 section 5.4), the dictionary, commands (Book 3 section 6.3)."""
from typing import NamedTuple


class Fault(Exception):
    """The bytes are no data objects, or no object list; `place` counts from the beginning."""

    def __init__(self, place):
        super().__init__(place)
        self.place = place


class Object(NamedTuple):
    """A data object: where it begins, and where its value does."""

    tag: int
    value: bytes
    start: int
    at: int


def tag_at(data, place):
    """The tag of at most three bytes that begins here, and the place behind it."""
    end = place + 1
    if data[place] & 0x1F == 0x1F:
        while True:
            if end == len(data):
                raise Fault(place)
            end += 1
            if not data[end - 1] & 0x80:
                break
            if end == place + 3:
                raise Fault(place)
    return int.from_bytes(data[place:end]), end


def length_at(data, place, start):
    """The length that stands here, of the object that begins at `start`, and the place behind it."""
    if place == len(data):
        raise Fault(start)
    size = data[place] - 0x80
    if size in (1, 2):
        if place + size >= len(data):
            raise Fault(start)
        return int.from_bytes(data[place + 1 : place + 1 + size]), place + 1 + size
    if size >= 0:
        raise Fault(place)
    return data[place], place + 1


def going(data, offset=0):
    """The objects one behind the other, bytes 00 between them passed over; a fault is raised where one is met."""
    place = 0
    while place < len(data):
        if data[place] == 0:
            place += 1
            continue
        try:
            tag, end = tag_at(data, place)
            length, end = length_at(data, end, place)
        except Fault as fault:
            raise Fault(offset + fault.place) from None
        if end + length > len(data):
            raise Fault(offset + place)
        yield Object(tag, data[end : end + length], offset + place, offset + end)
        place = end + length


def objects(data, offset=0):
    """All objects up to the first fault, and its place or None."""
    found = []
    try:
        for one in going(data, offset):
            found.append(one)
    except Fault as fault:
        return found, fault.place
    return found, None


def only(data, *tags):
    """The one object that the bytes are, if it has one of these tags and there is no fault among them, else None."""
    found, fault = objects(data)
    return found[0] if fault is None and len(found) == 1 and found[0].tag in tags else None


def first(objects_, tag):
    """The value of the first of these objects with this tag, or None."""
    return next((one.value for one in objects_ if one.tag == tag), None)


def tag_bytes(tag):
    """The bytes of a tag."""
    return tag.to_bytes(max(1, (tag.bit_length() + 7) // 8))


def tag_text(tag):
    """A tag as reports have it."""
    return tag_bytes(tag).hex()


def is_constructed(tag):
    """Whether the value of an object with this tag is objects."""
    return bool(tag_bytes(tag)[0] & 0x20)


def spelled(tag, value):
    """An object with its length in the shortest form."""
    size = len(value)
    if size < 0x80:
        return tag_bytes(tag) + bytes([size]) + value
    return tag_bytes(tag) + (b"\x81" + bytes([size]) if size < 0x100 else b"\x82" + size.to_bytes(2)) + value


def entries(data):
    """The entries of an object list: tag and length each."""
    found, place = [], 0
    while place < len(data):
        tag, end = tag_at(data, place)
        if end == len(data):
            raise Fault(place)
        found.append((tag, data[end]))
        place = end + 1
    return found


def total(list_):
    """How many bytes the data of an object list have."""
    return sum(length for _, length in list_)


def entry_in(list_, tag, length, data):
    """What stands in the data of an object list for its first entry of this tag and length, or None."""
    place = 0
    for entry in list_:
        if entry == (tag, length):
            return data[place : place + length]
        place += entry[1]
    return None


NUMERIC = "5F24 5F25 5F28 5F34 9F42 5F30 | 9F02 9F03 9F1A 5F2A 9A 9C 9F21 9F35"
COMPRESSED = "5A |"
TEXT = "50 5F20 9F1F | 9F1C 8A"
BINARY = """8C 8D 8E 9F07 9F08 9F0D 9F0E 9F0F 9F14 9F23 82 94 9F26 9F27 9F36 9F10 9F13 9F17 57 9F4A |
            9F37 9F33 9F09 9F06 95 9B 9F34 91"""
# Each tag with its format and whether it is the card's; the others are the terminal's and the issuer's.
DICTIONARY = {
    int(tag, 16): (row, is_card)
    for row in (NUMERIC, COMPRESSED, TEXT, BINARY)
    for part, is_card in zip(row.split("|"), (True, False))
    for tag in part.split()
}


def fitted(value, length, row):
    """A value cut or filled up to a length, by its format."""
    if len(value) > length:
        return value[len(value) - length :] if row == NUMERIC else value[:length]
    if row == NUMERIC:
        return value.rjust(length, b"\0")
    return value.ljust(length, b"\xff" if row == COMPRESSED else b"\0")


def filled(list_, card, terminal):
    """The data of an object list."""
    data = b""
    for tag, length in list_:
        row, is_card = DICTIONARY.get(tag, (None, False))
        value = (card if is_card else terminal).get(tag) if row else None
        data += bytes(length) if value is None else fitted(value, length, row)
    return data


def has_digits(value):
    """Whether each half byte is a decimal digit."""
    return all(half in "0123456789" for half in value.hex())


def is_date(value):
    """Whether three bytes are a date: digits, a month and a day."""
    return len(value) == 3 and has_digits(value) and 1 <= int(value.hex()[2:4]) <= 12 and 1 <= int(value.hex()[4:]) <= 31


def day(value):
    """A date in an order: years below 50 are of this century."""
    year, month, day_ = (int(f"{byte:02x}") for byte in value)
    return year + (2000 if year < 50 else 1900), month, day_


def account_number(value):
    """The 13 to 19 digits up to the first half byte F, behind which there is nothing but F; or None."""
    digits = value.hex().rstrip("f")
    return digits if digits.isdigit() and 13 <= len(digits) <= 19 else None


def account_bytes(pan):
    """The digits of an account number in the fewest bytes."""
    return bytes.fromhex(pan + "f" * (len(pan) % 2))


def in_digits(number, size):
    """A number as decimal digits in this many bytes."""
    return bytes.fromhex(f"{number:0{2 * size}}")


class Command(NamedTuple):
    """A command; its expected length is left out."""

    header: bytes
    data: bytes


def command(header, data=b"", expected=b"\0"):
    """The bytes of a command."""
    return bytes.fromhex(header) + (bytes([len(data)]) + data if data else b"") + expected


def command_in(data):
    """The command that these bytes are, or None."""
    if len(data) in (4, 5):
        return Command(data[:4], b"")
    if len(data) < 4 or data[4] == 0 or len(data) - data[4] not in (5, 6):
        return None
    return Command(data[:4], data[5 : 5 + data[4]])
