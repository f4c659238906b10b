"""Messages to the issuer as the issuer reads them, in both spellings, and the first fault of bytes that are none
(docs/use/report.md, section 7; docs/proof/formats.md, section 8).
"""
from .objects import account_bytes, account_number, has_digits, objects, spelled, tag_text

REQUEST, REPLY, PRESENTMENT, REVERSAL = 0xE1, 0xE2, 0xE3, 0xE4
PAN, SEQUENCE, PIN_BLOCK, CODE, IAD = 0x5A, 0x5F34, 0xDF11, 0x8A, 0x9F10
# The fields of each message in their order.
CARDS = [0x95, 0x5F2A, 0x9A, 0x9C, 0x9F37, 0x82, 0x9F36, 0x9F26, IAD]
ORDER = {
    REQUEST: [0x9F1C, PAN, SEQUENCE, 0x5F24, 0x9F02, 0x9F03, 0x9F1A, *CARDS, PIN_BLOCK],
    PRESENTMENT: [0x9F1C, PAN, SEQUENCE, 0x9F02, 0x9F03, 0x9F1A, *CARDS, CODE],
    REVERSAL: [0x9F1C, PAN, SEQUENCE, 0x9F36, 0x9F02, 0x5F2A, CODE],
}
OPTIONAL = (SEQUENCE, PIN_BLOCK)
SIZES = {
    0x9F1C: 8, SEQUENCE: 1, 0x5F24: 3, 0x9F02: 6, 0x9F03: 6, 0x9F1A: 2, 0x95: 5, 0x5F2A: 2, 0x9A: 3, 0x9C: 1, 0x9F37: 4, 0x82: 2,
    0x9F36: 2, 0x9F26: 8, PIN_BLOCK: 8, CODE: 2,
}
IN_DIGITS = (SEQUENCE, 0x9F02, 0x9F03, 0x5F2A, 0x9A, 0x5F24)
MOST_IAD = 32


class Unreadable(Exception):
    """Bytes that are no message of a terminal: what is wrong first."""


def is_fit(tag, value):
    """Whether a field has this value."""
    if tag == PAN:
        return account_number(value) is not None
    if tag == IAD:
        return len(value) <= MOST_IAD
    return len(value) == SIZES[tag] and (tag not in IN_DIGITS or has_digits(value))


def fields_in(kind, held, tags):
    """The values of these fields, which the objects are, in this order."""
    values, left = {}, list(held)
    for tag in tags:
        if left and left[0].tag == tag:
            values[tag] = left.pop(0).value
            if not is_fit(tag, values[tag]):
                raise Unreadable(f"value {tag_text(tag)}")
        elif tag not in OPTIONAL:
            raise Unreadable(f"missing {tag_text(tag)}")
    if left:
        raise Unreadable(f"coding {left[0].start}")
    return values


class Message:
    """A terminal's message; bytes that are none raise Unreadable."""

    def __init__(self, data):
        outer, fault = objects(data)
        held, inner_fault = objects(outer[0].value, outer[0].at) if outer else ([], None)
        faults = [place for place in (inner_fault, fault) if place is not None]
        if faults:
            raise Unreadable(f"coding {min(faults)}")
        if not outer or outer[0].tag not in ORDER or len(outer) > 1:
            wrong = outer[1:2] if outer and outer[0].tag in ORDER else outer[:1]
            raise Unreadable(f"coding {wrong[0].start if wrong else 0}")
        self.kind, self.data = outer[0].tag, data
        self.fields = fields_in(self.kind, held, ORDER[self.kind])
        self.pan = account_number(self.fields[PAN])
        self.sequence = self.fields.get(SEQUENCE, b"\0")[0]
        self.counter = self.fields[0x9F36]
        self.transaction = self.pan, self.sequence, self.counter

    def amount(self):
        """The amount."""
        return int(self.fields[0x9F02].hex())


def written(kind, fields):
    """The bytes of a message of this kind with these fields."""
    return spelled(kind, b"".join(spelled(tag, fields[tag]) for tag in ORDER[kind] if tag in fields))


# The style of ISO 8583.

CALLS = {b"0100": REQUEST, b"0220": PRESENTMENT, b"0400": REVERSAL}
REPLIES = {REQUEST: b"0110", PRESENTMENT: b"0230", REVERSAL: b"0410"}
BITMAPS = {
    REQUEST: ("7020000008808200", "7020000008809200"), PRESENTMENT: ("702000000a808200",), REVERSAL: ("502000000a808200",),
}
REPLY_BITMAP = bytes.fromhex("0000000002000200")
# Fields of a fixed length, and which of them are digits; the objects that they are.
LENGTHS, NUMERALS = {3: 6, 4: 12, 11: 6, 37: 12, 39: 2, 41: 8, 49: 3, 52: 8}, (3, 4, 11, 49)
OUTSIDE = (PAN, 0x9C, 0x9F02, 0x9F1C, CODE, 0x5F2A, PIN_BLOCK)


class Left:
    """The bytes of a message that are left, and where they begin."""

    def __init__(self, data):
        self.data, self.place = data, 0

    def take(self, size, start=None):
        """The next bytes, of a part that began here or before."""
        end = self.place + size
        if end > len(self.data):
            raise Unreadable(f"short {self.place if start is None else start}")
        taken, self.place = self.data[self.place : end], end
        return taken

    def digits(self, field, size):
        """The next characters, which have to be digits."""
        taken = self.take(size)
        if not taken.isdigit():
            raise Unreadable(f"field {field}")
        return taken

    def counted(self, field, size):
        """What stands behind its length of so many digits."""
        start = self.place
        return self.take(int(self.digits(field, size)), start)


def numbers_in(bitmap):
    """The fields that a bitmap names."""
    bits = int.from_bytes(bitmap)
    return [number for number in range(1, 65) if bits >> 64 - number & 1]


def front_of(left, numbers):
    """The fields before field 55."""
    fields = {}
    for number in numbers:
        if number == 2:
            fields[2] = left.counted(2, 2)
            if not fields[2].isdigit() or not 13 <= len(fields[2]) <= 19:
                raise Unreadable("field 2")
        elif number != 55:
            take = left.digits if number in NUMERALS else lambda _, size: left.take(size)
            fields[number] = take(number, LENGTHS[number])
        if number == 3 and fields[3][2:] != b"0000":
            raise Unreadable("field 3")
    return fields


def inner_of(kind, data):
    """The objects of field 55, each in its shortest form and in its place."""
    held, fault = objects(data)
    if fault is not None or b"".join(spelled(one.tag, one.value) for one in held) != data:
        raise Unreadable("field 55")
    try:
        tags = [tag for tag in ORDER[kind] if tag not in OUTSIDE]
        return fields_in(kind, held, tags)
    except Unreadable:
        raise Unreadable("field 55") from None


def in_one_object(data):
    """The kind of a call in the style of ISO 8583, and the same message as one object."""
    left = Left(data)
    kind = CALLS.get(left.take(4))
    if kind is None:
        raise Unreadable("type")
    bitmap = left.take(8)
    if bitmap.hex() not in BITMAPS[kind]:
        raise Unreadable("bitmap")
    front = front_of(left, numbers_in(bitmap))
    fields = inner_of(kind, left.counted(55, 4))
    audit = b"%06d" % int.from_bytes(fields[0x9F36])
    for number, wanted in ((11, audit), (37, b"000000" + audit)):
        if front[number] != wanted:
            raise Unreadable(f"field {number}")
    if left.place < len(data):
        raise Unreadable(f"rest {left.place}")
    fields |= {
        PAN: account_bytes(front[2].decode()), 0x9F02: bytes.fromhex(front[4].decode()), 0x9F1C: front[41],
        0x5F2A: bytes.fromhex("0" + front[49].decode()),
    }
    fields |= {0x9C: bytes.fromhex(front[3][:2].decode())} if 3 in front else {}
    fields |= {CODE: front[39]} if 39 in front else {}
    fields |= {PIN_BLOCK: front[52]} if 52 in front else {}
    return kind, written(kind, fields)


def reply_in_fields(kind, reply):
    """A reply in the style of ISO 8583, to a call of this kind."""
    code, *rest = objects(objects(reply)[0][0].value)[0]
    held = b"".join(spelled(one.tag, one.value) for one in rest)
    return REPLIES[kind] + REPLY_BITMAP + code.value + b"%04d" % len(held) + held
