"""Messages to a host: one object (docs/use/report.md, section 7), or in the style of ISO 8583 (docs/proof/formats.md, section 8)."""

PAID = ["9f02", "9f03", "9f1a", "95", "5f2a", "9a", "9c", "9f37", "82", "9f36", "9f26", "9f10"]
FIELDS = {
    "e1": ["9f1c", "5a", "[5f34]", "5f24", *PAID, "[df11]"],
    "e3": ["9f1c", "5a", "[5f34]", *PAID, "8a"],
    "e4": ["9f1c", "5a", "[5f34]", "9f36", "9f02", "5f2a", "8a"],
}
SIZES = {
    "9f1c": 8, "5f34": 1, "5f24": 3, "9f02": 6, "9f03": 6, "9f1a": 2, "95": 5, "5f2a": 2, "9a": 3, "9c": 1, "9f37": 4, "82": 2,
    "9f36": 2, "9f26": 8, "df11": 8, "8a": 2,
}
IN_DIGITS = ("5f34", "5f24", "9f02", "9f03", "5f2a", "9a")


class NoMessage(Exception):
    """Bytes that are no message."""


def need(holds):
    """Raises where this doesn't hold."""
    if not holds:
        raise NoMessage


# Objects.

def written(tag, value):
    """An object, its length in the shortest form."""
    size = len(value)
    length = bytes([size]) if size < 0x80 else b"\x81" + bytes([size]) if size < 0x100 else b"\x82" + size.to_bytes(2)
    return bytes.fromhex(tag) + length + value


def head(data, place):
    """The tag at a place, and where its value begins and ends."""
    end = place + 1
    if data[place] & 0x1F == 0x1F:
        end += 2 if data[place + 1] & 0x80 else 1
        need(end < place + 3 or not data[place + 2] & 0x80)
    more = {0x81: 1, 0x82: 2}.get(data[end], 0)
    need(more or data[end] < 0x80)
    begin = end + 1 + more
    size = int.from_bytes(data[end + 1 : begin]) if more else data[end]
    need(begin + size <= len(data))
    return data[place:end].hex(), begin, begin + size


def objects(data):
    """The objects of these bytes; bytes 00 between them are passed over."""
    found, place = [], 0
    while place < len(data):
        if data[place] == 0:
            place += 1
            continue
        try:
            tag, begin, place = head(data, place)
        except IndexError:
            raise NoMessage from None
        found.append((tag, data[begin:place]))
    return found


def digits_of(value):
    """The account number of a field 5A."""
    digits = value.hex().rstrip("f")
    need(digits.isdecimal() and 13 <= len(digits) <= 19)
    return digits


def check(tag, value):
    """Refuses a field that isn't of its form."""
    if tag == "5a":
        digits_of(value)
    elif tag == "9f10":
        need(len(value) <= 32)
    else:
        need(len(value) == SIZES[tag] and (tag not in IN_DIGITS or value.hex().isdecimal()))


def fields_in(tags, held):
    """The fields that objects are, in this order and no others; those in brackets may be absent."""
    found, left = {}, list(held)
    for tag in tags:
        name = tag.strip("[]")
        if left and left[0][0] == name:
            found[name] = left.pop(0)[1]
            check(name, found[name])
        else:
            need(tag != name)
    need(not left)
    return found


def from_object(data):
    """The kind of a message that is one object, and its fields."""
    outer = objects(data)
    need(len(outer) == 1 and outer[0][0] in FIELDS)
    kind, content = outer[0]
    return kind, fields_in(FIELDS[kind], objects(content))


# The style of ISO 8583.

TYPES = {b"0100": "e1", b"0220": "e3", b"0400": "e4"}
REPLIES = {"e1": b"0110", "e3": b"0230", "e4": b"0410"}
BITMAPS = {
    "7020000008808200": ("e1", (2, 3, 4, 11, 37, 41, 49, 55)), "7020000008809200": ("e1", (2, 3, 4, 11, 37, 41, 49, 52, 55)),
    "702000000a808200": ("e3", (2, 3, 4, 11, 37, 39, 41, 49, 55)), "502000000a808200": ("e4", (2, 4, 11, 37, 39, 41, 49, 55)),
}
LENGTHS = {3: 6, 4: 12, 11: 6, 37: 12, 39: 2, 41: 8, 49: 3, 52: 8}
COUNTED = {2: 2, 55: 4}
OUTSIDE = ("5a", "9c", "9f02", "9f1c", "8a", "5f2a", "df11")


def split(data):
    """The kind of a message, and its fields by their numbers."""
    kind, numbers = BITMAPS.get(data[4:12].hex(), (None, ()))
    need(kind is not None and TYPES.get(data[:4]) == kind)
    found, place = {}, 12
    for number in numbers:
        size = COUNTED.get(number, 0)
        count = data[place : place + size]
        need(len(count) == size and (not size or count.isdigit()))
        begin, place = place + size, place + size + (int(count) if size else LENGTHS[number])
        found[number] = data[begin:place]
        need(place <= len(data) and (number not in (2, 3, 4, 11, 49) or found[number].isdigit()))
    need(place == len(data))
    return kind, found


def from_iso(data):
    """The kind of a message in this style, its fields, and the one object that it is."""
    kind, iso = split(data)
    inner = objects(iso[55])
    need(b"".join(written(*one) for one in inner) == iso[55])
    fields = fields_in([tag for tag in FIELDS[kind] if tag.strip("[]") not in OUTSIDE], inner)
    audit = b"%06d" % int.from_bytes(fields["9f36"])
    need(13 <= len(iso[2]) <= 19 and iso[11] == audit and iso[37] == b"000000" + audit and iso.get(3, b"000000")[2:] == b"0000")
    pan = iso[2].decode()
    fields |= {
        "5a": bytes.fromhex(pan + "f" * (len(pan) % 2)), "9f02": bytes.fromhex(iso[4].decode()), "9f1c": iso[41],
        "5f2a": bytes.fromhex("0" + iso[49].decode()),
    }
    others = ("9c", bytes.fromhex(iso.get(3, b"")[:2].decode())), ("8a", iso.get(39)), ("df11", iso.get(52))
    fields |= {tag: value for tag, value in others if value}
    whole = b"".join(written(tag, fields[tag]) for tag in (one.strip("[]") for one in FIELDS[kind]) if tag in fields)
    return kind, fields, written(kind, whole)


def reply_object(code, inner):
    """A reply that is one object."""
    return written("e2", written("8a", code) + inner)


def reply_iso(kind, code, inner):
    """A reply in this style."""
    return REPLIES[kind] + bytes.fromhex("0000000002000200") + code + b"%04d" % len(inner) + inner
