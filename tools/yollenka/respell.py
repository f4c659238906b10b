"""A report in which the messages of the scenario's lanes are spelled in their dialects.

Written from docs/proof/formats.md, section 8, and docs/use/report.md, section 7, and not from the program: a message to the issuer
and its reply as one object each ("tlv") and in the style of ISO 8583:1987 ("iso"), each read in one spelling and written
in the other. The report may have each lane's messages in either: the type of the first byte tells them apart.
"""
import re

# What stands in the field 55 of a call, and what its object has, in their order; [..] may be absent.
SHARED = ["9f03", "9f1a", "95", "9a", "9f37", "82", "9f36", "9f26", "9f10"]
CHIP = {"0100": ["[5f34]", "5f24", *SHARED], "0220": ["[5f34]", *SHARED], "0400": ["[5f34]", "9f36"]}
FIELDS = {
    "0100": [2, 3, 4, 11, 37, 41, 49, 52, 55],
    "0220": [2, 3, 4, 11, 37, 39, 41, 49, 55],
    "0400": [2, 4, 11, 37, 39, 41, 49, 55],
}
OBJECT = {
    "0100": ["9f1c", "5a", "[5f34]", "5f24", "9f02", "9f03", "9f1a", "95", "5f2a", "9a", "9c", "9f37", "82", "9f36", "9f26",
             "9f10", "[df11]"],
    "0220": ["9f1c", "5a", "[5f34]", "9f02", "9f03", "9f1a", "95", "5f2a", "9a", "9c", "9f37", "82", "9f36", "9f26", "9f10",
             "8a"],
    "0400": ["9f1c", "5a", "[5f34]", "9f36", "9f02", "5f2a", "8a"],
}
TYPES = {"e1": "0100", "e3": "0220", "e4": "0400"}
REPLIES = {"0100": "0110", "0220": "0230", "0400": "0410"}
LENGTHS = {3: 6, 4: 12, 11: 6, 37: 12, 39: 2, 41: 8, 49: 3, 52: 8}
LINE = re.compile(r"(?:L(\d+) host|S(\d+)) ([<>]) ([0-9a-f]+)")


class Unreadable(Exception):
    """Bytes that are no message."""


def need(holds, text):
    """Raises where this doesn't hold."""
    if not holds:
        raise Unreadable(text)


# Data objects: tag, length, value.

def objects(data):
    """The objects of these bytes, one behind the other: tag in hexadecimal, value."""
    found, place = [], 0
    while place < len(data):
        size = 2 if data[place] & 0x1F == 0x1F else 1
        tag, place = data[place : place + size].hex(), place + size
        length, place = data[place], place + 1
        if length > 0x80:
            count = length - 0x80
            length, place = int.from_bytes(data[place : place + count], "big"), place + count
        need(place + length <= len(data), "an object is cut off")
        found.append((tag, data[place : place + length]))
        place += length
    return found


def length_of(count):
    """A length in its shortest form."""
    if count < 0x80:
        return bytes([count])
    return bytes([0x81, count]) if count < 0x100 else bytes([0x82]) + count.to_bytes(2, "big")


def written(pairs):
    """Objects, one behind the other."""
    return b"".join(bytes.fromhex(tag) + length_of(len(value)) + value for tag, value in pairs)


def named(tags, pairs):
    """The values of these tags, which the objects have to be, in this order and no others."""
    values, left = {}, list(pairs)
    for tag in tags:
        name = tag.strip("[]")
        if left and left[0][0] == name:
            values[name] = left.pop(0)[1]
        else:
            need(tag.startswith("["), f"{name} is missing")
    need(not left, "an object too many")
    return values


def chosen(tags, values):
    """The objects of these tags, those that are there."""
    return [(name, values[name]) for name in (tag.strip("[]") for tag in tags) if name in values]


# The style of ISO 8583.

def digits(value):
    """The half bytes of a value as characters; F on the right is no digit."""
    return value.hex().rstrip("f").encode()


def counter(value):
    """A counter of two bytes as six digits."""
    return b"%06d" % int.from_bytes(value, "big")


def bitmap(numbers):
    """Eight bytes whose bit n says that field n follows."""
    return sum(1 << (64 - number) for number in numbers).to_bytes(8, "big")


def in_fields(kind, fields):
    """A message of a type: its fields, by number, in rising order."""
    return kind.encode() + bitmap(fields) + b"".join(fields[number] for number in sorted(fields))


def call_to_iso(message):
    """The type and the second spelling of a message that is one object."""
    (tag, content), *more = objects(message)
    need(tag in TYPES and not more, "no message of a terminal")
    kind = TYPES[tag]
    values = named(OBJECT[kind], objects(content))
    pan, held = digits(values["5a"]), written(chosen(CHIP[kind], values))
    fields = {
        2: b"%02d" % len(pan) + pan,
        3: digits_of_type(values.get("9c", b"\0")) + b"0000",
        4: values["9f02"].hex().encode(),
        11: counter(values["9f36"]),
        37: b"000000" + counter(values["9f36"]),
        39: values.get("8a", b""),
        41: values["9f1c"],
        49: values["5f2a"].hex().encode()[1:],
        52: values.get("df11", b""),
        55: b"%04d" % len(held) + held,
    }
    return kind, in_fields(kind, {number: fields[number] for number in FIELDS[kind] if fields[number]})


def digits_of_type(value):
    """The two digits of a transaction type."""
    return value.hex().encode()


def reply_to_iso(kind, reply):
    """The second spelling of a reply that is one object, to a call of this type."""
    (tag, content), *more = objects(reply)
    need(tag == "e2" and not more, "no reply")
    (code, value), *rest = objects(content)
    need(code == "8a", "no response code")
    held = written(rest)
    return in_fields(REPLIES[kind], {39: value, 55: b"%04d" % len(held) + held})


def fields_of(message):
    """The type of a message in this style, and its fields by number: those of 2 and 55 without their lengths."""
    kind, bits, place = message[:4].decode(), int.from_bytes(message[4:12], "big"), 12
    fields = {}
    for number in (n for n in range(1, 65) if bits >> (64 - n) & 1):
        size = {2: 2, 55: 4}.get(number, 0)
        need(size or number in LENGTHS, f"field {number}")
        length = int(message[place : place + size]) if size else LENGTHS[number]
        fields[number] = message[place + size : place + size + length]
        place += size + length
    need(place == len(message), "another length")
    return kind, fields


def call_to_tlv(message):
    """The type of a message in this style, and the one object that it is."""
    kind, fields = fields_of(message)
    need(kind in FIELDS, "no call")
    values = named(CHIP[kind], objects(fields[55]))
    pan = fields[2].decode()
    values |= {
        "5a": bytes.fromhex(pan + "f" * (len(pan) % 2)),
        "9f02": bytes.fromhex(fields[4].decode()),
        "9f1c": fields[41],
        "5f2a": bytes.fromhex("0" + fields[49].decode()),
    }
    values |= {"9c": bytes.fromhex(fields[3][:2].decode())} if 3 in fields else {}
    values |= {"8a": fields[39]} if 39 in fields else {}
    values |= {"df11": fields[52]} if 52 in fields else {}
    tag = next(tag for tag, its in TYPES.items() if its == kind)
    return kind, written([(tag, written(chosen(OBJECT[kind], values)))])


def reply_to_tlv(kind, reply):
    """The one object that a reply in this style is."""
    its, fields = fields_of(reply)
    need(its == REPLIES[kind], "a reply to another call")
    return written([("e2", written([("8a", fields[39]), *objects(fields[55])]))])


# Reports.

def is_iso(message):
    """Whether a message or a reply is in the style of ISO 8583: it begins with the digit 0."""
    return message[0] == 0x30


def in_dialect(iso, kind, message):
    """The type of a call, and the message in this dialect; where a type is given it is the reply to such a call."""
    if kind is not None:
        if is_iso(message) == iso:
            return kind, message
        return kind, reply_to_iso(kind, message) if iso else reply_to_tlv(kind, message)
    kind, other = call_to_tlv(message) if is_iso(message) else call_to_iso(message)
    return kind, message if is_iso(message) == iso else other


def respelled(report, dialects):
    """The lines of a report with each lane's messages in its dialect; and how many of them are messages or replies."""
    kinds, lines, count = {}, [], 0
    for line in report.splitlines():
        if found := LINE.fullmatch(line):
            lane = int(found[1] or found[2])
            kinds[lane], message = in_dialect(
                dialects[lane] == "iso", kinds[lane] if found[3] == "<" else None, bytes.fromhex(found[4]))
            line = f"{line[: -len(found[4])]}{message.hex()}"
            count += 1
        lines.append(line)
    return lines, count


def dialects_of(scenario):
    """The dialect of each lane."""
    return [lane.get("dialect", "tlv") for lane in scenario["lane"]]
