"""What a judge has to know of EMV: names of commands, objects and bits, and what a card has said of itself."""
from dataclasses import dataclass, field

from yollenka.model.objects import Fault as NoList
from yollenka.model.objects import DICTIONARY, entries, first, fitted, is_constructed, objects, only, tag_text, total
from yollenka.words import TAGS, TSI, TVR

GENERATE = b"\x80\xae"
DIRECTORY = b"1PAY.SYS.DDF01"
KINDS = {0x00: "AAC", 0x40: "TC", 0x80: "ARQC", 0xC0: "of a reserved kind"}
NAMES = {
    "00a4": "SELECT", "00b2": "READ RECORD", "80a8": "GET PROCESSING OPTIONS", "0020": "VERIFY", "80ca": "GET DATA",
    "80ae": "GENERATE AC", "0082": "EXTERNAL AUTHENTICATE", "0084": "GET CHALLENGE", "0088": "INTERNAL AUTHENTICATE",
    "841e": "APPLICATION BLOCK", "8418": "APPLICATION UNBLOCK", "8416": "CARD BLOCK", "8424": "PIN CHANGE/UNBLOCK",
    "04da": "PUT DATA", "00c0": "GET RESPONSE",
}
BITS = {0x95: TVR, 0x9B: TSI}
# What a terminal tells of itself and its purchase, with the number of bytes.
SIZES = {0x9F35: 1, 0x9F1A: 2, 0x9F33: 3, 0x9F1C: 8, 0x9F02: 6, 0x9F03: 6, 0x5F2A: 2, 0x9A: 3, 0x9C: 1, 0x9F21: 3, 0x9F37: 4}


def data_of(command):
    """The data of a command; none where its length isn't one."""
    size = command[4] if len(command) > 5 else 0
    return command[5 : 5 + size]


def command_name(command):
    """A command in the words of the Books, with what it is about."""
    if len(command) < 4:
        return "no command"
    name, p1, p2 = NAMES.get(command[:2].hex()), command[2], command[3]
    if name is None:
        return f"command {command[:4].hex()}"
    if name == "SELECT":
        data = data_of(command)
        text = data.decode() if data == DIRECTORY else data.hex().upper()
        return f"SELECT {text}{', next occurrence' if p2 == 2 else ''}"
    if name == "READ RECORD":
        return f"READ RECORD {p1} of file {p2 >> 3}"
    if name == "GET DATA":
        return f"GET DATA {object_name(int.from_bytes(command[2:4]))}"
    if name == "GENERATE AC":
        return f"GENERATE AC {KINDS[p1 & 0xC0]}{' with CDA' if p1 & 0x10 else ''}"
    return name


def ask_name(side, bytes_):
    """A command or a message in words."""
    return command_name(bytes_) if side == "card" else "the message to the host"


def object_name(tag):
    """A tag with the object's name."""
    text = tag_text(tag)
    return f"{text.upper()} {TAGS[text][0]}" if text in TAGS else text.upper()


def bit_texts(tag, sent, wanted):
    """A line for each bit of the verification results or the status information in which two values differ."""
    for byte, (one, other) in enumerate(zip(sent, wanted), 1):
        for bit in range(8, 0, -1):
            if (one ^ other) >> (bit - 1) & 1:
                name = BITS[tag].get(byte * 10 + bit, "reserved")
                yield f"{byte}.{bit} {name}: {'set, and should not be' if one >> (bit - 1) & 1 else 'not set, and should be'}"


@dataclass(frozen=True)
class Field:
    """An entry of an object list with its value in a command's data, and the place of its first byte in the data."""

    tag: int
    at: int
    value: bytes


def fields(list_, data):
    """The entries of an object list with their values in the data; None where the list can't be read or has another length."""
    try:
        wanted = entries(list_)
    except NoList:
        return None
    if total(wanted) != len(data):
        return None
    found, at = [], 0
    for tag, length in wanted:
        found.append(Field(tag, at, data[at : at + length]))
        at += length
    return found


def primitives(data):
    """The objects at any depth that hold no others, up to the first fault."""
    for one in objects(data)[0]:
        if is_constructed(one.tag):
            yield from primitives(one.value)
        else:
            yield one


def information(answer):
    """The objects directly in A5 and the name 84 of file control information; an empty list and None where there is none."""
    outer = only((answer or b"")[:-2], 0x6F)
    inner = objects(outer.value)[0] if outer else []
    return objects(first(inner, 0xA5) or b"")[0], first(inner, 0x84)


@dataclass
class Said:
    """What a card has said in a log: `list_` its list 9F38, `profile` and `locator`, `held` the first value of each object in its
    records, `found` each name that it gave with its priority indicator (0 for none). And what the terminal told there: `options`
    the data of GET PROCESSING OPTIONS, `generated` the data and P1 of each GENERATE AC, `message` the objects of the first request
    to the host in this project's form. `has_begun` tells that GET PROCESSING OPTIONS was answered."""

    list_: bytes = b""
    options: bytes = b""
    profile: bytes = b"\0\0"
    locator: bytes = b""
    held: dict = field(default_factory=dict)
    found: dict = field(default_factory=dict)
    generated: list = field(default_factory=list)
    message: list = field(default_factory=list)
    has_begun: bool = False

    def first_results(self):
        """The verification results in the first GENERATE AC, or None."""
        told = fields(self.held.get(0x8C, b""), self.generated[0][0]) if self.generated else None
        return next((one.value for one in told or () if one.tag == 0x95 and len(one.value) == 5), None)

    def told(self):
        """What the terminal told in its first lists and its message: each tag with its first value that is whole and not zeros,
        else with its first value, cut or filled up to its size."""
        lists = [(self.list_, self.options)]
        lists += [(self.held.get(0x8C, b""), self.generated[0][0])] if self.generated else []
        values = [one for list_, data in lists for one in fields(list_, data) or ()] + self.message
        found = {}
        for tag, size in SIZES.items():
            own = [one.value for one in values if one.tag == tag and one.value]
            best = next((value for value in own if len(value) >= size and any(value)), own[0] if own else None)
            if best is not None:
                found[tag] = fitted(best, size, DICTIONARY[tag][0])
        return found


def said(exchanges):
    """What the card says in these exchanges."""
    told = Said()
    for one in exchanges:
        if one.side == "card" and len(one.sent) >= 4:
            listen(told, one.sent, one.got or b"")
        elif one.side == "host" and not told.message:
            told.message = objects(first(objects(one.sent)[0], 0xE1) or b"")[0]
    return told


def listen(told, command, answer):
    """Takes what an answer tells."""
    name, body = NAMES.get(command[:2].hex()), answer[:-2]
    if name == "SELECT":
        inner, own = information(answer)
        if own is not None:
            told.list_ = first(inner, 0x9F38) or b""
            indicator = first(inner, 0x87) or b"\0"
            told.found[own] = indicator[0] if indicator else 0
    elif name == "GET PROCESSING OPTIONS":
        one = objects(data_of(command))[0]
        told.options = one[0].value if one and one[0].tag == 0x83 else b""
        hear_profile(told, body)
    elif name == "READ RECORD" and told.has_begun:
        for one in primitives(body):
            told.held.setdefault(one.tag, one.value)
    elif name == "READ RECORD":
        told.found.update(in_directory(body))
    elif name == "GENERATE AC":
        told.generated.append((data_of(command), command[2]))


def in_directory(record):
    """The names in a record of a directory, each with its priority indicator."""
    entries_ = (objects(one.value)[0] for one in objects(first(objects(record)[0], 0x70) or b"")[0] if one.tag == 0x61)
    return {first(inner, 0x4F) or b"": (first(inner, 0x87) or b"\0")[0] for inner in entries_}


def hear_profile(told, body):
    """Takes the profile and the locator of an answer to GET PROCESSING OPTIONS, in either format."""
    outer = only(body, 0x80, 0x77)
    if outer is None:
        return
    inner = objects(outer.value)[0] if outer.tag == 0x77 else []
    told.has_begun = True
    told.profile = outer.value[:2] if outer.tag == 0x80 else first(inner, 0x82) or b"\0\0"
    told.locator = outer.value[2:] if outer.tag == 0x80 else first(inner, 0x94) or b""


def has_bit(data, place):
    """Whether a bit is set: byte times ten plus bit, as 18 for bit 8 of byte 1."""
    byte, bit = divmod(place, 10)
    return len(data) >= byte and bool(data[byte - 1] >> (bit - 1) & 1)
