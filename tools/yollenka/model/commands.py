"""Random commands for a card, from what it is at: those of a terminal, and such as no terminal sends."""
from .card import FIELDS, SCRIPT_DATA
from .ciphers import block_of, code_of, encipher_two, response_one, response_two, session_key
from .draw import LARGEST
from .objects import entries, spelled, total
from .selection import DIRECTORY
from .terminal import AAC, ARQC, TC

# What leads on from each phase.
NEXT = {
    "idle": ["select"], "directory": ["select", "read"], "selected": ["initiate"],
    "started": ["generate", "generate", "generate", "generate", "verify", "read", "get_data"],
    "online": ["authenticate", "authenticate", "authenticate", "script", "script", "generate", "generate"],
    "closed": ["select", "select", "select", "read", "get_data"],
    "done": ["select", "select", "select", "script", "script", "read"],
}
ALL = ["select", "read", "initiate", "verify", "get_data", "generate", "authenticate", "script"]
LONGEST = 261
CLASSES = [0x00, 0x80, 0x84, 0x04, 0x0C, 0x90, 0x01, 0x8C, 0xFF]
INSTRUCTIONS = [0xA4, 0xB2, 0xA8, 0x20, 0xCA, 0xAE, 0x82, 0x1E, 0x18, 0x16, 0x24, 0xDA, 0x00, 0x84, 0xC0, 0xB0, 0xFF]
CODES = [b"00", b"00", b"Y3", b"Y3", b"05", b"Y1", b"\0\0"]
STATUSES = [0x80, 0x80, 0x00, 0xFF, 0x7F]
UPDATES, BLOCKING = [0x80, 0x80, 0x80, 0x00, 0x90, 0x10, 0x0F], [0xC0, 0xA0, 0x40, 0x20, 0xFF]
BLOCKERS = ["841E0000", "84160000"]
PINS = ["1234", "9876", "123456789012", "00000"]
# Blocks of a PIN that is none: kind, number of digits, a digit or a filler that is another.
NO_PINS = ["141234ffffffffff", "231234ffffffffff", "2d1234567890123f", "24123affffffffff", "241234fffffffff0", "2412340fffffffff",
           "0412345fffffffff", "251234ffffffffff", "f" * 16, "0" * 16]


class Commands:
    """Draws commands for a card of the model; in calm draws most of them lead on."""

    def __init__(self, draw, card):
        self.draw, self.card = draw, card
        self.one_of, self.below, self.now, self.octets = draw.one_of, draw.below, draw.now, draw.octets

    def command(self):
        """A command's bytes."""
        name = self.one_of(self.next_names() if self.now(9 if self.draw.calm else 6, 10) else ALL)
        header, data = getattr(self, name)()
        if self.now(1, 12):
            header = self.turned(header)
        if self.now(1, 16):
            data = self.one_of([data[:-1], data + b"\0", b"", self.octets(self.below(20)), self.octets(255), self.flipped(data)])
        return self.coded(header, data[:255], self.expected(name, header))

    def next_names(self):
        """The commands that lead on: not those that this application can't carry out."""
        card = self.card
        if card.phase == "selected" and (card.app["blocked"] or card.app["counter"] == 0xFFFF):
            return ["select", "read", "get_data"]
        names = NEXT[card.phase]
        return names if card.its is None or card.its["aip"][0] & 0x04 else [name for name in names if name != "authenticate"]

    def leading(self):
        """A command that leads on, as a terminal sends it."""
        header, data = getattr(self, self.next_names()[0])()
        return self.coded(header, data, b"\0", spoilt=False)

    def rare(self, values):
        """What blocks an application or the card, once in a while, and seldom in a calm draw; else nothing."""
        return values if self.now(1, 20 if self.draw.calm else 5) else []

    # The form of a command.

    def expected(self, name, header):
        """The expected length: none, all, as much as comes, less or more."""
        exact = self.one_of([2, 5, 19, 31])
        if name == "read" and self.card.phase != "idle" and header[2]:
            exact = len(self.card.read(*header[2:], b"")[0]) & 0xFF
        return self.one_of([b"", b"", b"\0", b"\0", bytes([exact]), bytes([exact - 1 & 0xFF]), self.octets(1), b"\1", b"\xff"])

    def coded(self, header, data, expected, spoilt=True):
        """The bytes of a command; some are coded wrongly."""
        length = bytes([len(data)]) if data else b""
        change = self.below(120 if self.draw.calm else 60) if spoilt else 60
        if change < 6:
            length = self.one_of([b"\0", b"\xff", self.octets(1), bytes([len(data) + 1 & 0xFF]), bytes([len(data) - 1 & 0xFF]),
                                  b"\0" + len(data).to_bytes(2), b""])
        elif change < 8:
            expected += self.one_of([b"\0", b"\0\0", self.octets(1), self.octets(9)])
        elif change == 8:
            data = data[: self.below(len(data) + 1)]
        coded = header + length + data + expected
        if change == 9:
            coded = coded[: self.one_of([1, 2, 3, 4, 5, 6])]
        elif change == 10:
            coded = coded.ljust(self.one_of([LONGEST, LONGEST, LONGEST + 1]), b"\0")
        return coded

    def turned(self, header):
        """A header of which a byte is another."""
        at = self.below(4)
        other = self.one_of([self.one_of([CLASSES, INSTRUCTIONS, [0, 1, 2, 4, 0x80], [0, 1, 2, 4, 0x80]][at]), self.below(256)])
        return header[:at] + bytes([other]) + header[at + 1 :]

    def flipped(self, data):
        """Data with a bit turned."""
        at = self.below(len(data) or 1)
        return data[:at] + bytes([data[at] ^ 1 << self.below(8)]) + data[at + 1 :] if data else b""

    # The commands.

    def select(self):
        """SELECT: by a whole name, by its front, and by names of 1 to 17 bytes that no application has."""
        name = self.one_of(self.card.image["app"])["name"]
        names = [*[name] * 6, name[: self.one_of([1, 2, 3, 4, 5, 7])], name + self.octets(1), DIRECTORY,
                 self.octets(self.one_of([1, 2, 3, 4, 5, 15, 16, 17])), name.ljust(self.one_of([16, 17]), b"\0"), DIRECTORY[:5]]
        if self.draw.calm and self.now(3, 4):
            return bytes.fromhex("00A40400"), name
        return bytes([0, 0xA4, 4, self.one_of([0] * 10 + [2] * 4 + [1, 3, 0x0C])]), self.one_of(names)

    def read(self):
        """READ RECORD, of the card's files and of others."""
        card = self.card
        places = [(one["sfi"], one["number"]) for app in card.image["app"] for one in app["record"]]
        places += [(app["log_sfi"], self.below(12)) for app in card.image["app"] if app["log"]]
        places += [(card.image["pse"] or 1, self.below(6)), (self.below(32), self.below(256))]
        file, number = self.one_of(places)
        return bytes([0, 0xB2, number, file << 3 | self.one_of([4] * 20 + [0, 1, 5, 7])]), b""

    def initiate(self):
        """GET PROCESSING OPTIONS: one object 83, with bytes 00 around it, in another length or tag, or beside others."""
        size = total(entries(self.card.its["pdol"] or b"")) if self.card.its else 0
        value = self.octets(size)
        one, longer = spelled(0x83, value), b"\x83\x82" + size.to_bytes(2) + value
        others = [b"\0" + one, one + b"\0\0", b"\0\0" + one + b"\0", longer, b"\0" + longer, one + one,
                  spelled(0x83, value + b"\0"), spelled(0x83, value[1:]), spelled(0x80, value), value, one[:-1], one + b"\x80", b"\x83\x80" + value, b"", b"\0",
                  one + b"\x50\x02\x01", one + spelled(0x50, b"")]
        return bytes.fromhex("80A80000"), one if self.now(3, 4) else self.one_of(others)

    def verify(self):
        """VERIFY."""
        pin = self.card.app["pin"] if self.card.app else bytes(8)
        blocks = [pin, pin, block_of(2, self.one_of(PINS)), bytes.fromhex(self.one_of(NO_PINS)), self.flipped(pin),
                  self.octets(8), pin[:-1], pin + b"\xff"]
        return bytes.fromhex("00200080"), self.one_of(blocks)

    def get_data(self):
        """GET DATA."""
        tag = self.one_of(["9F36", "9F13", "9F17", "9F4F", "9F4F", "9F37", "0000", self.octets(2).hex()])
        return bytes.fromhex("80CA" + tag), b""

    def amount(self):
        """Twelve half bytes; also such as are no digits."""
        app = self.card.app
        near = [max(0, limit - sum_ + self.one_of([-1, 0, 0, 1])) for limit, sum_ in (
            (app["sum_limit"], app["sum"]), (app["limit_two"], app["sum_two"]))]
        digits = f"{self.one_of([0, 1, 100, 2500, LARGEST, *near]) % (LARGEST + 1):012}"
        if self.now(1, 4):
            at = self.below(12)
            digits = digits[:at] + self.one_of("abcdef") + digits[at + 1 :]
        return self.octets(6) if self.now(1, 20) else bytes.fromhex(digits)

    def field(self, tag, length):
        """The data of an entry of an object list."""
        its = self.card.its
        if (tag, length) == (0x9F02, 6):
            return self.amount()
        if (tag, length) == (0x5F2A, 2):
            own = [its["currency"], its["currency_two"] or its["currency"]]
            return self.one_of([*own * 4, b"\x09\x78", self.octets(2)])
        if (tag, length) == (0x8A, 2):
            return self.one_of([*CODES, self.octets(2)])
        return self.octets(length) if self.now(1, 2) or tag not in FIELDS else bytes(length)

    def generate(self):
        """GENERATE AC."""
        kind = self.one_of([ARQC, ARQC, ARQC, TC, TC, AAC] if self.card.phase == "started" else [TC, TC, TC, AAC, ARQC, ARQC])
        kind = self.one_of([0x41, 0xC0, 0x10, 0x90]) if self.now(1, 30) else kind
        if not self.card.app:
            return bytes([0x80, 0xAE, kind, 0]), self.octets(29)
        list_ = entries(self.card.its["cdol2" if self.card.phase == "online" else "cdol1"])
        return bytes([0x80, 0xAE, kind, 0]), b"".join(self.field(*entry) for entry in list_)

    def is_online(self):
        """Whether the card has given a first request in this session."""
        return self.card.phase in ("online", "done")

    def authenticate(self):
        """EXTERNAL AUTHENTICATE, by both methods, and wrong."""
        header = bytes.fromhex("00820000")
        if not self.is_online():
            return header, self.octets(self.one_of([8, 10, 12]))
        key, request = self.card.session_key(), self.card.request
        code = self.one_of(CODES)
        further = self.octets(self.one_of([0, 0, 0, 1, 2, 3, 7, 8]))
        behind = bytes([self.one_of(STATUSES), self.one_of(self.rare(BLOCKING) or UPDATES), 0, 0]) + further
        right = self.one_of([response_one(key, request, code) + code, response_two(key, request, behind) + behind])
        others = [self.flipped(right), right[:8], right + b"\0", right[:7], self.octets(self.one_of([8, 9, 10, 16, 17])),
                  response_two(key, request, code * 3) + code * 3]
        return header, right if self.now(3, 5) else self.one_of(others)

    def script_data(self, name, size):
        """The data of a script command before its code."""
        if name == "84240002":
            block = block_of(2, self.one_of(PINS)) if self.now(2, 3) else bytes.fromhex(self.one_of(NO_PINS))
            return encipher_two(session_key(self.card.its["enc_key"], self.card.request), block)
        if name == "04DADF02":
            digits = f"{self.one_of([0, 2500, 5000, 20000, LARGEST]):012}"
            at = self.one_of([0, 0, 1, 6, 11])
            digits = digits[:at] + self.one_of("abcdef") + digits[at + 1 :] if self.now(2, 5) else digits
            return bytes.fromhex(digits)
        return self.octets(size)

    def script(self):
        """A script command; also with a code that isn't right, or over another length."""
        name = self.one_of(self.rare(BLOCKERS) or [name for name in SCRIPT_DATA if name not in BLOCKERS])
        header = bytes.fromhex(name)
        if not self.is_online():
            return header, self.octets(SCRIPT_DATA[name] + 8)
        data = self.script_data(name, SCRIPT_DATA[name])
        if self.now(1, 20):
            data = self.one_of([data[:-1], data + b"\0"])
        code = self.code(header, data)
        other = self.code(header, data, 1)
        others = [self.flipped(code), code[:4], code[:7], code + b"\0", other, b"", bytes(8)]
        return header, data + (code if self.now(5, 6) else self.one_of(others))

    def endless(self):
        """A script command with its code that the card may carry out as often as it likes."""
        header, data = bytes.fromhex("04DADF01"), self.octets(1)
        return self.coded(header, data + self.code(header, data), b"", spoilt=False)

    def code(self, header, data, ahead=0):
        """The code of a script command, for the card's counter or one that is so many ahead."""
        counter, request = self.card.app["counter"] + ahead & 0xFFFF, self.card.request
        return code_of(session_key(self.card.its["mac_key"], request), header + counter.to_bytes(2) + request + data)
