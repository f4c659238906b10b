"""Random scenarios at the corners of the rules, from a number: the same number draws the same one.

Half of them are calm: their cards and terminals mostly let a purchase come to its end.
"""
import string
from random import Random

from .document import IN_FIRST_LIST
from .objects import account_bytes, spelled, tag_bytes, total
from .selection import DIRECTORY

ISSUER = {
    "ac_key": "0123456789ABCDEFFEDCBA9876543210", "mac_key": "23456789ABCDEF01DCBA9876543210FE",
    "enc_key": "456789ABCDEF0123BA9876543210FEDC", "pin_key": "6789ABCDEF0123459876543210FEDCBA",
}
# What object lists may have besides what they must: known and unknown tags, in other lengths too.
FURTHER = [
    (int(tag, 16), int(length))
    for row in (
        "9F35 1 2", "9F33 3 2", "9B 2", "9F34 3 5", "5A 10 5 12", "5F34 1 2", "9F1C 8 4 10", "9F06 7 16", "9F09 2", "8A 2 1",
        "91 10 8 16", "98 20", "9F21 3", "5F20 26 2", "50 6", "9F4A 1", "70 2", "82 2", "94 4 9", "0 1", "9F02 5 8 6", "95 3 6 5",
        "9F38 3", "5F24 3", "5F25 3 5", "5F28 2", "9F42 2", "9F07 2", "57 19", "9F1F 4", "5F30 2 3", "DF11 8", "9F36 2", "9F13 2",
        "9F17 1", "9F26 8", "9F27 1", "9F10 7", "BF0C 2", "9F6E 4", "9F8101 2", "8E 10", "9F37 4 8", "9A 2 4", "5F2A 3 2", "9C 2",
        "9F1A 1", "9F0D 5", "8C 4",
    )
    for tag, *lengths in (row.split(),)
    for length in lengths
]
# Objects that a card may have and that no rule asks for; some are the terminal's.
IDLE = {
    0x5F20: b"DOE/JANE", 0x5F30: b"\2\1", 0x9F1F: b"1234", 0x57: b"\x47\x61\xd2", 0x9F4A: b"\x82", 0x9F02: bytes(6),
    0x95: b"\xff" * 5, 0x8A: b"XX", 0x9F6E: b"abc", 0x42: b"", 0x9F8101: b"q", 0x9F37: b"zzzz", 0x91: bytes(10), 0x50: b"LABEL",
    0x9F36: b"\0\1", 0x9F10: b"\6", 0x5F2A: b"\x09\x78", 0x9F13: b"\0\0",
}
CODES = ["0010000000", "7068BC9800", "7068BCF800", "FFFFFFFFFF", "2000000000", "0000FC0000", "0000000080"]
METHODS = [0x00, 0x01, 0x01, 0x01, 0x02, 0x02, 0x03, 0x03, 0x04, 0x05, 0x1E, 0x1F, 0x1F, 0x1F, 0x06, 0x20, 0x3F]
CONDITIONS = [0, 0, 0, 0, 1, 2, 3, 3, 4, 5, 6, 7, 8, 9, 10, 0x80, 0xFF]
PROFILES = [0x1C, 0x1C, 0x18, 0x14, 0x10, 0x0C, 0x08, 0x04, 0x00, 0x0D, 0x5C, 0xE3, 0xFF]
COMMANDS = [
    "block", "unblock", "unblock", "card_block", "pin_unblock", "pin 9876", "pin 1234", "pin 123456789012", "count 0", "count 9",
    "count 255", "amount 0", "amount 5000", "amount 999999999999",
]
LARGEST = 999_999_999_999


class Draw:
    """Draws the parts of one scenario."""

    def __init__(self, seed):
        self.random = Random(seed)
        self.one_of, self.below = self.random.choice, self.random.randrange
        self.calm = self.now(1, 2)

    def now(self, times, of):
        """True so many times of so many."""
        return self.below(of) < times

    def some_of(self, *values):
        """One of the values; those of a calm scenario stand first, so they come more often there."""
        return values[0] if self.calm and self.now(1, 2) else self.one_of(values)

    def octets(self, count):
        """Random bytes."""
        return bytes(self.below(256) for _ in range(count))

    def text(self, data):
        """Bytes as a text, in either case."""
        return data.hex().upper() if self.now(1, 5) else data.hex()

    def digits(self, count):
        """Random decimal digits."""
        return "".join(self.one_of(string.digits) for _ in range(count))

    def pan(self):
        """An account number."""
        return self.digits(self.one_of([16, 16, 16, 13, 14, 15, 17, 18, 19]))

    def code(self):
        """An action code."""
        if self.now(4 if self.calm else 2, 5):
            return bytes(5)
        if self.now(2, 3):
            return bytes.fromhex(self.one_of(CODES))
        return bytes(1 << self.below(8) if self.now(1, 3) else 0 for _ in range(5))

    # Cards.

    def object_list(self, wanted, optional):
        """An object list that has what is wanted and may have more."""
        while True:
            drawn = wanted + [one for one in optional if self.now(2, 3)]
            drawn += [self.one_of(FURTHER) for _ in range(self.one_of([0, 0, 1, 2, 4]))]
            if self.now(3, 5):
                self.random.shuffle(drawn)
            if total(drawn) <= 252:
                return b"".join(tag_bytes(tag) + bytes([length]) for tag, length in drawn)

    def methods(self, amount):
        """A list of methods of cardholder verification."""
        limits = [self.one_of([0, amount, max(0, amount - 1), amount + 1, self.below(10_000), 2**32 - 1]) for _ in "XY"]
        rules = b"".join(limit.to_bytes(4) for limit in limits)
        for _ in range(self.one_of([0, 1, 1, 2, 2, 3, 4, 6])):
            method = self.one_of([1, 2, 3, 0x1F] if self.calm else METHODS)
            rules += bytes([method | self.one_of([0, 0x40, 0x40, 0x40]) | 0x80 * self.now(1, 10), self.one_of(CONDITIONS)])
        return rules

    def objects(self, pan, sequence, lists, amount):
        """An application's data objects."""
        objects = {0x5A: account_bytes(pan), 0x8C: lists[0], 0x8D: lists[1]}
        objects[0x5F24] = bytes.fromhex(self.some_of("261231", "261231", "261231", "300630", "231231", "491231", "500101"))
        optional = {
            0x5F34: bytes.fromhex(f"{sequence:02}"), 0x8E: self.methods(amount),
            0x5F25: bytes.fromhex(self.some_of("240101", "240615", "240616", "500101", "991231")),
            0x5F28: bytes.fromhex(self.some_of("0840", "0978", "0036")), 0x9F42: bytes.fromhex(self.some_of("0840", "0978")),
            0x9F07: self.some_of(b"\xff\xc0", b"\xff\0", self.octets(2), bytes([self.below(256) | 1, self.below(256)])),
            0x9F08: bytes.fromhex(self.some_of("0096", "0002")),
            0x9F0D: self.code(), 0x9F0E: self.code(), 0x9F0F: self.code(),
            0x9F14: bytes([self.one_of([0, 1, 2, 5, 255])]), 0x9F23: bytes([self.one_of([0, 1, 2, 9, 255])]),
        }
        objects |= {tag: value for tag, value in optional.items() if self.now(3, 4)}
        objects |= {tag: value for tag, value in IDLE.items() if tag not in objects and self.now(1, 16)}
        order = list(objects.items())
        if self.now(1, 2):
            self.random.shuffle(order)
        return self.faulty(order)

    def faulty(self, order):
        """Objects with one that is left out, that is there twice, or whose value is another, once in a while."""
        at = self.below(len(order))
        tag, value = order[at]
        change = self.below(60)
        if change == 0:
            order.pop(at)
        elif change == 1:
            order.append(order[at])
        elif change < 5:
            order[at] = tag, self.changed(value)
        return order

    def changed(self, data):
        """Bytes with one of them turned, left out or put in, or none left, or cut short."""
        at = self.below(len(data) + 1)
        return self.one_of([data[:at] + self.octets(1) + data[at + 1 :], data[:at] + data[at + 1 :],
                            data[:at] + self.octets(1) + data[at:], data[:at], b""])

    def long(self, tag, value):
        """An object, whose length stands in more bytes than it needs once in a while."""
        if not self.now(1, 30):
            return spelled(tag, value)
        size = 2 if len(value) > 255 or self.now(1, 2) else 1
        return tag_bytes(tag) + bytes([0x80 + size]) + len(value).to_bytes(size) + value

    def bodies(self, order):
        """The contents of records that hold these objects."""
        bodies, room = [b""], self.one_of([40, 100, 160, 230])
        for tag, value in order:
            one = self.long(tag, value)
            if self.now(1, 16):
                one = self.long(self.one_of([0xBF0C, 0x73, 0x70, 0xA5, 0xE1]), one)
            if self.now(1, 30):
                one = bytes(self.one_of([1, 2])) + one
            if bodies[-1] and len(bodies[-1]) + len(one) > room:
                bodies.append(b"")
            bodies[-1] = (bodies[-1] + one)[:240]
        return bodies

    def record(self, body):
        """A record of these contents, with a fault or with zeros around it once in a while."""
        one = self.long(0x70, body)
        if self.now(1, 50):
            one = self.changed(one) or b"\x70"
        if self.now(1, 30):
            one = self.one_of([b"\0" + one, one + b"\0\0", one + one[:9]])
        return one[:256]

    def files(self, bodies):
        """The records, and the locator that names them."""
        records, groups, file, number = {}, [], self.one_of([1, 1, 1, 2, 5, 10]), self.one_of([1, 1, 3])
        begin = number
        for at, body in enumerate(bodies):
            records[file, number] = self.record(body)
            if at + 1 == len(bodies) or self.now(1, 4):
                groups.append((file << 3, begin, number, self.one_of([0, 0, 0, number - begin + 1])))
                file = next(one for one in [*range(file + 1, 11), *range(1, 11)] if one not in {one for one, _ in records})
                begin = number = self.one_of([1, 1, 2])
            else:
                number += 1
        if self.now(1, 6):
            file = self.one_of([12, 20, 30])
            records[file, 7] = self.octets(self.one_of([1, 5, 30]))
            groups += [(file << 3, 7, 7, 0)] * self.now(4, 5)
        if self.now(1, 20):
            groups.append((self.below(256), self.below(4), self.below(4), self.below(3)))
        locator = b"".join(map(bytes, groups))
        return records, locator[: self.one_of([len(locator) - 1, 0])] if self.now(1, 30) else locator

    def app(self, base, place, amount, pan):
        """An application."""
        sequence = self.one_of([0, 1, 1, 1, 2, 99])
        lists = [self.object_list(IN_FIRST_LIST, []), self.object_list([(0x8A, 2)], IN_FIRST_LIST if self.now(1, 2) else [])]
        told = [list_ if self.now(19, 20) else self.object_list(IN_FIRST_LIST, []) for list_ in lists]
        told[0] += b"\x9f" * self.now(1, 100)
        told[1] += b"\x9f\x02\xfd" * self.now(1, 100)
        records, locator = self.files(self.bodies(self.objects(pan, sequence, told, amount)))
        currency = self.some_of("840", "840", "978")
        app = {
            "name": self.text(base + self.one_of([b"", b"", bytes([place + 1]), bytes([place + 1, 2])])),
            "label": self.one_of(["CREDIT", "DEBIT", "A", "Sixteen letters."]),
            "aip": self.text(bytes([self.some_of(*PROFILES), self.one_of([0, 0x80])])),
            "afl": self.text(locator), "gpo_format": self.one_of([1, 2]), "ac_format": self.one_of([1, 2]),
            "cdol1": self.text(lists[0]), "cdol2": self.text(lists[1]),
            "record": [{"sfi": file, "number": number, "bytes": self.text(one)} for (file, number), one in records.items()],
            "pan": pan, "sequence": sequence, "currency": currency,
            "counter": self.some_of(10, 10, 10, 0, 300, 65530, 65534, 65535), "last_online": self.some_of(9, 9, 0, 10, 11, 65535, 5),
            "count_limit": self.some_of(5, 5, 0, 1, 2, 255), "tries": self.some_of(3, 3, 0, 1, 2, 15), "blocked": self.now(1, 20),
            "sum_limit": self.some_of(20000, amount, amount * 2, max(0, amount - 1), 0, LARGEST),
        }
        app |= {"pin": "1234"} if self.now(4, 5) else {}
        app |= {"priority": self.one_of([0, 1, 1, 2, 3, 15, 0x81, 0x82, 0x91, 255])} if self.now(1, 2) else {}
        app |= {"pdol": self.text(self.object_list([], IN_FIRST_LIST)[:200])} if self.now(1, 4) else {}
        app |= {"ac_key": self.text(self.octets(16))} if self.now(1, 20) else {}
        if self.now(2, 5):
            app |= {"currency_two": "978" if currency == "840" else "840", "limit_two": self.one_of([3000, amount, 0, LARGEST])}
        return app | (self.log(records) if self.now(2, 5) and len(app.get("pdol", "")) < 400 else {})

    def log(self, records):
        """A log, in a file of its own."""
        free = [file for file in range(11, 31) if file not in {one for one, _ in records}]
        return {"log": self.one_of([1, 2, 3, 10])} | ({} if free[0] == 11 and self.now(1, 3) else {"log_sfi": self.one_of(free)})

    def card(self, place):
        """A card, and what it mostly pays."""
        amount, apps = self.one_of([2500, 2500, 1, 9999, 10000, 100, 5000]), {}
        base = bytes.fromhex(self.one_of(["A0000000031010", "A000000003", "A0000000041010"]))
        for number in range(self.one_of([1, 1, 1, 1, 2, 3, 4])):
            app = self.app(base, number, amount, self.one_of(self.pans))
            apps.setdefault(app["name"].lower(), app)
        card = {"name": f"c{place}", "app": list(apps.values())}
        card |= {"version": self.one_of([1, 1, 2])} if self.now(1, 3) else {}
        return card | ({"pse": self.one_of([1, 1, 5, 10])} if self.now(1, 2) else {}), amount, base

    # The issuer and the terminals.

    def script(self):
        """An issuer script."""
        commands = [self.one_of(COMMANDS) + " bad" * self.now(1, 8) for _ in range(self.one_of([1, 1, 2, 3]))]
        commands = ["count 1"] * 15 + ["block bad"] if self.now(1, 30) else commands
        script = {"when": self.one_of(["before", "after"]), "commands": commands}
        return script | ({"id": self.text(self.octets(4))} if self.now(1, 2) else {})

    def account(self, pan, amount):
        """An account."""
        account = {
            "pan": pan, "currency": self.some_of("840", "840", "978"), "blocked": self.now(1, 20), "arpc": self.one_of([1, 1, 2]),
            "balance": self.some_of(100_000, 100_000, amount, amount * 2, max(0, amount - 1), 0, 3000),
            "status": self.some_of(0, 0, 64, 32, 16, 48, 112, 96),
        }
        account |= {"pin": self.some_of("1234", "1234", "9876")} if self.now(6, 7) else {}
        return account | ({"scripts": [self.script() for _ in range(self.one_of([1, 1, 2, 3]))]} if self.now(2, 5) else {})

    def tear(self, commits):
        """Where power goes."""
        at = self.one_of(["before", "within", "within", "release"])
        write = {} if at == "release" else {"write": self.one_of([1, 1, 2, 2, 3, 4, 5, 6, 7, 8, 9, 12, 40])}
        return {"commit": self.below(commits), "at": at, **write}

    def purchase(self, durable):
        """A purchase with one of the cards."""
        card, usual, _ = self.one_of(self.cards)
        amount = self.some_of(usual, usual, usual + 1, max(0, usual - 1), 0, self.below(30_000), LARGEST)
        optional = {
            "other": self.below(amount + 1), "trade": self.one_of([0, 1, 9]), "services": self.now(1, 2), "time": self.digits(6),
            "forced": self.now(1, 2), "confirm": self.now(1, 2), "link": self.one_of(["ok", "request_lost", "reply_lost", "twice"]),
            "tear": self.tear(8),
        }
        optional |= {"terminal_tear": self.tear(4)} if durable else {}
        pins = [self.some_of("1234", "1234", "1111", "9876", "123456789012") for _ in range(self.one_of([0, 1, 1, 1, 2, 3, 4]))]
        return {
            "card": card["name"], "amount": amount, "currency": self.some_of("840", "840", "978", "036"), "pins": pins,
            "date": self.some_of("240615", "240615", "270101", "231231", "991231", "491231", "500101"),
            "number": self.below(2**32), "word": self.one_of([self.below(2**32), self.below(200)]),
            **{key: value for key, value in optional.items() if self.now(1, 4)},
        }

    def aid(self, name):
        """A row of a terminal's list."""
        floor, target = self.one_of([10000, 10000, 2500, 0, 20000, LARGEST]), self.one_of([0, 10, 50, 99])
        return {
            "name": self.text(name), "partial": self.now(4, 5), "version": "0096", "denial": self.text(self.code()),
            "online": self.some_of("7068BC9800", self.code().hex()), "default": self.some_of("7068BCF800", self.code().hex()),
            "floor": floor, "threshold": self.one_of([0, floor // 2, floor]), "target": target, "max_target": self.one_of([target, 99]),
        }

    def lane(self, place, is_long):
        """A terminal with its purchases."""
        names = {base for _, _, base in self.cards} | ({self.one_of(self.cards)[2][:5]} if self.now(1, 10) else set())
        names |= {bytes.fromhex(self.one_of(card["app"])["name"]) for card, _, _ in self.cards if self.now(2, 5)}
        names |= {DIRECTORY} if self.now(1, 40) else set()
        names = self.random.sample(sorted(names), self.one_of([len(names), len(names), self.below(len(names)) + 1]))
        durable = self.now(1, 3)
        lane = {
            "kind": self.some_of(22, 22, 21, 23, 24, 25, 26), "country": self.some_of("840", "978"), "id": f"TERM{place:04}",
            "caps": self.text(self.some_of(b"\xe0\xb8\xc8", b"\xe0\xf8\xc8", self.octets(3))), "pse": self.now(1, 3), "durable": durable,
            "aid": [self.aid(name) for name in names], "dialect": self.one_of(["tlv", "iso"]),
            "purchase": [self.purchase(durable) for _ in range(self.one_of([8, 9, 12] if is_long else [0, 1, 1, 2, 3]))],
        }
        return lane | ({"exceptions": [self.one_of([*self.pans, self.pan()])]} if self.now(1, 8) else {})

    def scenario(self):
        """A whole scenario."""
        self.pans = [self.pan() for _ in range(self.one_of([1, 2, 3]))]
        self.cards = [self.card(place) for place in range(self.one_of([1, 1, 1, 2, 2, 3]))]
        accounts = {pan: self.account(pan, self.cards[0][1]) for pan in self.pans if self.now(19, 20)}
        is_long = self.now(1, 20)
        lanes = [self.lane(place, is_long) for place in range(self.one_of([1, 1, 1, 2, 2, 3]))]
        return {
            "issuer": ISSUER, "account": list(accounts.values()), "card": [card for card, _, _ in self.cards], "lane": lanes,
            "schedule": [self.below(len(lanes)) for _ in range(self.one_of([0, 0, 0, 5, 30, 60]))], "copies": self.one_of([1, 1, 2, 3]),
        }
