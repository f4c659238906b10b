"""Random cards of canned answers with a directory (docs/proof/profile.md, Selection), and a terminal that reads it.

Behind the directory every SELECT is answered alike, so that the terminal asks for all candidates in their order.
"""
from .draw import ISSUER
from .objects import spelled
from .selection import DIRECTORY
from .spoil import Spoiler

NOT_FOUND, NO_RECORD, GOOD = bytes.fromhex("6A82"), bytes.fromhex("6A83"), bytes.fromhex("9000")
STATUSES = ["6A82", "6A83", "6A81", "6985", "6283", "9000", "6700"]
BASES = ["A0000000031010", "A000000003", "A0000000041010"]
# So many commands a terminal has at most in its selection.
MOST = 60


class Directories:
    """Draws canned cards by the numbers that a Draw gives."""

    def __init__(self, draw):
        self.draw, self.one_of, self.below, self.now = draw, draw.one_of, draw.below, draw.now
        self.spoiler = Spoiler(draw)

    def name(self):
        """The name of an application, mostly one that a terminal has."""
        name = bytes.fromhex(self.one_of(BASES)) + self.draw.octets(self.one_of([0, 1, 1, 1, 2]))
        return self.one_of([name] * 12 + [name[:4], name.ljust(16, b"\1"), name.ljust(17, b"\1"), self.draw.octets(7), b""])

    def entry(self):
        """A template 61; some lack their name or have it twice, or an object of another length."""
        one_of = self.one_of
        parts = [spelled(0x4F, self.name()), spelled(0x50, b"CREDIT")]
        if self.now(2, 3):
            parts.append(spelled(0x87, one_of([bytes([self.below(18)]), bytes([self.below(256)]), b"", b"\1\2"])))
        change = self.below(40)
        if change == 0:
            parts.pop(0)
        elif change < 3:
            parts.insert(self.below(3), spelled(one_of([0x4F, 0x87]), one_of([self.name(), b"\1"])))
        elif change == 3:
            parts[0] = spelled(one_of([0x73, 0xA5, 0x61]), parts[0])
        elif change == 4:
            parts.insert(self.below(3), b"\0")
        if self.now(1, 3):
            self.draw.random.shuffle(parts)
        one = spelled(0x61, b"".join(parts))
        return spelled(one_of([0x73, 0x61, 0x70]), one) if change == 5 else one

    def record(self):
        """A record of entries."""
        body = b"".join(self.entry() for _ in range(self.one_of([0, 1, 1, 2, 4, 6])))
        return spelled(0x70, body[:240] if self.now(1, 150) else body)

    def broken(self, record):
        """A record that can't be read, or not as it stands."""
        inner = spelled(0x61, spelled(0x4F, bytes.fromhex(BASES[0])))
        faults = [record + b"\x5a", b"\0" + record + b"\0", record + record, b"", spelled(0x70, inner[:-1]), spelled(0x77, inner),
                  spelled(0x70, inner + b"\x61\x80"), spelled(0x70, spelled(0x61, b"\x4f\x05\xa0")), self.spoiler.body(record),
                  spelled(0x70, inner + spelled(0x61, b"\x9f\x81\x81\x01")), spelled(0x70, inner + spelled(0xA5, b"\x5a"))]
        return self.one_of(faults)

    def records(self):
        """The answers to READ RECORD, up to one that ends the reading."""
        count = self.one_of([1, 2, 4, 8, 8, 12, 20])
        found = [self.record() for _ in range(count)]
        if self.now(1, 5):
            at = self.one_of([count - 1, self.below(count)])
            found[at] = self.broken(found[at])
        found = [one[:256] + GOOD for one in found]
        if self.now(1, 20):
            found.insert(self.below(count + 1), bytes.fromhex(self.one_of(STATUSES)))
        if self.now(1, 60):
            found += [spelled(0x70, b"") + GOOD] * 260
        return [*found, NO_RECORD]

    def head(self):
        """The directory's file control information."""
        file = self.one_of([b"\1"] * 12 + [b"\x0a", b"\x0b", b"\0", b"\1\1", b""])
        body = spelled(0x6F, spelled(0x84, DIRECTORY) + spelled(0xA5, spelled(0x88, file)))
        body = self.spoiler.body(body) if self.now(1, 25) else body
        return body + bytes.fromhex(self.one_of(["9000"] * 60 + STATUSES))

    def information(self):
        """An application's file control information, in place of a status."""
        body = spelled(0x6F, spelled(0x84, self.name() or b"\1") + spelled(0xA5, spelled(0x50, b"CREDIT")))
        return body + bytes.fromhex(self.one_of(["9000", "9000", "6283"]))

    def scenario(self):
        """A document: one canned card, and a terminal with one purchase."""
        draw = self.draw
        last = [self.information() if self.now(1, 30) else NOT_FOUND for _ in range(MOST)]
        answers = ([self.head(), *self.records(), *last])[:300]
        draw.pans, draw.cards = [draw.pan()], [({"name": "c0"}, 2500, None)]
        rows = [draw.aid(bytes.fromhex(base)) for base in draw.random.sample(BASES, self.one_of([1, 2, 3]))]
        lane = {
            "kind": 22, "country": "840", "caps": "E0B8C8", "id": "TERM0001", "aid": rows, "pse": True,
            "purchase": [{key: value for key, value in draw.purchase(False).items() if key not in ("tear", "link")}],
        }
        card = {"name": "c0", "canned": [one.hex() for one in answers]}
        return {"issuer": ISSUER, "account": [], "card": [card], "lane": [lane]}
