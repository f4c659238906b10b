"""Random histories of an issuer's host, from a number: the same number draws the same ones.

Transactions are few, so that messages of one come again and again: the same bytes, other ones, in either spelling, reversals
and presentments before and behind what they belong to, and bytes that are no message.
"""
import re

from yollenka.respell import call_to_iso
from yollenka.scenarios import document

from .ciphers import code_of, counted_key, master_key, online_block
from .comparing import lines_of
from .document import accounts_of
from .draw import ISSUER, LARGEST, Draw
from .issuer import COVERED, Issuer
from .messages import (
    PRESENTMENT, REQUEST, REVERSAL, Left, Message, Unreadable, front_of, in_one_object, numbers_in, reply_in_fields, written,
)
from .objects import account_bytes, in_digits
from .spoil import Spoiler

LINE = re.compile(r"(iso )?> ((?:[0-9A-Fa-f]{2}){1,2048})")
MOST, MOST_BYTES = 40, 2048
KINDS = [REQUEST] * 5 + [PRESENTMENT] * 2 + [REVERSAL] * 2
DATES = ["240615", "240616", "240614", "491231", "500101", "991231", "000101", "241332"]
RESULTS = [b"00", b"Y1", b"Y3", b"Z3", b"05"]


class HostAtLines:
    """An issuer's host that is asked line by line (docs/use/reader.md, section 3): messages in either spelling, balances, and
    why the last reply is as it is. An answer of several lines has newlines within."""

    def __init__(self, text):
        self.issuer = Issuer(*accounts_of(text))

    def answer(self, line):
        """The answer to a line."""
        if line == "because" and self.issuer.reason:
            return " ".join(map(str, ("because", *self.issuer.reason)))
        if found := LINE.fullmatch(line):
            return (self.in_fields if found[1] else self.in_object)(bytes.fromhex(found[2]))
        if line == "accounts":
            return "\n".join([f"accounts {len(self.issuer.accounts)}", *map(self.balance, self.issuer.accounts)])
        word, _, pan = line.partition(" ")
        return self.balance(pan) if word == "balance" and pan in self.issuer.accounts else "?"

    def balance(self, pan):
        """The line of an account's balance."""
        return f"balance {pan} {self.issuer.balance(pan)}"

    def in_object(self, data):
        """The answer to a message that is one object."""
        return f"< {self.issuer.answer(data).hex()}"

    def in_fields(self, data):
        """The answer to a message in the style of ISO 8583; one that can't be read doesn't come to the host."""
        try:
            kind, message = in_one_object(data)
        except Unreadable as fault:
            return f"? {fault}"
        return f"< {reply_in_fields(kind, self.issuer.answer(message)).hex()}"


class Histories:
    """Draws an issuer's document and the messages that it gets, as the model answers them."""

    def __init__(self, seed, accounts=None):
        self.draw = Draw(seed)
        self.one_of, self.below, self.now = self.draw.one_of, self.draw.below, self.draw.now
        self.spoiler = Spoiler(self.draw)
        self.draw.pans = pans = [self.draw.pan() for _ in range(accounts or self.one_of([1, 1, 2, 3]))]
        accounts = {pan: self.draw.account(pan, 2500) for pan in pans}
        self.text = document({"issuer": ISSUER, "account": list(accounts.values())})
        self.host = HostAtLines(self.text)
        self.issuer = self.host.issuer
        self.known = [*pans] * 8 + [self.draw.pan()]
        # What was sent: the bytes, and whether in the style of ISO 8583.
        self.sent, self.lines, self.answers = [], [], []

    def fields(self, kind):
        """The fields of a message of this kind, without a cryptogram."""
        one_of, octets, pan = self.one_of, self.draw.octets, self.one_of(self.known)
        account = self.issuer.accounts.get(pan, {"currency": b"\x08\x40", "pin": None})
        balance = max(0, self.issuer.balance(pan)) if pan in self.issuer.accounts else 0
        amount = one_of([2500, 2500, 1, 0, balance, balance + 1, balance // 2, self.below(5000), LARGEST])
        date = one_of(["240615"] * 9 + DATES)
        fields = {
            0x9F1C: one_of([b"TERM0001", b"TERM0002", octets(8)]), 0x5A: account_bytes(pan) + b"\xff" * self.now(1, 30),
            0x5F24: bytes.fromhex(one_of(["261231"] * 9 + DATES)), 0x9F02: in_digits(amount % (LARGEST + 1), 6),
            0x9F03: in_digits(self.below(amount + 1) % (LARGEST + 1), 6), 0x9F1A: octets(2), 0x95: octets(5),
            0x5F2A: one_of([account["currency"]] * 9 + [b"\x09\x78"]), 0x9A: bytes.fromhex(date),
            0x9C: bytes([one_of([0, 0, 0, 1, 9, 0xA])]), 0x9F37: octets(4), 0x82: octets(2),
            0x9F36: bytes([0, one_of([1, 1, 2, 3, self.below(12)])]), 0x9F10: octets(one_of([7, 7, 0, 6, 32])), 0x8A: one_of(RESULTS),
        }
        if self.now(4, 5):
            fields[0x5F34] = bytes([one_of([0, 1, 1, 1])])
        if self.now(1, 3):
            pin = one_of([account["pin"] or "1234", account["pin"] or "1234", "9876"])
            fields[0xDF11] = one_of([online_block(bytes.fromhex(ISSUER["pin_key"]), pin, pan)] * 4 + [octets(8)])
        return self.sealed(fields)

    def sealed(self, fields):
        """Fields with their cryptogram, mostly the right one."""
        pan, sequence = fields[0x5A].hex().rstrip("f"), fields.get(0x5F34, b"\0")[0]
        master = master_key(bytes.fromhex(ISSUER["ac_key"]), pan, sequence)
        right = code_of(counted_key(master, fields[0x9F36]), b"".join(fields[tag] for tag in COVERED))
        return fields | {0x9F26: right if self.now(11, 12) else self.draw.octets(8)}

    def another(self, data):
        """A message whose bytes are like these: another kind or field, another coding, or no message."""
        try:
            message = Message(data)
        except Unreadable:
            return self.spoiler.body(data)
        change, kind = self.below(8), self.one_of(KINDS)
        fields = self.fields(kind) | message.fields
        if change < 3:
            return written(kind, fields)
        if change < 5:
            other = self.fields(kind)
            tag = self.one_of(sorted(other))
            fields = fields | {tag: other[tag]}
            return written(message.kind, self.sealed(fields) if self.now(3, 4) else fields)
        return self.spoiler.body(data)[:MOST_BYTES]

    def in_fields(self, data):
        """The same message in the style of ISO 8583, or something like it; None where there is none."""
        try:
            message = Message(data)
        except Unreadable:
            return None
        if message.fields[0x5F2A][0] > 9 or message.fields.get(0x9C, b"\0").hex()[1] > "9":
            return None
        spelled = call_to_iso(written(message.kind, message.fields))[1]
        return spelled if self.now(4, 5) else self.spoilt(spelled)

    def spoilt(self, data):
        """A message in the style of ISO 8583 with some bytes changed: in front of field 55, in it, its objects, or anywhere."""
        place = data.index(b"\x9f\x36") if self.now(1, 2) else len(data)
        at = self.below(place)
        digit = data[:at] + self.one_of([b"0", b"1", b"9", b"A", b"\0"]) + data[at + 1 :]
        others = [digit, digit, self.spoiler.octet_put(data), data[:at], data + b"\0", data[:4] + self.draw.octets(8) + data[12:]]
        return self.one_of([*others, self.with_objects(data)])

    def with_objects(self, data):
        """A message in the style of ISO 8583 of which field 55 has other objects, or spells them in another way."""
        left = Left(data)
        left.take(12)
        front_of(left, numbers_in(data[4:12]))
        begin = left.place
        held = left.counted(55, 4)
        counter = held.index(b"\x9f\x36\2") + 4
        others = [held.replace(b"\x9f\x36\2", b"\x9f\x36\x81\2"), held[:counter] + b"\x7f" + held[counter + 1 :], b"\0" + held]
        inner = self.one_of([self.spoiler.body(held), *others])
        return data[:begin] + b"%04d" % len(inner) + inner

    def drawn(self, what, earlier):
        """A message as one object: by a number one that is like an earlier one, bytes that are none, or a new one."""
        if what < 9 and earlier:
            return self.another(self.one_of(earlier))
        if what == 9:
            return self.draw.octets(self.one_of([1, 2, 3, 8, 40]))
        kind = self.one_of(KINDS)
        return written(kind, self.fields(kind))

    def message(self):
        """The next message, and whether it is in the style of ISO 8583."""
        earlier = [data for data, is_iso in self.sent if not is_iso]
        what = self.below(20)
        if what < 4 and self.sent:
            return self.one_of(self.sent)
        data = self.drawn(what, earlier)
        spelled = self.in_fields(data) if self.now(2, 5) else None
        return (data, False) if spelled is None else (spelled, True)

    def say(self, line):
        """A line more."""
        self.lines.append(line)
        self.answers.append(self.host.answer(line))

    def talk(self, most=MOST):
        """So many messages, with what is asked behind them."""
        for _ in range(most):
            data, is_iso = self.message()
            self.sent.append((data, is_iso))
            self.say(f"{'iso ' * is_iso}> {data.hex()}")
            self.say("because")
            if self.now(1, 8):
                self.say(f"balance {self.one_of(self.known)}")
        self.say("accounts")
        return self


def is_message(data):
    """Whether bytes are a terminal's message."""
    try:
        return bool(Message(data))
    except Unreadable:
        return False


class InOneDialect(Histories):
    """Histories of a host that speaks one dialect, with so many accounts."""

    def __init__(self, seed, is_iso, accounts):
        super().__init__(seed, accounts)
        self.is_iso, self.earlier = is_iso, []

    def message(self):
        """The next message."""
        what = self.below(20)
        if what < 4 and self.sent:
            return self.one_of(self.sent)
        data = self.drawn(what, self.earlier)
        spelled = self.in_fields(data) if self.is_iso else data
        if not data or spelled is None and is_message(data):
            return self.message()
        self.earlier += [data] if is_message(data) else []
        return spelled or data, self.is_iso


def histories(seed, number):
    """The history of a number under a seed."""
    return Histories(f"{seed}/{number}").talk()


def answers_to(text, lines):
    """The lines that the model answers to these lines of a document's issuer."""
    host = HostAtLines(text)
    return lines_of(map(host.answer, lines))
