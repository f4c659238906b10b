"""The issuer's rules (docs/proof/profile.md, *The issuer*), by their short names. `fault` plants one of FAULTS."""
from own_host.keys import cryptogram, is_pin, master, plain_pin, response, session
from own_host.des import mac, triple
from own_host.messages import NoMessage, digits_of, from_iso, from_object, reply_iso, reply_object, written

REQUEST, PRESENTMENT, REVERSAL = "e1", "e3", "e4"
GOOD = b"00"
HEADERS = {
    "block": "841e0000", "unblock": "84180000", "card_block": "84160000", "pin_unblock": "84240000", "pin": "84240002",
    "count": "04dadf01", "amount": "04dadf02",
}
# Each fault with what it does.
FAULTS = {
    "repeat-anew": "a request that comes again is decided anew",
    "other-bytes-again": "another message of a transaction gets the first one's reply",
    "scripts-always": "each reply with issuer authentication data carries the scripts",
    "last-day": "a card is refused on the last day of its validity",
    "whole-balance": "an amount that is the whole balance is refused",
    "reversal-late": "a transaction that was presented is reversed",
    "second-method": "the status bytes of method 2 leave the account's status out",
}


def day(date):
    """A date that can be compared."""
    return (1900 if date[0] >= 0x50 else 2000) + int(date[:1].hex()), date[1:]


class Issuer:
    """An issuer with the keys and accounts of a document's tables."""

    def __init__(self, tables, fault=None):
        self.keys = {name: bytes.fromhex(text) for name, text in tables["issuer"].items()}
        self.accounts, self.fault = {one["pan"]: one for one in tables["account"]}, fault
        # By kind and transaction: the message and its code, object by object, and what scripts were sent to.
        self.kept, self.served = {}, set()

    def reply(self, data):
        """The reply to these bytes in their dialect; None to bytes in the style of ISO 8583 that are no message."""
        is_iso = data[:1] == b"0"
        try:
            kind, fields, whole = from_iso(data) if is_iso else (*from_object(data), data)
        except NoMessage:
            return None if is_iso else reply_object(b"05", b"")
        code, inner = self.answer(kind, fields, whole)
        return reply_iso(kind, code, inner) if is_iso else reply_object(code, inner)

    def answer(self, kind, fields, whole):
        """The code, and the objects behind it."""
        pan, sequence = digits_of(fields["5a"]), fields.get("5f34", b"\0")
        place = kind, pan, sequence, fields["9f36"]
        if place in self.kept and not (self.fault == "repeat-anew" and kind == REQUEST):
            message, code, inner, _ = self.kept[place]
            is_same = message == whole or self.fault == "other-bytes-again"
            return (code, inner) if is_same else (b"05", b"")
        code, inner = self.decided(kind, fields, place[1:])
        self.kept[place] = whole, code, inner, int(fields["9f02"].hex())
        return code, inner

    def was(self, kind, transaction, well=True):
        """The amount of a kept message of a transaction, which was answered 00 where that is asked; else None."""
        kept = self.kept.get((kind, *transaction))
        return kept[3] if kept and (kept[1] == GOOD or not well) else None

    def balance(self, pan):
        """What an account has left."""
        left = self.accounts[pan]["balance"]
        for transaction in {place[1:] for place in self.kept if place[1] == pan}:
            booked, held = self.was(PRESENTMENT, transaction), self.was(REQUEST, transaction)
            if booked is not None:
                left -= booked
            elif held is not None and self.was(REVERSAL, transaction) is None:
                left -= held
        return left

    def decided(self, kind, fields, transaction):
        """The code for a new message, and the objects behind it."""
        account = self.accounts.get(transaction[0])
        if account is None:
            return b"14", b""
        if kind == REVERSAL:
            is_late = self.was(PRESENTMENT, transaction) is not None and self.fault != "reversal-late"
            return b"05" if is_late else GOOD, b""
        key = self.session("ac_key", transaction, transaction[2] + bytes(6))
        if cryptogram(key, fields) != fields["9f26"]:
            return b"05", b""
        is_currency = fields["5f2a"].hex() == "0" + account["currency"]
        if kind == PRESENTMENT:
            return GOOD if is_currency and self.was(REVERSAL, transaction) is None else b"05", b""
        code = self.authorised(fields, account, transaction) if is_currency else b"05"
        plain = account | ({"status": 0} if self.fault == "second-method" else {})
        return code, written("91", response(key, fields["9f26"], code, plain)) + self.scripts(fields, account, transaction)

    def session(self, name, transaction, r):
        """A session key of a card."""
        return session(master(self.keys[name], transaction[0], int(transaction[1].hex())), r)

    def authorised(self, fields, account, transaction):
        """The code for a genuine request in the account's currency."""
        amount = int(fields["9f02"].hex())
        came = [self.was(kind, transaction, False) for kind in (REVERSAL, PRESENTMENT)]
        if account.get("blocked") or came != [None, None]:
            return b"05"
        last, today = day(fields["5f24"]), day(fields["9a"])
        if last < today or last == today and self.fault == "last-day":
            return b"54"
        if "df11" in fields and not self.is_pin(fields["df11"], account):
            return b"55"
        left = self.balance(transaction[0])
        return GOOD if amount < left or amount == left and self.fault != "whole-balance" else b"51"

    def is_pin(self, block, account):
        """Whether an enciphered block is that of the account's PIN; an account without one has none that is right."""
        return "pin" in account and is_pin(self.keys["pin_key"], block, account["pan"], account["pin"])

    def scripts(self, fields, account, transaction):
        """The account's scripts, with the first reply that can carry them."""
        if transaction[0] in self.served and self.fault != "scripts-always":
            return b""
        self.served.add(transaction[0])
        found = b""
        for one in account.get("scripts", []):
            inner = written("9f18", bytes.fromhex(one["id"])) if "id" in one else b""
            inner += b"".join(written("86", self.command(text, fields, transaction)) for text in one["commands"])
            found += written("71" if one["when"] == "before" else "72", inner)
        return found

    def command(self, text, fields, transaction):
        """A script command with its code."""
        word, *rest = text.removesuffix(" bad").split(" ")
        header, data = bytes.fromhex(HEADERS[word]), b""
        if word == "pin":
            data = triple(self.session("enc_key", transaction, fields["9f26"]), plain_pin(rest[0]))
        elif rest:
            data = bytes([int(rest[0])]) if word == "count" else bytes.fromhex(rest[0].zfill(12))
        key = self.session("mac_key", transaction, fields["9f26"])
        code = mac(key, header + transaction[2] + fields["9f26"] + data)
        if text.endswith(" bad"):
            code = code[:7] + bytes([code[7] ^ 0xFF])
        return header + bytes([len(data) + 8]) + data + code
