"""The issuer: its replies, their reasons, and balances, each read from the messages that it kept (docs/proof/profile.md,
docs/proof/formats.md).

Why a reply is as it is has one of these reasons, each with what belongs to it. They are tried in this order:

    unreadable FAULT          the bytes are no message of a terminal: 05, and it isn't kept
    repeat NUMBER             a message of the kind and transaction was kept, with the same bytes: its reply again
    other-bytes NUMBER        .. with other bytes: 05, and it isn't kept
    unknown-account           no account has the number: 14
    cryptogram                a request's or presentment's cryptogram isn't right: 05
    then of a request, whose reply authenticates the issuer:
    blocked                   the account is blocked: 05
    currency MESSAGE ACCOUNT  the currency isn't the account's: 05
    reversed NUMBER           a reversal of the transaction was kept, whatever it was answered: 05
    presented NUMBER          a presentment of the transaction was kept, whatever it was answered: 05
    expired EXPIRY DATE       the card's expiry is before the date: 54
    pin                       there is a PIN block and it isn't the account's PIN: 55
    above-balance AMOUNT BALANCE  the balance is below the amount: 51
    approved AMOUNT           00, and the amount is held
    of a presentment:
    currency MESSAGE ACCOUNT  05
    reversed NUMBER           a reversal of the transaction was answered 00: 05
    settled AMOUNT HELD       00, and the amount is booked in place of what was held, if it was
    of a reversal:
    presented NUMBER          a presentment of the transaction was answered 00: 05
    released AMOUNT           00, and what was held is set free
    nothing-held              00, and nothing was held

A NUMBER is that of a message that was kept, of all messages from 1. Behind the reason stands `scripts` where the reply carries
the account's scripts: that is the first reply to the account that authenticates the issuer, whatever its code.
"""
from .ciphers import (
    block_of, code_of, counted_key, encipher_two, master_key, online_pin, response_one, response_two, session_key,
)
from .messages import PRESENTMENT, REQUEST, REVERSAL, Message, Unreadable
from .objects import day, spelled

GOOD = b"00"
COVERED = (0x9F02, 0x9F03, 0x9F1A, 0x95, 0x5F2A, 0x9A, 0x9C, 0x9F37, 0x82, 0x9F36, 0x9F10)
HEADERS = {
    "block": "841E0000", "unblock": "84180000", "card_block": "84160000", "pin_unblock": "84240000", "pin": "84240002",
    "count": "04DADF01", "amount": "04DADF02",
}


def plain(code):
    """A reply of a response code alone."""
    return spelled(0xE2, spelled(0x8A, code))


def command_of(text, code_key, pin_key, message):
    """The bytes of a script command: its header, its data and their code."""
    word, *rest = text.split(" ")
    spoilt = rest[-1:] == ["bad"]
    header = bytes.fromhex(HEADERS[word])
    if word == "pin":
        data = encipher_two(pin_key, block_of(2, rest[0]))
    elif word in ("count", "amount"):
        data = bytes([int(rest[0])]) if word == "count" else bytes.fromhex(rest[0].zfill(12))
    else:
        data = b""
    code = code_of(code_key, header + message.counter + message.fields[0x9F26] + data)
    data += code[:-1] + bytes([code[-1] ^ 0xFF if spoilt else code[-1]])
    return header + bytes([len(data)]) + data


class Kept:
    """A message that is kept: its reply, the reason, and its number."""

    def __init__(self, message, number):
        self.message, self.number = message, number
        self.reply = self.reason = None

    def went_well(self):
        """Whether it was answered 00."""
        return self.reason[0] in ("approved", "settled", "released", "nothing-held")


class Issuer:
    """An issuer with these keys and accounts; `reason` is that of the last reply."""

    def __init__(self, keys, accounts):
        self.keys, self.accounts = keys, {account["pan"]: account for account in accounts}
        # What is kept: of each kind and transaction the first message.
        self.kept, self.served, self.count, self.reason = {}, set(), 0, None

    def answer(self, data):
        """The reply to these bytes."""
        self.count += 1
        try:
            message = Message(data)
        except Unreadable as fault:
            self.reason = "unreadable", str(fault)
            return plain(b"05")
        place = message.kind, message.transaction
        kept = self.kept.get(place)
        if kept:
            is_same = kept.message.data == data
            self.reason = "repeat" if is_same else "other-bytes", kept.number
            return kept.reply if is_same else plain(b"05")
        kept = Kept(message, self.count)
        code, *kept.reason = self.decided(message)
        kept.reply, carried = self.reply(message, code, kept.reason[0])
        self.kept[place] = kept
        self.reason = (*kept.reason, *carried)
        return kept.reply

    def found(self, kind, transaction, wholly=True):
        """The message of a kind that was kept for a transaction, and answered 00 where that is asked; or None."""
        kept = self.kept.get((kind, transaction))
        return kept if kept and (kept.went_well() or not wholly) else None

    def decided(self, message):
        """The code for a message that is new, and the reason."""
        account, transaction = self.accounts.get(message.pan), message.transaction
        if account is None:
            return b"14", "unknown-account"
        if message.kind == REVERSAL:
            presented, held = self.found(PRESENTMENT, transaction), self.found(REQUEST, transaction)
            if presented:
                return b"05", "presented", presented.number
            return (GOOD, "released", held.message.amount()) if held else (GOOD, "nothing-held")
        if not self.is_genuine(message):
            return b"05", "cryptogram"
        if message.kind == REQUEST:
            return self.authorised(message, account)
        if message.fields[0x5F2A] != account["currency"]:
            return b"05", "currency", message.fields[0x5F2A].hex(), account["currency"].hex()
        reversed_, held = self.found(REVERSAL, transaction), self.found(REQUEST, transaction)
        if reversed_:
            return b"05", "reversed", reversed_.number
        return GOOD, "settled", message.amount(), *([held.message.amount()] if held else [])

    def taken(self, transaction):
        """What a transaction takes from its account."""
        presented, requested = self.found(PRESENTMENT, transaction), self.found(REQUEST, transaction)
        if presented:
            return presented.message.amount()
        return requested.message.amount() if requested and not self.found(REVERSAL, transaction) else 0

    def balance(self, pan):
        """What is on an account."""
        transactions = {transaction for _, transaction in self.kept if transaction[0] == pan}
        return self.accounts[pan]["balance"] - sum(map(self.taken, transactions))

    def session_key(self, message):
        """The key of the transaction's cryptograms."""
        return counted_key(master_key(self.keys["ac_key"], message.pan, message.sequence), message.counter)

    def is_genuine(self, message):
        """Whether the cryptogram is the card's."""
        text = b"".join(message.fields[tag] for tag in COVERED)
        return code_of(self.session_key(message), text) == message.fields[0x9F26]

    def authorised(self, message, account):
        """The code for a genuine request, and the reason."""
        fields, transaction = message.fields, message.transaction
        if account["blocked"]:
            return b"05", "blocked"
        if fields[0x5F2A] != account["currency"]:
            return b"05", "currency", fields[0x5F2A].hex(), account["currency"].hex()
        for kind, reason in ((REVERSAL, "reversed"), (PRESENTMENT, "presented")):
            if kept := self.found(kind, transaction, wholly=False):
                return b"05", reason, kept.number
        if day(fields[0x5F24]) < day(fields[0x9A]):
            return b"54", "expired", fields[0x5F24].hex(), fields[0x9A].hex()
        if 0xDF11 in fields and online_pin(self.keys["pin_key"], fields[0xDF11], message.pan) != (account["pin"] or ""):
            return b"55", "pin"
        amount, balance = message.amount(), self.balance(message.pan)
        return (GOOD, "approved", amount) if amount <= balance else (b"51", "above-balance", amount, balance)

    def reply(self, message, code, reason):
        """The reply with this code, and what it carries: to a genuine request it authenticates the issuer."""
        if message.kind != REQUEST or reason in ("unknown-account", "cryptogram"):
            return plain(code), ()
        account = self.accounts[message.pan]
        key, cryptogram = self.session_key(message), message.fields[0x9F26]
        if account["arpc"] == 1:
            data = response_one(key, cryptogram, code) + code
        else:
            approves = 0x80 if code == GOOD else 0
            status = bytes([approves, account["status"] | approves, 0, 0])
            data = response_two(key, cryptogram, status) + status
        scripts = b"" if message.pan in self.served else self.scripts(message, account)
        self.served.add(message.pan)
        return spelled(0xE2, spelled(0x8A, code) + spelled(0x91, data) + scripts), ("scripts",) if scripts else ()

    def scripts(self, message, account):
        """The account's scripts for this transaction."""
        keys = [
            session_key(master_key(self.keys[name], message.pan, message.sequence), message.fields[0x9F26])
            for name in ("mac_key", "enc_key")
        ]
        made = b""
        for script in account["scripts"]:
            body = b"" if script["id"] is None else spelled(0x9F18, script["id"])
            body += b"".join(spelled(0x86, command_of(text, *keys, message)) for text in script["commands"])
            made += spelled(0x71 if script["when"] == "before" else 0x72, body)
        return made
