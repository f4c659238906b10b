"""Histories at a host of one's own: each message goes to it and to the proved host, and the replies are compared."""
import re
import tomllib
from dataclasses import dataclass, field

from yollenka.lab.answers import object_texts
from yollenka.lab.emv import primitives
from yollenka.lab.host_dialect import UNREADABLE, in_dialect, message_in
from yollenka.lab.host_scenario import Difference
from yollenka.lab.rules import cited
from yollenka.model.histories import InOneDialect
from yollenka.model.messages import PRESENTMENT, REVERSAL, Message, Unreadable, in_one_object
from yollenka.respell import fields_of
from yollenka.scenarios import in_tables
from yollenka.talks import Talk, Turn, read_talk

MESSAGE = re.compile(r"(iso )?> ((?:[0-9a-f]{2}){1,2048})")
GOOD = b"00"
# How many accounts random messages have.
ACCOUNTS = 12
# The rules of docs/proof/profile.md behind a reason: of any message, of a request, of a presentment and of a reversal.
RULES = {
    "unreadable": "HOST-1", "repeat": "HOST-2", "other-bytes": "HOST-2", "unknown-account": "HOST-3", "cryptogram": "HOST-4",
    "blocked": "HOST-5", "currency": "HOST-5", "reversed": "HOST-5", "presented": "HOST-5", "expired": "HOST-6", "pin": "HOST-7",
    "above-balance": "HOST-8", "approved": "HOST-9",
}
KINDS = {PRESENTMENT: "HOST-10", REVERSAL: "HOST-11"}
NAMES = {0xE1: "request", PRESENTMENT: "presentment", REVERSAL: "reversal"}


@dataclass
class Course:
    """What is played: its name, the words of `lab host` that play it again, the document (bytes) of the accounts to begin with, and
    the messages, in one dialect."""

    name: str
    words: str
    document: bytes
    is_iso: bool
    messages: list = field(default_factory=list)


def random_course(seed, count, is_iso):
    """So many random messages of a seed: repeats, other bytes under one transaction, reversals and presentments before and behind
    what they belong to, wrong cryptograms, bytes that are no message."""
    drawn = InOneDialect(f"host {seed}", is_iso, ACCOUNTS).talk(count)
    words = f"--messages {count} --seed {seed}"
    accounts = f"{in_tables(tomllib.loads(drawn.text.decode()))}\n\n".encode()
    return Course(f"{count} messages of seed {seed}", words, accounts, is_iso, [data for data, _ in drawn.sent])


def course_of(path, is_iso):
    """The messages of a talk in a file, in this dialect; those that it can't spell are left out."""
    talk = read_talk(path)
    found = (MESSAGE.fullmatch(turn.said) for turn in talk.turns)
    spelled = [respelled(bytes.fromhex(one[2]), bool(one[1]), is_iso) for one in found if one]
    return Course(talk.name, f"--histories {path}", talk.document, is_iso, [one for one in spelled if one])


def respelled(message, was_iso, is_iso):
    """A message in this dialect, or None where it isn't spelled there."""
    if was_iso == is_iso:
        return message
    try:
        if was_iso:
            return in_one_object(message)[1]
        spelled = in_dialect(message, True)
        return spelled if in_one_object(spelled)[1] == message else None
    except (Unreadable, *UNREADABLE):
        return None


class Player:
    """Plays messages at a host of one's own. `count` messages were compared when `first` differed, or in all.

    The proved host gives no reply to bytes in the style of ISO 8583 that can't be read. One's own may be silent, close the
    connection or decline them: its replies to them are passed over where the reply to the next message stands behind them.
    """

    def __init__(self, own, proved, is_iso):
        self.own, self.proved, self.is_iso, self.count, self.first = own, proved, is_iso, 0, None
        # How many messages that can't be read were sent last, and the last one that can.
        self.unread, self.last = 0, None

    def play(self, messages):
        """Plays them up to the first reply that differs. Behind the last ones that can't be read an earlier one comes again."""
        for message in messages:
            self.count += 1
            self.take(message)
            if self.first:
                return
        if self.unread and self.last:
            self.take(self.last)

    def take(self, message):
        """Sends a message, and compares its reply."""
        wanted = self.proved.ask(message, self.is_iso)
        if wanted is None:
            self.unread += self.own.send(message)
            return
        because, reply = self.proved.because(), self.reply(message, wanted)
        if reply != wanted:
            why = self.own.why if reply is None else ""
            self.first = Difference(self.count, message, reply, wanted, because, why, self.unread)
        self.unread, self.last = 0, message

    def reply(self, message, wanted):
        """The reply to a message, behind those to messages that can't be read."""
        reply = self.own.ask(message)
        for _ in range(self.unread):
            if reply == wanted or reply is not None and is_approval(reply):
                break
            reply = self.own.ask(message) if reply is None else self.own.receive()
        return reply


def is_approval(reply):
    """Whether a reply in the style of ISO 8583 has the code 00."""
    try:
        return fields_of(reply)[1].get(39) == GOOD
    except UNREADABLE:
        return False


# How a difference is told.

def name_of(message):
    """A message in words, as one object or not."""
    try:
        read = Message(message)
    except Unreadable:
        return "bytes that are no message", None
    return f"{NAMES[read.kind]} of {read.pan}, counter {read.counter.hex()}, amount {read.amount()}", read.kind


def rule_of(because, kind):
    """The rule behind a reason, with its place in the profile."""
    word = because.split(" ")[0]
    general = RULES.get(word) in ("HOST-1", "HOST-2", "HOST-3")
    name = RULES.get(word, "HOST-1") if general or kind not in KINDS else KINDS[kind]
    return cited(name)


def values_of(reply):
    """The objects of a reply with their values, in either dialect; None where it can't be read."""
    if reply[:1] == b"0":
        try:
            fields = fields_of(reply)[1]
        except UNREADABLE:
            return None
        return [(0x8A, fields.get(39, b"")), *((one.tag, one.value) for one in primitives(fields.get(55, b"")))]
    return [(one.tag, one.value) for one in primitives(reply)]


def object_lines(one):
    """Where the objects of two replies differ."""
    if one.reply is None or one.wanted is None:
        return []
    got, wanted = values_of(one.reply), values_of(one.wanted)
    return list(object_texts(got, wanted)) if got and wanted else []


def texts_of(one):
    """The lines that tell a difference: which message, both replies, and the rule and reason of the proved host's."""
    message = message_in(one.message) or b""
    words, kind = name_of(message)
    yield f"WRONG message {one.number}: {words} ({rule_of(one.because, kind)})"
    yield f"  message {one.message.hex()}"
    yield f"  reply   {one.reply.hex() if one.reply is not None else f'none: {one.why}'}"
    yield f"  wanted  {one.wanted.hex() if one.wanted is not None else f'none: {one.because}'}"
    yield from (f"  {text}" for text in object_lines(one))
    if one.unread:
        yield f"  {one.unread} messages before it can't be read: this may be the reply to one of them"
    yield f"  because {one.because}"


def alone(course, one, answers):
    """The talk that has a difference again: of the messages up to it those of the same account, and this account."""
    account = account_of(course.messages[one.number - 1])
    kept = [message for message in course.messages[: one.number - 1] if account and account_of(message) == account]
    said = [f"{'iso ' * course.is_iso}> {message.hex()}" for message in (*kept, course.messages[one.number - 1])]
    return Talk("", course.document, [Turn(line, answer, 0) for line, answer in zip(said, answers(said))])


def account_of(message):
    """The account number of a message, in either dialect; None where it can't be read."""
    try:
        return Message(message_in(message) or b"").pan
    except Unreadable:
        return None
