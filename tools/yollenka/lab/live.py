"""The card and the host that a terminal of another make talks with: the proved card, answers in place of its own, the issuer."""
import re
import subprocess
from itertools import count

from yollenka.faults import Fault
from yollenka.lab.emv import NAMES
from yollenka.model.document import scenario_of
from yollenka.model.issuer import Issuer
from yollenka.model.messages import Message, Unreadable
from yollenka.model.objects import Fault as ListFault
from yollenka.model.objects import account_number, command_in, entries, entry_in
from yollenka.model.selection import DIRECTORY, Terminated, gather, profile_and_locator
from yollenka.model.terminal import Terminal, cryptogram_in
from yollenka.model.world import Canned, World
from yollenka.lines import begin, card_document, end
from yollenka.refusals import near
from yollenka.scenarios import document

# The bit of the verification results' third byte.
ONLINE_PIN_ENTERED = 0x04
ORDINALS = "first second third fourth fifth sixth seventh eighth ninth tenth".split()
KEY = re.compile(rf"(?:({'|'.join(ORDINALS)}) )?([A-Z][A-Z/ ]*?[A-Z])(?: (\S*[0-9]\S*))?")


def names_of(said):
    """The names of a command: the plain one, and the one with what it is about."""
    one = command_in(said)
    plain = NAMES.get(said[:2].hex(), "")
    if one is None or not plain:
        return (plain,)
    high, low = one.header[2:]
    about = {
        "SELECT": DIRECTORY.decode() if one.data == DIRECTORY else one.data.hex().upper(), "READ RECORD": f"{low >> 3}.{high}",
        "GET DATA": f"{high:02X}{low:02X}",
    }
    return plain, f"{plain} {about.get(plain, '')}"


def check_key(key):
    """Refuses a key of `answer` that names no command."""
    found = KEY.fullmatch(key)
    if not key.isdigit() and (not found or found[2] not in NAMES.values()):
        wanted = [*NAMES.values(), *ORDINALS]
        raise Fault(f"answer: '{key}' is no command, as 'second GENERATE AC', and no number{near(key.upper(), wanted)}")


class Replaced:
    """A card of which some answers are replaced; it gets each command all the same. `given` has what the terminal got."""

    def __init__(self, card, answers):
        self.card, self.answers = card, answers

    def power_up(self, tear):
        """Turns the card on."""
        self.seen, self.given = {key: 0 for key in self.answers}, []
        self.card.power_up(tear)

    def counters(self):
        """What a power line shows."""
        return self.card.counters()

    def is_meant(self, key, said):
        """Whether a key of `answer` means this command, which is counted for it."""
        if key.isdigit():
            return len(self.given) + 1 == int(key)
        ordinal, name, about = KEY.fullmatch(key).groups()
        if (f"{name} {about}" if about else name) not in names_of(said):
            return False
        self.seen[key] += 1
        return ordinal is None or ORDINALS.index(ordinal) + 1 == self.seen[key]

    def answer(self, said):
        """The answer to a command, or None where the card is gone."""
        own = self.card.answer(said)
        meant = [key for key in self.answers if self.is_meant(key, said)]
        self.given.append(self.answers[meant[0]] if meant else own)
        return self.given[-1]


def with_answers(case):
    """The case's scenario, where the card of a case with other answers is one of canned answers: those of the model's run. Raises
    Fault where the case has another reply of the host, which no scenario can have."""
    if case.reply is not None:
        raise Fault(f"{case.name} has a reply in place of the issuer's, which no scenario can have")
    if not case.answers:
        return case.scenario
    world = World(scenario_of(document(case.scenario), "replay"))
    (name, card), = world.cards.items()
    world.cards[name] = replaced = Replaced(card, case.answers)
    lane, number = world.lanes[0], count()
    while (lane.course or lane.left) and next(number) < 2000:
        world.turn(lane)
    answers = [one for one in replaced.given]
    kept = answers[: answers.index(None)] if None in answers else answers
    canned = {"name": name, "canned": [one.hex().upper() for one in kept]}
    return case.scenario | {"card": [canned]}


def pull_line(tear):
    """The line that has a card pulled out where a purchase's tear says it."""
    at = tear["at"] if tear["at"] == "release" else f"{tear['at']} {tear['write']}"
    return f"pull {tear['commit']} {at}"


class ProgramCard:
    """The proved card of a scenario, by the lines of its program."""

    def __init__(self, scenario):
        self.process, self.lines = begin("card_at_reader", [], card_document(scenario))

    def power_up(self, tear):
        """Turns the card on, with a plan to pull it out."""
        if tear:
            self.lines.ask(pull_line(tear))
        self.is_on = not self.lines.ask("power").endswith("torn")

    def answer(self, said):
        """The answer to a command, or None where the card is gone."""
        told = self.lines.ask(said.hex()) if self.is_on and 1 <= len(said) <= 261 else "< torn"
        self.is_on = self.is_on and told not in ("< torn", "?")
        return bytes.fromhex(told[2:].strip("-")) if self.is_on else None

    def end(self):
        """Ends the program."""
        end(self.process)


class CannedCard(Canned):
    """A card of canned answers, which no plan pulls out."""

    is_on = True

    def __init__(self, scenario):
        super().__init__([bytes.fromhex(one) for one in scenario["card"][0]["canned"]])

    def end(self):
        """Nothing is to be ended."""


class Host:
    """The issuer's host behind the link of a case's purchase."""

    def __init__(self, case):
        kept = scenario_of(document(case.scenario), "replay")
        self.terminal, self.own = kept["lane"][0], case.reply
        self.issuer, self.link = Issuer(kept["issuer"], kept["account"]), self.terminal["purchase"][0]["link"]

    def message(self, text, exchanges):
        """What comes to the host: the message as it was written, or, where it is none of this project's, the request that the
        exchanges with the card amount to. Raises Fault where they amount to none."""
        try:
            sent = bytes.fromhex(text)
            Message(sent)
            return sent
        except (ValueError, Unreadable):
            return request_of(self.terminal, exchanges)

    def reply(self, message):
        """The reply to a message, or None where none comes back."""
        replies = [self.issuer.answer(message) for _ in range({"request_lost": 0, "twice": 2}.get(self.link, 1))]
        return (self.own or replies[0]) if replies and self.link != "reply_lost" else None


def request_of(settings, exchanges):
    """The request of a terminal behind these exchanges: what the card gave, and what was sent with the first GENERATE AC."""
    (purchase,), held, said = settings["purchase"], {}, None
    terminal, pins = Terminal(settings, purchase, []), list(purchase["pins"])
    try:
        for one in exchanges:
            name = NAMES.get(one.sent[:2].hex())
            if name == "GET PROCESSING OPTIONS":
                terminal.profile = profile_and_locator(one.got[:-2])[0]
            elif name == "READ RECORD":
                keep_record(held, one.got[:-2])
            elif name == "GENERATE AC":
                said, terminal.cryptogram = command_in(one.sent).data, cryptogram_of(one.got[:-2])
            elif name == "VERIFY":
                del pins[:1]
        for tag, length in entries(held[0x8C]):
            terminal.objects[tag] = entry_in(entries(held[0x8C]), tag, length, said)
        terminal.held, terminal.pan, terminal.sent_results = held, account_number(held[0x5A]), terminal.objects[0x95]
        terminal.pin = pins[0] if pins and terminal.sent_results[2] & ONLINE_PIN_ENTERED else None
        return terminal.request()
    except (AttributeError, KeyError, TypeError, IndexError, Terminated, ListFault):
        raise Fault("a message to the host before a first GENERATE AC with an answer") from None


def keep_record(held, body):
    """Puts the objects of a record into the map, where it is one of the application's."""
    try:
        gather(held, body)
    except Terminated:
        pass  # a record of a directory or of a log


def cryptogram_of(body):
    """What an answer to GENERATE AC gives, as the terminal's messages have it."""
    _, counter, code, data = cryptogram_in(body, "first")
    return {0x9F36: counter, 0x9F26: code, 0x9F10: data}


def card_of(case):
    """The card of a case, to be powered up; `end` of its `card` ends it."""
    own = CannedCard if "canned" in case.scenario["card"][0] else ProgramCard
    return Replaced(own(case.scenario), case.answers)
