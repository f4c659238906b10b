"""The image of a card that is compared: its document, and the state in which the card stood when its first log began."""
from itertools import chain, takewhile

from yollenka.faults import Fault
from yollenka.lab.cards import table
from yollenka.lab.cases import base
from yollenka.lab.emv import information, primitives
from yollenka.model.objects import command, entries, spelled, total
from yollenka.lab.worlds import Proved
from yollenka.refusals import near
from yollenka.scenarios import document, read_document

# What GET DATA tells of a state: the object, the key that it has in an image.
TOLD = {0x9F36: "counter", 0x9F13: "last_online", 0x9F17: "tries"}
DEFAULTS = {"counter": 0, "last_online": 0, "tries": 3}
NAMES = {"counter": "9F36 transaction counter", "last_online": "9F13 last online counter", "tries": "9F17 PIN tries"}
MOST = 65_535
SELECT, OPTIONS, VERIFY, GET_DATA, AUTHENTICATE = (bytes.fromhex(text) for text in ("00A4", "80A8", "0020", "80CA", "0082"))
GOOD = b"\x90\x00"


def from_words(path, tables):
    """The image of a card in words, with the issuer's keys."""
    try:
        made = base(tables)
        return {"issuer": made["issuer"], "card": [table(made["card"])]}
    except Fault as fault:
        raise Fault(f"{path}: {fault}") from None


def started_less(card, started):
    """A card of which these applications, by their places, haven't begun their last transaction."""
    if not started:
        return card
    return card | {"app": [app | ({"counter": app["counter"] - 1} if number in started else {})
                           for number, app in enumerate(card["app"])]}


class Image:
    """A card's image in a file. `taken` says what was taken from a log, so not judged."""

    def __init__(self, path):
        self.path, self.taken, self.tries = path, [], {}
        self.table = read_document(path)
        if isinstance(self.table.get("card"), dict):
            self.table = from_words(path, self.table)
        cards = self.table.get("card")
        if not isinstance(cards, list) or not all(isinstance(card, dict) for card in cards) or not cards:
            raise Fault(f"{path}: it has neither [[card]] nor [card], the card's image")
        self.cards = {str(card.get("name")): card for card in cards}

    def known(self, name):
        """This card's name, where it is in the image; without a name the first card with applications."""
        if name is None:
            return next((one for one, card in self.cards.items() if "app" in card), next(iter(self.cards)))
        if name not in self.cards:
            raise Fault(f"{self.path}: no card has the name {name!r}{near(name, [*map(str, self.cards)])}")
        return name

    def has_applications(self, name):
        """Whether a card has applications."""
        return "app" in self.cards[name]

    def document(self):
        """The document that the proved card gets."""
        cards = [started_less(card, {number for its, number in self.tries if its == name}) for name, card in self.cards.items()]
        return document({key: self.table[key] for key in ("issuer",) if key in self.table} | {"card": cards})

    def proved(self, name):
        """The proved card of this name. Raises Fault where the image is refused."""
        card = Proved(self.document(), name)
        try:
            card.ask("off")
        except Fault as fault:
            raise Fault(f"{self.path}: {fault}") from None
        return card

    def begin(self, sessions, name, counters):
        """Puts each card where it stood when these sessions began: by these counters, else by what GET DATA says in them."""
        for card in dict.fromkeys(name or self.known(one.card) for one in sessions):
            if not self.has_applications(card):
                continue
            self.proved(card).close()
            own = [one for one in sessions if (name or self.known(one.card)) == card]
            heard = Heard(self.cards[card]["app"])
            heard.hear(own)
            taken = {place: value for place, value in heard.found.items() if place[1] != "counter" or counters is None}
            self.take_all(card, taken)
            if counters is not None:
                self.count(card, counters)

    def take_all(self, card, found):
        """Takes what was heard of a card."""
        for app, key in sorted(found):
            self.take(card, app, key, found[app, key])

    def count(self, card, counters):
        """Sets the counters of a card's applications, in their order."""
        apps = self.cards[card]["app"]
        if len(counters) != len(apps) or not all(0 <= one <= MOST for one in counters):
            count = f"{len(apps)} application{'s' * (len(apps) > 1)}"
            raise Fault(f"--counter: card {card} has {count}: as many numbers from 0 to 65535")
        for app, one in zip(apps, counters):
            app["counter"] = one

    def take(self, card, number, key, value):
        """Takes a value from a log, where the image has another."""
        app = self.cards[card]["app"][number]
        if value == app.get(key, DEFAULTS[key]):
            return
        if key == "tries":
            if app.get("pin") is None or value > app.get("tries", DEFAULTS[key]) or not app.get("counter"):
                return
            self.tries[card, number] = value
        else:
            app[key] = value
        self.taken.append(f"taken from the log, so not judged: {NAMES[key]} {value}")

    def before(self, card):
        """What is said to the proved card before its first session, so that it has as few PIN tries as the card: a transaction
        with wrong PINs. Its counter begins one lower."""
        for (name, number), value in self.tries.items():
            if name == card:
                app = self.cards[card]["app"][number]
                wrong = "0000" if app["pin"] != "0000" else "1111"
                size = total(entries(bytes.fromhex(app.get("pdol", ""))))
                lines = [command("00A40400", bytes.fromhex(app["name"])), command("80A80000", spelled(0x83, bytes(size)))]
                lines += [bytes.fromhex(f"002000800824{wrong}FFFFFFFFFF")] * (app.get("tries", DEFAULTS["tries"]) - value)
                yield from ["power", *(line.hex() for line in lines), "off"]


def exchanges_of(sessions):
    """The exchanges of the sessions in front that have no power line, with a None before each session's."""
    own = takewhile(lambda session: session.power is None, sessions)
    return chain.from_iterable([None, *session.exchanges] for session in own)


class Heard:
    """What GET DATA says in the sessions of a card up to the first pull, reckoned back to where they begin: `found` has it by the
    application's place and the key."""

    def __init__(self, apps):
        self.names, self.found = [bytes.fromhex(app["name"]) for app in apps], {}
        self.started, self.moved, self.app = {}, set(), None

    def hear(self, sessions):
        """Hears these sessions. A report's power lines tell more, and nothing is taken from it."""
        for one in takewhile(lambda one: one is None or one.got is not None, exchanges_of(sessions)):
            if one is None:
                self.app = None
            else:
                self.listen(one.sent, one.got)

    def listen(self, sent, got):
        """Hears an exchange."""
        kind = sent[:2]
        if kind == SELECT:
            name = information(got)[1]
            self.app = self.names.index(name) if name in self.names else None
        elif self.app is None or got[-2:] != GOOD and kind != VERIFY:
            return
        elif kind == OPTIONS:
            self.started[self.app] = self.started.get(self.app, 0) + 1
        elif kind == VERIFY:
            self.moved.add((self.app, "tries"))
        elif kind == AUTHENTICATE:
            self.moved |= {(self.app, "tries"), (self.app, "last_online")}
        elif kind == GET_DATA:
            self.take(primitives(got[:-2]))

    def take(self, objects):
        """Takes the objects of an answer to GET DATA, each the first time, as long as nothing has changed it."""
        for one in objects:
            place = self.app, TOLD.get(one.tag)
            value = int.from_bytes(one.value) - (self.started.get(self.app, 0) if one.tag == 0x9F36 else 0)
            if place[1] and place not in self.moved and value >= 0:
                self.found.setdefault(place, value)
