"""Whole runs: lanes and their turns, settlement, audit; what `read` gives; and the verdict on a trace."""
from itertools import count

from .card import Card
from .issuer import Issuer
from .memory import Lost, Store
from .objects import command, tag_text
from .terminal import Terminal

MOST_STORED = 7


def shown(data):
    """Bytes as reports have them."""
    return data.hex() or "-"


class Canned:
    """A card that gives one answer after the other."""

    def __init__(self, answers):
        self.answers = answers

    def power_up(self, _):
        """The first answer comes next."""
        self.left = iter(self.answers)

    def counters(self):
        """What its power line shows."""
        return "canned"

    def answer(self, _):
        """The next answer, or None where there is none."""
        return next(self.left, None)


def stored(messages):
    """The state of a store of captures."""
    return bytes([1, len(messages)]) + b"".join(len(message).to_bytes(2) + message for message in messages)


def messages_in(state):
    """The captures of a store, the oldest first."""
    found, rest = [], state[2:]
    while rest:
        end = 2 + int.from_bytes(rest[:2])
        found.append(rest[2:end])
        rest = rest[end:]
    return found


class Lane:
    """A terminal with its purchases."""

    def __init__(self, settings, number):
        self.settings, self.number = settings, number
        self.left = list(zip(count(1), settings["purchase"]))
        self.course, self.terminal, self.card = None, None, None
        self.approved, self.captures = [], []
        self.store = Store(stored([])) if settings["durable"] else None
        self.is_open = self.delivers = False

    def kept(self):
        """The captures that wait for settlement."""
        return messages_in(self.store.state) if self.store else self.captures


class World:
    """A scenario as it runs; `lines` is its report."""

    def __init__(self, scenario):
        self.scenario, self.lines, self.ended = scenario, [], 0
        self.issuer = Issuer(scenario["issuer"], scenario["account"])
        self.cards = {
            one["name"]: Canned(one["canned"]) if one["app"] is None else Card(one) for one in scenario["card"]
        }
        self.lanes = [Lane(lane, number) for number, lane in enumerate(scenario["lane"])]

    def run(self):
        """The report of `replay`."""
        for number in self.scenario["schedule"]:
            self.turn(self.lanes[number])
        while any(lane.course or lane.left for lane in self.lanes):
            for lane in self.lanes:
                self.turn(lane)
        for lane in self.lanes:
            if lane.store:
                lane.store.open()
            for message in lane.kept():
                self.settle(lane, message)
        for name, card in self.cards.items():
            if not isinstance(card, Canned):
                self.audit(name, card)
        self.lines += [f"balance {pan} {self.issuer.balance(pan)}" for pan in self.issuer.accounts]
        return [*self.lines, f"done {self.ended}"]

    def read(self):
        """The report of `read`: the first lane's first purchase, without a tear."""
        lane = self.lanes[0]
        number, purchase = lane.left[0]
        lane.left = [(number, purchase | {"tear": None, "terminal_tear": None})]
        while not self.ended and not (lane.terminal and lane.terminal.held):
            self.turn(lane)
        if self.ended:
            self.lines.pop()
        held = lane.terminal.held
        if held is None:
            return [*self.lines, f"read {lane.terminal.ending}"]
        return [*self.lines, *(f"object {tag_text(tag)} {shown(held[tag])}" for tag in sorted(held)), "read ok"]

    def settle(self, lane, message):
        """Hands a capture to the issuer, as often as the scenario says."""
        for _ in range(self.scenario["copies"]):
            reply = self.issuer.answer(message)
            self.lines += [f"S{lane.number} > {shown(message)}", f"S{lane.number} < {shown(reply)}"]

    def audit(self, name, card):
        """Asks a card for its counters."""
        card.power_up()
        self.lines.append(f"A {name} power {card.counters()}")
        for app in card.image["app"]:
            for said in (command("00A40400", app["name"]), command("80CA9F36"), command("80CA9F13")):
                self.lines += [f"A {name} > {shown(said)}", f"A {name} < {shown(card.answer(said))}"]

    def turn(self, lane):
        """One exchange of a lane, if it has one."""
        if lane.course:
            self.exchange(lane)
        elif lane.left and not any(other.card == lane.left[0][1]["card"] for other in self.lanes):
            try:
                if self.is_ready(lane):
                    self.begin(lane)
            except Lost:
                self.lose(lane)

    def is_ready(self, lane):
        """Opens the terminal's store, and makes room in a full one, each a turn where there is something to deliver."""
        if not lane.store:
            return True
        if not lane.is_open:
            lane.is_open = True
            lane.store.open(lane.left[0][1]["terminal_tear"])
            lane.delivers = len(lane.kept()) == MOST_STORED
            return not lane.delivers
        if not lane.delivers:
            return True
        lane.delivers = False
        oldest, *rest = lane.kept()
        self.settle(lane, oldest)
        lane.store.commit(stored(rest))
        return False

    def lose(self, lane):
        """The terminal's power went: its purchase has ended."""
        number, _ = lane.left.pop(0)
        lane.course, lane.card, lane.is_open, lane.delivers = None, None, False, False
        self.lines.append(f"L{lane.number} end {number} lost")
        self.ended += 1

    def terminal(self, lane, purchase):
        """The terminal of a lane's purchase."""
        return Terminal(lane.settings, purchase, lane.approved)

    def begin(self, lane):
        """Powers the card up."""
        _, purchase = lane.left[0]
        lane.card, card = purchase["card"], self.cards[purchase["card"]]
        lane.terminal = self.terminal(lane, purchase)
        lane.course, head = lane.terminal.run(), f"L{lane.number} power {lane.card}"
        lane.asked = next(lane.course)
        try:
            card.power_up(purchase["tear"])
        except Lost:
            self.lines.append(f"{head} torn")
            self.say(lane, None)
        else:
            self.lines.append(f"{head} {card.counters()}")

    def exchange(self, lane):
        """Puts what the terminal asks to the card or to the host."""
        step, said = lane.asked
        self.say(lane, self.to_host(lane, said) if step == "online" else self.to_card(lane, said))

    def to_card(self, lane, said):
        """A command and its answer, or None where the card is gone."""
        head = f"L{lane.number}"
        try:
            answer = self.cards[lane.card].answer(said)
            told = "gone" if answer is None else shown(answer)
        except Lost:
            answer, told = None, "torn"
        self.lines += [f"{head} > {shown(said)}", f"{head} < {told}"]
        return answer

    def to_host(self, lane, said):
        """A message and its reply, or None where none comes back."""
        head, link, reply = f"L{lane.number} host", lane.left[0][1]["link"], None
        for _ in range({"request_lost": 0, "twice": 2}.get(link, 1)):
            reply = self.issuer.answer(said)
        reply = None if link == "reply_lost" else reply
        self.lines += [f"{head} > {shown(said)}", f"{head} < {'none' if reply is None else shown(reply)}"]
        return reply

    def say(self, lane, reply):
        """Tells the terminal; it asks again or has ended."""
        try:
            lane.asked = lane.course.send(reply)
        except StopIteration:
            try:
                self.end(lane)
            except Lost:
                self.lose(lane)

    def end(self, lane):
        """The end line; what was captured is kept before it is made."""
        terminal, capture = lane.terminal, lane.terminal.capture
        if capture and lane.store:
            lane.store.commit(stored([*lane.kept(), capture]))
        elif capture:
            lane.captures.append(capture)
        number, purchase = lane.left.pop(0)
        self.lines.append(f"L{lane.number} end {number} {terminal.end()}")
        if terminal.ending.startswith("approved"):
            lane.approved.append((terminal.pan, purchase["amount"]))
        lane.course, lane.card, lane.is_open = None, None, False
        self.ended += 1


def verdict(settings, entries):
    """Whether a trace is the terminal's dialogue: None, or the number of the entry up to which it isn't the front of one."""
    terminal = Terminal(settings, settings["purchase"][0], [])
    course, reply, place = terminal.run(), None, 0
    try:
        while True:
            step, said = course.send(reply)
            card_or_host = "host " if step == "online" else ""
            if entries[place : place + 1] != [(f"{card_or_host}>", said)]:
                return place
            if len(entries) == place + 1 or entries[place + 1][0] != f"{card_or_host}<":
                return place + 1
            reply = entries[place + 1][1]
            place += 2
    except StopIteration:
        if entries[place : place + 1] != [("end", terminal.end().encode("latin1"))]:
            return place
    return None if len(entries) == place + 1 else place + 1
