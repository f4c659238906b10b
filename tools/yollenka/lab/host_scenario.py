"""A scenario whose issuer is a host of one's own: the proved terminal and the proved cards, turn by turn.

What is asked and answered is theirs. Which lane has its turn, what is lost on the link, the memory of a durable lane, which
messages are captured and the settlement are the model's (tools/yollenka/model), and so is each message besides: where the proved
terminal says something else, that is a fault of this project. Where each reply was the proved host's, the whole report has to be
that of `emvrun replay`.
"""
from dataclasses import dataclass

from yollenka.faults import Fault
from yollenka.lab.host_dialect import as_object, delivered, in_dialect, shown_in
from yollenka.lab.live import pull_line
from yollenka.lab.oracle import Reference
from yollenka.lines import begin, card_document, end, terminal_document
from yollenka.model.document import scenario_of
from yollenka.model.issuer import GOOD, Issuer, Kept
from yollenka.model.memory import Lost
from yollenka.model.messages import Message
from yollenka.model.objects import objects
from yollenka.model.terminal import Terminal
from yollenka.model.world import Canned, World, shown
from yollenka.scenarios import document

# A place which no session comes to, in place of a plan that isn't to fire any more.
NOWHERE = "pull 255 release"


class ScenarioCard:
    """The proved card of a scenario, as the model's world takes a card."""

    def __init__(self, scenario, name, image):
        self.process, self.lines = begin("card_at_reader", [name], card_document(scenario))
        self.image, self.is_planned, self.numbers = image, False, ""

    def power_up(self, tear=None):
        """Turns it on, with a plan to pull it out or none."""
        if tear or self.is_planned:
            self.lines.ask(pull_line(tear) if tear else NOWHERE)
        self.is_planned = tear is not None
        self.numbers = self.said("power").removeprefix("power ")

    def said(self, line):
        """Its answer to a line. Raises Lost where it was pulled out."""
        told = self.lines.ask(line)
        if told.endswith("torn"):
            self.is_planned = False
            raise Lost
        if told in ("", "?"):
            raise Fault(f"card_at_reader says {told!r} to {line}")
        return told

    def counters(self):
        """What a power line shows."""
        return self.numbers

    def answer(self, said):
        """The answer to a command."""
        return bytes.fromhex(self.said(said.hex()).removeprefix("< "))

    def close(self):
        """Ends its program."""
        end(self.process)


class ScenarioTerminal(Terminal):
    """The model's terminal, which goes along with the proved one: what it yields is what that one asks. `text` gives the proved
    one's document with an amount as its floor limit, or None; `tell` takes a line for people."""

    def __init__(self, settings, purchase, log, text, tell):
        super().__init__(settings, purchase, log)
        self.text, self.tell, self.replies, self.reference = text, tell, [], Reference(text(None))

    def agree(self, asked):
        """Whether the proved terminal asks this; None is the end."""
        one = self.reference
        return one is None or (one.end == self.end() if asked is None else one.ask == asked[1])

    def remember(self):
        """The proved terminal has no memory of earlier purchases: it begins again with the amount as its floor limit, which is
        reached then, and gets the same replies."""
        self.reference.close()
        self.reference = Reference(self.text(self.purchase["amount"]))
        for reply in self.replies:
            self.reference.reply(reply)

    def leave(self):
        """Goes on alone: a purchase that reaches its floor limit with the one before and is selected at random too can't be told
        to the proved terminal."""
        self.tell("the proved terminal has no memory of earlier purchases, and the model goes on alone in one")
        self.reference.close()
        self.reference = None

    def step(self, asked):
        """What is asked next, or None at the end, once both terminals have it."""
        if not self.agree(asked) and self.log:
            self.remember()
            if not self.agree(asked):
                self.leave()
        if not self.agree(asked):
            raise Fault("terminal_at_reader and the model of its rules say other things: "
                        f"{self.reference.fed[-1]}, and {shown(asked[1]) if asked else self.end()}")
        return asked

    def run(self):
        """Yields what both ask."""
        course, reply = super().run(), None
        try:
            while True:
                asked = course.send(reply)
                reply = yield self.step(asked)
                self.replies.append(reply)
                if self.reference:
                    self.reference.reply(reply)
        except StopIteration:
            self.step(None)
        finally:
            if self.reference:
                self.reference.close()


class OwnIssuer(Issuer):
    """An issuer whose host is one's own: what its replies grant, book and set free makes the balances."""

    def __init__(self, keys, accounts, host, judge):
        super().__init__(keys, accounts)
        self.host, self.judge = host, judge

    def answer(self, data):
        """The reply to these bytes, as one object; None where none came."""
        self.count += 1
        is_iso = self.judge.is_iso
        sent = in_dialect(data, is_iso)
        raw = self.host.ask(sent)
        self.judge.take(sent, raw, self.host.why)
        reply, message = as_object(data, raw, is_iso), Message(data)
        kept = Kept(message, self.count)
        kept.reply, kept.reason = reply, ("approved",) if code_of(reply) == GOOD else ("declined",)
        self.kept.setdefault((message.kind, message.transaction), kept)
        return reply


def code_of(reply):
    """The response code of a reply; None where it has none."""
    outer = objects(reply or b"")[0]
    inner = objects(outer[0].value)[0] if outer and outer[0].tag == 0xE2 else []
    return inner[0].value if inner and inner[0].tag == 0x8A else None


@dataclass
class Difference:
    """A reply that isn't the proved host's: the number of the message, from 1, the message, both replies, the reason of the proved
    one, why there is no reply, and how many messages that can't be read came just before."""

    number: int
    message: bytes
    reply: bytes | None
    wanted: bytes | None
    because: str
    why: str = ""
    unread: int = 0


class Judge:
    """Compares each reply with that of the proved host to the same message."""

    def __init__(self, proved, is_iso):
        self.proved, self.is_iso, self.count, self.first = proved, is_iso, 0, None

    def take(self, message, reply, why):
        """Takes a message and its reply."""
        self.count += 1
        wanted = self.proved.ask(message, self.is_iso)
        if reply != wanted and self.first is None:
            self.first = Difference(self.count, message, reply, wanted, self.proved.because(), why if reply is None else "")


class AtHost(World):
    """A scenario as it runs at a host of one's own."""

    def __init__(self, table, host, judge, tell):
        super().__init__(scenario_of(document(table), "replay"))
        self.table, self.tell = table, tell
        self.issuer = OwnIssuer(self.scenario["issuer"], self.scenario["account"], host, judge)
        self.cards |= {one["name"]: ScenarioCard(table, one["name"], one) for one in self.scenario["card"] if one["app"] is not None}

    def terminal(self, lane, purchase):
        """The terminal of a lane's purchase: the proved one beside the model's."""
        number = lane.left[0][0]

        def text(floor):
            """Its document, with this amount as the floor limit of each row where that is below it."""
            rows = [row if floor is None or row["floor"] <= floor else row | {"floor": floor, "threshold": 0}
                    for row in self.table["lane"][lane.number]["aid"]]
            lanes = [one | ({"aid": rows} if at == lane.number else {}) for at, one in enumerate(self.table["lane"])]
            return terminal_document(self.table | {"lane": lanes}, lane.number, number)
        return ScenarioTerminal(lane.settings, purchase, lane.approved, text, self.tell)

    def told(self, lane, head, message, reply):
        """The lines of a message and its reply, in the lane's dialect."""
        is_iso = lane.settings["dialect"] == "iso"
        back = shown_in(message, reply, is_iso)
        return [f"{head} > {shown(in_dialect(message, is_iso))}", f"{head} < {'none' if back is None else shown(back)}"]

    def to_host(self, lane, said):
        """A message and its reply, or None where none comes back; of two replies the first one."""
        reply = delivered(lane.left[0][1]["link"], lambda: self.issuer.answer(said))
        self.lines += self.told(lane, f"L{lane.number} host", said, reply)
        return reply

    def settle(self, lane, message):
        """Hands a capture to the host, as often as the scenario says."""
        for _ in range(self.scenario["copies"]):
            self.lines += self.told(lane, f"S{lane.number}", message, self.issuer.answer(message))

    def close(self):
        """Ends the cards' programs."""
        for card in self.cards.values():
            if not isinstance(card, Canned):
                card.close()
