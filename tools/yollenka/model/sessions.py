"""Random sessions of a card at lines (docs/use/reader.md), from a number: the same number draws the same ones."""
from yollenka.scenarios import document

from .commands import Commands
from .comparing import lines_of
from .document import Refused, cards_of
from .draw import ISSUER, Draw
from .reader import CannedAtLines, CardAtLines

# How many lines there are for a card, and how many for one that lives long. In a marathon so many commands decide, behind
# those that lead to the first of them.
MOST_LINES, LONG, MARATHON, LEADING = 60, 250, 256, 40
NO_LINES = ["", "Power", "power ", "off ", "pull 1 before 0", "pull 256 release", "pull 1 within 256", "pull 1 before", "pull release",
            "pull 1 after 1", "00a4040", "00 a4 04 00", "0x00a40400", "zz", "document 3", "> 00a40400", "pull 1 release 1"]

ASKED = ["state", "state", "torn", "decided", "decided", "why", "why"]


class Sessions:
    """Draws a card's document and the lines that it is given, as the model answers them."""

    def __init__(self, seed):
        self.draw = Draw(seed)
        self.text, image = self.drawn()
        self.lines, self.answers = [], []
        self.card = CardAtLines(image)
        self.commands = Commands(self.draw, self.card.card)

    def drawn(self):
        """A document with one card that can be read, and the card."""
        draw = self.draw
        while True:
            draw.pans = [draw.pan()]
            text = document({"issuer": ISSUER, "card": [draw.card(0)[0]]})
            try:
                return text, cards_of(text)[0]
            except Refused:
                pass

    def say(self, line):
        """A line more."""
        self.lines.append(line)
        self.answers.append(self.card.answer(line))

    def pull(self, commit=None):
        """A line that has the card pulled out, often at the write that opens the gate."""
        draw = self.draw
        commit = draw.one_of([0, 1, 1, 1, 1, 2, 2, 2, 3, 3, 4, 5, 6, 8, 40, 255]) if commit is None else commit
        write = draw.one_of([1, 1, 2, 3, 3, 3, 3, 4, 4, 4, 5, 5, 6, 7, 8, 9, 12, 37, 128, 255])
        return f"pull {commit} {draw.one_of([f'before {write}', f'within {write}', f'within {write}', 'release'])}"

    def line(self):
        """The next line."""
        draw, what = self.draw, self.draw.below(120)
        waits = self.card.plan is not self.card.taken
        if not self.card.is_on:
            further = [self.pull(), self.pull(0), "pull 0 before 1", "off", "00a4040007a000000003101000", *ASKED]
            return draw.one_of(["power"] * 8 + further)
        if what < (20 if waits else 3):
            return "power"
        if 30 <= what < (36 if draw.calm else 40) and not waits:
            return self.pull()
        if what == 50:
            return draw.one_of(["off", *NO_LINES])
        if what in (51, 52, 53):
            return draw.one_of(ASKED)
        told = {"ae": "why", "82": "decided"}.get(self.lines[-1][2:4].lower()) if self.lines else None
        if told and what < 90:
            return told
        return draw.text(self.commands.command())

    def talk(self, most=MOST_LINES):
        """Up to so many lines, fewer where the card is blocked."""
        for _ in range(most):
            line = self.line()
            if line in ("power", "off") and self.draw.now(2, 3):
                self.say("decided")
            self.say(line)
            if self.card.is_on and self.card.card.state["blocked"] and self.draw.now(1, 6):
                break
        self.say("decided")
        return self

    def long(self):
        """Many purchases of a card, most of which come to their end."""
        self.draw.calm = True
        return self.talk(LONG)

    def marathon(self):
        """Many decisions in one session, and a place at its end at which the card is pulled out."""
        draw, commit = self.draw, self.draw.one_of([100, 127, 128, 200, 254, 255])
        self.say(f"pull {commit} {draw.one_of(['before 1', 'before 3', 'within 1', 'within 3', 'before 255', 'release'])}")
        self.say("power")
        for _ in range(LEADING):
            if not self.card.is_on or self.card.card.phase == "online":
                break
            self.say(self.commands.leading().hex())
        for _ in range(MARATHON):
            if not self.card.is_on or self.card.card.phase != "online":
                break
            self.say(self.commands.endless().hex())
        self.say("decided")
        return self.talk()


class CannedSessions:
    """Draws a card of canned answers and the lines that it is given, as the model answers them."""

    def __init__(self, seed):
        draw = Draw(seed)
        answers = [draw.octets(draw.one_of([0, 1, 2, 2, 3, 20, 258])) for _ in range(draw.one_of([0, 1, 2, 5, 12]))]
        self.text = document({"issuer": ISSUER, "card": [{"name": "c0", "canned": [answer.hex() for answer in answers]}]})
        lines = ["power"] * 3 + ["off", "pull 1 release", *ASKED, *NO_LINES]
        self.lines = [draw.one_of(lines) if draw.now(1, 3) else draw.octets(draw.one_of([1, 4, 5, 261])).hex() for _ in range(MOST_LINES)]
        card = CannedAtLines(answers)
        self.answers = [card.answer(line) for line in self.lines]


def sessions(seed, number):
    """The sessions of a number under a seed: five of thirty are long, one is a marathon, and one is of a card of canned answers."""
    seed = f"{seed}/{number}"
    if number % 30 == 28:
        return CannedSessions(seed)
    drawn = Sessions(seed)
    if number % 30 == 29:
        return drawn.marathon()
    return drawn.long() if number % 6 == 0 else drawn.talk()


def answers_to(text, lines):
    """The lines that the model answers to these lines on a document's first card."""
    card = cards_of(text)[0]
    at_lines = CardAtLines(card) if card["canned"] is None else CannedAtLines(card["canned"])
    return lines_of(map(at_lines.answer, lines))
