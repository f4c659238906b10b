"""The proved card beside a card that was pulled out: one card for each state in which it may have been left."""
from yollenka.faults import Fault
from yollenka.lines import begin, end

# What each decision of a command keeps, in their order: before the first one, behind it, behind the second one.
KEPT = {
    b"\x80\xa8": ("the counter isn't taken", "the counter is taken"),
    b"\x00\x20": ("no try is taken", "a try is taken", "the tries are given back"),
    b"\x80\xae": ("the cryptogram isn't decided", "the cryptogram is decided"),
    b"\x00\x82": ("the issuer isn't judged", "the issuer is judged"),
}
SCRIPT = ("the command isn't carried out", "it is carried out")
NAMES = ("counter", "last online", "offline approvals", "sum", "PIN tries", "flags", "sum in the second currency")
# Two states with one power line are one state behind these: a counter and tries are all that they change.
PLAIN = (None, b"\x80\xa8", b"\x00\x20")
MOST = 64


class Proved:
    """The proved card of a document, by its name, and what was said to it. `words` is how it came to stand where it does."""

    def __init__(self, document, name):
        self.document, self.name, self.said, self.words = document, name, [], ""
        self.process, self.lines = begin("card_at_reader", [name], document)

    def ask(self, line):
        """Says a line; gives the card's."""
        self.said.append(line)
        told = self.lines.ask(line)
        if told.startswith("refused ") or told == "" or told == "?" and line in ("power", "off"):
            raise Fault(told or "card_at_reader has ended")
        return told

    def hear(self, lines):
        """Says these lines."""
        for line in lines:
            self.ask(line)

    def numbers(self):
        """The numbers of its power line; it is off behind it."""
        told = self.ask("power").removeprefix("power ")
        self.ask("off")
        return told

    def answer(self, command):
        """Its answer to a command."""
        told = self.ask(command.hex())
        # A command that it can't be given, of less than four bytes or more than 261, is no command for any card.
        return bytes.fromhex(told[2:]) if told.startswith("< ") else b"\x67\x00"

    def close(self):
        """Ends its program."""
        end(self.process)

    def pulled(self, plan):
        """A card to which the same was said, pulled out at this place behind its last power-up; and at which line from there."""
        last = len(self.said) - 1 - self.said[::-1].index("power")
        other = Proved(self.document, self.name)
        other.hear([*self.said[:last], f"pull {plan}"])
        for at, line in enumerate(self.said[last:]):
            if other.ask(line).endswith("torn"):
                return other, at
        other.close()
        return None, None


def places(card):
    """The commits of the card's last line, counted from its power-up, each with a card that was pulled out before it."""
    last = card.said[::-1].index("power")
    for commit in range(256):
        other, at = card.pulled(f"{commit} before 1")
        if other is None:
            return
        if at == last:
            yield commit, other
        else:
            other.close()


def left_by(card, command):
    """The states in which this card may stand, pulled out before it had answered this command, its last line; None is the
    power-up. Each keeps one more of the command's decisions."""
    found = list(places(card))
    if not found:
        card.ask("off")
        return [card]
    cards = [other for _, other in found] + [card.pulled(f"{found[-1][0]} release")[0]]
    names = KEPT.get(command[:2], SCRIPT) if command else [card.words] * len(cards)
    for number, other in enumerate(cards):
        other.words = names[number] if number < len(names) else f"{number} of its decisions are kept"
    card.close()
    return cards


def apart(cards, is_plain):
    """The cards without those that stand where another one does: by their power lines, where these tell all."""
    seen, found = set(), []
    for card in cards:
        numbers = card.numbers()
        if numbers in seen and (is_plain or len(found) >= MOST):
            card.close()
        else:
            seen.add(numbers)
            found.append(card)
    return found


def left(cards, command):
    """All states in which the card may stand behind a pull before it had answered this command."""
    found = [other for card in cards for other in left_by(card, command)]
    return apart(found, command is None or command[:2] in PLAIN)


def in_words(numbers):
    """The numbers of a power line in words."""
    apps = [", ".join(f"{name} {value}" for name, value in zip(NAMES, one.split(","))) for one in numbers.split(" ")]
    return apps[0] if len(apps) == 1 else "; ".join(f"application {at}: {text}" for at, text in enumerate(apps, 1))


def number_texts(got, wanted):
    """The numbers in which one power line differs from another, a line each."""
    rows = [[one.split(",") for one in line.split(" ")] for line in (got, wanted)]
    if [len(one) for one in rows[0]] != [len(one) for one in rows[1]]:
        yield f"it is {got}, should be {wanted}"
        return
    every = [(app, *one) for app, (mine, other) in enumerate(zip(*rows), 1) for one in zip(NAMES, mine, other)]
    for app, name, value, should in every:
        if value != should:
            yield f"{name}{f' of application {app}' if len(rows[0]) > 1 else ''} is {value}, should be {should}"
