"""`lab card`: the answers of a card beside those of the proved card of its image."""
import sys
from dataclasses import dataclass, field, replace
from pathlib import Path

from yollenka.faults import Fault
from yollenka.lab import FAILED, INCONCLUSIVE, PASSED
from yollenka.lab.answers import differences
from yollenka.lab.at_reader import Pcsc, announced, chosen, sessions_at
from yollenka.lab.attempts import RISKS
from yollenka.lab.emv import command_name
from yollenka.lab.images import Image
from yollenka.lab.judge import text_of
from yollenka.lab.sessions import CANNED, TORN, sessions_of
from yollenka.lab.told import finding_texts
from yollenka.lab.verdict import BEHIND, NOTE, WRONG, Line
from yollenka.lab.worlds import in_words, left, number_texts

TEXT = """\
The commands of each log are given to the proved card of IMAGE.toml, and the answers compared object by object. A log has
one or more sessions, each from a power-up to the next; a card remembers, so they are taken in their order, log by log.

IMAGE.toml is a scenario, of which `issuer` and `card` are read, or a card in words (docs/use/cases.md). Where the card was
pulled out, each state that it may be left in is tried, and later answers tell which one it was."""


@dataclass
class Held:
    """What came of a session: its title, what was found, and whether it could be compared."""

    title: str
    lines: list = field(default_factory=list)
    is_compared: bool = True

    def is_wrong(self):
        """Whether an answer is wrong."""
        return any(line.kind == WRONG for line in self.lines)

    def tell(self, text, place=None, line=None, details=(), is_wrong=True):
        """Adds a finding; a wrong answer behind a wrong one may follow from it."""
        kind = NOTE if not is_wrong else BEHIND if self.is_wrong() else WRONG
        self.lines.append(Line(kind, text, place, line, details=tuple(details)))


class Bench:
    """The proved card of an image in all states in which the card may stand that is compared with it."""

    def __init__(self, image, name):
        self.cards = [image.proved(name)]
        self.cards[0].hear(image.before(name))
        self.pulled = None

    def close(self):
        """Ends the programs."""
        for card in self.cards:
            card.close()

    def keep(self, cards):
        """Goes on with these states alone."""
        for card in self.cards:
            if card not in cards:
                card.close()
        self.cards = cards

    def power_up(self, session, held):
        """Turns the cards on; where the log has a power line, those stay whose line it is."""
        told = [(card, card.ask("power").removeprefix("power ")) for card in self.cards]
        if session.power in (None, TORN):
            return
        fitting = [card for card, numbers in told if numbers == session.power]
        if fitting:
            self.keep(fitting)
            return
        nearest, numbers = min(told, key=lambda one: len(list(number_texts(session.power, one[1]))))
        held.tell("the power-up", None, session.line, number_texts(session.power, numbers))
        self.keep([nearest])

    def answer(self, place, one, held):
        """Compares an answer; the states stay that answer so, else the one that comes nearest."""
        told = [(card, differences(one.sent, one.got, card.answer(one.sent))) for card in self.cards]
        fitting = [card for card, texts in told if not texts]
        if fitting:
            self.keep(fitting)
            return
        nearest, texts = min(told, key=lambda pair: len(pair[1]))
        held.tell(command_name(one.sent), place, one.line, texts)
        self.keep([nearest])

    def pull(self, command, line, held, what="pulled"):
        """The card was pulled out before it had answered this command; None is the power-up. `what` says it in a word."""
        for card in self.cards:
            if command is not None:
                card.answer(command)
        self.cards = left(self.cards, command)
        name = command_name(command) if command is not None else "the power-up"
        count = len(self.cards)
        states = [f"{card.words or 'as before'}: {in_words(card.numbers())}" for card in self.cards]
        held.tell(f"{what} at line {line}, {name}: {count} state{'s' * (count > 1)} may follow", None, None, states, False)
        self.pulled = count

    def found(self, held):
        """Tells which state it was, where a pull had left several."""
        if self.pulled and self.pulled > 1 and len(self.cards) == 1:
            held.tell(f"found behind the pull: {self.cards[0].words}", is_wrong=False)
            self.pulled = None

    def hold(self, session):
        """Compares a session; gives what came of it."""
        held = Held(session.title)
        self.power_up(session, held)
        if session.power == TORN:
            self.pull(None, session.line, held)
            return held
        for place, one in enumerate(session.exchanges, 1):
            if one.got is None:
                self.pull(one.sent, one.line, held, "pulled" if one.is_told else "no answer in the log")
                break
            self.answer(place, one, held)
            self.found(held)
        return held


def sessions_in(path):
    """The sessions of a log."""
    text = text_of(path)
    try:
        return sessions_of(text)
    except Fault as fault:
        raise Fault(f"{path}: {fault}") from None


def logs_of(paths):
    """The sessions of all logs, in their order; where there are several logs, each title has its log's name."""
    heads = {path: f"{Path(path).stem}, " if len(paths) > 1 else "" for path in paths}
    return [replace(one, title=f"{heads[path]}{one.title}") for path in paths for one in sessions_in(path)]


def compared(image, sessions, name):
    """What came of each session, each at the card that it belongs to."""
    benches = {}
    for session in sessions:
        card = name or image.known(session.card)
        if session.power == CANNED or not image.has_applications(card):
            yield Held(session.title, [Line(NOTE, f"card {card} has canned answers")], False)
            continue
        if card not in benches:
            benches[card] = Bench(image, card)
        yield benches[card].hold(session)
    for bench in benches.values():
        bench.close()


def told(number, held, is_all):
    """What came of a session as TAP has it."""
    mark, skip = "not ok" if held.is_wrong() else "ok", "" if held.is_compared else " # SKIP not compared"
    return "\n".join([f"{mark} {number} - {held.title}{skip}", *(f"# {text}" for text in finding_texts(held.lines, is_all))])


def at_a_reader(image, options, open_=Pcsc):
    """The sessions held with the card in a reader. What they do to it is said before."""
    card = image.known(options.card)
    if not image.has_applications(card):
        raise Fault(f"{options.image}: card {card} has canned answers, and no image")
    image.proved(card).close()
    every, run_ = chosen(image, card, options.up_to)
    reader = open_(options.reader)
    print("\n".join(f"# {text}" for text in announced(every, run_)), file=sys.stderr, flush=True)
    try:
        return sessions_at(reader, run_, options.log)
    finally:
        reader.close()


def counters(text):
    """The numbers behind --counter."""
    return [int(one) for one in text.split(",")]


def arguments(parser):
    """The command's words."""
    parser.add_argument("image", metavar="IMAGE.toml", help="the card's image: a scenario, or a card in words")
    parser.add_argument("trace", nargs="*", metavar="TRACE",
                        help="what the card answered: logs as for `lab judge`; - is standard input")
    parser.add_argument("--card", metavar="NAME", help="its name in IMAGE.toml; without it as the log says, or the first one")
    parser.add_argument("--counter", type=counters, metavar="N[,N..]",
                        help="the transaction counter of each of its applications when the first log begins")
    parser.add_argument("--reader", metavar="NAME", help="holds sessions with the card in the first reader with NAME in its name")
    parser.add_argument("--up-to", choices=list(RISKS), default="counting", metavar="LEVEL",
                        help="with --reader: only `safe` sessions, `counting` ones too (as without it), or `blocking` ones too")
    parser.add_argument("--log", metavar="F", help="with --reader: writes each exchange to this file")
    parser.add_argument("--all", action="store_true", help="shows each difference behind a wrong answer too")


def run(options):
    """Compares the card with its image; gives the status."""
    image = Image(options.image)
    sessions = logs_of(options.trace)
    if options.reader is not None:
        sessions += at_a_reader(image, options)
    if not sessions:
        raise Fault("there is neither a log nor --reader")
    name = options.card and image.known(options.card)
    image.begin(sessions, name, options.counter)
    print("TAP version 13", *(f"# {text}" for text in image.taken), sep="\n")
    found = []
    for held in compared(image, sessions, name):
        found.append(held)
        print(told(len(found), held, options.all), flush=True)
    print(f"1..{len(found)}")
    if any(held.is_wrong() for held in found):
        return FAILED
    return PASSED if any(held.is_compared for held in found) else INCONCLUSIVE
