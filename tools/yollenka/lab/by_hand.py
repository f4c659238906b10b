"""Cases at a terminal that stands at a reader: the proved card of each is put into the virtual reader, and an operator begins the
purchase. What was said is judged as a log is; what the terminal said to its host no reader sees."""
import os
import re
import select
import sys
import time
from dataclasses import replace
from pathlib import Path

from yollenka.faults import Fault
from yollenka.lab.at_reader import Pcsc
from yollenka.lab.bridges import OUT, WANTED, answer, frame, put_in
from yollenka.lab.cover import kind_of
from yollenka.lab.emv import GENERATE, has_bit, said
from yollenka.lab.facts import ALWAYS, NEVER, digits, facts_of_scenario
from yollenka.lab.live import Host, card_of, request_of
from yollenka.lab.logs import CARD, HOST, Exchange, Purchase
from yollenka.lab.verdict import INCONCLUSIVE, NOTE, OPEN, PASSED, TAKEN, Line, Verdict
from yollenka.lab.walk import judge
from yollenka.words import KINDS, TYPES

TIME, NUMBER, SELECTED = 0x9F21, 0x9F37, 45
HOST_LINE = re.compile(r"host ([<>]) ((?:[0-9a-f]{2})+|-|none)", re.IGNORECASE)
UNSEEN = "at a reader the messages to the host aren't seen: of the second half, order, bits and kinds are judged by what the terminal does"


# What the operator does.

def amount_words(amount):
    """An amount in its currency's smallest unit, and as most currencies are written."""
    return f"{amount} ({amount // 100}.{amount % 100:02})"


def purchase_lines(purchase):
    """A purchase, as an operator enters it."""
    kind, day, pins = TYPES[f"{purchase.get('trade', 0):02}"], purchase["date"], purchase.get("pins", [])
    yield (f"{kind}: amount {amount_words(purchase['amount'])}, currency {purchase['currency']}, "
           f"date {day[:2]}-{day[2:4]}-{day[4:]}")
    if purchase.get("other"):
        yield f"of it cashback {amount_words(purchase['other'])}"
    yield f"PIN {', then '.join(pins)}" if pins else "no PIN: where one is asked for, none is entered"
    if purchase.get("services"):
        yield "services are bought, not goods"
    if purchase.get("forced"):
        yield "force it online"
    if not purchase.get("confirm", True):
        yield "don't confirm an application"
    if purchase.get("tear"):
        yield "the card is pulled out of the reader by itself"


def terminal_lines(lane):
    """What the terminal has to be set to."""
    for key in ("kind", "country", "caps", "id", "pse", "exceptions"):
        if key in lane:
            more = f" ({KINDS[str(lane[key])]})" if key == "kind" else ""
            yield f"{key} {lane[key]}{more}"
    for row in lane["aid"]:
        yield f"application {row['name']}: " + ", ".join(f"{key} {value}" for key, value in row.items() if key != "name")


class Operator:
    """Who stands at the terminal: is told on standard error what to do, and says by Enter that the terminal has ended; with `wait`
    a card that was off or out for so many seconds says it too."""

    def __init__(self, wait):
        self.wait, self.told, self.is_there = wait, [], True

    def say(self, text):
        """Tells something."""
        print(f"lab terminal: {text}", file=sys.stderr, flush=True)

    def tell(self, case, place):
        """Tells a case: of the terminal only what isn't as in the case before."""
        lane = case.scenario["lane"][0]
        settings, before = list(terminal_lines(lane)), self.told
        self.told = settings
        self.say(f"{place}: {case.name}")
        for line in settings:
            if line not in before:
                self.say(f"  set the terminal: {line}")
        for line in purchase_lines(lane["purchase"][0]):
            self.say(f"  {line}")
        self.say("  begin at the terminal; " + (f"the case ends {self.wait:g} seconds behind it, or by Enter" if self.wait is not None
                                                else "press Enter when it has ended"))

    def has_ended(self):
        """Whether standard input, where something came, has a line's end. Raises Fault where nobody is there to end a case."""
        text = os.read(0, 4096)
        self.is_there = bool(text)
        if not text and self.wait is None:
            raise Fault("standard input is at its end, and nobody can press Enter: --wait SECONDS ends a case without")
        return b"\n" in text


# The card in the reader.

class Inserted:
    """The card of a case, as the bridges ask it. `sessions` has the exchanges behind each power-up, `lines` the log."""

    def __init__(self, case):
        self.card, self.tear = card_of(case), case.scenario["lane"][0]["purchase"][0].get("tear")
        self.sessions, self.lines, self.is_on, self.is_out = [], [], False, False

    def ask(self, line):
        """The card's line to a line."""
        if line == "off":
            self.is_on = False
            return line
        if line != "power":
            return self.command(bytes.fromhex(line)) if self.is_on else "?"
        self.card.power_up(self.tear)
        self.sessions.append([])
        self.is_on = self.card.card.is_on
        return "power" if self.is_on else "power torn"

    def command(self, sent):
        """The answer to a command."""
        got = self.card.answer(sent)
        self.lines += [] if self.sessions[-1] else ["RESET"]
        self.sessions[-1].append(Exchange(CARD, sent, got, len(self.lines) + 1))
        self.lines += self.sessions[-1][-1].entries()
        return "< torn" if got is None else self.lines[-1]

    def purchase(self):
        """What is judged: the first session with a cryptogram, else the last one in which something was said. A client of PC/SC may
        turn the card on more than once."""
        spoken = [one for one in self.sessions if one]
        paying = [one for one in spoken if any(each.sent[:2] == GENERATE for each in one)]
        chosen = (paying[:1] or spoken[-1:] or [[]])[0]
        return Purchase(chosen, card="c1", is_torn=self.is_out and not spoken), len(spoken) - bool(spoken)


def talk(inserted, connection, operator):
    """Answers the reader until the terminal has ended, as the operator says, or as --wait has it: then the card, to which something
    was said, has been off or out for so long. `quiet` is since when; that a reader asks for the ATR all the time doesn't count."""
    quiet = None
    while True:
        may_end = operator.wait is not None and quiet is not None
        sources = [0] * operator.is_there + [connection] * (not inserted.is_out)
        ready = select.select(sources, [], [], max(0, quiet + operator.wait - time.monotonic()) if may_end else None)[0]
        if not ready or 0 in ready and operator.has_ended():
            return
        if connection not in ready:
            continue
        text = frame(connection)
        if text is None:
            raise Fault("the virtual reader has gone, and the case with it")
        inserted.is_out = not answer(inserted, connection, text)
        if inserted.is_out:
            connection.close()
        if text != bytes([WANTED]):
            has_begun = any(inserted.sessions)
            quiet = time.monotonic() if inserted.is_out or has_begun and not inserted.is_on else None
        elif may_end and time.monotonic() >= quiet + operator.wait:
            return


# The verdict.

def chosen_by_terminal(scenario, exchanges):
    """The scenario with what a terminal at a reader chooses itself, as it was said: the unpredictable number, the time, and whether
    it selected at random; and that in words."""
    heard = said(exchanges)
    told, results, own = heard.told(), heard.first_results(), {}
    if NUMBER in told:
        own["number"] = int.from_bytes(told[NUMBER])
    if digits(told.get(TIME, b"")):
        own["time"] = digits(told[TIME])
    words = [f"{key} {value}" for key, value in own.items()]
    if results is not None:
        own["word"] = ALWAYS if has_bit(results, SELECTED) else NEVER
        words.append(f"selected at random: {'yes' if has_bit(results, SELECTED) else 'no'}")
    lane = scenario["lane"][0]
    return scenario | {"lane": [lane | {"purchase": [lane["purchase"][0] | own]}]}, ", ".join(words)


def asks_host(exchanges):
    """The place behind the first GENERATE AC where it was answered with an ARQC, else None."""
    place = next((at for at, one in enumerate(exchanges, 1) if one.sent[:2] == GENERATE), None)
    return place if place and kind_of((exchanges[place - 1].got or b"").hex()) == "ARQC" else None


def with_host(purchase, place, sent, got):
    """The purchase with an exchange with the host at this place."""
    found = purchase.exchanges
    return replace(purchase, exchanges=[*found[:place], Exchange(HOST, sent, got, found[place - 1].line), *found[place:]])


def host_exchange(lines):
    """The first message to the host and its reply in lines of a terminal's host, or None. Raises Fault for a line that is none."""
    found = []
    for line in filter(None, map(str.strip, lines)):
        told = HOST_LINE.fullmatch(line)
        if told is None or len(found) < 2 and told[1] != "><"[len(found)]:
            raise Fault(f"{line[:60]!r} is no line `host > H`, or no reply `host < H` or `host < none` to one")
        found.append(None if told[2] == "none" else bytes.fromhex(told[2].strip("-")))
    return tuple(found[:2]) if len(found) > 1 else None


def judged_online(case, purchase, place, lines):
    """The verdict on a purchase that went online: with what the terminal's host has written down, or behind the reply of the case's
    issuer where that fits, or else by what follows alone. Then the case wasn't tried as it is meant."""
    facts = facts_of_scenario(case.scenario, 0, 1)
    try:
        told = host_exchange(lines)
    except Fault as fault:
        return inconclusive(judge(purchase, facts), f"--host-lines: {fault}")
    if told:
        return judge(with_host(purchase, place, *told), facts)
    host = Host(case)
    try:
        sent = request_of(host.terminal, purchase.exchanges[:place])
    except Fault:
        return judge(purchase, facts)
    verdict = judge(with_host(purchase, place, sent, host.reply(sent)), facts)
    if verdict.status == PASSED:
        return replace(verdict, lines=[*verdict.lines, Line(NOTE, "its message to the host wasn't seen")])
    return inconclusive(judge(purchase, facts), "what follows isn't behind the reply of the case's issuer: --host-lines has the terminal's own")


def inconclusive(verdict, why):
    """A verdict that passes no more than as far as it goes."""
    status = INCONCLUSIVE if verdict.status == PASSED else verdict.status
    return replace(verdict, status=status, lines=[*verdict.lines, Line(OPEN, why)])


def verdict_on(case, inserted, lines):
    """The verdict on a case, by what the card heard and what the terminal's host wrote down."""
    purchase, others = inserted.purchase()
    if not purchase.exchanges and not purchase.is_torn:
        return Verdict(INCONCLUSIVE, [Line(OPEN, "no command came to the card")])
    scenario, words = chosen_by_terminal(case.scenario, purchase.exchanges)
    case, place = case._replace(scenario=scenario), asks_host(purchase.exchanges)
    verdict = judged_online(case, purchase, place, lines) if place else judge(purchase, facts_of_scenario(scenario, 0, 1))
    more = [Line(TAKEN, words)] * bool(words)
    more += [Line(NOTE, f"the card was turned on {others} more times and asked something, which isn't judged")] * bool(others)
    return replace(verdict, lines=[*more, *verdict.lines])


# All cases.

class HostLines:
    """What the terminal's host writes to a file, case by case."""

    def __init__(self, path):
        self.path, self.at = path, 0
        self.new()

    def new(self):
        """The lines that were written since the last time."""
        if self.path is None:
            return []
        try:
            text = Path(self.path).read_bytes()
        except OSError as error:
            raise Fault(f"--host-lines {self.path}: {error.strerror}") from None
        new, self.at = text[self.at :], len(text)
        return new.decode(errors="replace").splitlines()


def held(case, operator, port):
    """A case at the terminal: its card, which was put in, and taken out behind it."""
    inserted = Inserted(case)
    try:
        with put_in(port) as connection:
            talk(inserted, connection, operator)
    except OSError as error:
        raise Fault(f"the virtual reader has gone: {error.strerror}") from None
    finally:
        inserted.card.card.end()
    return inserted


def verdicts(cases, options):
    """The verdict on each case in its turn, with the lines of its dialogue."""
    operator, host = Operator(options.wait), HostLines(options.host_lines)
    if options.pcsc:
        Pcsc(options.pcsc)
    print(f"# {UNSEEN}", flush=True)
    for number, case in enumerate(cases, 1):
        if number > 1:
            time.sleep(OUT)
        host.new()
        operator.tell(case, f"case {number} of {len(cases)}")
        inserted = held(case, operator, options.port)
        yield verdict_on(case, inserted, host.new()), inserted.lines
