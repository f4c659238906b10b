"""A card in a smart-card reader, by PC/SC: sessions are held with it and recorded."""
import time
from collections import Counter

from yollenka.faults import Fault
from yollenka.lab.attempts import RISKS, Subject, attempts_of
from yollenka.lab.logs import CARD, Exchange
from yollenka.lab.sessions import Session

MISSING = "PC/SC isn't there: it needs the Debian packages pcscd and python3-pyscard, and their Python: /usr/bin/python3 lab .."


class Pcsc:
    """The card in the first reader whose name has these characters, for which it waits so many seconds. `power` turns it off and
    on, `transmit` gives its answer with the two status bytes, or None where it is gone, `close` leaves it."""

    def __init__(self, name, seconds=0):
        try:
            from smartcard.Exceptions import SmartcardException
            from smartcard.System import readers
        except ImportError:
            raise Fault(MISSING) from None
        self.failed, self.until = SmartcardException, time.monotonic() + seconds
        found = self.patiently(lambda: [one for one in readers() if name in str(one)])
        if not found:
            there = ", ".join(map(str, self.patiently(readers) or [])) or "none"
            raise Fault(f"no reader has {name!r} in its name, or pcscd doesn't run; there are: {there}")
        self.connection = found[0].createConnection()

    def patiently(self, look):
        """What is found, as soon as there is something, or nothing when the time is over."""
        while True:
            try:
                found = look()
            except self.failed:
                found = None
            if found or time.monotonic() >= self.until:
                return found
            time.sleep(0.05)

    def connect(self):
        """Connects to the card, whose power goes off with the connection; tells that it is there."""
        from smartcard.scard import SCARD_UNPOWER_CARD
        self.connection.connect(disposition=SCARD_UNPOWER_CARD)
        return True

    def power(self):
        """Turns the card off and on; tells whether it is there."""
        self.close()
        return bool(self.patiently(self.connect))

    def transmit(self, command):
        """The answer to a command. A card of T=0 holds it back, or asks for the command with another length."""
        try:
            body, first, second = self.connection.transmit(list(command))
            if first == 0x6C:
                body, first, second = self.connection.transmit([*command[:4], second])
            while first == 0x61:
                more, first, second = self.connection.transmit([0x00, 0xC0, 0x00, 0x00, second])
                body += more
        except self.failed:
            return None
        return bytes([*body, first, second])

    def close(self):
        """Turns the card off."""
        try:
            self.connection.disconnect()
        except self.failed:
            pass


def chosen(image, card, level):
    """The sessions for a card's applications up to this level, the least risky first, each with the application's commands."""
    subjects = [Subject(image.table["issuer"], image.cards[card], app) for app in image.cards[card]["app"]]
    every = [(attempt, its) for its in subjects for attempt in attempts_of(its)]
    order = RISKS["blocking"]
    every.sort(key=lambda pair: order.index(pair[0].risk))
    return every, [pair for pair in every if pair[0].risk in RISKS[level]]


def announced(every, run):
    """What is said before the card is touched: which sessions are held, and what they do to it."""
    counts = Counter(attempt.risk for attempt, _ in run)
    taken = sum(attempt.times for attempt, _ in run if attempt.risk != RISKS["safe"][0])
    yield f"{sum(attempt.times for attempt, _ in run)} sessions at the card; they take {taken} transaction counters"
    for risk in RISKS["blocking"]:
        titles = "; ".join(dict.fromkeys(attempt.title for attempt, _ in every if attempt.risk == risk))
        yield f"  {risk}{'' if counts[risk] else ', left out'}: {titles}"


def recorder(path):
    """What takes each line of the log, and knows its number."""
    try:
        file = open(path, "w") if path else None
    except OSError as error:
        raise Fault(f"{path}: {error.strerror}") from None
    number = 0

    def record(line):
        """Writes a line; gives its number."""
        nonlocal number
        number += 1
        if file:
            print(line, file=file, flush=True)
        return number
    return record


def hold(reader, title, commands, record):
    """Holds a session with the card, a generator of commands; gives it as a log has it, and what the generator gives."""
    session, answer = Session(title, line=record("RESET")), None
    if not reader.power():
        raise Fault(f"the card is gone from the reader, before the session {title!r}")
    while True:
        try:
            sent = commands.send(answer)
        except StopIteration as end:
            return session, end.value
        line = record(f"> {sent.hex()}")
        answer = reader.transmit(sent)
        record(f"< {answer.hex() if answer is not None else 'gone'}")
        session.exchanges.append(Exchange(CARD, sent, answer, line))
        if answer is None:
            return session, None


def sessions_at(reader, run, path):
    """The sessions that are held with the card in a reader; the log of each exchange is written to a file, if there is one."""
    record = recorder(path)
    many = len({id(its.app) for _, its in run}) > 1
    found = []
    for attempt, its in run:
        title = f"{its.app['name']}: {attempt.title}" if many else attempt.title
        found += [hold(reader, title, attempt.commands(its), record)[0] for _ in range(attempt.times)]
    return found
