"""Sessions of a card in logs: what was said to it from one power-up to the next."""
import re
from dataclasses import dataclass, field

from yollenka.faults import Fault
from yollenka.lab.logs import CARD, Exchange, read_log

# A report's line of a card: of a lane or of the audit behind the purchases.
OWNED = re.compile(r"(L\d+|A \S+) (power|[<>]) (.*)")
REPORT = re.compile(r"^(?:L\d+|A \S+) power ", re.MULTILINE)
TORN, CANNED = "torn", "canned"
NOTHING = ("torn", "gone")


@dataclass
class Session:
    """What was said to a card behind a power-up: `title` whose it is, `card` the card's name or None, `line` where it begins,
    `power` the numbers of the power line, or `torn` where the card was pulled out before its first command, or None where the
    log doesn't tell; `exchanges` as in logs.Exchange, those with the card alone."""

    title: str
    card: str | None = None
    line: int = 1
    power: str | None = None
    exchanges: list = field(default_factory=list)


def answered(session, text, line):
    """Puts an answer to the session's last command."""
    last = session.exchanges[-1] if session and session.exchanges else None
    if last is None or last.is_told:
        raise Fault(f"line {line}: an answer without a command before it")
    got = None if text in NOTHING else bytes_of(text, line)
    session.exchanges[-1] = Exchange(CARD, last.sent, got, last.line)


def bytes_of(text, line):
    """The bytes of a report's line."""
    try:
        return b"" if text == "-" else bytes.fromhex(text)
    except ValueError:
        raise Fault(f"line {line}: these are no bytes in hexadecimal: {text[:60]!r}") from None


def powered(whose, rest, line, ended):
    """The session that a power line begins."""
    lane = re.fullmatch(r"L(\d+)", whose)
    title = f"lane {lane[1]}, purchase {ended.get(whose, 0) + 1}" if lane else "audit"
    name, _, numbers = rest.partition(" ") if lane else (whose[2:], "", rest)
    return Session(title, name, line, numbers)


def of_report(text):
    """The sessions of a report, in the order of their power lines; the lanes' lines may be mixed."""
    open_, ended, found = {}, {}, []
    for number, line in enumerate(text.splitlines(), 1):
        told = OWNED.fullmatch(line)
        if told is None:
            whose = line.partition(" ")[0]
            ended[whose] = ended.get(whose, 0) + line.startswith(f"{whose} end ")
        elif told[2] == "power":
            open_[told[1]] = powered(told[1], told[3], number, ended)
            found.append(open_[told[1]])
        elif told[1] not in open_:
            raise Fault(f"line {number}: no power line of {told[1]} stands before it")
        elif told[2] == ">":
            open_[told[1]].exchanges.append(Exchange(CARD, bytes_of(told[3], number), None, number, False))
        else:
            answered(open_[told[1]], told[3], number)
    return found


def sessions_of(text):
    """The sessions of a log of any form. Raises Fault where it can't be read."""
    if REPORT.search(text):
        return of_report(text)
    return [
        Session(f"session {number}", one.card, one.line, TORN if one.is_torn else None,
                [exchange for exchange in one.exchanges if exchange.side == CARD])
        for number, one in enumerate(read_log(text), 1)
    ]
