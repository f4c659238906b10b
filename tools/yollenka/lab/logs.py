"""Logs of what was said between a terminal, a card and a host, of any make: read into purchases.

A log is told by its content: a trace's document, a report, and what loggers and card clients write (docs/use/lab.md lists them).
A reader of a form gives events, and one assembler makes exchanges and purchases of them.
"""
import re
import tomllib
from dataclasses import dataclass, field, replace

from yollenka.faults import Fault

CARD, HOST = "card", "host"
# What an event of a log may be: a command or message, an answer or reply, how the purchase ended, a card that is powered up.
ASK, REPLY, END, BEGIN = "ask", "reply", "end", "begin"
GENERATE, SELECT, GET_RESPONSE = b"\x80\xae", b"\x00\xa4", b"\x00\xc0\x00\x00"
# Up to so many bytes a command has, and how an answer to reset begins.
LONGEST, ATR = 261, (0x3B, 0x3F)


@dataclass(frozen=True)
class Exchange:
    """A command with the card's answer, or a message with the host's reply.

    `side` is CARD or HOST; `sent` the command or message; `got` the answer with its two status bytes, or the reply: None where
    the card was gone or no reply came. `line` is the line of the log, from 1, where `sent` stands. `is_told` is off where the log
    ends before it tells what came back: then `got` is None and means nothing.
    """

    side: str
    sent: bytes
    got: bytes | None
    line: int
    is_told: bool = True

    def entries(self):
        """Its two lines as a trace has them; where the log doesn't tell what came back, the first one alone."""
        head, nothing = ("host ", "none") if self.side == HOST else ("", "gone")
        reply = nothing if self.got is None else self.got.hex() or "-"
        return [f"{head}> {self.sent.hex() or '-'}", f"{head}< {reply}"][: 1 + self.is_told]


@dataclass
class Purchase:
    """One purchase of a log.

    `exchanges` in the order in which they were said; `end` the text behind `end` (docs/use/report.md, section 3), as much of it as
    the log has, or None; `card` the name of the card, or None; `lane` and `number` its place in a report (from 0, and from 1),
    or None; `line` the line where it begins. `end` is `read` where a report has a reading alone. `document` is a trace's own
    document without its entries: `pin_key` and `lane`.
    `is_torn` tells that the card was gone as it was powered up, so that no exchange is there. `is_byte_protocol` tells that
    protocol T=0 was seen, whose commands have no Le behind their data.
    """

    exchanges: list = field(default_factory=list)
    end: str | None = None
    card: str | None = None
    lane: int | None = None
    number: int | None = None
    line: int = 1
    document: dict | None = None
    is_torn: bool = False
    is_byte_protocol: bool = False


@dataclass(frozen=True)
class Event:
    """What a line of a log tells: `what` of the words above, the side, the bytes (None for gone or none) or a text, the line."""

    what: str
    side: str
    value: object
    line: int


def read_log(text):
    """The purchases of a log's text, in their order (of a report by lane, then by number).

    Raises Fault, with the line, where nothing is understood, or where a line of a form that was recognised isn't.
    """
    text = text.lstrip("\ufeff")
    if re.search(r"^\s*trace\s*=", text, re.MULTILINE):
        return [trace(text)]
    lines = [(number, line.strip()) for number, line in enumerate(re.split(r"\r\n|\n|\r", text), 1)]
    if any(REPORT.match(line) for _, line in lines):
        return report(lines)
    form = next((form for sign, form in FORMS if any(map(re.compile(sign).search, (line for _, line in lines)))), None)
    if form is None:
        raise Fault("no form of a log is recognised in it")
    found = purchases(list(form(lines)), re.search(r"\bT\s?=\s?0\b", text) is not None)
    if not found:
        raise Fault("it has no command")
    return found


# Bytes.

def hexadecimal(text, line):
    """The bytes that a text writes, with or without blanks, colons or 0x between them. The last one may have one digit, as some
    clients write a status byte below 10."""
    words = re.sub(r"0x|[,:;\[\]]", " ", text, flags=re.IGNORECASE).split()
    if len(words) > 1 and len(words[-1]) == 1 and len(words[-2]) <= 2:
        words[-2:] = [word.rjust(2, "0") for word in words[-2:]]
    if not all(re.fullmatch("(?:[0-9A-Fa-f]{2})+", word) for word in words):
        raise Fault(f"line {line}: these are no bytes in hexadecimal: {text.strip()[:60]!r}")
    return bytes.fromhex("".join(words))


def agrees(data, shown):
    """Whether these characters, one a byte, can show the bytes."""
    return len(shown) == len(data) and all(chr(byte) == one or not 0x21 <= byte <= 0x7E for byte, one in zip(data, shown))


def dumped(text, line):
    """The bytes of a line of a dump: pairs of digits, behind which their characters may stand."""
    pairs = re.match(r"(?:[0-9A-Fa-f]{2}(?: +|$))*", text)[0].split()
    for count in range(len(pairs), 0, -1):
        data = bytes.fromhex("".join(pairs[:count]))
        rest = re.sub(r"^(?: *[0-9A-Fa-f]{2}){%d}" % count, "", text)
        if not rest.strip() or agrees(data, rest.lstrip()) or agrees(data, rest[-count:]):
            return data
    raise Fault(f"line {line}: this is no line of a dump: {text[:60]!r}")


# Traces and reports.

def line_of(text, entry, begin):
    """The place of an entry in a trace's text, behind a place; the place before where it is spelled in another way."""
    found = text.find(f'"{entry}"', begin)
    return found if found >= 0 else max(text.find(f"'{entry}'", begin), begin)


def trace(text):
    """The purchase of a trace's document."""
    try:
        document = tomllib.loads(text)
    except tomllib.TOMLDecodeError as error:
        raise Fault(f"it is no document of TOML 1.0: {error}") from None
    entries = document.pop("trace")
    if not isinstance(entries, list) or not all(isinstance(entry, str) for entry in entries):
        raise Fault("`trace` is no array of texts")
    events, place = [], 0
    for entry in entries:
        place = line_of(text, entry, place)
        events.append(entry_event(entry, text.count("\n", 0, place) + 1))
    own = document.get("lane", {})
    name = own["purchase"][0].get("card") if isinstance(own, dict) and own.get("purchase") else None
    return replace(one_purchase(events), document=document, card=name)


ENTRY = re.compile(r"(host )?([<>]) ?(.*)")
NOTHING = ("gone", "torn", "none")


def entry_event(text, line):
    """The event of an entry: as a trace has it, in any case and with blanks."""
    found = ENTRY.fullmatch(text)
    if text.startswith("end ") or text == "end":
        return Event(END, CARD, text[4:], line)
    if not found:
        raise Fault(f"line {line}: this is no entry: {text[:60]!r}")
    side, what, bytes_ = HOST if found[1] else CARD, ASK if found[2] == ">" else REPLY, found[3].strip()
    if what == REPLY and bytes_ in NOTHING:
        return Event(what, side, None, line)
    return Event(what, side, b"" if bytes_ == "-" else hexadecimal(bytes_, line), line)


# How `emvrun read` ends, which goes no further.
READING = "read"
REPORT = re.compile(r"L(\d+) (power|end|host|[<>])(?: (.*))?$")


def report(lines):
    """The purchases of a report. Words below its lines, and what isn't of a lane, are passed over."""
    lanes, found, is_reading = {}, [], False
    for number, line in lines:
        told = REPORT.match(line)
        if told is None:
            if re.match(r"L\d+ ", line):
                raise Fault(f"line {number}: this is no line of a report: {line[:60]!r}")
            is_reading = is_reading or line.startswith("read ")
            continue
        lane, word, rest = int(told[1]), told[2], told[3] or ""
        events, names = lanes.setdefault(lane, ([], []))
        if word == "power":
            names.append(rest)
        elif word == "end":
            found.append(report_purchase(lane, rest, events, names, number))
            lanes[lane] = [], []
        else:
            events.append(entry_event(line.split(" ", 1)[1], number))
    if not found and not any(events for events, _ in lanes.values()):
        raise Fault("it has no purchase")
    end = f"1 {READING}" if is_reading else ""
    found += [report_purchase(lane, end, events, names, events[0].line) for lane, (events, names) in lanes.items() if events]
    return sorted(found, key=lambda one: (one.lane, one.number or len(found) + 1))


def report_purchase(lane, end, events, names, line):
    """The purchase of a lane whose events came to an end line, or to none."""
    number, _, how = end.partition(" ")
    one = one_purchase([*events, Event(END, CARD, how, line)] if end else events)
    power = names[-1] if names else ""
    return replace(one, lane=lane, number=int(number) if number.isdecimal() else None, card=power.split(" ")[0] or None,
                   is_torn=power.endswith(" torn"), line=events[0].line if events else line)


# Other forms: each gives events.

def entries(lines):
    """Entries, and what `scriptor` and clients of pyscard write; an answer may go on in the next line."""
    held, is_whole = None, True
    for number, line in lines:
        # Behind an answer with its meaning `scriptor` shows the next command as it was typed.
        was_whole, is_whole = is_whole, " : " in line
        line = re.sub(r" : .*$", "", line)
        if re.fullmatch(r"(?:> ?)?(?:RESET|reset)|< ?OK.*|(?:dis)?connecting .*", line):
            yield from (one for one in (held, Event(BEGIN, CARD, None, number)) if one)
            held = None
        elif ENTRY.match(line) or line.startswith("end"):
            yield from (one for one in (held,) if one)
            held = entry_event(line, number)
        elif was_whole and re.fullmatch(r"[0-9A-Fa-f ]+", line):
            is_whole = True
        elif held and held.value and isinstance(held.value, bytes) and re.fullmatch(r"[0-9A-Fa-f ]+", line):
            held = replace(held, value=held.value + hexadecimal(line, number))
        elif line and not line.startswith("#") and held:
            raise Fault(f"line {number}: this is no entry: {line[:60]!r}")
    yield from (one for one in (held,) if one)


REMOVED = re.compile(r"SCARD_W_REMOVED_CARD|SCARD_W_RESET_CARD|SCARD_E_NOT_TRANSACTED|SCARD_E_NO_SMARTCARD")


def spied(lines):
    """What pcsc-spy writes: buffers as dumps below their names, of SCardTransmit alone."""
    what, data, begin, is_transmit = None, b"", 0, True
    for number, line in [*lines, (0, "")]:
        dump = re.match(r"[0-9A-Fa-f]{4,8}:? +((?:[0-9A-Fa-f]{2}(?: |$)).*)", line)
        if what and dump:
            data += dumped(dump[1], number)
            continue
        if what and data:
            yield Event(what, CARD, data, begin)
        what, data, begin = None, b"", number
        call, name = re.match(r"(?:\S+ )?SCard([A-Z]\w+)", line), re.search(r"\b(bSendBuffer|bRecvBuffer)\b:?(.*)", line)
        is_transmit = call[1] == "Transmit" if call else is_transmit
        if name and is_transmit:
            what = ASK if name[1] == "bSendBuffer" else REPLY
            data = hexadecimal(name[2], number) if re.fullmatch(r"[ 0-9A-Fa-f]+", name[2]) else b""
        elif call and call[1] in ("Connect", "Reconnect"):
            yield Event(BEGIN, CARD, None, number)
        elif is_transmit and REMOVED.search(line):
            yield Event(REPLY, CARD, None, number)


def sent_and_received(lines):
    """What opensc-tool writes: the status stands before the data."""
    status, data, begin, has_data = None, b"", 0, False
    for number, line in [*lines, (0, "Sending")]:
        if status is not None and line and has_data and not line.startswith(("Sending", "Received")):
            data += dumped(line, number)
            continue
        if status is not None and line:
            yield Event(REPLY, CARD, data + status, begin)
            status, data = None, b""
        if number == 0:
            return
        sending, received = re.match(r"Sending: ?(.*)", line), re.match(r"Received \(SW1=0x(\w\w), SW2=0x(\w\w)\)(:?)", line)
        if sending:
            yield Event(ASK, CARD, hexadecimal(sending[1], number), number)
        elif received:
            status, begin, has_data = hexadecimal(received[1] + received[2], number), number, bool(received[3])
        elif re.match(r"(?:Sending|Received)", line):
            raise Fault(f"line {number}: this can't be read: {line[:60]!r}")
        elif re.search(r"failed|removed", line, re.IGNORECASE):
            yield Event(REPLY, CARD, None, number)
        elif line.startswith("Using reader"):
            yield Event(BEGIN, CARD, None, number)


# At least two bytes, and what may name a side behind a mark.
BYTES, LABEL = r"(?:[0-9A-Fa-f]{2}[ :]?){2,}", r"(?:[A-Za-z][A-Za-z ()]{2,}: *)?"
BEGINS = re.compile(r"\bATR\b|\bSCardConnect\b|\b[Cc]onnect(?:ed|ing)?\b|\b[Pp]ower(?:ed|ing)? ?(?:up|on)\b|\bPower[Uu]p\b|^RESET$")


def marked(ask, reply, inner=LABEL):
    """A reader of lines with a mark before a command and one before an answer; `inner` is what may stand between mark and bytes.
    Bytes may go on in the next line."""
    def read(lines):
        """The events of the lines."""
        held, marks = None, [(what, re.compile(f"(?:^|.*?[^0-9A-Za-z<>=-]){mark}(?![<>=])\\s*{inner}(.*)"))
                             for what, mark in ((ASK, ask), (REPLY, reply))]
        for number, line in lines:
            what, found = next(((what, found) for what, mark in marks if (found := mark.match(line))), (None, None))
            if held and held.value is not None and re.fullmatch(r"(?:[0-9A-Fa-f]{2} ?)+", line):
                held = replace(held, value=held.value + hexadecimal(line, number))
            elif found or BEGINS.search(line):
                yield from (one for one in (held,) if one)
                held = marked_event(what, found[1], number) if found else Event(BEGIN, CARD, None, number)
        yield from (one for one in (held,) if one)
    return read


def marked_event(what, text, line):
    """The event of what stands behind a mark."""
    text = re.sub(r" : .*$", "", text).strip().strip('"')
    is_gone = what == REPLY and text.lower() in NOTHING
    return Event(what, CARD, None if is_gone else hexadecimal(text, line), line)


def plain(lines):
    """Lines of bytes alone: a command, its answer, and so on; before a command an answer to reset may stand."""
    what = ASK
    for number, line in lines:
        if not line or line.startswith("#"):
            continue
        data = hexadecimal(line, number)
        if what == ASK and data[0] in ATR:
            yield Event(BEGIN, CARD, None, number)
            continue
        yield Event(what, CARD, data, number)
        what = REPLY if what == ASK else ASK


def arrow(mark):
    """The sign of a form whose commands stand behind this mark."""
    return rf"(?:^|[^0-9A-Za-z<>=-]){mark}\s*{LABEL}{BYTES}"


# The first form whose sign a line has; the order counts. Signs are compiled when they are looked for.
FORMS = [
    (r"\bb(?:Send|Recv)Buffer\b", spied),
    (r"^\S*\s*A(?:>>|<<)", marked(r"A>>", r"A<<", r"(?:T=\S+ )?(?:\([0-9+ ]+\) ?)?(?:\([0-9.]+ ?[mu]?s\) ?)?")),
    (r"^(?:.*\s)?APDU:", marked(r"APDU:", r"SW:")),
    (r"^Sending:", sent_and_received),
    (r"(?i:\bC-?APDU\b)", marked(r"(?i:C-?APDU) ?:?", r"(?i:R-?APDU) ?:?")),
    (arrow("-->"), marked("-->", "<--")), (arrow("=>"), marked("=>", "<=")), (arrow("->"), marked("->", "<-")),
    (arrow(">>"), marked(">>", "<<")), (arrow("T[xX] ?:?"), marked("T[xX] ?:?", "R[xX] ?:?")),
    (rf"^> ?(?:{BYTES}|RESET)", entries),
    (arrow(">"), marked(">", "<")),
    (rf"^(?:{BYTES})$", plain),
]


# From events to purchases.

def paired(events):
    """The exchanges of events, with a None at each place where a card is powered up, and the last end."""
    found, open_, end = [], None, None
    for event in events:
        if event.what == REPLY:
            if open_ is None or open_.side != event.side:
                raise Fault(f"line {event.line}: an answer without a command before it")
            found.append(Exchange(open_.side, open_.value, event.value, open_.line))
            open_ = None
            continue
        if open_ is not None and event.what == ASK:
            raise Fault(f"line {event.line}: the command of line {open_.line} has no answer before this one")
        if open_ is not None:
            is_told = event.what == BEGIN or event.value.startswith("cut")
            found.append(Exchange(open_.side, open_.value, None, open_.line, is_told))
            open_ = None
        if event.what == ASK:
            open_ = checked(event)
        else:
            found.append(event)
    return found + ([Exchange(open_.side, open_.value, None, open_.line, False)] if open_ else [])


def checked(event):
    """A command or message, if it can be one."""
    if event.side == CARD and not 4 <= len(event.value) <= LONGEST:
        raise Fault(f"line {event.line}: no command has {len(event.value)} bytes")
    return event


def whole(pairs):
    """The exchanges with what protocol T=0 splits put together, and whether it did."""
    found, was_split = [], False
    for one in pairs:
        before = found[-1] if found else None
        is_card = all(isinstance(part, Exchange) and part.side == CARD for part in (before, one)) and len(before.got or b"") > 1
        if is_card and before.got[-2] == 0x61 and one.sent[:4] == GET_RESPONSE:
            found[-1] = replace(before, got=None if one.got is None else before.got[:-2] + one.got, is_told=one.is_told)
            was_split = True
        elif is_card and before.got[0] == 0x6C and len(before.got) == 2 and one.sent[:-1] == before.sent[: len(one.sent) - 1]:
            found[-1] = replace(before, got=one.got, is_told=one.is_told)
            was_split = True
        else:
            found.append(one)
    return found, was_split


def is_over(exchanges):
    """Whether the last answer to GENERATE AC is a TC or an AAC."""
    answers = [one.got for one in exchanges if one.side == CARD and one.sent[:2] == GENERATE and one.got]
    kinds = [answer[answer.index(b"\x9f\x27") + 3 if b"\x9f\x27" in answer[:-1] else 2] & 0xC0 for answer in answers
             if answer[-2:] == b"\x90\x00" and len(answer) > 12]
    return bool(kinds) and kinds[-1] != 0x80


def one_purchase(events):
    """The purchase of these events, of which there is no second one."""
    pairs, was_split = whole(paired(events))
    ends = [one.value for one in pairs if isinstance(one, Event) and one.what == END]
    exchanges = [one for one in pairs if isinstance(one, Exchange)]
    return Purchase(exchanges, ends[-1] if ends else None, line=events[0].line if events else 1, is_byte_protocol=was_split)


def purchases(events, is_byte_protocol):
    """The purchases of events: one ends where a card is powered up, at an end, or at a SELECT behind a TC or an AAC."""
    pairs, was_split = whole(paired(events))
    found, now = [], Purchase(is_byte_protocol=was_split or is_byte_protocol)
    for one in pairs:
        is_select = isinstance(one, Exchange) and one.sent[:2] == SELECT
        if now.exchanges and (isinstance(one, Event) and one.what == BEGIN or is_select and is_over(now.exchanges)):
            found.append(now)
            now = Purchase(is_byte_protocol=now.is_byte_protocol)
        if isinstance(one, Exchange):
            now.line = now.line if now.exchanges else one.line
            now.exchanges.append(one)
        elif one.what == END:
            now.end = one.value
            found.append(now)
            now = Purchase(is_byte_protocol=now.is_byte_protocol)
    return found + ([now] if now.exchanges else [])
