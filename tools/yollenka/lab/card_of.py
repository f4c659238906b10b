"""`lab card-of`: a card in words, as it was read."""
import sys
from dataclasses import dataclass, field

from yollenka.faults import Fault
from yollenka.lab import PASSED
from yollenka.lab.at_reader import Pcsc, hold, recorder
from yollenka.lab.attempts import get, read
from yollenka.lab.cards import MADE, card_words, complete, table
from yollenka.lab.card import logs_of
from yollenka.lab.cases import ISSUER
from yollenka.lab.emv import DIRECTORY, data_of, information, primitives
from yollenka.lab.make import text_of
from yollenka.lab.worlds import Proved
from yollenka.model.ciphers import pin_in
from yollenka.model.objects import account_number, command, entries, first, objects, only, spelled, total
from yollenka.model.objects import Fault as NoList
from yollenka.scenarios import document

TEXT = """\
Makes a card in words (docs/use/cases.md) of a real card: of logs in which it was read, or of the card in a reader. Above it stand
what can't be read from outside, and what an image can't have; those words have defaults, and yours take their place.

At a reader the directory is read, or else the applications of the names below --aid and of some well-known ones are looked
for; each that is found is asked GET PROCESSING OPTIONS once, which takes one of its transaction counters."""
# Registered names, by which SELECT finds the applications of most cards.
KNOWN = ("A000000003", "A000000004", "A000000025", "A000000065", "A000000152", "A000000277", "A000000333", "A000000324")
MOST_NEXT = 8
SECRET = ("pin", "count_limit", "sum_limit", "tries", "currency_two", "limit_two", "ac_key")
WHAT = {
    "pin": "the PIN", "count_limit": "the limits count_limit and sum_limit", "tries": "the limit of PIN tries",
    "currency_two": "a second currency and its limit", "ac_key": "the keys",
}
WANTED = {
    "label": "50", "pan": "5A", "cdol1": "8C", "cdol2": "8D", "currency": "9F42", "counter": "9F36", "last_online": "9F13",
}
IN_AN_IMAGE = (0x50, 0x87, 0x9F38)
LOG_ENTRY, SFI = 0x9F4D, 0x88
GOOD = b"\x90\x00"


@dataclass
class Application:
    """What was read of an application: `own` the keys of its table in an image, `records` their bytes by file and number, `held`
    the first value of each object in them, `other` the objects of its file control information that an image can't have."""

    own: dict
    records: dict = field(default_factory=dict)
    held: dict = field(default_factory=dict)
    other: list = field(default_factory=list)

    def table(self):
        """Its table in an image, as far as it was read."""
        made = {"aip": "0000", "afl": ""} | self.own
        places = ((file, number, body.hex().upper()) for (file, number), body in self.records.items())
        made["record"] = [dict(zip(("sfi", "number", "bytes"), place)) for place in places]
        for key, tag in (("cdol1", 0x8C), ("cdol2", 0x8D)):
            if tag in self.held:
                made[key] = self.held[tag].hex().upper()
        made |= {"pan": account_number(self.held[0x5A])} if 0x5A in self.held else {}
        made |= {"sequence": int(self.held[0x5F34].hex())} if self.held.get(0x5F34, b"").hex().isdigit() else {}
        made |= {"currency": self.held[0x9F42].hex()[-3:]} if self.held.get(0x9F42, b"").hex().isdigit() else {}
        return made

    def secret(self):
        """The words that no card tells, but for a PIN that was verified."""
        return [key for key in SECRET if key not in self.own]

    def lacking(self):
        """The words that weren't read, and could be."""
        made = self.table()
        yield from (f"{key} ({tag})" for key, tag in WANTED.items() if key not in made)
        if "gpo_format" not in self.own:
            yield "the profile and the locator (GET PROCESSING OPTIONS)"
        if "ac_format" not in self.own:
            yield "the format of the cryptogram's answer (GENERATE AC)"


class Reading:
    """A card as its answers show it."""

    def __init__(self):
        self.apps, self.app, self.pse = {}, None, None

    def hear(self, session):
        """Hears a session."""
        self.app = None
        for one in session.exchanges:
            if one.got is not None:
                self.listen(one.sent, one.got)

    def listen(self, sent, got):
        """Hears an exchange."""
        kind, body = sent[:2].hex(), got[:-2]
        if kind == "00a4":
            self.select(sent, got)
        elif self.app is None or got[-2:] != GOOD:
            return
        elif kind == "80a8":
            self.options(body)
        elif kind == "00b2":
            self.record(sent[3] >> 3, sent[2], body)
        elif kind == "80ca":
            self.numbers(primitives(body))
        elif kind == "80ae":
            self.app.own["ac_format"] = 1 if only(body, 0x80) else 2
        elif kind == "0020" and (pin := pin_in(2, data_of(sent).ljust(8, b"\0")[:8])):
            self.app.own["pin"] = pin

    def select(self, sent, got):
        """Hears what is said of an application that is found, or of the directory."""
        inner, name = information(got)
        self.app = None
        if data_of(sent) == DIRECTORY:
            self.pse = (first(inner, SFI) or b"\0")[0] if got[-2:] == GOOD else None
        elif name is not None and got[-2:] in (GOOD, b"\x62\x83"):
            self.app = self.apps.setdefault(name, Application({"name": name.hex().upper()}))
            self.describe(inner)
            self.app.own |= {"blocked": True} if got[-2:] != GOOD else {}

    def describe(self, inner):
        """Takes what stands in A5."""
        label, indicator, list_ = (first(inner, tag) for tag in IN_AN_IMAGE)
        own = self.app.own
        own |= {"label": label.decode("ascii", "replace")} if label else {}
        own |= {"priority": indicator[0]} if indicator else {}
        own |= {"pdol": list_.hex().upper()} if list_ is not None else {}
        log = next((one.value for one in primitives(first(inner, 0xBF0C) or b"") if one.tag == LOG_ENTRY), b"")
        own |= {"log_sfi": log[0], "log": log[1]} if len(log) == 2 else {}
        self.app.other = [f"{one.tag:X}" for one in inner if one.tag not in (*IN_AN_IMAGE, 0xBF0C)]

    def options(self, body):
        """Takes profile and locator."""
        outer = only(body, 0x80, 0x77)
        if outer is None:
            return
        inner = objects(outer.value)[0]
        in_two = first(inner, 0x82) or b"", first(inner, 0x94) or b""
        aip, afl = in_two if outer.tag == 0x77 else (outer.value[:2], outer.value[2:])
        self.app.own |= {"aip": aip.hex().upper(), "afl": afl.hex().upper(), "gpo_format": 1 if outer.tag == 0x80 else 2}
        if "counter" in self.app.own:
            self.app.own["counter"] += 1

    def record(self, file, number, body):
        """Takes a record, but for rows of the log."""
        if file == self.app.own.get("log_sfi"):
            return
        self.app.records[file, number] = body
        for one in primitives(body):
            self.app.held.setdefault(one.tag, one.value)

    def numbers(self, found):
        """Takes the counters of GET DATA, the last ones."""
        keys = {0x9F36: "counter", 0x9F13: "last_online"}
        self.app.own |= {keys[one.tag]: int.from_bytes(one.value) for one in found if one.tag in keys}

    def card(self):
        """The card's table in words; those that aren't known are left out."""
        own = {"name": "c1"} | ({"pse": self.pse} if self.pse else {})
        words = card_words(own | {"app": [app.table() for app in self.apps.values()]})
        for own, app in zip(words.get("app", [words]), self.apps.values()):
            unknown = [*app.secret(), *(one.split(" ")[0] for one in app.lacking())]
            for key in unknown if "gpo_format" in app.own else [*unknown, "profile", "afl"]:
                own.pop(key, None)
                # No record gets the default of what no record had.
                if key in MADE and int(MADE[key][0], 16) not in app.held:
                    own.setdefault("object", {})[MADE[key][0]] = False
        return words

    def remarks(self, source):
        """What is said above the card."""
        yield f"{len(self.apps)} application{'s' * (len(self.apps) > 1)}, read from {source}."
        secret = {key for app in self.apps.values() for key in app.secret()}
        told = ", ".join(text for key, text in WHAT.items() if key in secret)
        yield f"What can't be read from outside has a default (docs/use/cases.md): {told}."
        for name, app in self.apps.items():
            lacking = list(app.lacking())
            if lacking:
                yield f"{name.hex().upper()}: not read: {', '.join(lacking)}."
            if app.other:
                yield f"{name.hex().upper()}: an image can't have these objects of the answer to SELECT: {', '.join(app.other)}."


def read_in(sessions):
    """What these sessions show of the card."""
    found = Reading()
    for session in sessions:
        found.hear(session)
    return found


# At a reader.

def directory():
    """The directory with its records; gives the names that stand there."""
    answer = yield command("00A40400", DIRECTORY)
    file, names = (first(information(answer)[0], SFI) or b"\0")[0], []
    for number in range(1, 11) if answer[-2:] == GOOD and file else ():
        answer = yield read(file, number)
        if answer[-2:] != GOOD:
            break
        names += [one.value for one in primitives(answer[:-2]) if one.tag == 0x4F]
    return names


def looked_for(names):
    """SELECT of each name, and of all applications behind it that begin so; gives the whole names."""
    found = []
    for name in names:
        answer = yield command("00A40400", name)
        for _ in range(MOST_NEXT):
            whole = information(answer)[1]
            if whole is None or whole in found:
                break
            found.append(whole)
            answer = yield command("00A40402", name)
    return found


def whole(name):
    """All of an application that can be read."""
    answer = yield command("00A40400", name)
    try:
        wanted = entries(first(information(answer)[0], 0x9F38) or b"")
    except NoList:
        wanted = []
    yield from (get(tag) for tag in ("9F36", "9F13", "9F17", "9F4F"))
    reading = Reading()
    reading.app = Application({})
    reading.options((yield command("80A80000", spelled(0x83, bytes(total(wanted)))))[:-2])
    locator = bytes.fromhex(reading.app.own.get("afl", ""))
    groups = [locator[at : at + 3] for at in range(0, len(locator) - 3, 4)]
    yield from (read(file >> 3, number) for file, begin, end in groups for number in range(begin, end + 1))


def at_a_reader(options, open_=Pcsc):
    """The sessions in which the card in a reader is read."""
    names = [bytes.fromhex(name) for name in (*options.aid, *KNOWN)]
    reader, record = open_(options.reader), recorder(options.log)
    try:
        first_, found = hold(reader, "directory", directory(), record)
        sessions = [first_]
        if not found:
            second, found = hold(reader, "names", looked_for(names), record)
            sessions.append(second)
        return sessions + [hold(reader, name.hex().upper(), whole(name), record)[0] for name in dict.fromkeys(found or [])]
    finally:
        reader.close()


def refusal(words):
    """What is wrong with an image of these words, or None."""
    try:
        card = Proved(document({"issuer": ISSUER, "card": [table(complete(words))]}), "c1")
        try:
            card.ask("off")
        finally:
            card.close()
    except Fault as fault:
        return str(fault)
    return None


def name_of(text):
    """A name behind --aid."""
    if len(bytes.fromhex(text)) not in range(5, 17):
        raise ValueError
    return text


def arguments(parser):
    """The command's words."""
    parser.add_argument("trace", nargs="*", metavar="TRACE", help="logs as for `lab judge`, in which the card was read")
    parser.add_argument("--reader", metavar="NAME", help="reads the card in the first reader whose name has NAME in it")
    parser.add_argument("--aid", action="append", default=[], type=name_of, help="with --reader: a name to look for, too")
    parser.add_argument("--log", metavar="F", help="with --reader: writes each exchange to this file")


def run(options):
    """Prints the card in words."""
    sessions = logs_of(options.trace)
    if options.reader is not None:
        print("# each application that is found takes one of its transaction counters", file=sys.stderr, flush=True)
        sessions += at_a_reader(options)
    if not sessions:
        raise Fault("there is neither a log nor --reader")
    found = read_in(sessions)
    if not found.apps:
        raise Fault("no answer to SELECT names an application")
    words = found.card()
    wrong = refusal(words)
    remarks = [*found.remarks("the reader" if options.reader is not None else " ".join(options.trace))]
    remarks += [f"An image like this is {wrong} (docs/use/scenario.md)."] if wrong else []
    print("".join(f"# {text}\n" for text in remarks) + "\n" + text_of({"card": words}), end="")
    return PASSED
