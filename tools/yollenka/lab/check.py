"""`lab check`: what is wrong with a scenario's cards before anything runs."""
import subprocess
from typing import NamedTuple

from yollenka.builds import is_known
from yollenka.faults import Fault
from yollenka.lab.cases import refused
from yollenka.lab.spelling import METHODS, rule_words
from yollenka.model.objects import Fault as CodingFault
from yollenka.model.objects import account_number, entries, total
from yollenka.model.selection import Terminated, check, gather, read
from yollenka.lines import program
from yollenka.scenarios import document, read_document
from yollenka.words import CAUSE, TAGS, TVR

TEXT = """Says what is wrong with a scenario's cards before anything runs: records that can't be read, with the place, numbers and
lists that disagree, action codes that are always met, currencies without an account, and which purchases begin with a card
that isn't well-formed. A line that begins with `note` is no fault. Status 1 where there is a fault."""
# The program that says of each purchase whether its card is well-formed, and its words.
CARD_CHECK = "card_check"
PARTS = {
    "card-blocked": "the card is blocked", "names-clash": "one application's name begins another's",
    "none-serves": "no application can serve the purchase", "first-list": "8C wants another number of bytes than cdol1",
    "second-list": "8D wants another number of bytes than cdol2", "long-locator": "the locator is too long for format 2",
}
PIN_METHODS = (METHODS["plaintext pin"], METHODS["plaintext pin and signature"])
UNREADABLE_FROM, MOST_LOCATOR, LAST_COUNTER = 11, 244, 65535


def arguments(parser):
    """The command's words."""
    parser.add_argument("scenario", metavar="SCENARIO.toml", help="a scenario")


class App(NamedTuple):
    """An application with what its records give (as far as they can be read), and its scenario."""

    own: dict
    held: dict
    scenario: dict

    def rows(self):
        """The terminals' rows for this application, each with its lane's number."""
        for number, lane in enumerate(self.scenario["lane"]):
            for row in lane["aid"]:
                longer = row.get("partial", False) and self.own["name"].upper().startswith(row["name"].upper())
                if longer or row["name"].upper() == self.own["name"].upper():
                    yield number, row


def around(data, place):
    """The bytes around a place, which stands in brackets."""
    begin = ".." if place > 4 else ""
    return f"{begin}{data[max(0, place - 4) : place].hex()}[{data[place : place + 1].hex()}]{data[place + 1 : place + 5].hex()}"


def held_by(app):
    """The objects of the records that can be read, the first of each tag."""
    held = {}
    for record in app["record"]:
        its = {}
        try:
            gather(its, bytes.fromhex(record["bytes"]))
        except Terminated:
            pass  # record_faults tells it
        held = its | held
    return held


def record_faults(app):
    """Records that are not one template 70 of whole objects, with the place of the first fault."""
    for record in app.own["record"]:
        data = bytes.fromhex(record["bytes"])
        try:
            if record["sfi"] < UNREADABLE_FROM:
                gather({}, data)
        except Terminated as fault:
            cause, _, place = str(fault).removeprefix("terminated read ").partition(" ")
            told = f"byte {place}: {around(data, int(place))}" if cause == "coding" else place
            yield f"record {record['sfi']}.{record['number']}: {CAUSE[cause]}: {told}"


def locator_faults(app):
    """A locator that there can't be, or that names records which aren't there; records that it leaves out."""
    locator, named = bytes.fromhex(app.own["afl"]), set()
    try:
        check(locator)
    except Terminated as fault:
        yield f"afl: {CAUSE['afl']}: {str(fault).rpartition(' ')[2]}"
        return
    for file, begin, end, _ in zip(*[iter(locator)] * 4):
        named |= {(file >> 3, number) for number in range(begin, end + 1)}
    there = {(record["sfi"], record["number"]) for record in app.own["record"]}
    log = app.own.get("log_sfi", UNREADABLE_FROM) if app.own.get("log") else None
    named = {(file, number) for file, number in named if file != log}
    yield from (f"afl names record {file}.{number}, which isn't there" for file, number in sorted(named - there))
    yield from (f"note: record {file}.{number} isn't in the locator" for file, number in sorted(there - named))


def data_faults(app):
    """What ends the reading of the application's data, where each record can be read."""
    records = {(one["sfi"], one["number"]): bytes.fromhex(one["bytes"]) for one in app.own["record"]}
    reading, answer = read(bytes.fromhex(app.own["aip"]), bytes.fromhex(app.own["afl"])), None
    try:
        check(bytes.fromhex(app.own["afl"]))
        while True:
            _, said = reading.send(answer)
            body = records.get((said[3] >> 3, said[2]))
            answer = bytes.fromhex("6a83") if body is None else body + bytes.fromhex("9000")
    except StopIteration:
        return
    except Terminated as fault:
        cause, _, about = str(fault).removeprefix("terminated read ").partition(" ")
        if cause in CAUSE and cause not in ("status", "coding"):
            yield f"its data can't be read: {CAUSE[cause]}{f': {named(about)}' if about else ''}"


def named(tag):
    """A tag with its name."""
    return f"{tag.upper()} {TAGS[tag][0]}" if tag in TAGS else tag.upper()


def number_faults(app):
    """Account and sequence numbers that disagree."""
    own, held = app.own, app.held
    number = account_number(held[0x5A]) if 0x5A in held else None
    if number and number != own["pan"]:
        yield f"pan is {own['pan']}, and 5A in a record is {number}: cryptograms will be wrong"
    if number and 0x57 in held and held[0x57].hex().partition("d")[0] != number:
        yield f"57 in a record has the account number {held[0x57].hex().partition('d')[0]}, and 5A has {number}"
    if 0x5F34 in held and held[0x5F34].hex() != f"{own.get('sequence', 0):02}":
        yield f"sequence is {own.get('sequence', 0)}, and 5F34 in a record is {held[0x5F34].hex()}: cryptograms will be wrong"
    if own.get("counter", 0) == LAST_COUNTER:
        yield "counter is 65535: GET PROCESSING OPTIONS is answered 6985"
    if own.get("gpo_format") == 2 and len(own["afl"]) // 2 > MOST_LOCATOR:
        yield f"afl has {len(own['afl']) // 2} bytes, too many for an answer in format 2"


def list_faults(app):
    """Lists in the records that want other data than the card's own."""
    for tag, key in ((0x8C, "cdol1"), (0x8D, "cdol2")):
        try:
            given, own = entries(app.held.get(tag, b"")), entries(bytes.fromhex(app.own[key]))
        except CodingFault:
            continue
        if tag in app.held and total(given) != total(own):
            yield f"{tag:02X} in a record asks for {total(given)} bytes, and {key} for {total(own)}: GENERATE AC is answered 6700"
        elif tag in app.held and given != own:
            yield f"{tag:02X} in a record and {key} ask for other objects, of as many bytes"


def code_faults(app):
    """Action codes that are always met, by a bit that every purchase has."""
    ends = {"denial": "each purchase is declined", "online": "each purchase goes online",
            "default": "each purchase that can't go online is declined"}
    tags = {"denial": 0x9F0E, "online": 0x9F0F, "default": 0x9F0D}
    for lane, row in app.rows():
        bits = [18] + ([28] if app.held.get(0x9F08, bytes.fromhex(row["version"])).hex() != row["version"].lower() else [])
        for key, tag in tags.items():
            own = app.held.get(tag, bytes(5) if key == "denial" else b"\xff" * 5)
            codes = {f"{tag:04X}{'' if tag in app.held else ' (absent)'}": own, f"lane {lane}'s {key} code": bytes.fromhex(row[key])}
            for name, code in codes.items():
                met = [bit for bit in bits if len(code) == 5 and code[bit // 10 - 1] >> bit % 10 - 1 & 1]
                yield from (f"note: {name} has {bit // 10}.{bit % 10}, {TVR[bit]}: {ends[key]}" for bit in met)


def method_faults(app):
    """Rules of cardholder verification that lack what they need, and limits that say little."""
    rules = app.held.get(0x8E, b"")[8:]
    for method, condition in zip(rules[::2], rules[1::2]):
        words = rule_words(method, condition)
        if method & 0x3F in PIN_METHODS and "pin" not in app.own:
            yield f"8E has '{words}', and the card has no PIN: VERIFY is answered 6A88"
        if condition in (6, 7, 8, 9) and 0x9F42 not in app.held:
            yield f"8E has '{words}', and no record has 9F42: the rule is always passed over"
    lower, upper = app.held.get(0x9F14), app.held.get(0x9F23)
    if (lower is None) != (upper is None):
        yield "note: one of 9F14 and 9F23 is there alone: there is no velocity checking"
    if lower and upper and lower[0] > upper[0]:
        yield f"9F14 is {lower[0]}, above 9F23, which is {upper[0]}"


def currency_faults(app):
    """Currencies that no account has, or that disagree."""
    own = app.own
    accounts = [one for one in app.scenario["account"] if one["pan"] == own["pan"]]
    currencies = [own["currency"], *([own["currency_two"]] if "currency_two" in own else [])]
    if not accounts:
        yield f"no account has the number {own['pan']}: the issuer replies 14"
    elif accounts[0]["currency"] not in currencies:
        yield f"the account's currency is {accounts[0]['currency']}, and the application's {' and '.join(currencies)}"
    if 0x9F42 in app.held and app.held[0x9F42].hex() != "0" + own["currency"]:
        yield f"currency is {own['currency']}, and 9F42 in a record is {app.held[0x9F42].hex()}"
    if not list(app.rows()):
        yield "note: no terminal of the scenario has its name"


def name_faults(card):
    """Names of one card of which one begins another."""
    names = [app["name"].upper() for app in card["app"]]
    pairs = [(one, other) for one in names for other in names if one != other and other.startswith(one)]
    yield from (f"the name {one} begins {other}: the one can't be told from the other" for one, other in pairs)


CHECKS = (record_faults, locator_faults, data_faults, number_faults, list_faults, code_faults, method_faults, currency_faults)


def card_faults(scenario):
    """What is wrong with each card, application by application."""
    for card in scenario["card"]:
        yield from (f"card {card['name']}: {text}" for text in (name_faults(card) if "app" in card else []))
        for own in card.get("app", []):
            app = App(own, held_by(own), scenario)
            seen = dict.fromkeys(text for find in CHECKS for text in find(app))
            yield from (f"card {card['name']}, {own['name'].upper()}: {text}" for text in seen)


def verdict_words(verdict):
    """A verdict of the program `card_check` in words."""
    words = verdict.split(" ")
    its = f"application {words[1]}: " if words[0] == "app" else ""
    rest = words[2:] if its else words
    if rest[0] == "read":
        return f"{its}{CAUSE[rest[1]]}{f': {named(rest[2])}' if len(rest) > 2 else ''}"
    return its + PARTS.get(rest[0], " ".join(rest))


def well_formed_faults(scenario):
    """The purchases that begin with a card that isn't well-formed, by the proved call; nothing where the program isn't there."""
    if not is_known(CARD_CHECK):
        return
    told = subprocess.run([program(CARD_CHECK)], input=document(scenario), capture_output=True, text=False).stdout.decode()
    for line in told.splitlines():
        card, _, lane, _, number, verdict = line.split(" ", 5)
        if verdict not in ("well-formed", "canned"):
            yield f"lane {lane}, purchase {number}: card {card} isn't well-formed: {verdict_words(verdict)}"


def run(options):
    """Prints what is wrong; gives the status."""
    scenario = read_document(options.scenario)
    try:
        refused(scenario)
    except Fault as fault:
        raise Fault(f"{options.scenario}: {fault}") from None
    lines = [*card_faults(scenario), *well_formed_faults(scenario)]
    print(*lines, sep="\n", end="\n" if lines else "")
    faults = sum(": note: " not in line for line in lines)
    print(f"{options.scenario}: {faults} fault{'' if faults == 1 else 's'}, {len(lines) - faults} notes")
    return 1 if faults else 0
