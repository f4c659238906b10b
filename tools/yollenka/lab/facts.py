"""What is known of a terminal and its purchase when its dialogue is judged: the keys of a scenario's lane, all or some. What
lacks is taken from the log, or assumed as the verification results say, or guessed."""
from dataclasses import dataclass, field, replace

from yollenka.lab.emv import DIRECTORY, data_of, has_bit, said
from yollenka.lab.permitted import OFFLINE_ONLY, VERIFY
from yollenka.lab.verdict import ASSUMED, NOTE, PERMITTED, TAKEN, Line
from yollenka.lines import NOT_OF_A_DIALOGUE, NOT_OF_A_TERMINAL
from yollenka.model.objects import account_number, is_date
from yollenka.scenarios import document

# Any key does where a log has no message with an online PIN to compare.
NO_KEY = "00" * 16
REQUIRED = ("amount", "currency", "date", "number", "word")
ROW_KEYS = ("name", "partial", "version", "denial", "online", "default", "floor", "threshold", "target", "max_target")
NO_BITS, ALL_BITS, NO_LIMIT = "00" * 5, "FF" * 5, 999_999_999_999
# Where no one tells the terminal's capabilities: a PIN for the card, a signature, no verification; with a PIN for the issuer too;
# and without a PIN pad.
CAPS, WITH_ONLINE_PIN, WITHOUT_PAD = "E0B8C8", "E0F8C8", "E028C8"
NEVER, ALWAYS = 98, 0
ANY_PIN = "0000"


@dataclass
class Facts:
    """The keys of a lane as docs/use/scenario.md has them, section 7: `lane` without its `aid` and `purchase`, `aids` the rows, and
    `purchase` the one purchase. Each may lack keys; what lacks is taken from the log or assumed. `pin_key` is the issuer's.
    `paid` has the account number and the amount of each earlier approval of this terminal, the latest one last."""

    lane: dict = field(default_factory=dict)
    aids: list = field(default_factory=list)
    purchase: dict = field(default_factory=dict)
    pin_key: str | None = None
    paid: list = field(default_factory=list)

    def is_whole(self):
        """Whether the purchase has all that it must have: what it leaves out has its default then."""
        return all(key in self.purchase for key in REQUIRED)


@dataclass
class Settled:
    """The facts with nothing left open: the `lane` with its `aid` and one `purchase`, the `pin_key`, findings about what was
    taken, assumed or permitted in `lines`, and in `lacking` the places of the keys that no one gave. `knows_pins` tells that an
    enciphered PIN can be compared."""

    lane: dict
    pin_key: str
    lines: list = field(default_factory=list)
    lacking: list = field(default_factory=list)
    knows_pins: bool = False

    def text(self):
        """The document of the reference."""
        return document({"pin_key": self.pin_key, "lane": self.lane})


def facts_of(lane, purchase=None, pin_key=None):
    """The facts of a lane's table: with this purchase, or else with the first that it has, or with none."""
    own = purchase or next(iter(lane.get("purchase", [])), {})
    return Facts({key: value for key, value in lane.items() if key not in ("aid", "purchase", *NOT_OF_A_TERMINAL)},
                 [dict(row) for row in lane.get("aid", [])],
                 {key: value for key, value in own.items() if key not in NOT_OF_A_DIALOGUE}, pin_key)


def facts_of_scenario(scenario, lane, number):
    """The facts of a lane's purchase in a scenario; lanes count from 0, purchases from 1."""
    table = scenario["lane"][lane]
    return facts_of(table, table["purchase"][number - 1], scenario["issuer"]["pin_key"])


# Values in the bytes. Each reader gives None for what a lane can't have.

def amount(value):
    """A number of decimal digits."""
    return int(value.hex()) if value.hex().isdecimal() else None


def code(value):
    """Three digits behind a 0."""
    text = value.hex()
    return text[1:] if text.isdecimal() and text[0] == "0" else None


def digits(value):
    """Six decimal digits."""
    return value.hex() if value.hex().isdecimal() else None


def date(value):
    """A date."""
    return value.hex() if is_date(value) else None


def one_of(*numbers):
    """A reader of one byte of digits that is one of these numbers."""
    return lambda value: int(value.hex()) if value.hex() in [f"{one:02}" for one in numbers] else None


def capabilities(value):
    """Three bytes."""
    return value.hex().upper()


def identification(value):
    """Eight letters or digits."""
    text = value.decode("latin1")
    return text if text.isascii() and text.isalnum() else None


def number(value):
    """An unpredictable number."""
    return int.from_bytes(value)


# Tag, the table and key that it tells, its reader, and what stands where no one tells it (None: then the key lacks).
IN_LISTS = [
    (0x9F35, "lane", "kind", one_of(*range(21, 27)), 22), (0x9F1A, "lane", "country", code, "840"),
    (0x9F33, "lane", "caps", capabilities, CAPS), (0x9F1C, "lane", "id", identification, "00000000"),
    (0x9F02, "purchase", "amount", amount, 0), (0x9F03, "purchase", "other", amount, 0),
    (0x5F2A, "purchase", "currency", code, "840"), (0x9A, "purchase", "date", date, "000101"),
    (0x9C, "purchase", "trade", one_of(0, 1, 9), 0), (0x9F21, "purchase", "time", digits, "000000"),
    (0x9F37, "purchase", "number", number, 0),
]
# What no difference tells, or has a default.
HARMLESS = ("id", "other", "time", "number")


def take_values(told, facts, settled):
    """Takes from the lists what the facts leave open; what they don't tell is set as it must be, and lacks."""
    tables, taken = {"lane": settled.lane, "purchase": settled.lane["purchase"][0]}, []
    for tag, name, key, reader, otherwise in IN_LISTS:
        if key in tables[name] or name == "purchase" and facts.is_whole():
            continue
        value = reader(told[tag]) if tag in told else None
        if value is None and key not in HARMLESS:
            settled.lacking.append(key if name == "lane" else f"purchase.{key}")
        elif value is not None:
            taken.append(f"{key} {value}")
        tables[name][key] = otherwise if value is None else value
    if tables["purchase"].get("other", 0) > tables["purchase"]["amount"]:
        tables["purchase"]["other"] = 0
    if taken:
        settled.lines.append(Line(TAKEN, ", ".join(taken)))


# What no byte tells.

def pins_of(exchanges):
    """The PINs in the commands VERIFY, as far as they are PIN blocks of format 2."""
    blocks = [data_of(one.sent).hex() for one in exchanges if one.sent.hex().startswith(VERIFY)]
    found = [block[2 : 2 + int(block[1], 16)] for block in blocks if len(block) == 16 and block[0] == "2"]
    return [pin for pin in found if 4 <= len(pin) <= 12 and pin.isdecimal()][:15]


def is_service(card, purchase, lane, is_forbidden):
    """Whether only services explain that usage control forbids or allows what is bought."""
    usage, country = int.from_bytes(card.held.get(0x9F07, b"\xff\xff")), card.held.get(0x5F28, b"").hex()
    shift = 0 if country == "0" + lane["country"] else 1
    goods, services = usage & 0x2000 >> shift, usage & 0x0800 >> shift
    return purchase["trade"] != 1 and country != "" and bool(goods) != bool(services) and is_forbidden == bool(goods)


def is_unconfirmed(card, exchanges):
    """Whether the card has an application that wants to be confirmed, and one that doesn't, or none, was begun."""
    wanting = {name for name, indicator in card.found.items() if indicator & 0x80}
    begun = any(one.sent[:2] == b"\x80\xa8" for one in exchanges)
    return bool(wanting) and not (begun and [name for name, _ in selected(exchanges)][-1:][0] in wanting)


def assume(card, exchanges, facts, settled):
    """Sets the open facts of a purchase as the first verification results say."""
    results, purchase, lane = card.first_results() or bytes(5), settled.lane["purchase"][0], settled.lane
    said_so = []

    def fact(table, key, holds, value, otherwise, words):
        if key not in table:
            table[key] = value if holds else otherwise
            said_so.extend([words] if holds else [])

    fact(purchase, "word", has_bit(results, 45), ALWAYS, NEVER, "it was selected at random")
    fact(purchase, "forced", has_bit(results, 44), True, False, "the merchant forced it online")
    fact(purchase, "services", is_service(card, purchase, lane, has_bit(results, 25)), True, False, "services were bought")
    fact(purchase, "confirm", is_unconfirmed(card, exchanges), False, True, "the cardholder didn't confirm an application")
    account = account_number(card.held.get(0x5A, b""))
    fact(lane, "exceptions", has_bit(results, 15) and account, [account], [], "the account is on the exception file")
    if "pins" not in purchase:
        purchase["pins"] = (pins_of(exchanges) + [ANY_PIN] * has_bit(results, 33))[:15]
        said_so.extend(["a PIN for the issuer was entered"] if has_bit(results, 33) else [])
    if "caps" in settled.lacking and has_bit(results, 33):
        lane["caps"] = WITH_ONLINE_PIN
    settled.lines.extend(Line(ASSUMED, words) for words in said_so)


# The terminal's rows.

def selected(exchanges):
    """The names of the SELECTs before GET PROCESSING OPTIONS, with their P2."""
    for one in exchanges:
        if one.sent[:2] == b"\x80\xa8":
            return
        if one.sent[:3] == b"\x00\xa4\x04" and len(one.sent) > 3:
            yield data_of(one.sent), one.sent[3]


def rows_in(card, exchanges):
    """The rows that the SELECTs of a log show: each name, but those that the card gave to a shorter one."""
    rows = []
    for name, p2 in selected(exchanges):
        text = name.hex().upper()
        shorter = next((row for row in rows if text.startswith(row["name"]) and (name in card.found or text == row["name"])), None)
        if shorter is None and 5 <= len(name) <= 16 and name != DIRECTORY:
            rows.append({"name": text, "partial": p2 == 2})
        elif shorter is not None and (p2 == 2 or shorter["name"] != text):
            shorter["partial"] = True
    return rows or [{"name": "A000000000", "partial": False}]


def codes_of(card, kind):
    """Action codes by which the kinds are asked for that the log asks for."""
    asked = [p1 & 0xC0 for _, p1 in card.generated]
    denial = ALL_BITS if asked[:1] == [0] and kind not in OFFLINE_ONLY else NO_BITS
    online = ALL_BITS if asked[:1] == [0x80] else NO_BITS
    default = ALL_BITS if kind in OFFLINE_ONLY and asked[:1] == [0] or asked[1:2] == [0] else NO_BITS
    return {"denial": denial, "online": online, "default": default}


def fill_rows(card, exchanges, settled):
    """Sets what the rows leave open; each such key lacks."""
    results, lane = card.first_results() or bytes(5), settled.lane
    is_guessed = not lane["aid"]
    if is_guessed:
        lane["aid"] = rows_in(card, exchanges)
        settled.lacking.append("aid")
    price, version = lane["purchase"][0]["amount"], card.held.get(0x9F08, b"")
    version = version if len(version) == 2 else b"\0\0"
    floor = price if has_bit(results, 48) else NO_LIMIT
    target = 99 if has_bit(results, 45) else 0
    own = {"version": (version if not has_bit(results, 28) else bytes([version[0] ^ 0xFF, version[1]])).hex(),
           **codes_of(card, lane["kind"]), "floor": floor, "threshold": 0, "target": target, "max_target": target}
    for at, row in enumerate(lane["aid"]):
        lacking = [key for key in own if key not in row]
        settled.lacking.extend(f"aid[{at}].{key}" for key in lacking if not is_guessed)
        row.update({key: own[key] for key in lacking})
        row["threshold"] = min(row["threshold"], row["floor"]) if "threshold" in lacking else row["threshold"]
        row["max_target"] = max(row["max_target"], row["target"]) if "max_target" in lacking else row["max_target"]


def places_of(rows, names):
    """For each row's name the place where it is selected: of a name that stands twice the second one for its second row."""
    found = []
    for at, row in enumerate(rows):
        places = [place for place, name in enumerate(names) if name == row][rows[:at].count(row) :]
        found.append(places[0] if places else len(names))
    return found


def follow(exchanges, facts, settled):
    """Lets the directory and the order of names follow the log, which may choose both."""
    names, lane = [name for name, p2 in selected(exchanges) if p2 == 0], settled.lane
    begins = names[:1] == [DIRECTORY]
    if lane.get("pse", False) != begins and names:
        if "pse" in lane or facts.is_whole():
            text = "begins with" if begins else "doesn't begin with"
            settled.lines.append(Line(PERMITTED, f"the terminal {text} the directory 1PAY.SYS.DDF01", section="Book 1, 12.3.2"))
        lane["pse"] = begins
    places = places_of([bytes.fromhex(row["name"]) for row in lane["aid"]], names)
    if not begins and places != sorted(places):
        lane["aid"] = [row for _, row in sorted(zip(places, lane["aid"]), key=lambda pair: pair[0])]
        settled.lines.append(Line(PERMITTED, "the terminal's names in another order", section="Book 1, 12.3.3"))


def lower_floor(card, paid, settled):
    """An earlier approval counts: where the account's latest one reaches the floor limit with this amount, the amount does so."""
    account, price = account_number(card.held.get(0x5A, b"")), settled.lane["purchase"][0]["amount"]
    before = [amount_ for pan, amount_ in paid if pan == account][-1:]
    for row in settled.lane["aid"]:
        if before and price < row["floor"] <= price + before[0]:
            row["floor"] = price
            row["threshold"] = min(row["threshold"], price)
            settled.lines.append(Line(NOTE, f"with the account's approval of {before[0]} before, the floor limit is reached"))


def settle(purchase, facts):
    """The facts of a purchase of a log, with all that lacks set."""
    exchanges = [one for one in purchase.exchanges if one.side == "card"]
    card, own = said(purchase.exchanges), dict(facts.purchase)
    own.setdefault("card", "card")
    lane = {**facts.lane, "aid": [dict(row) for row in facts.aids], "purchase": [own]}
    settled = Settled(lane, facts.pin_key or NO_KEY, knows_pins=facts.pin_key is not None and "pins" in own or facts.is_whole())
    take_values(card.told(), facts, settled)
    if not facts.is_whole():
        assume(card, exchanges, facts, settled)
    fill_rows(card, exchanges, settled)
    follow(exchanges, facts, settled)
    lower_floor(card, facts.paid, settled)
    return settled


def without_pad(settled):
    """The facts with the other guess of the terminal's capabilities."""
    return replace(settled, lane={**settled.lane, "caps": WITHOUT_PAD})
