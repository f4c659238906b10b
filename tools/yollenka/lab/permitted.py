"""What the Books leave to a terminal, and where a rule is this project's own: a table of commands that are set aside, one of
commands that may lack, and one of differences in what the terminal says that are excused.

Sections are those of EMV 4.3 that docs/ states; where it states none for a rule, the chapter stands alone.
"""
from dataclasses import dataclass
from typing import Callable, NamedTuple

from yollenka.lab.emv import data_of, has_bit, said
from yollenka.lab.verdict import OPEN, OWN, PERMITTED

ATC, LAST_ONLINE, TRIES, LOG_FORMAT = "80ca9f36", "80ca9f13", "80ca9f17", "80ca9f4f"
COUNTERS, VERIFY = (ATC, LAST_ONLINE), "00200080"
ONLINE_ONLY, OFFLINE_ONLY = (21, 24), (23, 26)
# Bits of the verification results as one number: byte 1 bit 8 is the highest of 40.
AUTHENTICATION, METHODS, COUNTED, RANDOM = 0xCE00000000, 0x0000FF0000, 0x200800F000, 0x0000001000
DATES, SERVICE = 0x0060000000, 0x0010000000
CVM_RESULTS = 0x9F34


@dataclass(frozen=True)
class Scene:
    """Where a walk stands: the log's command `now`, or None; `said`, what the card says in the whole log; the `lane` that is
    judged, with its one purchase; the log's exchanges `before` now; the keys that no one gave, `lacking`."""

    now: bytes | None
    said: object
    lane: dict
    before: list
    lacking: list

    def caps(self):
        """The terminal's capabilities."""
        return bytes.fromhex(self.lane["caps"])

    def purchase(self):
        """The purchase that is judged."""
        return self.lane["purchase"][0]


class Rule(NamedTuple):
    """A rule: in words, the section, of what kind the finding is, and where it applies."""

    text: str
    section: str
    kind: str
    applies: Callable


class Excuse(NamedTuple):
    """A rule by which what the terminal says may differ: in bits of the verification results, in objects, in commands (by their
    first digits) that lack or are too many."""

    text: str
    section: str
    kind: str
    applies: Callable
    bits: int = 0
    tags: tuple = ()
    commands: tuple = ()


# Commands of the log that the reference doesn't ask here.

def asks_data(*heads):
    """A test for GET DATA of one of these objects."""
    return lambda scene: len(scene.now) == 5 and scene.now.hex().startswith(heads) and scene.now[4] == 0


def is_next(scene):
    """SELECT of the next occurrence, before GET PROCESSING OPTIONS, of a name that the card has just so."""
    name = data_of(scene.now)
    return scene.now[:4] == b"\x00\xa4\x04\x02" and not has_begun(scene) and name in said(scene.before).found


def has_begun(scene):
    """Whether GET PROCESSING OPTIONS was answered."""
    return any(one.sent[:2] == b"\x80\xa8" and (one.got or b"")[-2:] == b"\x90\x00" for one in scene.before)


def is_of_log(scene):
    """READ RECORD of a file from 11 to 30, which no locator needs."""
    p2 = scene.now[3]
    return scene.now[:2] == b"\x00\xb2" and len(scene.now) == 5 and p2 & 7 == 4 and 11 <= p2 >> 3 <= 30


def enciphers(scene):
    """Whether the card's list has a method with a PIN that is enciphered for the card, and the terminal supports it."""
    methods = {method & 0x3F for method in scene.said.held.get(0x8E, b"")[8::2]}
    return bool(methods & {4, 5}) and has_bit(scene.caps(), 25)


def is_enciphered(scene):
    """GET CHALLENGE or VERIFY of an enciphered PIN, where both sides have the method."""
    return (scene.now.hex() == "0084000000" or scene.now[:4] == b"\x00\x20\x00\x88") and enciphers(scene)


def authenticates(scene):
    """Whether both sides have one way of offline data authentication in common."""
    ways = ((17, 38), (16, 37), (11, 34))
    return any(has_bit(scene.said.profile, one) and has_bit(scene.caps(), other) for one, other in ways)


def is_internal(scene):
    """INTERNAL AUTHENTICATE where both sides have dynamic data authentication."""
    return scene.now[:4] == b"\x00\x88\x00\x00" and has_bit(scene.said.profile, 16) and has_bit(scene.caps(), 37)


ASIDE = [
    Rule("SELECT of the next application behind an exact name", "Book 1, 12.3.3", PERMITTED, is_next),
    Rule("the PIN try counter is read", "Book 4, 6.3", PERMITTED, asks_data(TRIES)),
    Rule("a counter is read besides", "Book 3, 10.6.3", PERMITTED, asks_data(*COUNTERS)),
    Rule("the transaction log is read", "Book 3, Annex D", PERMITTED, asks_data(LOG_FORMAT)),
    Rule("the transaction log is read", "Book 3, Annex D", PERMITTED, is_of_log),
    Rule("another object is read", "Book 3, 6.5.7", PERMITTED, asks_data("80ca")),
    Rule("a PIN enciphered for the card, which the reference doesn't support", "Book 3, 10.5", OPEN, is_enciphered),
    Rule("offline data authentication, which the reference doesn't perform", "Book 3, 10.3", OPEN, is_internal),
]


def aside(scene):
    """The rule by which the log's command is set aside, or None."""
    return next((rule for rule in ASIDE if len(scene.now) >= 4 and rule.applies(scene)), None)


# Commands of the reference that the log lacks: each with the answer that it gets then.

def has_no_try(scene):
    """Whether GET DATA told that no PIN try is left."""
    return any(one.sent.hex() == TRIES + "00" and one.got == bytes.fromhex("9f1701009000") for one in scene.before)


def has_no_counter(scene):
    """Whether GET DATA of a counter wasn't answered 9000."""
    return any(one.sent.hex().startswith(COUNTERS) and (one.got or b"")[-2:] != b"\x90\x00" for one in scene.before)


LACKING = [
    ((VERIFY,), "6983", Rule("no VERIFY where no PIN try is left", "Book 4, 6.3", PERMITTED, has_no_try)),
    (COUNTERS, "6a88", Rule("no second counter behind one that isn't given", "Book 3, 10.6.3", PERMITTED, has_no_counter)),
]


def lacking(scene, ask):
    """The rule by which the reference's command may lack, and the answer that stands for the card's; or None twice."""
    for heads, answer, rule in LACKING:
        if ask.hex().startswith(heads) and rule.applies(scene):
            return rule, bytes.fromhex(answer)
    return None, None


# Differences in what is said.

def kind_is(*kinds):
    """A test for the terminal's type, where the profile has terminal risk management."""
    return lambda scene: scene.lane["kind"] in kinds and has_bit(scene.said.profile, 14)


def meets_limit(scene):
    """Whether the amount equals X or Y, and a rule of the card's list looks at it."""
    list_, amount = scene.said.held.get(0x8E, b""), scene.purchase()["amount"]
    x, y = int.from_bytes(list_[:4]), int.from_bytes(list_[4:8])
    return any(condition in (6, 7) and amount == x or condition in (8, 9) and amount == y for condition in list_[9::2])


def has_other_status(scene):
    """Whether VERIFY was answered with a status for which the Books have no rule."""
    answers = [one.got.hex() for one in scene.before if one.sent.hex().startswith(VERIFY) and one.got]
    return any(answer not in ("9000", "6983", "6984") and not answer.startswith("63c") for answer in answers)


def has_old_date(scene):
    """Whether a date of the card has a year from 50 on."""
    return any(scene.said.held.get(tag, b"\0")[:1] >= b"\x50" for tag in (0x5F24, 0x5F25))


def ties(scene):
    """Whether two of the card's applications have one priority."""
    priorities = [indicator & 0x0F for indicator in scene.said.found.values()]
    return len(set(priorities)) < len(priorities)


def lacks(*keys):
    """A test for keys that no one gave."""
    return lambda scene: any(key in scene.lacking for key in keys)


EXCUSES = [
    Excuse("which types look at floor limit, random selection and velocity is this project's choice", "RISK-11", OWN,
           kind_is(*ONLINE_ONLY), COUNTED, (), COUNTERS),
    Excuse("which types select at random is this project's choice", "RISK-11", OWN, kind_is(*OFFLINE_ONLY), RANDOM),
    Excuse("that an amount equal to X or Y is neither under nor over it is this project's choice", "CVM-4", OWN, meets_limit, METHODS,
           (CVM_RESULTS,), (VERIFY,)),
    Excuse("that another status of VERIFY makes the method unsuccessful is this project's choice", "CVM-10", OWN, has_other_status,
           METHODS, (CVM_RESULTS,), (VERIFY,)),
    Excuse("that years from 50 on are of the last century is this project's choice", "BASE-2", OWN, has_old_date, DATES),
    Excuse("the order of applications of one priority is this project's choice", "SEL-18", OWN, ties, 0, (), ("00a40400",)),
    Excuse("offline data authentication, which the reference doesn't perform", "Book 3, 10.3", OPEN, authenticates, AUTHENTICATION),
    Excuse("a PIN enciphered for the card, which the reference doesn't support", "Book 3, 10.5", OPEN, enciphers, METHODS,
           (CVM_RESULTS,), (VERIFY,)),
    Excuse("`caps` isn't known", "", OPEN, lacks("caps"), METHODS, (CVM_RESULTS, 0x9F33), (VERIFY,)),
    Excuse("`aid` isn't known", "", OPEN, lacks("aid"), 0, (), ("00a404",)),
    Excuse("`kind` isn't known", "", OPEN, lacks("kind"), COUNTED, (0x9F35,), COUNTERS),
    Excuse("the amount, the currency or the type of the purchase isn't known", "", OPEN,
           lacks("purchase.amount", "purchase.currency", "purchase.trade"), METHODS | COUNTED | SERVICE,
           (CVM_RESULTS, 0x9F02, 0x9F03, 0x5F2A, 0x9C), (VERIFY,)),
    Excuse("the date isn't known", "", OPEN, lacks("purchase.date"), DATES, (0x9A,)),
    Excuse("the terminal's country isn't known", "", OPEN, lacks("country"), SERVICE, (0x9F1A,)),
]


def excuses(scene):
    """The excuses that apply."""
    return [one for one in EXCUSES if one.applies(scene)]


def excuse_of(scene, command):
    """The excuse for a command that lacks or is too many, or None."""
    return next((one for one in excuses(scene) if command.hex().startswith(one.commands or ("-",))), None)
