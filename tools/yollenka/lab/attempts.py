"""Sessions to be held with a card at a reader: what is sent to it, and what each session does to it.

A session is a generator of commands, which is sent each answer. What it sends depends on the card's image alone, and on the
cryptograms that the card gives; no session looks at whether an answer is right.
"""
from dataclasses import dataclass
from types import SimpleNamespace
from typing import Callable

from yollenka.lab.answers import values_of
from yollenka.lab.emv import DIRECTORY
from yollenka.model.ciphers import block_of, counted_key, master_key, response_one, response_two, session_key
from yollenka.model.issuer import command_of
from yollenka.model.objects import command, entries, filled, in_digits, spelled, total

AAC, TC, ARQC = 0x00, 0x40, 0x80
APPROVED, UNABLE, UNABLE_DECLINED = b"00", b"Y3", b"Z3"
DATE, NUMBER, RESULTS = "240615", "01020304", "8000000000"
# What a session does to the card, from the least.
NOTHING, COUNTS, BLOCKS = "changes nothing", "counts", "may block"
RISKS = {"safe": (NOTHING,), "counting": (NOTHING, COUNTS), "blocking": (NOTHING, COUNTS, BLOCKS)}
# Commands that are refused before an application is selected, and behind it.
BEFORE_SELECTION = ("80CA9F3600", "00B2010C00", "8012000000", "FF12000000", "00A4040000", "00A4050007A000000003101000")
WRONG = ("80A800000383010000", "00B2000C00", "00B2010D00", "80AE400001FF00", "0020008101FF", "0082000001FF", "841E000000")
# Of a larger limit the last approvals aren't tried.
MOST_APPROVALS = 10


class Subject:
    """The commands for an application of a card, by its image and the issuer's keys."""

    def __init__(self, issuer, card, app):
        self.app, self.card = app, card
        sequence = int(str(app.get("sequence", 0)), 16)
        keys = {name: master_key(bytes.fromhex(issuer[name]), app["pan"], sequence) for name in ("ac_key", "mac_key", "enc_key")}
        self.keys = keys | ({"ac_key": bytes.fromhex(app["ac_key"])} if "ac_key" in app else {})
        self.pin = app.get("pin")

    def select(self, next_=False):
        """SELECT of its name, or of the next application that begins so."""
        return command("00A40402" if next_ else "00A40400", bytes.fromhex(self.app["name"]))

    def options(self):
        """GET PROCESSING OPTIONS, with zeros for all that the card's list wants."""
        return command("80A80000", spelled(0x83, bytes(total(entries(bytes.fromhex(self.app.get("pdol", "")))))))

    def verify(self, pin):
        """VERIFY of this PIN."""
        return command("00200080", block_of(2, pin), b"")

    def wrong_pin(self):
        """A PIN that isn't the card's."""
        return "0000" if self.pin != "0000" else "1111"

    def files(self):
        """The records that the locator names, file by file."""
        locator = bytes.fromhex(self.app["afl"])
        for at in range(0, len(locator) - 3, 4):
            yield locator[at] >> 3, range(locator[at + 1], locator[at + 2] + 1)

    def generate(self, asked, amount, currency=None, code=None):
        """GENERATE AC: the second one where there is a response code."""
        terminal = {
            0x9F02: in_digits(amount, 6), 0x9F03: bytes(6), 0x9F1A: bytes.fromhex("0840"), 0x95: bytes.fromhex(RESULTS),
            0x5F2A: bytes.fromhex("0" + (currency or self.app["currency"])), 0x9A: bytes.fromhex(DATE), 0x9C: bytes(1),
            0x9F37: bytes.fromhex(NUMBER), 0x8A: code,
        }
        list_ = entries(bytes.fromhex(self.app["cdol2" if code else "cdol1"]))
        return command(f"80AE{asked:02X}00", filled(list_, {}, terminal))

    def heard(self, sent, answer):
        """The counter and the cryptogram in an answer to GENERATE AC; zeros where it has none."""
        found = dict(values_of(sent, answer[:-2]) or [])
        return found.get(0x9F36, b"").rjust(2, b"\0")[:2], found.get(0x9F26, b"").rjust(8, b"\0")[:8]

    def authenticate(self, heard, method=1, code=APPROVED):
        """EXTERNAL AUTHENTICATE to this cryptogram."""
        key = counted_key(self.keys["ac_key"], heard[0])
        if method == 1:
            return command("00820000", response_one(key, heard[1], code) + code, b"")
        status = b"\x80\x80\0\0"
        return command("00820000", response_two(key, heard[1], status) + status, b"")

    def script(self, text, heard):
        """A script command in the words of docs/use/scenario.md."""
        keys = (session_key(self.keys[name], heard[1]) for name in ("mac_key", "enc_key"))
        return command_of(text, *keys, SimpleNamespace(counter=heard[0], fields={0x9F26: heard[1]}))


def get(tag):
    """GET DATA of an object."""
    return command(f"80CA{tag}")


def read(file, number):
    """READ RECORD."""
    return command(f"00B2{number:02X}{file << 3 | 4:02X}")


# What changes nothing.

def counters(its):
    """What GET DATA gives."""
    yield its.select()
    for tag in ("9F36", "9F13", "9F17", "9F4F", "9F99"):
        yield get(tag)


def names(its):
    """SELECT by its name, by the front of it, of the next one, of no application and of the directory."""
    yield its.select()
    yield its.select(True)
    yield command("00A40400", bytes.fromhex(its.app["name"])[:5])
    yield command("00A40400", bytes.fromhex("F0000000000000"))
    yield command("00A40402", bytes.fromhex("F0000000000000"))
    yield command("00A40400", DIRECTORY)
    yield read(its.card.get("pse", 1), 1)
    yield read(its.card.get("pse", 1), len(its.card["app"]) + 1)


def refusals(its):
    """Commands that a card refuses: out of their order, of another form, of no class and no instruction that it knows."""
    yield from (bytes.fromhex(text) for text in BEFORE_SELECTION)
    yield its.options()
    yield its.select()
    yield its.generate(TC, 1)
    yield its.verify("1234")
    yield from (bytes.fromhex(text) for text in WRONG)


# What takes a transaction counter.

def begun(its):
    """A transaction up to the first cryptogram."""
    yield its.select()
    yield its.options()


def records(its):
    """All records that the locator names, and one behind each file's last."""
    yield from begun(its)
    yield from (read(file, number) for file, numbers in its.files() for number in (*numbers, max(numbers, default=0) + 1))
    yield get("9F36")


def online(its, method=1, scripts=()):
    """An approval by the issuer, with these script commands behind the authentication."""
    yield from begun(its)
    asked = its.generate(ARQC, 700)
    heard = its.heard(asked, (yield asked))
    yield its.authenticate(heard, method)
    for text in scripts:
        yield its.script(text, heard)
    yield its.generate(TC, 700, code=APPROVED)
    yield get("9F13")
    return heard


def other_method(its):
    """An approval by the issuer, by a response cryptogram of method 2."""
    yield from online(its, 2)


def declined(its):
    """A decline by the terminal, a second cryptogram that may not follow it, and its row of the log."""
    yield from begun(its)
    yield its.generate(AAC, 2500)
    yield its.generate(AAC, 2500, code=UNABLE_DECLINED)
    yield read(its.app.get("log_sfi", 11), 1)


def approved(its, amount=1):
    """An approval offline, and its row of the log."""
    yield from begun(its)
    yield its.generate(TC, amount)
    yield read(its.app.get("log_sfi", 11), 1)


def at_the_sum(its):
    """An approval of just the limit of their sum."""
    yield from approved(its, its.app["sum_limit"])


def above_the_sum(its):
    """One more than the limit of the sum."""
    yield from approved(its, its.app["sum_limit"] + 1)


def in_another_currency(its):
    """An approval in a currency that isn't the card's."""
    yield from begun(its)
    yield its.generate(TC, 1, "999" if its.app["currency"] != "999" else "998")


def unable(its):
    """A request without an issuer: the second cryptogram is a TC, as the card permits it."""
    yield from begun(its)
    yield its.generate(ARQC, 1)
    yield its.generate(TC, 1, code=UNABLE)


def wrong_issuer(its):
    """A wrong response cryptogram: it can be tried once, and no TC follows it."""
    yield from begun(its)
    asked = its.generate(ARQC, 1)
    counter, cryptogram = its.heard(asked, (yield asked))
    wrong = its.authenticate((counter, bytes(8) if any(cryptogram) else b"\1" * 8))
    yield wrong
    yield wrong
    yield its.generate(TC, 1, code=APPROVED)


def limits_by_script(its):
    """Script commands that set both limits to what they are, and one with a wrong code."""
    yield from online(its, 1, (f"count {its.app['count_limit']}", f"amount {its.app['sum_limit']}", "count 0 bad"))


def pins(its):
    """A wrong PIN and the right one, which gives the tries back."""
    yield from begun(its)
    yield its.verify(its.wrong_pin())
    yield its.verify(its.pin)
    yield get("9F17")


# What a card may not come back from, where it answers wrongly.

def tries(its):
    """Wrong PINs until no try is left, and the right one."""
    yield from begun(its)
    for _ in range(its.app.get("tries", 3) + 1):
        yield its.verify(its.wrong_pin())
    yield its.verify(its.pin)
    yield get("9F17")


def tries_back(its):
    """A script command that gives the tries back."""
    yield from online(its, 1, ("pin_unblock",))
    yield get("9F17")


def blocked(its):
    """The application is blocked by a script command, and unblocked by the next one."""
    yield from online(its, 1, ("block", "unblock"))
    yield its.select()


def another_pin(its):
    """A new PIN by a script command, which is verified, and the old one again."""
    other = its.wrong_pin()
    heard = yield from online(its, 1, (f"pin {other}",))
    yield its.script(f"pin {its.pin}", heard)
    yield from begun(its)
    yield its.verify(its.pin)


@dataclass(frozen=True)
class Attempt:
    """A session to be held: what it is in words, what it does to the card, its generator of commands, and how often."""

    title: str
    risk: str
    commands: Callable
    times: int = 1


def attempts_of(its):
    """The sessions for an application, the least risky first. One that needs a PIN is left out where the image has none. Behind
    the last one that counts, the approvals' number and sum and the issuer's flag are as in a new card."""
    count = its.app["count_limit"]
    yield Attempt("what GET DATA gives", NOTHING, counters)
    yield Attempt("selection", NOTHING, names)
    yield Attempt("commands that are refused", NOTHING, refusals)
    yield Attempt("an approval by the issuer", COUNTS, online)
    yield Attempt("the records", COUNTS, records)
    yield Attempt("a decline", COUNTS, declined)
    yield Attempt("an approval of just the limit of the sum", COUNTS, at_the_sum)
    yield Attempt("an approval above it", COUNTS, approved)
    yield Attempt("an approval by the issuer, by method 2", COUNTS, other_method)
    yield Attempt("an approval of more than the limit of the sum", COUNTS, above_the_sum)
    yield Attempt("an approval in another currency", COUNTS, in_another_currency)
    yield Attempt("a request that gets no reply", COUNTS, unable)
    if count <= MOST_APPROVALS:
        yield Attempt("approvals up to their number, and one more", COUNTS, lambda its: approved(its, 0), count + 1)
    if its.pin is not None:
        yield Attempt("a wrong PIN and the right one", COUNTS, pins)
    yield Attempt("a wrong issuer", COUNTS, wrong_issuer)
    yield Attempt("an approval behind it", COUNTS, approved)
    yield Attempt("limits set by script commands", COUNTS, limits_by_script)
    if its.pin is not None:
        yield Attempt("wrong PINs until no try is left", BLOCKS, tries)
        yield Attempt("the tries given back by a script command", BLOCKS, tries_back)
        yield Attempt("another PIN by a script command", BLOCKS, another_pin)
    yield Attempt("blocked and unblocked by script commands", BLOCKS, blocked)
