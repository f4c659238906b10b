"""A TOML document read as a scenario or a trace, or its first fault, by the order of docs/use/scenario.md and docs/use/trace.md.

A rule takes a value and its path, and gives what is kept or raises Refused.
"""
import string
import tomllib

from .ciphers import master_key
from .issuer import HEADERS
from .objects import Fault, entries, is_date, spelled, total
from .selection import DIRECTORY

MISSING, BAD, LIMIT, UNKNOWN_KEY, UNKNOWN_NAME = (
    "2 MissingKey", "3 BadValue", "4 OutOfLimit", "5 UnknownKey", "6 UnknownName")
MOST_BYTES, MOST_ENTRY = 4_194_304, 8_192
LARGEST, MOST_NUMBER = 999_999_999_999, 2**32 - 1
PRINTABLE = "".join(map(chr, range(0x20, 0x7F)))
NAME = string.ascii_lowercase + string.digits
LETTERS = string.ascii_letters + string.digits
IN_FIRST_LIST = [(0x9F02, 6), (0x9F03, 6), (0x9F1A, 2), (0x95, 5), (0x5F2A, 2), (0x9A, 3), (0x9C, 1), (0x9F37, 4)]
ABSENT = object()


class Refused(Exception):
    """The document's first fault, as its line has it."""


def need(holds, fault, path):
    """Raises the fault where this doesn't hold."""
    if not holds:
        raise Refused(f"{fault} {path}")


# Rules of plain values.

def is_number(value):
    """Whether it is an integer."""
    return isinstance(value, int) and not isinstance(value, bool)


def number(least, most):
    """An integer in a range."""
    def rule(value, path):
        need(is_number(value), BAD, path)
        need(least <= value <= most, LIMIT, path)
        return value
    return rule


def one_of(*values):
    """One of these values, of their type."""
    def rule(value, path):
        need(type(value) is type(values[0]) and value in values, BAD, path)
        return value
    return rule


truth = one_of(False, True)


def text(letters, least, most=None):
    """A text of these characters, with a number of them."""
    def rule(value, path):
        need(isinstance(value, str) and all(letter in letters for letter in value), BAD, path)
        need(least <= len(value) <= (most or least), LIMIT, path)
        return value
    return rule


def octets(least, most=None):
    """Bytes in hexadecimal."""
    def rule(value, path):
        need(isinstance(value, str) and len(value) % 2 == 0 and all(one in string.hexdigits for one in value), BAD, path)
        need(least <= len(value) // 2 <= (least if most is None else most), LIMIT, path)
        return bytes.fromhex(value)
    return rule


def digits(least, most=None):
    """Decimal digits."""
    return text(string.digits, least, most)


def country(value, path):
    """Three digits, in two bytes."""
    return bytes.fromhex("0" + digits(3)(value, path))


def six_digits(value, path):
    """Six digits, in three bytes."""
    return bytes.fromhex(digits(6)(value, path))


def date(value, path):
    """A date."""
    need(is_date(six_digits(value, path)), BAD, path)
    return bytes.fromhex(value)


def array(least, most, rule):
    """An array with a number of elements, each by a rule."""
    def whole(value, path):
        need(isinstance(value, list), BAD, path)
        need(least <= len(value) <= most, LIMIT, path)
        return [rule(one, f"{path}[{at}]") for at, one in enumerate(value)]
    return whole


def fresh(rule, seen):
    """By a rule, and no value that was seen before."""
    def own(value, path):
        kept = rule(value, path)
        need(kept not in seen, BAD, path)
        seen.append(kept)
        return kept
    return own


def forbidden(_, path):
    """A key that must be absent."""
    need(False, BAD, path)


pan, pin, key, name = digits(13, 19), digits(4, 12), octets(16), text(NAME, 1, 16)


class Table:
    """A table whose keys are taken in order."""

    def __init__(self, value, path):
        need(isinstance(value, dict), BAD, path)
        self.left, self.path, self.kept = dict(value), path, {}

    def at(self, key_):
        """The path of a key."""
        return f"{self.path}.{key_}" if self.path else key_

    def take(self, key_, rule, absent=ABSENT):
        """The value of a key, or what stands for it where it is absent."""
        if key_ in self.left:
            self.kept[key_] = rule(self.left.pop(key_), self.at(key_))
        else:
            need(absent is not ABSENT, MISSING, self.at(key_))
            self.kept[key_] = absent
        return self.kept[key_]

    def take_all(self, **rules):
        """Keys by their rules; a pair has what stands for an absent one too."""
        for key_, rule in rules.items():
            self.take(key_, *(rule if isinstance(rule, tuple) else (rule,)))

    def end(self):
        """All that was taken, where there is no other key."""
        if self.left:
            need(False, UNKNOWN_KEY, self.at(min(self.left, key=str.encode)))
        return self.kept


def table(**rules):
    """A table of these keys."""
    def rule(value, path):
        its = Table(value, path)
        its.take_all(**rules)
        return its.end()
    return rule


# The issuer's side.

def is_command(value):
    """Whether a text is a script command."""
    word, *rest = value.split(" ")
    rest = rest[:-1] if rest[-1:] == ["bad"] else rest
    if word not in HEADERS or len(rest) != (word in ("pin", "count", "amount")):
        return False
    if not rest:
        return True
    decimal = rest[0].isascii() and rest[0].isdigit()
    if word == "pin":
        return decimal and 4 <= len(rest[0]) <= 12
    return decimal and rest[0] == str(int(rest[0])) and int(rest[0]) <= (255 if word == "count" else LARGEST)


def command_text(value, path):
    """A script command."""
    need(isinstance(value, str) and is_command(value), BAD, path)
    return value


SCRIPT = table(when=one_of("before", "after"), id=(octets(4), None), commands=array(1, 16, command_text))
DATA_SIZES = {"pin": 8, "count": 1, "amount": 6}


def script_size(script):
    """How many bytes a script has when it is made."""
    sizes = [4 + 1 + DATA_SIZES.get(one.split(" ")[0], 0) + 8 for one in script["commands"]]
    body = (7 if script["id"] is not None else 0) + sum(2 + size for size in sizes)
    return len(spelled(0x71, bytes(body)))


def scripts(value, path):
    """The scripts of an account."""
    made = array(0, 8, SCRIPT)(value, path)
    need(sum(map(script_size, made)) <= 1024, LIMIT, path)
    return made


def account(seen):
    """An account, of a number of its own."""
    return table(
        pan=fresh(pan, seen), currency=country, balance=number(0, LARGEST), blocked=(truth, False), pin=(pin, None),
        scripts=(scripts, []), arpc=(one_of(1, 2), 1), status=(one_of(*range(0, 128, 16)), 0),
    )


# The cards.

def object_list(least, most, wanted):
    """An object list that can be read and filled, and has these entries."""
    def rule(value, path):
        data = octets(least, most)(value, path)
        try:
            list_ = entries(data)
        except Fault:
            need(False, BAD, path)
        need(total(list_) <= 252, LIMIT, path)
        need(all(one in list_ for one in wanted), BAD, path)
        return data
    return rule


def record(seen):
    """A record, of a file and number of its own."""
    def rule(value, path):
        its = Table(value, path)
        its.take_all(sfi=number(1, 30), number=number(1, 255), bytes=octets(1, 256))
        fresh(lambda pair, _: pair, seen)((its.kept["sfi"], its.kept["number"]), path)
        return its.end()
    return rule


def app(seen, keys):
    """An application; keys that are absent are derived from the issuer's."""
    def rule(value, path):
        its, kept = Table(value, path), []
        its.take_all(
            name=fresh(octets(5, 16), seen), label=text(PRINTABLE, 1, 16), priority=(number(0, 255), None),
            pdol=(object_list(0, 200, []), None), aip=octets(2), afl=octets(0, 248), gpo_format=(one_of(1, 2), 1),
            ac_format=(one_of(1, 2), 1), cdol1=object_list(0, 252, IN_FIRST_LIST), cdol2=object_list(0, 252, [(0x8A, 2)]),
            record=array(0, 64, record(kept)), pan=pan, sequence=(number(0, 99), 0), currency=country,
            counter=(number(0, 65535), 0), last_online=(number(0, 65535), 0), count_limit=number(0, 255),
            sum_limit=number(0, LARGEST), pin=(pin, None), tries=(number(0, 15), 3), blocked=(truth, False),
            ac_key=(key, None),
        )
        its.take("currency_two", fresh(country, [its.kept["currency"]]), None)
        its.take("limit_two", number(0, LARGEST), 0)
        log = its.take("log", number(0, 10), 0)
        need(not log or len(its.kept["pdol"] or b"") < 200, BAD, its.at("log"))
        file = its.take("log_sfi", number(11, 30), 11)
        need(not log or all(one != file for one, _ in kept), BAD, its.at("log_sfi"))
        one = its.end()
        for name_ in ("ac_key", "mac_key", "enc_key"):
            one[name_] = one.get(name_) or master_key(keys[name_], one["pan"], int(str(one["sequence"]), 16))
        return one | {"label": one["label"].encode()}
    return rule


def card(seen, keys):
    """A card with applications, or of canned answers."""
    def rule(value, path):
        its, names = Table(value, path), []
        its.take("name", fresh(name, seen))
        apps = its.take("app", array(1, 4, app(names, keys)), None)
        canned = its.take("canned", array(0, 300, octets(0, 258)) if apps is None else forbidden, None)
        need(apps is not None or canned is not None, MISSING, its.at("app"))
        its.take("version", one_of(1, 2) if apps else forbidden, 2)
        its.take("pse", number(1, 10) if apps else forbidden, None)
        clash = its.kept["pse"] is not None and any(one.startswith(DIRECTORY) for one in names)
        need(not clash, BAD, its.at("pse"))
        return its.end()
    return rule


# The terminals.

def aid(value, path):
    """A row of a terminal's list of applications."""
    its = Table(value, path)
    its.take_all(
        name=octets(5, 16), partial=(truth, False), version=octets(2), denial=octets(5), online=octets(5), default=octets(5),
    )
    floor = its.take("floor", number(0, LARGEST))
    its.take("threshold", number(0, floor))
    target = its.take("target", number(0, 99))
    its.take("max_target", number(target, 99))
    return its.end()


def tear(value, path):
    """Where power goes."""
    its = Table(value, path)
    its.take("commit", number(0, 50))
    at = its.take("at", one_of("before", "within", "release"))
    its.take("write", *((forbidden, None) if at == "release" else (number(1, 40),)))
    return its.end()


def purchase(in_trace):
    """A purchase."""
    def rule(value, path):
        its = Table(value, path)
        its.take("card", name)
        amount = its.take("amount", number(0, LARGEST))
        its.take_all(
            other=(number(0, amount), 0), currency=country, trade=(one_of(0, 1, 9), 0), services=(truth, False), date=date,
            time=(six_digits, bytes(3)), number=number(0, MOST_NUMBER), word=number(0, MOST_NUMBER),
            pins=(array(0, 15, pin), []), forced=(truth, False), confirm=(truth, True),
        )
        link = one_of("ok", "request_lost", "reply_lost", "twice")
        its.take_all(**{
            name_: (forbidden if in_trace else own, absent)
            for name_, own, absent in (("link", link, "ok"), ("tear", tear, None), ("terminal_tear", tear, None))
        })
        one = its.end()
        return one | {"number": one["number"].to_bytes(4)}
    return rule


def purchases(before, in_trace):
    """A lane's purchases: one in a trace, and at most 10,000 in all lanes of a scenario."""
    def rule(value, path):
        need(isinstance(value, list), BAD, path)
        before.extend(value)
        need(len(value) == 1 if in_trace else len(before) <= 10_000, LIMIT, path)
        return array(0, len(value), purchase(in_trace))(value, path)
    return rule


def lane(keys, cards=(), before=None):
    """A terminal with its purchases; one of a trace where none are before it. Its number stands in its path."""
    in_trace = before is None
    def rule(value, path):
        its = Table(value, path)
        its.take_all(
            kind=number(21, 26), country=country, caps=octets(3), id=text(LETTERS, 8), exceptions=(array(0, 100, pan), []),
            aid=array(1, 16, aid), purchase=purchases([] if in_trace else before, in_trace), pse=(truth, False),
            dialect=(forbidden if in_trace else one_of("tlv", "iso"), "tlv"),
            durable=(forbidden if in_trace else truth, False),
        )
        durable, number_ = its.kept["durable"], int(path[5:-1] or 0)
        need(not durable or 63 - number_ >= len(cards), LIMIT, its.at("durable"))
        for at, one in enumerate(its.kept["purchase"]):
            need(durable or one["terminal_tear"] is None, BAD, f"{path}.purchase[{at}].terminal_tear")
        return its.end() | {"id": its.kept["id"].encode(), "pin_key": keys["pin_key"]}
    return rule


# Documents.

def within_64_bits(value):
    """Whether each integer in a value has at most 64 bits."""
    if isinstance(value, (dict, list)):
        return all(map(within_64_bits, value.values() if isinstance(value, dict) else value))
    return not is_number(value) or -(2**63) <= value < 2**63


def document(data):
    """The document's table."""
    need(len(data) <= MOST_BYTES, LIMIT, "file")
    try:
        its = tomllib.loads(data.decode())
    except (ValueError, RecursionError):
        raise Refused("1 Toml") from None
    if not within_64_bits(its):
        raise Refused("1 Toml")
    return Table(its, "")


KEYS = table(ac_key=key, mac_key=key, enc_key=key, pin_key=key)


def cards_of(data):
    """The cards of a document, whose other tables don't count."""
    its = document(data)
    return its.take("card", array(1, 64, card([], its.take("issuer", KEYS))))


def accounts_of(data):
    """The issuer's keys and accounts of a document, whose other tables don't count."""
    its = document(data)
    return its.take("issuer", KEYS), its.take("account", array(0, 1000, account([])))


def scenario_of(data, word):
    """The scenario that a document is."""
    its, cards, before = document(data), [], []
    keys = its.take("issuer", KEYS)
    its.take("account", array(0, 1000, account([])))
    its.take("card", array(1, 64, card(cards, keys)))
    its.take("lane", array(1, 16, lane(keys, cards, before)))
    its.take("schedule", array(0, 200_000, number(-(2**63), 2**63)), [])
    its.take("copies", number(1, 3), 1)
    scenario = its.end()
    for lane_at, one in enumerate(scenario["lane"]):
        for at, its_purchase in enumerate(one["purchase"]):
            need(its_purchase["card"] in cards, UNKNOWN_NAME, f"lane[{lane_at}].purchase[{at}].card")
    for at, number_ in enumerate(scenario["schedule"]):
        need(0 <= number_ < len(scenario["lane"]), UNKNOWN_NAME, f"schedule[{at}]")
    need(word != "read" or scenario["lane"][0]["purchase"], UNKNOWN_NAME, "lane[0].purchase[0]")
    return scenario


ENTRIES = {"host >": 2048, "host <": 2048, ">": 261, "<": 258}
NOTHING = {"< gone": ("<", None), "host < none": ("host <", None)}


def entry(value, path):
    """An entry of a trace: what it is, and its bytes."""
    need(isinstance(value, str), BAD, path)
    need(len(value.encode()) <= MOST_ENTRY, LIMIT, path)
    if value in NOTHING:
        return NOTHING[value]
    if value.startswith("end "):
        return "end", value[4:].encode()
    for head, most in ENTRIES.items():
        if value.startswith(f"{head} "):
            digits_ = value[len(head) + 1 :]
            lower = digits_ and len(digits_) % 2 == 0 and all(one in "0123456789abcdef" for one in digits_)
            need(digits_ == "-" or lower and len(digits_) // 2 <= most, BAD, path)
            return head, bytes.fromhex(digits_.strip("-"))
    return need(False, BAD, path)


def trace_of(data):
    """The terminal of a trace and its entries."""
    its = document(data)
    keys = {"pin_key": its.take("pin_key", key)}
    its.take("lane", lane(keys))
    its.take("trace", array(0, 50_000, entry))
    trace = its.end()
    return trace["lane"], trace["trace"]
