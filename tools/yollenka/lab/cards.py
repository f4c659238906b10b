"""A card in words, made into the `[[card]]` table of a scenario, and back. docs/use/cases.md has the words."""
import re
from calendar import monthrange

from yollenka.faults import Fault
from yollenka.lab.spelling import (
    bit_words, bits, hexadecimal, known, list_words, object_list, rule, rule_words, tag,
)
from yollenka.model.objects import is_constructed, objects, only, spelled, tag_text
from yollenka.refusals import near
from yollenka.words import AIP, AUC, TVR

FIRST_LIST = ["9F02", "9F03", "9F1A", "95", "5F2A", "9A", "9C", "9F37", "9F34", "9F1C 8"]
DEFAULTS = {
    "aid": "A0000000031010", "label": "CREDIT", "priority": 1, "pan": "4761739001010010", "sequence": 1, "expires": "2026-12",
    "effective": "2024-01", "country": "840", "currency": "840", "usage": "FFC0", "version": "0096",
    "profile": ["cardholder verification", "terminal risk management", "issuer authentication"],
    "cvm": {"rules": ["plaintext pin if supported else next", "signature if supported else next", "no cvm"]},
    "iac": {"denial": "0010000000", "online": "7068BC9800", "default": "7068BCF800"}, "lower": 5, "upper": 9,
    "cdol1": FIRST_LIST, "cdol2": ["8A", *FIRST_LIST], "counter": 10, "last_online": 9, "count_limit": 5, "sum_limit": 20000,
    "pin": "1234",
}
# The words that a scenario's application has too, and their names there.
SAME = {"aid": "name"} | {key: key for key in (
    "label", "priority", "gpo_format", "ac_format", "pan", "currency", "counter", "last_online", "count_limit", "sum_limit", "pin",
    "tries", "blocked", "ac_key", "currency_two", "limit_two", "log", "log_sfi")}
OF_A_CARD = {"name": "name", "pse": "pse", "memory": "version"}
WORDS = {*DEFAULTS, *SAME, "pdol", "object", "layout", "afl"}
# The order of objects in records: what identifies the card, the two lists, the rest.
RECORDS = [["5A", "5F34", "5F24", "5F25", "5F28", "9F42", "9F07", "9F08"], ["8C", "8D"],
           ["8E", "9F0D", "9F0E", "9F0F", "9F14", "9F23"]]
MOST_RECORD = 250
PLACE = re.compile(r"(\d+)\.(\d+)\s*(=?)\s*(.*)")


def is_there(value):
    """Whether a word has a value: one that is false is as one that is absent, but for `blocked`."""
    return value is not None and value is not False


def in_bytes(text):
    """Digits as compressed numeric bytes."""
    if not isinstance(text, str) or not text.isdigit():
        raise Fault(f"{text!r} should be digits")
    return (text + "F" * (len(text) % 2)).upper()


def day_bytes(text, is_last):
    """A day, or a month by its first or its last day, as YYMMDD."""
    found = re.fullmatch(r"\d\d(\d\d)-(0[1-9]|1[0-2])(?:-(\d\d))?", text) if isinstance(text, str) else None
    if not found:
        raise Fault(f"the date {text!r} should be as 2026-12 or 2026-12-31")
    year, month, day = found.groups()
    last = monthrange(int(text[:4]), int(month))[1]
    return f"{year}{month}{day or (f'{last:02}' if is_last else '01')}"


def byte(value, what):
    """A number from 0 to 255 as a byte."""
    if isinstance(value, bool) or not isinstance(value, int) or not 0 <= value <= 255:
        raise Fault(f"{what} is {value!r}, and should be a number from 0 to 255")
    return f"{value:02X}"


def two_digits(value):
    """The sequence number as a byte of two digits."""
    if type(value) is not int or not 0 <= value <= 99:
        raise Fault(f"sequence is {value!r}, and should be a number from 0 to 99")
    return f"{value:02}"


def methods(value):
    """The list 8E: the amounts X and Y, and the rules."""
    its = value if isinstance(value, dict) else {"rules": value}
    for key in its:
        if key not in ("x", "y", "rules"):
            raise Fault(f"cvm has no word '{key}', only x, y and rules")
    rules, amounts = its.get("rules", []), [its.get(key, 0) for key in "xy"]
    if not isinstance(rules, list) or any(type(one) is not int or not 0 <= one < 2**32 for one in amounts):
        raise Fault("cvm is a list of rules, or a table with the amounts x and y and such a list")
    return "".join(f"{one:08X}" for one in amounts) + b"".join(map(rule, rules)).hex().upper()


def action_codes(value):
    """The three action codes by their tags."""
    if not isinstance(value, dict):
        raise Fault("iac is a table with denial, online and default")
    for key in value:
        known(key, {"denial": 1, "online": 1, "default": 1}, "action code")
    tags = {"denial": "9F0E", "online": "9F0F", "default": "9F0D"}
    return {tags[key]: bits(its, TVR, 5, f"action code {key}") for key, its in value.items() if is_there(its)}


def code(text, what):
    """A country or a currency as an object's value."""
    if not isinstance(text, str) or not re.fullmatch(r"\d{3}", text):
        raise Fault(f"{what} is {text!r}, and should be three digits in quotes")
    return "0" + text


# How each object of a record follows from a word.
MADE = {
    "pan": ("5A", in_bytes), "sequence": ("5F34", two_digits),
    "expires": ("5F24", lambda value: day_bytes(value, True)), "effective": ("5F25", lambda value: day_bytes(value, False)),
    "country": ("5F28", lambda value: code(value, "country")), "currency": ("9F42", lambda value: code(value, "currency")),
    "usage": ("9F07", lambda value: bits(value, AUC, 2, "usage")),
    "version": ("9F08", lambda value: hexadecimal(value, "version", range(2, 3))), "cvm": ("8E", methods),
    "lower": ("9F14", lambda value: byte(value, "lower")), "upper": ("9F23", lambda value: byte(value, "upper")),
    "cdol1": ("8C", lambda value: object_list(value, "cdol1")), "cdol2": ("8D", lambda value: object_list(value, "cdol2")),
}


def data_objects(words):
    """The objects that the records may have, by tag: those of the words, and those that `object` gives or takes away."""
    found = {name: make(words[key]) for key, (name, make) in MADE.items() if is_there(words.get(key))}
    found |= action_codes(words.get("iac") or {})
    given = words.get("object", {})
    if not isinstance(given, dict):
        raise Fault("object is a table of tags with their values")
    for name, value in given.items():
        if is_there(value):
            found[tag(name)] = hexadecimal(value, f"object {name}")
        else:
            found.pop(tag(name), None)
    return found


def spelled_text(name, value):
    """An object in hexadecimal."""
    return spelled(int(name, 16), bytes.fromhex(value)).hex().upper()


def default_layout(found):
    """The records of file 1 as lines of a layout; a record ends before it would pass 250 bytes."""
    rest = [name for name in found if not any(name in row for row in RECORDS)]
    lines = []
    for row in (*RECORDS[:2], RECORDS[2] + rest):
        groups, size = [[]], 0
        for name in (one for one in row if one in found):
            length = len(spelled_text(name, found[name])) // 2
            if size + length > MOST_RECORD and groups[-1]:
                groups.append([])
                size = 0
            groups[-1].append(name)
            size += length
        lines += [group for group in groups if group]
    return [f"1.{number} {' '.join(group)}" for number, group in enumerate(lines, 1)]


def record(line, found):
    """A record by a line of the layout: 'FILE.NUMBER TAG TAG ..', or 'FILE.NUMBER = BYTES' as they stand."""
    place = PLACE.fullmatch(line) if isinstance(line, str) else None
    if not place:
        raise Fault(f"the line {line!r} of the layout should be 'FILE.NUMBER TAG TAG ..' or 'FILE.NUMBER = BYTES'")
    file, number, equals, rest = place.groups()
    if equals:
        text = hexadecimal(rest, f"record {file}.{number}")
    else:
        for name in rest.split():
            if tag(name) not in found:
                raise Fault(f"record {file}.{number} has {name}, and no word gives that object a value{near(name, found)}")
        text = spelled_text("70", "".join(spelled_text(name, found[name.upper()]) for name in rest.split()))
    return {"sfi": int(file), "number": int(number), "bytes": text}


def locator(records):
    """The file locator of these records in their order: a group for numbers of one file that follow one another."""
    groups = []
    for one in records:
        if groups and groups[-1][0] == one["sfi"] and groups[-1][2] + 1 == one["number"]:
            groups[-1][2] += 1
        else:
            groups.append([one["sfi"], one["number"], one["number"]])
    return "".join(f"{file * 8 & 0xFF:02X}{begin & 0xFF:02X}{end & 0xFF:02X}00" for file, begin, end in groups)


def complete(words):
    """The words of an application with the default of each that isn't there."""
    iac = {"iac": DEFAULTS["iac"] | words["iac"]} if isinstance(words.get("iac"), dict) else {}
    cvm = {"cvm": {"rules": words["cvm"]}} if isinstance(words.get("cvm"), list) else {}
    return DEFAULTS | words | iac | cvm


def application(words):
    """The `[[card.app]]` table of an application in words, each of which is there that is to have a value."""
    for key in words:
        if key not in WORDS:
            raise Fault(f"a card has no word '{key}'{near(key, WORDS)}")
    found = data_objects(words)
    layout = words.get("layout") or default_layout(found)
    records = [record(line, found) for line in layout]
    app = {its: words[key] for key, its in SAME.items() if is_there(words.get(key)) or key == "blocked" and key in words}
    if is_there(words.get("sequence")):
        app["sequence"] = words["sequence"]
    if is_there(words.get("pdol")):
        app["pdol"] = object_list(words["pdol"], "pdol")
    lists = {key: object_list(words[key], key) for key in ("cdol1", "cdol2") if is_there(words.get(key))}
    profile = {"aip": bits(words.get("profile", "0000"), AIP, 2, "profile")}
    afl = {"afl": hexadecimal(words["afl"], "afl") if isinstance(words.get("afl"), str) else locator(records)}
    return app | profile | afl | lists | {"record": records}


def table(words):
    """The `[[card]]` table of a card in words: an application, or one for each table in `app`, with `words` as its defaults."""
    own = {its: words[key] for key, its in OF_A_CARD.items() if is_there(words.get(key))}
    shared = {key: value for key, value in words.items() if key not in OF_A_CARD and key != "app"}
    given = words.get("app") or [{}]
    if not isinstance(given, list) or not all(isinstance(one, dict) for one in given):
        raise Fault("card.app should be an array of tables")
    apps = [application(shared | one) for one in given]
    return {"name": "c1"} | own | {"app": apps}


# Back into words.

def day_word(text, is_last):
    """A date in words, or None where it is none."""
    month, day = int(text[2:4]), int(text[4:6])
    year = (1900 if text[:2] >= "50" else 2000) + int(text[:2])
    if len(text) != 6 or not 1 <= month <= 12 or not 1 <= day <= monthrange(year, month)[1]:
        return None
    end = monthrange(year, month)[1] if is_last else 1
    return f"{year}-{month:02}" if day == end else f"{year}-{month:02}-{day:02}"


def method_words(text):
    """A list 8E in words."""
    data = bytes.fromhex(text)
    x, y = int.from_bytes(data[:4]), int.from_bytes(data[4:8])
    rules = [rule_words(*data[at : at + 2]) for at in range(8, len(data), 2)]
    return rules if not x and not y else {"x": x, "y": y, "rules": rules}


# How each word follows from an object's value; it may fail, or give another value than that.
TOLD = {
    "sequence": int, "expires": lambda text: day_word(text, True), "effective": lambda text: day_word(text, False),
    "country": lambda text: text[1:], "usage": lambda text: bit_words(text, AUC, 2), "version": str, "cvm": method_words,
    "lower": lambda text: int(text, 16), "upper": lambda text: int(text, 16),
}
CODES = {"9F0E": "denial", "9F0F": "online", "9F0D": "default"}


def flat(data):
    """The objects of a record as tag and value, where it is one template 70 of plain objects, spelled shortly; else None."""
    outer = only(data, 0x70)
    inner, fault = objects(outer.value) if outer else ([], 0)
    if fault is not None or any(is_constructed(one.tag) for one in inner):
        return None
    pairs = [(tag_text(one.tag).upper(), one.value.hex().upper()) for one in inner]
    same = spelled_text("70", "".join(spelled_text(*pair) for pair in pairs)) == data.hex().upper()
    return pairs if same else None


def laid_out(records):
    """The lines of a layout for these records, and the values of the objects in them; a record that repeats one stands as it is."""
    lines, values = [], {}
    for one in records:
        place, pairs = f"{one['sfi']}.{one['number']}", flat(bytes.fromhex(one["bytes"]))
        if not pairs or any(values.get(name, value) != value for name, value in pairs) or len(dict(pairs)) < len(pairs):
            lines.append(f"{place} = {one['bytes'].upper()}")
        else:
            values |= dict(pairs)
            lines.append(f"{place} {' '.join(name for name, _ in pairs)}")
    return lines, values


def told(key, text):
    """The word of an object's value, or None where no word gives just this value."""
    try:
        word = TOLD[key](text)
        return word if word is not None and MADE[key][1](word) == text else None
    except (Fault, ValueError, IndexError, TypeError):
        return None


def application_words(app):
    """An application's table in words, from which `application` makes the same table."""
    lines, values = laid_out(app["record"])
    words = {key: app.get(its, False) for key, its in SAME.items() if its in app or key in DEFAULTS}
    words |= {key: list_words(app[key].upper()) if key in app else False for key in ("cdol1", "cdol2")}
    words |= {"profile": bit_words(app["aip"], AIP, 2)} | ({"pdol": list_words(app["pdol"].upper())} if "pdol" in app else {})
    for key in TOLD:
        words[key] = app.get("sequence", False) if key == "sequence" else told(key, values.get(MADE[key][0], "")) or False
        if key in ("lower", "upper") and MADE[key][0] in values:
            words[key] = told(key, values[MADE[key][0]])
    codes = {name: values.get(its) for its, name in CODES.items()}
    words["iac"] = {name: bit_words(text, TVR, 5) if text and len(text) == 10 else False for name, text in codes.items()}
    made = data_objects(words)
    other = {name: value for name, value in values.items() if made.get(name) != value}
    other |= {name: False for name in made if name not in values}
    if other:
        words["object"] = other
    found = data_objects(words)
    if lines != default_layout(found):
        words["layout"] = lines
    if app["afl"].upper() != locator(app["record"]):
        words["afl"] = app["afl"].upper()
    return words


def card_words(card):
    """A card's table in words."""
    own = {key: card[its] for key, its in OF_A_CARD.items() if its in card}
    apps = [application_words(app) for app in card["app"]]
    return own | (apps[0] if len(apps) == 1 else {"app": apps})
