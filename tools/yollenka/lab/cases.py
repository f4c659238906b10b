"""Cases in words: a table of cases, or a folder of tables and scenarios, made into scenarios. docs/use/cases.md has the words."""
import re
from copy import deepcopy
from itertools import product
from pathlib import Path
from typing import NamedTuple

from yollenka.faults import Fault
from yollenka.lab import cards, rules
from yollenka.lab.live import check_key
from yollenka.lab.spelling import bits, hexadecimal
from yollenka.model.document import Refused, scenario_of
from yollenka.refusals import hint, near
from yollenka.scenarios import document, read_document
from yollenka.schema import read_schema, tables
from yollenka.words import CAPS, TVR

ISSUER = {
    "ac_key": "0123456789ABCDEFFEDCBA9876543210", "mac_key": "23456789ABCDEF01DCBA9876543210FE",
    "enc_key": "456789ABCDEF0123BA9876543210FEDC", "pin_key": "6789ABCDEF0123459876543210FEDCBA",
}
ROW = {
    "version": "0096", "denial": "0010000000", "online": "7068BC9800", "default": "7068BCF800", "floor": 10000, "threshold": 5000,
    "target": 10, "max_target": 50,
}
LANE = {"kind": 22, "country": "840", "caps": "E0B8C8", "id": "TERM0001", "aid": [{}]}
PURCHASE = {
    "amount": 2500, "currency": "840", "date": "240615", "time": "120000", "number": 16909060, "word": 49, "pins": ["1234"],
}
TABLES = ("issuer", "account", "card", "lane", "purchase")
KEYS = ("name", "rule", "tries", "each", "set", "unset", "patch", "answer", "reply", "canned")
CODES = ("denial", "online", "default")
WORDS = re.compile(r"\{([A-Za-z0-9_-]+)\}")


class Case(NamedTuple):
    """A purchase to be tried: its scenario, of one card and one lane with one purchase; `answers` has the answers in place of the
    card's (None: it is gone), each with the name of its command or its number from 1; `reply` is what comes in place of the
    issuer's reply, or None; `rules` are the names of the rules that are tried, and `tries` says them in words."""

    name: str
    scenario: dict
    answers: dict
    reply: bytes | None
    tries: str
    rules: tuple = ()


def base(file):
    """The tables that a file's cases begin from, each key with its default."""
    card = file.get("card", {})
    kept = {name: file.get(name, {}) for name in TABLES}
    for name, its in kept.items():
        if not isinstance(its, dict):
            raise Fault(f"{name} should be one table")
    return deepcopy({
        "issuer": ISSUER | kept["issuer"], "account": {"currency": "840", "balance": 100000, "pin": "1234"} | kept["account"],
        "card": cards.complete(card), "lane": LANE | kept["lane"], "purchase": PURCHASE | kept["purchase"],
    })


def holder(tables_, path, makes):
    """The table or array in which a path ends, and its last key; tables that lack are made where they may be."""
    *front, last = path.split(".")
    at = tables_
    for number, key in enumerate(front):
        if isinstance(at, list):
            at = at[place_in(at, key, path)]
        elif isinstance(at, dict) and (key in at or makes and number):
            at = at.setdefault(key, {})
        else:
            raise Fault(f"the path '{path}' leads nowhere at '{key}'{near(key, at if isinstance(at, dict) else [])}")
    if not isinstance(at, (dict, list)) or not front:
        raise Fault(f"the path '{path}' should be as card.pan or lane.aid.0.floor")
    return at, place_in(at, last, path) if isinstance(at, list) else last


def place_in(array, key, path):
    """A place in an array."""
    if not key.isdigit() or int(key) >= len(array):
        raise Fault(f"the path '{path}' leads nowhere: '{key}' is no place of {len(array)}, counted from 0")
    return int(key)


def put(tables_, path, value):
    """Sets what stands at a path."""
    if path in TABLES:
        if not isinstance(value, dict):
            raise Fault(f"{path} is a table")
        for key, its in value.items():
            put(tables_, f"{path}.{key}", its)
        return
    at, last = holder(tables_, path, True)
    at[last] = {"rules": value} if last == "cvm" and isinstance(value, list) else deepcopy(value)


def take_away(tables_, path):
    """Takes away what stands at a path; an object of the card is then one that it doesn't give."""
    at, last = holder(tables_, path, path.startswith("card.object."))
    if path.startswith("card.object."):
        at[last] = False
    elif isinstance(at, list):
        del at[last]
    elif at.pop(last, None) is None:
        raise Fault(f"nothing stands at the path '{path}'{near(last, at)}")


def patched(scenario, path, change):
    """Writes bytes over those at a path of the scenario, from the place `at`, or keeps the first `cut`; `record.2` is the second."""
    found = re.fullmatch(r"record\.(\d+)", path)
    whole = f"card.0.app.0.record.{int(found[1]) - 1}.bytes" if found else path
    at, last = holder(scenario, whole, False)
    if not isinstance(change, dict) or not change or not set(change) <= {"at", "bytes", "cut"}:
        raise Fault(f"patch of '{path}' should be as {{ at = 1, bytes = \"2F\" }} or {{ cut = 9 }}")
    if isinstance(at, dict) and last not in at:
        raise Fault(f"patch: nothing stands at the path '{path}'{near(last, at)}")
    data = bytes.fromhex(hexadecimal(at[last], path))[: change.get("cut")]
    new, place = bytes.fromhex(hexadecimal(change.get("bytes", ""), "patch")), change.get("at", 0)
    if type(place) is not int or place + len(new) > len(data):
        raise Fault(f"patch of '{path}': there are {len(data)} bytes, and it would write {len(new)} from {place}")
    at[last] = (data[:place] + new + data[place + len(new) :]).hex().upper()


def table_rows(value, path):
    """An array of tables."""
    if not isinstance(value, list) or not all(isinstance(one, dict) for one in value):
        raise Fault(f"{path} should be an array of tables")
    return value


def terminal(lane, aid):
    """A lane's table: its rows whole, with the card's name where they have none; words of bits as bytes."""
    rows = []
    for row in table_rows(lane["aid"], "lane.aid"):
        codes = {key: bits(row[key], TVR, 5, f"action code {key}") for key in CODES if isinstance(row.get(key), list)}
        rows.append({"name": aid} | ROW | row | codes)
    caps = {"caps": bits(lane["caps"], CAPS, 3, "caps")} if isinstance(lane.get("caps"), list) else {}
    return lane | caps | {"aid": rows}


def check_keys(made):
    """Refuses a key that a table of a scenario doesn't have, with what may be meant."""
    have, lane = dict(tables(read_schema(), read_schema())), made["lane"][0]
    parts = [("issuer", made["issuer"]), ("account", made["account"][0]), *(("aid", row) for row in lane["aid"]),
             ("lane", lane), ("purchase", lane["purchase"][0])]
    for name, its in parts:
        keys = list(have[name]["properties"])
        for key in its:
            if key not in keys:
                raise Fault(f"{name} has no key '{key}'{near(key, keys)}")


def scenario(tables_, canned):
    """The scenario of these tables."""
    words = tables_["card"]
    card = {"name": words.get("name", "c1"), "canned": canned} if canned is not None else cards.table(words)
    pan = {} if "pan" in tables_["account"] else {"pan": words.get("pan") or cards.DEFAULTS["pan"]}
    lane = terminal(tables_["lane"], words.get("aid", cards.DEFAULTS["aid"]))
    return {
        "issuer": tables_["issuer"], "account": [pan | tables_["account"]], "card": [card],
        "lane": [lane | {"purchase": [{"card": card["name"]} | tables_["purchase"]]}],
    }


def refused(made):
    """Raises what the program would refuse in a scenario, with words for its place."""
    text = document(made)
    try:
        scenario_of(text, "replay")
    except Refused as fault:
        more = (hint(text, f"refused {fault}\n".encode()) or "").partition(": ")[2]
        raise Fault(f"it is no scenario: {fault}{more and f' ({more})'}") from None


def named(values):
    """The values of a key of `each`, with their names."""
    if isinstance(values, list):
        return [(str(value), value) for value in values]
    if isinstance(values, dict):
        return list(values.items())
    raise Fault(f"each has {values!r}, and should have an array or a table of values")


def filled(value, given):
    """A value with the words of `each` put in: a text that is one such word alone becomes its value. A word whose value is a
    table of paths stands for its name."""
    if isinstance(value, dict):
        return {str(filled(key, given)): filled(its, given) for key, its in value.items()}
    if isinstance(value, list):
        return [filled(its, given) for its in value]
    if not isinstance(value, str):
        return value
    for word in WORDS.findall(value):
        if word not in given:
            raise Fault(f"'{{{word}}}' is no word of each{near(word, given)}")
    plain = {word: name if isinstance(its, dict) else its for word, (name, its) in given.items()}
    whole = WORDS.fullmatch(value)
    return plain[whole[1]] if whole else WORDS.sub(lambda found: str(plain[found[1]]), value)


def case_name(name, given):
    """The name of a case: the words of `each` stand in it by their names, and a blank is a hyphen."""
    names = {word: (its, its) for word, (its, _) in given.items()}
    return re.sub(r"[^A-Za-z0-9_.-]+", "-", str(filled(name, names)))


def answers_in(value):
    """The answers in place of the card's: bytes, or None where it is gone."""
    if not isinstance(value, dict):
        raise Fault("answer is a table: the name of a command, or its number from 1, with the answer")
    for key in value:
        check_key(key)
    told = {key: its for key, its in value.items() if its != "gone"}
    answers = {key: bytes.fromhex(hexadecimal(its, f"answer {key}", range(300))) for key, its in told.items()}
    return {key: answers.get(key) for key in value}


def one_case(tables_, row, given):
    """A case of a row, with these words of `each`."""
    row = {key: filled(its, given) for key, its in row.items() if key not in ("name", "each")}
    tables_of_paths = [row.get("set", {}), *(its for _, its in given.values() if isinstance(its, dict))]
    for path, value in (pair for paths in tables_of_paths for pair in paths.items()):
        put(tables_, path, value)
    for path in row.get("unset", []):
        take_away(tables_, str(path))
    made = scenario(tables_, row.get("canned"))
    for path, change in row.get("patch", {}).items():
        patched(made, path, change)
    check_keys(made)
    refused(made)
    reply = bytes.fromhex(hexadecimal(row["reply"], "reply", range(2049))) if "reply" in row else None
    return made, answers_in(row.get("answer", {})), reply, row.get("tries", ""), rules_in(row.get("rule", []))


def rules_in(value):
    """The rules that a case tries, by their names: one, or a list of them."""
    names = [value] if isinstance(value, str) else value
    if not isinstance(names, list) or not all(isinstance(name, str) for name in names):
        raise Fault(f"rule is {value!r}, and should be the name of a rule, or an array of such names")
    for name in names:
        if name not in rules.table():
            raise Fault(f"rule: docs/proof/profile.md has no rule '{name}'{near(name, rules.table())}")
    return tuple(names)


def form_of(row):
    """Refuses a case whose keys are not those of a case."""
    if not isinstance(row, dict) or not isinstance(row.get("name"), str):
        raise Fault("each [[case]] has a name")
    kinds = {"set": dict, "unset": list, "patch": dict, "each": dict, "canned": list, "tries": str}
    for key, its in row.items():
        if key not in KEYS:
            raise Fault(f"{row['name']}: a case has no key '{key}'{near(key, KEYS)}")
        if not isinstance(its, kinds.get(key, object)):
            raise Fault(f"{row['name']}: {key} is {its!r}, and should be {FORM_WORDS[kinds[key]]}")


FORM_WORDS = {dict: "a table", list: "an array", str: "a text"}


def cases_of_row(file, row):
    """The cases of one row: one for each choice of the words of `each`."""
    form_of(row)
    words = row.get("each", {})
    try:
        choices = list(product(*(named(values) for values in words.values())))
    except Fault as fault:
        raise Fault(f"{row['name']}: {fault}") from None
    for choice in choices:
        name = row["name"]
        try:
            chosen = dict(zip(words, choice))
            name = case_name(name, chosen)
            given = {word: (its, filled(value, chosen)) for word, (its, value) in chosen.items()}
            yield Case(name, *one_case(base(file), row, given))
        except Fault as fault:
            raise Fault(f"{name}: {fault}") from None


def cases_of_table(file):
    """The cases of a table of cases."""
    for key in file:
        if key not in (*TABLES, "case"):
            raise Fault(f"a table of cases has no '{key}'{near(key, (*TABLES, 'case'))}")
    found = []
    for row in table_rows(file.get("case"), "case"):
        found += cases_of_row(file, row)
    names = [case.name for case in found]
    for name in names:
        if names.count(name) > 1:
            raise Fault(f"{name}: two cases have this name")
    return found


def cases_of_scenario(made, stem):
    """A case for each purchase of each lane of a scenario, each as the first one: what came before it is left out."""
    refused(made)
    rows = [(lane, purchase) for lane in made["lane"] for purchase in lane["purchase"]]
    named_ = {card["name"]: card for card in made["card"]}
    for number, (lane, purchase) in enumerate(rows, 1):
        alone = {key: its for key, its in lane.items() if key not in ("durable", "dialect")} | {"purchase": [purchase]}
        card = named_[purchase["card"]]
        name = stem if len(rows) == 1 else f"{stem}-{number}"
        yield Case(name, {"issuer": made["issuer"], "account": made["account"], "card": [card], "lane": [alone]}, {}, None, "")


def cases_in(path):
    """The cases of a file: of a table of cases, or of a scenario; or of all files of a folder, by their names."""
    place = Path(path)
    if place.is_dir():
        found = [case for one in sorted(place.glob("*.toml")) for case in cases_in(one)]
        if not found:
            raise Fault(f"{path}: no case stands in this folder")
        return found
    file = read_document(place)
    try:
        if isinstance(file.get("case"), list):
            return cases_of_table(file)
        if isinstance(file.get("card"), list):
            return list(cases_of_scenario(file, place.stem))
        raise Fault("it has neither [[case]] nor [[card]]")
    except Fault as fault:
        raise Fault(f"{path}: {fault}") from None
