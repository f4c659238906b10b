"""The histories of crates/host_histories and the sessions of crates/card_sessions as talks (talks.py), made of their tables.

A history's reasons stand in no table; they are those of the model in Python. Cards are written here once more, as scenarios have
them: what each variant of crates/card_sessions/src/cards.rs differs in.
"""
import re
from pathlib import Path

from yollenka.faults import Fault
from yollenka.model.histories import HostAtLines
from yollenka.model.reader import CardAtLines
from yollenka.model.document import cards_of
from yollenka.programs import ROOT
from yollenka.scenarios import in_tables
from yollenka.tables import constants_in, values
from yollenka.talks import Talk, Turn

KEYS = {
    "ac_key": "0123456789ABCDEFFEDCBA9876543210", "mac_key": "23456789ABCDEF01DCBA9876543210FE",
    "enc_key": "456789ABCDEF0123BA9876543210FEDC", "pin_key": "6789ABCDEF0123459876543210FEDCBA",
}
CURRENCIES = {"Dollar": "840", "Euro": "978", "AustralianDollar": "036"}
HOSTS, CARDS = ROOT / "crates" / "host_histories" / "src" / "tests", ROOT / "crates" / "card_sessions" / "src"


# Hosts.

def account(opening, more):
    """An account of a table."""
    scripts = [script(one) for one in values(opening["scripts"])]
    return {
        "pan": opening["pan"], "currency": CURRENCIES[opening["currency"]], "balance": opening["balance"],
        **({"blocked": True} if opening["blocked"] else {}), **({"pin": opening["pin"].values[0]} if opening["pin"] != "None" else {}),
        **more, **({"scripts": scripts} if scripts else {}),
    }


def script(planned):
    """A script of a table."""
    number = planned["id"]
    return {
        "when": "before" if planned["before"] else "after",
        **({"id": bytes(values(number.values[0])).hex().upper()} if number != "None" else {}),
        "commands": values(planned["commands"]),
    }


def messages_of(turns):
    """The messages of a history, each with its reply and what the table says of it."""
    said = values(turns)
    for one in turns:
        its = said[one.value.values[0]] if one.value.name == "Again" else one.value
        yield one.comment, *its.values


def history(name, comment, row, more):
    """The talk of a history; a message without bytes has no line."""
    accounts = [account(one, more) for one in values(row["accounts"])]
    text = titled(comment, in_tables({"issuer": KEYS, "account": accounts}))
    host, turns = HostAtLines(text), []
    for about, message, reply in messages_of(row["turns"]):
        if message:
            host.answer(f"> {message}")
            turns += [Turn(f"> {message}", f"< {reply}", 0, about), Turn("because", host.answer("because"), 0)]
    for pan, balance in map(values, values(row["balances"])):
        turns.append(Turn(f"balance {pan}", f"balance {pan} {balance}", 0))
    return Talk(name, text, turns)


def host_talks():
    """The histories of all tables."""
    paths = sorted(HOSTS.glob("*.rt"), key=lambda path: (path.stem != "table", path.stem))
    for (stem, _), (kind, table) in constants_in(paths, r"&str|\[(?:History|ByStatus); \d+\]").items():
        for number, one in enumerate(table if kind != "&str" else [], 1):
            status = one.value.get("status")
            more = {} if status is None else {"arpc": 2, **({"status": status} if status else {})}
            yield history(f"{stem.replace('_', '-')}-{number:02}", one.comment, one.value.get("history", one.value), more)


def titled(comment, text):
    """A document with its comment above it."""
    return f"# {comment}\n\n{text}\n\n".encode()


# Cards.

OWN_LISTS = {
    "pdol": "9F1A029F35019F40059C01", "cdol1": "9F37049F02059F1A029C019A035F2A0295059F35019F03069F0206",
    "cdol2": "9F020695039F37048A029F0303", "gpo_format": 2, "ac_format": 2,
}
APP = {
    "name": "A0000000031010", "label": "CREDIT", "priority": 1, "aip": "1C00", "afl": "08010300", "gpo_format": 1, "ac_format": 1,
    "cdol1": "9F02069F03069F1A0295055F2A029A039C019F3704", "cdol2": "8A029F02069F03069F1A0295055F2A029A039C019F3704",
    "pan": "4761739001010010", "sequence": 1, "currency": "840", "counter": 10, "last_online": 9, "count_limit": 5,
    "sum_limit": 20_000, "pin": "1234", "tries": 3,
}
TWO = [{"name": "A000000003101001", "priority": 2, "aip": "0000"}, {"name": "A000000003101002", "priority": 1, "aip": "0000"}]
ONLINE = {"count_limit": 0}
# What each variant has of its own: in its applications, and in the card.
APPS = {
    "Base": {}, "Online": ONLINE, "FormatTwo": {"gpo_format": 2, "ac_format": 2, "aip": "0000"}, "CounterUsedUp": {"counter": 65_535},
    "NoIssuerAuth": ONLINE | {"aip": "1800"}, "Blocked": {"blocked": True}, "NoPin": {"pin": None}, "OwnLists": OWN_LISTS,
    "OwnListsOnline": OWN_LISTS | ONLINE, "Largest": {"sum_limit": 999_999_999_999}, "OneOffline": {"count_limit": 1},
    "NoTries": {"tries": 0}, "NothingToTry": {"pin": None, "tries": 0}, "LastCounter": {"counter": 65_534}, "LogOfTen": {"log": 10},
    "LogOfOne": ONLINE | {"log": 1}, "TwoCurrencies": {"log": 5, "currency_two": "978", "limit_two": 3_000}, "Directory": {},
    "TwoNames": TWO, "TwoInDirectory": TWO, "OlderForm": ONLINE,
}
WHOLE = {"Directory": {"pse": 1}, "TwoInDirectory": {"pse": 10}, "OlderForm": {"version": 1}}
# The tables with sessions, by their files and names: the variant of those that name none. What else has lines are no sessions.
SESSIONS = {
    ("sessions", "SESSIONS"): None, ("sessions", "ONLINE"): "Online", ("limits", "LIMITS"): None, ("logs", "LOGS"): None,
    ("issuers", "ISSUERS"): "Online", ("directories", "DIRECTORIES"): None, ("corners", "CORNERS"): "Base",
    ("corners", "ISSUER_CORNERS"): "Online",
}
NO_SESSIONS = {("refusals", "PHASES"), ("tears", "PURCHASE")}
# Words of a session that is one text, which aren't a constant's name.
WORDS = {"again": "OPTIONS_AGAIN"}
KINDS = r"&str|Line|\[\(Variant, (?:&\[Line\]|Line)\); \d+\]|\[(?:&\[Line\]|Line); \d+\]"


def card(variant, records):
    """The document of a variant's card."""
    own = APPS[variant]
    apps = [{key: value for key, value in (APP | one).items() if value is not None} for one in (own if own is TWO else [own])]
    table = [{"sfi": 1, "number": number, "bytes": record.upper()} for number, record in enumerate(records, 1)]
    return {"issuer": KEYS, "card": [{"name": "c1", **WHOLE.get(variant, {}), "app": [app | {"record": table} for app in apps]}]}


def variant_texts():
    """What the crate says of each variant."""
    found = re.findall(r"^    /// ([^\n]+)\n    (\w+),$", (CARDS / "cards.rt").read_text(), re.MULTILINE)
    return {name: text for text, name in found}


def lines_of(session, constants):
    """The lines of a session, a command and its answer each: an array, or one text with names in it."""
    if not isinstance(session, str):
        return values(session)
    return [constants.get(WORDS.get(word, word.upper()), word) for word in session.split(" > ")]


def session(name, comment, variant, lines, constants):
    """The talk of a session: a power-up first, behind each cryptogram why it is of its kind, and at the end what was decided.

    The commands and their answers are the table's; these and the power-up's numbers are those of the model in Python.
    """
    texts = [constants[f"RECORD_{number}"] for number in (1, 2, 3)]
    text = titled(comment or variant_texts()[variant], in_tables(card(variant, texts)))
    at_lines = CardAtLines(cards_of(text)[0])
    turns = [Turn("power", at_lines.answer("power"), 0)]
    for said, answer in (line.split(" ") for line in lines if line[0] != " "):
        at_lines.answer(said)
        turns.append(Turn(f"> {said}", f"< {answer}", 0))
        if said.startswith("80ae") and answer.endswith("9000"):
            turns.append(Turn("why", at_lines.answer("why"), 0))
    return Talk(name, text, [*turns, Turn("decided", at_lines.answer("decided"), 0)])


def card_talks():
    """The sessions of all tables."""
    paths = sorted(CARDS.glob("*.rt"), key=lambda path: (path.stem != "cards", path.stem))
    found = constants_in(paths, KINDS)
    constants = {name: value for (_, name), (_, value) in found.items()}
    for place, (kind, table) in found.items():
        if kind in ("&str", "Line") or place in NO_SESSIONS:
            continue
        if place not in SESSIONS:
            raise Fault(f"crates/card_sessions: whether {place[1]} of {place[0]}.rt has sessions isn't known in {Path(__file__).name}")
        for number, one in enumerate(table, 1):
            variant, lines = values(one.value) if SESSIONS[place] is None else (SESSIONS[place], one.value)
            name = f"{place[0]}-{place[1].lower().replace('_', '-')}" if place[1].lower() != place[0] else place[0]
            yield session(f"{name}-{number:02}", one.comment, variant, lines_of(lines, constants), constants)
