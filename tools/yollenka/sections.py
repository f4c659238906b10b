"""Where each reason of a report stands: a rule of docs/proof/profile.md, whose section docs/proof/rules.toml has, or a section of a
standard of which the profile has no rule. Written apart from crates/report_lines, beside which `checks/words` puts it: here a
rule or a section has what it is the reference of.
"""
import re

from yollenka import words
from yollenka.lab.rules import table
from yollenka.programs import ROOT

TABLES = ROOT / "crates" / "report_lines" / "src" / "references.rt"
# A table of the crate, one of its rows, and a text that stands alone.
TABLE = re.compile(r"pub const (\w+): \[\(\S+, &\[u8\]\); \d+\] = \[(.*?)\];", re.DOTALL)
ROW = re.compile(r'\(\s*(?:0x([0-9a-f]+)|(\d+)|b"([^"]*)"),\s*b"([^"]*)",?\s*\)')
ALONE = re.compile(r'pub const (\w+): &\[u8\] =\s*b"([^"]*)";')

ANNEX_A4, ANNEX_C3, ANNEX_C5 = "Book 4, Annex A4", "Book 3, Annex C3", "Book 3, Annex C5"
STATUSES_OF_THE_BOOKS, STATUSES_OF_ISO = "Book 3, 6.3.5", "ISO/IEC 7816-4, 5.1.3"

# Terminal verification results and transaction status information: BYTE.BIT.
OF_RESULTS = {
    "READ-9": "1.8", ("CVM-2", "RISK-7"): "1.6", "RISK-1": "1.5 4.4", "REST-1": "2.8", "REST-2": "2.5", "REST-3": "2.6", "REST-4": "2.7",
    "RISK-10": "2.4", "CVM-5": "3.7", "CVM-6": "3.5", "CVM-7": "3.4", "CVM-8": "3.3", "CVM-9": "3.6", "CVM-12": "3.8", "RISK-3": "4.8",
    "RISK-5": "4.5", "RISK-9": "4.6 4.7", "ONL-6": "5.7", "SCR-5": "5.5 5.6",
    # Of offline data authentication and of the list 97, which this terminal does without.
    "Book 3, 10.3": "1.2 1.3 1.4 1.7", "Book 3, 9.2.2": "5.8",
    ANNEX_C5: "1.1 2.1 2.2 2.3 3.1 3.2 4.1 4.2 4.3 5.1 5.2 5.3 5.4",
}
OF_STATUS = {"Book 3, 10.3": "1.8", "CVM-3": "1.7", "Book 3, 10.8": "1.6", "ONL-5": "1.5", "RISK-2": "1.4", "Book 3, 10.10": "1.3"}

# Methods of cardholder verification and their results.
OF_METHODS = {"CVM-9": "01 03", "CVM-8": "02", "CVM-6": "04 05", ANNEX_C3: "00 1e 1f"}
OF_OUTCOMES = {ANNEX_A4: "00 01 02"}

# Authorisation response codes: the terminal's, and the issuer's for a request.
OF_RESPONSES = {"GEN-1": "Y1 Z1", "ONL-3": "Y3 Z3", "HOST-9": "00", "HOST-5": "05", "HOST-3": "14", "HOST-8": "51", "HOST-6": "54", "HOST-7": "55"}

# Commands by class and instruction.
OF_COMMANDS = {
    "CARD-7": "00a4", "CARD-8": "00b2", "CARD-9": "80a8", "CARD-10": "0020", "CARD-11": "80ca", ("CARD-12", "CARD-13"): "80ae",
    "CARD-14": "0082", "CARD-15": "8416 8418 841e", "CARD-16": "8424", "CARD-17": "04da", "Book 3, 6.5.6": "0084", "Book 3, 6.5.9": "0088",
    "ISO/IEC 7816-4": "00b0 00c0 00d6 00dc 04dc",
    # The same with secure messaging, which this card does without.
    "Book 3, 6.5.1": "8c1e", "Book 3, 6.5.3": "8c16", "Book 3, 6.5.10": "8c24",
}

# Status words, and those of one command behind its instruction.
OF_STATUS_WORDS = {
    STATUSES_OF_THE_BOOKS: "6283 6300 6983 6984 6985 6a81 6a82 6a83 6a88 9000", STATUSES_OF_ISO: "6200 6700 6988 6a86 6d00 6e00 6f00"}
OF_ANSWERS = {
    "CARD-4": "b26985 ca6985", "CARD-5": "ae6700", "CARD-7": "a46a82", "CARD-8": "b26a82", "CARD-9": "a86985", "CARD-10": "206a88 209000",
    "CARD-14": "826300 829000"}

# Why a terminal ends a payment, by the step; `afl 0` is a locator of a wrong length. A cause without a step is one of any step.
OF_CAUSES = {
    "ANS-1": ["answer"], "SEL-22": ["select no-candidate"], ("SEL-2", "SEL-9"): ["select card-blocked"],
    "INIT-2": ["initiate dol"], "INIT-4": ["initiate status"], "INIT-6": ["initiate coding", "initiate missing", "initiate value"],
    ("INIT-7", "INIT-8"): ["initiate afl 0"], "INIT-9": ["initiate afl"],
    "READ-2": ["read status"], "READ-3": ["read coding"], "READ-5": ["read repeated", "read too-much"], "READ-7": ["read missing"],
    "READ-8": ["read value", "read dol"],
    "GEN-2": ["first dol"], "GEN-3": ["first status"], "GEN-4": ["first coding", "first missing", "first value"], "GEN-5": ["first kind"],
    "ONL-9": ["second dol", "second status", "second coding", "second missing", "second value", "second kind"],
}
# No rule of cardholder verification was performed, with this result.
OF_NO_RULE = {("CVM-1", "CVM-2"): "00", "CVM-12": "01"}
# What a wrong PIN leaves, what a card chooses, and why an issuer replies as it does.
OF_PARTIES = {
    "CARD-10": "TRIES_LEFT", "CARD-20": "FIRST_KIND", "CARD-21": "SECOND_KIND", "HOST-3": "NO_ACCOUNT", ("HOST-2", "HOST-4"): "WRONG_CRYPTOGRAM",
    "HOST-5": "NOT_ALLOWED", "HOST-6": "EXPIRED", "HOST-7": "WRONG_PIN", "HOST-8": "ABOVE_BALANCE", "HOST-9": "HELD",
    ("HOST-10", "HOST-11"): "SETTLED"}
# Why a terminal asks for a kind of cryptogram: which codes decide, or where it may.
OF_REASONS = {"TAA-2": "denied", "TAA-3": "online default offline none", ("TAA-2", "TAA-3"): "undecided", "ONL-3": "unable", "ONL-8": "issuer"}


def reference(cited):
    """A reference in words: rules with their sections, `RISK-3; Book 3, 10.6.1`, or a section alone."""
    rules = [cited] if isinstance(cited, str) else list(cited)
    if not all(rule in table() for rule in rules):
        return cited
    sections = dict.fromkeys(table()[rule].section for rule in rules)
    return f"{' or '.join(rules)}; {' or '.join(sections)}"


def by_key(cited):
    """The references of a table by what they are of."""
    found = {}
    for rule, keys in cited.items():
        for key in keys.split() if isinstance(keys, str) else keys:
            if key in found:
                raise ValueError(f"{key} has two references")
            found[key] = reference(rule)
    return found


def bits(cited):
    """The references of bits, by BYTE times ten plus BIT."""
    return {int(key.replace(".", "")): place for key, place in by_key(cited).items()}


def numbers(cited):
    """The references of codes, by their numbers."""
    return {int(key, 16): place for key, place in by_key(cited).items()}


def of_step(step):
    """The references of a step's causes."""
    found = by_key(OF_CAUSES)
    named = {key.split()[1]: place for key, place in found.items() if key.startswith(f"{step} ") and not key.endswith(" 0")}
    return {"answer": found["answer"], **named}


def tables():
    """The tables of crates/report_lines by their names."""
    return {
        "RESULT_REFERENCES": bits(OF_RESULTS), "STATUS_REFERENCES": bits(OF_STATUS), "METHOD_REFERENCES": numbers(OF_METHODS),
        "OUTCOME_REFERENCES": numbers(OF_OUTCOMES), "COMMAND_REFERENCES": numbers(OF_COMMANDS), "STATUS_WORD_REFERENCES": numbers(OF_STATUS_WORDS),
        "ANSWER_REFERENCES": numbers(OF_ANSWERS),
        "RESPONSE_REFERENCES": {int.from_bytes(code.encode()): place for code, place in by_key(OF_RESPONSES).items()},
        **{f"{step.upper()}_CAUSES": of_step(step) for step in ("select", "initiate", "read", "first", "second", "other")},
    }


def phrases():
    """The references of crates/report_lines that stand alone, by their names."""
    reasons, no_rule = by_key(OF_REASONS), by_key(OF_NO_RULE)
    return {
        "LOCATOR_LENGTH": by_key(OF_CAUSES)["initiate afl 0"], "NOT_VERIFIED": no_rule["00"], "NO_RULE": no_rule["01"],
        "UNKNOWN_METHOD": reference("CVM-5"), "CUT": reference("ANS-2"), "DENIAL": reasons["denied"], "ONLINE": reasons["online"],
        "ANALYSIS": reasons["undecided"], "UNABLE": reasons["unable"], "REPLY": reasons["issuer"],
        **{name: reference(rule) for rule, name in OF_PARTIES.items()},
    }


def lacking():
    """Bits and codes that have words and no reference, or the other way round."""
    pairs = (
        ("TVR", words.TVR, bits(OF_RESULTS)), ("TSI", words.TSI, bits(OF_STATUS)), ("CVM", words.CVM, numbers(OF_METHODS)),
        ("RESULT", words.RESULT, numbers(OF_OUTCOMES)), ("ARC", words.ARC, by_key(OF_RESPONSES)), ("STATUS", words.STATUS, by_key(OF_STATUS_WORDS)),
        ("STATUS_OF", {instruction + status for instruction, status in words.STATUS_OF}, by_key(OF_ANSWERS)))
    for name, told, referred in pairs:
        for key in sorted(set(told) ^ set(referred), key=str):
            yield f"{name}: {key} has words or a reference, and not both"


def key_of(row):
    """What a row of the crate's is of: a number or a text."""
    return int(row[1], 16) if row[1] else int(row[2]) if row[2] else row[3]


def written():
    """The crate's tables, each as its rows, and its texts that stand alone."""
    text = TABLES.read_text()
    found = {name: [(key_of(row), row[4]) for row in ROW.finditer(rows)] for name, rows in TABLE.findall(text)}
    return found, dict(ALONE.findall(text))


def differing():
    """Where the crate's references differ from these."""
    found, alone = written()
    wanted = tables()
    if found.keys() != wanted.keys():
        yield f"references.rt has other tables: {sorted(found.keys() ^ wanted.keys())}"
    for name in found.keys() & wanted.keys():
        told = dict(found[name])
        if len(told) != len(found[name]):
            yield f"{name}: a key stands twice"
        for key in sorted(told.keys() | wanted[name].keys(), key=str):
            if told.get(key) != wanted[name].get(key):
                yield f"{name} {key}: {told.get(key)}, wanted {wanted[name].get(key)}"
    for name in sorted(alone.keys() | phrases().keys()):
        if alone.get(name) != phrases().get(name):
            yield f"{name}: {alone.get(name)}, wanted {phrases().get(name)}"
