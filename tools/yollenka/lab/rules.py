"""The rules of docs/proof/profile.md by their short names (docs/proof/rules.toml), and which of them a command comes from."""
import re
import tomllib
from functools import cache
from typing import NamedTuple

from yollenka.programs import ROOT

TABLE = ROOT / "docs" / "proof" / "rules.toml"
NAME = re.compile(r"[A-Z]+-\d+")
# The prefixes of the rules that a terminal's dialogue can try.
OF_A_TERMINAL = ("ANS", "SEL", "INIT", "READ", "REST", "CVM", "RISK", "TAA", "GEN", "ONL", "SCR")
DIRECTORY = b"1PAY.SYS.DDF01".hex()
# By the first digits of a command that the reference asks, where these alone tell the rule.
COMMANDS = {"80a8": "INIT-1", "00b2": "READ-1", "0020": "CVM-9", "80ca": "RISK-6", "0082": "ONL-5"}
# By byte and bit of the verification results.
BITS = {
    18: "READ-9", 16: "CVM-2, RISK-7", 15: "RISK-1", 28: "REST-1", 27: "REST-4", 26: "REST-3", 25: "REST-2", 24: "RISK-10",
    38: "CVM-12", 37: "CVM-5", 36: "CVM-9", 35: "CVM-6", 34: "CVM-7", 33: "CVM-8", 48: "RISK-3", 47: "RISK-9", 46: "RISK-9",
    45: "RISK-5", 44: "RISK-1", 57: "ONL-6", 56: "SCR-5", 55: "SCR-5",
}
# By step and cause of an end line; a cause of any step stands without one.
ENDS = {
    "answer": "ANS-1", "cut": "ANS-2", "no-candidate": "SEL-22", "card-blocked": "SEL-9", "initiate status": "INIT-4",
    "initiate coding": "INIT-6", "initiate missing": "INIT-6", "initiate value": "INIT-6", "initiate afl": "INIT-9",
    "initiate dol": "INIT-2", "read status": "READ-2", "read coding": "READ-3", "read repeated": "READ-5", "read too-much": "READ-5",
    "read missing": "READ-7", "read value": "READ-8", "read dol": "READ-8", "status": "GEN-3", "coding": "GEN-4", "missing": "GEN-4",
    "value": "GEN-4", "kind": "GEN-5", "first dol": "GEN-2", "second dol": "ONL-9",
}


class Rule(NamedTuple):
    """A rule: its name, the section of a standard or `own`, itself in a few words, the heading of profile.md above it."""

    name: str
    section: str
    words: str
    where: str

    def is_of_a_terminal(self):
        """Whether a terminal's dialogue can try it."""
        return self.name.partition("-")[0] in OF_A_TERMINAL


@cache
def table():
    """All rules by their names, in the order of the page."""
    with open(TABLE, "rb") as file:
        return {row["name"]: Rule(**row) for row in tomllib.load(file)["rule"]}


def cited(text):
    """The citation of rules by their names, `TAA-2, TAA-3, Terminal action analysis: Book 3, 10.7`; another text as it is."""
    names = text.split(", ")
    if not all(name in table() for name in names):
        return text
    found = [table()[name] for name in names]
    places = dict.fromkeys((one.where, one.section) for one in found)
    return "; ".join(", ".join([one.name for one in found if (one.where, one.section) == place] + [": ".join(place)]) for place in places)


def selecting(ask, before):
    """The rule behind a SELECT: of the directory, of the next occurrence, the final one of a name that was found, or of a name."""
    name = ask[5:-1].hex()
    if name == DIRECTORY:
        return "SEL-1"
    if ask[3] == 2:
        return "SEL-14"
    was_found = any(name in entry for entry in before if entry.startswith("< 6f") or entry.startswith("< 70"))
    return "SEL-19" if was_found or f"> {ask.hex()}" in before else "SEL-8"


def rules_of(ask, before):
    """The rules behind a command or message of the reference, which stands behind these entries of its dialogue."""
    head = ask.hex()[:4]
    if head == "00a4":
        return selecting(ask, before)
    if head == "00b2" and not any(entry.startswith("> 80a8") for entry in before):
        return "SEL-3"
    if head == "80ae":
        return "ONL-9" if any(entry.startswith("> 80ae") for entry in before) else "GEN-2"
    return COMMANDS.get(head, "ONL-2" if ask[:1] == b"\xe1" else "SCR-2")


def of_a_kind(before):
    """The rules by which the kind of cryptogram is asked for, behind these entries of the dialogue."""
    if not any(entry.startswith("> 80ae") for entry in before):
        return "TAA-2, TAA-3"
    return "ONL-8" if any(entry.startswith("host < ") and entry != "host < none" for entry in before) else "ONL-3"


def rules_of_difference(ask, before, bits, is_kind):
    """The rules behind a GENERATE AC, a GET PROCESSING OPTIONS or a message in which these bits of the verification results, the
    kind of cryptogram or something else differ."""
    places = [place for place in BITS if bits >> 8 * (5 - place // 10) + place % 10 - 1 & 1]
    if places:
        return ", ".join(dict.fromkeys(name for place in places for name in BITS[place].split(", ")))
    return of_a_kind(before) if is_kind else rules_of(ask, before)


def rules_of_end(ending):
    """The rules by which the reference ended so, as its end line has it up to the results."""
    how, _, rest = ending.partition(" ")
    if how in ("approved", "declined"):
        return "GEN-6" if rest == "offline" else "ONL-11"
    step, _, cause = f"{rest} cut".partition(" ")
    first = cause.split(" ")[0]
    return ENDS.get(f"{step} {first}", ENDS.get(first, ""))
