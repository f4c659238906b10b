"""What cases cover: counted from what the reference terminal was told and how it ended, never from the tried terminal's word."""
import re
import textwrap
from collections import Counter

from yollenka.lab.emv import NAMES
from yollenka.lab.rules import table
from yollenka.lab.spelling import CONDITIONS, METHODS
from yollenka.words import ARC, RESULT, TVR

# The bits that the profile's terminal can set: without those of offline data authentication and the reserved ones.
NEVER = (17, 14, 13, 12, 58)
BITS = [place for place, name in TVR.items() if name != "reserved" and place not in NEVER]
STEPS = "power select initiate read verify risk first authenticate script second".split()
READING = ["initiate", "read", "first", "second"]
CAUSES = {
    "cut": STEPS, "answer": [step for step in STEPS if step not in ("power", "script")], "no-candidate": ["select"],
    "card-blocked": ["select"], "status": READING, "coding": READING, "repeated": ["read"], "missing": READING, "value": READING,
    "afl": ["initiate"], "dol": READING, "too-much": ["read"], "kind": ["first", "second"],
}
KINDS = {0x00: "AAC", 0x40: "TC", 0x80: "ARQC", 0xC0: "reserved"}
# Which kinds may be asked for and answered, in both halves.
ASKED = ["first:TC-TC", "first:TC-ARQC", "first:TC-AAC", "first:ARQC-ARQC", "first:ARQC-AAC", "first:AAC-AAC", "second:TC-TC",
         "second:TC-AAC", "second:AAC-AAC"]
REFUSED = ["first:TC-reserved", "first:ARQC-TC", "first:AAC-TC", "first:AAC-ARQC", "second:TC-ARQC", "second:AAC-TC",
           "second:AAC-ARQC", "second:TC-reserved"]
# The results that a method can have; one with an enciphered PIN is never performed.
RESULTS = {
    "fail": [1], "plaintext pin": [1, 2], "online pin": [0, 1], "plaintext pin and signature": [0, 1], "signature": [0], "no cvm": [2],
}
RULES_ROW, METHOD_ROW, WIDTH = "rules that a terminal can be tried by", "CVM by condition and result", 120
MARKS = {0: "?", 1: "-", 2: "+"}
END = re.compile(r"end (.*?) tvr=(\w+) tsi=\w+ cvm=(\w+) arc=(.*?) atc=\S+ ac=\S+ scripts=(\S+)")


def wrapped(parts):
    """A list as lines that are not too long."""
    return textwrap.wrap(", ".join(parts), WIDTH, initial_indent="  ", subsequent_indent="  ", break_on_hyphens=False)


def kind_of(answer):
    """The kind of cryptogram in an answer to GENERATE AC, or None."""
    found = re.match(r"80[0-9a-f]{2}([0-9a-f]{2})|77[0-9a-f]*?9f2701([0-9a-f]{2})", answer)
    return KINDS[int(found[1] or found[2], 16) & 0xC0] if found else None


def script_result(text):
    """The result of a script, five bytes, in words."""
    if text[0] == "2":
        return "carried out"
    return "of no form" if text[:2] == "00" else f"command {int(text[1], 16)} failed"


class Coverage:
    """The counts of what cases have covered."""

    def __init__(self):
        self.cases = 0
        self.bits, self.methods, self.causes, self.kinds, self.codes, self.statuses, self.scripts, self.endings, self.rules = (
            Counter() for _ in range(9))

    def add(self, case, verdict):
        """Adds what the reference did in a case."""
        self.cases += 1
        self.rules.update(case.rules)
        self.add_dialogue(verdict.fed)
        found = END.match(f"end {verdict.end}") if verdict.end else None
        if found:
            self.add_end(*found.groups())

    def add_dialogue(self, fed):
        """Adds kinds and statuses of a dialogue."""
        halves = iter(("first", "second"))
        for said, told in zip(fed, fed[1:]):
            if not said.startswith("> ") or told == "< gone" or len(told) < 6:
                continue
            name = NAMES.get(said[2:6], "other")
            self.statuses[f"{name} {told[-4:]}"] += 1
            if name == "GENERATE AC":
                asked, kind = KINDS[int(said[6:8], 16) & 0xC0], kind_of(told[2:]) or told[-4:]
                self.kinds[f"{next(halves)}:{asked}-{kind}"] += 1

    def add_end(self, ending, results, methods, code, scripts):
        """Adds what an end line tells."""
        number = int(results, 16)
        self.bits.update(place for place in BITS if number >> 8 * (5 - place // 10) + place % 10 - 1 & 1)
        method, condition, result = bytes.fromhex(methods)
        self.methods[method & 0x3F, condition, result] += 1
        words = ending.split(" ")
        if words[0] in ("terminated", "cut"):
            self.causes[(words + ["cut"])[2 if words[0] == "terminated" else -1], words[1]] += 1
        self.endings[" ".join(words[:2])] += 1
        self.codes[code] += 1
        made = [] if scripts == "-" else re.findall("..........", scripts)
        self.scripts.update(map(script_result, made))

    def rows(self):
        """Each kind of thing with the names that can be and the counts of those that were."""
        yield RULES_ROW, [rule.name for rule in table().values() if rule.is_of_a_terminal()], self.rules
        yield "TVR bits", [f"{place // 10}.{place % 10}" for place in BITS], {
            f"{place // 10}.{place % 10}": count for place, count in self.bits.items()}
        cells = {(METHODS[method], condition, result): f"{method} {name} {RESULT[result]}" for method, results in RESULTS.items()
                 for name, condition in CONDITIONS.items() for result in results}
        yield METHOD_ROW, list(cells.values()), {
            cells[one]: count for one, count in self.methods.items() if one in cells}
        yield "causes by step", [f"{step} {cause}" for cause, steps in CAUSES.items() for step in steps], {
            f"{step} {cause}": count for (cause, step), count in self.causes.items()}
        yield "codes", [*ARC, "--"], self.codes
        yield "cryptograms asked-answered", ASKED, {one: count for one, count in self.kinds.items() if one not in REFUSED}
        yield "cryptograms refused", REFUSED, {one: count for one, count in self.kinds.items() if one in REFUSED}

    def lines(self, is_whole):
        """The lines that tell it: counts, or everything."""
        yield f"coverage of {self.cases} cases, by the reference's ends:"
        for name, can_be, counts in self.rows():
            met = [one for one in can_be if counts.get(one)]
            yield f"{name}: {len(met)} of {len(can_be)}"
            if is_whole and name == METHOD_ROW:
                yield from self.method_lines()
            elif is_whole:
                yield from wrapped(f"{one} {counts[one]}" for one in met)
                yield from wrapped([f"never: {', '.join(one for one in can_be if one not in met) or 'none'}"])
        for name, counts in (("endings", self.endings), ("scripts", self.scripts), ("statuses", self.statuses)):
            yield f"{name}: {len(counts)}"
            yield from wrapped(f"{one} {count}" for one, count in sorted(counts.items())) if is_whole else []

    def method_lines(self):
        """The table of methods by conditions: which results each rule had."""
        conditions = "  ".join(f"{one:02}" for one in CONDITIONS.values())
        yield f"  {'+ successful, - failed, ? unknown, . never; condition':54} {conditions}"
        for method in RESULTS:
            cells = ("".join(MARKS[one] for one in RESULTS[method] if self.methods[METHODS[method], condition, one]) or "."
                     for condition in CONDITIONS.values())
            yield f"    {method:52} {' '.join(f'{cell:3}' for cell in cells)}".rstrip()
