"""Random scenarios of two to four lanes, from the parts of examples/ and a number: the same number gives the same one.

Most lanes have cards and accounts of their own. Some take the cards of the lane before them, or put its accounts on theirs.
"""
import tomllib
from random import Random

from yollenka.programs import ROOT
from yollenka.respell import objects, written

# Account numbers, four for each lane; some have 17 digits.
NUMBERS = [f"47617390010{n:05d}" + "7" * (n % 3 == 0) for n in range(1, 17)]
# The names of applications, of which the second begins like the first.
NAMES = ["A0000000031010", "A0000000032010"]


def example(name):
    """The scenario of an example."""
    return tomllib.loads((ROOT / "examples" / f"{name}.toml").read_text())


BASE = example("offline-approval")
ACCOUNT, CARD, LANE = BASE["account"][0], BASE["card"][0], BASE["lane"][0]
CANNED = example("canned-answers")["card"][0]["canned"]
# Verification by PIN and signature, by a PIN for the issuer, and by a limit.
METHODS = [example(name)["card"][0]["app"][0]["record"][2]
           for name in ("offline-approval", "cvm-pin-for-the-issuer", "cvm-not-required")]
SCRIPTS = [[], []] + [example(name)["account"][0]["scripts"]
                      for name in ("script-limits", "script-before", "script-pin-unblock", "script-block-and-unblock")]


class Maker:
    """Makes the parts of one scenario."""

    def __init__(self, seed):
        draw = Random(seed)
        self.one_of, self.within, self.some = draw.choice, draw.randint, draw.sample

    def in_a_while(self, count):
        """True once in so many times."""
        return self.within(1, count) == 1

    def account(self, number):
        """An account, mostly with enough on it."""
        return {
            **ACCOUNT, "pan": number, "balance": self.one_of([3_000, 9_000, 100_000, 100_000]), "blocked": self.in_a_while(8),
            "scripts": self.one_of(SCRIPTS), "arpc": self.one_of([1, 2]), "status": self.one_of([0, 0, 0, 16, 64]),
        }

    def records(self, number, sequence):
        """The records of an example's card with this account number."""
        first, second, _ = CARD["app"][0]["record"]
        ((tag, content),) = objects(bytes.fromhex(first["bytes"]))
        own = {"5a": bytes.fromhex(number + "F" * (len(number) % 2)), "5f34": bytes([sequence])}
        content = written([(its, own.get(its, value)) for its, value in objects(content)])
        return [{**first, "bytes": written([(tag, content)]).hex()}, second, self.one_of(METHODS)]

    def app(self, name, number):
        """An application, of a card that goes online or of one that needn't."""
        sequence = self.within(1, 3)
        return {
            **CARD["app"][0], "name": name, "pan": number, "sequence": sequence, "priority": self.within(1, 2),
            "counter": self.one_of([10, 10, 10, 65_534]), "count_limit": self.one_of([0, 0, 1, 5]),
            "sum_limit": self.one_of([2_000, 20_000]), "gpo_format": self.within(1, 2), "ac_format": self.within(1, 2),
            "tries": self.within(1, 3), "log": self.one_of([0, 3]), "blocked": self.in_a_while(15),
            "record": self.records(number, sequence),
        }

    def canned(self, name, number):
        """A card of canned answers: those of a whole purchase, or some of them, or with one that is cut short."""
        first, *rest = [answer.replace(ACCOUNT["pan"], number[:16]) for answer in CANNED]
        answers = [first, *self.one_of([[], ["6A82"], ["6A82"]]), *rest]
        if self.in_a_while(4):
            answers = answers[: self.within(0, 9)]
        elif self.in_a_while(4):
            place = self.within(0, 9)
            answers[place] = answers[place][: 2 * self.within(0, 6)]
        return {"name": name, "canned": answers}

    def card(self, name, numbers):
        """A card of these accounts."""
        if self.in_a_while(5):
            return self.canned(name, self.one_of(numbers))
        names = self.some(NAMES, self.within(1, 2))
        card = {"name": name, "version": self.within(1, 2), "app": [self.app(one, self.one_of(numbers)) for one in names]}
        return card | ({"pse": self.within(1, 10)} if self.in_a_while(2) else {})

    def tear(self, commits, writes):
        """A place at which power is cut: in one of these commits."""
        at = self.one_of(["before", "within", "release"])
        write = {} if at == "release" else {"write": self.within(1, writes)}
        return {"commit": self.within(0, commits), "at": at, **write}

    def purchase(self, cards, durable):
        """A purchase with one of these cards."""
        tear = {"tear": self.tear(8, 6)} if self.in_a_while(4) else {}
        terminal_tear = {"terminal_tear": self.tear(2, 7)} if durable and self.in_a_while(4) else {}
        return {
            **LANE["purchase"][0], "card": self.one_of(cards), "amount": self.one_of([1, 700, 2_500, 6_000, 12_000]),
            "currency": self.one_of(["840"] * 7 + ["978"]), "word": self.within(0, 98),
            "pins": self.one_of([[], ["1234"], ["1234"], ["9999", "1234"]]), "forced": self.in_a_while(4),
            "link": self.one_of(["ok", "ok", "ok", "request_lost", "reply_lost", "twice"]), **tear, **terminal_tear,
        }

    def aids(self):
        """The applications that a terminal knows: both, one, or what their names begin with."""
        names = self.one_of([NAMES] * 5 + [NAMES[:1], NAMES[1:], [NAMES[0][:10]]])
        floor = self.one_of([1_000, 10_000])
        return [{**LANE["aid"][0], "name": name, "partial": name not in NAMES, "floor": floor, "threshold": floor // 2}
                for name in names]

    def lane(self, cards, numbers):
        """A lane that pays with these cards."""
        durable = self.in_a_while(2)
        return {
            **LANE, "kind": self.one_of([21, 22, 22, 22, 23, 25, 26]), "caps": self.one_of(["E0B8C8", "E0F8C8"]),
            "dialect": self.one_of(["tlv", "iso"]), "pse": self.in_a_while(3), "durable": durable, "aid": self.aids(),
            "exceptions": [self.one_of(numbers)] if self.in_a_while(6) else [],
            "purchase": [self.purchase(cards, durable) for _ in range(self.within(1, 3))],
        }

    def scenario(self):
        """A whole scenario; a few accounts are not known to the issuer."""
        lanes, cards, numbers, names = [], [], [], []
        for lane in range(self.within(2, 4)):
            if not lanes or not self.in_a_while(6):
                numbers = self.some(NUMBERS[4 * lane : 4 * lane + 4], self.within(1, 2))
            if not lanes or not self.in_a_while(6):
                names = [f"c{lane}{letter}" for letter in "ab"[: self.within(1, 2)]]
                cards += [self.card(name, numbers) for name in names]
            lanes.append(self.lane(names, numbers))
        return {
            "issuer": BASE["issuer"], "account": [self.account(one) for one in NUMBERS if not self.in_a_while(12)],
            "card": cards, "lane": lanes, "copies": self.within(1, 3),
            "schedule": [self.within(0, len(lanes) - 1) for _ in range(self.one_of([0, 10, 60]))],
        }


def scenario_of(seed):
    """The scenario of this number."""
    return Maker(seed).scenario()


def one_account():
    """Two lanes, each with a card, of one account; on it is what the first one takes."""
    return example("two-lanes-one-account")


def one_card():
    """Two lanes that pay with one card, each from the account of an application of its own."""
    apps = [{**app, "name": name, "pan": number} for app, name, number in zip(CARD["app"] * 2, NAMES, (ACCOUNT["pan"], NUMBERS[3]))]
    maker = Maker(0)
    for app in apps:
        app["record"] = maker.records(app["pan"], app["sequence"])
    lanes = [{**LANE, "aid": [{**LANE["aid"][0], "name": name}]} for name in NAMES]
    return {**BASE, "account": [{**ACCOUNT, "pan": app["pan"]} for app in apps], "card": [{**CARD, "app": apps}], "lane": lanes}


def parts_of(scenario, lane):
    """What a lane of a scenario has to do with, in words."""
    its = scenario["lane"][lane]
    named = {purchase["card"] for purchase in its["purchase"]}
    cards = [card for card in scenario["card"] if card["name"] in named]
    has = {
        "canned answers": any("canned" in card for card in cards),
        "an old card": any(card.get("version") == 1 for card in cards),
        "two applications": any(len(card.get("app", [])) == 2 for card in cards),
        "a directory": its["pse"] and any("pse" in card for card in cards),
        "ISO 8583": its["dialect"] == "iso",
        "durable": its["durable"],
        "a card's tear": any("tear" in purchase for purchase in its["purchase"]),
        "a terminal's tear": any("terminal_tear" in purchase for purchase in its["purchase"]),
        "a lost message": any(purchase["link"].endswith("lost") for purchase in its["purchase"]),
        "a schedule": bool(scenario["schedule"]),
        "copies": scenario["copies"] > 1,
    }
    return [word for word, holds in has.items() if holds]
