"""`lab show`: a scenario's card in words."""
from pathlib import Path

from yollenka.faults import Fault
from yollenka.lab.cards import card_words
from yollenka.lab.cases import refused
from yollenka.lab.make import text_of
from yollenka.refusals import near
from yollenka.scenarios import NoDocument, read_document

TEXT = """Prints a scenario's card in words, its records taken apart: a `[card]` table from which a table of cases can begin
(docs/use/cases.md), and from which `lab make` makes the same card again. The card of a log is `lab card-of`'s."""


def arguments(parser):
    """The command's words."""
    parser.add_argument("scenario", metavar="SCENARIO.toml")
    parser.add_argument("card", metavar="CARD", nargs="?", help="the card's name; without it the first card")


def card_of(scenario, name):
    """The card of this name in a scenario, or the first one."""
    found = next((card for card in scenario["card"] if name in (None, card["name"])), None)
    if found is None:
        raise Fault(f"no card has the name '{name}'{near(name, [card['name'] for card in scenario['card']])}")
    if "app" not in found:
        raise Fault(f"card {found['name']} is one of canned answers, which has no words")
    return found


def card_in(path, name):
    """A scenario's card."""
    try:
        scenario = read_document(path)
    except NoDocument as fault:
        hint = f"; the card of a log is shown by `lab card-of {path}`" if Path(path).is_file() else ""
        raise Fault(f"{fault}{hint}") from None
    try:
        if not isinstance(scenario.get("card"), list):
            raise Fault("it is no scenario")
        refused(scenario)
        return card_of(scenario, name)
    except Fault as fault:
        raise Fault(f"{path}: {fault}") from None


def run(options):
    """Prints the card."""
    print(text_of({"card": card_words(card_in(options.scenario, options.card))}), end="")
    return 0
