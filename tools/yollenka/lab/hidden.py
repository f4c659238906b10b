"""What a purchase leaves in its card that no power line shows: the PIN, limits, rows of the log, and that the card is blocked.

No report tells it. It is taken from the model of the rules, and only where the model's report is the program's, byte for byte.
"""
from yollenka.model.card import Card, decoded, encoded, opening
from yollenka.model.document import Refused, scenario_of
from yollenka.model.memory import Lost
from yollenka.model.world import World
from yollenka.respell import dialects_of, respelled

NOTHING, UNKNOWN = "-", "?"
LIMITS = {"count_limit": "limit", "sum_limit": "sum limit"}


class Watched(Card):
    """A card that keeps what its power-ups found: how many lines stood before each, the state, and whether it was whole."""

    def __init__(self, image, lines):
        super().__init__(image)
        self.store.state = encoded(opening(image), image["version"])
        self.lines, self.found = lines, []

    def power_up(self, tear=None):
        """Turns the card on; of a power-up that is torn the state before it is kept."""
        place, before = len(self.lines), decoded(self.store.state)[1]
        try:
            super().power_up(tear)
        except Lost:
            self.found.append((place, before, False))
            raise
        self.found.append((place, decoded(self.store.state)[1], True))


def rows_more(before, after):
    """How many rows a log has got: the latest one stands first, and the oldest ones go."""
    return next(count for count in range(len(after) + 1) if after[count:] == before[: len(after) - count])


def app_words(before, after):
    """What is other in an application's state."""
    if after["pin"] != before["pin"]:
        yield "PIN new"
    for key, word in LIMITS.items():
        if after[key] != before[key]:
            yield f"{word} {before[key]}>{after[key]}"
    rows = rows_more(before["log"], after["log"])
    if rows:
        yield f"log +{rows}"


def state_words(before, after):
    """What is other in a card's state; an application is named where there are several."""
    for number, apps in enumerate(zip(before["apps"], after["apps"]), 1):
        named = f"application {number} " if len(before["apps"]) > 1 else ""
        yield from (f"{named}{word}" for word in app_words(*apps))
    if after["blocked"] and not before["blocked"]:
        yield "card blocked"


def change(card, lines, lane, number):
    """The card's state when a purchase begins, and when it is powered up next; None where the purchase doesn't power it up."""
    ends = [at for at, line in enumerate(lines) if line.startswith(f"L{lane} end ")]
    begin, end = ends[number - 2] if number > 1 else -1, ends[number - 1]
    own = [state for at, state, _ in card.found if begin < at < end and lines[at].startswith(f"L{lane} power ")]
    later = [state for at, state, is_whole in card.found if at > end and is_whole]
    return (own[0], later[0]) if own and later else None


def hidden(text, report, lane, number):
    """What a purchase of this document leaves in its card beside its counters, in words; UNKNOWN where the model is at odds."""
    try:
        world = World(scenario_of(text, "replay"))
    except Refused:
        return UNKNOWN
    name = world.scenario["lane"][lane]["purchase"][number - 1]["card"]
    if not isinstance(world.cards[name], Card):
        return NOTHING
    image = next(one for one in world.scenario["card"] if one["name"] == name)
    card = world.cards[name] = Watched(image, world.lines)
    lines = world.run()
    if respelled("\n".join(lines), dialects_of(world.scenario))[0] != report.splitlines():
        return UNKNOWN
    states = change(card, lines, lane, number)
    return ", ".join(state_words(*states)) or NOTHING if states else NOTHING
