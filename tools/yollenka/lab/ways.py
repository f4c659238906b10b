"""A scenario with one purchase torn: as it stands, and behind an idle power-up.

An idle power-up is a purchase in front of all others that ends before the first write of its power-up. It changes nothing
but how often the memory was turned on. A cell that a torn write leaves unsure gives the byte before or the new one by turns
of power-ups: so with one more of them each place where the memory decides goes the other way.
"""
from itertools import product

# Whose tear stands under which key of a purchase.
KEYS = {"card": "tear", "terminal": "terminal_tear"}
IDLE, RELEASE = {"commit": 0, "at": "before", "write": 1}, {"commit": 0, "at": "release"}


def untorn(purchase):
    """A purchase without its tears."""
    return {key: value for key, value in purchase.items() if key not in KEYS.values()}


def idle_of(scenario, lane, number):
    """An idle power-up of a purchase's card, or of its terminal's store where the card has no memory; else None."""
    terminal = scenario["lane"][lane]
    purchase = terminal["purchase"][number - 1]
    card = next(one for one in scenario["card"] if one["name"] == purchase["card"])
    key = "tear" if "canned" not in card else "terminal_tear" if terminal.get("durable") else None
    return {**untorn(purchase), key: IDLE} if key else None


def behind_idle(scenario, lane, idle):
    """The scenario with an idle power-up in front, which takes the first turn."""
    lanes = [*scenario["lane"]]
    lanes[lane] = {**lanes[lane], "purchase": [idle, *lanes[lane]["purchase"]]}
    return {**scenario, "lane": lanes, "schedule": [lane, *scenario.get("schedule", [])]}


def is_torn_elsewhere(scenario, lane, number):
    """Whether another purchase has a tear that may leave the memory unsure."""
    for at, one in enumerate(scenario["lane"]):
        for place, purchase in enumerate(one["purchase"], 1):
            tears = [purchase.get(key, {}) for key in KEYS.values()]
            if (at, place) != (lane, number) and any(tear.get("at") == "within" for tear in tears):
                return True
    return False


class Way:
    """A scenario with one purchase that is torn, with idle power-ups in front of all purchases and right before this one."""

    def __init__(self, scenario, lane, number, idles=(None, None)):
        first, near = idles
        scenario = with_near(scenario, lane, number, near) if near else scenario
        self.scenario = behind_idle(scenario, lane, first) if first else scenario
        self.lane, self.number = lane, number + bool(first) + bool(near)
        self.idles = ([self.number - 1] if near else []) + ([1] if first else [])
        self.purchase = untorn(self.scenario["lane"][lane]["purchase"][self.number - 1])

    def torn(self, tear):
        """The scenario with these tears of the purchase, by their keys."""
        lanes = [*self.scenario["lane"]]
        purchases = [*lanes[self.lane]["purchase"]]
        purchases[self.number - 1] = {**self.purchase, **tear}
        lanes[self.lane] = {**lanes[self.lane], "purchase": purchases}
        return {**self.scenario, "lane": lanes}

    def lines(self, report):
        """A report's lines without those of idle power-ups, which aren't counted either."""
        lines = report.splitlines()
        for number in self.idles:
            lines = without_purchase(lines, self.lane, number)
        return lines


def ways_of(scenario, lane, number):
    """The ways of a scenario: without an idle power-up and with one in front.

    Where other purchases are torn too, those go the other way then. So both are tried with one right before the purchase too,
    which ends what the tears before have left. It takes a turn, which other lanes would notice.
    """
    idle = idle_of(scenario, lane, number)
    firsts = [None, idle] if idle else [None]
    has_near = idle and len(scenario["lane"]) == 1 and is_torn_elsewhere(scenario, lane, number)
    nears = [None, settled(idle)] if has_near else [None]
    return [Way(scenario, lane, number, idles) for idles in product(firsts, nears)]


def settled(idle):
    """An idle power-up that is cut off at its release, when it has ended what was begun."""
    return {key: RELEASE if value == IDLE else value for key, value in idle.items()}


def with_near(scenario, lane, number, idle):
    """The scenario of one lane with an idle power-up right before a purchase."""
    purchases = [*scenario["lane"][lane]["purchase"]]
    purchases.insert(number - 1, idle)
    return {**scenario, "lane": [{**scenario["lane"][lane], "purchase": purchases}]}


def without_purchase(lines, lane, number):
    """A report's lines without those of an idle power-up, its last ones before its end; later purchases count one less."""
    head = f"L{lane} end "
    end = next(at for at, line in enumerate(lines) if line.startswith(f"{head}{number} "))
    begin = end - lines[end - 1].startswith(f"L{lane} power ") if end else end
    return lines[:begin] + [renumbered(line, head) for line in lines[end + 1 :]]


def renumbered(line, head):
    """A line whose count of purchases, if it has one, is less by one."""
    for begin in (head, "done "):
        if line.startswith(begin):
            number, *rest = line[len(begin) :].split(" ", 1)
            return " ".join([f"{begin}{int(number) - 1}", *rest])
    return line
