"""A card at lines, as docs/use/reader.md, section 1, has them."""
import re

from .card import Card
from .memory import Lost

PULL = re.compile(r"pull (\d{1,3}) (?:(before|within) (\d{1,3})|release)")
COMMAND = re.compile(r"(?:[0-9A-Fa-f]{2}){1,261}")
NUMBERS = range(256)
# A card's state, application by application, in the words of docs/use/reader.md.
COUNTERS, LIMITS = ("counter", "last_online", "count", "sum", "sum_two", "tries"), ("count_limit", "sum_limit", "limit_two")


def state_lines(state):
    """The lines of a card's state, with newlines between."""
    lines = [f"state {len(state['apps'])}"]
    for number, app in enumerate(state["apps"]):
        fields = [("app", number), *((name, app[name]) for name in COUNTERS), ("flags", app["blocked"] + 2 * app["auth_failed"])]
        fields += [("blocked", str(app["blocked"]).lower()), ("card_blocked", str(bool(state["blocked"])).lower())]
        fields += [*((name, app[name]) for name in LIMITS), ("log", app["log_max"]), *(("row", row.hex()) for row in app["log"])]
        lines.append(" ".join(f"{name} {value}" for name, value in fields))
    return "\n".join(lines)


def decided_lines(decided):
    """The lines of a card's decisions, with newlines between."""
    return "\n".join([f"decided {len(decided)}", *decided])


def why_line(reason):
    """The line of a reason."""
    if reason is None:
        return "?"
    return "why " + " ".join(f"{name} {str(value).lower()}" for name, value in reason.items())


def place_in(line):
    """The place at which a line has the card pulled out, or None."""
    found = PULL.fullmatch(line)
    if not found:
        return None
    commit, write = int(found[1]), int(found[3]) if found[3] else None
    if commit not in NUMBERS or write is not None and write not in NUMBERS[1:]:
        return None
    return {"commit": commit, "at": found[2] or "release", "write": write}


class CardAtLines:
    """Answers line by line for a card that has decided nothing yet, and is off. An answer of several lines has newlines within."""

    def __init__(self, image):
        self.card, self.is_on, self.plan, self.taken, self.fired = Card(image), False, None, None, None

    def answer(self, line):
        """The answer to a line."""
        if line == "power":
            return self.power()
        if line == "off":
            self.is_on = False
            return "off"
        if line == "state":
            return self.state()
        if line == "torn":
            return self.torn()
        if line == "decided":
            return decided_lines(self.card.decided)
        if line == "why":
            return why_line(self.card.reason)
        if place := place_in(line):
            self.plan = place
            return line
        if not self.is_on or not COMMAND.fullmatch(line):
            return "?"
        try:
            return f"< {self.card.answer(bytes.fromhex(line)).hex()}"
        except Lost:
            self.cut()
            self.pulled()
            return "< torn"

    def power(self):
        """Turns the card on, with the plan that waits."""
        self.is_on, self.taken = True, self.plan
        self.card.decided, self.card.reason = [], None
        try:
            self.card.power_up(self.plan)
        except Lost:
            self.pulled()
            return "power torn"
        return f"power {self.card.counters()}"

    def state(self):
        """The card's state; of a card that is off, as a power-up finds it."""
        if not self.is_on:
            self.card.power_up()
        return state_lines(self.card.state)

    def torn(self):
        """The plan that fired last."""
        if self.fired is None:
            return "?"
        commit, at, write = (self.fired[name] for name in ("commit", "at", "write"))
        return f"torn {commit} {at}" + ("" if write is None else f" {write}")

    def cut(self):
        """The last decision was cut: none where its first write hadn't begun, kept at its release, and unsure elsewhere."""
        at, write = self.taken["at"], self.taken["write"]
        last = self.card.decided.pop()
        if (at, write) != ("before", 1):
            self.card.decided.append(last if at == "release" else f"{last} unsure")

    def pulled(self):
        """The plan has fired; one that came behind it waits for the next power-up."""
        self.is_on, self.fired = False, self.taken
        if self.plan is self.taken:
            self.plan = None


class CannedAtLines:
    """Answers line by line for a card of canned answers, which is off."""

    def __init__(self, answers):
        self.answers, self.left = answers, None

    def answer(self, line):
        """The answer to a line."""
        if line in ("power", "off"):
            self.left = list(self.answers) if line == "power" else None
            return "power canned" if line == "power" else "off"
        if self.left is None or not COMMAND.fullmatch(line):
            return "?"
        if not self.left:
            self.left = None
            return "< gone"
        return f"< {self.left.pop(0).hex() or '-'}"
