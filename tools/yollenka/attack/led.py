"""A proved terminal that is led by lines at random: it says what the model's terminal says that gets the same ones.

The cards and the issuer are the model's. Between their answers and replies the terminal is asked `want` and `why`, and it loses its
power: in a purchase, behind one, behind it twice, with and without its message in the store, and behind a settlement.
"""
from contextlib import closing

from yollenka.faults import Fault
from yollenka.lab.host_dialect import shown_in
from yollenka.lab.tied import TiedTerminal
from yollenka.lines import begin, end, terminal_document
from yollenka.model.document import scenario_of
from yollenka.model.world import World
from yollenka.scenarios import document

AT_REST = ["next", "next", "next", "settle", "why", "lost", "lost", "lost captured", "lost captured", "want"]
IN_A_PURCHASE = ["want", "why", "lost"]
IN_A_SETTLEMENT = ["want", "why"]
# Each of a lane's purchases comes so often, so that the log tells; so many lines are said once all have begun; and of so many in a
# purchase one is none of its replies, in the mean.
TIMES, BEHIND, SELDOM = 6, 40, 30


class Led:
    """The terminal of a lane at the model's cards and issuer; `seen` tells how often it was told what."""

    def __init__(self, table, number, chance, seen):
        lanes = [lane | {"purchase": lane.get("purchase", []) * TIMES} for lane in table["lane"]]
        table = table | {"lane": lanes}
        self.world = World(scenario_of(document(table), "replay"))
        self.settings, self.chance, self.seen = self.world.scenario["lane"][number], chance, seen
        self.process, lines = begin("terminal_at_reader", [], terminal_document(table, number, keep=["dialect"]))
        try:
            self.terminal = TiedTerminal(lines, self.settings)
        except Fault:
            self.close()
            raise
        self.model, self.begun = self.terminal.beside, 0

    def card(self):
        """The card of the purchase that runs, which is turned on at its beginning."""
        card = self.world.cards[self.settings["purchase"][self.model.begun - 1]["card"]]
        if self.begun != self.model.begun:
            self.begun = self.model.begun
            card.power_up(None)
        return card

    def answer(self):
        """The line of the card's answer, or of a card that is gone."""
        said = self.card().answer(self.model.asked[1]) if self.chance.randrange(60) else None
        return "< gone" if said is None else f"< {said.hex() or '-'}"

    def reply(self, message):
        """The issuer's reply as a line has it, behind this mark; of one that doesn't come, none."""
        return shown_in(message, self.world.issuer.answer(message), self.model.is_iso).hex()

    def line(self):
        """The next line: what the terminal awaits, or another one."""
        if self.model.course:
            if self.chance.randrange(SELDOM) == 0:
                return self.chance.choice(IN_A_PURCHASE)
            if self.model.asked[0] != "online":
                return self.answer()
            return f"host < {self.reply(self.model.asked[1])}" if self.chance.randrange(4) else "host < none"
        if self.model.settled is None:
            return self.chance.choice(AT_REST)
        if self.chance.randrange(4) == 0:
            return self.chance.choice(IN_A_SETTLEMENT)
        return f"settle < {self.reply(self.model.waiting[self.model.settled])}"

    def run(self):
        """Says the lines. Raises Fault where the two say other things."""
        left = BEHIND
        while left:
            left -= self.model.begun == len(self.settings["purchase"])
            line = self.line()
            if line.startswith("lost"):
                where = "in a purchase" if self.model.course else "at rest"
                self.seen[f"a terminal that is led is told {line} {where}"] += 1
            self.terminal.ask(line)

    def close(self):
        """Ends the program."""
        end(self.process)


def led_faults(table, chance, seen):
    """What the terminals of a scenario say otherwise than the model's. One without purchases begins with none."""
    for number in (at for at, lane in enumerate(table["lane"]) if lane.get("purchase")):
        try:
            with closing(Led(table, number, chance, seen)) as led:
                led.run()
        except Fault as fault:
            yield f"lane {number}, led by lines: {fault}"
