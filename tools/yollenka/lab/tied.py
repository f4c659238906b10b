"""The programs of terminal, card and host of a scenario with one lane, tied to one another line by line.

What they say is written as the lines of the scenario's report. The link between terminal and host, the memory of what a terminal
captures, and how often a message is settled, are of what ties them; card and terminal are told by their own lines where they lose
their power. The terminal is asked besides why its last question is of its kind, behind all that it asks. To each line it has to
say what the model's terminal says that gets the same ones.
"""
from contextlib import ExitStack
from copy import deepcopy

from yollenka.faults import Fault
from yollenka.lab.host_scenario import NOWHERE
from yollenka.lab.live import pull_line
from yollenka.lab.tills import TerminalAtLines
from yollenka.lines import begin, card_document, end, host_document, terminal_document
from yollenka.model.document import scenario_of
from yollenka.model.memory import Lost, Store
from yollenka.model.world import messages_in, stored
from yollenka.scenarios import document

CANNED = "canned"


class TiedCard:
    """The program of a scenario's card."""

    def __init__(self, scenario, card, lines):
        self.name, self.lines, self.is_on, self.is_canned = card["name"], lines, False, CANNED in card

    def power(self, tear=None):
        """Turns the card on; gives what a power line tells behind the card's name."""
        if not self.is_canned:
            self.lines.ask(pull_line(tear) if tear else NOWHERE)
        told = self.lines.ask("power").removeprefix("power ")
        self.is_on = told != "torn"
        return told

    def answer(self, command):
        """The answer to a command, as a line of a report has it: the card may be gone."""
        told = self.lines.ask(command)
        self.is_on = told not in ("< torn", "< gone")
        return told


class TiedTerminal:
    """The program of a scenario's terminal, and beside it the model's terminal, which gets the same lines and has to say the same.
    `said` is what they say first."""

    def __init__(self, lines, settings):
        self.lines, self.beside = lines, TerminalAtLines(settings)
        self.said = self.same("its document", lines.hear(), self.beside.said)

    def ask(self, line):
        """What they say to a line."""
        self.lines.say(line)
        return self.same(line, self.lines.hear_ask(), self.beside.answer(line))

    def same(self, line, told, wanted):
        """What the program says, which the model has to say too."""
        if told != wanted:
            raise Fault(f"to {line} the terminal says {told!r}, and the model {wanted!r}")
        return told


class Memory:
    """A terminal's memory of what it captures, as the model has it; it is torn where the lane is durable, at these places."""

    def __init__(self, settings):
        self.store = Store(stored([])) if settings["durable"] else None
        self.tears = [purchase["terminal_tear"] for purchase in settings["purchase"]]

    def stands(self, change):
        """Whether the power isn't lost in what is done with the store, where there is one."""
        try:
            if self.store:
                change(self.store)
        except Lost:
            return False
        return True

    def opens(self, number):
        """Opens it for a purchase, counted from 1; False where the power is lost."""
        return self.stands(lambda store: store.open(self.tears[number - 1]))

    def keeps(self, message):
        """Keeps what a purchase captured, if it did; False where the power is lost."""
        return not message or self.stands(lambda store: store.commit(stored([*messages_in(store.state), message])))

    def has(self, message, number):
        """Whether this message is found where the power was lost in a purchase, counted from 1: at the first opening that isn't cut."""
        store = deepcopy(self.store)
        for tear in [*self.tears[number:], None]:
            try:
                store.open(tear)
                break
            except Lost:
                pass
        return message in messages_in(store.state)


class Tied:
    """The three programs of a scenario with one lane. `report` has the lines so far."""

    def __init__(self, scenario, stack):
        self.lane, self.copies, self.report = scenario["lane"][0], scenario.get("copies", 1), []
        self.mark = "iso > " if self.lane.get("dialect") == "iso" else "> "
        cards = card_document(scenario)
        self.cards = {card["name"]: TiedCard(scenario, card, self.started(stack, "card_at_reader", [card["name"]], cards))
                      for card in scenario["card"]}
        self.applications = {card["name"]: [row["name"] for row in card.get("app", [])] for card in scenario["card"]}
        self.host = self.started(stack, "host_at_lines", [], host_document(scenario))
        lines = self.started(stack, "terminal_at_reader", [], terminal_document(scenario, 0, keep=["dialect"]))
        settings = scenario_of(document(scenario), "replay")["lane"][0]
        self.terminal, self.memory = TiedTerminal(lines, settings), Memory(settings)

    def started(self, stack, name, words, text):
        """The lines of a program on its document; it is ended with the stack."""
        process, lines = begin(name, words, text)
        stack.callback(end, process)
        return lines

    def put(self, line):
        """Adds a line to the report."""
        self.report.append(line)

    def sent(self, message):
        """The host's reply to a message, as `< H`."""
        return self.host.ask(self.mark + message)

    def delivered(self, link, message):
        """What comes back of a message over a link, as `< H`, or `< none`."""
        replies = [self.sent(message) for _ in range({"request_lost": 0, "twice": 2}.get(link, 1))]
        return replies[0] if replies and link != "reply_lost" else "< none"

    def asked(self, line, card, link):
        """What a line of the terminal is answered; the exchange joins the report."""
        if line.startswith("host > "):
            reply = self.delivered(link, line[7:])
            self.report += [f"L0 {line}", f"L0 host {reply}"]
            return f"host {reply}"
        if not line.startswith("> "):
            raise Fault(f"the terminal says {line!r}")
        if not card.is_on:
            return "< gone"
        answer = card.answer(line[2:])
        self.report += [f"L0 {line}", f"L0 {answer}"]
        return answer if card.is_on else "< gone"

    def pay(self, number, purchase, line):
        """A purchase, whose first ask this line is; its end line."""
        if not self.memory.opens(number):
            return self.lost("lost")
        card = self.cards[purchase["card"]]
        self.put(f"L0 power {card.name} {card.power(purchase.get('tear'))}")
        while not line.startswith("end "):
            self.terminal.ask("why")
            line = self.terminal.ask(self.asked(line, card, purchase.get("link", "ok")))
        self.terminal.ask("why")
        message = self.terminal.beside.terminal.capture
        if self.memory.keeps(message):
            return line[4:]
        return self.lost("lost captured" if self.memory.has(message, number) else "lost")

    def lost(self, line):
        """Tells the terminal by this line that it has lost its power."""
        if (told := self.terminal.ask(line)) != line:
            raise Fault(f"to {line} the terminal says {told!r}")
        self.terminal.ask("why")
        return "lost"

    def settle(self):
        """The settlement: each message is sent so often, and the terminal gets the first reply."""
        line, count = self.terminal.ask("settle"), 0
        while line.startswith("settle > "):
            self.terminal.ask("why")
            replies = [self.sent(line[9:]) for _ in range(self.copies)]
            for reply in replies:
                self.report += [f"S0 > {line[9:]}", f"S0 {reply}"]
            line, count = self.terminal.ask(f"settle {replies[0]}"), count + 1
        if line != f"settled {count}":
            raise Fault(f"behind {count} messages the terminal says {line!r}")

    def audit(self):
        """The audit of each card with applications, in the scenario's order."""
        for name, applications in self.applications.items():
            card = self.cards[name]
            if card.is_canned:
                continue
            self.put(f"A {name} power {card.power()}")
            for application in applications:
                select = f"00a40400{len(application) // 2:02x}{application.lower()}00"
                for command in (select, "80ca9f3600", "80ca9f1300"):
                    self.report += [f"A {name} > {command}", f"A {name} {card.answer(command)}"]

    def balances(self):
        """The balances of all accounts."""
        count = int(self.host.ask("accounts").removeprefix("accounts "))
        self.report += [self.host.hear() for _ in range(count)]

    def run(self):
        """The whole report."""
        purchases = self.lane["purchase"]
        line = self.terminal.said
        for number, purchase in enumerate(purchases, 1):
            self.put(f"L0 end {number} {self.pay(number, purchase, line)}")
            line = self.terminal.ask("next")
        if line != "?":
            raise Fault(f"behind its last purchase the terminal says {line!r} to `next`")
        self.settle()
        self.audit()
        self.balances()
        self.put(f"done {len(purchases)}")
        return self.report


def tied_report(scenario):
    """The lines of the report that the three programs of a scenario make."""
    with ExitStack() as stack:
        return Tied(scenario, stack).run()
