"""The part of checks/tears that pulls out a terminal: a lane that keeps its captures on torn memory.

- The store is empty: two purchases offline; the first one's terminal loses its power at each place of the opening or of the
  capture that is added, the second one's nowhere or at each place of the opening behind it.
- With the card: a purchase online, with its card pulled out at each place of each of its decisions, and its terminal at each
  place of the capture that is added, an approval or a reversal; then a second one.
- The store is full: seven purchases whose captures are stored and which are lost behind it; the eighth one's terminal loses its
  power at each place of the opening, of the drop behind the delivery and of the capture that is added, the ninth one's nowhere or
  at some places of the opening behind it.

Of each report, by its lines alone, and of the store's pages at the end where the program tells them:
- what is captured in a purchase with an outcome is delivered, each copy, in the order of the purchases; that of a lost one too, or
  not at all: never where the power went before the first write, always where it went behind the last one;
- a message that is delivered once more is, because the power went as it was to be dropped;
- the account has paid for what was delivered, and has held what no one told it to set free, each counter once;
- a purchase is lost exactly where its terminal's power went, and the store's pages end with an empty list.
"""
import re
from dataclasses import dataclass
from itertools import groupby, product

# The most writes of a commit of a store with one short message, of one that drops from a full store, and of one that adds a
# seventh: the journal's pages, their header, the gate, as many pages of the home, and the gate.
ONE, DROP, SEVENTH = 7, 25, 9
COPIES = 2
OPENING = 100_000
STORED = 7
# The page of the bank on which the store of the first lane stands, and the state of an empty list behind its length.
PLACE, EMPTY = 63, "00020100"
PRESENTMENT, REVERSAL = "e3", "e4"


def places(writes):
    """Each place of a commit of so many writes."""
    return [
        *(f'at = "{at}", write = {write}' for at in ("before", "within") for write in range(1, writes + 1)),
        'at = "release"',
    ]


@dataclass(frozen=True)
class Planned:
    """A purchase: its amount, and where its card and its terminal are pulled out."""

    amount: int
    tear: str | None = None
    terminal_tear: str | None = None

    def text(self):
        tears = [("tear", self.tear), ("terminal_tear", self.terminal_tear)]
        return "\n".join([
            "[[lane.purchase]]", 'card = "c1"', f"amount = {self.amount}", 'currency = "840"', 'date = "240615"', 'time = "120000"',
            "number = 16909060", "word = 49", 'pins = ["1234"]', *(f"{key} = {{ {tear} }}" for key, tear in tears if tear),
        ]) + "\n\n"


def document(base, online, planned):
    """These purchases at a terminal that keeps its captures, from a scenario that approves one offline."""
    head = base[: base.index("[[lane.purchase]]")]
    limits = {"count_limit": 0 if online else 20, "sum_limit": 20_000}
    for key, limit in limits.items():
        head, count = re.subn(rf"{key} = \d+", f"{key} = {limit}", head)
        assert count == 1
    head = head.replace("[[lane.aid]]", "durable = true\n\n[[lane.aid]]", 1)
    return f"copies = {COPIES}\n" + head + "".join(purchase.text() for purchase in planned)


def empty_store():
    """Two purchases offline."""
    firsts = [f"commit = {commit}, {place}" for commit in (0, 1) for place in places(ONE)]
    seconds = [None, *(f"commit = 0, {place}" for place in places(ONE))]
    return ((False, (Planned(2_500, None, first), Planned(1_100, None, second))) for first, second in product(firsts, seconds))


def with_the_card(card_writes):
    """A purchase online, with the card pulled out too, and a second one."""
    cards = [f"commit = {commit}, {place}" for commit in range(1, 6) for place in places(card_writes)]
    terminals = [None, *(f"commit = 1, {place}" for place in places(ONE))]
    return ((True, (Planned(2_500, card, terminal), Planned(1_100))) for card, terminal in product(cards, terminals))


def full_store():
    """Seven captures that are stored, and two purchases behind them."""
    stored = tuple(Planned(1_001 + number, None, 'commit = 1, at = "release"') for number in range(STORED))
    eighths = ['commit = 0, at = "before", write = 1']
    eighths += [f"commit = 1, {place}" for place in places(DROP)] + [f"commit = 2, {place}" for place in places(SEVENTH)]
    ninths = [None, *(f"commit = 0, {place}" for place in places(DROP)[::12])]
    return ((False, (*stored, Planned(2_500, None, eighth), Planned(1_100, None, ninth))) for eighth, ninth in product(eighths, ninths))


@dataclass
class Told:
    """What a report tells of a purchase."""

    outcome: str | None = None
    # a request came to the host, and was granted
    asked: bool = False

    def capture(self):
        """The kind of message that is captured in it, if one is; of a lost one nobody is told."""
        if self.outcome == "approved":
            return PRESENTMENT
        return REVERSAL if self.asked else None


def read(report, planned):
    """What a report tells of the purchases, and the messages that are delivered: kinds with the purchase's index."""
    amounts = {f"9f0206{purchase.amount:012d}": index for index, purchase in enumerate(planned)}
    told, sent, number = [Told() for _ in planned], [], 0
    for line in report.splitlines():
        words = line.split()
        if words[:2] == ["L0", "host"] and words[2] == ">":
            told[number].asked = True
        elif words[:2] == ["L0", "end"]:
            told[number].outcome = words[3]
            number += 1
        elif words[:2] == ["S0", ">"]:
            sent.append((words[2][:2], next(index for amount, index in amounts.items() if amount in words[2])))
    return told, sent


def place_of(tear):
    """Whether the power went before the first write, behind the last one, or anywhere."""
    if 'at = "release"' in tear:
        return "behind"
    return "before" if tear.endswith('at = "before", write = 1') else "anywhere"


def wrong_sendings(planned, told, sent):
    """What is wrong in what was delivered."""
    runs = [(index, kind, len(list(copies))) for (kind, index), copies in groupby(sent)]
    if [index for index, _, _ in runs] != sorted({index for index, _, _ in runs}):
        yield f"delivered out of order: {runs}"
    # whose drop may have been lost: a later purchase was, as its store was full
    again = any(one.outcome == "lost" for one in told[STORED:])
    for index, kind, count in runs:
        if count != COPIES and not (count == 2 * COPIES and index == 0 and again):
            yield f"purchase {index + 1} delivered {count} times"
        if told[index].outcome != "lost" and told[index].capture() != kind:
            yield f"purchase {index + 1} delivered as {kind}"
    delivered = {index for index, _, _ in runs}
    for index, (purchase, one) in enumerate(zip(planned, told)):
        if one.outcome != "lost":
            if one.capture() and index not in delivered:
                yield f"purchase {index + 1} not delivered"
            continue
        tear = purchase.terminal_tear or "none"
        adds = tear.startswith("commit = 2" if index == STORED else "commit = 1")
        never = not adds or place_of(tear) == "before"
        if never and index in delivered or adds and place_of(tear) == "behind" and index not in delivered:
            yield f"purchase {index + 1} lost at {tear}: delivered {index in delivered}"


def wrong_losses(planned, told):
    """Which purchase is lost and shouldn't be, or the other way round."""
    for index, (purchase, one) in enumerate(zip(planned, told)):
        tear = purchase.terminal_tear
        if one.outcome == "lost" and tear is None:
            yield f"purchase {index + 1} lost without a plan"
        reached = tear is not None and (one.capture() is not None or tear.startswith("commit = 0"))
        if one.outcome != "lost" and reached:
            yield f"purchase {index + 1} not lost at {tear}"


def balance_of(planned, told, sent):
    """What the account has at the end: it has paid what was presented, and holds what was granted and not set free."""
    left = OPENING
    for index, (purchase, one) in enumerate(zip(planned, told)):
        presented, reversed_ = (PRESENTMENT, index) in sent, (REVERSAL, index) in sent
        if presented or one.asked and not reversed_:
            left -= purchase.amount
    return left


def faults(report, planned):
    """What of a report is against the promises of the store."""
    told, sent = read(report, planned)
    yield from wrong_losses(planned, told)
    yield from wrong_sendings(planned, told, sent)
    balance = int(next(line.split()[2] for line in report.splitlines() if line.startswith("balance ")))
    if balance != balance_of(planned, told, sent):
        yield f"balance {balance}, not {balance_of(planned, told, sent)}"


def store_fault(pages):
    """What is wrong with the store's pages, by the lines that replay_probe writes of the bank."""
    home = next((line.split()[3] for line in pages.splitlines() if line.startswith(f"card {PLACE} home ")), "")
    if not home.startswith(EMPTY):
        yield f"the store's pages begin with {home[:12] or 'nothing'}"


def scenarios(base, card_writes):
    """Each scenario of a lane with a store: its document and its purchases."""
    for part in (empty_store(), with_the_card(card_writes), full_store()):
        for online, planned in part:
            yield document(base, online, planned), planned
