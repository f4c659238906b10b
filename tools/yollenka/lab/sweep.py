"""`lab sweep`: pulls the card out at every place of one purchase."""
import csv
import os
import re
import sys
import time
from collections import namedtuple
from concurrent.futures import ThreadPoolExecutor
from itertools import count

from yollenka.commandline import a_file, counted, positive
from yollenka.faults import Fault
from yollenka.lab.hidden import hidden
from yollenka.lab.ways import KEYS, is_torn_elsewhere, ways_of
from yollenka.launching import LONG
from yollenka.programs import Builder, say
from yollenka.scenarios import document, output, purchase_lines, read_document

TEXT = """\
Pulls the card out at every place of one purchase, and tabulates what came of it.

The scenario is run once without the purchase's own tears, then with
a tear for commit 0, 1, 2 .. at the release, and before and within the writes 1 to 40, until a commit above 0 isn't
reached; in a lane that keeps its captures durably then likewise with tears of its terminal. Where a torn write leaves it to
the memory which state is found, both are tried: the run is made once more behind an idle power-up, which turns that round.
Places of one commit with equal results are one row:

whose        who lost its power
commit       the decision of the card since its power-up, 0 for the power-up itself; the terminal's since its store's opening
command      the last command before, or power-up; of a terminal what its store did: opening, drop or capture
pulled out   the places; 4- is 4 to 40, of which those above the commit's writes are at the release
ends         how the purchase ended
next power-up  the counters that the card's next whole power-up tells, in the purchases or in the audit
memory       either: the memory decides, and both results stand in the columns that differ, as A | B
hidden       what this purchase left in the card beside its counters: PIN new, limit 3>1, sum limit 9000>20000, log +1, card
             blocked; ? where the program's report isn't that of the model of the rules, from which this column is
settlement   the lane's presentments and reversals
balances     of all accounts, in their order

Where all these columns are as above, and only later lines of the report are others, hidden says "later 2", "later 3".
The status is 1 where the program refuses the scenario.
"""
COLUMNS = (
    "whose", "commit", "command", "pulled out", "ends", "next power-up", "memory", "hidden", "settlement", "balances")
COMMANDS = {
    "00a4": "SELECT", "80a8": "GET PROCESSING OPTIONS", "00b2": "READ RECORD", "0020": "VERIFY", "80ca": "GET DATA",
    "80ae": "GENERATE AC", "0082": "EXTERNAL AUTHENTICATE",
}
# Settlement messages by how they begin, as one object and in the style of ISO 8583.
PRESENTMENT, REVERSAL = "presentment", "reversal"
SENT = {"e3": PRESENTMENT, "e4": REVERSAL, "30323230": PRESENTMENT, "30343030": REVERSAL}
WRITES = 40
RELEASE = {"at": "release"}
# In the order in which they come.
PLACES = [{"at": at, "write": write} for write in range(1, WRITES + 1) for at in ("before", "within")] + [RELEASE]


class Refused(Exception):
    """The program doesn't run the scenario."""


def command_of(lines):
    """The last command before the card lost its power, by these lines of the purchase; None where it didn't."""
    command = "power-up"
    for line in lines:
        words = line.split()
        if words[1] == ">":
            command = COMMANDS.get(words[2][:4], "script command")
        if words[-1] == "torn":
            return command
    return None


def store_call_of(lines, commit):
    """What the terminal's store did as the power was lost, by these lines of the purchase; None where it wasn't."""
    if not lines[-1].endswith(" lost"):
        return None
    if commit == 0:
        return "opening"
    return "capture" if len(lines) > 1 else "drop"


def next_counters(rest, card):
    """The counters in the first whole power line of the card among these lines."""
    for line in rest:
        words = line.split()
        if words[0] == "A":
            words = [words[0], words[2], words[1], *words[3:]]
        if words[1:3] == ["power", card] and words[3] != "torn":
            return " ".join(words[3:])
    return "-"


def sent_as(message):
    """Which settlement message these bytes in hexadecimal are."""
    return next((name for begin, name in SENT.items() if message.startswith(begin)), None)


def lane_of(line):
    """The lane that a line is of, or None."""
    found = re.match(r"[LS](\d+) ", line)
    return int(found[1]) if found else None


def show(text):
    """How far it is, where somebody looks."""
    if sys.stderr.isatty():
        print(text, end="", file=sys.stderr, flush=True)


# What came of a run: the command or call that was cut, or None, and the columns; `later` is the lines behind the purchase's end.
Outcome = namedtuple("Outcome", "cut ends counters hidden settled balances later")


class Sweep:
    """The runs of one scenario with one purchase torn."""

    def __init__(self, program, scenario, lane, number, tell):
        self.program, self.lane, self.tell, self.places, self.runs = program, lane, tell, PLACES, 0
        self.hidden = hidden
        self.card = scenario["lane"][lane]["purchase"][number - 1]["card"]
        self.is_durable = scenario["lane"][lane].get("durable", False)
        self.ways, self.number = ways_of(scenario, lane, number), number
        self.lanes = {at for at, one in enumerate(scenario["lane"]) if at == lane or self.is_of(one)}
        self.is_torn_elsewhere = is_torn_elsewhere(scenario, lane, number)

    def is_of(self, lane):
        """Whether a lane uses the card too."""
        return any(purchase["card"] == self.card for purchase in lane["purchase"])

    def report(self, text):
        """The program's report on a document."""
        report, status = output(self.program, "replay", text)
        if status != 0:
            raise Refused(report.strip() or f"the program ends with status {status}")
        return report

    def outcome(self, job):
        """What came of a way with this tear of the card or the terminal, or with none."""
        way, whose, tear = job
        text = document(way.torn({KEYS[whose]: tear} if tear else {}))
        report = self.report(text)
        lines, later = purchase_lines("\n".join(way.lines(report)), self.lane, self.number)
        sent = [sent_as(line.split()[2]) for line in later if line.startswith(f"S{self.lane} > ")]
        return Outcome(
            cut=command_of(lines) if whose == "card" else store_call_of(lines, tear["commit"]),
            ends=lines[-1].split(" ", 3)[3].split(" tvr=")[0],
            counters=next_counters(later, self.card),
            hidden=self.hidden(text, report, self.lane, way.number),
            settled=f"{sent.count(PRESENTMENT)} presented, {sent.count(REVERSAL)} reversed",
            balances=" ".join(line.split()[2] for line in later if line.startswith("balance ")),
            later="\n".join(line for line in later if lane_of(line) in (None, *self.lanes)),
        )

    def ways_of(self, tear):
        """The ways that can differ: where no cell is unsure, how often the memory was turned on changes nothing."""
        return self.ways if self.is_torn_elsewhere or tear and tear["at"] == "within" else self.ways[:1]

    def outcomes(self, whose, tears, run=map):
        """What may come of each of these tears, each outcome once."""
        jobs = [(number, (way, whose, tear)) for number, tear in enumerate(tears) for way in self.ways_of(tear)]
        self.runs += len(jobs)
        found = [set() for _ in tears]
        for (number, _), outcome in zip(jobs, run(self.outcome, [job for _, job in jobs])):
            found[number].add(outcome)
        return found

    def commits(self):
        """The commits that are reached, each with what comes of a tear at its release."""
        for whose in KEYS if self.is_durable else ["card"]:
            for commit in count():
                show(f"\r{whose}, commit {commit}, {self.runs} runs")
                last = self.outcomes(whose, [{"commit": commit, **RELEASE}])
                if commit > 0 and all(outcome.cut is None for outcome in last[0]):
                    break
                yield whose, commit, last

    def parts(self, whose, commit, last, pool):
        """The places of a commit, those with equal outcomes together, and the outcomes in their order."""
        show(f"\r{whose}, commit {commit}, {self.runs} runs")
        results = [*self.outcomes(whose, [{"commit": commit, **place} for place in self.places[:-1]], pool.map), *last]
        if commit == 0 and self.is_torn_elsewhere:
            # Before and within a power-up's first write the pages are as an earlier tear left them: both go the same ways.
            results[0] = results[1] = results[0] | results[1]
        same = {}
        for place, result in zip(self.places, results):
            same.setdefault(frozenset(result), []).append(place)
        sure = [outcome for result in same if len(result) == 1 for outcome in result]
        for result, places in same.items():
            yield places, in_order(result, sure)

    def tell_time(self, seconds):
        """Says how long the runs that are left take, where that is long."""
        if seconds > LONG:
            show("\r\033[K")
            self.tell(f"this takes about {seconds:.0f} s more")

    def rows(self, pool):
        """The rows of the table. What the first commit took tells what the others will take."""
        told, rows = Later(), []
        commits = [*self.commits()]
        plain = self.outcomes("card", [None])[0]
        begin = time.monotonic()
        for done, (whose, commit, last) in enumerate(commits):
            rows += [row_of(whose, commit, *part, told) for part in self.parts(whose, commit, last, pool)]
            if done == 0:
                self.tell_time((time.monotonic() - begin) * (len(commits) - 1))
        return [*rows, row_of("-", "-", None, in_order(plain, []), told)]


def in_order(outcomes, sure):
    """Outcomes in the order in which surer places have them, the state before a decision first; others by their texts."""
    return sorted(outcomes, key=lambda one: (sure.index(one) if one in sure else len(sure), natural(one)))


def natural(outcome):
    """An outcome as a key by which numbers in its texts stand in their order."""
    return [[(int(part), "") if part.isdecimal() else (-1, part) for part in re.split(r"(\d+)", text or "")] for text in outcome]


class Later:
    """What tells outcomes apart that differ only in lines behind the purchase's end."""

    def __init__(self):
        self.known = {}

    def mark(self, outcome):
        """What of an outcome is hidden, with the number of its later lines where equal columns had other ones."""
        known = self.known.setdefault((outcome.counters, outcome.hidden, outcome.settled, outcome.balances), {})
        number = known.setdefault(outcome.later, len(known) + 1)
        return outcome.hidden if number == 1 else f"{outcome.hidden}, later {number}"


def row_of(whose, commit, places, outcomes, told):
    """A row: what differs between its outcomes stands side by side."""
    marked = [outcome._replace(cut=outcome.cut or "-", hidden=told.mark(outcome), later="") for outcome in outcomes]
    command, ends, counters, hidden_, settled, balances, _ = (" | ".join(dict.fromkeys(texts)) for texts in zip(*marked))
    memory = "either" if len(outcomes) > 1 else "-"
    place = places_text(places) if places else "not at all"
    whose = whose if any(outcome.cut for outcome in outcomes) else "-"
    return whose, str(commit), command, place, ends, counters, memory, hidden_, settled, balances


def ranges(writes):
    """Rising numbers of writes, with those that follow one another put together."""
    parts = []
    for write in writes:
        if parts and parts[-1][1] == write - 1:
            parts[-1][1] = write
        else:
            parts.append([write, write])
    return ",".join(f"{a}-" if b == WRITES and a < b else f"{a}" if a == b else f"{a}-{b}" for a, b in parts)


def places_text(places):
    """These places in words."""
    parts = []
    for at in ("before", "within"):
        writes = [place["write"] for place in places if place["at"] == at]
        parts += [f"{at} {ranges(writes)}"] if writes else []
    return "; ".join(parts + (["release"] if RELEASE in places else []))


def print_table(rows):
    """The rows, each column as wide as its widest."""
    rows = [COLUMNS, *rows]
    widths = [max(len(row[column]) for row in rows) for column in range(len(COLUMNS))]
    for row in rows:
        print("  ".join(text.ljust(width) for text, width in zip(row, widths)).rstrip())


def arguments(parser):
    """The words of this command."""
    parser.add_argument("scenario", type=a_file, metavar="SCENARIO")
    parser.add_argument("lane", type=counted, metavar="LANE", help="from 0, as in a report")
    parser.add_argument("purchase", type=positive, metavar="PURCHASE", help="from 1, as in a report")
    parser.add_argument("--csv", action="store_true", help="prints the same columns with commas")
    parser.add_argument("-j", type=positive, default=os.cpu_count() or 1, metavar="N", help="runs N at once")


def sweep_of(options):
    """The sweep that the words ask for; stops where the program refuses the scenario, or it has no such purchase."""
    text = options.scenario.read_bytes()
    program, _ = Builder("emvrun", say).program()
    answer, status = output(program, "replay", text)
    if status != 0:
        raise Refused(answer.strip())
    scenario = read_document(options.scenario)
    lanes = scenario["lane"]
    if options.lane >= len(lanes) or options.purchase > len(lanes[options.lane]["purchase"]):
        raise Fault(f"{options.scenario} has no purchase {options.purchase} of lane {options.lane}: "
                    "lanes count from 0, purchases from 1")
    return Sweep(program, scenario, options.lane, options.purchase, say)


def run(options):
    """Makes the runs and prints the table."""
    start = time.monotonic()
    try:
        sweep = sweep_of(options)
        with ThreadPoolExecutor(options.j) as pool:
            rows = sweep.rows(pool)
    except Refused as refused:
        print(refused)
        return 1
    finally:
        show("\r\033[K")
    if options.csv:
        csv.writer(sys.stdout, lineterminator="\n").writerows([COLUMNS, *rows])
        return 0
    print(f"{options.scenario.name}, lane {options.lane}, purchase {options.purchase}: card {sweep.card}, {sweep.runs} runs, "
          f"{time.monotonic() - start:.1f} s")
    print_table(rows)
    return 0
