"""`lab trace`: the trace of one purchase, as `emvrun check` reads it."""
from yollenka.commandline import a_file, counted, positive
from yollenka.faults import Fault
from yollenka.scenarios import pair, read_document, toml

TEXT = """\
The trace of one purchase, as `emvrun check` reads it.

SCENARIO is a scenario's document and REPORT what `emvrun replay` printed of it. The trace goes to standard output: the
lane's terminal with this one purchase, and its lines in the report as entries. A purchase of which the report has not every
byte that was said has no trace: one whose card was pulled out at its power-up, one whose terminal lost its power, and one
of a lane whose messages go in another dialect.
"""

# what acts on the card, on the link to the host or on the terminal's memory, and not on the terminal's dialogue
LANE_LEFT_OUT = ("aid", "purchase", "dialect", "durable")
PURCHASE_LEFT_OUT = ("link", "tear", "terminal_tear")


def entry(words):
    """The entry of a lane's line, without the lane; a card that was pulled out is gone to the terminal."""
    if words == ["<", "torn"]:
        return "< gone"
    if words[0] == "end":
        return " ".join(["end", *words[2:]])
    return " ".join(words)


def entries(lines, lane, purchase):
    """The entries of the lane's purchase, from behind its power-up to its end."""
    found, number = [], 1
    for line in lines:
        words = line.split(" ")
        if words[0] != f"L{lane}" or len(words) < 2:
            continue
        if words[1] == "power":
            if number == purchase and words[-1] == "torn":
                raise Fault("its card was pulled out at its power-up: what the terminal sent then is not in the report")
            continue
        if number == purchase and words[-1] == "lost":
            raise Fault("its terminal lost its power: the report doesn't tell how it ended")
        if number == purchase:
            found.append(entry(words[1:]))
        if words[1] == "end":
            if number == purchase:
                return found
            number += 1
    raise Fault(f"the report has no purchase {purchase} of lane {lane}")


def table(head, keys, left_out=()):
    """The lines of a table, without these keys."""
    return [head, *(pair(*one) for one in keys.items() if one[0] not in left_out), ""]


def arguments(parser):
    """The words of this command."""
    parser.add_argument("scenario", type=a_file, metavar="SCENARIO")
    parser.add_argument("report", type=a_file, metavar="REPORT")
    parser.add_argument("lane", nargs="?", type=counted, default=0, metavar="LANE", help="from 0, which is taken without it")
    parser.add_argument("purchase", nargs="?", type=positive, default=1, metavar="PURCHASE", help="from 1, which is taken without it")


def lines_of(report):
    """The lines of a report."""
    try:
        with open(report, encoding="utf-8", newline="") as file:
            return file.read().split("\n")
    except UnicodeDecodeError:
        raise Fault("a response code in the report is no text: no document can hold it") from None


def terminal_of(scenario, options):
    """The lane's terminal in a scenario that the program may refuse: then that is said."""
    try:
        terminal, _ = scenario["lane"][options.lane], scenario["issuer"]["pin_key"]
        tables = [terminal, terminal["purchase"][options.purchase - 1], *terminal["aid"]]
        is_one = all(isinstance(one, dict) for one in tables)
    except (LookupError, TypeError, AttributeError):
        is_one = False
    if not is_one:
        raise Fault(f"{options.scenario} has no purchase {options.purchase} of lane {options.lane}, or is no scenario")
    if terminal.get("dialect", "tlv") != "tlv":
        raise Fault("the messages of this lane go in another dialect than a trace's")
    return terminal


def run(options):
    """Prints the trace."""
    scenario, lines = read_document(options.scenario), lines_of(options.report)
    terminal = terminal_of(scenario, options)
    document = [pair("pin_key", scenario["issuer"]["pin_key"]), "trace = ["]
    document += [*(f"    {toml(text)}," for text in entries(lines, options.lane, options.purchase)), "]", ""]
    document += table("[lane]", terminal, LANE_LEFT_OUT)
    for aid in terminal["aid"]:
        document += table("[[lane.aid]]", aid)
    document += table("[[lane.purchase]]", terminal["purchase"][options.purchase - 1], PURCHASE_LEFT_OUT)
    print("\n".join(document[:-1]))
    return 0
