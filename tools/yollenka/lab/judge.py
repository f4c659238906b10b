"""`lab judge`: verdicts on terminals of other makes, by logs of what they said to cards and to the issuer."""
import sys
import time
from dataclasses import replace
from pathlib import Path

from yollenka.faults import Fault
from yollenka.lab.facts import ROW_KEYS, Facts, facts_of, facts_of_scenario
from yollenka.lab.logs import read_log
from yollenka.lab.told import Result, junit, status_of, tap_lines
from yollenka.lab.walk import judge
from yollenka.scenarios import pair, read_document
from yollenka.schema import faults, read_schema

TEXT = """\
A verdict on each purchase of each log: `ok`, or `not ok` with what should have been sent, or inconclusive.

LOG is a trace, a report, or what a logger or a card client wrote; docs/use/lab.md lists the forms. What isn't known of the
terminal may be left out: it is taken from the log, and the verdict is inconclusive where it would depend on a guess."""
LANE_KEYS = ("kind", "country", "caps", "id")
NAMELESS = "name is missing"


def arguments(parser):
    """The words of `lab judge`."""
    parser.add_argument("log", nargs="+", metavar="LOG", help="a log; - is standard input")
    parser.add_argument("--lane", metavar="T.toml", help="what is known of the terminal: a lane's keys, a scenario, or a trace")
    parser.add_argument("--all", action="store_true", help="shows each difference behind a fault too")
    parser.add_argument("--junit", metavar="F", help="writes the results as JUnit XML to this file")
    parser.add_argument("--html", metavar="F", help="writes a page to print to this file")


# What is given.

def text_of(path):
    """A log's text."""
    try:
        data = sys.stdin.buffer.read() if path == "-" else Path(path).read_bytes()
    except OSError as error:
        raise Fault(f"{path}: {error.strerror}") from None
    return data.decode("utf-16" if data[:2] in (b"\xff\xfe", b"\xfe\xff") else "utf-8-sig", errors="replace")


def place_text(place):
    """A place in a document, as refusals have it."""
    return "".join(f"[{step}]" if isinstance(step, int) else f".{step}" for step in place).lstrip(".")


def check(path, lane):
    """Looks at a lane's keys by the schema; what lacks is no fault, but for the name of a row."""
    root = read_schema()
    for place, text in faults(root["$defs"]["lane"], lane, (), root):
        if (text == NAMELESS or not text.endswith(" is missing")) and not (place == ("aid",) and lane.get("aid") == []):
            raise Fault(f"{path}: {place_text(place) or 'the lane'}: {text}")


def of_scenario(path, scenario, purchase):
    """The facts of a purchase of a log by a scenario: a report names lane and number, else the first one counts."""
    lane, number = purchase.lane or 0, purchase.number or 1
    try:
        check(path, scenario["lane"][lane])
        return facts_of_scenario(scenario, lane, number)
    except (IndexError, KeyError, TypeError):
        raise Fault(f"{path} has no purchase {number} of lane {lane}") from None


def told_facts(path):
    """What gives the facts of a purchase of a log, from the file behind --lane."""
    if path is None:
        return lambda purchase: of_trace(purchase)
    told = read_document(path)
    if isinstance(told.get("lane"), list):
        return lambda purchase: of_scenario(path, told, purchase)
    own = {key: value for key, value in told.items() if key not in ("pin_key", "trace")}
    lane = own["lane"] if isinstance(own.get("lane"), dict) else own
    check(path, lane)
    return lambda purchase: facts_of(lane, None, told.get("pin_key"))


def of_trace(purchase):
    """The facts that a trace has itself; none of another log."""
    own = purchase.document or {}
    if not isinstance(own.get("lane"), dict):
        return Facts()
    check("the trace", own["lane"])
    return facts_of(own["lane"], None, own.get("pin_key"))


# What is made of it.

def purchases_of(path):
    """The purchases of a log."""
    text = text_of(path)
    try:
        return read_log(text)
    except Fault as fault:
        raise Fault(f"{path}: {fault}") from None


def results_of(path, facts, purchases=None):
    """The results of a log's purchases, which are read where they aren't given. An approval counts in the later purchases of its
    lane."""
    purchases, paid = purchases_of(path) if purchases is None else purchases, {}
    for number, purchase in enumerate(purchases, 1):
        begin, before = time.monotonic(), paid.setdefault(purchase.lane, [])
        verdict = judge(purchase, replace(facts(purchase), paid=before))
        before += [verdict.paid] if verdict.paid else []
        name = "log" if path == "-" else Path(path).stem
        yield Result(name if len(purchases) == 1 else f"{name} {number}", verdict, time.monotonic() - begin, purchase)


def to_complete(verdict):
    """The lane of a verdict as a document to complete: what was guessed is marked."""
    lane, lacking = verdict.lane, verdict.lacking
    for key in LANE_KEYS:
        yield f"{pair(key, lane[key])}{'  # guessed' if key in lacking else ''}"
    for at, row in enumerate(lane["aid"]):
        yield "[[aid]]"
        for key in (key for key in ROW_KEYS if key in row):
            yield f"{pair(key, row[key])}{'  # guessed' if {'aid', f'aid[{at}].{key}'} & {*lacking} else ''}"


def write(path, text):
    """Writes a file."""
    try:
        Path(path).write_text(text)
    except OSError as error:
        raise Fault(f"{path}: {error.strerror}") from None


def page_of(results):
    """A page to print of all results. What draws it is read only here, so that a verdict alone begins at once."""
    try:
        from yollenka.lab.pages import cases_page
    except ImportError:
        raise Fault("--html: there is nothing here that draws pages") from None
    return cases_page("lab judge", results, True)


def run(options):
    """Judges the logs; gives the status."""
    facts, results = told_facts(options.lane), []
    logs = [(path, purchases_of(path)) for path in options.log]
    print("TAP version 13")
    for path, purchases in logs:
        for result in results_of(path, facts, purchases):
            results.append(result)
            print("\n".join(tap_lines(len(results), result, options.all)), flush=True)
    print(f"1..{len(results)}")
    guessed = next((one.verdict for one in results if one.verdict.lacking), None)
    if guessed:
        print("# a T.toml to complete, for --lane:")
        print("\n".join(f"#   {line}" for line in to_complete(guessed)))
    if options.junit:
        write(options.junit, "\n".join(junit(results, "lab judge")) + "\n")
    if options.html:
        write(options.html, page_of(results))
    return status_of(results)
