"""`lab page`: a report or a log as one page to print."""
import re
import sys
from pathlib import Path

from yollenka.explaining import words_handed_on
from yollenka.faults import Fault
from yollenka.lab import PASSED
from yollenka.lab.judge import results_of, text_of, told_facts
from yollenka.lab.logs import read_log
from yollenka.lab.oracle import rows_of
from yollenka.lab.pages import Section, of_purchase, of_report, page_of

TEXT = """\
A report or a log as one page of HTML on standard output: who says what to whom, each line with its words, the bits of the
results, losses and pulls. With --lane each purchase is judged as `lab judge` does, and what is wrong stands at its place.
The page has no script and loads nothing; a browser prints it.

  ./lab page examples/pulled-in-pin-check.report > page.html"""
# How a report begins.
REPORT = re.compile(r"\s*(?:L\d+ (?:power|end|host|[<>]) |refused \d|balance \d|done \d|read terminated)")


def judged(options, text):
    """The results of a log's purchases."""
    try:
        purchases = read_log(text)
    except Fault as fault:
        raise Fault(f"{options.log}: {fault}") from None
    return list(results_of(options.log, told_facts(options.lane), purchases))


def codes_of(path, results):
    """The words that hand what is known of terminals and cards on to `explain`: a scenario's, or else those of the first purchase's lane."""
    return words_handed_on(Path(path).read_bytes()) or (list(rows_of(results[0].verdict.lane)) if results else [])


def report_sections(options, text):
    """The sections of a report, with the verdicts on its purchases where the terminal is known."""
    if not options.lane:
        return of_report(text)
    results = judged(options, text)
    sections = of_report(text, codes_of(options.lane, results))
    by_title = {section.title: section for section in sections}
    for one in results:
        title = f"Lane {one.purchase.lane}, purchase {one.purchase.number}"
        by_title.get(title, Section(title)).judged(one.verdict)
    return sections


def log_sections(options, text):
    """The sections of another log's purchases, each judged."""
    return [of_purchase(f"Purchase {number}", one.purchase, one.verdict) for number, one in enumerate(judged(options, text), 1)]


def arguments(parser):
    """The command's words."""
    parser.add_argument("log", metavar="LOG", help="a report, or a log of any form that `lab judge` reads")
    parser.add_argument("--lane", metavar="T.toml", help="what is known of the terminal, as for `lab judge`")


def run(options):
    """Writes the page."""
    text = text_of(options.log)
    sections = report_sections(options, text) if REPORT.match(text) else log_sections(options, text)
    sys.stdout.write(page_of("log" if options.log == "-" else Path(options.log).name, sections))
    return PASSED
