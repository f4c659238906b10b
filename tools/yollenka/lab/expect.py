"""`lab expect`: compares each scenario of a folder with the report beside it."""
import argparse
import os
import re
import subprocess
import sys
import time
from concurrent.futures import ThreadPoolExecutor
from itertools import zip_longest
from xml.sax.saxutils import escape, quoteattr

from yollenka.builds import kept
from yollenka.commandline import a_folder, a_new_file, positive
from yollenka.faults import Fault
from yollenka.launching import seconds_of, warn
from yollenka.programs import Builder, say
from yollenka.scenarios import SECONDS, output, word_for

TEXT = """\
Compares each scenario of a folder with the report beside it.

A scenario is NAME.toml in the folder or in one within it; beside it stands NAME.report, or NAME.line where it is refused.
The output is that of the Test Anything Protocol (TAP 13): a line for each scenario, and for one that differs the first
differing line, both lines, and the words of `explain` that only one of them has, where that program is built.

The status is 0, or 1 where one differs, 2 for other words.
"""

COUNTERS = ("transaction counter", "last online", "offline approvals", "sum", "PIN tries", "flags", "second sum")


def answer_beside(scenario):
    """What the program is to print, or None."""
    found = next((path for path in (scenario.with_suffix(".report"), scenario.with_suffix(".line")) if path.exists()), None)
    return found.read_text(errors="replace") if found else None


def hex_field(old, new):
    """The first byte in which two texts of hexadecimal digits differ."""
    pairs = enumerate(zip_longest(re.findall("..?", old), re.findall("..?", new)))
    return f"byte {next(number for number, (a, b) in pairs if a != b)}"


def power_field(old, new):
    """The first counter in which two power lines differ, by their words behind the card's name."""
    for number, (one, other) in enumerate(zip_longest(old, new, fillvalue=""), 1):
        counters = zip_longest(COUNTERS, one.split(","), other.split(","))
        name = next((name for name, a, b in counters if a != b), None)
        if name:
            return f"application {number}, {name}"
    return "kind of line"


def end_field(old, new):
    """The first field in which two end lines differ."""
    olds, news = (re.split(r" (?=tvr=|tsi=|cvm=|arc=|atc=|ac=|scripts=)", line) for line in (old, new))
    first = next((a for a, b in zip(olds, news) if a != b), "")
    return first.split("=")[0] if "=" in first else "ending"


def field_of(old, new):
    """What of a line differs; None is a line that isn't there."""
    if old is None or new is None:
        return "one ends here"
    olds, news = old.split(), new.split()
    if "power" in olds[1:3] and olds[:3] == news[:3] and all("," in word for word in olds[3:] + news[3:]):
        return power_field(olds[3:], news[3:])
    if olds[1:2] == ["end"] and olds[:3] == news[:3]:
        return end_field(old, new)
    if olds[:-1] == news[:-1] and re.fullmatch("([0-9a-f]{2})+ ([0-9a-f]{2})+", f"{olds[-1]} {news[-1]}"):
        return hex_field(olds[-1], news[-1])
    return olds[0] if olds[:1] == news[:1] and olds[0] in ("balance", "done") else "kind of line"


def explained(report, number):
    """The words below a line of a report, by its number from 0; none where `explain` isn't built."""
    found = kept("explain")
    if found is None or number >= len(report):
        return []
    said = subprocess.run([found[0]], input="\n".join([*report, ""]), capture_output=True, text=True, errors="replace").stdout.splitlines()
    at = 0
    try:
        for line in report[:number]:
            at = said.index(line, at) + 1
        begin = said.index(report[number], at) + 1
    except ValueError:
        # What stands beside the scenario is no report, and its lines come out otherwise.
        return []
    end = next((i for i in range(begin, len(said)) if not said[i].startswith("  ")), len(said))
    return said[begin:end]


def difference(wanted, report):
    """The first differing line of two reports, as lines for people; none where they are equal."""
    olds, news = wanted.splitlines(), report.splitlines()
    pairs = list(zip_longest(olds, news))
    number = next((number for number, (old, new) in enumerate(pairs) if old != new), None)
    if number is None:
        return [] if wanted == report else ["the ends of lines"]
    old, new = pairs[number]
    said, says = explained(olds, number), explained(news, number)
    lines = [f"line {number + 1}, {field_of(old, new)}"]
    lines += [f"  {mark} {line}" for mark, line in (("-", old), ("+", new)) if line is not None]
    lines += [f"  - {line}" for line in said if line not in says]
    return lines + [f"  + {line}" for line in says if line not in said]


def look_at(program, scenario):
    """What is wrong with the program's report on a scenario, as lines for people, and the seconds that it took."""
    start = time.monotonic()
    wanted = answer_beside(scenario)
    if wanted is None:
        return ["no report beside it"], 0
    try:
        report, status = output(program, word_for(wanted, scenario.read_bytes()), scenario.read_bytes())
    except subprocess.TimeoutExpired:
        return [f"it doesn't end in {SECONDS} seconds"], SECONDS
    wrong = difference(wanted, report)
    if not wrong and status != (1 if wanted.startswith("refused ") else 0):
        wrong = [f"the report is the same, and the status is {status}"]
    return wrong, time.monotonic() - start


def junit(folder, results):
    """The results as JUnit XML."""
    failures = sum(bool(wrong) for _, wrong, _ in results)
    total = sum(seconds for _, _, seconds in results)
    yield '<?xml version="1.0" encoding="UTF-8"?>'
    yield f'<testsuite name={quoteattr(str(folder))} tests="{len(results)}" failures="{failures}" time="{total:.3f}">'
    for scenario, wrong, seconds in results:
        case = f'  <testcase classname={quoteattr(str(scenario.parent))} name={quoteattr(scenario.name)} time="{seconds:.3f}"'
        if wrong:
            text = escape("\n".join(wrong[1:]))
            yield f"{case}><failure message={quoteattr(wrong[0])}>{text}</failure></testcase>"
        else:
            yield f"{case}/>"
    yield "</testsuite>"


def shard(text):
    """Which part of how many."""
    found = re.fullmatch(r"([1-9]\d*)/([1-9]\d*)", text)
    if not found or int(found[1]) > int(found[2]):
        raise argparse.ArgumentTypeError("I/N, with I from 1 to N")
    return int(found[1]), int(found[2])


def print_result(number, scenario, wrong):
    """The lines of one scenario."""
    print(f"{'not ok' if wrong else 'ok'} {number} - {scenario}")
    for line in wrong:
        print(f"# {line}")
    sys.stdout.flush()


def arguments(parser):
    """The words of this command."""
    parser.add_argument("folder", type=a_folder, metavar="FOLDER")
    parser.add_argument("--junit", type=a_new_file, metavar="FILE", help="writes the results as JUnit XML besides")
    parser.add_argument("-j", type=positive, default=os.cpu_count() or 1, metavar="N", help="runs N scenarios at once")
    parser.add_argument("--shard", type=shard, default=(1, 1), metavar="I/N",
                        help="takes every N-th scenario alone, beginning with the I-th, so that N machines share a folder")


def run(options):
    """Runs the scenarios and prints a line for each."""
    part, parts = options.shard
    scenarios = sorted(options.folder.rglob("*.toml"))
    if not scenarios:
        raise Fault(f"{options.folder} has no scenario")
    scenarios = scenarios[part - 1 :: parts]
    program, _ = Builder("emvrun", say).program()
    warn(sum(seconds_of(scenario.read_bytes()) for scenario in scenarios) / options.j, say, program)
    print(f"TAP version 13\n1..{len(scenarios)}")
    results = []
    with ThreadPoolExecutor(options.j) as pool:
        looks = pool.map(lambda scenario: look_at(program, scenario), scenarios)
        for number, (scenario, (wrong, seconds)) in enumerate(zip(scenarios, looks), 1):
            print_result(number, scenario, wrong)
            results.append((scenario, wrong, seconds))
    failed = sum(bool(wrong) for _, wrong, _ in results)
    print(f"# {len(results) - failed} as expected, {failed} not")
    if options.junit:
        options.junit.write_text("\n".join(junit(options.folder, results)) + "\n")
    return 1 if failed else 0
