"""How verdicts are told: lines of the Test Anything Protocol (TAP 13), and JUnit XML."""
import re
from dataclasses import dataclass
from html import escape

from yollenka.lab import FAILED as STATUS_FAILED, INCONCLUSIVE as STATUS_INCONCLUSIVE, PASSED as STATUS_PASSED
from yollenka.lab.rules import cited
from yollenka.lab.verdict import ASSUMED, BEHIND, FAILED, INCONCLUSIVE, LACKING, NOTE, OPEN, OWN, PASSED, TAKEN, WRONG

# So many consequences of a fault are shown, unless all are asked for.
SHOWN = 2
WORDS = {
    WRONG: "WRONG", BEHIND: "behind it", OWN: "inconclusive", OPEN: "inconclusive", TAKEN: "taken from the log, so not judged",
    ASSUMED: "assumed, as the verification results say so", LACKING: "not known, so guessed",
}


@dataclass
class Result:
    """A verdict with the name of what was judged, the seconds that it took, and the purchase of the log (logs.Purchase)."""

    name: str
    verdict: object
    seconds: float = 0.0
    purchase: object = None


def place_of(line):
    """Where a finding stands: ` exchange 10, line 9`, or nothing."""
    parts = [f"exchange {line.exchange}" if line.exchange else "", f"line {line.line}" if line.line else ""]
    told = ", ".join(part for part in parts if part)
    return f" {told}" if told else ""


def line_texts(line):
    """The lines that tell a finding, without the mark of a comment."""
    section = f" ({cited(line.section)})" if line.section and line.kind != BEHIND else ""
    word = WORDS.get(line.kind, line.kind)
    yield f"{word}{place_of(line)}: {line.text}{section}" if line.kind != NOTE else f"{line.text}{section}"
    if line.sent is not None and line.wanted is not None:
        yield f"  sent   {line.sent.hex()}"
        yield f"  wanted {line.wanted.hex()}"
    yield from (f"  {detail}" for detail in line.details)
    yield from (f"  because {reason}" for reason in line.because)


def finding_texts(lines, is_all=False):
    """The lines that tell findings, without the mark of a comment; of those behind a fault the first ones, unless all are wanted."""
    behind = 0
    for line in lines:
        behind += line.kind == BEHIND
        if line.kind != BEHIND or behind <= SHOWN or is_all:
            yield from line_texts(line)
    if behind > SHOWN and not is_all:
        yield f"{behind - SHOWN} more behind it; --all shows them"


def verdict_texts(verdict, is_all=False):
    """The lines that tell a verdict, without the mark of a comment: its findings, and how far it went."""
    yield from finding_texts(verdict.lines, is_all)
    if verdict.status != PASSED:
        ending = f"the reference ends {verdict.end.split(' tvr=')[0]}" if verdict.end else "the reference isn't at its end"
        yield f"{verdict.fitting} of {verdict.exchanges} exchanges fit; {ending}"


def tap_lines(number, result, is_all=False):
    """A result as TAP has it: its line, and comments below."""
    mark = "not ok" if result.verdict.status == FAILED else "ok"
    skip = " # SKIP inconclusive" if result.verdict.status == INCONCLUSIVE else ""
    yield f"{mark} {number} - {result.name.replace('#', ' ')}{skip}"
    yield from (f"# {text}" for text in verdict_texts(result.verdict, is_all))


def in_xml(text):
    """A text without the characters that XML doesn't have."""
    return re.sub(r"[^\t\n\x20-\ud7ff\ue000-\ufffd]", "?", text)


def junit(results, suite):
    """All results as JUnit XML has them: a fault is a `failure`, what is inconclusive is `skipped`."""
    counts = [sum(one.verdict.status == status for one in results) for status in (FAILED, INCONCLUSIVE)]
    yield '<?xml version="1.0" encoding="UTF-8"?>'
    yield f'<testsuite name="{escape(in_xml(suite))}" tests="{len(results)}" failures="{counts[0]}" skipped="{counts[1]}">'
    for one in results:
        yield f'  <testcase name="{escape(in_xml(one.name))}" time="{one.seconds:.3f}">'
        text = escape(in_xml("\n".join(verdict_texts(one.verdict, True))))
        if one.verdict.status == FAILED:
            yield f"    <failure>{text}</failure>"
        elif one.verdict.status == INCONCLUSIVE:
            yield f"    <skipped>{text}</skipped>"
        yield "  </testcase>"
    yield "</testsuite>"


def status_of(results):
    """The exit status: 1 where one failed, else 3 where one is inconclusive, else 0."""
    found = {one.verdict.status for one in results}
    return STATUS_FAILED if FAILED in found else STATUS_INCONCLUSIVE if INCONCLUSIVE in found else STATUS_PASSED
