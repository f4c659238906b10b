"""Pages to print: of a report, of a log with its verdicts, and of many cases."""
import re
import subprocess
from dataclasses import dataclass, field

from yollenka.lab import labels
from yollenka.lab.drawing import CARD, ISSUER, TERMINAL, add, arrow, bits, dot, printed, sheet, strip, table, talk
from yollenka.lab.emv import command_name
from yollenka.lab.logs import HOST
from yollenka.lab.oracle import rows_of
from yollenka.lab.told import line_texts
from yollenka.lab.verdict import BEHIND, FAILED, INCONCLUSIVE, LACKING, OPEN, OWN, PASSED, WRONG
from yollenka.lines import program
from yollenka.words import TSI, TVR

OF_LANE, OF_STORE, OF_AUDIT = re.compile(r"L(\d+) "), re.compile(r"S(\d+) "), re.compile(r"A (\S+) ")
END = re.compile(r"L\d+ end (\d+) (.*?)( tvr=.*)?$")
RESULT = re.compile(r" (tvr|tsi)=((?:[0-9a-f]{2})+)")
RESULTS = {"tvr": ("Terminal verification results", TVR), "tsi": ("Transaction status information", TSI)}
# The colours of endings and of verdicts.
COLOURS = {
    "approved": "good", "terminated": "bad", "lost": "bad", "cut": "open", PASSED: "good", FAILED: "bad", INCONCLUSIVE: "open",
}


# Which finding of a verdict stands in a table, of several the first of the lowest rank.
RANKS = {WRONG: 0, OWN: 1, OPEN: 2, LACKING: 3}


@dataclass
class Row:
    """A line of a report or a log: its number there, its text, and the words that stand below it."""

    number: int
    text: str
    words: list = field(default_factory=list)


@dataclass
class Section:
    """Rows that belong together, with their title; `ending` and `status` are in a word what came of them, and what was judged
    of them; `findings` are those of verdict.Verdict."""

    title: str
    rows: list = field(default_factory=list)
    ending: str = ""
    status: str = ""
    findings: list = field(default_factory=list)

    def judged(self, verdict):
        """Takes a verdict."""
        self.status, self.findings = verdict.status, verdict.lines
        return self


# What stands in the sections.

def explained(lines, words=()):
    """The words that `explain` has for each of these lines of a report."""
    run = subprocess.run([program("explain"), *words], input="".join(f"{line}\n" for line in lines).encode(), capture_output=True)
    found, at = [[] for _ in lines], -1
    for line in run.stdout.decode(errors="replace").splitlines():
        if at + 1 < len(lines) and line == lines[at + 1]:
            at += 1
        elif at >= 0:
            found[at].append(line)
    return found


def title_of(line, ended):
    """Which section a report's line belongs to; `ended` counts each lane's purchases that are over."""
    if found := OF_LANE.match(line):
        return f"Lane {found[1]}, purchase {ended.get(found[1], 0) + 1}"
    if found := OF_STORE.match(line):
        return f"Settlement of lane {found[1]}"
    if found := OF_AUDIT.match(line):
        return f"Audit of card {found[1]}"
    return "Objects" if line.startswith(("object ", "read ")) else "Balances and end"


def of_report(text, words=()):
    """The sections of a report, in the order in which they begin; `words` hand the terminals' codes on to `explain`."""
    lines, sections, ended = text.splitlines(), {}, {}
    for number, (line, told) in enumerate(zip(lines, explained(lines, words)), 1):
        title = title_of(line, ended)
        section = sections.setdefault(title, Section(title))
        section.rows.append(Row(number, line, told))
        if found := END.match(line):
            section.ending = found[2]
            lane = OF_LANE.match(line)[1]
            ended[lane] = ended.get(lane, 0) + 1
    return list(sections.values())


def entries_of(purchase):
    """The entries of a purchase in a log, a command or message with the number of its line."""
    for one in purchase.exchanges:
        yield from zip((one.line, None), one.entries())
    if purchase.end:
        yield None, f"end {purchase.end}"


def of_purchase(title, purchase, verdict=None):
    """The section of a purchase in a log, with its verdict where there is one."""
    entries = list(entries_of(purchase))
    lines = ["L0 power c1 canned", *(f"L0 {re.sub('^end ', 'end 1 ', text)}" for _, text in entries)]
    words = explained(lines, list(rows_of(verdict.lane)) if verdict and verdict.lane else ())[1:]
    section = Section(title, [Row(number, text, told) for (number, text), told in zip(entries, words)])
    section.ending = (purchase.end or (verdict.end if verdict else None) or "").split(" tvr=")[0]
    return section.judged(verdict) if verdict else section


# How they are drawn.

def mark(parent, text):
    """A word with its colour, what came of something."""
    if text:
        add(parent, "span", text, class_=f"mark {COLOURS.get(text.split()[0], '')}".strip()).tail = " "


def draw_power(drawing, text):
    """A power-up, or one in which the card was pulled out."""
    if text.endswith(" torn"):
        arrow(drawing, CARD, TERMINAL, "pulled out at power-up", "answer", True)
    else:
        dot(drawing, CARD, f"power-up{', canned answers' if text.endswith(' canned') else ''}", "answer")


def draw(row, text, words):
    """The arrow of a line, whose first word is left out, between those whom it concerns."""
    drawing = strip(row)
    begin, _, rest = text.partition(" ")
    if begin == "power":
        draw_power(drawing, text)
    elif begin == "end":
        dot(drawing, TERMINAL, "lost its power" if rest.endswith(" lost") else "end", "answer")
    elif begin == ">":
        arrow(drawing, TERMINAL, CARD, labels.command(words), "command")
    elif begin == "<":
        is_gone = rest in ("torn", "gone")
        arrow(drawing, CARD, TERMINAL, "pulled out" if is_gone else labels.answer(rest, words), "answer", is_gone)
    elif text.startswith("host > "):
        arrow(drawing, TERMINAL, ISSUER, labels.command(words), "message")
    elif text.startswith("host < "):
        is_lost = rest == "< none"
        arrow(drawing, ISSUER, TERMINAL, "no reply" if is_lost else labels.reply(words), "message", is_lost)


def draw_finding(body, line):
    """A finding, above the line that it is about: the command that was wanted as a dashed arrow, and what was said of it."""
    row = add(body, "tr")
    drawing = strip(row)
    if line.wanted is not None:
        arrow(drawing, TERMINAL, CARD, f"wanted {command_name(line.wanted)}", "wanted")
    said = add(row, "td", class_="said")
    box = add(said, "div", class_="finding" if line.kind in (WRONG, BEHIND) else "finding note")
    draw_texts(box, line_texts(line))


def draw_texts(parent, texts):
    """Lines of words, each as far to the right as it begins with blanks."""
    for text in texts:
        add(parent, "p", text.strip(), style=f"margin-left: {7 * (len(text) - len(text.lstrip(' ')))}px")


def draw_row(body, row):
    """A row of a section: the arrow, and beside it the line with its words."""
    line = add(body, "tr")
    text = OF_LANE.sub("", row.text, 1)
    text = OF_STORE.sub("host ", text, 1)
    draw(line, OF_AUDIT.sub("", text, 1), row.words)
    said = add(line, "td", class_="said")
    add(said, "span", row.number or "", class_="number")
    add(said, "code", row.text)
    draw_texts(said, row.words)


def in_order(section):
    """A section's rows, each behind the findings about its line; findings about no line of it come last."""
    left = [line for line in section.findings if line.line is not None]
    for row in section.rows:
        its = [line for line in left if line.line == row.number]
        left = [line for line in left if line not in its]
        yield from (*its, row)
    yield from left


def draw_section(body, section, place):
    """A section with its title, its verdict, its exchanges and the bits of its results."""
    title = add(body, "h2", section.title + " ", id=place)
    mark(title, section.ending)
    mark(title, section.status)
    of_all = [line for line in section.findings if line.line is None]
    if of_all:
        box = add(body, "div", class_="finding note" if all(line.kind != WRONG for line in of_all) else "finding")
        draw_texts(box, (text for line in of_all for text in line_texts(line)))
    rows = talk(body)
    for one in in_order(section):
        draw_row(rows, one) if isinstance(one, Row) else draw_finding(rows, one)
    draw_results(body, section)


def draw_results(body, section):
    """The bits of the results in a section's last line."""
    for name, value in RESULT.findall(section.rows[-1].text if section.rows else ""):
        caption, names = RESULTS[name]
        bits(body, caption, bytes.fromhex(value), names)


def overview(body, sections):
    """What there is on the page, with a link to each section."""
    is_judged = any(section.status for section in sections)
    rows = table(body, ["part", "what came of it", *["verdict"] * is_judged, "lines"])
    for place, section in enumerate(sections):
        row = add(rows, "tr")
        add(add(row, "td"), "a", section.title, href=f"#part{place}")
        mark(add(row, "td"), section.ending)
        if is_judged:
            mark(add(row, "td"), section.status)
        numbers = [row.number for row in section.rows if row.number]
        add(row, "td", f"{numbers[0]} to {numbers[-1]}" if numbers else "")


def page_of(title, sections):
    """A page of these sections, as text."""
    page, body = sheet(title)
    overview(body, sections)
    for place, section in enumerate(sections):
        draw_section(body, section, f"part{place}")
    return printed(page)


def reason_of(verdict):
    """The first finding that decided a verdict, as one line."""
    deciding = sorted(verdict.lines, key=lambda line: RANKS.get(line.kind, len(RANKS)))
    return next(line_texts(deciding[0])) if deciding and verdict.status != PASSED else ""


def draw_cases(body, cases, places):
    """The table of many cases, with a link to each that has a place."""
    rows = table(body, ["", "case", "verdict", "ending", "first finding"])
    for number, case in enumerate(cases, 1):
        row = add(rows, "tr")
        add(row, "td", number)
        cell = add(row, "td")
        add(cell, "a", case.name, href=f"#{places[id(case)]}") if id(case) in places else add(cell, "span", case.name)
        mark(add(row, "td"), case.verdict.status)
        add(row, "td", (case.verdict.end or "").split(" tvr=")[0])
        add(row, "td", reason_of(case.verdict))


def cases_page(title, cases, is_all=False):
    """A page of many cases (told.Result), as text: all in a table, and the dialogues that are known of those that didn't pass, or
    of all."""
    page, body = sheet(title)
    counts = [f"{sum(case.verdict.status == status for case in cases)} {status}" for status in (PASSED, FAILED, INCONCLUSIVE)]
    add(body, "p", f"{len(cases)} cases: {', '.join(counts)}")
    shown = [case for case in cases if case.purchase and (is_all or case.verdict.status != PASSED)]
    places = {id(case): f"part{place}" for place, case in enumerate(shown)}
    draw_cases(body, cases, places)
    for case in shown:
        draw_section(body, of_purchase(case.name, case.purchase, case.verdict), places[id(case)])
    return printed(page)
