"""Good inputs, from which hostile ones are made: the repository's scenarios, reports, logs, cases, talks and dialogues."""
import re
import tomllib
from functools import cache

from yollenka.lines import terminal_document
from yollenka.programs import ROOT
from yollenka.scenarios import document

# Inputs of more bytes are left out: what is tried are many inputs, and not long ones.
MOST = 30_000


def read(paths):
    """What these files have, of those that are short."""
    return [text for path in sorted(paths) if len(text := path.read_bytes()) <= MOST]


@cache
def scenarios():
    """Scenarios, each with its report."""
    pairs = [(path.read_bytes(), path.with_suffix(".report")) for path in sorted(ROOT.glob("examples/*.toml"))]
    pairs = [(text, report.read_bytes()) for text, report in pairs if report.exists()]
    return [pair for pair in pairs if max(map(len, pair)) <= MOST]


@cache
def replayed():
    """Of these, those whose report is one of `replay`."""
    return [(text, report) for text, report in scenarios() if report.splitlines()[-1].startswith(b"done ")]


@cache
def logs():
    """Logs in all forms, traces among them."""
    texts = read(ROOT.glob("checks/data/judge/logs/*.txt"))
    return [(text,) for text in [*texts, *(report for _, report in replayed()[::4]), *read(ROOT.glob("examples/traces/*.toml"))]]


@cache
def traces():
    """Traces."""
    return [(text,) for text in read(ROOT.glob("examples/traces/*.toml"))]


@cache
def cases():
    """Tables of cases: each has the front of one of the repository's, and one of its cases."""
    found = []
    for text in read([*ROOT.glob("suite/*.toml"), *ROOT.glob("examples/cases/*.toml")]):
        front, *each = re.split(rb"(?m)^(?=\[\[case\]\])", text)
        found += [(front + one,) for one in each]
    return found


@cache
def talks(name):
    """What is said to a program at lines: the talks of a folder of examples, as the program reads them."""
    found = []
    for text in read(ROOT.glob(f"examples/{name}/*.lines")):
        document, _, said = text.partition(b"\nlines\n")
        asked = [line.removeprefix(b"> ") if name == "card" else line for line in said.splitlines()
                 if line.startswith((b"> ", b"iso > ", b"pull ", b"off"))]
        found.append((spoken(document + b"\n", asked),))
    return found


def spoken(document, lines):
    """A document behind its line, and lines behind it."""
    return b"document %d\n" % len(document) + document + b"".join(line + b"\n" for line in lines)


@cache
def dialogues_with_reports():
    """What is said to a terminal, its document and what the card and the host answer it in a report, with that report."""
    found = []
    for text, report in replayed():
        scenario = tomllib.loads(text.decode())
        if not scenario["lane"][0].get("purchase"):
            continue
        first = report.partition(b"\nL0 end 1 ")[0].splitlines()
        answers = [line[3:].replace(b"< torn", b"< gone") for line in first if line.startswith((b"L0 < ", b"L0 host < "))]
        found.append((spoken(terminal_document(scenario, 0, 1, keep=["dialect"]), answers), report))
    return found


def dialogues():
    """The same without the reports."""
    return [(said,) for said, _ in dialogues_with_reports()]


@cache
def histories():
    """Histories of a host, as files."""
    return [(text,) for text in read(ROOT.glob("examples/host/*.lines"))]


@cache
def replies():
    """What hosts reply to which message, in one dialect and the other."""
    found = {}
    for text in [*(report for _, report in replayed()), *(text for (text,) in histories())]:
        for sent, got in re.findall(rb"(?m)^(?:L\d+ host |S\d+ |iso )?> ([0-9a-f]+)\n(?:L\d+ host |S\d+ )?< ([0-9a-f]+)$", text):
            found[bytes.fromhex(sent.decode())] = bytes.fromhex(got.decode())
    return found


@cache
def states():
    """Accounts, each with a file of messages that a host of them has kept."""
    found = []
    for (text,) in histories():
        accounts, _, said = text.partition(b"lines\n")
        turns = re.findall(rb"(?m)^(?:iso )?> [0-9a-f]+\n< [0-9a-f]+\n", said)
        head = document(tomllib.loads(accounts.decode()))
        found.append((accounts, head + b"lines\n" + b"".join(turns)))
    return found
