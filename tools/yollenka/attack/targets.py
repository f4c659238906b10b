"""What hostile inputs are handed to: each program and each command of `lab`, with what it may end with."""
import os
import random
from typing import NamedTuple

from yollenka import lab
from yollenka.attack import documents, inputs, texts
from yollenka.attack.partners import rude_host
from yollenka.lines import program
from yollenka.programs import ROOT, TOOL, Builder

TOML = documents.MUTATIONS
TRACE = documents.OF_TRACES
TEXT = texts.MUTATIONS
# A table of cases is a document too, in words.
CASES = [*documents.MUTATIONS, texts.words, texts.words, texts.lines, texts.lines]
TALK = [*TEXT, documents.number, documents.rename, documents.text]


def same(_random, text):
    """A file as it is, where the other side is hostile."""
    return text


# What a program may end with on inputs that can be read, and a command of `lab`.
ANSWERS, AT_LINES, VERDICTS = frozenset({0, 1}), frozenset({0, 1, 2}), frozenset({0, 1, 2, 3})


class Target(NamedTuple):
    """A command: what a child does, given its folder and a number; its files with their good contents and what is done to each;
    the file that is its standard input; the statuses that it may end with; of how many trials of others it gets one; what it
    says where it serves and is to be ended; and the programs that have to be there."""

    name: str
    act: object
    files: tuple
    goods: object
    kinds: tuple
    statuses: frozenset
    given: str = ""
    share: int = 1
    until: bytes = b""
    needs: tuple = ()


def no_build(builder):
    """In place of a trial build: what is tried here has its programs, and a command that wants another one is a fault."""
    raise RuntimeError(f"{builder.name} isn't among the programs that this command needs")


def without_builds():
    """Has this process and those that it begins make no build."""
    Builder.make_trial = no_build
    folders = os.environ.get("PATH", os.defpath).split(os.pathsep)
    os.environ["PATH"] = os.pathsep.join(folder for folder in folders if not os.access(os.path.join(folder, TOOL), os.X_OK))


def run_program(name, *words):
    """What becomes a program."""
    def act(_place, _number):
        path = str(program(name))
        os.execv(path, [path, *words])
    return act


def run_launcher(name, *words):
    """What becomes a launcher of the repository."""
    def act(place, _number):
        path = str(ROOT / name)
        os.execv(path, [path, *(word.replace("{D}", str(place)) for word in words)])
    return act


def run_lab(*words):
    """What carries out a command of `lab`; {D} is its folder, {host} the port of a host that keeps no rule."""
    def act(place, number):
        here = {"{D}": str(place), "{host}": ""}
        if any("{host}" in word for word in words):
            here["{host}"] = str(rude_host(random.Random(number)))
        return lab.main([word.replace("{D}", here["{D}"]).replace("{host}", here["{host}"]) for word in words])
    return act


def at_lines(name, goods, *words):
    """A program at lines."""
    return Target(name, run_program(name, *words), ("talk",), goods, (TALK,), AT_LINES, given="talk", needs=(name,))


def of_document(name, crate, word, goods, kinds, statuses=ANSWERS):
    """A program that reads a document on standard input."""
    words = (word,) if word else ()
    return Target(name, run_program(crate, *words), ("in.toml",), goods, (kinds,), statuses, given="in.toml", needs=(crate,))


def documents_alone():
    """Scenarios without their reports."""
    return [(text,) for text, _ in inputs.scenarios()]


def with_a_log(first):
    """Inputs of one kind, each with a log that isn't its own, or with its own."""
    logs = inputs.logs()
    return [(one[0], logs[at % len(logs)][0]) for at, one in enumerate(first)]


def cases_with_answers():
    """Tables of cases, each with what a terminal says that doesn't listen."""
    dialogues = inputs.replayed()
    said = [b"\n".join(line[3:] for line in report.splitlines() if line.startswith((b"L0 > ", b"L0 host > ", b"L0 end 1"))) + b"\n"
            for _, report in dialogues]
    return [(case, said[at % len(said)]) for at, (case,) in enumerate(inputs.cases())]


def of_lab(name, words, files, goods, kinds, **more):
    """A command of `lab`."""
    needs = more.pop("needs", ())
    return Target(f"lab {name}", run_lab(*words), files, goods, kinds, VERDICTS, needs=needs, **more)


CARD, HOST, TERMINAL = ("card_at_reader",), ("host_at_lines",), ("terminal_at_reader",)

PROGRAMS = [
    of_document("emvrun read", "emvrun", "read", documents_alone, TOML),
    of_document("emvrun replay", "emvrun", "replay", documents_alone, TOML),
    of_document("emvrun check", "emvrun", "check", inputs.traces, TRACE),
    of_document("card_check", "card_check", "", documents_alone, TOML),
    Target("explain", run_program("explain"), ("in.report",), lambda: [(report,) for _, report in inputs.scenarios()], (TEXT,),
           ANSWERS, given="in.report", needs=("explain",)),
    at_lines("card_at_reader", lambda: inputs.talks("card")),
    at_lines("host_at_lines", lambda: inputs.talks("host")),
    at_lines("terminal_at_reader", inputs.dialogues),
]
LAUNCHERS = [
    Target("./emvrun replay", run_launcher("emvrun", "replay"), ("in.toml",), documents_alone, (TOML,), ANSWERS, given="in.toml",
           share=4, needs=("emvrun",)),
    Target("./emvrun check", run_launcher("emvrun", "check"), ("in.toml",), inputs.traces, (TRACE,), ANSWERS, given="in.toml", share=4,
           needs=("emvrun",)),
    Target("./explain", run_launcher("explain", "{D}/in.toml"), ("in.toml",), documents_alone, (TOML,), AT_LINES, share=4,
           needs=("emvrun", "explain")),
]
COMMANDS = [
    of_lab("judge", ("judge", "{D}/log"), ("log",), inputs.logs, (TEXT,), needs=TERMINAL),
    of_lab("judge --lane", ("judge", "{D}/log", "--lane", "{D}/lane.toml"), ("log", "lane.toml"),
           lambda: [(report, text) for text, report in inputs.replayed()], (TEXT, TOML), needs=TERMINAL),
    of_lab("page", ("page", "{D}/log"), ("log",), inputs.logs, (TEXT,), needs=("explain",)),
    of_lab("page --lane", ("page", "{D}/log", "--lane", "{D}/lane.toml"), ("log", "lane.toml"),
           lambda: [(report, text) for text, report in inputs.replayed()], (TEXT, TOML), needs=("explain", *TERMINAL)),
    of_lab("card", ("card", "{D}/image.toml", "{D}/log"), ("image.toml", "log"), inputs.replayed, (TOML, TEXT), needs=CARD),
    of_lab("card-of", ("card-of", "{D}/log"), ("log",), inputs.logs, (TEXT,)),
    of_lab("show", ("show", "{D}/in.toml"), ("in.toml",), documents_alone, (TOML,)),
    of_lab("check", ("check", "{D}/in.toml"), ("in.toml",), documents_alone, (TOML,), needs=("card_check",)),
    of_lab("make", ("make", "{D}/cases.toml"), ("cases.toml",), inputs.cases, (CASES,), needs=CARD),
    of_lab("trace", ("trace", "{D}/in.toml", "{D}/in.report"), ("in.toml", "in.report"), inputs.replayed, (TOML, TEXT)),
    of_lab("expect", ("expect", "{D}", "-j", "1"), ("in.toml", "in.report"), inputs.scenarios, (TOML, TEXT), needs=("emvrun", "explain")),
    of_lab("tshark", ("tshark", "--pcap", "{D}/out.pcap", "{D}/in.toml"), ("in.toml", "in.report"),
           lambda: [pair for pair in inputs.replayed() if b'dialect = "iso"' in pair[0]], (TOML, TEXT)),
    of_lab("terminal", ("terminal", "{D}/cases.toml", "-j", "1", "--seconds", "2", "--", "cat", "{D}/said"), ("cases.toml", "said"),
           cases_with_answers, (CASES, TEXT), share=4, needs=(*CARD, *TERMINAL)),
    of_lab("sweep", ("sweep", "{D}/in.toml", "0", "1", "-j", "1"), ("in.toml",), documents_alone, (TOML,), share=50, needs=("emvrun",)),
    of_lab("host --scenario", ("host", "{host}", "--scenario", "{D}/in.toml", "--timeout", "0.2"), ("in.toml",), documents_alone,
           ([*TOML, *[same] * 12],), share=4, needs=("emvrun", *HOST, *CARD, *TERMINAL)),
    of_lab("host --histories", ("host", "{host}", "--timeout", "0.1", "--histories", "{D}/in.lines"), ("in.lines",), inputs.histories,
           ([*TALK, *[same] * 24],), share=4, needs=HOST),
    of_lab("serve card", ("serve", "card", "{D}/in.toml", "--socket", "0"), ("in.toml",), documents_alone, (TOML,), share=2,
           until=b"the card listens on", needs=CARD),
    of_lab("serve host", ("serve", "host", "{D}/in.toml", "--listen", "0", "--state", "{D}/state"), ("in.toml", "state"), inputs.states,
           ([*TOML, *[same] * 30], [*TEXT, *[texts.lines] * 9]), share=2, until=b"the host listens on", needs=HOST),
    of_lab("serve terminal", ("serve", "terminal", "{D}/in.toml", "--wait", "0"), ("in.toml",), documents_alone, (TOML,), share=4,
           needs=TERMINAL),
]
TARGETS = [*PROGRAMS, *LAUNCHERS, *COMMANDS]
