"""`lab terminal`: cases at a terminal of one's own, a program that talks lines or one at a reader; each is judged, and what all
cover is told."""
import os
import re
import select
import shlex
import subprocess
import tempfile
import time
from concurrent.futures import ThreadPoolExecutor
from dataclasses import replace
from pathlib import Path

from yollenka.commandline import a_new_file, positive, seconds
from yollenka.faults import Fault
from yollenka.lab.by_hand import verdicts
from yollenka.lab.cases import cases_in
from yollenka.lab.cover import Coverage
from yollenka.lab.facts import facts_of_scenario
from yollenka.lab.live import Host, card_of
from yollenka.lab.logs import CARD, HOST, Exchange, Purchase
from yollenka.lab.pages import cases_page
from yollenka.lab.told import Result, junit, status_of, tap_lines
from yollenka.lab.walk import FAILED, NOTE, PASSED, WRONG, Line, judge
from yollenka.lines import UNREAD, program, terminal_document
from yollenka.readers import PORT

TEXT = """Tries cases at a terminal of your own, each judged as `lab judge` judges a log with the whole lane.

COMMAND is started once for each case. On its standard input it gets a line `document N`, then N bytes: the terminal and its
purchase as a TOML document (docs/use/reader.md, section 2). It writes a command as `> H`, or as bare hexadecimal, and reads
`< H` or `< gone`; `host > H` is answered `host < H` or `host < none`; at last it writes `end ..`, as much of it as it has
(docs/use/report.md, section 3), or just ends. `{case}` in a word of COMMAND becomes the case's name. CASES is a table of cases
(docs/use/cases.md), a scenario, or a folder of them.

With --pcsc the terminal stands at a reader, in place of COMMAND: each case's card is put into the virtual reader of this
machine, and the operator, who is told what to enter, presses Enter when the terminal has ended (docs/use/reader.md)."""
LONGEST, MOST_EXCHANGES, SHOWN = 8192, 2000, 5
COMMAND_LINE = re.compile(r"(?:> ?)?((?:[0-9a-fA-F]{2} ?)+)")


def arguments(parser):
    """The command's words."""
    parser.add_argument("cases", metavar="CASES", help="a table of cases, a scenario, or a folder")
    command = parser.add_argument("command", metavar="COMMAND", nargs="+", help="behind `--`: your terminal, with its words")
    command.required = False
    parser.add_argument("--pcsc", nargs="?", const="", metavar="READER",
                        help="in place of COMMAND: a terminal at the virtual reader; a reader with READER in its name has to be there")
    parser.add_argument("--port", type=lambda text: int(text, 0), default=PORT, help="with --pcsc: the virtual reader's port here (35963)")
    parser.add_argument("--wait", type=seconds, metavar="SECONDS",
                        help="with --pcsc: a case also ends where the card was off for so long, behind its first command")
    parser.add_argument("--host-lines", metavar="FILE",
                        help="with --pcsc: a file to which the terminal's host adds `host > H` and `host < H`, or `host < none`")
    parser.add_argument("-j", dest="jobs", type=positive, metavar="N", help="so many at a time, without it one for each processor")
    parser.add_argument("--only", default="", metavar="REGEX", help="the cases in whose names this is found")
    parser.add_argument("--seconds", type=float, default=10, help="how long a terminal may take for a line (10)")
    parser.add_argument("--keep", metavar="DIR", help="keeps each dialogue there, as CASE.log")
    parser.add_argument("--all", action="store_true", help="shows each difference behind a fault too")
    parser.add_argument("--coverage", action="store_true", help="tells all that is covered, and what isn't")
    parser.add_argument("--junit", metavar="F", type=a_new_file, help="writes the results as JUnit XML to this file")
    parser.add_argument("--html", metavar="F", type=a_new_file, help="writes a page of all cases to print to this file")


class Quiet(Exception):
    """The terminal said nothing in its time."""


class Talk:
    """A terminal's program, by lines, each within so many seconds."""

    def __init__(self, words, seconds):
        self.seconds, self.kept, self.errors = seconds, b"", tempfile.TemporaryFile()
        try:
            self.process = subprocess.Popen(words, stdin=subprocess.PIPE, stdout=subprocess.PIPE, stderr=self.errors)
        except OSError as error:
            raise Fault(f"{words[0]}: {error.strerror}") from None

    def say(self, data):
        """Writes bytes; a program that has ended doesn't read them."""
        try:
            self.process.stdin.write(data)
            self.process.stdin.flush()
        except OSError:
            pass

    def hear(self):
        """The next line, or None at the end."""
        end = time.monotonic() + self.seconds
        while b"\n" not in self.kept:
            if not select.select([self.process.stdout], [], [], max(0, end - time.monotonic()))[0]:
                raise Quiet
            part = os.read(self.process.stdout.fileno(), LONGEST)
            if not part:
                self.kept, rest = b"", self.kept
                return rest.decode(errors="replace").strip() or None
            self.kept += part
        line, self.kept = self.kept.split(b"\n", 1)
        return line.decode(errors="replace").strip()

    def end(self):
        """Ends the program; gives its status, and what it wrote to standard error."""
        for pipe in (self.process.stdin, self.process.stdout):
            try:
                pipe.close()
            except OSError:
                pass
        try:
            status = self.process.wait(self.seconds)
        except subprocess.TimeoutExpired:
            self.process.kill()
            status = self.process.wait()
        self.errors.seek(0)
        return status, self.errors.read().decode(errors="replace").splitlines()


class Trial:
    """A case at a terminal: `lines` are the dialogue's, as a trace has them; `notes` what else is to be told."""

    def __init__(self, case, talk):
        self.talk, self.purchase, self.lines, self.notes = talk, Purchase(card="c1"), [], []
        self.card, self.host, self.scenario = card_of(case), Host(case), case.scenario

    def put(self, side, sent, got):
        """Keeps an exchange, and tells the terminal what came back."""
        one = Exchange(side, sent, got, len(self.lines) + 1)
        self.purchase.exchanges.append(one)
        self.lines += one.entries()
        self.talk.say(self.lines[-1].encode() + b"\n")

    def take(self, line):
        """Does what a line of the terminal asks; whether it goes on."""
        command = COMMAND_LINE.fullmatch(line)
        if line.startswith("end"):
            self.lines.append(line)
            self.purchase.end = line[3:].strip()
            return False
        if line.startswith("host >"):
            sent = self.host.message(line[6:].strip(), self.purchase.exchanges)
            self.put(HOST, sent, self.host.reply(sent))
        elif command:
            sent = bytes.fromhex(command[1])
            self.put(CARD, sent, self.card.answer(sent))
        elif not line.startswith(UNREAD):
            raise Fault(f"{line[:80]!r} is no command, no message and no end")
        return len(self.purchase.exchanges) < MOST_EXCHANGES

    def run(self):
        """The whole dialogue; a fault of the terminal that is none of EMV's, or None."""
        text = terminal_document(self.scenario, 0, 1)
        self.card.power_up(self.scenario["lane"][0]["purchase"][0].get("tear"))
        self.talk.say(b"document %d\n" % len(text) + text)
        try:
            while (line := self.talk.hear()) is not None and self.take(line):
                pass
            return None
        except Quiet:
            return f"the terminal said nothing for {self.talk.seconds:g} seconds"
        except Fault as fault:
            return f"line {len(self.lines) + 1}: {fault}"

    def end(self):
        """Ends both programs; keeps what the terminal said besides."""
        self.card.card.end()
        status, errors = self.talk.end()
        self.notes += [f"standard error: {line}" for line in errors[-SHOWN:]]
        self.notes += [f"the terminal's status is {status}"] if status else []


def what_is_tried(case):
    """The line that says which rules a case tries, if it says so."""
    told = ": ".join(part for part in (", ".join(case.rules), case.tries) if part)
    return [f"the case tries {told}"] if told else []


def result_of(case, options, verdict, lines, began, notes=()):
    """The result of a case: its verdict, and where it doesn't pass what it tries; its dialogue is kept where that is wanted."""
    if options.keep:
        (Path(options.keep) / f"{case.name}.log").write_text("".join(f"{line}\n" for line in lines))
    if verdict.status != PASSED:
        verdict = replace(verdict, lines=[*verdict.lines, *(Line(NOTE, note) for note in (*notes, *what_is_tried(case)))])
    return Result(case.name, verdict, time.monotonic() - began)


def tried(case, options):
    """The result of a case at the terminal's program."""
    began = time.monotonic()
    words = [word.replace("{case}", case.name) for word in options.command]
    trial = Trial(case, Talk(words, options.seconds))
    try:
        fault = trial.run()
    finally:
        trial.end()
    verdict = judge(trial.purchase, facts_of_scenario(case.scenario, 0, 1))
    if fault:
        verdict = replace(verdict, status=FAILED, lines=[Line(WRONG, fault), *verdict.lines])
    return replace(result_of(case, options, verdict, trial.lines, began, trial.notes), purchase=trial.purchase)


def all_tried(cases, options):
    """The result of each case: at a reader one case at a time, else so many side by side."""
    if options.pcsc is not None:
        began = time.monotonic()
        for case, (verdict, lines) in zip(cases, verdicts(cases, options)):
            yield result_of(case, options, verdict, lines, began)
            began = time.monotonic()
        return
    with ThreadPoolExecutor(options.jobs or os.cpu_count()) as pool:
        yield from pool.map(lambda case: tried(case, options), cases)


def check_words(options):
    """Refuses words that don't go together."""
    if options.pcsc is None:
        if not options.command:
            raise Fault("it needs a terminal: COMMAND behind --, or --pcsc for one at a reader")
        for word in ("wait", "host_lines"):
            if getattr(options, word) is not None:
                raise Fault(f"--{word.replace('_', '-')} goes with --pcsc alone")
    elif options.command:
        raise Fault("COMMAND and --pcsc are two terminals; one can be tried")
    elif options.jobs:
        raise Fault("-j: at a reader one case is tried at a time")


def chosen(options):
    """The cases that are to be tried."""
    try:
        wanted = re.compile(options.only)
    except re.error as error:
        raise Fault(f"--only {options.only}: {error}") from None
    cases = [case for case in cases_in(options.cases) if wanted.search(case.name)]
    if not cases:
        raise Fault(f"{options.cases} has no case with '{options.only}' in its name")
    return cases


def make_folder(path):
    """Makes a folder, where it isn't there."""
    try:
        path.mkdir(parents=True, exist_ok=True)
    except OSError as error:
        raise Fault(f"{path}: {error.strerror}") from None


def run(options):
    """Tries the cases; gives the status."""
    check_words(options)
    cases, results, coverage = chosen(options), [], Coverage()
    for name in ("card_at_reader", "terminal_at_reader"):
        program(name)
    if options.keep:
        make_folder(Path(options.keep))
    print(f"TAP version 13\n1..{len(cases)}")
    for case, result in zip(cases, all_tried(cases, options)):
        results.append(result)
        coverage.add(case, result.verdict)
        print("\n".join(tap_lines(len(results), result, options.all)), flush=True)
    print("\n".join(f"# {line}" for line in coverage.lines(options.coverage)))
    title = f"lab terminal {shlex.join(options.command or ['--pcsc'])}"
    if options.junit:
        options.junit.write_text("\n".join(junit(results, title)) + "\n")
    if options.html:
        options.html.write_text(cases_page(title, results))
    return status_of(results)
