"""`lab host`: a host of one's own, by the replies that it gives over TCP."""
import argparse
import subprocess
import sys
from contextlib import closing, contextmanager
from pathlib import Path

from yollenka.commandline import a_file, a_folder, a_new_file, counted, positive, seconds
from yollenka.faults import Fault
from yollenka.framing import FRAMINGS, WORDS
from yollenka.lab import FAILED, PASSED
from yollenka.lab.host_begun import begun
from yollenka.lab.host_dialect import DIALECTS, ISO, OBJECT
from yollenka.lab.host_histories import Player, alone, course_of, random_course, texts_of
from yollenka.lab.host_peer import OwnHost, ProvedHost
from yollenka.lab.host_scenario import AtHost, Judge
from yollenka.lines import program
from yollenka.pcap import Capture
from yollenka.programs import ROOT
from yollenka.scenarios import document, read_document

TEXT = f"""\
Messages for an issuer's host of your own that listens at ADDRESS, and what the proved host of the same accounts replies to them.

--scenario runs a scenario whose issuer is your host: the proved terminals and cards, the settlement too. Its report comes on
standard output as `emvrun replay` writes it; the first reply that isn't the proved host's is told on standard error.
--histories plays histories, files as those of examples/host, which it takes where none is named; --messages plays random ones.
Each reply is compared, and of the first one that differs the message, the objects, the rule and the reason are told.

Your host has to have the accounts to begin with, and no message behind it: --accounts writes them. COMMAND, behind `--`, begins
it for each history, and is ended behind it; {{accounts}} in a word becomes the name of a file with the accounts.

{WORDS}

docs/use/host-of-ones-own.md begins with a first minute."""
HISTORIES = ROOT / "examples" / "host"


def address_of(text):
    """A host and a port; without a host it is this machine."""
    host, _, port = text.rpartition(":")
    if not (port.isascii() and port.isdecimal() and 1 <= int(port) <= 65535):
        raise argparse.ArgumentTypeError(f"{text!r} is no HOST:PORT, as 127.0.0.1:8583")
    return host.strip("[]") or "127.0.0.1", int(port)


def arguments(parser):
    """The command's words."""
    address = parser.add_argument("address", metavar="ADDRESS", type=address_of, help="where it listens: HOST:PORT, or PORT")
    command = parser.add_argument("command", metavar="COMMAND", nargs="+", help="behind `--`: what begins it, with its words")
    address.required = command.required = False
    what = parser.add_mutually_exclusive_group(required=True)
    what.add_argument("--scenario", type=a_file, metavar="S.toml", help="runs this scenario at your host")
    what.add_argument("--histories", type=a_file, nargs="*", metavar="F.lines",
                      help="plays these histories, or examples/host/*.lines")
    what.add_argument("--messages", type=positive, metavar="N", help="plays N random messages")
    parser.add_argument("--seed", type=counted, default=0, metavar="S", help="with --messages: other ones than those of seed 0")
    parser.add_argument("--accounts", action="store_true", help="writes the accounts to begin with, and does nothing else")
    parser.add_argument("--dialect", choices=DIALECTS,
                        help="messages as one object (docs/use/report.md, section 7), or in the style of ISO 8583; without it they "
                             "are objects, and those of a scenario as its first lane has it")
    parser.add_argument("--framing", choices=FRAMINGS, default="2", metavar="FRAMING", help="how a message's length is written (2)")
    parser.add_argument("--timeout", type=seconds, default=5, metavar="N", help="waits so many seconds for a reply (5)")
    parser.add_argument("--pcap", type=a_new_file, metavar="FILE", help="writes what goes over the wire, for Wireshark")
    parser.add_argument("--keep", type=a_folder, metavar="DIR", help="writes a history that differs there, as NAME.lines")


def table_of(path):
    """A scenario and the document of its accounts."""
    table = read_document(path)
    return table, document({key: table[key] for key in ("issuer", "account") if key in table})


def dialect_of(options, table=None):
    """Whether messages are in the style of ISO 8583."""
    lanes = table.get("lane") if table else None
    its = lanes[0].get("dialect", "tlv") if isinstance(lanes, list) and lanes and isinstance(lanes[0], dict) else OBJECT
    return (options.dialect or its) == ISO


def courses_of(options):
    """What is played, in its order."""
    if options.messages:
        return [random_course(options.seed, options.messages, dialect_of(options))]
    paths = options.histories or sorted(HISTORIES.glob("*.lines"))
    return [course_of(path, dialect_of(options)) for path in paths]


@contextmanager
def own_host(options, capture, document):
    """One's own host with these accounts, connected."""
    with begun(options.command, options.address, document) as waits:
        with closing(OwnHost(options.address, options.framing, options.timeout, capture)) as own:
            own.reach(waits)
            yield own


# A scenario.

def say(text):
    """A line for people."""
    print(f"lab host: {text}", file=sys.stderr, flush=True)


def replayed(path):
    """The report of `emvrun replay`, and its status."""
    run = subprocess.run([program("emvrun"), "replay"], stdin=path.open("rb"), capture_output=True)
    return run.stdout.decode(errors="replace"), run.returncode


def run_scenario(options, capture):
    """Runs a scenario; gives the status."""
    wanted, status = replayed(options.scenario)
    if status:
        print(wanted, end="")
        return FAILED
    table, accounts = table_of(options.scenario)
    is_iso = dialect_of(options, table)
    with own_host(options, capture, accounts) as own:
        with closing(ProvedHost(accounts, options.scenario)) as proved:
            judge = Judge(proved, is_iso)
            with closing(AtHost(table, own, judge, say)) as world:
                report = "".join(f"{line}\n" for line in world.run())
    print(report, end="", flush=True)
    if judge.first:
        for text in texts_of(judge.first):
            say(text)
        return FAILED
    if report != wanted:
        raise Fault("each reply is the proved host's, and the report isn't that of `emvrun replay`: a fault of this project")
    return PASSED


# Histories.

def played(course, options, capture):
    """The player of a course, behind it."""
    with own_host(options, capture, course.document) as own:
        with closing(ProvedHost(course.document, course.name)) as proved:
            player = Player(own, proved, course.is_iso)
            player.play(course.messages)
    return player


def again(course, one, options):
    """How one has a difference again; where that is wanted, a history with no more messages than it needs is kept."""
    if not options.keep:
        return f"again, on a host with the accounts to begin with: {course.words}; --keep DIR writes the messages that it needs"
    with closing(ProvedHost(course.document, course.name)) as proved:
        talk = alone(course, one, proved.answers)
    path = Path(options.keep) / f"{course.name.replace(' ', '-')}.lines"
    path.write_text(talk.text())
    return f"again alone, on a host with the accounts to begin with: --histories {path}"


def run_histories(options, capture):
    """Plays histories; gives the status."""
    courses = courses_of(options)
    if len(courses) > 1 and not options.command:
        raise Fault(f"{len(courses)} histories, each of which begins with other accounts: name one, or a COMMAND that begins your host")
    print(f"TAP version 13\n1..{len(courses)}")
    wrong = 0
    for number, course in enumerate(courses, 1):
        player = played(course, options, capture)
        wrong += player.first is not None
        print(f"{'not ok' if player.first else 'ok'} {number} - {course.name}: {player.count} messages", flush=True)
        if player.first:
            texts = (*texts_of(player.first), again(course, player.first, options))
            print("".join(f"# {text}\n" for text in texts), end="", flush=True)
    return FAILED if wrong else PASSED


def write_accounts(options):
    """Writes the accounts to begin with."""
    courses = [] if options.scenario else courses_of(options)
    documents = [course.document for course in courses] or [table_of(options.scenario)[1]]
    if len(documents) > 1:
        raise Fault(f"--accounts: {len(documents)} histories, each of which has accounts of its own: name one")
    sys.stdout.write(documents[0].decode())
    return PASSED


def run(options):
    """Tries the host; gives the status."""
    if options.accounts:
        return write_accounts(options)
    if not options.address:
        raise Fault("it needs the ADDRESS at which your host listens, as 127.0.0.1:8583")
    tried = run_scenario if options.scenario else run_histories
    if not options.pcap:
        return tried(options, None)
    with options.pcap.open("wb") as file:
        return tried(options, Capture(file, options.address[1]))
