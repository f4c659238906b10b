"""`lab serve`: the proved card and the proved terminal for a partner of another make."""
import os
from contextlib import closing, contextmanager

from yollenka.commandline import counted, positive
from yollenka.dissecting import PORT as HOST_PORT
from yollenka.faults import Fault
from yollenka.framing import FRAMINGS, WORDS
from yollenka.lab import FAILED, PASSED
from yollenka.lab.at_reader import Pcsc, recorder
from yollenka.lab.bridges import HERE, Card, at_a_card, card_of, in_a_reader, on_a_socket
from yollenka.lab.host_dialect import DIALECTS, ISO, OBJECT, as_object, delivered, in_dialect
from yollenka.lab.host_peer import OwnHost, ProvedHost
from yollenka.lab.host_served import Desk, State, serve
from yollenka.lines import Lines, begin, terminal_document
from yollenka.readers import PORT
from yollenka.scenarios import document, read_document

TEXT = """\
The proved card of a scenario in the virtual reader of this machine, or on a socket; its proved terminal at a card in a
reader; or its proved host over TCP. docs/use/reader.md has their lines, and what one has to know of readers;
docs/use/host-of-ones-own.md is about the host."""
IDLE = 60.0
# `--host` of a terminal without an address.
OWN_ISSUER = ()


def address(text):
    """A host and a port behind --socket; without a host it is this machine alone."""
    host, _, port = text.rpartition(":")
    if not 0 <= int(port) <= 65535:
        raise ValueError
    return host.strip("[]") or HERE, int(port)


def serve_card(options):
    """Serves the card until it is ended."""
    record = recorder(options.log)
    if options.lines:
        back, to = (os.fdopen(int(number), mode) for number, mode in zip(options.lines.split(","), ("rb", "wb")))
        card = Card(Lines(to, back), record)
        card.in_step()
    else:
        card = card_of(options.scenario, read_document(options.scenario), options.card, record)
    if options.pull and card.ask(f"pull {options.pull}") == "?":
        raise Fault(f"--pull: this is no place: {options.pull}")
    if options.socket:
        on_a_socket(card, *options.socket, options.idle)
    else:
        in_a_reader(card, options.port)
    return PASSED


@contextmanager
def desk_of(options, record, dialect):
    """The proved host of a scenario, with the file that keeps its messages, if there is one."""
    table = read_document(options.scenario)
    accounts = document({key: table[key] for key in ("issuer", "account") if key in table})
    with closing(ProvedHost(accounts, options.scenario)) as proved:
        desk = Desk(proved, State(options.state, accounts) if options.state else None, record, dialect)
        if options.state:
            desk.remember(options.state)
        yield desk


def serve_host(options):
    """Serves the host until it is ended."""
    with desk_of(options, recorder(options.log), options.dialect) as desk:
        serve(desk, options.listen, FRAMINGS[options.framing], options.idle)
    return PASSED


@contextmanager
def issuer_of(options, is_iso):
    """What gives the reply to a message of the terminal: nobody, the scenario's issuer, or a host of one's own."""
    if options.host is None:
        yield lambda message: None
    elif options.host == OWN_ISSUER:
        with desk_of(options, lambda _: None, OBJECT) as desk:
            yield desk.reply
    else:
        with closing(OwnHost(options.host, options.framing)) as own:
            own.connect()
            yield lambda message: as_object(message, own.ask(in_dialect(message, is_iso)), is_iso)


def serve_terminal(options):
    """Holds a purchase's dialogue with the card in a reader; each line of it is printed, as the entries of a trace."""
    scenario = read_document(options.scenario)
    try:
        text = terminal_document(scenario, options.lane, options.purchase)
        lane = scenario["lane"][options.lane]
    except (KeyError, IndexError, TypeError):
        raise Fault(f"{options.scenario}: there is no purchase {options.purchase} of lane {options.lane}") from None
    process, terminal = begin("terminal_at_reader", [], text)
    terminal.require_taken(options.scenario)
    reader, record = Pcsc(options.reader, options.wait), recorder(options.log)
    link = lane["purchase"][options.purchase - 1].get("link", "ok")

    def tell(line):
        """Takes a line of the dialogue."""
        record(line)
        print(line, flush=True)

    with issuer_of(options, lane.get("dialect") == ISO) as reply:
        reader.power()
        last = at_a_card(terminal, reader, lambda message: delivered(link, lambda: reply(message)), tell)
    reader.close()
    process.stdin.close()
    process.wait()
    return PASSED if last.startswith("end ") else FAILED


def serve_try(_):
    """Tries all of it on this machine."""
    from yollenka.lab import try_reader
    return try_reader.run()


def card_arguments(parser):
    """The words of `lab serve card`."""
    parser.add_argument("scenario", metavar="SCENARIO.toml")
    parser.add_argument("card", metavar="CARD", nargs="?", help="the card's name; without it the first card")
    parser.add_argument("--port", type=lambda text: int(text, 0), default=PORT, help="the virtual reader's port here (35963)")
    parser.add_argument("--socket", type=address, metavar="[HOST:]PORT",
                        help="in place of the reader: listens here for the card's lines; without HOST on this machine alone")
    parser.add_argument("--idle", type=float, default=IDLE, metavar="N",
                        help="with --socket: a peer that says nothing for N seconds is dropped (60)")
    parser.add_argument("--pull", metavar="PLACE", help="pulls the card out here, as '3 within 2'")
    parser.add_argument("--log", metavar="F", help="writes each exchange to this file, a log for `lab card` and `lab page`")
    parser.add_argument("--lines", metavar="R,W", help="the card's program runs already: its lines are on these two open files")
    parser.set_defaults(serve=serve_card)


def host_arguments(parser):
    """The words of `lab serve host`."""
    parser.add_argument("scenario", metavar="SCENARIO.toml", help="whose issuer and accounts the host has")
    parser.add_argument("--listen", type=address, default=(HERE, HOST_PORT), metavar="[HOST:]PORT",
                        help="listens here; without HOST on this machine alone (8583)")
    parser.add_argument("--framing", choices=FRAMINGS, default="2", metavar="FRAMING", help="how a message's length is written (2)")
    parser.add_argument("--dialect", choices=DIALECTS, help="takes messages of this dialect alone; without it a message that begins "
                                                            "with the digit 0 is in the style of ISO 8583")
    parser.add_argument("--state", metavar="F", help="keeps each message in this file before its reply goes out, and begins with "
                                                     "what is in it")
    parser.add_argument("--idle", type=float, default=IDLE, metavar="N", help="a peer that says nothing for N seconds is dropped (60)")
    parser.add_argument("--log", metavar="F", help="writes each message, its reply and the reason to this file")
    parser.set_defaults(serve=serve_host)


def terminal_arguments(parser):
    """The words of `lab serve terminal`."""
    parser.add_argument("scenario", metavar="SCENARIO.toml")
    parser.add_argument("lane", metavar="LANE", nargs="?", type=counted, default=0, help="from 0")
    parser.add_argument("purchase", metavar="PURCHASE", nargs="?", type=positive, default=1, help="from 1")
    parser.add_argument("--reader", metavar="NAME", default="", help="the first reader whose name has NAME in it")
    parser.add_argument("--wait", type=float, default=10, metavar="N", help="waits so many seconds for a reader and its card (10)")
    parser.add_argument("--host", type=address, nargs="?", const=OWN_ISSUER, metavar="[HOST:]PORT",
                        help="the host that listens here replies; without an address the scenario's issuer")
    parser.add_argument("--framing", choices=FRAMINGS, default="2", metavar="FRAMING",
                        help="with --host: how a message's length is written (2)")
    parser.add_argument("--state", metavar="F", help="with the scenario's issuer: keeps its messages in this file, for later purchases")
    parser.add_argument("--log", metavar="F", help="writes each line to this file, too")
    parser.set_defaults(serve=serve_terminal)


def arguments(parser):
    """The command's words."""
    kinds = parser.add_subparsers(required=True, metavar="WHAT")
    card_arguments(kinds.add_parser("card", help="a scenario's card"))
    terminal_arguments(kinds.add_parser("terminal", help="a scenario's terminal"))
    host_arguments(kinds.add_parser("host", help="a scenario's host", epilog=WORDS))
    kinds.add_parser("try", help="tries both in a virtual reader of this machine").set_defaults(serve=serve_try)


def run(options):
    """Serves; gives the status."""
    return options.serve(options)
