"""`lab`: verdicts on terminals, cards and hosts of other makes, by the proved programs.

Each command is a module of this package with three names: `TEXT`, its help as plain text; `arguments(parser)`, which says
its words to argparse; `run(options)`, which carries it out and gives the status. A module is read only when its command is
called, so that a command begins at once.
"""
import argparse
import importlib

from yollenka.commandline import carried_out, parser_of

# The statuses of every command.
PASSED, FAILED, WRONG_WORDS, INCONCLUSIVE = 0, 1, 2, 3
# Each command with the line that `lab --help` has for it.
COMMANDS = {
    "expect": "compares each scenario of a folder with the report beside it",
    "judge": "a terminal, by logs of what it said to cards",
    "sweep": "pulls the card out at every place of one purchase, and tabulates what came of it",
    "trace": "the trace of one purchase, from its scenario and its report",
    "tshark": "what Wireshark's dissector reads in messages in the style of ISO 8583",
    "terminal": "cases at a terminal of your own, each judged, and what they cover",
    "make": "cases in words, made into scenarios",
    "show": "a scenario's card in words",
    "card": "a card, by logs of what it answered, beside the proved card of its image",
    "card-of": "a card in words, as it was read",
    "host": "a host of your own over TCP: a scenario at it, or its replies beside those of the proved one",
    "serve": "the proved card, host or terminal, at a reader, on a socket or over TCP",
    "page": "a report or a log as one page to print, without scripts",
    "check": "what is wrong with a scenario's cards before anything runs",
}


def overview():
    """The parser of `lab` alone, without the commands' own words."""
    width = max(map(len, COMMANDS), default=0)
    lines = "\n".join(f"  {name:{width}}  {line}" for name, line in COMMANDS.items())
    parser = argparse.ArgumentParser(
        prog="lab", usage="lab COMMAND [-h] ..", formatter_class=argparse.RawDescriptionHelpFormatter,
        description="Verdicts on terminals, cards and hosts of other makes, by the proved programs.",
        epilog=f"commands:\n{lines}\n\nstatus: 0 passed, 1 failed, 2 wrong words or files, 3 inconclusive")
    parser.add_argument("command", choices=COMMANDS, metavar="COMMAND", help="one of those below; `lab COMMAND --help` says more")
    return parser


def command_of(name):
    """The parser of a command's own words, and its module."""
    command = importlib.import_module(f"yollenka.lab.{name.replace('-', '_')}")
    parser = parser_of(f"lab {name}", command.TEXT)
    command.arguments(parser)
    return parser, command


def carry_out(name, words):
    """Reads a command's own words, and carries it out; gives its status."""
    parser, command = command_of(name)
    return command.run(parser.parse_args(words))


def main(words):
    """Does what the words say; gives the status."""
    name = overview().parse_args(words[:1]).command
    return carried_out(f"lab {name}", carry_out, name, words[1:])
