"""What `emvrun --help` prints and what the man page docs/use/emvrun.1 says: one text."""
import re
import textwrap

WIDTH = 100
# Paragraphs, and pairs of a term and its text. Words in backticks are typed as they stand.
SECTIONS = [
    ("NAME", ["emvrun - runs terminals, cards and an issuer by EMV 4.3 from one document, byte for byte"]),
    ("SYNOPSIS", [
        ("`emvrun` [`-q`] `replay` < SCENARIO.toml", ""),
        ("`emvrun` [`-q`] `read` < SCENARIO.toml", ""),
        ("`emvrun` [`-q`] `check` < TRACE.toml", ""),
        ("`emvrun` [`-q`] `generate` N", ""),
        ("`emvrun` `--build` | `--help` | `--version`", ""),
        ("`explain` [`-q`] [`--brief`] [`--ends`] [`--why`] [`--books`] [`--lane` N] [`--purchase` N] [SCENARIO.toml]", ""),
        ("`explain` `--build` | `--help`", ""),
    ]),
    ("DESCRIPTION", [
        "A scenario is a TOML document with an issuer's keys and accounts, cards with their applications and records, "
        "and terminals with their purchases. emvrun runs it and prints every command, answer and message, how each "
        "purchase ended, what each card has counted, and what each account has paid. Nothing is drawn at random: the "
        "same document gives the same report each time.",
        "The program's report is on standard output. What the launcher says for people is on standard error, behind "
        "the word `emvrun:`, as which build answers and where in a refused document the fault stands.",
    ]),
    ("COMMANDS", [
        ("`replay`", "Runs all purchases, the settlement, an audit of every card, and prints the balances."),
        ("`read`", "Takes the first purchase of the first terminal up to the end of reading, and prints the data "
                   "objects that the card gave."),
        ("`check`", "Compares what was said between a terminal, a card and the issuer with what this project's terminal "
                    "says to the same answers: `check ok`, or the first entry that differs."),
        ("`generate` N", "Runs a scenario of N purchases, 1 to 10000, that nobody has to write, and prints three lines "
                         "that sum it up."),
        ("`explain`", "A program of its own: puts words below each line of a report. With a scenario it runs `replay` "
                      "first; without one the report comes on standard input."),
    ]),
    ("OPTIONS", [
        ("`-q`", "First of all words: the launcher says nothing but what keeps it from running the program."),
        ("`--build`", "Proves and builds the program with all that it stands on, a line for each crate."),
        ("`--help`", "Prints this text."),
        ("`--version`", "Prints the version, the build that would answer, and the toolchain."),
    ]),
    ("BUILDS", [
        "A build counts by what its sources hold, whatever their times. Without a proved program of the sources as they are "
        "the launcher makes a trial build, in one to two minutes. It is not proved, it checks itself as it runs, and it is "
        "some 300 times slower: 15 ms for a purchase, where the proved program takes 0.05 ms. The launcher warns before work "
        "that takes it more than five seconds.",
        "Behind a trial build a quick one is made beside all else, of the same code by an optimising compiler. It is not proved "
        "either, and takes a few times as long as the proved program.",
        "`--build` proves as many crates at a time as processors and memory allow, which from nothing takes twenty minutes "
        "on four quick processors, and twice that on slow ones. What is proved is kept, also where it is ended.",
    ]),
    ("EXIT STATUS", [
        ("0", "The scenario was run to its end, whatever became of its purchases; or the trace was compared."),
        ("1", "The scenario or the trace is refused; the report is one line, `refused` with the fault and its place. Or there is no "
              "build, and none can be made."),
        ("2", "The words on the command line are others than those above."),
        ("3", "Standard input failed."),
        ("4", "Standard output failed."),
        ("5", "There was no memory."),
    ]),
    ("FILES", [
        ("docs/use/scenario.md", "Every key of a scenario; docs/use/scenario.schema.json is the same for editors."),
        ("docs/use/trace.md", "The document that `check` reads; docs/use/trace.schema.json is the same for editors."),
        ("docs/use/report.md", "Every line of a report."),
        ("docs/use/questions.md", "Questions, each answered by one command."),
        ("examples/README.md", "The examples by what one wants to see."),
    ]),
    ("EXAMPLES", [
        ("`./emvrun replay < examples/offline-approval.toml`", "Runs one purchase."),
        ("`./explain --ends examples/decline-by-action-code.toml`", "Says why a purchase was declined."),
        ("`./emvrun check < examples/traces/offline-approval.toml`", "Checks a trace."),
        ("`./lab sweep examples/pin-tries.toml 0 1`", "Pulls the card out at every place of a purchase."),
        ("`./lab expect FOLDER`", "Compares every scenario of a folder with the report beside it."),
    ]),
]


def usage():
    """One line of the words that the program takes, as it prints it for others."""
    return "usage: emvrun read|replay|generate N|check"


def plain():
    """The text for a screen."""
    lines = []
    for title, parts in SECTIONS:
        lines += ["", title]
        for part in parts:
            term, text = part if isinstance(part, tuple) else (None, part)
            if term is not None:
                lines.append("  " + term.replace("`", ""))
            indent = "  " if term is None else "      "
            lines += textwrap.wrap(text.replace("`", ""), WIDTH, initial_indent=indent, subsequent_indent=indent)
    return "\n".join(lines[1:]) + "\n"


def escaped(text):
    """A text as troff takes it: marks of its own are written out, and words in backticks are bold."""
    text = text.replace("\\", "\\e").replace("-", "\\-")
    text = re.sub(r"`([^`]*)`", r"\\fB\1\\fR", text)
    return re.sub(r"^([.'])", r"\\&\1", text)


class Lines(str):
    """A text whose lines stay as they are."""


def as_it_stands(text):
    """A text line by line, as troff takes it."""
    return [".nf", *(escaped(line) for line in text.rstrip().split("\n")), ".fi"]


def man(name="EMVRUN", sections=None):
    """The man page of a command; of emvrun without words."""
    lines = [f'.TH {name} 1 "" "Yollenka" "User commands"']
    for title, parts in sections or SECTIONS:
        lines.append(f".SH {title}")
        for number, part in enumerate(parts):
            if isinstance(part, Lines):
                lines += as_it_stands(part)
            elif isinstance(part, str):
                lines += ([".PP"] if number else []) + [escaped(part)]
            elif part[1]:
                lines += [".TP", escaped(part[0]), escaped(part[1])]
            else:
                lines += ([".br"] if number else []) + [escaped(part[0])]
    return "\n".join(lines) + "\n"
