"""The man pages and the completions of all commands, from the texts and the words that the commands themselves have."""
import os
import re

from yollenka import explaining
from yollenka.lab import COMMANDS, command_of
from yollenka.manual import Lines, man, plain

# As wide as the help is laid out, whatever the screen is.
WIDTH = "100"
# The words of emvrun that stand in its help, and behind which a file is expected.
EMVRUN = ("read", "replay", "check", "generate", "-q", "--build", "--help", "--version")
SHELL = """\
# Completion of {name} for bash.
_{name}()
{{
    local word=${{COMP_WORDS[COMP_CWORD]}}
    local words="{words}"
{cases}    COMPREPLY=($(compgen -W "$words" -- "$word") $(compgen -f -- "$word"))
}}
complete -o filenames -F _{name} {name}
"""
CASE = """\
    case ${{COMP_WORDS[1]}} in
{rows}    esac
"""


def help_of(name):
    """What a command of lab prints for `--help`."""
    before = os.environ.get("COLUMNS")
    os.environ["COLUMNS"] = WIDTH
    try:
        return command_of(name)[0].format_help()
    finally:
        os.environ.pop("COLUMNS")
        os.environ.update({"COLUMNS": before} if before else {})


def lab_sections():
    """The man page of lab: its commands, and the help of each."""
    yield "NAME", ["lab - verdicts on terminals, cards and hosts of other makes, and many runs of scenarios"]
    yield "SYNOPSIS", [("`lab` COMMAND [`-h`] ..", "")]
    yield "COMMANDS", [(f"`{name}`", f"{line[0].upper()}{line[1:]}.") for name, line in COMMANDS.items()]
    for name in COMMANDS:
        yield f"LAB {name.upper()}", [Lines(help_of(name))]
    yield "EXIT STATUS", [("0", "Passed."), ("1", "Failed."), ("2", "Wrong words or files."), ("3", "Inconclusive.")]


def explain_sections():
    """The man page of explain, from its help."""
    head, text = explaining.TEXT.split("\n", 1)
    synopsis, what = head.split(": ", 1)
    yield "NAME", [f"explain - {what.rstrip('.')}"]
    yield "SYNOPSIS", [(synopsis, "")]
    yield "DESCRIPTION", [Lines(text.strip("\n"))]


def man_pages():
    """The man page of each command, by its name."""
    return {"emvrun": man(), "explain": man("EXPLAIN", list(explain_sections())), "lab": man("LAB", list(lab_sections()))}


def words_in(text):
    """The options that a help names."""
    return list(dict.fromkeys(re.findall(r"(?<![\w-])--?[a-z][a-z-]*", text)))


def completion(name, words, rows=""):
    """A command's completion: its words, and other words behind some of them."""
    return SHELL.format(name=name, words=" ".join(words), cases=CASE.format(rows=rows) if rows else "")


def completions():
    """The completion of each command, by its name."""
    emvrun = [word for word in EMVRUN if word in plain()]
    rows = "".join(f'        {name}) words="{" ".join(words_in(usage_of(name)))} --help";;\n' for name in COMMANDS)
    return {
        "emvrun": completion("emvrun", emvrun),
        "explain": completion("explain", [*words_in(explaining.TEXT), "--help"]),
        "lab": completion("lab", [*COMMANDS, "--help"], rows),
    }


def usage_of(name):
    """The words of a command of lab, as argparse sums them up."""
    return command_of(name)[0].format_usage()
