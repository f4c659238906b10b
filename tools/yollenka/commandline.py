"""How every command of the repository takes its words, and what it says where they are wrong: one line, and never a traceback.

`--help` prints the command's own text and ends with 0, words that it doesn't know end with 2, and so does a Fault.
"""
import argparse
import os
import sys
from pathlib import Path

from yollenka.faults import Fault

WRONG_WORDS, STOPPED = 2, 130


def parser_of(name, text):
    """A parser whose help is this text, line by line."""
    return argparse.ArgumentParser(prog=name, description=text, formatter_class=argparse.RawDescriptionHelpFormatter)


def positive(text):
    """A whole number from 1 on."""
    if not (text.isascii() and text.isdecimal() and int(text) > 0):
        raise argparse.ArgumentTypeError(f"{text!r} is no whole number from 1 on")
    return int(text)


def counted(text):
    """A whole number from 0 on."""
    if not (text.isascii() and text.isdecimal()):
        raise argparse.ArgumentTypeError(f"{text!r} is no whole number from 0 on")
    return int(text)


def seconds(text):
    """A time in seconds, 0 or more."""
    try:
        found = float(text)
    except ValueError:
        found = -1.0
    if not 0 <= found < 1e9:
        raise argparse.ArgumentTypeError(f"{text!r} is no number of seconds")
    return found


def a_file(text):
    """A file that is there and can be read."""
    path = Path(text)
    if not path.exists():
        raise argparse.ArgumentTypeError(f"{text}: No such file or directory")
    if path.is_dir() or not os.access(path, os.R_OK):
        raise argparse.ArgumentTypeError(f"{text} is {'a folder' if path.is_dir() else 'not to be read'}")
    return path


def a_folder(text):
    """A folder that is there."""
    if not Path(text).is_dir():
        raise argparse.ArgumentTypeError(f"{text} is no folder")
    return Path(text)


def a_program(text):
    """A file that can be run, by its whole path."""
    if not os.path.isfile(text) or not os.access(text, os.X_OK):
        raise argparse.ArgumentTypeError(f"{text} is no program")
    return Path(text).resolve()


def a_new_file(text):
    """A file that can be written: it, or the folder in which it is to stand, is there."""
    path = Path(text)
    if path.is_dir() or not os.access(path if path.exists() else path.parent, os.W_OK):
        raise argparse.ArgumentTypeError(f"{text} can't be written")
    return path


def let_output_go():
    """What is still to be written goes nowhere."""
    os.dup2(os.open(os.devnull, os.O_WRONLY), 1)


def carried_out(name, run, *options):
    """Runs a command; gives its status, also where it ends by a fault, by Ctrl-C, or since nobody reads on or nothing can be written."""
    try:
        status = run(*options)
        if sys.stdout:
            sys.stdout.flush()
        return status
    except Fault as fault:
        print(f"{name}: {fault}", file=sys.stderr)
        return WRONG_WORDS
    except KeyboardInterrupt:
        return STOPPED
    except BrokenPipeError:
        let_output_go()
        return 1
    except OSError as error:
        print(f"{name}: {f'{error.filename}: ' if error.filename else ''}{error.strerror}", file=sys.stderr)
        let_output_go()
        return WRONG_WORDS


# Rows of what argparse takes that several scripts have: another program than the proved one, and a page made anew.
PROGRAM = ("program", {"nargs": "?", "type": a_program, "metavar": "PROGRAM", "help": "which is tried, in place of the repository's"})
NUMBERS = ("numbers", {"nargs": "*", "type": counted, "metavar": "FIRST LAST", "help": "the numbers from FIRST to LAST alone"})
WRITE = ("--write", {"action": "store_true", "help": "makes anew what would be compared"})


def first_and_last(numbers):
    """The numbers from the first to the last one; None where none are named."""
    if len(numbers) not in (0, 2):
        raise Fault("FIRST and LAST are two numbers")
    return range(numbers[0], numbers[1] + 1) if numbers else None


def script():
    """The name under which this script was called."""
    return os.path.basename(sys.argv[0])


def words_of(text, *rows):
    """What a script's words say: rows of what argparse takes of each, and `--help`."""
    parser = parser_of(script(), text)
    for *names, how in rows:
        parser.add_argument(*names, **how)
    return parser.parse_args()


def begin(run, text, *rows):
    """A script's whole main: reads its words and runs it with what they say, or with nothing where it has none."""
    options = words_of(text, *rows)
    sys.exit(carried_out(script(), run, *([options] if rows else [])))
