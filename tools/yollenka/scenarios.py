"""Scenarios as values, and runs of the program on them."""
import json
import re
import subprocess
import tomllib
from itertools import zip_longest
from pathlib import Path

from yollenka.faults import Fault

SECONDS = 600


class NoDocument(Fault):
    """A file that is no document, or none that Python reads."""


def read_document(path):
    """The document in a file, with or without a byte order mark."""
    try:
        return tomllib.loads(Path(path).read_bytes().decode("utf-8-sig"))
    except OSError as error:
        raise NoDocument(f"{path}: {error.strerror}") from None
    except UnicodeDecodeError as error:
        raise NoDocument(f"{path} is no document of TOML 1.0: {no_text(error)}") from None
    except (ValueError, RecursionError) as error:
        raise NoDocument(f"{path} is no document of TOML 1.0: {error}") from None


def no_text(error):
    """Where bytes stop to be a text, in words."""
    line = error.object[: error.start].count(b"\n") + 1
    return f"line {line}: byte {error.object[error.start]:02x} is no UTF-8"


def toml(value):
    """A value as TOML, on one line."""
    if isinstance(value, bool):
        return "true" if value else "false"
    if isinstance(value, str):
        return json.dumps(value, ensure_ascii=False).replace("\x7f", "\\u007f")
    if isinstance(value, list):
        return f"[{', '.join(map(toml, value))}]"
    if isinstance(value, dict):
        return f"{{ {', '.join(pair(*one) for one in value.items())} }}"
    return str(value)


def pair(key, value):
    """A key with its value."""
    return f"{key if re.fullmatch('[A-Za-z0-9_-]+', key) else json.dumps(key)} = {toml(value)}"


def document(scenario):
    """A scenario as a TOML document, a line for each of its keys. Raises NoDocument where its tables go in too deep."""
    try:
        return "".join(pair(*one) + "\n" for one in scenario.items()).encode()
    except RecursionError:
        raise NoDocument("the document's arrays or tables are nested too deep") from None


def in_tables(table, path=""):
    """A table as TOML with a head for each table in it, its plain keys first."""
    plain = [pair(*one) for one in table.items() if not is_table(one[1])]
    parts = ["\n".join(plain)] if plain else []
    for key, value in table.items():
        for one in (value if isinstance(value, list) else [value]) if is_table(value) else []:
            head = f"[[{path}{key}]]" if isinstance(value, list) else f"[{path}{key}]"
            body = in_tables(one, f"{path}{key}.")
            parts.append(f"{head}\n{body}")
    return "\n\n".join(parts)


def is_table(value):
    """Whether a value is a table or an array of tables."""
    return isinstance(value, dict) or isinstance(value, list) and value != [] and all(isinstance(one, dict) for one in value)


def output(program, word, text):
    """What the program prints for this document (bytes), and its status."""
    ended = subprocess.run([program, word], input=text, capture_output=True, timeout=SECONDS)
    return ended.stdout.decode(errors="replace"), ended.returncode


def first_difference(lines, wanted):
    """The first line that isn't the wanted one, or None."""
    for number, (line, want) in enumerate(zip_longest(lines, wanted), 1):
        if line != want:
            return f"line {number} is {line!r}, not {want!r}"
    return None


def word_for(report, text):
    """The word that gives such a report of this document (bytes): a trace is told by its entries or its one lane."""
    lines = report.splitlines() or [""]
    if lines[-1].startswith("read "):
        return "read"
    is_trace = lines[0].startswith("refused ") and re.search(rb"^\s*(?:trace\s*=|\[lane\])", text, re.MULTILINE)
    return "check" if is_trace or lines[0].startswith("check ") else "replay"


def purchase_lines(report, lane, number):
    """The lines of a lane's purchase, from 1: behind its end line before up to its own; and all lines behind that."""
    lines = report.splitlines()
    ends = [at for at, line in enumerate(lines) if line.startswith(f"L{lane} end ")]
    at = {int(lines[at].split(" ", 3)[2]): at for at in ends}
    begin = at[number - 1] + 1 if number - 1 in at else 0
    return [line for line in lines[begin : at[number] + 1] if line.startswith(f"L{lane} ")], lines[at[number] + 1 :]
