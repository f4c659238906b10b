"""The places at which a definition could be read otherwise, and those of the code: what kind each is, and where it stands.

A place is one comparison, one constant, one default, the order of two checks, the bits of a mask, which of several occurrences is
taken, or how many bytes there are. They are found by the text alone: in specs/ in the bodies of the public definitions, in src/ in
the bodies of functions and in constants, without contracts, ghost code and tests.
"""
import re
from functools import cache
from typing import NamedTuple

from yollenka.programs import PROGRAMS, ROOT, crates_of

COMPARISON, CONSTANT, DEFAULT, ORDER, BITS, OCCURRENCE, BYTES = KINDS = (
    "comparison", "constant", "default", "order", "bits", "occurrence", "bytes")
DEFINITION, CODE = SIDES = ("definition", "code")


class Place(NamedTuple):
    """Where something stands that could be otherwise: the side, the crate, the file from the root, the line and the column, both
    from 1, the kind, the text, and the definition or function that it is in."""

    side: str
    crate: str
    path: str
    line: int
    column: int
    kind: str
    text: str
    owner: str

    def where(self):
        """The place as a line for people."""
        return f"{self.path}:{self.line}:{self.column} {self.kind} {self.text} in {self.owner}"


PUBLIC = re.compile(r"^(?:unfoldable |abbrev )?pub (?:record |data )?([\w◌]+)")
PRIVATE = re.compile(r"^(?:unfoldable |abbrev |record |data )?([\w◌]+)[ :]")
# What each kind looks like in a definition, the first that fits at a place.
IN_DEFINITIONS = [
    (BITS, re.compile(r"\b(?:bit_and|bit_or|bit_at|tvr_bit|tsi_bit|bits_where|has_bit)\b")),
    (OCCURRENCE, re.compile(r"\b(?:sole_\w+|first_\w+|last_\w+|latest_\w+|list_find\w*|list_any|list_all|repeated\w*|is_again|\w*twice)\b")),
    (BYTES, re.compile(r"\b(?:length|count_of|slice_\w+|take|drop|list_take|list_drop)\b")),
    (COMPARISON, re.compile(r"\b(?:nat_lt|nat_le|bytes_eq|nat_eq)\b|==|[≤<≥≢≡]")),
    (ORDER, re.compile(r"&&|\|\||\belse if\b")),
    (DEFAULT, re.compile(r"\belse\b|\b(?:true|false)\b")),
    (CONSTANT, re.compile(r"\b0x[0-9A-Fa-f_]+\b|(?<![\w.#])\d+\b")),
]
IN_CODE = [
    (ORDER, re.compile(r"&&|\|\||\belse if\b")),
    (COMPARISON, re.compile(r"==|!=|<=|>=|(?<= )[<>](?= )")),
    (BITS, re.compile(r"(?<=[\w)\]] )[&|](?= \w)|\bcontains\b|\bof_conditions\b")),
    (OCCURRENCE, re.compile(r"\b(?:sole_\w+|find|rfind|position|any|all|first|last|split_first|split_last)(?=\()")),
    (BYTES, re.compile(r"\b(?:len|get|split_at)(?=\()|\.\.=?")),
    (DEFAULT, re.compile(r"\b(?:true|false)\b|(?<= )_ =>|\belse \{|\bunwrap_or\b")),
    (CONSTANT, re.compile(r"\b0x[0-9A-Fa-f_]+|(?<![\w.#])\d[\d_]*\b|b'[^']'|b\"[^\"]*\"")),
]
# Lines of a function that say something of it and do nothing.
SAID = re.compile(r"^\s*(?:requires|ensures|invariant|decreases|assert|ghost|#\[|//|use |pub use |mod |pub mod )")
FUNCTION = re.compile(r"^( *)(?:pub(?:\([^)]*\))? )?(?:const )?fn (\w+)")
VALUE = re.compile(r"^( *)(?:pub(?:\([^)]*\))? )?(?:const|static) (\w+)")


def without_texts(line):
    """A line whose texts between quotation marks are blanks."""
    return re.sub(r'(?<!b)"[^"]*"', lambda found: '"' + " " * (len(found[0]) - 2) + '"', line)


def found_in(line, rows):
    """The places of a line, without two at one column."""
    taken = {}
    for kind, pattern in rows:
        for found in pattern.finditer(line):
            if not any(at <= found.start() < at + len(text) for at, (_, text) in taken.items()):
                taken[found.start()] = kind, found[0]
    return sorted((at, kind, text) for at, (kind, text) in taken.items())


def in_definitions(path):
    """The places of a file of specs/, in its public definitions."""
    crate, owner = path.parts[-3] if path.parent.name == "specs" else path.parts[-4], None
    for number, line in enumerate(path.read_text().splitlines(), 1):
        if line and not line[0].isspace():
            owner = owner_of(line, owner)
        body = line.split("--")[0]
        if owner is None or PUBLIC.match(line) or not body.strip():
            continue
        for at, kind, text in found_in(body, IN_DEFINITIONS):
            yield Place(DEFINITION, crate, str(path.relative_to(ROOT)), number, at + 1, kind, text, owner)


def owner_of(line, before):
    """The public definition to which a line at the margin belongs; None where it is in none."""
    if found := PUBLIC.match(line):
        return found[1]
    if line.startswith(("use ", "--", "pub mod", "pub use")):
        return None
    found = PRIVATE.match(line)
    return before if found and found[1] == before or line.startswith((")", "where")) else None


def bodies(lines):
    """The lines of code in a file of src/, each with its number and the function or constant that it is in."""
    owner, margin, says, depth = None, "", False, 0
    for number, line in enumerate(lines, 1):
        if line.startswith("#[cfg(test") or line.startswith("mod tests"):
            return
        if found := FUNCTION.match(line):
            owner, margin, says, depth = found[2], found[1], True, 0
        elif owner is None and (found := VALUE.match(line)):
            yield number, line, found[2]
            continue
        if owner is None:
            continue
        if line == margin + "}":
            owner = None
        elif says:
            says = line != margin + "{"
        elif depth or SAID.match(line):
            # A statement of the proof may go on over several lines.
            depth = max(depth + line.count("{") + line.count("(") - line.count("}") - line.count(")"), 0)
        else:
            yield number, line, owner


def is_tried(path):
    """Whether a file has code that runs in a program, and no tests."""
    return not {"tests", "fixture"} & {*path.parts, path.stem}


def in_code(path):
    """The places of a file of src/."""
    crate = path.relative_to(ROOT / "crates").parts[0]
    for number, line, owner in bodies(path.read_text().splitlines()):
        for at, kind, text in found_in(without_texts(line.split("//")[0]), IN_CODE):
            yield Place(CODE, crate, str(path.relative_to(ROOT)), number, at + 1, kind, text, owner)


@cache
def definition_places():
    """All places of definitions."""
    paths = sorted(ROOT.glob("crates/*/specs/**/*.antt"))
    return [place for path in paths if "declared" not in path.parts for place in in_definitions(path)]


@cache
def code_places():
    """All places of the code that goes into programs."""
    crates = sorted({crate for name in PROGRAMS for crate in crates_of(name)})
    paths = [path for crate in crates for path in sorted((ROOT / "crates" / crate / "src").rglob("*.rt")) if is_tried(path)]
    return [place for path in paths for place in in_code(path)]
