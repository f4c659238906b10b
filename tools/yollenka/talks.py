"""What is said with a card or a host at lines (docs/use/reader.md), as a file: a document, a line `lines`, and what follows it.

    # What it is about, in words.
    [issuer]
    ..
    lines
    > H                 a message or a command, or `iso > H`
    < H                 and what it is answered
    because approved 2500
    balance 4761739001010010 500
    power 10,9,0,0,3,0
    why ac first app 0 asked tc made tc ..
    decided 2
    app 0 started 11
    app 0 first tc one 2500

Of the last five the answers alone stand there: they begin with what asks for them.
"""
from dataclasses import dataclass
from pathlib import Path
from typing import NamedTuple

from yollenka.faults import Fault

MARK = "lines"


class Turn(NamedTuple):
    """A line that is said, its answer, where it stands in the file, and a comment above it."""

    said: str
    answer: str
    number: int
    comment: str = ""


@dataclass
class Talk:
    """A talk: its name, the document (bytes) that stands first, and the turns."""

    name: str
    document: bytes
    turns: list

    def text(self):
        """The talk as a file has it."""
        return f"{self.document.decode()}{MARK}\n" + "".join(line for turn in self.turns for line in written(turn))


def is_answered_below(line):
    """Whether a line is a message or a command, whose answer is the next line."""
    return line.startswith(("> ", "iso > "))


def asked(line):
    """What asks for an answer that stands alone, or None."""
    word, *rest = line.split(" ")
    if word in ("because", "power", "why", "decided") and rest or word == "off" and not rest:
        return word
    if word == "balance" and len(rest) == 2:
        return f"balance {rest[0]}"
    return line if word == "pull" else None


def further(line, left):
    """The lines that stand behind the first one of an answer: as many as `decided N` says."""
    word, _, count = line.partition(" ")
    return [one for _, (_, one) in zip(range(int(count)), left)] if word == "decided" and count.isdigit() else []


def written(turn):
    """The lines of a turn."""
    yield from ([f"# {turn.comment}\n"] if turn.comment else [])
    yield from ([f"{turn.said}\n"] if is_answered_below(turn.said) else [])
    yield f"{turn.answer}\n"


def turns_in(lines, first, where):
    """The turns that these lines are, of which the first has this number. Raises Fault where one is none."""
    left = iter(enumerate(lines, first))
    for number, line in left:
        if not line.strip() or line.startswith("#"):
            continue
        if is_answered_below(line):
            _, answer = next(left, (0, ""))
            if not answer.startswith(("< ", "? ")):
                raise Fault(f"{where}: line {number + 1}: the answer to line {number} should stand here, as `< H`")
            yield Turn(line, answer, number)
        elif said := asked(line):
            yield Turn(said, "\n".join([line, *further(line, left)]), number)
        else:
            raise Fault(f"{where}: line {number}: {line[:60]!r} is none of `> H`, `iso > H`, `because ..`, `balance PAN N`, `power ..`, `why ..`, `decided N`")


def read_talk(path):
    """The talk in a file. Raises Fault where it is none."""
    try:
        text = Path(path).read_text()
    except OSError as error:
        raise Fault(f"{path}: {error.strerror}") from None
    except ValueError:
        raise Fault(f"{path} is no text") from None
    lines = text.splitlines()
    if MARK not in lines:
        raise Fault(f"{path}: it has no line `{MARK}`, behind which a talk begins")
    at = lines.index(MARK)
    head = "".join(f"{line}\n" for line in lines[:at])
    return Talk(Path(path).stem, head.encode(), list(turns_in(lines[at + 1 :], at + 2, path)))
