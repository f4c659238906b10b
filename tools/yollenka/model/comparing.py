"""A program at lines beside the model: the first answer that differs, and the fewest lines behind which one does."""
import subprocess
from itertools import zip_longest

SECONDS = 600


def answers_of(program, text, lines):
    """What a program answers to these lines behind a document (bytes); its status stands last where it isn't 0."""
    said = b"document %d\n" % len(text) + text + "".join(f"{line}\n" for line in lines).encode()
    ended = subprocess.run([program], input=said, capture_output=True, timeout=SECONDS)
    answers = ended.stdout.decode(errors="replace").splitlines()
    return answers if ended.returncode == 0 else [*answers, f"status {ended.returncode}"]


def lines_of(answers):
    """Answers of one or more lines as the lines that are written."""
    return [line for answer in answers for line in answer.split("\n")]


def first_differing(answers, wanted):
    """The number, from 0, of the first answer that isn't the wanted one, or None."""
    pairs = enumerate(zip_longest(answers, wanted))
    return next((at for at, (answer, want) in pairs if answer != want), None)


def fewest(lines, differs):
    """Lines of which none can be left out: without it nothing differs."""
    size = len(lines)
    while size:
        at = 0
        while at < len(lines):
            fewer = lines[:at] + lines[at + size :]
            if differs(fewer):
                lines = fewer
            else:
                at += size
        size //= 2
    return lines


class Comparison:
    """A program and the model on a document with lines; `model` gives the lines of the answers to lines behind a document."""

    def __init__(self, program, model, text):
        self.program, self.model, self.text = program, model, text

    def differing(self, lines, wanted=None):
        """The first line of the answers that differs: its number, the program's and the model's; or None."""
        answers = answers_of(self.program, self.text, lines)
        wanted = self.model(self.text, lines) if wanted is None else wanted
        at = first_differing(answers, wanted)
        return None if at is None else (at, *(dict(enumerate(its)).get(at) for its in (answers, wanted)))

    def told(self, lines):
        """What is told of lines of which one is answered differently: the fewest such lines and the two answers."""
        lines = fewest(lines, lambda fewer: self.differing(fewer) is not None)
        at, answer, wanted = self.differing(lines)
        yield from self.text.decode().splitlines()
        yield from (f"  {line}" for line in lines[: at + 1])
        yield f"  the program: {answer}"
        yield f"  the model:   {wanted}"
