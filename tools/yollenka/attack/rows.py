"""The rows that are run on a trial build, up to the first that notices a change: reports, talks, dialogues, words and the model."""
import re
import subprocess
import sys
from pathlib import Path

from yollenka.attack import inputs
from yollenka.programs import ROOT
from yollenka.scenarios import first_difference
from yollenka.talks import read_talk

SECONDS = 900
PYTHON = (sys.executable, "-B")


class Row:
    """Rows with a name: what they are, and whether a program passes them. `notices` gives what differs, or None."""

    def __init__(self, name, notices):
        self.name, self.notices = name, notices


def check(name, *words):
    """A check of the repository that takes a program."""
    def notices(path):
        command = [*PYTHON, ROOT / "checks" / name, *(word.format(path) for word in words)]
        ended = subprocess.run(list(map(str, command)), cwd=ROOT, capture_output=True, text=True, errors="replace", timeout=SECONDS,
                               stdin=subprocess.DEVNULL)
        return None if ended.returncode == 0 else (ended.stdout + ended.stderr).strip().splitlines()[0][:200]
    return Row(f"checks/{name}", notices)


def asked(path, text, turns):
    """The first of these turns that a program at lines answers otherwise, or None. It gets all lines at once."""
    said = b"document %d\n" % len(text) + text + "".join(f"{said}\n" for said, _ in turns if said is not None).encode()
    ended = subprocess.run([path], input=said, capture_output=True, timeout=SECONDS)
    return first_difference(ended.stdout.decode(errors="replace").splitlines(), [wanted for _, wanted in turns])


def talks(folder, mark):
    """The talks of a folder of examples."""
    def notices(program):
        for path in sorted((ROOT / "examples" / folder).glob("*.lines")):
            talk = read_talk(path)
            if fault := asked(program, talk.document, [(turn.said.removeprefix(mark), turn.answer) for turn in talk.turns]):
                return f"{path.name}: {fault}"
        return None
    return Row(f"examples/{folder}", notices)


def dialogue_turns(report):
    """What a terminal hears and says in the first purchase of a report."""
    lines = [line[3:] for line in report.decode().split("\nL0 end 1 ", 1)[0].splitlines() if line.startswith(("L0 > ", "L0 < ", "L0 host "))]
    end = re.search(r"(?m)^L0 end 1 (.*)$", report.decode())
    heard, said = [None], []
    for line in lines:
        # A terminal sees a card that is pulled out as gone.
        (heard if line.startswith(("< ", "host < ")) else said).append("< gone" if line == "< torn" else line)
    # Of a card that is out at its power-up, and of a terminal that lost its power, nobody tells how the terminal ended.
    is_told = end and not end[1].startswith(("cut power", "lost"))
    return list(zip(heard, [*said, f"end {end[1]}"])) if is_told else []


def dialogues():
    """The first purchases of all examples, at the terminal that stands at a reader."""
    def notices(program):
        for number, (spoken, report) in enumerate(inputs.dialogues_with_reports()):
            head, _, rest = spoken.partition(b"\n")
            document = rest[: int(head.split()[1])]
            turns = dialogue_turns(report)
            if turns and (fault := asked(program, document, turns)):
                return f"dialogue {number}: {fault}"
        return None
    return Row("reports' dialogues", notices)


REPORTS = check("reports", "{}")
# Of each program the rows that it has, the quick ones first.
ROWS = {
    "card_at_reader": [talks("card", "> "), check("model-card", "{}", "--commands", "5000")],
    "host_at_lines": [talks("host", ""), check("model-host", "{}", "--messages", "2000")],
    "terminal_at_reader": [dialogues()],
    "explain": [check("words", "{}"), check("explained", "0", "{}")],
    "emvrun": [REPORTS, check("model", "{}", "0", "300"), check("isolation", "{}")],
}


def first_to_notice(name, path):
    """The first row of a program that notices a change, with what it says; None where none does."""
    for row in ROWS[name]:
        try:
            said = row.notices(Path(path))
        except subprocess.TimeoutExpired:
            said = "it doesn't end"
        if said:
            return row.name, said
    return None
