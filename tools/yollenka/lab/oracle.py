"""The proved programs that answer line by line, as the references of verdicts; and the reasons that `explain` has."""
import subprocess

from yollenka.faults import Fault
from yollenka.lab.logs import CARD, HOST
from yollenka.lines import begin, end, program


class Reference:
    """The proved terminal at work on a lane with one purchase. `side` and `ask` are what it asks now; behind its end `end` is
    the text of its end line, before it None. `fed` has the dialogue as a trace's entries."""

    def __init__(self, text):
        self.process, self.lines = begin("terminal_at_reader", [], text)
        self.fed, self.side, self.ask, self.end = [], None, None, None
        self.take(self.lines.hear())

    def take(self, line):
        """Takes what the terminal says next."""
        if line.startswith("end "):
            self.end, self.ask, self.side = line[4:], None, None
        elif line.startswith(("> ", "host > ")):
            self.side = CARD if line.startswith(">") else HOST
            text = line.rsplit(" ", 1)[1]
            self.ask = b"" if text == "-" else bytes.fromhex(text)
        else:
            self.close()
            raise Fault(f"the lane is {line}" if line.startswith("refused ") else f"terminal_at_reader says {line!r}")
        self.fed.append(line)

    def reply(self, got):
        """Gives the card's answer or the host's reply; None is a card that is gone, or no reply."""
        nothing = "gone" if self.side == CARD else "none"
        text = nothing if got is None else got.hex() or "-"
        line = f"{'' if self.side == CARD else 'host '}< {text}"
        self.fed.append(line)
        self.lines.say(line)
        self.take(self.lines.hear_ask())

    def close(self):
        """Ends the terminal's program."""
        end(self.process)


def rows_of(lane):
    """The words that hand on to `explain` what a lane's terminal knows of each application."""
    for row in lane["aid"]:
        codes = (row["denial"], row["online"], row["default"])
        words = (0, lane["kind"], row["name"], int(row.get("partial", False)), *codes)
        yield from ("--terminal", ",".join(map(str, words)).upper())


def reasons(entries, lane):
    """For each entry of a dialogue the reasons that `explain` puts below it, without their first word."""
    lines = [f"L0 {entry.replace('end ', 'end 1 ', 1)}" for entry in entries]
    report = "\n".join(["L0 power c1 canned", *lines]) + "\n"
    try:
        run = subprocess.run([program("explain"), *rows_of(lane)], input=report.encode(), capture_output=True, timeout=60)
    except (OSError, subprocess.TimeoutExpired):
        return {}
    found, at = {}, -2
    for line in run.stdout.decode(errors="replace").splitlines():
        if not line.startswith("  "):
            at += 1
        elif line.strip().startswith("because "):
            found.setdefault(at, []).append(line.strip()[len("because "):])
    return found
