"""`lab tshark`: what Wireshark's dissector reads in messages in the style of ISO 8583."""
import re
from pathlib import Path

from yollenka.commandline import a_new_file
from yollenka.dissecting import LEAST, OPTIONS, as_dissected, capture, dissected, named, objects, split_55
from yollenka.faults import Fault
from yollenka.programs import ROOT
from yollenka.scenarios import read_document

TEXT = """\
What Wireshark's dissector of ISO 8583 reads in the messages of lanes whose dialect is "iso".

The files are scenarios NAME.toml, or folders of them, with their reports NAME.report beside them; without any it is the
examples. Each line of a message to the host and of its reply on such a lane, in the settlement too, is put into a TCP
segment of a capture, behind its length in two bytes, low byte first. Wireshark's reading of the type, of the bitmap and of
each field is compared with the scenario: the account number of the card, amount, transaction type and currency of the
purchase, the terminal's name, the counter of the object 9F36, the response code of the end line; field 55 with the bytes
behind it. Field 55 has a length of four digits here and of three in the dissector's table, so the first of them, which has
to be 0, is left out. Messages of fewer bytes than the dissector takes are counted apart.

--pcap needs no tshark: it writes the capture, and prints how it is looked at. Else the status is 0 where Wireshark reads
what the scenarios say, 1 where it doesn't, and 2 where `tshark`, its program for the command line, isn't installed.
"""
REPLIES = {"0110", "0230", "0410"}
FIELDS = {
    "0100": [2, 3, 4, 11, 37, 41, 49, 55], "0220": [2, 3, 4, 11, 37, 39, 41, 49, 55],
    "0400": [2, 4, 11, 37, 39, 41, 49, 55], "0110": [39, 55], "0230": [39, 55], "0410": [39, 55],
}
LOOK = """\
In Wireshark: Analyze, Decode As, TCP port 8583 as ISO 8583; Edit, Preferences, Protocols, ISO 8583: Length Endian
"Little endian", Charset "Digits represented as ASCII Characters", Binary encode "Bin data not encoded". Or at once:"""


def lines_of(report, lanes):
    """The messages of the report's lanes in this dialect: lane, whether it is a reply, bytes."""
    for line in report.splitlines():
        found = re.fullmatch(r"(?:L(\d+) host|S(\d+)) ([<>]) ([0-9a-f]+)", line)
        if found and (lane := int(found[1] or found[2])) in lanes:
            yield lane, found[3] == "<", bytes.fromhex(found[4])


def ends_of(report):
    """The codes that the end lines of a lane tell for a counter."""
    codes = {}
    for line in report.splitlines():
        if found := re.match(r"L(\d+) end .* arc=(\S+) atc=([0-9a-f]{4})", line):
            codes.setdefault((int(found[1]), found[3]), set()).add(found[2].encode())
    return codes


def digits(value, count):
    """The characters of a number in so many digits."""
    return b"%0*d" % (count, value)


def canned_numbers(answers):
    """The account numbers that a card of canned answers gives in its records."""
    for answer in answers:
        try:
            record = objects(objects(bytes.fromhex(answer)[:-2])["70"])
            yield record["5a"].hex().rstrip("f").encode()
        except (ValueError, LookupError):
            continue


def numbers_of(card):
    """The account numbers of a card: its applications', or those in its canned answers."""
    return {app["pan"].encode() for app in card.get("app", [])} | set(canned_numbers(card.get("canned", [])))


def text_of(path):
    """What a report has. Raises Fault where it is no text."""
    try:
        return path.read_text()
    except ValueError:
        raise Fault(f"{path} is no text") from None


class Sent:
    """A scenario with its report: what its messages hold, and what the dissector has to read in them."""

    def __init__(self, path):
        self.name, self.scenario = path.stem, read_document(path)
        report = text_of(path.with_suffix(".report"))
        try:
            self.lanes = {n for n, lane in enumerate(self.scenario["lane"]) if lane.get("dialect") == "iso"}
            self.cards = {card["name"]: numbers_of(card) for card in self.scenario["card"]}
        except (LookupError, TypeError, AttributeError):
            raise Fault(f"{path} is no scenario") from None
        self.codes, self.faults, self.short, self.messages = ends_of(report), [], 0, []
        try:
            for lane, is_reply, message in lines_of(report, self.lanes):
                self.take(lane, is_reply, message)
        except ValueError:
            raise Fault(f"{path.with_suffix('.report')}: a message has an odd number of digits") from None

    def take(self, lane, is_reply, message):
        """Takes a message of the report, where the dissector can read it."""
        parts = split_55(message)
        if parts is None:
            self.faults.append(f"{self.name}: lane {lane}: field 55 doesn't end the message {message.hex()}, or is too long")
        elif len(message) + 1 < LEAST:
            self.short += 1
        else:
            self.messages.append((lane, is_reply, message, *parts))

    def given(self):
        """The messages as the dissector gets them."""
        return [as_dissected(front, held) for *_, front, held in self.messages]

    def expected(self, kind, lane, counter):
        """Which values a call's fields may have, from the scenario and from the object 9F36."""
        purchases = self.scenario["lane"][lane].get("purchase", [])
        number = digits(int.from_bytes(counter, "big"), 6)
        want = {
            2: set().union(*(self.cards[p["card"]] for p in purchases)),
            4: {digits(p["amount"], 12) for p in purchases},
            11: {number},
            37: {b"000000" + number},
            41: {self.scenario["lane"][lane]["id"].encode()},
            49: {p["currency"].encode() for p in purchases},
        }
        if kind != "0400":
            want[3] = {digits(p.get("trade", 0), 2) + b"0000" for p in purchases}
        if kind != "0100":
            want[39] = self.codes.get((lane, counter.hex()), set())
        return want

    def compare(self, sent, read):
        """What differs between a message that was sent and what was read in it."""
        try:
            return self.differences(sent, read)
        except (LookupError, TypeError, ValueError, AttributeError):
            return [f"{self.name}: lane {sent[0]}: the scenario has no purchase with this message, or it can't be read: {sent[2].hex()}"]

    def differences(self, sent, read):
        """The same of a message that can be read, and of a scenario with its purchase."""
        (lane, is_reply, message, _, held), (kind, bits, fields) = sent, read
        where = f"{self.name}: lane {lane}, {message[:4].decode()}"
        if kind != message[:4].decode() or kind not in FIELDS or (kind in REPLIES) != is_reply:
            return [f"{where}: type {kind}"]
        wrong = [] if bits == message[4:12].hex() else [f"{where}: bitmap {bits}"]
        numbers = sorted(FIELDS[kind] + ([52] if 52 in named(message) else []))
        if named(message) != numbers or sorted(fields) != numbers:
            wrong.append(f"{where}: fields {sorted(fields)}, and not {numbers}")
        values = {55: {held}} | ({} if is_reply else self.expected(kind, lane, objects(held)["9f36"]))
        return wrong + [f"{where}: field {number} is {fields.get(number)}, and not {sorted(wanted)}"
                        for number, wanted in values.items() if fields.get(number) not in wanted]


def scenarios_of(files):
    """The scenarios among these files and folders that have a lane of this dialect and a report."""
    paths = [path for file in files for path in (sorted(file.glob("*.toml")) if file.is_dir() else [file])]
    for path in paths:
        if not path.exists():
            raise Fault(f"{path}: No such file or directory")
        if path.with_suffix(".report").exists() and b"iso" in path.read_bytes():
            found = Sent(path)
            if found.lanes:
                yield found


def write_capture(path, found):
    """Writes the capture, and says how it is looked at."""
    messages = [message for one in found for message in one.given()]
    path.write_bytes(capture(messages))
    print(f"{path}: {len(messages)} messages of {len(found)} scenarios")
    print(LOOK)
    words = [f'"{word}"' if " " in word else word for word in OPTIONS]
    print(f"  wireshark -r {path} {' '.join(words)}")
    return 0


def arguments(parser):
    """The words of this command."""
    parser.add_argument("files", nargs="*", type=Path, default=[ROOT / "examples"], metavar="FILE")
    parser.add_argument("--pcap", type=a_new_file, metavar="FILE", help="writes the messages as a capture instead")


def run(options):
    """Compares, or writes the capture."""
    found = list(scenarios_of(options.files))
    if options.pcap:
        return write_capture(options.pcap, found)
    wrong = [fault for one in found for fault in one.faults]
    count = sum(len(one.messages) for one in found)
    pairs = [(one, sent) for one in found for sent in one.messages]
    for (one, sent), read in zip(pairs, dissected([message for one in found for message in one.given()]), strict=True):
        wrong += one.compare(sent, read)
    print(*wrong, sep="\n", end="\n" if wrong else "")
    short = sum(one.short for one in found)
    print(f"{len(found)} scenarios, {count} messages, {len(wrong)} differences, {short} messages too short for the dissector")
    print("how to see them in Wireshark: lab tshark --pcap FILE")
    return 1 if wrong or not count else 0
