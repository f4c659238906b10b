"""Random changes: a card's answers, a trace's entries, and documents with faults."""
from copy import deepcopy

from .objects import is_constructed, objects, spelled, tag_bytes

STATUSES = "9000 6283 6300 63C1 63C0 6700 6983 6984 6985 6A81 6A82 6A83 6A88 6D00 6200 9100".split()
TAGS = [int(tag, 16) for tag in (
    "6F 84 A5 50 87 9F38 88 61 4F 70 77 80 82 94 9F27 9F36 9F26 9F10 9F13 8E 5A 5F24 8C 8D 9F07 5F28 9F42 9F0E 9F14 9F23 BF0C "
    "9F8101 DF11 73 5F25 9F08 5F34"
).split()]
TEMPLATES = [0x70, 0x77, 0xA5, 0xBF0C, 0x61, 0xE1]
ENTRIES = ["< gone", "host < none", "end approved offline", "< 9000", "> 00", "host < e2048a023030", "< -", "> -"]
TEXTS = (
    "||0|00|1c0|zz|9F|840|84a|12345678901234567|1234567890123456789|12345678901234567890|123|1234567890123|TERM0001|term-001|ok|twice|"
    "tlv|iso|before|after|release|within|240230|241332|240631|c1|C1|c 1|CREDIT\u00e9|\u0660\u0661\u0662|block|count 256|count 01|"
    "count  1|pin 123|pin 1234 bad|bad|amount 1000000000000|unblock bad bad| |+1|-1"
).split("|") + ["a" * 17, "00" * 17, "00" * 257, "0" * 600, "f" * 8193]
NUMBERS = [
    -1, 0, 1, 2, 3, 9, 10, 11, 15, 16, 20, 21, 26, 27, 30, 31, 40, 41, 48, 50, 51, 64, 99, 100, 112, 128, 255, 256, 65535, 65536,
    2**32 - 1, 2**32, 999_999_999_999, 1_000_000_000_000, 2**63 - 1, -(2**63),
]
VALUES = [*TEXTS, *NUMBERS, True, False, 1.5, [], {}, [1], ["1234"], [{}], [[]], {"a": 1}, ["1234"] * 16, ["4761739001010010"] * 101]
KEYS = (
    "issuer account card lane schedule copies ac_key pan currency balance blocked pin scripts arpc status when id commands name app "
    "canned version pse label priority pdol aip afl gpo_format ac_format cdol1 cdol2 record sequence counter last_online count_limit "
    "sum_limit tries currency_two limit_two log log_sfi sfi number bytes kind country caps exceptions aid purchase dialect durable "
    "partial denial online default floor threshold target max_target amount other trade services date time word pins forced confirm "
    "link tear terminal_tear commit at write trace pin_key zeta Alpha a.b \u00e9"
).split() + ["", "a b"]

# Keys that mean something in one kind of lane, purchase or card alone.
LATE = ["dialect", "durable", "link", "tear", "terminal_tear", "version", "pse", "canned", "app", "log_sfi", "currency_two"]


class Tree:
    """An object whose value may be objects."""

    def __init__(self, tag, value):
        self.tag, self.value = tag, value
        self.inner = trees(value) if is_constructed(tag) else None


def trees(data):
    """The objects of these bytes, or None where there is a fault."""
    found, fault = objects(data)
    return None if fault is not None else [Tree(one.tag, one.value) for one in found]


def lists_in(nodes):
    """Each list of objects, at any depth, that has one."""
    if nodes:
        yield nodes
        for node in nodes:
            yield from lists_in(node.inner or [])


class Spoiler:
    """Changes things by the numbers that a Draw gives."""

    def __init__(self, draw):
        self.draw, self.one_of, self.below = draw, draw.one_of, draw.below

    def octet_put(self, data):
        """Bytes with one turned, left out or put in."""
        at = self.below(len(data) + 1)
        one = bytes([self.one_of([0, 0x80, 0x81, 0x82, 0xFF, 0x9F, 0x5F, self.below(256)])])
        return self.one_of([data[:at] + one + data[at + 1 :], data[:at] + data[at + 1 :], data[:at] + one + data[at:]])

    def written(self, nodes):
        """The bytes of objects, of which some are spelled otherwise."""
        data = b""
        for node in nodes:
            value = node.value if node.inner is None else self.written(node.inner)
            spelling = self.below(60)
            if spelling < 2:
                data += tag_bytes(node.tag) + b"\x82" + len(value).to_bytes(2) + value
            elif spelling == 2:
                data += tag_bytes(node.tag) + bytes([self.one_of([0x80, 0x83, 0xFF, len(value) + 1 & 0x7F])]) + value
            else:
                data += spelled(node.tag, value)
            data += bytes(self.one_of([1, 2])) if self.below(30) == 0 else b""
        return data

    def node_put(self, nodes):
        """Changes one of these objects: gone, doubled, moved, of another tag or value, in a template, or a new one beside it."""
        at, other = self.below(len(nodes)), self.below(len(nodes) + 1)
        node, change = nodes[at], self.below(9)
        if change == 0:
            nodes.pop(at)
        elif change == 1:
            nodes.insert(other, deepcopy(node))
        elif change == 2:
            nodes.insert(other, nodes.pop(at))
        elif change in (3, 4):
            node.tag = self.one_of(TAGS)
        elif change == 5:
            nodes[at] = Tree(self.one_of(TEMPLATES), b"")
            nodes[at].inner = [node]
        elif change in (6, 7):
            cut = node.value[: self.below(len(node.value) + 1)]
            node.value, node.inner = self.one_of([self.octet_put(node.value), cut]), None
        else:
            nodes.insert(other, Tree(self.one_of(TAGS), self.draw.octets(self.one_of([0, 1, 2, 3, 8]))))

    def body(self, data):
        """A changed body of an answer."""
        nodes = trees(data)
        change = self.below(20)
        if change < 6 or not nodes:
            return self.octet_put(data)
        if change < 9:
            return self.one_of([data[: self.below(len(data) + 1)], b"\0" + data, data + b"\0\0", data + data])
        self.node_put(self.one_of(list(lists_in(nodes))))
        return self.written(nodes)

    def answer(self, data):
        """A changed answer."""
        if len(data) < 2 or self.below(40) == 0:
            return data[: self.below(4)]
        body, status = data[:-2], data[-2:]
        if self.below(8) == 0:
            status = bytes.fromhex(self.one_of(STATUSES))
        else:
            body = self.body(body)
        return body[:256] + status

    def answers(self, given):
        """A card's answers, some of them changed."""
        answers = list(given)
        for at in {self.below(len(answers)) for _ in range(self.one_of([1, 1, 1, 2]))}:
            answers[at] = self.answer(answers[at])
        change = self.below(16)
        if change == 0:
            answers = answers[: self.below(len(answers) + 1)]
        elif change == 1:
            answers.insert(self.below(len(answers) + 1), self.one_of(given))
        return answers + [bytes.fromhex(self.one_of(STATUSES)) for _ in range(self.one_of([0, 0, 2]))]

    def entries(self, given):
        """A trace's entries with one change, or none."""
        entries, at, change = list(given), self.below(len(given)), self.below(12)
        if change < 3:
            entries.pop(at)
        elif change < 5:
            entries = entries[:at]
        elif change < 6:
            entries.insert(at, self.one_of(given))
        elif change < 7:
            entries[at] = self.one_of(ENTRIES)
        elif change < 11:
            entries[at] = self.entry(entries[at])
        return entries

    def entry(self, text):
        """An entry with another digit."""
        head, _, last = text.rpartition(" ")
        at = self.below(len(last))
        return f"{head} {last[:at]}{self.one_of('0123456789abcdef')}{last[at + 1 :]}"

    def document(self, document):
        """Puts a fault, or another value, into a document."""
        places = list(places_in(document))
        holder, key = self.one_of(places)
        change = self.below(20)
        if change < 5:
            del holder[key]
        elif change < 13:
            holder[key] = self.value(holder[key])
        elif change < 17:
            tables = [document, *(held[key] for held, key in places if isinstance(held[key], dict))]
            self.one_of(tables)[self.one_of([self.one_of(KEYS), self.one_of(LATE)])] = self.one_of(VALUES)
        else:
            arrays = [held[key] for held, key in places if isinstance(held[key], list)]
            array = self.one_of(arrays)
            array.insert(self.below(len(array) + 1), deepcopy(self.one_of([*array, *array, *array, self.one_of(VALUES)])))

    def value(self, old):
        """Another value, often one near the old one."""
        if isinstance(old, str) and self.below(5) < 2:
            near = [old + "0", old[:-1], old + "00", old[:-2], old[::-1], old.upper(), old + " ", old + "g", old.lower()]
            return self.one_of(near)
        if type(old) is int and self.below(5) < 2:
            return self.one_of([old + 1, old - 1, -old, old * 10, str(old)])
        return deepcopy(self.one_of(VALUES))


def places_in(value):
    """Each place in a document: its table or array, and the key or the number there."""
    if isinstance(value, (dict, list)):
        for key in list(value) if isinstance(value, dict) else range(len(value)):
            yield value, key
            yield from places_in(value[key])
