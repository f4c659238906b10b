"""Documents that are wrong on purpose: good ones, changed at random places in ways that come near to the limits of the format."""
import re

LIMITS = [0, 1, 2, 3, 9, 10, 15, 16, 30, 31, 63, 64, 99, 100, 127, 128, 255, 256, 1000, 1001,
          4096, 10000, 10001, 65535, 65536, 200000, 200001, 4294967295, 4294967296,
          999999999999, 1000000000000, 9223372036854775807, 9223372036854775808]
NUMBER = re.compile(rb"(?<=[ =\[,])\d+(?=[\s,\]])")
KEY = re.compile(rb"^[ \t]*([A-Za-z_0-9]+)(?= *=)", re.M)
TEXT = re.compile(rb'"([^"\n]*)"')
TABLE = re.compile(rb"^\[\[?[^\]\n]+\]\]?", re.M)
CANNED = re.compile(rb"^canned = \[([^\]]*)\]", re.M)
ISO_LANE = re.compile(rb'^dialect = "iso"', re.M)
DURABLE_LANE = re.compile(rb"^durable = true", re.M)
ENTRIES = re.compile(rb"^trace = \[([^\]]*)\]", re.M)


def flip(random, document):
    """Some bytes, each with one bit turned or wholly another."""
    changed = bytearray(document)
    for _ in range(random.choice([1, 1, 1, 2, 5, 40])):
        place = random.randrange(len(changed))
        if random.random() < 0.5:
            changed[place] ^= 1 << random.randrange(8)
        else:
            changed[place] = random.randrange(256)
    return bytes(changed)


def cut(random, document):
    """Without a piece, or without all behind a place."""
    start = random.randrange(len(document))
    if random.random() < 0.5:
        return document[:start]
    return document[:start] + document[start + random.randrange(1, 200):]


def double(random, document):
    """A piece twice, or very often."""
    start = random.randrange(len(document))
    end = min(len(document), start + random.choice([1, 8, 60, 400]))
    times = random.choice([1, 1, 1, 20, 2000])
    return document[:end] + document[start:end] * times + document[end:]


def replace_one(random, document, pattern, make):
    """One of the places that a pattern finds, made into something else."""
    found = list(pattern.finditer(document))
    if not found:
        return document + b"\n"
    one = random.choice(found)
    group = 1 if pattern.groups else 0
    return document[: one.start(group)] + make(one.group(group)) + document[one.end(group):]


def rename(random, document):
    """A key under another name: one more letter, another key's name, none."""
    names = [m.group(1) for m in KEY.finditer(document)] or [b"x"]
    return replace_one(random, document, KEY, lambda key: random.choice(
        [key + b"x", key[:-1], key.upper(), random.choice(names), b'"' + key + b'\\u0000"', b"z" * 300]))


def number(random, document):
    """A number at a limit, one past it, or of another kind."""
    def make(_old):
        at = random.choice(LIMITS) + random.choice([-1, 0, 1])
        return random.choice([str(at), str(-at), "0x%x" % abs(at), str(at) + ".5", "true", '"%d"' % at,
                              "1" + "0" * 40, "inf", "[]"]).encode()
    return replace_one(random, document, NUMBER, make)


def text(random, document):
    """A text one byte longer or shorter, empty, very long, or of other characters."""
    def make(old):
        return random.choice([b"", old + b"0", old + b"00", old[:-1], old[:-2], old * 2, old * 300,
                              old.lower(), b"g" + old[1:], b"\xc3\xa9" + old, b"\xff" + old,
                              b"\\u0000" + old, b" " + old, b"00" * random.choice([1, 16, 248, 249, 257])])
    return replace_one(random, document, TEXT, make)


def table(random, document):
    """A table's head under another form, or the last table once more, up to and past every limit."""
    if random.random() < 0.5:
        return replace_one(random, document, TABLE, lambda head: random.choice(
            [head[1:-1], b"[" + head + b"]", head + b"\n" + head, b"[[x]]", b""]))
    heads = list(TABLE.finditer(document))
    if not heads:
        return document * 2
    last = document[heads[-1].start():]
    return document + (b"\n" + last) * random.choice([1, 3, 16, 61, 64, 65, 1000])


def card(random, document):
    """Bytes of a hexadecimal text turned, cut out or doubled: it stays hexadecimal."""
    def make(old):
        try:
            held = bytearray(bytes.fromhex(old.decode()))
        except ValueError:
            return old
        for _ in range(random.choice([1, 1, 2, 6])):
            place = random.randrange(len(held) + 1)
            byte = random.choice([0, 0x1F, 0x7F, 0x80, 0x81, 0x82, 0x9F, 0xFF, random.randrange(256)])
            change = random.randrange(3)
            held[place:place + (change != 0)] = bytes([byte] * (change != 2))
        return held.hex().upper().encode()
    return replace_one(random, document, TEXT, make)


def answers(random, document):
    """The answers of a canned card: one changed, left out or twice, two in each other's place, or all cut short."""
    def make(old):
        listed = TEXT.findall(old)
        place = random.randrange(len(listed) + 1)
        change = random.randrange(5)
        if change == 0:
            listed[place:place + 1] = []
        elif change == 1:
            listed[place:place] = listed[place:place + 1]
        elif change == 2:
            listed[place:place + 2] = reversed(listed[place:place + 2])
        elif change == 3:
            listed = [answer[:2 * random.randrange(len(answer) // 2 + 1)] for answer in listed]
        else:
            listed[place:place] = [random.randbytes(random.choice([0, 1, 2, 3, 16, 258])).hex().encode()]
        return b", ".join(b'"%s"' % answer for answer in listed)
    return replace_one(random, document, CANNED, make)


def entry(random):
    """An entry, of few bytes or of as many as one may have and more."""
    mark = random.choice([b"> ", b"< ", b"host > ", b"host < "])
    count = random.choice([0, 1, 2, 16, 258, 259, 261, 262, 2048, 2049, 4100])
    return random.choice([b"< gone", b"host < none", b"end ", b"end x", b"", mark, mark + b"-", b"",
                          mark + random.randbytes(count).hex().encode()])


def entries(random, document):
    """The entries of a trace: one left out, twice, exchanged with the next or another one, or all behind a place left out."""
    def make(old):
        listed = TEXT.findall(old)
        place = random.randrange(len(listed) + 1)
        change = random.randrange(5)
        if change == 0:
            listed[place:place + 1] = []
        elif change == 1:
            listed[place:place] = listed[place:place + 1] * random.choice([1, 1, 2000])
        elif change == 2:
            listed[place:place + 2] = reversed(listed[place:place + 2])
        elif change == 3:
            listed[place:] = []
        else:
            listed[place:place + random.randrange(2)] = [entry(random)]
        return b", ".join(b'"%s"' % one for one in listed)
    return replace_one(random, document, ENTRIES, make)


def nibbles(random, document):
    """A digit of an entry's bytes turned."""
    def make(old):
        places = [place for place, byte in enumerate(old) if byte in b"0123456789abcdef"]
        if not places:
            return old
        place = random.choice(places)
        return old[:place] + random.choice([b"0", b"1", b"7", b"8", b"f"]) + old[place + 1:]
    return replace_one(random, document, ENTRIES, make)


MUTATIONS = [flip, cut, double, rename, number, text, table, card, card]
OF_CANNED = [answers, answers, card, card, card, flip, number]
OF_LANES = [number, number, card, card, text, table, flip, rename]
OF_TRACES = [*MUTATIONS, entries, entries, entries, entries, nibbles, nibbles, nibbles, nibbles]


def mutated(random, document, kinds):
    """A document that one to three of these kinds have changed, behind the first one's name."""
    chosen = [random.choice(kinds) for _ in range(random.choice([1, 1, 1, 2, 3]))]
    for kind in chosen:
        document = kind(random, document or b"\n")
    return chosen[0].__name__, document
