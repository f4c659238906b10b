"""Logs, reports and lines that are wrong on purpose: good ones, changed line by line and digit by digit."""
import re

from yollenka.attack.documents import cut, double, flip

HEXADECIMAL = re.compile(rb"(?:[0-9A-Fa-f]{2}[ :]?){2,}")
NUMBER = re.compile(rb"(?<![0-9A-Za-z])-?\d+(?![0-9A-Za-z])")
WORD = re.compile(rb"[A-Za-z]{2,}")
# What a line may begin with in one of the forms of a log or at a program's lines.
MARKS = [b"> ", b"< ", b"host > ", b"host < ", b"L0 > ", b"L0 < ", b"L0 host > ", b"L0 host < ", b"S0 > ", b"S0 < ", b"L9 end 1 ", b"A c1 ",
         b"APDU: ", b"SW: ", b"Sending: ", b"Received (SW1=0x90, SW2=0x00):", b"A>> T=1 (4+0000) ", b"A<< (0000+2) (1ms) ", b"--> ", b"<-- ",
         b"C-APDU ", b"R-APDU ", b"Tx ", b"Rx ", b"bSendBuffer", b"bRecvBuffer", b"RESET", b"end ", b"iso > ", b"pull ", b"power ", b"because ",
         b"balance ", b"settle < ", b"settle > ", b"document ", b"trace = [", b"[lane]"]
# Lines that are none, or hardly one.
ODD = [b"", b" ", b"\0", b"\xff\xfe", b"\xef\xbb\xbf", b"> ", b"<", b"< gone", b"host < none", b"> 00", b"> 0", b"> zz", b"end", b"end approved",
       b"power", b"power torn", b"off", b"want", b"why", b"next", b"settle", b"settle < -", b"lost", b"lost captured", b"state", b"torn",
       b"accounts", b"because", b"pull 1 before 1", b"pull 255 within 255", b"pull 0 release", b"balance 1", b"# x",
       b"done 1", b"refused 1 Toml", b"-" * 100, b"\xe2\x80\xae", b"> " + b"00" * 300, b"> " + b"e1" * 5000]


def lines_of(text):
    """The lines of a text, without their ends."""
    return text.split(b"\n")


def lines(random, text):
    """A line left out, twice or often, exchanged with the next one, cut, joined to it, or all behind it left out."""
    listed = lines_of(text)
    place, change = random.randrange(len(listed)), random.randrange(6)
    if change == 0:
        del listed[place]
    elif change == 1:
        listed[place:place] = listed[place : place + 1] * random.choice([1, 1, 2, 300])
    elif change == 2:
        listed[place : place + 2] = reversed(listed[place : place + 2])
    elif change == 3:
        listed[place] = listed[place][: random.randrange(len(listed[place]) + 1)]
    elif change == 4:
        listed[place : place + 2] = [b"".join(listed[place : place + 2])]
    else:
        del listed[place:]
    return b"\n".join(listed)


def odd(random, text):
    """A line that is none among the others, or in the place of one."""
    listed = lines_of(text)
    place = random.randrange(len(listed) + 1)
    listed[place : place + random.randrange(2)] = [random.choice(ODD)]
    return b"\n".join(listed)


def marks(random, text):
    """A line with another mark before it, or with another one in place of its own."""
    listed = lines_of(text)
    place = random.randrange(len(listed))
    rest = listed[place] if random.random() < 0.5 else listed[place].partition(b" ")[2]
    listed[place] = random.choice(MARKS) + rest
    return b"\n".join(listed)


def replaced(random, text, pattern, make):
    """One of the places that a pattern finds, made into something else."""
    found = list(pattern.finditer(text))
    if not found:
        return odd(random, text)
    one = random.choice(found)
    return text[: one.start()] + make(one.group()) + text[one.end() :]


def digits(random, text):
    """Bytes in hexadecimal: a digit turned, left out or another character, a byte left out or twice, all of them left out or long."""
    def make(old):
        place = random.randrange(len(old))
        byte = random.choice([b"00", b"01", b"7f", b"80", b"81", b"82", b"84", b"9f", b"ff", b"70", b"77", b"6f"])
        return random.choice([old[:place] + b"8" + old[place + 1 :], old[:place] + old[place + 1 :], old[:place] + b"g" + old[place + 1 :],
                              old[: place // 2 * 2] + old[place // 2 * 2 + 2 :], old[: place // 2 * 2] + byte + old[place // 2 * 2 :],
                              old[: place // 2 * 2] + byte + old[place // 2 * 2 + 2 :], b"", b"-", old * 2, old * 200, old.swapcase()])
    return replaced(random, text, HEXADECIMAL, make)


def numbers(random, text):
    """A number at a limit, below 0, or none."""
    return replaced(random, text, NUMBER, lambda _: random.choice(
        [b"0", b"-1", b"1", b"255", b"256", b"65535", b"65536", b"4294967296", b"9" * 18, b"9" * 5000, b"\xd9\xa3", b"x", b"", b"1.5"]))


def words(random, text):
    """A word that is another one, in capitals, cut or doubled."""
    known = WORD.findall(text) or [b"x"]
    return replaced(random, text, WORD, lambda old: random.choice([random.choice(known), old.upper(), old[:-1], old * 2, b"", b"\xc3\xa9"]))


def ends(random, text):
    """Other ends of lines, a byte order mark, another coding, blanks around each line, or no end at all."""
    change = random.randrange(6)
    if change == 0:
        return text.replace(b"\n", random.choice([b"\r\n", b"\r", b"\n\n", b"\x0b", b"\xe2\x80\xa8", b" "]))
    if change == 1:
        return b"\xef\xbb\xbf" + text
    if change == 2:
        return text.decode(errors="replace").encode(random.choice(["utf-16", "utf-16-le", "utf-32"]))
    if change == 3:
        return b"\n".join(b" \t" + line + b" " for line in lines_of(text))
    return text.rstrip(b"\n") if change == 4 else text.replace(b" ", random.choice([b"", b"  ", b"\t", b"\xc2\xa0"]))


MUTATIONS = [flip, cut, double, lines, lines, lines, odd, odd, marks, digits, digits, digits, numbers, words, ends]
