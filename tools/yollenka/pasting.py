"""Lines that people paste, made lines of a report before the program sees them.

Nothing is left out: a line that is none of these goes on as it came. Made one are

    > 80AE 4000 ..    an entry of a trace, without its lane: lane 0's
    L0 > 80 AE ..     bytes in capitals, or with blanks between
    95 80 40 00 00 00, 95: 8040000000
                      a data object and its value
    end approved ..   the end of a trace

and line ends of two bytes, blanks behind a line and byte order marks go.
"""
import os
import re

# The most bytes of a line that is told in words.
LONGEST = 8192
UNKNOWN = "no line of this is one of a report, of a trace or a data object: `./explain --help` says what is known"
ENTRY = re.compile(rb"(?:host )?[<>] (?:[0-9A-Fa-f -]+|none|gone|torn)")
SAID = re.compile(rb"((?:L\d+|S\d+|A [a-z0-9]+) (?:host )?[<>] )([0-9A-Fa-f ]+)")
OBJECT = re.compile(rb"(?:object )?([0-9A-Fa-f]{2}|[0-9A-Fa-f]{4}|[0-9A-Fa-f]{6})(?: *[:=] *| +)((?:[0-9A-Fa-f]{2} *)+|-)")
END = re.compile(rb"end (approved|declined|cut|terminated) ")
BLANKS = re.compile(rb"[ \t]+")
MARK = b"\xef\xbb\xbf"
KNOWN = re.compile(rb"(L\d+ (power|end|host|[<>]) |S\d+ [<>] |A [a-z0-9]+ |object |balance |refused |done |read |check )")


def as_line(line):
    """A line as it stands in a report, without its end; words, and one that is none of a report's, as they came."""
    if line.startswith(b"  "):
        return line
    made = made_line(line)
    return made if KNOWN.match(made) else line


def made_line(line):
    """What a line would be in a report."""
    line = BLANKS.sub(b" ", line.removeprefix(MARK)).strip(b" \r")
    if ENTRY.fullmatch(line):
        line = b"L0 " + line
    if END.match(line):
        line = b"L0 end 1 " + line.removeprefix(b"end ")
    said, value = SAID.fullmatch(line), OBJECT.fullmatch(line)
    if said:
        return said[1] + said[2].replace(b" ", b"").lower()
    if value:
        return b"object %s %s" % (value[1].lower(), value[2].replace(b" ", b"").lower())
    return line


def is_report_line(line):
    """Whether a line stands as it is in a report, or is none that is known."""
    return as_line(line) == line


def as_report(text):
    """A text with each of its lines as it stands in a report."""
    lines = text.split(b"\n")
    return b"\n".join(line if is_report_line(line) else as_line(line) for line in lines)


def has_known_line(text):
    """Whether some line is one of a report."""
    return any(map(KNOWN.match, text.split(b"\n")))


def report_of_trace(entries, place, wanted):
    """The lines of a trace up to the entry that differs, and what has to stand there: as a report."""
    told = [entry.encode() for entry in (entries if place is None else entries[: place + 1])]
    if place is not None:
        told.append(b"check differs %d" % place)
        told += [wanted.encode()] if wanted else []
    return b"".join(as_line(line) + b"\n" for line in told)


def send_lines(source, to):
    """Hands on the lines of a file as they come, each as it stands in a report; whether one was known."""
    known, left = False, b""
    while part := os.read(source, 65536):
        lines = (left + part).split(b"\n")
        left = lines.pop()
        told = [line if is_report_line(line) else as_line(line) for line in lines]
        known = known or any(map(KNOWN.match, told))
        os.write(to, b"".join(line + b"\n" for line in told))
        if len(left) > LONGEST:
            os.write(to, left)
            left = b""
    os.write(to, as_line(left) + b"\n" if KNOWN.match(as_line(left)) else left)
    return known or KNOWN.match(as_line(left)) is not None


def pasted_lines(program, words, tell):
    """Explains what comes on standard input, line by line; gives the program's status."""
    from yollenka.launching import start, status_of
    back, to = os.pipe()
    os.set_inheritable(to, False)
    said = start(program, words, back)
    os.close(back)
    try:
        known = send_lines(0, to)
    except BrokenPipeError:
        known = True  # the program has ended, and its status says why
    os.close(to)
    status = status_of(said)
    if not known and status == 0:
        tell(UNKNOWN)
    return status
