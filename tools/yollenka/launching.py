"""What the launchers `emvrun` and `explain` share: standard input that is read twice, warnings, hints on refusals.

A launcher answers at once, so what few runs need is imported where it is needed.
"""
import os
import signal
import stat

from yollenka.builds import is_slow, say, silent

# The program reads no more of a document than one byte above its limit.
LIMIT = 4_194_304
REFUSED = 1
# Seconds of a trial build: to begin, for each purchase, byte of the document and entry of its schedule.
BEGIN, PURCHASE, BYTE, TURN = 0.05, 0.016, 1.4e-6, 75e-6
SLOWER = 300
LONG = 5


class Document:
    """A document on an open file, which can be read more than once."""

    def __init__(self, number):
        self.number = number
        self.begin = os.lseek(number, 0, os.SEEK_CUR)

    def bytes(self):
        """What the program would read of it."""
        read, left = [], LIMIT + 1
        while left > 0 and (part := os.pread(self.number, left, self.begin + LIMIT + 1 - left)):
            read.append(part)
            left -= len(part)
        return b"".join(read)

    def rewind(self):
        """Goes back to where it begins."""
        os.lseek(self.number, self.begin, os.SEEK_SET)


def spooled(number):
    """What comes on this file, up to the program's limit, as a file that can be read again."""
    import tempfile
    file = tempfile.TemporaryFile()
    left = LIMIT + 1
    while left > 0 and (part := os.read(number, left)):
        file.write(part)
        left -= len(part)
    file.flush()
    copy = os.dup(file.fileno())
    os.lseek(copy, 0, os.SEEK_SET)
    return copy


def document_on(number):
    """The document on an open file, or what comes on a pipe."""
    return Document(number if stat.S_ISREG(os.fstat(number).st_mode) else spooled(number))


def standard_input():
    """The document on standard input; None where it can't be read, which is the program's to tell."""
    try:
        if os.isatty(0):
            say("the scenario is read from this terminal up to Ctrl-D; a file goes behind `<`")
        return document_on(0)
    except OSError:
        return None


def seconds_of(text):
    """How long a trial build takes for this document, roughly."""
    import re
    schedule = re.search(rb"^schedule\s*=\s*\[([^\]]*)\]", text, re.MULTILINE)
    turns = schedule[1].count(b",") + 1 if schedule else 0
    purchases = len(re.findall(rb"\bamount\s*=", text))
    return BEGIN + PURCHASE * purchases + BYTE * len(text) + TURN * turns


def warn(seconds, tell, program=None):
    """Warns before long work on a trial build; of a program that is named, only where it is the plain one."""
    if seconds > LONG and (program is None or is_slow(program)):
        tell(f"this takes about {seconds:.0f} s on a trial build, which is some {SLOWER} times slower than the proved "
             "program; `./emvrun --build` makes that one")


def start(program, words, number, out=1):
    """Starts the program with these files as its standard input and output; gives its number.

    What Python ignores, as a reader that went, it ignores too: then its write fails, and its status says so.
    """
    files = [(os.POSIX_SPAWN_DUP2, number, 0), (os.POSIX_SPAWN_DUP2, out, 1)]
    return os.posix_spawn(program, [str(program), *words], os.environ, file_actions=files)


def status_of(child):
    """Waits for a program; gives its status, as a shell would. Ctrl-C ends it too."""
    try:
        status = os.waitstatus_to_exitcode(os.waitpid(child, 0)[1])
    except KeyboardInterrupt:
        os.kill(child, signal.SIGTERM)
        os.waitpid(child, 0)
        return 130
    return status if status >= 0 else 128 - status


def run_on(program, words, document):
    """Runs the program on the document; gives its status."""
    document.rewind()
    return status_of(start(program, words, document.number))


def answer_again(program, words, document):
    """What the program answers, run once more."""
    import subprocess
    document.rewind()
    return subprocess.run([program, *words], stdin=document.number, stdout=subprocess.PIPE).stdout


def tell_place(program, words, document, tell):
    """Says where in a refused document the fault stands. It is run again for the line of its refusal."""
    from yollenka.refusals import hint
    text = hint(document.bytes(), answer_again(program, words, document))
    if text:
        tell(text)


def tell_wanted(program, words, document, tell):
    """Says what is wanted where a trace differs, and where to ask why."""
    from yollenka.differing import told
    for line in told(document.bytes(), answer_again(program, words, document)):
        tell(line)


def run(program, words, document, is_proved, tell):
    """Runs the program on the document, with a warning before and a hint behind it where there is something to say."""
    if not is_proved and tell is not silent:
        warn(seconds_of(document.bytes()), tell, program)
    status = run_on(program, words, document)
    if tell is not silent and status == REFUSED:
        tell_place(program, words, document, tell)
    elif tell is not silent and status == 0 and "check" in words:
        tell_wanted(program, words, document, tell)
    return status
