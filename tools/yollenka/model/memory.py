"""A card's memory, 64 pages of 64 cells which a torn write leaves unsure, and one state kept on it in a redo journal.

Page 0 is the gate, pages 1 to 17 are the home, page 18 is the journal's header and pages 19 to 35 are its pages.
"""
PAGES = CELLS = 64
GATE, HOME, HEADER, JOURNAL = 0, range(1, 18), 18, 19
SHUT, OPEN = 0, 1


class Lost(Exception):
    """Power went where the tear was planned."""


class Pages:
    """The pages as the program's own memory has them.

    A cell is the byte that was written last, perhaps torn, the one that it gave when it was torn, and the one that it gives. Where
    the first two differ it is unsure: from power-up to power-up it gives the one and the other by turns.
    """

    def __init__(self):
        self.cells = [[(0, 0, 0)] * CELLS for _ in range(PAGES)]
        self.tear, self.powered, self.torn = None, 0, set()

    def power_up(self, tear=None):
        """Turns them on; the tear is where power will go."""
        self.tear, self.commit, self.writes = tear, 0, 0
        self.powered += 1
        for page in self.torn:
            self.cells[page] = [self.settled(*place) for place in enumerate(self.cells[page])]

    def settled(self, number, cell):
        """What becomes of a cell at this power-up."""
        torn, kept, _ = cell
        return torn, kept, torn if (number + self.powered) % 2 == 0 else kept

    def read(self, page):
        """The bytes of a page; the same ones up to the next power-up."""
        return bytes(given for _, _, given in self.cells[page])

    def mark(self):
        """Begins a commit."""
        self.commit, self.writes = min(self.commit + 1, 255), 0

    def write(self, page, content):
        """Writes a page, or tears where that is planned."""
        self.writes += 1
        tear, before = self.tear, self.read(page)
        if tear and tear["commit"] == self.commit and tear["write"] == self.writes:
            if tear["at"] == "within":
                self.cells[page] = list(zip(content, before, before))
                self.torn.add(page)
            raise Lost
        self.cells[page] = [(byte, byte, byte) for byte in content]
        self.torn.discard(page)

    def release(self):
        """Ends a commit, or loses power where that is planned, and where a planned write didn't come."""
        tear = self.tear
        if tear and tear["commit"] == self.commit and (tear["write"] is None or tear["write"] > self.writes):
            raise Lost


def pieces(state):
    """A state with its length, a page each."""
    text = len(state).to_bytes(2) + state
    return [text[place : place + CELLS] for place in range(0, len(text), CELLS)]


class Store:
    """A state on pages."""

    def __init__(self, state):
        self.pages = Pages()
        self.pages.power_up()
        for page, piece in zip(HOME, pieces(state)):
            self.fill(page, piece)
        self.gate(SHUT)

    def fill(self, page, content):
        """Writes a page with zeros behind the content."""
        self.pages.write(page, content.ljust(CELLS, b"\0"))

    def gate(self, bit):
        """Writes the gate whole."""
        self.pages.write(GATE, bytes([bit]) * CELLS)

    def open(self, tear=None, converted=None):
        """Powers up, ends a commit that was cut behind its journal, and changes a state that has another form."""
        pages = self.pages
        pages.power_up(tear)
        bit = pages.read(GATE)[0] & 1
        self.gate(bit)
        if bit == OPEN:
            count, *home = pages.read(HEADER)
            for number in range(count):
                pages.write(home[number], pages.read(JOURNAL + number))
            self.gate(SHUT)
        text = b"".join(map(pages.read, HOME))
        self.state = text[2 : 2 + int.from_bytes(text[:2])]
        new = converted(self.state) if converted else None
        if new is not None:
            self.change(new)
        pages.release()

    def change(self, state):
        """Writes the pages that change to the journal, its header, the open gate, then the home and the shut gate."""
        old = b"".join(pieces(self.state))
        changed = [
            (page, piece) for page, piece in zip(HOME, pieces(state))
            if not old.startswith(piece, (page - HOME[0]) * CELLS)
        ]
        for number, (_, piece) in enumerate(changed):
            self.fill(JOURNAL + number, piece)
        self.fill(HEADER, bytes([len(changed), *(page for page, _ in changed)]))
        self.gate(OPEN)
        for page, piece in changed:
            self.fill(page, piece)
        self.gate(SHUT)
        self.state = state

    def commit(self, state):
        """Keeps another state."""
        self.pages.mark()
        self.change(state)
        self.pages.release()
