"""Tools that build test runs: board files and fault sheets, runs, what-ifs and lines with what they are to be
answered."""

from typing import NamedTuple, Optional

from bankparts import cells, clear_words
from making import NONE, Draft, device, plain_links

OUTCOME = 65535           # the index that stands for the line of the outcome
PREPARE, SUSPEND, LATE, NOIRQ = 1, 2, 3, 4
PHASES = {PREPARE: "prepare", SUSPEND: "suspend", LATE: "late", NOIRQ: "noirq"}


# --- Boards and sheets ------------------------------------------------------

def draft(counts, words=None, parents=None, links=(), names=None, **layout):
    """A board with so many devices in registers, on the bus, and quiet. Words and parents are dictionaries by the
    device; the other words hinder nothing. Links are of a consumer and a supplier. The names are d0, d1, ... if none
    are given."""
    n = sum(counts)
    clear = clear_words(n)
    names = names or ["d%d" % i for i in range(n)]
    devices = [device(names[i].encode("ascii"), (parents or {}).get(i, NONE), (words or {}).get(i, clear[i]))
               for i in range(n)]
    return Draft(devices, plain_links(links), counts, **layout)


def board(*arguments, **others):
    """The bytes of such a board."""
    return draft(*arguments, **others).data()


def sheet(n, found=None):
    """A sheet for n devices, with the bytes of a dictionary from a device and a level, and otherwise 0."""
    return cells(found or {}).ljust(4 * n, b"\0")


def row(members):
    """The links that make this row of devices the order: each is the supplier of the next."""
    return [(consumer, supplier) for supplier, consumer in zip(members, members[1:])]


# --- Outcomes ---------------------------------------------------------------

def slept(n):
    return "= slept 0 - - %d" % (4 * n)


def fault(errno, name, phase, taken):
    """The device by its name, or by its number where it has the name d0, d1, ..."""
    return "= fault %d %s %s %d" % (errno, name if isinstance(name, str) else "d%d" % name, PHASES[phase], taken)


def lowerings(order):
    """Device and phase of each lowering, where the devices have this order: docs/RULES.md, "The schedule"."""
    back = order[::-1]
    return ([(device, PREPARE) for device in order] + [(device, SUSPEND) for device in back]
            + [(device, LATE) for device in back] + [(device, NOIRQ) for device in back])


# --- Cases ------------------------------------------------------------------

class Case(NamedTuple):
    note: str
    letter: str           # `r` for a run, `w` for a what-if, `l` for a line of the run's report
    data: bytes           # the board file
    sheet: bytes
    call: tuple = ()      # of a what-if: device, level, byte; of a line: size of the buffer, index
    intent: Optional[tuple] = None    # the lines that are to be answered, or behind "..." the last of them

    @property
    def shape(self):
        """What lists of cases show of it."""
        return self.letter


def told_in(text):
    """The lines of a text with commas between them."""
    return tuple(" ".join(line.split()) for line in text.split(","))


def run(note, data, sheet, text):
    """A run, and all that it is to print."""
    return Case(note, "r", data, sheet, intent=told_in(text))


def ends(note, data, sheet, line):
    """A run, and the last line that it is to print."""
    return Case(note, "r", data, sheet, intent=("...", line))


def refused(note, number, place, data, sheet):
    """A run that is to be refused by a test of the files."""
    return run(note, data, sheet, "! 3 %d %d" % (number, place))


def what_if(note, data, sheet, device, level, byte, text):
    """A what-if, and its outcome or its refusal. The sheet is afterwards as it was."""
    return Case(note, "w", data, sheet, (device, level, byte), (text, "same"))


def given(size):
    """The bytes of a buffer of this size before the call."""
    return bytes((7 * i + 3) % 256 for i in range(size))


def line(note, data, sheet, size, index, text):
    """A line, and what is to be written, or the line of the refusal by the buffer or by the index."""
    before = given(size)
    if text.startswith("!"):
        return Case(note, "l", data, sheet, (size, index), (text, before.hex()))
    written = text.encode("ascii")
    return Case(note, "l", data, sheet, (size, index), ("%d" % len(text), (written + before[len(written):]).hex()))


def line_of_none(note, data, sheet, size, index, text):
    """A line where the run is to be refused: there is no report, and nothing is told of a buffer."""
    return Case(note, "l", data, sheet, (size, index), (text,))


def left_open(note, letter, data, sheet, call=()):
    """A case made by chance, whose answer the model alone decides."""
    return Case(note, letter, data, sheet, call)
