"""Reference model of Fuldrik: board files, refusals, and the order of devices.

It follows docs/FORMATS.md, docs/REFUSALS.md and docs/RULES.md rule by rule, and
is written to be read beside them. Nothing here is meant to be fast.
"""

from dataclasses import dataclass

FILES = 3                 # the layer of files and programs

TRAILER_BYTES = 16
DEVICE_BYTES = 16
LINK_BYTES = 4
MOST_BYTES = 4096
MOST_DEVICES = 64
MOST_LINKS = 256
MARK = bytes([0x53, 0x4C, 0x50, 0x42])
EDITION = 1
NO_PARENT = 255


class Refused(Exception):
    """A call or a file that cannot be obeyed: who refused, under which number, and where."""

    def __init__(self, layer, number, place):
        super().__init__(layer, number, place)
        self.layer = layer
        self.number = number
        self.place = place

    def line(self):
        return "! %d %d %d" % (self.layer, self.number, self.place)


@dataclass
class Board:
    names: list       # of str
    parents: list     # of int, or None for no parent
    words: list       # of int
    register: int     # how many devices sit in registers,
    bus: int          # on the bus,
    quiet: int        # and how many are quiet
    links: list       # of (consumer, supplier), as in the file
    superiors: list   # of lists of int, rising, each superior once
    order: list       # of int


@dataclass
class Trailer:
    register: int
    bus: int
    quiet: int
    n: int              # how many devices
    m: int              # how many links
    device_table: int   # the place of device record 0
    link_table: int     # the place of link record 0


def number_at(data, place, size):
    """The number in `size` bytes, the low byte first."""
    value = 0
    for k in range(size):
        value += data[place + k] * 256 ** k
    return value


# --- Tests 1 to 4: the length and the trailer -------------------------------

def test_length(data):
    """Test 1: 16 to 4,096 bytes."""
    if len(data) < TRAILER_BYTES or len(data) > MOST_BYTES:
        raise Refused(FILES, 1, 0)


def test_mark(data, t):
    """Test 2: the mark and the edition."""
    if data[t:t + 4] != MARK or data[t + 4] != EDITION:
        raise Refused(FILES, 2, t)


def test_counts(data, t):
    """Test 3: 1 to 64 devices, at most 256 links, two zero bytes."""
    n = data[t + 5] + data[t + 6] + data[t + 7]
    m = number_at(data, t + 8, 2)
    zeros = data[t + 10:t + 12]
    if n < 1 or n > MOST_DEVICES or m > MOST_LINKS or any(zeros):
        raise Refused(FILES, 3, t)


def test_tables(data, t):
    """Test 4: each table has room in front of the trailer, and they share no byte."""
    n = data[t + 5] + data[t + 6] + data[t + 7]
    m = number_at(data, t + 8, 2)
    d = number_at(data, t + 12, 2)
    l = number_at(data, t + 14, 2)
    if not DEVICE_BYTES * n <= d <= t:
        raise Refused(FILES, 4, t)
    if not LINK_BYTES * m <= l <= t:
        raise Refused(FILES, 4, t)
    # Without links no byte is in a link record, so nothing can be shared.
    of_devices = set(range(t - d, t - d + DEVICE_BYTES * n))
    of_links = set(range(t - l, t - l + LINK_BYTES * m))
    if of_devices & of_links:
        raise Refused(FILES, 4, t)


def read_trailer(data):
    """The trailer, after the tests 1 to 4."""
    test_length(data)
    t = len(data) - TRAILER_BYTES
    test_mark(data, t)
    test_counts(data, t)
    test_tables(data, t)
    register, bus, quiet = data[t + 5], data[t + 6], data[t + 7]
    return Trailer(
        register=register, bus=bus, quiet=quiet, n=register + bus + quiet,
        m=number_at(data, t + 8, 2),
        device_table=t - number_at(data, t + 12, 2),
        link_table=t - number_at(data, t + 14, 2))


# --- Test 5: the device records ---------------------------------------------

def is_letter(byte):
    return ord("a") <= byte <= ord("z")


def is_digit(byte):
    return ord("0") <= byte <= ord("9")


def name_in(field):
    """The name in these 8 bytes, or None if they hold none."""
    length = 0
    while length < 8 and field[length] != 0:
        length += 1
    name, padding = field[:length], field[length:]
    if length == 0 or any(padding):
        return None
    if not is_letter(name[0]):
        return None
    if not all(is_letter(byte) or is_digit(byte) for byte in name):
        return None
    return name.decode("ascii")


def parent_is_right(parent, own, n):
    """None, or another device of the board."""
    return parent == NO_PARENT or (parent < n and parent != own)


def read_device(record, own, n, earlier_names):
    """Name, parent and word of device `own`, or None if its record is wrong."""
    name = name_in(record[0:8])
    if name is None or name in earlier_names:
        return None
    parent = record[8]
    if not parent_is_right(parent, own, n):
        return None
    if any(record[9:12]):
        return None
    return name, None if parent == NO_PARENT else parent, number_at(record, 12, 4)


def read_devices(data, trailer):
    """Names, parents and words by rising number, up to the first wrong record."""
    names, parents, words = [], [], []
    for i in range(trailer.n):
        place = trailer.device_table + DEVICE_BYTES * i
        device = read_device(data[place:place + DEVICE_BYTES], i, trailer.n, names)
        if device is None:
            raise Refused(FILES, 5, place)
        names.append(device[0])
        parents.append(device[1])
        words.append(device[2])
    return names, parents, words


# --- Test 6: the link records -----------------------------------------------

def link_is_right(record, n):
    """Two devices of the board that differ, then two zero bytes."""
    consumer, supplier = record[0], record[1]
    return consumer < n and supplier < n and consumer != supplier and not any(record[2:4])


def read_links(data, trailer):
    """The links by rising number, up to the first wrong record."""
    links = []
    for j in range(trailer.m):
        place = trailer.link_table + LINK_BYTES * j
        record = data[place:place + LINK_BYTES]
        if not link_is_right(record, trailer.n):
            raise Refused(FILES, 6, place)
        links.append((record[0], record[1]))
    return links


# --- Test 7: superiors and the order ----------------------------------------

def superiors_of(device, parents, links):
    """The parent and the suppliers of a device by rising number, each once."""
    found = set()
    if parents[device] is not None:
        found.add(parents[device])
    for consumer, supplier in links:
        if consumer == device:
            found.add(supplier)
    return sorted(found)


def order_of(n, superiors):
    """The order, made from the front, or None if some place cannot be filled."""
    order = []
    while len(order) < n:
        ready = [d for d in range(n)
                 if d not in order and all(s in order for s in superiors[d])]
        if not ready:
            return None
        order.append(min(ready))
    return order


def reached_from(device, superiors):
    """The devices that chains from this one come to, in one step or more."""
    reached = set()
    waiting = list(superiors[device])
    while waiting:
        s = waiting.pop()
        if s not in reached:
            reached.add(s)
            waiting.extend(superiors[s])
    return reached


def endless_devices(n, superiors):
    """The devices from which some chain never ends, by rising number.

    There are finitely many devices, so a chain that never ends comes to some
    device twice: that one reaches itself. This does not look at the order.
    """
    reached = [reached_from(d, superiors) for d in range(n)]
    in_circle = {d for d in range(n) if d in reached[d]}
    return [d for d in range(n) if d in in_circle or reached[d] & in_circle]


def order_or_refusal(n, superiors):
    """The order, or refusal 7 with the device that it names."""
    order = order_of(n, superiors)
    endless = endless_devices(n, superiors)
    assert (order is None) == bool(endless), "the two ways to find a circle disagree"
    if endless:
        raise Refused(FILES, 7, min(endless))
    return order


# --- The whole --------------------------------------------------------------

def read_board(data):
    """The board in these bytes; raises Refused by the first test that fails."""
    trailer = read_trailer(data)
    names, parents, words = read_devices(data, trailer)
    links = read_links(data, trailer)
    superiors = [superiors_of(d, parents, links) for d in range(trailer.n)]
    order = order_or_refusal(trailer.n, superiors)
    return Board(names, parents, words, trailer.register, trailer.bus, trailer.quiet,
                 links, superiors, order)


def listing_lines(board):
    """For each device in the order: its name, then the names of its superiors."""
    return [" ".join([board.names[d]] + [board.names[s] for s in board.superiors[d]])
            for d in board.order]


def listing(board):
    """What `sleeporder` prints for this board."""
    return "".join(line + "\n" for line in listing_lines(board))


def report(board):
    """All that was read from the file, then the listing, for comparisons."""
    lines = ["banks %d %d %d" % (board.register, board.bus, board.quiet)]
    for name, parent, word in zip(board.names, board.parents, board.words):
        lines.append("device %s %s %d" % (name, "-" if parent is None else parent, word))
    for consumer, supplier in board.links:
        lines.append("link %d %d" % (consumer, supplier))
    for line in listing_lines(board):
        lines.append("order " + line)
    return "".join(line + "\n" for line in lines)
