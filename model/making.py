"""Tools that build board files for the tests, good ones and damaged ones."""

from dataclasses import dataclass
from typing import NamedTuple, Optional

LETTERS = b"abcdefghijklmnopqrstuvwxyz"
LETTERS_AND_DIGITS = LETTERS + b"0123456789"
NONE = 255                # the number that says "no parent"


class Case(NamedTuple):
    name: str
    data: bytes
    intent: Optional[str]   # "read", or a refusal's line, or None where left open


def read(name, data):
    """A case that is made to be read."""
    return Case(name, data, "read")


def refused(number, place, name, data):
    """A case that is made to be refused, with this number and this place."""
    return Case(name, data, "! 3 %d %d" % (number, place))


def left_open(name, data):
    """A case made by chance, whose outcome the model alone decides."""
    return Case(name, data, None)


class Chance:
    """A small generator of numbers, the same on every machine and in every Python."""

    def __init__(self, seed):
        self.state = seed
        for _ in range(4):
            self.below(2)

    def below(self, limit):
        self.state = (self.state * 6364136223846793005 + 1442695040888963407) % 2 ** 64
        return (self.state >> 33) % limit

    def junk(self, count):
        return bytes(self.below(256) for _ in range(count))

    def mixed(self, count):
        """The numbers below `count` in some order."""
        rest = list(range(count))
        return [rest.pop(self.below(len(rest))) for _ in range(count)]

    def split(self, n):
        """Three counts that add up to n."""
        low, high = sorted([self.below(n + 1), self.below(n + 1)])
        return low, high - low, n - high

    def name(self):
        length = 1 + self.below(8)
        tail = bytes(LETTERS_AND_DIGITS[self.below(36)] for _ in range(length - 1))
        return bytes([LETTERS[self.below(26)]]) + tail

    def names(self, count):
        """That many names, no two the same."""
        names = []
        while len(names) < count:
            name = self.name()
            if name not in names:
                names.append(name)
        return names


def device(name, parent=NONE, word=0, zeros=(0, 0, 0)):
    """A device record. The name may be any bytes, at most 8."""
    assert len(name) <= 8
    return name.ljust(8, b"\0") + bytes([parent]) + bytes(zeros) + word.to_bytes(4, "little")


def link(consumer, supplier, zeros=(0, 0)):
    return bytes([consumer, supplier]) + bytes(zeros)


def trailer(counts, m, d, l, mark=b"SLPB", edition=1, zeros=(0, 0)):
    return (mark + bytes([edition]) + bytes(counts) + m.to_bytes(2, "little") + bytes(zeros)
            + d.to_bytes(2, "little") + l.to_bytes(2, "little"))


@dataclass
class Draft:
    """A board that is laid out: two tables, gaps around them, and a trailer."""
    devices: list              # of device records
    links: list = ()           # of link records
    counts: tuple = None       # devices in registers, on the bus, quiet
    links_first: bool = False  # whether the link table comes first
    before: bytes = b""        # gap before the first table,
    between: bytes = b""       # between the tables,
    after: bytes = b""         # and between the second table and the trailer

    def __post_init__(self):
        devices, links = b"".join(self.devices), b"".join(self.links)
        first, second = (links, devices) if self.links_first else (devices, links)
        self.body = self.before + first + self.between + second + self.after
        self.t = len(self.body)
        first_place = len(self.before)
        second_place = first_place + len(first) + len(self.between)
        places = (first_place, second_place)
        self.link_table, self.device_table = places if self.links_first else places[::-1]
        if self.counts is None:
            self.counts = (len(self.devices), 0, 0)

    def device_place(self, i):
        return self.device_table + 16 * i

    def link_place(self, j):
        return self.link_table + 4 * j

    def data(self, **other):
        """The file; `other` names the trailer's fields that are to differ."""
        fields = dict(counts=self.counts, m=len(self.links),
                      d=self.t - self.device_table, l=self.t - self.link_table)
        fields.update(other)
        return self.body + trailer(**fields)


def put(data, place, *values):
    """The same bytes with these values from `place` on."""
    assert 0 <= place and place + len(values) <= len(data)
    return data[:place] + bytes(values) + data[place + len(values):]


def plain_devices(n, parents=None, words=None):
    """Records with the names d0, d1, ..."""
    return [device(b"d%d" % i,
                   NONE if parents is None else parents[i],
                   0 if words is None else words[i]) for i in range(n)]


def plain_links(pairs):
    return [link(consumer, supplier) for consumer, supplier in pairs]


def any_links(chance, n, m):
    """That many links from higher to lower numbers, so without a circle."""
    pairs = []
    for _ in range(m):
        consumer = 1 + chance.below(n - 1)
        pairs.append((consumer, chance.below(consumer)))
    return plain_links(pairs)


def any_draft(chance, parents, pairs):
    """A board with these superiors, and all the rest of it by chance."""
    n = len(parents)
    names = chance.names(n)
    words = [int.from_bytes(chance.junk(4), "little") for _ in range(n)]
    devices = [device(names[i], parents[i], words[i]) for i in range(n)]
    gaps = [chance.junk(chance.below(3) * chance.below(14)) for _ in range(3)]
    return Draft(devices, plain_links(pairs), chance.split(n), chance.below(2) == 1, *gaps)
