"""Tools that build banks for the tests, as trees of parts."""

from dataclasses import dataclass

import banks


# --- The parts of a bank ----------------------------------------------------
# Each tells its form and its bytes, and makes the model's bank.

def bytes_of(words):
    return b"".join(word.to_bytes(4, "little") for word in words)


@dataclass(frozen=True)
class Words:
    """A bank that is made of a word for each device and nothing more."""
    words: tuple

    def data(self):
        return bytes([len(self.words)]) + bytes_of(self.words)


class Register(Words):
    form = "register"

    def bank(self):
        return banks.Register(self.words)


class Bus(Words):
    form = "bus"

    def bank(self):
        return banks.Bus(self.words)


class Quiet(Words):
    form = "quiet"

    def bank(self):
        return banks.Quiet(self.words)


@dataclass(frozen=True)
class Free:
    words: tuple
    hindrances: bytes     # 64
    choices: tuple        # of a word and 64 hindrances each
    form = "free"

    def data(self):
        choices = b"".join(bytes_of([word]) + hindrances for word, hindrances in self.choices)
        return (bytes([len(self.words)]) + bytes_of(self.words) + self.hindrances
                + bytes([len(self.choices)]) + choices)

    def bank(self):
        return banks.Free(self.words, self.hindrances, self.choices)


@dataclass(frozen=True)
class Pair:
    left: object
    right: object

    @property
    def form(self):
        return "pair", self.left.form, self.right.form

    def data(self):
        return self.left.data() + self.right.data()

    def bank(self):
        return banks.Pair(self.left.bank(), self.right.bank())


@dataclass(frozen=True)
class Injector:
    below: object
    cells: bytes

    @property
    def form(self):
        return "injector", self.below.form

    def data(self):
        return self.below.data() + len(self.cells).to_bytes(2, "little") + self.cells

    def bank(self):
        return banks.Injector(self.below.bank(), self.cells)


# The place of a form in this list is the number of its shape.
SHAPES = [
    "register",
    "bus",
    "quiet",
    ("pair", "register", "bus"),
    ("pair", ("pair", "register", "bus"), "quiet"),
    ("pair", "register", ("pair", "bus", "quiet")),
    ("injector", "bus"),
    ("injector", ("pair", "register", ("pair", "bus", "quiet"))),     # the bank of a board
    ("injector", ("pair", ("injector", "bus"), ("injector", "register"))),
    ("injector", ("injector", "quiet")),
    "free",
    ("pair", "free", "register"),
    ("injector", "free"),
    ("pair", ("injector", "bus"), "free"),
]

LEAVES = {"register": Register, "bus": Bus, "quiet": Quiet, "free": Free}


def shape_name(form):
    if isinstance(form, str):
        return form
    return "%s(%s)" % (form[0], ", ".join(shape_name(part) for part in form[1:]))


def leaves(form):
    """The kinds of the leaves from left to right."""
    if isinstance(form, str):
        return [form]
    return [leaf for part in form[1:] for leaf in leaves(part)]


def built(form, leaf, cells):
    """A part of this form: `leaf` gives the part of each kind, and `cells` the cells of an injector over so many
    devices. They are asked from left to right, and from below."""
    if isinstance(form, str):
        return leaf(form)
    if form[0] == "pair":
        left = built(form[1], leaf, cells)
        return Pair(left, built(form[2], leaf, cells))
    below = built(form[1], leaf, cells)
    return Injector(below, cells(device_count(below)))


def device_count(part):
    """How many devices the parts have together, also where there are too many for a bank."""
    if isinstance(part, Pair):
        return device_count(part.left) + device_count(part.right)
    if isinstance(part, Injector):
        return device_count(part.below)
    return len(part.words)


# --- Short ways to write parts ----------------------------------------------

def register(*words):
    return Register(words)


def bus(*words):
    return Bus(words)


def quiet(*words):
    return Quiet(words)


def hindrances(found=None):
    """64 hindrances, those of a dictionary from devices, and otherwise 0."""
    return bytes((found or {}).get(device, 0) for device in range(64))


def choice(word=0, found=None):
    return word, hindrances(found)


def free(words, found=None, choices=()):
    return Free(tuple(words), hindrances(found), tuple(choices))


def cells(found):
    """Cells up to the last that is given, by a dictionary from a device and a level; the others are 0."""
    last = max((4 * device + level - 1 for device, level in found), default=-1)
    made = bytearray(last + 1)
    for (device, level), value in found.items():
        made[4 * device + level - 1] = value
    return bytes(made)


def injector(below, found):
    """An injector of a dictionary as `cells` takes it, or of bytes."""
    return Injector(below, cells(found) if isinstance(found, dict) else found)


def clear_words(count, first=0):
    """Words that differ. Those of up to 64 devices hinder none: bit 31 is clear, and the low 8 bits are zero."""
    return tuple((0x10203000 + 0x01010100 * device) % 2 ** 32 for device in range(first, first + count))


def sample(form, sizes, found=None):
    """A part of this form with so many devices in each leaf, none of them hindered; each injector has these cells."""
    sizes = list(sizes)
    firsts = [sum(sizes[:k]) for k in range(len(sizes))]

    def leaf(kind):
        words = clear_words(sizes.pop(0), firsts.pop(0))
        return free(words) if kind == "free" else LEAVES[kind](words)
    return built(form, leaf, lambda count: cells(found or {}))
