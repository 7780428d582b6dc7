"""Runs, what-ifs and lines made by chance: boards of all sizes, good and damaged, and sheets of all kinds."""

from bankcases_chance import any_word, free_word, some_errno, thin_bytes
from cases_chance import falling_graph, free_graph
from making import Chance, Draft, device, plain_links, put
from runmaking import OUTCOME, left_open


# --- Boards -----------------------------------------------------------------

def some_size(chance):
    """Mostly a few devices, seldom many."""
    kind = chance.below(24)
    if kind == 0:
        return 14 + chance.below(51)
    return 6 + chance.below(8) if kind < 4 else 1 + chance.below(5)


def some_draft(chance, n):
    """A board of n devices, mostly without a circle. The words hinder nowhere, in a few places, or in most."""
    mood = chance.below(3)
    graph = free_graph if n > 1 and chance.below(12) == 0 else falling_graph
    parents, pairs = graph(chance, n, chance.below(min(256, 2 * n) + 1))
    words = [(any_word if mood and chance.below(3 * n) < mood * mood else free_word)(chance) for _ in range(n)]
    records = [device(name, parent, word) for name, parent, word in zip(chance.names(n), parents, words)]
    gaps = [chance.junk(chance.below(3) * chance.below(9)) for _ in range(3)]
    return Draft(records, plain_links(pairs), chance.split(n), chance.below(2) == 1, *gaps)


def damaged(chance, data):
    """The file with a few bytes changed, cut off, or added."""
    kind = chance.below(6)
    if kind == 0:
        return data[:chance.below(len(data))]
    if kind == 1:
        return data[chance.below(16):]
    if kind == 2:
        return chance.junk(1 + chance.below(20)) + data + chance.junk(chance.below(3))
    for _ in range(1 + chance.below(3)):
        data = put(data, chance.below(len(data)), chance.below(256))
    return data


# --- Sheets -----------------------------------------------------------------

def some_sheet(chance, n):
    """Mostly of the right length; with no cells that hinder, with one or two, or with many."""
    kind, length = chance.below(5), 4 * n
    if chance.below(10) == 0:
        length = (0, length + 1, length - 1, chance.below(260), 4 * chance.below(65))[chance.below(5)]
    if kind == 0:
        return bytes(length)
    if kind == 4:
        return thin_bytes(chance, length, 2 + chance.below(20))
    made = bytearray(length)
    for _ in range(kind if length else 0):
        made[chance.below(length)] = some_errno(chance)
    return bytes(made)


def some_files(chance):
    """A board file and a sheet, and how many devices the board was made with."""
    n = some_size(chance)
    data = some_draft(chance, n).data()
    if chance.below(8) == 0:
        data = damaged(chance, data)
    return data, some_sheet(chance, n), n


# --- Cases ------------------------------------------------------------------

def some_what_if(chance, n):
    """Mostly a cell of the board."""
    some_device = chance.below(n) if chance.below(8) else (n, chance.below(256))[chance.below(2)]
    level = 1 + chance.below(4) if chance.below(8) else (0, 5, chance.below(256))[chance.below(3)]
    return some_device, level, chance.below(3) and some_errno(chance)


def some_line(chance, n):
    size = 32 + chance.below(20) if chance.below(6) else (31, chance.below(256))[chance.below(2)]
    index = (chance.below(2 * n + 1), chance.below(8 * n + 2), OUTCOME, OUTCOME - chance.below(9))[chance.below(4)]
    return size, index


def some_case(chance):
    data, sheet, n = some_files(chance)
    letter = "rrwwl"[chance.below(5)]
    call = some_what_if(chance, n) if letter == "w" else some_line(chance, n) if letter == "l" else ()
    return left_open("chance, %d devices" % n, letter, data, sheet, call)


def more_cases(seed, total):
    """So many others, for a comparison."""
    chance = Chance(seed)
    for _ in range(total):
        yield some_case(chance)


def cases():
    return more_cases(703, 300)
