"""What a board file and its sheet show, in words: how a run of them ends, and what the board is like. It is told from
the bytes and from what the model prints, for the table of model/compare and for choose_folders.py."""

from typing import NamedTuple

import fuldrik
from folders_graphs import circle_words, superior_words

BANKS = ("register", "bus", "quiet")
LONGEST = 4096


class Shown(NamedTuple):
    kind: str             # `slept`, `fault`, `refused` with the number, or of a board alone `read`
    ending: str           # the kind, and who refuses in which phase and for what, or which condition is broken
    size: str
    length: str
    layout: str
    superiors: str
    mix: str


def broken(*conditions):
    """The names of those that are broken, of pairs of a name and whether it is."""
    return " and ".join(name for name, found in conditions if found)


# --- Refused with 1 to 4, and 8: the files ----------------------------------

def wrong_length(data, sheet, place):
    if data is None:
        return "a missing file"
    return {0: "an empty file", 15: "a file of 15 bytes", 4097: "a file of 4,097 bytes"}.get(
        len(data), "a file too short" if len(data) < 16 else "a file too long")


def wrong_mark(data, sheet, t):
    return broken(("the mark", data[t:t + 4] != fuldrik.MARK), ("the edition", data[t + 4] != fuldrik.EDITION))


def wrong_counts(data, sheet, t):
    n, m = sum(data[t + 5:t + 8]), fuldrik.number_at(data, t + 8, 2)
    return broken(("no devices", n == 0), ("65 devices", n == 65), ("more devices", n > 65), ("257 links", m == 257),
                  ("more links", m > 257), ("a zero byte", any(data[t + 10:t + 12])))


def wrong_tables(data, sheet, t):
    n, m, d, l = sum(data[t + 5:t + 8]), *(fuldrik.number_at(data, t + place, 2) for place in (8, 12, 14))
    bounds = broken(("D too small", d < 16 * n), ("D too large", d > t), ("L too small", l < 4 * m),
                    ("L too large", l > t))
    if bounds:
        return bounds
    if d - 16 * n <= l - 4 * m and l <= d:
        return "the links inside the devices"
    if l - 4 * m <= d - 16 * n and d <= l:
        return "the devices inside the links"
    return "the links begin in the devices" if l < d else "the links end in the devices"


def wrong_sheet(data, sheet, place):
    if not sheet:
        return "a missing sheet" if sheet is None else "an empty sheet"
    return "a sheet too short" if len(sheet) < 4 * sum(data[-11:-8]) else "a sheet too long"


# --- Refused with 5 and 6: the records --------------------------------------

def wrong_name(field):
    """What is wrong with a name alone, or nothing."""
    length = len(field.split(b"\0")[0])
    name, behind = field[:length], field[length:]
    letters = [fuldrik.is_letter(byte) or fuldrik.is_digit(byte) for byte in name]
    return broken(("no name", not name), ("a name that begins with a digit", name and fuldrik.is_digit(name[0])),
                  ("a name that begins with another byte", name and not letters[0]),
                  ("a name with another byte", not all(letters[1:])), ("a byte behind a name", any(behind)))


def wrong_device(data, sheet, place):
    trailer = fuldrik.read_trailer(data)
    own, record = (place - trailer.device_table) // 16, data[place:place + 16]
    names = [data[at:at + 8] for at in range(trailer.device_table, place, 16)]
    parent = record[8]
    found = [wrong_name(record[:8]), broken(
        ("a repeated name", record[:8] in names), ("itself as parent", parent == own),
        ("n as parent", parent == trailer.n), ("a parent above n", trailer.n < parent < 255),
        ("a zero byte", any(record[9:12])))]
    return several(" and ".join(filter(None, found)))


def wrong_link(data, sheet, place):
    n, (consumer, supplier, *zeros) = fuldrik.read_trailer(data).n, data[place:place + 4]
    return several(broken(
        ("255 for a device", 255 in (consumer, supplier)), ("n for a device", n in (consumer, supplier)),
        ("a device above n", any(n < number < 255 for number in (consumer, supplier))),
        ("itself as supplier", consumer == supplier), ("a zero byte", any(zeros))))


def several(text):
    return "several things" if " and " in text else text


def circle(data, sheet, named):
    trailer = fuldrik.read_trailer(data)
    _, parents, _ = fuldrik.read_devices(data, trailer)
    return circle_words(parents, fuldrik.read_links(data, trailer), named)


CONDITIONS = {1: wrong_length, 2: wrong_mark, 3: wrong_counts, 4: wrong_tables, 5: wrong_device, 6: wrong_link,
              7: circle, 8: wrong_sheet}


# --- Faults -----------------------------------------------------------------

def kind_of(board, device):
    if device < board.register:
        return "a register"
    if device < board.register + board.bus:
        return "the controller" if device == board.register else "a member"
    return "a quiet one"


def blamed(board, sheet, outcome):
    """Who refuses, in which phase, and what for: its cell, its word, or, of a member, its controller."""
    _, errno, name, phase, _ = outcome
    device, level = board.names.index(name), 1 + ("prepare", "suspend", "late", "noirq").index(phase)
    why = "its cell" if sheet[4 * device + level - 1] else "its controller" if errno == "5" else "its word"
    return "%s in %s for %s" % (kind_of(board, device), phase, why)


# --- What the board is like -------------------------------------------------

def size_words(n):
    for least, most in ((1, 1), (2, 5), (6, 13), (14, 62), (63, 63), (64, 64)):
        if least <= n <= most:
            return "%d to %d devices" % (least, most)
    return "another number of devices"


def mix_words(counts):
    return "only " * (sum(map(bool, counts)) == 1) + " and ".join(
        bank for bank, count in zip(BANKS, counts) if count)


def layout_words(data, trailer):
    """Which table is first, whether a gap or none is before, between and behind them, and whether places are odd."""
    t = len(data) - 16
    tables = sorted([(trailer.device_table, 16 * trailer.n, "devices")]
                    + [(trailer.link_table, 4 * trailer.m, "links")] * (trailer.m > 0))
    ends = [0] + [place + size for place, size, _ in tables]
    gaps = ["gap" if place > end else "" for end, place in zip(ends, [place for place, _, _ in tables] + [t])]
    words = [gaps[0]] + [word for (_, _, name), gap in zip(tables, gaps[1:]) for word in (name, gap)]
    words += ["odd" * (trailer.device_table % 4 > 0), empty_table(t, trailer)]
    return ", ".join(filter(None, words))


def empty_table(t, trailer):
    """Where an empty link table stands."""
    if trailer.m:
        return ""
    if trailer.device_table < trailer.link_table < trailer.device_table + 16 * trailer.n:
        return "an empty table inside"
    return "an empty table " + ("first" if trailer.link_table == 0 else "last" if trailer.link_table == t else "else")


def ended(data, sheet, text):
    """Kind and ending; the text is what sleeprun prints, or sleeporder."""
    mark, *words = text.splitlines()[-1].split(" ")
    if mark == "!":
        kind = "refused " + words[1]
        return kind, "%s, %s" % (kind, CONDITIONS[int(words[1])](data, sheet, int(words[2])))
    if mark != "=":
        return "read", "read"
    return words[0], words[0] if words[0] == "slept" else "fault of " + blamed(fuldrik.read_board(data), sheet, words)


def shown(data, sheet, text):
    """What these files show, of which the model prints this text."""
    kind, ending = ended(data, sheet, text)
    size = length = layout = superiors = mix = "-"
    if kind[-1] not in "1234":
        trailer = fuldrik.read_trailer(data)
        size, length = size_words(trailer.n), "4,096 bytes" if len(data) == LONGEST else "fewer bytes"
        layout = layout_words(data, trailer)
        mix = mix_words((trailer.register, trailer.bus, trailer.quiet))
    if kind[-1] not in "1234567":
        superiors = superior_words(fuldrik.read_board(data))
    return Shown(kind, ending, size, length, layout, superiors, mix)
