"""Folders with a board file and a fault sheet, made by chance: good ones, and ones that are damaged in every way. A
seed and a number make a folder again, whatever others were made before it."""

import hashlib
from typing import NamedTuple

from bankcases_chance import some_errno, thin_bytes
from folders_boards import some_data, some_draft
from folders_damage import DAMAGES, one_of
from making import Chance

SEED = 811                # of the folders that model/compare makes where it is given no other
MISSING = None            # stands in the place of a file that is not there


class Folder(NamedTuple):
    data: bytes           # the board file, or MISSING
    sheet: bytes          # the fault sheet, or MISSING
    note: str             # how the folder was made


# --- The sheet --------------------------------------------------------------

def some_row(chance, n):
    """All cells of one device, or all for one level."""
    cells = bytearray(4 * n)
    device, level, errno = chance.below(n), chance.below(4), some_errno(chance)
    for place in one_of(chance, range(4 * device, 4 * device + 4), range(level, 4 * n, 4)):
        cells[place] = errno
    return bytes(cells)


def some_cells(chance, n):
    """None that hinder; one, of which there are most; a few; a row; or any number."""
    kind = chance.below(12)
    if kind < 5:
        return bytes(4 * n)
    if kind == 5:
        return some_row(chance, n)
    if kind == 6:
        return thin_bytes(chance, 4 * n, one_of(chance, 1, 2, 9, 2 * n))
    cells = bytearray(4 * n)
    for _ in range(1 if kind < 11 else 2 + chance.below(3)):
        cells[chance.below(4 * n)] = some_errno(chance)
    return bytes(cells)


def of_other_length(chance, cells):
    right = len(cells)
    length = one_of(chance, 0, 1, right - 1, right + 1, right - 4, right + 4, right // 4, 2 * right, 256 + right, 4096,
                    4097, 5000, chance.below(300))
    return cells[:length].ljust(length, one_of(chance, b"\0", b"\1"))


def some_sheet(chance, n):
    cells = some_cells(chance, n)
    if chance.below(16) == 0:
        return of_other_length(chance, cells)
    return cells


# --- The folder -------------------------------------------------------------

def said_count(data, otherwise):
    """How many devices the trailer says, where a board may have so many."""
    count = sum(data[-11:-8]) if len(data) >= 16 else 0
    return count if 1 <= count <= 64 else otherwise


def some_files(chance):
    """A board file, half of them damaged, seldom twice; a sheet for it; and the damages by name."""
    draft = some_draft(chance)
    data, damages = some_data(chance, draft), []
    if chance.below(2):
        damages.append(one_of(chance, *DAMAGES))
        data = damages[0](chance, draft, data)
        if chance.below(8) == 0 and len(data) == len(draft.data()):
            damages.append(one_of(chance, *DAMAGES))
            data = damages[1](chance, draft, data)
    sheet = some_sheet(chance, said_count(data, len(draft.devices)))
    return data, sheet, ", ".join(damage.__name__.strip("_") for damage in damages) or "not damaged"


def made(chance):
    data, sheet, note = some_files(chance)
    kind = chance.below(160)
    if kind == 0:
        data = MISSING
    elif kind == 1:
        data = b""
    elif kind < 5:
        sheet = MISSING
    elif kind == 5:
        data = sheet = MISSING
    return Folder(data, sheet, note)


def folder(seed, number):
    mixed = hashlib.sha256(b"%d %d" % (seed, number)).digest()
    return made(Chance(int.from_bytes(mixed[:8], "little")))


def folders(seed, count):
    return (folder(seed, number) for number in range(count))
