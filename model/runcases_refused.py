"""Runs that the board file or the sheet refuses, and boards laid out in all ways that are not refused."""

import cases_file
import cases_graph
import cases_record
from making import Chance, put
from runcases_made import three_devices
from runmaking import PREPARE, SUSPEND, board, draft, ends, fault, refused, sheet, slept

GOOD = draft((1, 1, 1), {0: 0x80000000}, {1: 0}, [(2, 0), (2, 1)])
DATA, T = GOOD.data(), GOOD.t                 # 48 + 8 bytes of tables
SHEET = sheet(3)
SHEETS = {"a right sheet": SHEET, "no sheet": b"", "a sheet too short": SHEET[1:], "a sheet too long": SHEET + b"\0",
          "a sheet with cells": bytes([9]) * 12}

# --- Boards that are refused ------------------------------------------------

def wrong_boards():
    """What is wrong, the number and the place, and the file; the last ones have several things wrong at once."""
    yield "no bytes", 1, 0, b""
    yield "15 bytes", 1, 0, DATA[-15:]
    yield "4097 bytes", 1, 0, bytes(4097 - len(DATA)) + DATA
    yield "the mark", 2, T, put(DATA, T, 0x73)
    yield "the edition", 2, T, put(DATA, T + 4, 2)
    yield "no devices", 3, T, GOOD.data(counts=(0, 0, 0))
    yield "65 devices", 3, T, GOOD.data(counts=(0, 65, 0))
    yield "257 links", 3, T, GOOD.data(m=257)
    yield "a zero byte of the trailer", 3, T, GOOD.data(zeros=(0, 1))
    yield "D", 4, T, GOOD.data(d=47)
    yield "L", 4, T, GOOD.data(l=57)
    yield "tables that share a byte", 4, T, GOOD.data(l=9)
    yield "a trailer alone", 4, 0, DATA[T:]
    yield "a name", 5, 16, put(DATA, 16, 0x41)
    yield "a repeated name", 5, 32, put(DATA, 32, *DATA[0:8])
    yield "a parent", 5, 32, put(DATA, 32 + 8, 3)
    yield "a device's zero byte", 5, 0, put(DATA, 10, 1)
    yield "a consumer", 6, 48, put(DATA, 48, 3)
    yield "a supplier", 6, 52, put(DATA, 53, 2)
    yield "a link's zero byte", 6, 52, put(DATA, 55, 255)
    yield "a circle", 7, 0, put(DATA, 48, 0, 1)
    yield "a circle behind device 0", 7, 1, board((1, 1, 1), links=[(1, 2), (2, 1)])
    yield "the mark and a name", 2, T, put(put(DATA, T, 0), 16, 0)
    yield "a count and a name", 3, T, put(GOOD.data(counts=(0, 0, 0)), 16, 0)
    yield "a name and a circle", 5, 16, put(put(DATA, 48, 0, 1), 16, 0)
    yield "a link and a circle", 6, 52, put(put(DATA, 48, 0, 1), 54, 1)


def wrong_board_cases():
    """The refusal is the board's, whatever the sheet is."""
    for what, number, place, data in wrong_boards():
        for which, some_sheet in SHEETS.items() if len(data) < 1000 else [("no sheet", b"")]:
            yield refused("%s, and %s" % (what, which), number, place, data, some_sheet)


def test_board_cases():
    """Some of the test boards: those that are refused with sheets of all lengths, and the others with none."""
    made = [case for part in (cases_file, cases_record, cases_graph) for case in part.cases()]
    chosen = [case for number, case in enumerate(made) if number % 7 == 3 and len(case.data) < 1500]
    for turn, case in enumerate(chosen):
        if case.intent == "read":
            yield refused("board %s, and no sheet" % case.name, 8, 0, case.data, b"")
        else:
            _, _, number, place = case.intent.split()
            yield refused("board " + case.name, int(number), int(place), case.data, bytes(turn % 13))


# --- Sheets that are refused ------------------------------------------------

def wrong_sheet_cases():
    """A good board, and every length around its own; in one byte, some of these would seem right."""
    for counts in ((1, 0, 0), (0, 2, 0), (1, 1, 1), (2, 2, 1), (5, 5, 6), (21, 21, 21), (20, 22, 22)):
        n = sum(counts)
        data = board(counts)
        for length in sorted({0, 1, n, 2 * n, 4 * n - 4, 4 * n - 1, 4 * n + 1, 4 * n + 4, 8 * n, 16 * n, 256,
                              4 * n + 256, 260, 512} - {4 * n}):
            yield refused("%d devices, a sheet of %d bytes" % (n, length), 8, 0, data, bytes(length))
        yield ends("%d devices, a sheet of %d bytes" % (n, 4 * n), data, sheet(n, {(n - 1, 1): 9}),
                   fault(9, n - 1, PREPARE, n - 1))
    for length in (4095, 4096, 4097, 5000):
        yield refused("a sheet of %d bytes" % length, 8, 0, DATA, bytes(length))
    yield refused("a sheet of 11 cells that all hinder", 8, 0, DATA, bytes([9]) * 11)
    yield refused("a sheet of 13 cells that all hinder", 8, 0, DATA, bytes([9]) * 13)
    yield refused("the sheet of a board of two devices", 8, 0, three_devices(), sheet(2, {(1, 2): 110}))
    yield refused("the sheet of a board of four devices", 8, 0, three_devices(), sheet(4, {(1, 2): 110}))
    yield refused("the board as its own sheet", 8, 0, DATA, DATA)


# --- Boards laid out in other ways ------------------------------------------

def layout_cases():
    """The links first, gaps, other places of an empty table: the run is the same."""
    chance = Chance(702)
    n, held = 4, {(1, 2): 33}
    for links in ([(1, 0), (3, 2)], ()):
        for links_first in (False, True):
            for gaps in ((0, 0, 0), (5, 0, 0), (0, 7, 0), (0, 0, 9), (3, 2, 1)):
                before, between, after = (chance.junk(gap) for gap in gaps)
                made = draft((2, 1, 1), None, {3: 1}, links, before=before, between=between, after=after,
                             links_first=links_first)
                yield ends("gaps of %d, %d and %d bytes, %d links%s" % (*gaps, len(links), " first" * links_first),
                           made.data(), sheet(n, held), fault(33, 1, SUSPEND, 6))
    empty = draft((0, 0, 4), before=b"\xFF" * 6)
    for l in (0, 1, 10, empty.t):
        yield ends("no links, L = %d" % l, empty.data(l=l), sheet(n), slept(n))
    for links in ([(2, 1)] * 2, [(2, 1)] * 256, [(2, 1), (2, 0), (2, 1)]):
        yield ends("links %s, and the parent among them" % links[:3], board((0, 3, 0), None, {2: 0}, links), sheet(3),
                   slept(3))
    yield ends("4096 bytes", draft((1, 1, 1), before=bytes(4096 - 64)).data(), sheet(3, {(2, 2): 1}),
               fault(1, 2, SUSPEND, 3))
    yield ends("the least board", board((0, 0, 1), names=["a"]), sheet(1, {(0, 4): 1}), "= fault 1 a noirq 3")


def cases():
    for group in (wrong_board_cases, test_board_cases, wrong_sheet_cases, layout_cases):
        yield from group()
